"""A device as tests/blip.py has it, but that its WebSocket is of the package `websockets` (Debian: python3-websockets). Prints what came of a
push, a pull and the close.

    stock.py PORT SUBPROTOCOL COOKIE DOCUMENT"""
import asyncio
import json
import sys

import websockets

sys.dont_write_bytecode = True
import blip

SECONDS = 20


class Wire:
    """The package's connection, with the calls of `blip.WebSocket`."""

    def __init__(self, port, protocol, cookie):
        self.loop = asyncio.new_event_loop()
        self.connection = self.done(self.opened(f"ws://127.0.0.1:{port}/db/_blipsync", protocol, cookie))
        if self.connection.subprotocol != protocol:
            sys.exit(f"stock: the gateway took {self.connection.subprotocol}")

    async def opened(self, path, protocol, cookie):
        return await websockets.connect(path, subprotocols=[protocol], extra_headers={"Cookie": cookie}, compression=None)

    def done(self, call):
        return self.loop.run_until_complete(asyncio.wait_for(call, SECONDS))

    def send_frame(self, _, data):
        self.done(self.connection.send(data))

    def receive(self):
        return self.done(self.connection.recv())

    def close(self):
        self.done(self.connection.close())
        return self.connection.close_code


def main():
    port, protocol, cookie, doc = sys.argv[1:]
    print(json.dumps(blip.Device(port, wire=Wire(port, protocol, cookie)).whole_session(doc)))


main()
