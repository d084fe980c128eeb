"""A device for tests of the gateway: WebSocket and BLIP, by Python's standard library alone. Payloads, checksums and pieces are those of
examples/record."""
import base64
import hashlib
import importlib.machinery
import importlib.util
import json
import os
import socket
import struct

TOP = os.path.dirname(os.path.dirname(os.path.abspath(__file__)))
GUID = "258EAFA5-E914-47DA-95CA-C5AB0DC85B11"
MSG, RPY, ERR = 0, 1, 2
NO_REPLY, MORE_COMING = 0x20, 0x40
ACK_EVERY = 50_000


def recorder():
    loader = importlib.machinery.SourceFileLoader("record", os.path.join(TOP, "examples", "record"))
    module = importlib.util.module_from_spec(importlib.util.spec_from_loader("record", loader))
    loader.exec_module(module)
    return module


record = recorder()


class Closed(Exception):
    """The connection ended: with a close frame of this code, or with None without one."""

    def __init__(self, code):
        super().__init__(f"closed with {code}")
        self.code = code


def head_of(path="/db/_blipsync", protocol="BLIP_3+CBMobile_3", cookie="SyncGatewaySession=s1", key=None):
    """The head of a request for a WebSocket, and its key."""
    key = key or base64.b64encode(os.urandom(16)).decode()
    lines = [f"GET {path} HTTP/1.1", "Host: localhost", "Connection: Upgrade", "Upgrade: websocket", "Sec-WebSocket-Version: 13", f"Sec-WebSocket-Key: {key}"]
    lines += [f"Sec-WebSocket-Protocol: {protocol}"] if protocol else []
    lines += [f"Cookie: {cookie}"] if cookie else []
    return "".join(line + "\r\n" for line in lines + [""]).encode(), key


def answer_to(port, head, timeout=10):
    """All that the gateway writes in answer to a head, up to the end of the connection."""
    with socket.create_connection(("127.0.0.1", port), timeout) as connection:
        connection.sendall(head)
        answer = b""
        while piece := connection.recv(4096):
            answer += piece
        return answer


class WebSocket:
    """A connection that was upgraded. Frames that are sent are masked, as a device's are."""

    def __init__(self, port, connection=None, timeout=20, **asked):
        self.connection = connection or socket.create_connection(("127.0.0.1", port), timeout)
        self.connection.settimeout(timeout)
        head, key = head_of(**asked)
        self.connection.sendall(head)
        self.reader = self.connection.makefile("rb")
        self.answer = b""
        while not self.answer.endswith(b"\r\n\r\n"):
            line = self.reader.readline()
            if not line:
                raise Closed(None)
            self.answer += line
        accept = base64.b64encode(hashlib.sha1((key + GUID).encode()).digest())
        if not self.answer.startswith(b"HTTP/1.1 101 ") or accept not in self.answer:
            raise Closed(None)

    def send_frame(self, opcode, data, masked=True):
        mask = os.urandom(4) if masked else b""
        flag = 0x80 if masked else 0
        size = len(data)
        if size < 126:
            head = struct.pack(">BB", 0x80 | opcode, flag | size)
        elif size < 65_536:
            head = struct.pack(">BBH", 0x80 | opcode, flag | 126, size)
        else:
            head = struct.pack(">BBQ", 0x80 | opcode, flag | 127, size)
        if masked:
            whole = int.from_bytes(data, "big") ^ int.from_bytes((mask * (size // 4 + 1))[:size], "big")
            data = whole.to_bytes(size, "big")
        self.connection.sendall(head + mask + data)

    def exactly(self, count):
        data = self.reader.read(count)
        if len(data) < count:
            raise Closed(None)
        return data

    def receive(self):
        """The bytes of the next binary message; the gateway sends each in one frame. Pings are answered."""
        while True:
            first, size = self.exactly(2)
            size = {126: lambda: int.from_bytes(self.exactly(2), "big"), 127: lambda: int.from_bytes(self.exactly(8), "big")}.get(size, lambda: size)()
            data = self.exactly(size)
            if first == 0x82:
                return data
            if first == 0x88:
                raise Closed(int.from_bytes(data[:2], "big") if data else 1005)
            if first == 0x89:
                self.send_frame(10, data)

    def close(self):
        """Closes as a device does, and gives the code that the gateway closes with."""
        try:
            self.send_frame(8, (1000).to_bytes(2, "big"))
            while True:
                self.receive()
        except Closed as closed:
            return closed.code
        finally:
            self.connection.close()


class Device:
    """A session of a device: it pushes and pulls, wants each row's body, and keeps what it is sent."""

    def __init__(self, port, wire=None, **asked):
        self.socket = wire or WebSocket(port, **asked)
        self.frames = record.Frames()
        self.number = 0
        self.open = {}
        self.owed = {}
        self.replies = {}
        self.rows = []
        self.docs = {}
        self.caught_up = 0

    def send(self, number, flags, pairs, body):
        for frame in self.frames.of(number, flags, record.payload(pairs, body)):
            self.socket.send_frame(2, frame)

    def ask(self, profile, body="", silent=False, **properties):
        self.number += 1
        self.send(self.number, NO_REPLY if silent else 0, [("Profile", profile), *properties.items()], body)
        return self.number

    def step(self):
        self.take(self.socket.receive())

    def take(self, frame):
        """Takes a frame; where that makes a message whole, does what a device does with it."""
        number, rest = record.take_varint(frame)
        flags, rest = record.take_varint(rest)
        kind = flags & 7
        if kind > 3:
            return
        whole = self.open.pop((kind, number), b"") + rest[:-4]
        if flags & MORE_COMING:
            self.open[kind, number] = whole
            if len(whole) - self.owed.get((kind, number), 0) >= ACK_EVERY:
                self.owed[kind, number] = len(whole)
                self.socket.send_frame(2, record.varint(number) + record.varint(0x34 + kind) + record.varint(len(whole)))
            return
        length, rest = record.take_varint(whole)
        texts = rest[:length].decode().split("\0")[:-1]
        properties, body = dict(zip(texts[::2], texts[1::2])), rest[length:]
        if kind in (RPY, ERR):
            self.replies[number] = (kind, properties, body)
        elif properties["Profile"] == "changes":
            rows = json.loads(body)
            self.rows += rows
            self.caught_up += not rows
            if not flags & NO_REPLY:
                self.send(number, RPY, [], json.dumps([[] for _ in rows]))
        elif properties["Profile"] == "rev":
            self.docs[properties["id"]] = (properties["rev"], json.loads(body))
            if not flags & NO_REPLY:
                self.send(number, RPY, [], "")

    def until(self, is_so):
        while not is_so():
            self.step()

    def reply(self, number):
        self.until(lambda: number in self.replies)
        return self.replies.pop(number)

    def push(self, doc, rev, body, **properties):
        return self.reply(self.ask("rev", body, id=doc, rev=rev, **properties))

    def pull(self, since="0", **properties):
        """Pulls up to the feed's end."""
        before = self.caught_up
        kind, _, _ = self.reply(self.ask("subChanges", since=since, **properties))
        self.until(lambda: kind == ERR or (self.caught_up > before and len(self.docs) >= len({row[1] for row in self.rows if len(row) < 4})))
        return kind

    def get_checkpoint(self, client):
        return self.reply(self.ask("getCheckpoint", client=client))

    def set_checkpoint(self, client, body, **properties):
        return self.reply(self.ask("setCheckpoint", body, client=client, **properties))

    def close(self):
        return self.socket.close()

    def whole_session(self, doc):
        """Pushes a document, pulls, and closes: what came of each."""
        kind, _, _ = self.push(doc, "1-a", '{"channels":["B"]}')
        self.pull()
        return [kind, {name: list(shown) for name, shown in self.docs.items()}, self.close()]
