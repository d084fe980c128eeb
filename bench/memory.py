"""How much memory programs hold."""
import os
import subprocess
import sys


def held(number, program):
    """The most kibibytes that a running process of this program held at once so far; 0 where it has ended or not begun."""
    try:
        if os.readlink(f"/proc/{number}/exe") == program:
            with open(f"/proc/{number}/status") as status:
                for line in status:
                    if line.startswith("VmHWM:"):
                        return int(line.split()[1])
    except (FileNotFoundError, ProcessLookupError):
        pass
    return 0


def peak(runs, program, *words):
    """The most kibibytes that a program was seen to hold at once in one of so many runs, and what it prints. What it takes behind the last
    look at it is not seen."""
    most = 0
    for _ in range(runs):
        child = subprocess.Popen([program, *map(str, words)], stdout=subprocess.PIPE, text=True)
        while child.poll() is None:
            most = max(most, held(child.pid, program))
        out = child.stdout.read()
        if child.returncode != 0:
            sys.exit(f"{program} {words} ended with {child.returncode}")
    return most, out.strip()
