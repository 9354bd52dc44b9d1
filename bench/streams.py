#!/usr/bin/env python3
"""How fast `session` takes a stream through a pipe, whatever its fragments and however it is cut.

Two streams behind one bind: calls of fragments of 5,840 bytes (22 to a call), and requests of 64 bytes. Each is
written to the program in pieces of 4,096, 64 and 1 bytes, and once at twice the length, whose time is to be about
twice. For each run it prints the length, the seconds, the MB/s and the most memory that the program held.
"""
import os
import pathlib
import struct
import subprocess
import sys
import time

TOP = pathlib.Path(__file__).resolve().parent.parent
PROGRAM = TOP / "crates" / "mscs" / "out" / "mscs"
BIND = (TOP / "examples" / "bind.stream").read_bytes()


def request(call_id, flags, size):
    stub = bytes(size - 24)
    return (
        bytes([5, 0, 0, flags, 0x10, 0, 0, 0])
        + struct.pack("<HHI", size, 0, call_id)
        + struct.pack("<IHH", 0, 0, 27)
        + stub
    )


def fragments(length):
    """Calls of 22 fragments: 127,952 bytes of stub each."""
    flags = [1] + [0] * 20 + [2]
    call = b"".join(request(2, flag, 5840) for flag in flags)
    return BIND + call * (length // len(call))


def requests(length):
    return BIND + request(2, 3, 64) * (length // 64)


def most_memory(pid):
    """The most resident memory that the process has held so far, in KiB."""
    for line in pathlib.Path(f"/proc/{pid}/status").read_text().splitlines():
        if line.startswith("VmHWM"):
            return int(line.split()[1])
    return 0


def run(stream, piece):
    reading, writing = os.pipe()
    begin = time.perf_counter()
    program = subprocess.Popen([PROGRAM, "session"], stdin=reading, stdout=subprocess.DEVNULL)
    os.close(reading)
    view = memoryview(stream)
    for at in range(0, len(stream), piece):
        os.write(writing, view[at : at + piece])
    memory = most_memory(program.pid)
    os.close(writing)
    if program.wait() != 0:
        sys.exit(f"session ended with status {program.returncode}")
    return time.perf_counter() - begin, memory


def main():
    # The launcher builds the program where that is needed.
    subprocess.run([TOP / "mscs", "session"], input=BIND, stdout=subprocess.DEVNULL, check=True)
    for name, make in [("fragments of 5,840 bytes", fragments), ("requests of 64 bytes", requests)]:
        for piece, length in [(4096, 16), (4096, 32), (64, 16), (1, 2), (1, 4)]:
            stream = make(length * 1_000_000)
            seconds, memory = run(stream, piece)
            print(
                f"{name}, pieces of {piece}: {len(stream)} bytes in {seconds:.2f} s, "
                f"{len(stream) / seconds / 1e6:.1f} MB/s, {memory} KiB at the most"
            )


main()
