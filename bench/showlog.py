#!/usr/bin/env python3
"""How fast `showlog` reads a log.

It makes two images in a folder of its own: one with 10,000 records, and one with a state of nearly 16 MiB, each in
a half of the greatest cap. For each it prints the best and the median of some runs with the output thrown away, how
many bytes of the image the program read, and MB/s.
"""
import pathlib
import statistics
import struct
import subprocess
import sys
import tempfile
import time

from images import image, name, value

TOP = pathlib.Path(__file__).resolve().parent.parent
PROGRAM = TOP / "crates" / "mscs" / "out" / "mscs"
RUNS = 20


def record(place):
    """A Create of the key `A` below the root."""
    update = b"\1" + name("") + struct.pack("<Q", 0) + name("A")
    return struct.pack("<QQHQQ", place, 0, 1, 1, place) + update


def state(values):
    """A root with these values and no subkeys."""
    return struct.pack("<QI", 0, len(values)) + b"".join(values) + struct.pack("<I", 0)


def measure(title, log):
    with tempfile.TemporaryDirectory() as folder:
        (pathlib.Path(folder) / "quorum.log").write_bytes(log)
        times = []
        for _ in range(RUNS):
            begin = time.perf_counter()
            done = subprocess.run([PROGRAM, "showlog"], cwd=folder, stdout=subprocess.DEVNULL)
            times.append(time.perf_counter() - begin)
            if done.returncode != 0:
                sys.exit(f"showlog ended with status {done.returncode}")
    best = min(times)
    print(
        f"{title}: best {best * 1e3:.1f} ms, median {statistics.median(times) * 1e3:.1f} ms of {RUNS} runs, "
        f"an image of {len(log)} bytes, {len(log) / best / 1e6:.0f} MB/s"
    )


def main():
    measure("10,000 records", image(state([]), [record(place) for place in range(1, 10_001)]))
    values = [value(f"value{number:03}", bytes(49_152)) for number in range(340)]
    measure("a state of 340 values", image(state(values), []))


main()
