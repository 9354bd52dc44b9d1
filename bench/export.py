#!/usr/bin/env python3
"""How fast `export` prints a registry.

It makes two images in a folder of its own, both in the greatest cap: one with a state of 100,000 keys with a value
each, and one with a tenth of them. For each it prints the best and the median of some runs with the output thrown
away, and the greatest memory of one. Beside it stands what `sqlite3` takes to dump a table of as many rows, where that
program is installed.
"""
import os
import pathlib
import shutil
import statistics
import struct
import subprocess
import sys
import tempfile
import time

from images import image, name, value

TOP = pathlib.Path(__file__).resolve().parent.parent
PROGRAM = TOP / "crates" / "mscs" / "out" / "mscs"
RUNS = 10


def subkey(number):
    """A key with one value, which the record of that number made."""
    text = f"key{number:06}"
    return name(text) + struct.pack("<QI", number, 1) + value("V", struct.pack("<I", number)) + struct.pack("<I", 0)


def state(count):
    """A root with so many subkeys."""
    subkeys = b"".join(subkey(number) for number in range(1, count + 1))
    return struct.pack("<QII", 0, 0, count) + subkeys


def timed(words, folder):
    """The best and the median time of the runs, and the greatest memory of one in bytes."""
    times, memory = [], 0
    for _ in range(RUNS):
        begin = time.perf_counter()
        process = subprocess.Popen(words, cwd=folder, stdout=subprocess.DEVNULL)
        _, status, usage = os.wait4(process.pid, 0)
        times.append(time.perf_counter() - begin)
        memory = max(memory, usage.ru_maxrss * 1024)
        if status != 0:
            sys.exit(f"{words[0]} ended with status {status}")
    return min(times), statistics.median(times), memory


def tell(title, measured):
    best, median, memory = measured
    print(f"{title}: best {best * 1e3:.1f} ms, median {median * 1e3:.1f} ms of {RUNS} runs, {memory / 1e6:.1f} MB of memory")


def table(path, count):
    rows = "".join(f"insert into registry values ('key{number:06}', 'V', 3, x'{number:08x}');" for number in range(1, count + 1))
    script = f"create table registry (key text, name text, type integer, data blob); begin; {rows} commit;"
    subprocess.run(["sqlite3", path], input=script.encode(), check=True)


def main():
    for count in (10_000, 100_000):
        with tempfile.TemporaryDirectory() as folder:
            (pathlib.Path(folder) / "quorum.log").write_bytes(image(state(count), []))
            tell(f"export of {count:,} keys", timed([PROGRAM, "export"], folder))
            if shutil.which("sqlite3"):
                table(pathlib.Path(folder) / "table", count)
                tell(f"sqlite3 .dump of {count:,} rows", timed(["sqlite3", "table", ".dump"], folder))


main()
