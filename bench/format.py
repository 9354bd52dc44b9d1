#!/usr/bin/env python3
"""How long `format` takes, and which calls of the system it makes.

For the least and the greatest cap it prints the best and the median of 40 runs in a new folder and of 40 over
the log that the run before made, with the size of the file; then, where `strace` is there, how many calls on
files one run makes, on a new folder and over a log.
"""
import collections
import os
import pathlib
import re
import shutil
import statistics
import subprocess
import tempfile
import time

TOP = pathlib.Path(__file__).resolve().parent.parent
PROGRAM = TOP / "crates" / "mscs" / "out" / "mscs"
RUNS = 40
CALLS = "pwrite64,pread64,fdatasync,fsync,openat,write"


def run_once(folder, cap):
    begin = time.perf_counter()
    subprocess.run([PROGRAM, "format", str(cap)], cwd=folder, check=True)
    return time.perf_counter() - begin


def times(cap, is_new):
    taken = []
    with tempfile.TemporaryDirectory(dir=os.getcwd()) as folder:
        log = pathlib.Path(folder) / "quorum.log"
        if not is_new:
            run_once(folder, cap)
        for _ in range(RUNS):
            if is_new:
                log.unlink(missing_ok=True)
            taken.append(run_once(folder, cap) * 1e3)
        return min(taken), statistics.median(taken), log.stat().st_size


def calls(folder, cap):
    trace = pathlib.Path(folder) / "trace"
    subprocess.run(
        ["strace", "-f", "-o", trace, "-e", f"trace={CALLS}", PROGRAM, "format", str(cap)],
        cwd=folder, check=True)
    counts = collections.Counter()
    for line in trace.read_text().splitlines():
        name = re.search(r"(\w+)\(", line)
        if name and (name[1] != "openat" or "quorum.log" in line or '"."' in line):
            counts[name[1]] += 1
    return ", ".join(f"{count} {name}" for name, count in sorted(counts.items()))


def main():
    # The launcher builds the program where that is needed.
    subprocess.run([TOP / "mscs", "session"], stdin=subprocess.DEVNULL, check=True)
    for cap in (4096, 16_777_216):
        for is_new in (True, False):
            best, median, size = times(cap, is_new)
            where = "in a new folder" if is_new else "over a log"
            print(f"format {cap} {where}: best {best:.2f} ms, median {median:.2f} ms, file of {size} bytes")
    if shutil.which("strace"):
        with tempfile.TemporaryDirectory(dir=os.getcwd()) as folder:
            print(f"calls in a new folder: {calls(folder, 16_777_216)}")
            print(f"calls over a log: {calls(folder, 16_777_216)}")


main()
