#!/usr/bin/env python3
"""How long `session` takes for a bind and many requests behind it.

For each number of requests (4,000 and 8,000, or those given) it prints the best of 40 runs, and what that is
above the best run on the bind alone, which is the time to start the program. Twice the requests are to take
about twice the time above the start.
"""
import pathlib
import subprocess
import sys
import time

TOP = pathlib.Path(__file__).resolve().parent.parent
PROGRAM = TOP / "crates" / "mscs" / "out" / "mscs"
RUNS = 40


def best_run(stream):
    best, written = None, 0
    for _ in range(RUNS):
        begin = time.perf_counter()
        done = subprocess.run([PROGRAM, "session"], input=stream, capture_output=True)
        taken = time.perf_counter() - begin
        if done.returncode != 0:
            sys.exit(f"session ended with status {done.returncode}")
        written = len(done.stdout)
        best = taken if best is None else min(best, taken)
    return best, written


def main():
    bind_and_request = (TOP / "examples" / "bind-and-request.stream").read_bytes()
    bind, request = bind_and_request[:72], bind_and_request[72:]
    # The launcher builds the program where that is needed.
    subprocess.run([TOP / "mscs", "session"], input=bind, stdout=subprocess.DEVNULL, check=True)
    start, _ = best_run(bind)
    print(f"the bind alone: best of {RUNS} runs {start * 1e3:.2f} ms")
    for count in [int(word) for word in sys.argv[1:]] or [4000, 8000]:
        stream = bind + request * count
        best, written = best_run(stream)
        print(
            f"{count} requests: {len(stream)} bytes in, {written} bytes out, "
            f"best of {RUNS} runs {best * 1e3:.2f} ms, {(best - start) * 1e3:.2f} ms above the start"
        )


main()
