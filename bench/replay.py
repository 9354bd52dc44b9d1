#!/usr/bin/env python3
"""How long `replay` takes to read scripts.

- A script of 16 MiB of remarks: of the longest lines, of lines of 80 bytes and of empty ones. The first two are to take
  less than 0.2 seconds each.
- 25,000, 50,000 and 100,000 lines of several kinds that do next to nothing, so that nearly all of the time goes into reading
  their words. Twice the lines are to take about twice the time.
- 5,000 and 20,000 updates of one node, with the updates a second.

For each it prints the best and the median of some runs with the output thrown away, and the greatest memory of one.
"""
import client
from programs import Timed, aim

MOST_SCRIPT = 16_777_216
LONGEST = 262_144
MOST_SECONDS = 0.2


def remarks(length):
    """As many lines as a script may have, each of so many bytes with its line feed."""
    line = (b"#" * (length - 1)) + b"\n"
    return (line * (MOST_SCRIPT // length + 1))[:MOST_SCRIPT]


def idle_lines(count):
    """Lines that change next to nothing: ticks, clocks, picks of nothing, bytes on a closed connection."""
    opening = "cap 4096\nstart 1\nstart 2\nconnect 1 1\nhangup 1\n"
    lines = ["tick 1\n", "clock 2 18446744073709551615\n", "pick 4294967295\n", f"bytes 1 {'5a' * 24}\n"]
    return (opening + "".join(lines[number % 4] for number in range(count))).encode()


def updates(count):
    stub = client.set_value(client.handle_of(1), "V", 4, b"\7\0\0\0")
    opening = "cap 1048576\nstart 1\nview 1 1.1\ninstall 1 1\nconnect 1 1\nbind 1\nrequest 1 28 3f000f00\n"
    return (opening + f"request 1 32 {stub.hex()}\npump 3\n" * count).encode()


def main():
    for title, length, has_aim in [("the longest", LONGEST + 1, True), ("80 bytes", 80, True), ("no bytes", 1, False)]:
        run = Timed(["replay"], remarks(length))
        print(f"16 MiB of remarks, lines of {title}: {run.text()}", flush=True)
        if has_aim:
            aim(f"16 MiB of remarks, lines of {title}", run.best, MOST_SECONDS)
    start = Timed(["replay"], b"cap 4096\n")
    before = None
    for count in (25_000, 50_000, 100_000):
        run = Timed(["replay"], idle_lines(count))
        above = run.best - start.best
        more = f", {above / before:.2f} times half of them" if before else ""
        print(f"{count:,} lines: {run.text()}, {above / count * 1e6:.2f} us a line{more}", flush=True)
        before = above
    for count in (5_000, 20_000):
        run = Timed(["replay"], updates(count))
        print(f"{count:,} updates of one node: {run.text()}, {count / (run.best - start.best):,.0f} a second", flush=True)


main()
