#!/usr/bin/env python3
"""How long `drill 7 EVENTS` takes, and how much memory.

For 25,000, 50,000 and 100,000 rounds it prints the line of the drill, which must be the same in two runs, the best and
the median of some runs, and the greatest memory of one. 100,000 rounds are to take less than 3 seconds, and the memory
is to grow with the rounds. Each hundredth round reads the log anew, so that the time grows faster than the rounds until
the log has its first checkpoint.
"""
import sys

from programs import Timed, aim, printed

ROUNDS = (25_000, 50_000, 100_000)
MOST_SECONDS = 3


def main():
    last = None
    for count in ROUNDS:
        words = ["drill", "7", str(count)]
        line = printed(words)
        if printed(words) != line:
            sys.exit("two runs print different lines")
        last = Timed(words)
        print(line.strip())
        print(f"{count:,} rounds: {last.text()}, or {last.memory / count:.0f} bytes a round", flush=True)
    aim(f"{ROUNDS[-1]:,} rounds", last.best, MOST_SECONDS)


main()
