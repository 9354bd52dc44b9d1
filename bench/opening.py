#!/usr/bin/env python3
"""How long a run over the log takes that reads it and serves nothing, by the records in the log.

For 1,000 and 10,000 records of 100 bytes in a log of the usual capacity, and for 1,000, 10,000 and 100,000 in one of the
greatest, it prints the best and the median of some runs of `session` with an empty input. 10,000 records are to take less
than 50 milliseconds. All of the file is read, whose size goes with the capacity, and then each record is applied.
"""
import os
import pathlib
import subprocess
import sys
import tempfile

import client
from programs import PROGRAM, Timed, aim

DATA = 43
LOGS = ((1_048_576, 1_000), (1_048_576, 10_000), (16_777_216, 1_000), (16_777_216, 10_000), (16_777_216, 100_000))
MOST_SECONDS = 0.05


def stream(updates):
    """A client's stream: the root key, and so many SetValue whose records have 100 bytes each."""
    update = client.request(3, client.SET_VALUE, client.set_value(client.handle_of(1), "V", 3, bytes(DATA)))
    return client.BIND + client.request(2, client.GET_ROOT_KEY, client.get_root_key()) + update * updates


def run(words, data=b""):
    return subprocess.run([PROGRAM, *words], input=data, stdout=subprocess.PIPE, check=True).stdout


def main():
    with tempfile.TemporaryDirectory(dir=sys.argv[1] if len(sys.argv) > 1 else ".") as name:
        os.chdir(pathlib.Path(name).resolve())
        for cap, updates in LOGS:
            run(["format", str(cap)])
            run(["session"], stream(updates))
            shown = run(["showlog"]).decode().splitlines()
            lengths = {len(line.split()[2]) // 2 for line in shown[1:]}
            timed = Timed(["session"])
            print(f"{updates:,} updates: {shown[0]}, of {lengths} bytes: {timed.text()}", flush=True)
            if (cap, updates) == LOGS[1]:
                aim(f"{updates:,} records", timed.best, MOST_SECONDS)


main()
