#!/usr/bin/env python3
"""Does the program keep each update that it acknowledged, though it is killed behind the reply?

In a temporary folder `serve` is started again and again on the same log. Each time a client sets values of one key one
behind the other over the loopback, and behind an acknowledged one (each time another) the program is killed by SIGKILL,
without a word to it; in every other round one more SetValue is under way then. Started again, it must give back each value
whose reply came, as it was last acknowledged; the one under way may be there or not. A line a round; the status is 0 only
if all are there.

    python3 bench/kill.py [ROUNDS]
"""
import pathlib
import signal
import struct
import subprocess
import sys
import tempfile
import time

import client

PORT = 47330
ROUNDS = 8
MOST_UPDATES = 5
KIND = 3
MOST_DATA = 1024
KEY = "Kept"
SECONDS = 60


def started(folder, port):
    """The program, and a connection to it as soon as it listens."""
    program = subprocess.Popen([client.PROGRAM, "serve", f"127.0.0.1:{port}", "1"], cwd=folder)
    end = time.monotonic() + SECONDS
    while True:
        try:
            return program, client.Connection(port)
        except (ConnectionRefusedError, ConnectionResetError):
            if program.poll() is not None:
                sys.exit(f"the program ended with status {program.returncode} before it listened")
            if time.monotonic() > end:
                program.kill()
                sys.exit("nothing listens")
            time.sleep(0.01)


def number_at(stub, at):
    return struct.unpack_from("<I", stub, at)[0]


def key_of(link):
    """The handle of the key, which is made where there is none."""
    root = link.call(client.GET_ROOT_KEY, client.get_root_key())[-20:]
    made = link.call(client.CREATE_KEY, client.create_key(root, KEY))
    if number_at(made, 4) != 0:
        sys.exit(f"CreateKey answered {number_at(made, 4)}")
    return made[-20:]


def value_of(link, key, name):
    """The value's data, or None where there is none."""
    stub = link.call(client.QUERY_VALUE, client.query_value(key, name, MOST_DATA))
    if number_at(stub, len(stub) - 4) != 0:
        return None
    return stub[8 : 8 + number_at(stub, len(stub) - 12)]


def lost(link, key, acknowledged, under_way):
    """The names of the values that aren't as they were acknowledged, or sent behind that."""
    wrong = []
    for name, data in acknowledged.items():
        found = value_of(link, key, name)
        if found != data and (name not in under_way or found != under_way[name]):
            wrong.append(name)
    return wrong


def data_of(turn, number):
    return f"round {turn}, value {number}, ".encode() * (1 + number)


def play(folder, turn, acknowledged, under_way):
    """One life of the program: what was kept is looked at, values are set, and it is killed."""
    program, link = started(folder, PORT + turn)
    try:
        key = key_of(link)
        wrong = lost(link, key, acknowledged, under_way)
        for name in under_way:
            found = value_of(link, key, name)
            if found is not None:
                acknowledged[name] = found
        under_way.clear()
        for number in range(1 + turn % MOST_UPDATES):
            name, data = f"V{number}", data_of(turn, number)
            stub = link.call(client.SET_VALUE, client.set_value(key, name, KIND, data))
            if number_at(stub, 4) != 0:
                sys.exit(f"SetValue answered {number_at(stub, 4)}")
            acknowledged[name] = data
        if turn % 2:
            name, data = f"U{turn}", data_of(turn, 0)
            link.socket.sendall(client.request(2, client.SET_VALUE, client.set_value(key, name, KIND, data)))
            under_way[name] = data
    finally:
        program.send_signal(signal.SIGKILL)
        program.wait()
        link.close()
    return wrong


def main():
    rounds = int(sys.argv[1]) if len(sys.argv) > 1 else ROUNDS
    failed = 0
    with tempfile.TemporaryDirectory() as name:
        folder = pathlib.Path(name)
        acknowledged, under_way = {}, {}
        for turn in range(rounds):
            known = len(acknowledged)
            wrong = play(folder, turn, acknowledged, under_way)
            failed += len(wrong)
            print(f"start {turn + 1}: {known} values acknowledged before, {', '.join(wrong) + ' lost' if wrong else 'none lost'}", flush=True)
        program, link = started(folder, PORT + rounds)
        try:
            wrong = lost(link, key_of(link), acknowledged, under_way)
        finally:
            program.kill()
            program.wait()
        failed += len(wrong)
        print(f"at the end: {len(acknowledged)} values, {', '.join(wrong) + ' lost' if wrong else 'none lost'}", flush=True)
    sys.exit(1 if failed else 0)


if __name__ == "__main__":
    main()
