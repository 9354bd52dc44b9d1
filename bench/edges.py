#!/usr/bin/env python3
"""Does the program keep its log and its replies where the outside is unkind?

Each command is run with each set of its standard streams closed: it must end with status 0, 3 or 4, and the log must
be what it was (behind `format`, an empty log). Then a client that reads slowly sends queries, a damaged PDU and 5,000
bytes behind it, all at once: it must get every reply, and the next client must be served. A line a case; the status
is the number of cases that failed.
"""
import itertools
import os
import pathlib
import subprocess
import sys
import tempfile
import threading
import time

import client

PORT = 47320
VALUE = bytes(range(256)) * 192
QUERIES = 40
BEHIND = 5000
FAILED = []


def tell(name, fault):
    print(f"{name}: {fault or 'as it must be'}", flush=True)
    if fault:
        FAILED.append(name)


def connected(port):
    for _ in range(200):
        try:
            return client.Connection(port)
        except ConnectionRefusedError:
            time.sleep(0.01)
    sys.exit("nothing listens")


def run_closed(folder, words, closed):
    """The status of a run in that folder whose streams in `closed` are closed; the others are null devices."""

    def close():
        for descriptor in closed:
            os.close(descriptor)

    server = listening(words[1]) if words[0] == "ask" else None
    null = subprocess.DEVNULL
    program = subprocess.Popen([client.PROGRAM, *words], cwd=folder, stdin=null, stdout=null, stderr=null, preexec_fn=close)
    if words[0] == "serve":
        link = connected(int(words[1].split(":")[1]))
        link.call(client.GET_ROOT_KEY, client.get_root_key())
        link.close()
    status = program.wait(timeout=60)
    if server:
        server.kill()
        server.wait()
    return status


def listening(address):
    """A server that listens there, whose first connection is over."""
    server = subprocess.Popen([client.PROGRAM, "serve", address, "2"])
    connected(int(address.split(":")[1])).close()
    return server


def log_of(folder):
    """The bytes of the log, of which `showlog` must print one."""
    shown = subprocess.run([client.PROGRAM, "showlog"], cwd=folder, stdin=subprocess.DEVNULL, capture_output=True)
    bytes_now = (folder / "quorum.log").read_bytes()
    return bytes_now if shown.returncode == 0 and shown.stdout.startswith(b"log ") else None


def closed_streams():
    commands = [
        ["session"], ["serve", f"127.0.0.1:{PORT}", "1"], ["replay"], ["drill", "7", "10"], ["format", "4096"], ["showlog"],
        ["export"], ["ask", f"127.0.0.1:{PORT}"],
    ]
    for words in commands:
        for count in (1, 2, 3):
            for closed in itertools.combinations((0, 1, 2), count):
                with tempfile.TemporaryDirectory() as name:
                    folder = pathlib.Path(name)
                    subprocess.run([client.PROGRAM, "format", "4096"], cwd=folder, check=True)
                    before = log_of(folder)
                    status = run_closed(folder, words, closed)
                    fault = None
                    if status not in (0, 3, 4):
                        fault = f"status {status}"
                    elif before is None or log_of(folder) != before:
                        fault = "the log is another"
                    tell(f"{words[0]} without {', '.join(map(str, closed))}", fault)


def unread_bytes():
    server = subprocess.Popen([client.PROGRAM, "serve", f"127.0.0.1:{PORT}", "2"])
    link = connected(PORT)
    root = client.handle_of(1)
    link.call(client.GET_ROOT_KEY, client.get_root_key())
    link.call(client.SET_VALUE, client.set_value(root, "great", 3, VALUE))
    link.socket.setsockopt(client.socket.SOL_SOCKET, client.socket.SO_RCVBUF, 4096)
    query = client.request(2, client.QUERY_VALUE, client.query_value(root, "great", len(VALUE)))
    damaged = bytes([9]) + query[1:24]
    sender = threading.Thread(target=link.socket.sendall, args=(query * QUERIES + damaged + bytes(BEHIND),))
    sender.start()
    time.sleep(1)
    came, fault = 0, None
    try:
        while came < QUERIES:
            if VALUE not in link.reply():
                raise ValueError("another value")
            came += 1
            time.sleep(0.01)
        if link.socket.recv(1):
            raise ValueError("more than the replies")
    except (EOFError, OSError, ValueError) as error:
        fault = f"{came} of {QUERIES} replies: {error}"
    sender.join()
    link.close()
    tell("bytes behind a damaged PDU", fault)
    link = connected(PORT)
    link.call(client.GET_ROOT_KEY, client.get_root_key())
    link.close()
    status = server.wait(timeout=60)
    tell("the client behind it", None if status == 0 else f"status {status}")


def main():
    closed_streams()
    unread_bytes()
    sys.exit(min(len(FAILED), 100))


main()
