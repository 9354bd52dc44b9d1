#!/usr/bin/env python3
"""What `serve` over a log asks of the system for each update, and how fast it is beside the bare calls.

    bench/logged.py [FOLDER]

It works in a folder of its own in FOLDER, or in the present one, so that the file system is the one that is meant. It
counts the system calls of `serve` by `strace` for 100 and for 300 SetValue of 4 bytes, one under way; the difference is
that of 200 updates. Then it prints the updates a second, with one and with 32 under way, the best of some runs, and what
a program of a few lines of C does that is asked and answers over a connection too, and makes the calls of an append
alone: a write of a record, fdatasync, a write of one byte, fdatasync.
"""
import collections
import pathlib
import re
import shutil
import socket
import subprocess
import sys
import tempfile
import time

import client

PORT = 27312
FEW, MANY = 100, 300
SECONDS, RUNS = 2.0, 3
RECORD, REPLY = 4 + 61 + 1, 32

BARE = r"""
#include <arpa/inet.h>
#include <fcntl.h>
#include <netinet/tcp.h>
#include <stdio.h>
#include <stdlib.h>
#include <sys/socket.h>
#include <unistd.h>

/* Appends a record of SIZE bytes to FILE for each REQUEST bytes of the one connection to PORT, and then sends REPLY bytes.
   The file has its size from the beginning, as a log has. */
int main(int count, char **words) {
    int file = open(words[1], O_RDWR | O_CREAT | O_TRUNC, 0644), door = socket(AF_INET, SOCK_STREAM, 0), on = 1;
    int size = atoi(words[2]), request = atoi(words[4]), reply = atoi(words[5]), waiting = 0, got;
    struct sockaddr_in address = {.sin_family = AF_INET, .sin_port = htons(atoi(words[3])), .sin_addr = {htonl(INADDR_LOOPBACK)}};
    static char piece[4096];
    char *record = calloc(1, size), *answer = calloc(1, reply);
    setsockopt(door, SOL_SOCKET, SO_REUSEADDR, &on, sizeof on);
    if (bind(door, (struct sockaddr *)&address, sizeof address) || listen(door, 1)) return 1;
    int link = accept(door, 0, 0);
    setsockopt(link, IPPROTO_TCP, TCP_NODELAY, &on, sizeof on);
    off_t at = 64, end = 2 << 20;
    if (ftruncate(file, end)) return 1;
    while ((got = recv(link, piece, sizeof piece, 0)) > 0)
        for (waiting += got; waiting >= request; waiting -= request, at = at + 2 * size < end ? at + size - 1 : 64) {
            if (pwrite(file, record, size, at) != size || fdatasync(file)) return 1;
            if (pwrite(file, "\1", 1, at) != 1 || fdatasync(file)) return 1;
            if (send(link, answer, reply, 0) != reply) return 1;
        }
    return 0;
}
"""


def connected():
    for _ in range(500):
        try:
            return client.Connection(PORT)
        except ConnectionRefusedError:
            time.sleep(0.01)
    sys.exit("nothing listens")


class Server:
    """`serve` for one connection in a folder, with a connection whose client has the root key."""

    def __init__(self, folder, before=()):
        self.process = subprocess.Popen([*before, client.PROGRAM, "serve", f"127.0.0.1:{PORT}", "1"], cwd=folder)
        self.link = connected()
        self.link.call(client.GET_ROOT_KEY, client.get_root_key())
        self.stub = client.set_value(client.handle_of(1), "V", 4, b"\7\0\0\0")

    def update(self, under_way):
        self.link.socket.sendall(client.request(2, client.SET_VALUE, self.stub) * under_way)
        take_replies(self.link.socket, under_way)

    def end(self):
        self.link.close()
        if self.process.wait() != 0:
            sys.exit(f"serve ended with status {self.process.returncode}")


def calls_of(folder, updates):
    """How often each system call was made in a run with so many updates."""
    (folder / "quorum.log").unlink(missing_ok=True)
    server = Server(folder, ["strace", "-f", "-c", "-o", folder / "calls"])
    for _ in range(updates):
        server.update(1)
    server.end()
    counts = collections.Counter()
    for line in (folder / "calls").read_text().splitlines():
        found = re.match(r"\s*[\d.]+\s+[\d.]+\s+\d+\s+(\d+)\s+(?:\d+\s+)?(\w+)$", line)
        if found and found[2] != "total":
            counts[found[2]] += int(found[1])
    return counts


def tell_calls(folder):
    few, many = calls_of(folder, FEW), calls_of(folder, MANY)
    each = {name: (many[name] - few[name]) / (MANY - FEW) for name in sorted(many) if many[name] != few[name]}
    print("system calls an update: " + ", ".join(f"{name} {count:g}" for name, count in each.items()), flush=True)


class Bare:
    """The program of the bare calls, with a connection over which it is asked and answers as `serve` is."""

    def __init__(self, folder):
        program, stub = folder / "bare", client.set_value(client.handle_of(1), "V", 4, b"\7\0\0\0")
        self.request = client.request(2, client.SET_VALUE, stub)
        if not program.exists():
            subprocess.run(["gcc", "-O2", "-x", "c", "-o", program, "-"], input=BARE.encode(), check=True)
        numbers = [str(it) for it in (RECORD, PORT, len(self.request), REPLY)]
        self.process = subprocess.Popen([program, folder / "bare.log", *numbers])
        self.link = reached()

    def update(self, under_way):
        self.link.sendall(self.request * under_way)
        take_replies(self.link, under_way)

    def end(self):
        self.link.close()
        self.process.wait()


def take_replies(link, count):
    left = count * REPLY
    while left > 0:
        piece = link.recv(left)
        if not piece:
            sys.exit("the server closed the connection")
        left -= len(piece)


def reached():
    for _ in range(500):
        try:
            link = socket.create_connection(("127.0.0.1", PORT))
        except ConnectionRefusedError:
            time.sleep(0.01)
        else:
            link.setsockopt(socket.IPPROTO_TCP, socket.TCP_NODELAY, 1)
            return link
    sys.exit("nothing listens")


def rate(folder, server, under_way):
    (folder / "quorum.log").unlink(missing_ok=True)
    running = server(folder)
    begin, done = time.perf_counter(), 0
    while time.perf_counter() - begin < SECONDS:
        running.update(under_way)
        done += under_way
    taken = time.perf_counter() - begin
    running.end()
    return done / taken


def main():
    with tempfile.TemporaryDirectory(dir=sys.argv[1] if len(sys.argv) > 1 else ".") as name:
        folder = pathlib.Path(name).resolve()
        kind = subprocess.run(["stat", "-f", "-c", "%T", folder], stdout=subprocess.PIPE).stdout.decode().strip()
        print(f"on a file system of type {kind}")
        if shutil.which("strace"):
            tell_calls(folder)
        else:
            print("there is no strace to count the system calls")
        for under_way in (1, 32):
            bare, ours = (max(rate(folder, server, under_way) for _ in range(RUNS)) for server in (Bare, Server))
            print(f"{under_way} under way: {ours:,.0f} updates a second, the bare calls {bare:,.0f}: {bare / ours:.2f} of their cost", flush=True)


main()
