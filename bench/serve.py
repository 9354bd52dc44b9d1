#!/usr/bin/env python3
"""How many requests a second `serve` answers over the loopback.

For QueryValue of 4 bytes and of 48 KiB and for SetValue of 4 bytes, with one request under way (depth 1) and with
32, it prints the requests a second on one connection; and the same for a plain echo of the same bytes over the
loopback, by a server of a few lines of C, which is what the machine gives at most. The client is one process of
its own, so the figures are those of the pair.
"""
import pathlib
import subprocess
import sys
import tempfile
import time

import client

PORT = 27310
ECHO_PORT = 27311
SECONDS = 2.0

ECHO = r"""
#include <arpa/inet.h>
#include <netinet/in.h>
#include <netinet/tcp.h>
#include <stdlib.h>
#include <sys/socket.h>
#include <unistd.h>

/* Answers each piece of IN bytes with OUT bytes, on one connection. */
int main(int count, char **words) {
    int port = atoi(words[1]), in = atoi(words[2]), out = atoi(words[3]), yes = 1;
    struct sockaddr_in at = {0};
    at.sin_family = AF_INET;
    at.sin_port = htons(port);
    at.sin_addr.s_addr = htonl(INADDR_LOOPBACK);
    int listener = socket(AF_INET, SOCK_STREAM, 0);
    setsockopt(listener, SOL_SOCKET, SO_REUSEADDR, &yes, sizeof yes);
    if (bind(listener, (struct sockaddr *)&at, sizeof at) || listen(listener, 1)) return 1;
    int stream = accept(listener, 0, 0);
    setsockopt(stream, IPPROTO_TCP, TCP_NODELAY, &yes, sizeof yes);
    char *bytes = calloc(1, 1 << 20);
    for (long taken = 0;;) {
        ssize_t got = read(stream, bytes, 1 << 16);
        if (got <= 0) return 0;
        for (taken += got; taken >= in; taken -= in)
            for (int sent = 0; sent < out;) {
                ssize_t put = write(stream, bytes + sent, out - sent);
                if (put <= 0) return 0;
                sent += put;
            }
    }
}
"""


def connected(port):
    for _ in range(200):
        try:
            return client.socket.create_connection(("127.0.0.1", port))
        except ConnectionRefusedError:
            time.sleep(0.01)
    sys.exit("nothing listens")


def rate(stream, asked, size, depth):
    """Requests a second on a connection whose replies have `size` bytes each."""
    stream.setsockopt(client.socket.IPPROTO_TCP, client.socket.TCP_NODELAY, 1)
    into = memoryview(bytearray(1 << 20))
    many = asked * depth
    begin = time.perf_counter()
    done = 0
    while time.perf_counter() - begin < SECONDS:
        stream.sendall(many)
        left = size * depth
        while left:
            got = stream.recv_into(into, min(left, len(into)))
            if not got:
                sys.exit("the connection was closed")
            left -= got
        done += depth
    return done / (time.perf_counter() - begin)


def echo(program, asked, size, depth):
    server = subprocess.Popen([program, str(ECHO_PORT), str(len(asked)), str(size)])
    stream = connected(ECHO_PORT)
    result = rate(stream, asked, size, depth)
    stream.close()
    server.wait()
    return result


def main():
    folder = tempfile.TemporaryDirectory()
    echo_program = pathlib.Path(folder.name) / "echo"
    subprocess.run(["gcc", "-O2", "-x", "c", "-o", echo_program, "-"], input=ECHO.encode(), check=True)
    server = subprocess.Popen([client.PROGRAM, "serve", f"127.0.0.1:{PORT}", "1"])
    connected_once = None
    for _ in range(200):
        try:
            connected_once = client.Connection(PORT)
            break
        except ConnectionRefusedError:
            time.sleep(0.01)
    link = connected_once
    root = client.handle_of(1)
    link.call(client.GET_ROOT_KEY, client.get_root_key())
    link.call(client.SET_VALUE, client.set_value(root, "small", 4, b"\7\0\0\0"))
    link.call(client.SET_VALUE, client.set_value(root, "great", 3, bytes(49152)))
    cases = [
        ("QueryValue of 4 bytes", client.QUERY_VALUE, client.query_value(root, "small", 4)),
        ("QueryValue of 48 KiB", client.QUERY_VALUE, client.query_value(root, "great", 49152)),
        ("SetValue of 4 bytes", client.SET_VALUE, client.set_value(root, "small", 4, b"\7\0\0\0")),
    ]
    for name, opnum, stub in cases:
        asked = client.request(2, opnum, stub)
        reply = link.call(opnum, stub)
        whole = len(reply) + 24 * (1 if len(reply) <= client.MOST_STUB else -(-len(reply) // client.MOST_STUB))
        for depth in (1, 32):
            ours = rate(link.socket, asked, whole, depth)
            plain = echo(echo_program, asked, whole, depth)
            print(f"{name}, depth {depth}: {ours:,.0f} a second; a plain echo {plain:,.0f} ({ours / plain:.2f})", flush=True)
    link.close()
    server.wait()


main()
