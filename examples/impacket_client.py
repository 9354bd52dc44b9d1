#!/usr/bin/env python3
"""Talks to `mscs serve` on the loopback over Impacket's DCE/RPC client (Debian's python3-impacket).

    /usr/bin/python3 examples/impacket_client.py 27110

Give it the port. It waits until a server listens there, opens the root key, creates the key `A`, sets its value `V`,
reads it back and enumerates the keys of the root, and prints the results of each call by name.
"""
import struct
import sys
import time

from impacket.dcerpc.v5 import transport
from impacket.uuid import uuidtup_to_bin

CLUSAPI = ("b97db8b2-4c63-11cf-bff6-08002be23f2f", "3.0")
GET_ROOT_KEY, CREATE_KEY, ENUM_KEY, SET_VALUE, QUERY_VALUE = 28, 29, 31, 32, 34
ALL_ACCESS = 0xF003F
SECONDS = 60


def connected(port):
    """A connection to the server, as soon as it listens. A probe would be one of the connections that it counts."""
    end = time.monotonic() + SECONDS
    while True:
        link = transport.DCERPCTransportFactory(f"ncacn_ip_tcp:127.0.0.1[{port}]").get_dce_rpc()
        try:
            link.connect()
            return link
        except Exception as error:
            if time.monotonic() > end:
                sys.exit(f"nothing listens at port {port}: {error}")
            time.sleep(0.1)


def text(name):
    """A conformant varying string with its end (C706, 14.3.4.2)."""
    units = (name + "\0").encode("utf-16-le")
    count = len(units) // 2
    return struct.pack("<III", count, 0, count) + units + bytes(-len(units) % 4)


class Results:
    """The results of a call, one after the other."""

    def __init__(self, stub):
        self.stub, self.at = stub, 0

    def number(self):
        self.at += -self.at % 4 + 4
        return struct.unpack_from("<I", self.stub, self.at - 4)[0]

    def bytes(self):
        count = self.number()
        self.at += count
        return self.stub[self.at - count : self.at]

    def handle(self):
        self.at += -self.at % 4 + 20
        return self.stub[self.at - 20 : self.at]

    def name(self):
        """A pointer, and the text behind it."""
        if self.number() == 0:
            return None
        self.number(), self.number()
        count = self.number()
        self.at += 2 * count
        return self.stub[self.at - 2 * count : self.at - 2].decode("utf-16-le")


def handle_text(handle):
    node, serial = struct.unpack_from("<I", handle, 4)[0], struct.unpack_from(">Q", handle, 12)[0]
    return f"handle of node {node}, serial number {serial}"


def main():
    if len(sys.argv) != 2:
        sys.exit(__doc__)
    link = connected(sys.argv[1])
    link.bind(uuidtup_to_bin(CLUSAPI))

    def call(number, stub):
        link.call(number, stub)
        return Results(link.recv())

    results = call(GET_ROOT_KEY, struct.pack("<I", ALL_ACCESS))
    status, _, root = results.number(), results.number(), results.handle()
    print(f"GetRootKey: status {status}, {handle_text(root)}")

    results = call(CREATE_KEY, root + text("A") + struct.pack("<III", 0, ALL_ACCESS, 0))
    disposition, status, _, key = results.number(), results.number(), results.number(), results.handle()
    print(f"CreateKey A: disposition {disposition}, status {status}, {handle_text(key)}")

    data = struct.pack("<I", 7)
    size = struct.pack("<I", len(data))
    results = call(SET_VALUE, key + text("V") + struct.pack("<I", 4) + size + data + size)
    _, status = results.number(), results.number()
    print(f"SetValue V: status {status}")

    results = call(QUERY_VALUE, key + text("V") + size)
    kind, data, needed, _, status = (
        results.number(), results.bytes(), results.number(), results.number(), results.number(),
    )
    print(f"QueryValue V: type {kind}, data {data.hex()}, size {needed}, status {status}")

    results = call(ENUM_KEY, root + struct.pack("<I", 0))
    name, _, _, _, status = results.name(), results.number(), results.number(), results.number(), results.number()
    print(f"EnumKey 0: name {name}, status {status}")
    link.disconnect()


main()
