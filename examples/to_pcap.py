#!/usr/bin/env python3
"""Turns a session into a capture that Wireshark reads: a client's stream, and the replies to it.

    examples/to_pcap.py CLIENT.stream REPLIES OUT.pcap
    examples/to_pcap.py --replay SCRIPT PRINTED OUT.pcap

It writes one TCP connection over IPv4, from 127.0.0.1:49152 to 127.0.0.1:27110: the handshake, each PDU of the client
with the replies of its call id behind it, and the end. The times are made up, a millisecond apart.

With `--replay` it does so for the clients of a script, from the script and from what `replay` printed of it: a
connection for each, one after the other, from 127.0.0.1 at port 49152 and the number of the connection to 127.0.1.N at
port 27110, N being the node. What a script says inside a `crash` is left out, since no client hears of it.
"""
import pathlib
import re
import struct
import sys

from describe import pdus_of

CLIENT, SERVER = (b"\x7f\0\0\1", 49152), (b"\x7f\0\0\1", 27110)
BIND = (pathlib.Path(__file__).resolve().parent / "bind.stream").read_bytes()
FIN, SYN, PSH, ACK = 0x01, 0x02, 0x08, 0x10
LINKTYPE_IPV4 = 228
MOST_SEGMENT = 1460


def checksum(data):
    data += bytes(len(data) % 2)
    total = sum(struct.unpack(f">{len(data) // 2}H", data))
    while total > 0xFFFF:
        total = (total & 0xFFFF) + (total >> 16)
    return ~total & 0xFFFF


class Capture:
    def __init__(self):
        self.packets = []
        self.next = {}

    def segment(self, source, target, flags, data=b""):
        """A TCP segment of the source, which acknowledges all that it was sent."""
        acked = self.next[target] if flags & ACK else 0
        fields = [source[1], target[1], self.next[source], acked, 0x50, flags, 65535]
        plain = struct.pack(">HHIIBBHHH", *fields, 0, 0) + data
        pseudo = source[0] + target[0] + struct.pack(">BBH", 0, 6, len(plain))
        tcp = struct.pack(">HHIIBBHHH", *fields, checksum(pseudo + plain), 0) + data
        head = struct.pack(">BBHHHBBH", 0x45, 0, 20 + len(tcp), len(self.packets), 0x4000, 64, 6, 0)
        address = source[0] + target[0]
        head = head[:10] + struct.pack(">H", checksum(head + address)) + address
        self.packets.append(head + tcp)
        self.next[source] += len(data) + (1 if flags & (SYN | FIN) else 0)

    def connection(self, client, server, asked, answered):
        """A connection from its handshake to its end, on which these PDUs are sent."""
        self.next[client], self.next[server] = 1000, 2000
        self.segment(client, server, SYN)
        self.segment(server, client, SYN | ACK)
        self.segment(client, server, ACK)
        for pdu in asked:
            self.send(client, server, pdu)
            is_last = pdu[2] != 0 or pdu[3] & 2
            while is_last and answered and call_id(answered[0]) == call_id(pdu):
                self.send(server, client, answered.pop(0))
        for pdu in answered:
            self.send(server, client, pdu)
        self.segment(client, server, FIN | ACK)
        self.segment(server, client, FIN | ACK)
        self.segment(client, server, ACK)

    def send(self, source, target, pdu):
        for at in range(0, len(pdu), MOST_SEGMENT):
            self.segment(source, target, PSH | ACK, pdu[at : at + MOST_SEGMENT])

    def write(self, path):
        parts = [struct.pack("<IHHiIII", 0xA1B2C3D4, 2, 4, 0, 0, 65535, LINKTYPE_IPV4)]
        for number, packet in enumerate(self.packets):
            parts.append(struct.pack("<IIII", number // 1000, number % 1000 * 1000, len(packet), len(packet)) + packet)
        pathlib.Path(path).write_bytes(b"".join(parts))


def call_id(pdu):
    return int.from_bytes(pdu[12:16], "little" if pdu[4] == 0x10 else "big")


def pdus(stream):
    return [pdu for _, pdu in pdus_of(stream)]


def request(count, opnum, stub):
    """The count-th request line of a connection as a PDU."""
    fields = struct.pack("<HHIIHH", 24 + len(stub), 0, count + 1, len(stub), 0, opnum)
    return bytes([5, 0, 0, 3, 0x10, 0, 0, 0]) + fields + stub


def bytes_of(word):
    return b"" if word == "-" else bytes.fromhex(word)


def streams_of(script):
    """Of each connection of a script its node, and the bytes that its client sends."""
    homes, sent, counts = {}, {}, {}
    for line in script.splitlines():
        words = line.split(" ")
        if words[0] == "connect":
            homes[words[1]], sent[words[1]], counts[words[1]] = int(words[2]), b"", 0
        elif words[0] == "bind":
            sent[words[1]] += BIND
        elif words[0] == "bytes":
            sent[words[1]] += bytes_of(words[2])
        elif words[0] == "request":
            counts[words[1]] += 1
            sent[words[1]] += request(counts[words[1]], int(words[2]), bytes_of(words[3]))
    return [(conn, homes[conn], sent[conn]) for conn in homes]


def replies_of(printed, conn):
    return bytes.fromhex("".join(re.findall(rf"^reply {conn} \S+ (\w+)$", printed, re.M)))


def main():
    capture = Capture()
    if len(sys.argv) == 5 and sys.argv[1] == "--replay":
        script, printed = (pathlib.Path(it).read_text() for it in sys.argv[2:4])
        for conn, node, stream in streams_of(script):
            client = (CLIENT[0], 49152 + int(conn) % 16384)
            capture.connection(client, (bytes([127, 0, 1, node]), SERVER[1]), pdus(stream), pdus(replies_of(printed, conn)))
    elif len(sys.argv) == 4:
        asked, answered = (pdus(pathlib.Path(it).read_bytes()) for it in sys.argv[1:3])
        capture.connection(CLIENT, SERVER, asked, answered)
    else:
        sys.exit(__doc__)
    capture.write(sys.argv[-1])


main()
