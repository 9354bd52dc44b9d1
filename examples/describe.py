#!/usr/bin/env python3
"""Names the PDUs of a client's stream, and of the replies to it, with their fields.

    examples/describe.py CLIENT.stream [REPLIES]

Each field has a line: its place in the stream, its bytes in hex, and what it says. The texts beside the streams of
this folder are made by it.
"""
import struct
import sys

TYPES = {
    0: "request", 2: "response", 3: "fault", 11: "bind", 12: "bind_ack", 13: "bind_nak", 14: "alter_context",
    15: "alter_context_resp", 17: "shutdown", 18: "co_cancel", 19: "orphaned",
}
INTERFACES = {"b97db8b2-4c63-11cf-bff6-08002be23f2f": "ClusAPI", "8a885d04-1ceb-11c9-9fe8-08002b104860": "NDR"}
STATUSES = {
    0: "success", 2: "file not found", 70: "the node isn't open", 87: "invalid parameter", 112: "disk full",
    161: "bad path name", 234: "more data", 259: "no more items", 1018: "key deleted", 1020: "key has children",
    1783: "bad stub data",
    0x1C00001A: "context mismatch", 0x1C010002: "operation number out of range", 0x1C010003: "unknown interface",
}
# Of each method its name, its parameters and its results.
METHODS = {
    0: ("OpenCluster", [], ["status", "handle"]),
    1: ("CloseCluster", ["handle"], ["handle", "status"]),
    3: ("GetClusterName", [], ["name of the cluster", "name of the node", "status"]),
    28: ("GetRootKey", ["access"], ["status", "RPC status", "handle"]),
    29: (
        "CreateKey",
        ["handle", "text of the subkey", "options", "access", "security attributes"],
        ["disposition", "status", "RPC status", "handle"],
    ),
    30: ("OpenKey", ["handle", "text of the subkey", "access"], ["status", "RPC status", "handle"]),
    31: ("EnumKey", ["handle", "index"], ["name", "time", "RPC status", "status"]),
    32: ("SetValue", ["handle", "text of the name", "type", "data", "size"], ["RPC status", "status"]),
    33: ("DeleteValue", ["handle", "text of the name"], ["RPC status", "status"]),
    34: (
        "QueryValue",
        ["handle", "text of the name", "size asked for"],
        ["type", "data", "size needed", "RPC status", "status"],
    ),
    35: ("DeleteKey", ["handle", "text of the subkey"], ["RPC status", "status"]),
    36: (
        "EnumValue",
        ["handle", "index", "size asked for"],
        ["name", "type", "data", "size", "size in all", "RPC status", "status"],
    ),
    37: ("CloseKey", ["handle"], ["handle", "status"]),
    38: (
        "QueryInfoKey",
        ["handle"],
        [
            "subkeys", "longest subkey", "values", "longest value name", "longest data", "security", "time",
            "RPC status", "status",
        ],
    ),
}


class Reader:
    """The bytes of one PDU, whose fields are printed as they are read."""

    def __init__(self, data, base):
        self.data, self.base, self.at, self.order = data, base, 0, "<"

    def take(self, count):
        if len(self.data) < self.at + count:
            raise ValueError(f"cut off at {self.base + self.at}")
        piece = self.data[self.at : self.at + count]
        self.at += count
        return piece

    def show(self, begin, text):
        piece = self.data[begin : self.at].hex(" ")
        shown = piece if len(piece) <= 59 else piece[:56] + ".."
        print(f"{self.base + begin:6}  {shown:59}  {text}")

    def number(self, size, name, says=str):
        begin = self.at
        value = struct.unpack(self.order + {1: "B", 2: "H", 4: "I"}[size], self.take(size))[0]
        self.show(begin, f"{name}: {says(value)}")
        return value

    def uuid(self):
        first, second, third = struct.unpack(self.order + "IHH", self.take(8))
        rest = self.take(8).hex()
        return f"{first:08x}-{second:04x}-{third:04x}-{rest[:4]}-{rest[4:]}"

    def syntax(self, name):
        begin, uuid = self.at, self.uuid()
        version = struct.unpack(self.order + "I", self.take(4))[0]
        self.show(begin, f"{name}: {INTERFACES.get(uuid, uuid)} {version & 0xFFFF}.{version >> 16}")


def status_text(value):
    shown = f"{value:#x}" if value > 0xFFFF else str(value)
    return shown + (f", {STATUSES[value]}" if value in STATUSES else "")


def flags_text(value):
    names = {1: "first", 2: "last", 0x20: "not executed", 0x80: "object"}
    said = [name for bit, name in names.items() if value & bit]
    return f"{value:#04x}" + (f", {' and '.join(said)}" if said else "")


def header(reader):
    begin = reader.at
    version = reader.take(2)
    reader.show(begin, f"version: {version[0]}.{version[1]}")
    kind = reader.number(1, "type", lambda value: TYPES.get(value, f"unknown, {value}"))
    flags = reader.number(1, "flags", flags_text)
    begin = reader.at
    reader.order = "<" if reader.take(4)[0] == 0x10 else ">"
    reader.show(begin, "data representation: " + ("little-endian" if reader.order == "<" else "big-endian"))
    reader.number(2, "length of the fragment")
    reader.number(2, "length of the verifier")
    return kind, flags, reader.number(4, "call id")


def bind(reader):
    reader.number(2, "longest fragment sent")
    reader.number(2, "longest fragment taken")
    reader.number(4, "association group")
    count = reader.number(1, "contexts")
    reader.take(3)
    for _ in range(count):
        reader.number(2, "context id")
        transfers = reader.number(1, "transfer syntaxes")
        reader.take(1)
        reader.syntax("interface")
        for _ in range(transfers):
            reader.syntax("transfer syntax")


def bind_ack(reader):
    reader.number(2, "longest fragment sent")
    reader.number(2, "longest fragment taken")
    reader.number(4, "association group")
    reader.take(reader.number(2, "length of the address"))
    reader.take(-reader.at % 4)
    count = reader.number(1, "verdicts")
    reader.take(3)
    for _ in range(count):
        reader.number(2, "result", lambda value: "accepted" if value == 0 else f"refused, {value}")
        reader.number(2, "reason")
        reader.syntax("transfer syntax")


def bind_nak(reader):
    reasons = {0: "not specified", 2: "a local limit", 4: "a protocol version that isn't supported"}
    reader.number(2, "reason", lambda value: f"{value}, {reasons.get(value, 'unknown')}")
    for _ in range(reader.number(1, "versions")):
        begin = reader.at
        version = reader.take(2)
        reader.show(begin, f"version: {version[0]}.{version[1]}")


def string(reader, begin, name):
    maximum, offset, count = struct.unpack(reader.order + "III", reader.take(12))
    units = reader.take(2 * count).decode("utf-16-le" if reader.order == "<" else "utf-16-be", errors="replace")
    reader.show(begin, f"{name}: \"{units.partition(chr(0))[0]}\"")


def value(reader, stub, name):
    """One parameter or result: what it is, its name tells."""
    reader.take((stub - reader.at) % 4)
    begin = reader.at
    if name == "handle":
        attributes, node = struct.unpack(reader.order + "II", reader.take(8))
        reader.take(4)
        serial = int.from_bytes(reader.take(8), "big")
        reader.show(begin, "handle: null" if not (node or serial) else f"handle: node {node}, serial number {serial}")
    elif name.startswith("text"):
        string(reader, begin, name)
    elif name.startswith("name"):
        if struct.unpack(reader.order + "I", reader.take(4))[0]:
            string(reader, begin, name)
        else:
            reader.show(begin, f"{name}: null")
    elif name == "data":
        count = struct.unpack(reader.order + "I", reader.take(4))[0]
        reader.take(count)
        reader.show(begin, f"data: {count} bytes")
    elif name == "time":
        low, high = struct.unpack(reader.order + "II", reader.take(8))
        reader.show(begin, f"time: {low + (high << 32)}")
    else:
        reader.number(4, name, status_text if "status" in name else hex if name == "access" else str)


def stub_of(reader, names):
    stub = reader.at
    for name in names:
        value(reader, stub, name)


def request(reader, flags, call_id, calls):
    reader.number(4, "allocation hint")
    reader.number(2, "context id")
    opnum = reader.number(2, "operation number", lambda value: f"{value}, {METHODS.get(value, ['no method'])[0]}")
    if flags & 0x80:
        reader.syntax("object")
    calls[call_id] = opnum
    if flags & 3 == 3 and opnum in METHODS:
        stub_of(reader, METHODS[opnum][1])


def response(reader, flags, call_id, calls):
    reader.number(4, "allocation hint")
    reader.number(2, "context id")
    reader.take(2)
    if flags & 3 == 3 and calls.get(call_id) in METHODS:
        stub_of(reader, METHODS[calls[call_id]][2])


def fault(reader):
    reader.number(4, "allocation hint")
    reader.number(2, "context id")
    reader.take(2)
    reader.number(4, "status", status_text)


def describe_pdu(title, data, base, calls):
    reader = Reader(data, base)
    print(f"\n{title}, {len(data)} bytes")
    try:
        describe_fields(reader, calls)
    except ValueError as fault:
        print(f"        {fault}")
    if reader.at < len(data):
        begin, reader.at = reader.at, len(data)
        reader.show(begin, f"the rest: {len(data) - begin} bytes")


def describe_fields(reader, calls):
    kind, flags, call_id = header(reader)
    if kind in (11, 14):
        bind(reader)
    elif kind in (12, 15):
        bind_ack(reader)
    elif kind == 13:
        bind_nak(reader)
    elif kind == 0:
        request(reader, flags, call_id, calls)
    elif kind == 2:
        response(reader, flags, call_id, calls)
    elif kind == 3:
        fault(reader)


def pdus_of(stream):
    """Each PDU with its place."""
    at = 0
    while at + 16 <= len(stream):
        order = "little" if stream[at + 4] == 0x10 else "big"
        length = int.from_bytes(stream[at + 8 : at + 10], order)
        if length < 16:
            break
        yield at, stream[at : at + length]
        at += length


def main():
    if not 2 <= len(sys.argv) <= 3:
        sys.exit(__doc__)
    calls = {}
    for title, path in zip(("client", "server"), sys.argv[1:]):
        with open(path, "rb") as file:
            stream = file.read()
        name = path.rpartition("/")[2]
        print(f"{'' if title == 'client' else chr(10)}{name}: {len(stream)} bytes that the {title} sends")
        for number, (at, data) in enumerate(pdus_of(stream), 1):
            describe_pdu(f"PDU {number}, {TYPES.get(data[2], 'of no type')}", data, at, calls)


if __name__ == "__main__":
    main()
