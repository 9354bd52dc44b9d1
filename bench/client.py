"""A client's side of the wire, for the scripts beside it: requests as bytes, and one connection over TCP."""
import pathlib
import socket
import struct

TOP = pathlib.Path(__file__).resolve().parent.parent
PROGRAM = TOP / "crates" / "mscs" / "out" / "mscs"
BIND = (TOP / "examples" / "bind.stream").read_bytes()
MOST_STUB = 5816

GET_ROOT_KEY, CREATE_KEY, ENUM_KEY, SET_VALUE, QUERY_VALUE = 28, 29, 31, 32, 34


def request(call_id, opnum, stub):
    """The fragments of one call, together."""
    pieces = [stub[at : at + MOST_STUB] for at in range(0, len(stub), MOST_STUB)] or [b""]
    out = []
    for number, piece in enumerate(pieces):
        flags = (1 if number == 0 else 0) | (2 if number == len(pieces) - 1 else 0)
        left = len(stub) - number * MOST_STUB
        out.append(
            bytes([5, 0, 0, flags, 0x10, 0, 0, 0])
            + struct.pack("<HHI", 24 + len(piece), 0, call_id)
            + struct.pack("<IHH", left, 0, opnum)
            + piece
        )
    return b"".join(out)


def aligned(data):
    return data + bytes(-len(data) % 4)


def text(name):
    """A conformant varying string with its end."""
    units = (name + "\0").encode("utf-16-le")
    count = len(units) // 2
    return aligned(struct.pack("<III", count, 0, count) + units)


def handle_of(serial, node=1):
    """The context handle that the server gives under a serial number."""
    return struct.pack("<IIHH", 0, node, 0, 0) + struct.pack(">Q", serial)


def get_root_key():
    return struct.pack("<I", 0x3F)


def create_key(handle, subkey):
    return handle + text(subkey) + struct.pack("<III", 0, 0x3F, 0)


def set_value(handle, name, kind, data):
    return handle + text(name) + struct.pack("<II", kind, len(data)) + aligned(data) + struct.pack("<I", len(data))


def query_value(handle, name, size):
    return handle + text(name) + struct.pack("<I", size)


def enum_key(handle, index):
    return handle + struct.pack("<I", index)


class Connection:
    """One connection to a server on the loopback, bound to ClusAPI."""

    def __init__(self, port):
        self.socket = socket.create_connection(("127.0.0.1", port))
        self.socket.setsockopt(socket.IPPROTO_TCP, socket.TCP_NODELAY, 1)
        self.behind = b""
        self.socket.sendall(BIND)
        self.fragment()

    def fragment(self):
        """The next fragment of the server."""
        while len(self.behind) < 10 or len(self.behind) < struct.unpack_from("<H", self.behind, 8)[0]:
            more = self.socket.recv(1 << 20)
            if not more:
                raise EOFError("the server closed the connection")
            self.behind += more
        size = struct.unpack_from("<H", self.behind, 8)[0]
        fragment, self.behind = self.behind[:size], self.behind[size:]
        return fragment

    def reply(self):
        """The stub of the next reply, whole."""
        stub = b""
        while True:
            fragment = self.fragment()
            if fragment[2] != 2:
                raise ValueError(f"no response but a PDU of type {fragment[2]}")
            stub += fragment[24:]
            if fragment[3] & 2:
                return stub

    def call(self, opnum, stub):
        self.socket.sendall(request(2, opnum, stub))
        return self.reply()

    def close(self):
        self.socket.close()
