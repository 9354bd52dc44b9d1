"""Images of the quorum log, as bytes."""
import struct

CAP = 16_777_216
HALF = CAP + 327_680


def name(text):
    units = text.encode("utf-16-le")
    return struct.pack("<H", len(units) // 2) + units


def value(text, data):
    return name(text) + struct.pack("<II", 3, len(data)) + data


def image(spelled, records):
    """A log of the greatest cap with this state, and records behind it."""
    header = b"\1MSCSLOG" + struct.pack("<II", 2, CAP) + bytes(48)
    half = b"\1" + struct.pack("<QQII", 1, 1 << 63, len(spelled), 0) + spelled
    for entry in records:
        half += b"\1" + struct.pack("<I", len(entry)) + entry
    return (header + half).ljust(64 + 2 * HALF, b"\0")
