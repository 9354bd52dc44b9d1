#!/usr/bin/env python3
"""How long a node takes to join a node that has a large registry.

A script that fills the registry of one node is played, by values of 49,152 bytes, whose SetValue comes in one piece of its
stream, or by keys below the root; then the same script with a view of two nodes, which the first one takes, so that it recovers the log; then
the same with the second one, which pulls the state in pieces of 4,096 bytes, decodes it and opens. It does so for some
sizes up to what a script of 16 MiB can say, and prints what each adds, and what a MiB of the state takes, which is to
be the same for all sizes.
"""
import client
from programs import Timed, printed

MOST_SCRIPT = 16_777_216
VALUE, KEY = 49_152, 24
VALUES, KEYS = (20, 40, 80, 160), (12_500, 25_000, 50_000, 100_000)
RUNS = 3


OPENING = "cap 16777216\nstart 1\nview 1 1.1\ninstall 1 1\nconnect 1 1\nbind 1\nrequest 1 28 3f000f00\n"


def with_values(count):
    """The lines of a node whose registry has so many values."""
    lines = [OPENING]
    for number in range(count):
        stub = client.set_value(client.handle_of(1), f"value{number:04}", 3, bytes(VALUE))
        lines.append(f"bytes 1 {client.request(2, client.SET_VALUE, stub).hex()}\npump 3\n")
    return "".join(lines)


def with_keys(count):
    """The lines of a node whose registry has so many keys, under names of two characters that have no case."""
    lines = [OPENING]
    for number in range(count):
        stub = client.create_key(client.handle_of(1), chr(0x4E00 + number // 1_000) + chr(0x4E00 + number % 1_000))
        lines.append(f"request 1 {client.CREATE_KEY} {stub.hex()}\npump 3\n")
    return "".join(lines)


JOIN = "start 2\nview 2 1.1 2.1\ninstall 1 2\n"


def joined(filled, size):
    """The messages of the join are fewer than those that are pumped."""
    pieces = size // 4096 + 2
    pumps = "".join(f"pump {min(65_536, left)}\n" for left in range(2 * pieces + 8, 0, -65_536))
    return filled + JOIN + "install 2 2\n" + pumps


def tell(title, alone, most_size):
    together = joined(alone, most_size)
    if MOST_SCRIPT < len(together):
        print(f"{title}: the script has {len(together):,} bytes, more than one may have")
        return
    lines = printed(["replay"], together.encode()).splitlines()
    if "opened 2 2" not in lines:
        print(f"{title}: the second node didn't join")
        return
    pieces = [line.split() for line in lines if " piece 2 " in line]
    size = sum(int(words[-1]) for words in pieces)
    first, recovered, whole = (Timed(["replay"], it.encode(), RUNS) for it in (alone, alone + JOIN, together))
    pulled = whole.best - recovered.best
    print(
        f"{title}: {first.best:.3f} s to fill; {recovered.best - first.best:.3f} s more to recover; {pulled:.3f} s "
        f"more to pull {size:,} bytes in {len(pieces)} pieces, {pulled / (size / (1 << 20)) * 1e3:.2f} ms a MiB; "
        f"at most {whole.memory / 1e6:.1f} MB of memory",
        flush=True,
    )


def main():
    for count in VALUES:
        tell(f"{count} values", with_values(count), count * (VALUE + 64))
    for count in KEYS:
        tell(f"{count:,} keys", with_keys(count), count * KEY)


main()
