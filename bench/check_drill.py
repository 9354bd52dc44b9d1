#!/usr/bin/env python3
"""Whether `drill` counts what `replay` prints of the script that another generator makes of the same number.

The script is made here by docs/script.md alone, so that neither the program's generator nor its counts are taken on
trust. It wants the program that the launcher has built, and ends with 0 where all agree.
"""
import sys

import client
from programs import printed

DRILLS = ((7, 2_000), (0, 1), (18_446_744_073_709_551_615, 500))
KINDS = ("order", "ack", "reply", "closed")


class Script:
    """The lines that a number generates, of so many rounds."""

    def __init__(self, number, rounds):
        self.state, self.view, self.most = number, 1, 3
        self.starts = {node: 1 for node in (1, 2, 3)}
        self.conns = {node: node for node in (1, 2, 3)}
        self.lines = ["cap 1048576", *(f"start {node}" for node in self.starts)]
        self.declare()
        self.lines.append("pump 100")
        for node in self.conns:
            self.connect(node)
        for place in range(1, rounds + 1):
            self.die() if place % 100 == 0 else self.round()

    def below(self, count):
        self.state = (self.state * 6364136223846793005 + 1442695040888963407) % 2**64
        return (self.state >> 33) % count

    def declare(self):
        self.lines.append(f"view {self.view} " + " ".join(f"{node}.{inc}" for node, inc in self.starts.items()))
        self.lines += [f"install {node} {self.view}" for node in self.starts]

    def connect(self, node):
        conn = self.conns[node]
        self.lines += [f"connect {conn} {node}", f"bind {conn}", f"request {conn} 28 3f000f00"]

    def die(self):
        node = 1 + self.below(3)
        self.starts[node] += 1
        self.view += 1
        self.most += 1
        self.conns[node] = self.most
        self.lines += [f"die {node}", f"start {node}"]
        self.declare()
        self.lines.append("pump 200")
        self.connect(node)

    def round(self):
        drawn = self.below(8)
        if drawn <= 3:
            node = 1 + self.below(3)
            handle, name = client.handle_of(1, node), f"V{self.below(10)}"
            if drawn == 3:
                opnum, stub = client.QUERY_VALUE, client.query_value(handle, name, 4)
            else:
                opnum, stub = client.SET_VALUE, client.set_value(handle, name, 4, self.below(65_536).to_bytes(4, "little"))
            self.lines.append(f"request {self.conns[node]} {opnum} {stub.hex()}")
        elif drawn == 4:
            self.lines.append(f"pick {self.below(1_000_000)}")
        elif drawn == 5:
            self.lines.append(f"pump {1 + self.below(8)}")
        elif drawn == 6:
            self.lines.append(f"tick {1 + self.below(3)}")
        else:
            self.lines.append("skip 1")


def main():
    for number, rounds in DRILLS:
        lines = printed(["replay"], "".join(line + "\n" for line in Script(number, rounds).lines).encode()).splitlines()
        order, acks, replies, closed = (sum(line.startswith(kind + " ") for line in lines) for kind in KINDS)
        wanted = f"drill {number} {rounds} order {order} acks {acks} replies {replies} closed {closed}\n"
        told = printed(["drill", str(number), str(rounds)])
        if told != wanted:
            sys.exit(f"told: {told}wanted: {wanted}")
        print(told, end="")


main()
