#!/usr/bin/env python3
"""Turns what `replay` prints of a script into a sequence chart, as an SVG picture that a browser shows.

    examples/sequence_chart.py --mark SCRIPT | ./mscs replay > PRINTED
    examples/sequence_chart.py SCRIPT PRINTED OUT.svg

The output of `replay` doesn't tell which line of the script printed what. So the first call gives a script that does the
same, with each delivery of a `pump` as a line of its own and, behind each line, a `show` of a node that the script
doesn't use. The second call takes the script as it was and the output of the marked one.

Each node is a lifeline, with a wide part where it is open. Messages are arrows from where they were sent to where they
were delivered; one that was never delivered ends in a cross. Views are bars over all nodes, deaths and halts are crosses.
"""
import html
import pathlib
import sys

from describe import METHODS

LEFT, TOP, COLUMN, ROW, BESIDE = 220, 66, 290, 19, 12
STYLE = (
    "text{font:12px sans-serif;fill:#222;paint-order:stroke;stroke:#fff;stroke-width:4px}"
    ".name{font-weight:bold;font-size:14px}.line{stroke:#888;stroke-width:1.5}.open{stroke:#9ec5e8;stroke-width:9}"
    ".arrow{stroke:#345;stroke-width:1.2;fill:none;marker-end:url(#head)}.again{stroke-dasharray:5 3}"
    ".lost{stroke:#b33;stroke-width:1.2;stroke-dasharray:3 3;fill:none}.label{fill:#345;font-size:11px}"
    ".cross{stroke:#b00;stroke-width:3}.order{fill:#1d5fa0;font-weight:bold}.ack{fill:#16733a;font-weight:bold}"
    ".bad{fill:#b00;font-weight:bold}.quiet{fill:#777}.bar{fill:#f1e9d2}.client{fill:#6a3d9a}"
)


def lines_of(script):
    """The lines that do something, with each delivery of a `pump` by itself."""
    for line in script.splitlines():
        words = line.split(" ")
        if words[0] == "pump":
            for _ in range(int(words[1])):
                yield ["pump", "1"]
        elif line and not line.startswith("#"):
            yield words


def unused_node(lines):
    used = {words[at] for words in lines for at in (1, 2) if at < len(words)}
    return next(node for node in range(16, 0, -1) if str(node) not in used)


def marked(lines, node):
    """The script with a mark behind each line but the first, which is its `cap` line."""
    out = [" ".join(lines[0]), f"start {node}"]
    for words in lines[1:]:
        out += [" ".join(words), f"show {node}"]
    return "\n".join(out) + "\n"


def parts_of(printed, node):
    """What each line printed, but for the first line of the script."""
    part = []
    for line in printed.splitlines():
        if line.startswith(f"node {node} "):
            yield part
            part = []
        else:
            part.append(line.split(" "))


class Message:
    def __init__(self, words, at):
        self.number, self.kind, self.source, self.target = int(words[1]), words[2], int(words[4]), int(words[5])
        self.fields, self.at, self.delivered, self.lost = words[6:], at, [], False

    def label(self):
        return " ".join([str(self.number), self.kind, *self.fields])


class Chart:
    def __init__(self):
        self.messages, self.marks, self.texts, self.bars = [], set(), [], []
        self.row, self.begin, self.homes, self.incs, self.alive, self.opened = 0, 0, {}, {}, {}, {}
        self.lives, self.opens, self.crosses, self.nodes = [], [], [], set()

    def tell(self, node, text, kind=""):
        self.texts.append((node, self.row, text, kind))
        self.nodes.add(node)
        self.row += 1

    def close(self, node):
        if node in self.opened:
            self.opens.append((node, self.opened.pop(node), self.row))

    def die(self, node):
        self.close(node)
        if node in self.alive:
            self.crosses.append((node, self.row))
            self.lives.append((node, self.alive.pop(node), self.row))

    def lowest(self):
        return next((m for m in self.messages if m.number not in self.marks), None)

    def message_of(self, words):
        """The message that the line delivers, if it delivers one."""
        if words[0] == "deliver":
            return self.messages[int(words[1]) - 1]
        if words[0] == "pick" and self.messages:
            return self.messages[int(words[1]) % len(self.messages)]
        return self.lowest() if words[0] == "pump" else None

    def play(self, words, told):
        """A line of the script, and what it printed."""
        self.begin = begin = self.row
        inner = words[3:] if words[0] == "crash" else words
        message = self.message_of(inner)
        if inner[0] == "skip":
            for _ in range(int(inner[1])):
                lost = self.lowest()
                if lost:
                    lost.lost = True
                    self.marks.add(lost.number)
        elif message:
            self.marks.add(message.number)
            if message.target in self.alive:
                message.delivered.append(begin)
        agent = message.target if message else self.agent(inner)
        self.begin_line(inner, agent)
        if words[0] == "crash" and agent in self.alive:
            self.die(agent)
            self.tell(agent, "dies inside this", "bad")
        for line in told:
            self.hear(line, agent)
        if message and self.row == begin and message.target in self.alive:
            self.row += 1

    def agent(self, words):
        if words[0] in ("bytes", "bind", "request", "hangup"):
            return self.homes.get(words[1])
        return int(words[1]) if words[0] not in ("view", "skip", "fail", "pick", "pump", "connect") else None

    def begin_line(self, words, agent):
        if words[0] == "start":
            self.incs[agent] = self.incs.get(agent, 0) + 1
            self.alive[agent] = self.row
            self.tell(agent, f"incarnation {self.incs[agent]} starts", "quiet")
        elif words[0] == "view":
            self.bars.append((self.row, f"view {words[1]}: {', '.join(words[2:])}"))
            self.row += 2
        elif words[0] == "install":
            self.close(agent)
            self.tell(agent, f"takes view {words[2]}")
        elif words[0] == "connect":
            self.homes[words[1]] = int(words[2])
        elif words[0] in ("bind", "hangup"):
            self.tell(agent, f"client {words[1]}: {words[0]}", "client")
        elif words[0] == "bytes":
            self.tell(agent, f"client {words[1]}: {len(words[2]) // 2} bytes", "client")
        elif words[0] == "request":
            self.tell(agent, f"client {words[1]}: {METHODS.get(int(words[2]), ['no method'])[0]}", "client")
        elif words[0] == "die":
            self.die(agent)
            self.tell(agent, "dies", "bad")
        elif words[0] in ("tick", "checkpoint", "clock", "batch"):
            self.tell(agent, words[0], "quiet")

    def hear(self, line, agent):
        kind = line[0]
        if kind == "send":
            self.messages.append(Message(line, max(self.row - 1, self.begin)))
        elif kind == "order":
            self.tell(agent, f"record {line[1]} stands in the log", "order")
        elif kind == "reply":
            self.tell(agent, f"answers client {line[1]}" + (f" at point {line[2]}" if line[2] != "-" else ""), "client")
        elif kind == "ack":
            self.tell(agent, f"acknowledges record {line[3]}", "ack")
        elif kind == "opened":
            self.opened[agent] = self.row
            self.tell(agent, f"open in view {line[2]}")
        elif kind == "halt":
            self.die(agent)
            self.tell(agent, " ".join(["halts:", *line[2:]]), "bad")
        elif kind == "closed":
            self.tell(self.homes[line[1]], f"client {line[1]} is closed: {' '.join(line[2:])}", "quiet")
        elif kind == "batched":
            self.tell(agent, f"batch: status {line[4]}", "client")
        elif kind == "node":
            self.tell(agent, f"shown: {line[8]} records" if line[8] != "1" else "shown: 1 record", "quiet")

    def end(self):
        self.row += 1
        for node in list(self.alive):
            self.close(node)
            self.lives.append((node, self.alive[node], self.row))


class Picture:
    def __init__(self, chart):
        self.chart, self.columns = chart, {node: at for at, node in enumerate(sorted(chart.nodes))}
        self.parts, self.labels = [], []

    def x(self, node):
        return LEFT + COLUMN * self.columns[node]

    def y(self, row):
        return TOP + ROW * row

    def text(self, x, y, text, kind="", anchor="start"):
        self.parts.append(f'<text x="{x}" y="{y + 4}" class="{kind}" text-anchor="{anchor}">{html.escape(text)}</text>')

    def line(self, x, y, to_x, to_y, kind):
        self.parts.append(f'<line x1="{x}" y1="{y}" x2="{to_x}" y2="{to_y}" class="{kind}"/>')

    def cross(self, x, y):
        self.line(x - 6, y - 6, x + 6, y + 6, "cross")
        self.line(x - 6, y + 6, x + 6, y - 6, "cross")

    def message(self, message):
        """Its arrows, and its label between the last two lifelines, where no other label stands."""
        x, y = self.x(message.source), self.y(message.at)
        to_x = self.x(message.target)
        if message.source == message.target:
            self.to_itself(message, x, y)
            return
        for count, row in enumerate(message.delivered):
            self.line(x, y, to_x, self.y(row), "arrow" if count == 0 else "arrow again")
        end_y = self.y(message.delivered[0]) if message.delivered else y + ROW
        if not message.delivered:
            end = x + (to_x - x) * 0.8
            self.line(x, y, end, end_y, "lost")
            self.cross(end, end_y)
        gaps = abs(self.columns[message.source] - self.columns[message.target])
        middle = 1 - 0.5 / gaps if message.delivered else 0.4
        for part in (middle + aside / gaps for aside in (0, 0.2, -0.2, 0.3, -0.3, 0)):
            at = (x + (to_x - x) * part, y + (end_y - y) * part - 7)
            if all(abs(at[0] - other[0]) > 70 or abs(at[1] - other[1]) > 12 for other in self.labels):
                break
        self.labels.append(at)
        self.text(*at, message.label(), "label", "middle")

    def to_itself(self, message, x, y):
        side = 1 if self.notes_stand_left(message.source) else -1
        for row in message.delivered:
            end = self.y(row) if row > message.at else y + ROW / 2
            out = x + 46 * side
            self.parts.append(f'<path d="M{x} {y} C{out} {y} {out} {end} {x} {end}" class="arrow"/>')
        if not message.delivered:
            self.line(x, y, x + 30 * side, y, "lost")
        self.text(x + 40 * side, y + 4, message.label(), "label", "start" if side == 1 else "end")

    def notes_stand_left(self, node):
        """The notes of the first of several nodes stand where no arrow is."""
        return self.columns[node] == 0 and len(self.columns) > 1

    def make(self):
        chart = self.chart
        width, height = LEFT + COLUMN * len(self.columns), self.y(chart.row) + 30
        for row, text in chart.bars:
            self.parts.append(f'<rect x="10" y="{self.y(row) - 8}" width="{width - 20}" height="22" class="bar"/>')
        for node, begin, end in chart.lives:
            self.line(self.x(node), self.y(begin), self.x(node), self.y(end), "line")
        for node, begin, end in chart.opens:
            self.line(self.x(node), self.y(begin), self.x(node), self.y(end), "open")
        # Labels keep away from the notes beside the lifelines too.
        for node, row, text, kind in chart.texts:
            self.labels += [(self.x(node) + BESIDE + at, self.y(row) - 4) for at in range(20, 7 * len(text), 60)]
        for message in chart.messages:
            self.message(message)
        for node, row in chart.crosses:
            self.cross(self.x(node), self.y(row))
        for row, text in chart.bars:
            self.text(18, self.y(row) + 3, text, "name")
        for node, row, text, kind in chart.texts:
            side, anchor = (-1, "end") if self.notes_stand_left(node) else (1, "start")
            self.text(self.x(node) + BESIDE * side, self.y(row), text, kind, anchor)
        for node in self.columns:
            self.text(self.x(node), 30, f"node {node}", "name", "middle")
        head = (
            f'<svg xmlns="http://www.w3.org/2000/svg" viewBox="0 0 {width} {height}" width="{width}" height="{height}">'
            f'<style>{STYLE}</style><defs><marker id="head" viewBox="0 0 10 10" refX="9" refY="5" markerWidth="8" '
            'markerHeight="8" orient="auto"><path d="M0 0L10 5L0 10z" fill="#345"/></marker></defs>'
            f'<rect width="{width}" height="{height}" fill="#fff"/>'
        )
        return head + "\n" + "\n".join(self.parts) + "\n</svg>\n"


def main():
    if len(sys.argv) == 3 and sys.argv[1] == "--mark":
        lines = list(lines_of(pathlib.Path(sys.argv[2]).read_text()))
        sys.stdout.write(marked(lines, unused_node(lines)))
        return
    if len(sys.argv) != 4:
        sys.exit(__doc__)
    lines = list(lines_of(pathlib.Path(sys.argv[1]).read_text()))
    parts = list(parts_of(pathlib.Path(sys.argv[2]).read_text(), unused_node(lines)))
    if len(parts) != len(lines) - 1:
        sys.exit("this isn't what `replay` prints of the marked script")
    chart = Chart()
    for words, told in zip(lines[1:], parts):
        chart.play(words, told)
    chart.end()
    pathlib.Path(sys.argv[3]).write_text(Picture(chart).make())


main()
