#!/usr/bin/env python3
"""Whether the pages keep their form: it prints what doesn't, and ends with 0 where all does.

- README.md and docs/proved.md name every crate of crates.txt, in its order and under its headings.
- A crate stands on crates that come before it in crates.txt, and README.md tells how many the program stands on.
- Each link of README.md, docs/ and examples/ leads to a file that stands, and to a heading of it.
- No line of them is over 120 columns, but for tables; and each thing has one word.
- The texts beside the example streams are what examples/describe.py makes.
"""
import pathlib
import re
import subprocess
import sys

TOP = pathlib.Path(__file__).resolve().parent.parent
PAGES = [TOP / "README.md", *sorted((TOP / "docs").glob("*.md")), TOP / "examples" / "README.md"]
# What a page says in place of these words.
WORDS = {
    r"\bspell(s|ed|ing|ings)?\b": "encoding",
    r"\b(lack|want) of memory\b": "out of memory",
    r"\bbirths?\b": "creation number",
}
found = []


def layers():
    """Each heading of crates.txt with its crates."""
    listed = []
    for line in (TOP / "crates.txt").read_text().splitlines():
        if line.startswith("# "):
            listed.append((line[2:].partition(":")[0], []))
        elif line.strip():
            listed[-1][1].append(line.partition(":")[0].split()[0])
    return listed


def check_crates():
    wanted = layers()
    proved = (TOP / "docs" / "proved.md").read_text()
    told = []
    for line in proved.splitlines():
        if line.startswith("## "):
            told.append((line[3:], []))
        elif line.startswith("### "):
            told[-1][1].append(re.match(r"### `(\w+)`", line)[1])
    if told != wanted:
        found.append("docs/proved.md: other crates or headings than crates.txt, or in another order")
    table = (TOP / "README.md").read_text().partition("## Layers")[2].partition("\n## ")[0]
    rows = re.findall(r"^\| ([A-Z]\w+) \| ((?:`\w+`,? ?)+)\|", table, re.M)
    if [(name, re.findall(r"`(\w+)`", crates)) for name, crates in rows] != wanted:
        found.append("README.md: its table of layers has other crates than crates.txt, or in another order")


def crates_of_program(lines):
    """The program's crate and all below it."""
    direct = {it.partition(":")[0].split()[0]: it.partition(":")[2].split() for it in lines}
    reached, waiting = set(), ["mscs"]
    while waiting:
        name = waiting.pop()
        if name in direct and name not in reached:
            reached.add(name)
            waiting += direct[name]
    return reached


def check_order():
    before = set()
    lines = [it for it in (TOP / "crates.txt").read_text().splitlines() if it.strip() and not it.startswith("#")]
    names = {it.partition(":")[0].split()[0] for it in lines}
    for line in lines:
        name, _, below = line.partition(":")
        for low in below.split():
            if low in names and low not in before:
                found.append(f"crates.txt: {name} comes before {low}, on which it stands")
        before.add(name.split()[0])
    count = len(crates_of_program(lines)) - 1
    if f"the {count} crates that it stands on" not in (TOP / "README.md").read_text().replace("\n", " "):
        found.append(f"README.md: the program stands on {count} crates")
    folders = {it.parent.name for it in (TOP / "crates").glob("*/src")}
    if folders != names:
        found.append(f"crates.txt: not the folders of crates/: {sorted(folders ^ names)}")


def anchors_of(path):
    headings = re.findall(r"^#+ (.*)$", path.read_text(), re.M)
    return {re.sub(r"[^\w\- ]", "", it.lower()).replace(" ", "-") for it in headings}


def check_links(page, text):
    for link in re.findall(r"\]\(([^)\s]+)\)", text):
        if "://" in link:
            continue
        name, _, anchor = link.partition("#")
        path = page.parent / name if name else page
        if not path.exists():
            found.append(f"{page.relative_to(TOP)}: no file {link}")
        elif anchor and anchor not in anchors_of(path):
            found.append(f"{page.relative_to(TOP)}: no heading {link}")


def check_lines(page, text):
    for number, line in enumerate(text.splitlines(), 1):
        if len(line) > 120 and not line.startswith("|"):
            found.append(f"{page.relative_to(TOP)}:{number}: {len(line)} columns")
        plain = re.sub(r"`[^`]*`", "", line)
        for pattern, word in WORDS.items():
            for match in re.finditer(pattern, plain, re.I):
                found.append(f"{page.relative_to(TOP)}:{number}: '{match[0]}' in place of '{word}'")


def check_examples():
    for stream in sorted((TOP / "examples").glob("*.stream")):
        words = [sys.executable, TOP / "examples" / "describe.py", stream, stream.with_suffix(".replies")]
        if subprocess.run(words, capture_output=True, text=True).stdout != stream.with_suffix(".txt").read_text():
            found.append(f"examples/{stream.stem}.txt isn't what describe.py makes")


def main():
    check_crates()
    check_order()
    for page in PAGES:
        text = page.read_text()
        check_links(page, text)
        check_lines(page, text)
    check_examples()
    for line in found:
        print(line)
    print(f"{len(PAGES)} pages, {len(found)} faults")
    sys.exit(1 if found else 0)


main()
