#!/usr/bin/env python3
"""Whether all that docs/map.md names is there: pages and headings, definitions, functions, edits and rows.

It ends with 0 where it is, and else prints a line for each name that isn't.
"""
import functools
import pathlib
import re
import sys

TOP = pathlib.Path(__file__).resolve().parent.parent
CRATES = TOP / "crates"
missing = []


@functools.lru_cache(None)
def text_of(path):
    return path.read_text() if path.is_file() else ""


def anchors_of(page):
    """The anchors of a page's headings, as they are made of them."""
    headings = re.findall(r"^#+ (.*)$", text_of(page), re.M)
    return {re.sub(r"[^\w\- ]", "", it.lower()).replace(" ", "-") for it in headings}


def has_words(link):
    page, _, anchor = link.partition("#")
    path = TOP / "docs" / page
    return path.is_file() and (not anchor or anchor in anchors_of(path))


def has_definition(name):
    found = re.fullmatch(r"(\w+)/(\w+)\.(\w+)", name)
    if not found:
        return False
    crate, file, word = found.groups()
    text = text_of(CRATES / crate / "specs" / f"{file}.antt")
    return re.search(rf"^(?:abbrev |unfoldable )?(?:pub )?(?:record |data )?{word}\b", text, re.M) is not None


def has_proof(name):
    if "/proofs/" in name:
        return (CRATES / f"{name}.antt").is_file()
    return has_function(name)


def has_function(name):
    found = re.fullmatch(r"(\w+)/(\w+)\.(\w+)", name)
    if not found:
        return False
    crate, file, word = found.groups()
    return re.search(rf"\bfn {word}\b", text_of(CRATES / crate / "src" / f"{file}.rt")) is not None


def has_edit(name):
    crate, _, edit = name.partition("/")
    return (CRATES / crate / "must-fail" / f"{edit}.edit").is_file()


def has_row(name):
    program, colon, heading = name.partition(": ")
    if not colon:
        return has_function(name)
    return f"\n# {heading}" in text_of(CRATES / program / "stdin")


CHECKS = [("definition", has_definition), ("proof", has_proof), ("wrong body", has_edit), ("row", has_row)]


def check_line(number, cells):
    link = re.fullmatch(r"\[[^]]*\]\(([^)]*)\)", cells[1])
    if not link or not has_words(link[1]):
        missing.append(f"line {number}: words: {cells[1]}")
    for (kind, is_there), cell in zip(CHECKS, cells[2:]):
        names = re.findall(r"`([^`]*)`", cell)
        for name in names:
            if not is_there(name):
                missing.append(f"line {number}: {kind}: {name}")
    if not re.search(r"`", cells[2]):
        missing.append(f"line {number}: no definition")


def main():
    rules = 0
    for number, line in enumerate(text_of(TOP / "docs" / "map.md").splitlines(), 1):
        cells = [it.strip() for it in line.strip("|").split("|")]
        if line.startswith("|") and len(cells) not in (2, 6):
            missing.append(f"line {number}: {len(cells)} columns")
        elif line.startswith("|") and len(cells) == 6 and cells[0] not in ("Rule", "---"):
            rules += 1
            check_line(number, cells)
    for line in missing:
        print(line)
    print(f"{rules} rules, {len(missing)} names that aren't there")
    sys.exit(1 if missing else 0)


main()
