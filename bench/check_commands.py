#!/usr/bin/env python3
"""Whether the program, its usage text, the manual, the manual page and the completions have the same commands, and
whether the program, the manual, the manual page and README.md have the same statuses.

The usage text, the words of all commands and the numbers of the statuses are read from the definitions that the
program's contracts cite. The usage text names the first commands of the manual; the others are named there alone. It
ends with 0 where all agree.
"""
import pathlib
import re
import sys

TOP = pathlib.Path(__file__).resolve().parent.parent
# The status of the launcher, which the program doesn't have.
LAUNCHER = 70


def read(name):
    return (TOP / name).read_text()


def in_usage():
    """The forms of the commands, each a name with its words, in the order of the text."""
    text = re.search(r'text_of Usage = codes "usage: mscs ([^"]*)"', read("crates/clus_cli/specs/Statuses.antt"))
    return text[1].split(", ")


def in_program():
    """The first word of each form that the program takes."""
    return list(dict.fromkeys(re.findall(r'^words_of .*?= codes "(\w+)"', read("crates/command_words/specs/Forms.antt"), re.M)))


def in_manual():
    return re.findall(r"^    mscs (.*)$", read("docs/commands.md"), re.M)


def in_manual_sections():
    return re.findall(r"^## `(.*)`$", read("docs/commands.md"), re.M)


def in_page():
    synopsis = read("man/mscs.1").partition(".SH SYNOPSIS")[2].partition(".SH DESCRIPTION")[0]
    return [re.sub(r"\\f.", "", it) for it in re.findall(r"^\.B mscs (.*)$", synopsis, re.M)]


def in_page_sections():
    commands = read("man/mscs.1").partition(".SH COMMANDS")[2].partition(".SH FILES")[0]
    return [re.sub(r"\\f.", "", it) for it in re.findall(r"^\.TP\n\.B (.*)$", commands, re.M)]


def in_completions():
    return re.search(r'-W "([^"]*)"', read("completions/mscs.bash"))[1].split()


def statuses_in_program():
    numbers = re.findall(r"^number_of .* = (\d+)$", read("crates/clus_cli/specs/Statuses.antt"), re.M)
    return sorted({int(it) for it in numbers})


def statuses_in_table(name):
    return sorted({int(it) for it in re.findall(r"^\| (\d+) \|", read(name), re.M)} - {LAUNCHER})


def statuses_in_page():
    part = read("man/mscs.1").partition(".SH EXIT STATUS")[2].partition(".SH EXAMPLES")[0]
    return sorted({int(it) for it in re.findall(r"^\.TP\n(\d+)$", part, re.M)} - {LAUNCHER})


def main():
    usage, manual = in_usage(), in_manual()
    names = [form.split()[0] for form in manual]
    wanted = {
        "docs/commands.md, its head, against the usage text": (manual[:len(usage)], usage),
        "docs/commands.md, its head, against the program": (sorted(names), sorted(in_program())),
        "docs/commands.md, its sections": (in_manual_sections(), manual),
        "man/mscs.1, its synopsis": (in_page(), manual),
        "man/mscs.1, its commands": (in_page_sections(), manual),
        "completions/mscs.bash": (in_completions(), names),
        "docs/commands.md, its statuses": (statuses_in_table("docs/commands.md"), statuses_in_program()),
        "README.md, its statuses": (statuses_in_table("README.md"), statuses_in_program()),
        "man/mscs.1, its statuses": (statuses_in_page(), statuses_in_program()),
    }
    is_good = bool(usage)
    for place, (found, expected) in wanted.items():
        if found != expected:
            print(f"{place}: {found} in place of {expected}")
            is_good = False
    if f"`usage: mscs {', '.join(usage)}`" not in read("docs/commands.md"):
        print("docs/commands.md: its table of statuses has another usage text")
        is_good = False
    if is_good:
        print(f"the same {len(manual)} commands everywhere: {', '.join(names)}; and {len(statuses_in_program())} statuses")
    sys.exit(0 if is_good else 1)


main()
