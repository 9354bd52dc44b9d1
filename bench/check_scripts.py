#!/usr/bin/env python3
"""Whether the scripts of examples/ print what stands beside them, and the picture of docs/ is that of its script.

It runs the program that the launcher has built, and ends with 0 where all is so.
"""
import pathlib
import subprocess
import sys
import tempfile

TOP = pathlib.Path(__file__).resolve().parent.parent
PROGRAM = TOP / "crates" / "mscs" / "out" / "mscs"
CHART = TOP / "examples" / "sequence_chart.py"
PICTURES = {"death-of-the-sender": "death_of_the_sender.svg"}
found = []


def replayed(script):
    done = subprocess.run([PROGRAM, "replay"], input=script, capture_output=True)
    if done.returncode != 0:
        found.append(f"status {done.returncode}: {done.stderr.decode().strip()}")
    return done.stdout


def picture_of(script):
    """The picture that is made of the script by way of the program."""
    marked = subprocess.run([sys.executable, CHART, "--mark", script], capture_output=True, check=True).stdout
    with tempfile.TemporaryDirectory() as folder:
        printed, picture = pathlib.Path(folder) / "printed", pathlib.Path(folder) / "chart.svg"
        printed.write_bytes(replayed(marked))
        subprocess.run([sys.executable, CHART, script, printed, picture], check=True)
        return picture.read_bytes()


def main():
    scripts = sorted((TOP / "examples" / "scripts").glob("*.script"))
    for script in scripts:
        if replayed(script.read_bytes()) != script.with_suffix(".printed").read_bytes():
            found.append(f"{script.name} prints something else than {script.stem}.printed")
        if script.stem in PICTURES and picture_of(script) != (TOP / "docs" / PICTURES[script.stem]).read_bytes():
            found.append(f"docs/{PICTURES[script.stem]} isn't the picture of {script.name}")
    for line in found:
        print(line)
    print(f"{len(scripts)} scripts, {len(found)} faults")
    sys.exit(1 if found else 0)


main()
