#!/usr/bin/env python3
"""Whether the launcher keeps its promises, on a small copy of the repository with a stand-in for the toolchain.

The stand-in takes four seconds for one crate, so that it is told, writes a program that tells its words, and fails
where a source has the word `broken`. The real toolchain isn't called. It ends with 0 where every case is as promised.
"""
import os
import pathlib
import shutil
import subprocess
import sys
import tempfile

TOP = pathlib.Path(__file__).resolve().parent.parent
CRATES = {
    "low": [], "left": ["low"], "right": ["low"], "joined": ["left", "right"], "mscs": ["joined"], "apart": ["low"],
}
STAND_IN = r"""#!/usr/bin/env bash
if grep -rq broken .. --include=*.rt; then echo "not proved"; exit 1; fi
if [ "$1" = lib ]; then
    case "$PWD" in */left) sleep 4 ;; esac
else
    mkdir -p out
    printf '#!/bin/sh\necho "$(cat) and $*"\n' > out/mscs
    chmod +x out/mscs
fi
"""
failed = []


def see(title, is_so):
    print(f"{'ok' if is_so else 'NOT SO'}: {title}")
    if not is_so:
        failed.append(title)


def make_copy(room):
    top = room / "checkout"
    for crate in CRATES:
        (top / "crates" / crate / "src").mkdir(parents=True)
        (top / "crates" / crate / "src" / "lib.rt").write_text("//\n")
    (top / "crates.txt").write_text("# Low\n" + "".join(f"{name}: {' '.join(low)}\n" for name, low in CRATES.items()))
    (top / "HANDLES").write_text("Handles allowed: Net.\n")
    for name in ("mscs", "build.py"):
        shutil.copy2(TOP / name, top / name)
    (room / "bin").mkdir()
    (room / "bin" / "rt").write_text(STAND_IN)
    os.chmod(room / "bin" / "rt", 0o755)
    return top


def main():
    room = pathlib.Path(tempfile.mkdtemp())
    top = make_copy(room)
    with_rt = {**os.environ, "PATH": f"{room / 'bin'}:/usr/bin:/bin", "XDG_CACHE_HOME": str(room / "cache")}
    bare = {**with_rt, "PATH": "/usr/bin:/bin"}

    def run(*words, at=top / "mscs", env=with_rt):
        return subprocess.run([at, *words], input="typed", env=env, cwd=room, capture_output=True, text=True)

    try:
        ran = run("session", env=bare)
        see("without the toolchain it ends with status 70", ran.returncode == 70)
        see("and tells what to install", "Install the Rattle toolchain" in ran.stderr)
        ran = run("serve", "-x", "a b")
        see("it builds, and passes words and input on", (ran.returncode, ran.stdout) == (0, "typed and serve -x a b\n"))
        see("it tells how many crates there are, and the time", "5 crates" in ran.stderr and "minutes on" in ran.stderr)
        see("it tells which crate is being proved", "proving left" in ran.stderr)
        see("and how many are done", "low is done, 1 of 5" in ran.stderr)
        see("crates that the program doesn't stand on aren't built", "apart" not in ran.stderr)
        ran = run("session", env=bare)
        see("a program that is built runs at once", (ran.returncode, ran.stdout) == (0, "typed and session\n"))
        see("and silently", ran.stderr == "")
        (room / "link").symlink_to(top / "mscs")
        ran = run("session", at=room / "link")
        see("it works through a symbolic link", (ran.stdout, ran.stderr) == ("typed and session\n", ""))
        (top / "crates" / "left" / "src" / "lib.rt").write_text("// broken\n")
        ran = run("session")
        see("where the build fails, no older program is run", (ran.returncode, ran.stdout) == (70, ""))
        see("and that is told", "could not be built" in ran.stderr)
        see("with what the crate that failed said at the end", ": not proved" in ran.stderr)
        see("and it fails again", run("session").returncode == 70)
        (top / "crates" / "left" / "src" / "lib.rt").write_text("//\n")
        ran = run("session")
        see("the program of sources as before runs again", (ran.returncode, ran.stdout) == (0, "typed and session\n"))
        (top / "crates" / "apart" / "src" / "lib.rt").write_text("// changed\n")
        see("another crate's change builds nothing", run("session").stderr == "")
        closed = subprocess.run(f"{top / 'mscs'} session < /dev/null >&- 2>&-", shell=True, env=with_rt)
        see("closed streams stay closed for the program", closed.returncode != 70)
    finally:
        shutil.rmtree(room)
    sys.exit(1 if failed else 0)


main()
