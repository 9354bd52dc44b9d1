#!/usr/bin/env python3
"""Builds the program `mscs` from the sources beside this script, where it isn't built from them yet.

It prints the path of the program on standard output and all else on standard error, and ends with 0 only if that
program was built from these very sources. The proofs run on a copy of the program's crates, in a folder that it
names, so that all processors are used; what is proved there is kept for the next build.
"""
import collections
import concurrent.futures
import fcntl
import hashlib
import os
import pathlib
import shutil
import subprocess
import sys
import tempfile
import threading
import time

TOP = pathlib.Path(__file__).resolve().parent
PROGRAM = TOP / "crates" / "mscs" / "out" / "mscs"
RECORD = PROGRAM.with_suffix(".sources")
PARTS = ("src", "specs", "proofs")
KIT = "rattle-kit-13f"
# What a first build of all crates takes on four free processors, and what one proof may take of the memory. More
# processors don't make it much shorter: the last crates stand on one another and are proved in turn.
FIRST_BUILD_MINUTES = 45
PROOF_BYTES = 4 << 30
# How many processors one proof makes use of, and how long it runs before it is told.
MOST_JOBS = 8
TOLD_AFTER_SECONDS = 3
# How much of what a failed command said is told.
LAST_LINES = 20
CANNOT = 70


def tell(text):
    try:
        os.write(2, f"mscs: {text}\n".encode())
    except OSError:
        pass


def fail(text):
    tell(text)
    sys.exit(CANNOT)


def crates_listed():
    """Each crate of the repository with the crates that it stands on directly."""
    listed = {}
    for line in (TOP / "crates.txt").read_text().splitlines():
        name, colon, below = line.partition("#")[0].partition(":")
        if colon:
            listed[name.split()[0]] = below.split()
    return {name: [it for it in below if it in listed] for name, below in listed.items()}


def all_below(name, listed):
    """The crates that a crate stands on, the lowest first."""
    found = []
    for low in listed[name]:
        found += [it for it in [*all_below(low, listed), low] if it not in found]
    return found


def files_of(crate):
    folder = TOP / "crates" / crate
    return sorted(it for part in PARTS for it in (folder / part).rglob("*") if it.is_file())


def sum_of_sources(crates):
    total = hashlib.sha256()
    for crate in crates:
        for file in files_of(crate):
            data = file.read_bytes()
            total.update(f"{file.relative_to(TOP)} {len(data)}\n".encode() + data)
    for name in ("crates.txt", "HANDLES"):
        total.update((TOP / name).read_bytes())
    return total.hexdigest()


def record_of(sources):
    """What tells that the program was built from these sources."""
    return f"{sources} {hashlib.sha256(PROGRAM.read_bytes()).hexdigest()}\n"


def is_current(sources):
    return os.access(PROGRAM, os.X_OK) and RECORD.is_file() and RECORD.read_text() == record_of(sources)


def work_folder():
    """Where the crates are proved: a folder of the user's, one for each checkout."""
    cache = os.environ.get("XDG_CACHE_HOME") or os.path.expanduser("~/.cache")
    return pathlib.Path(cache) / "mscs" / hashlib.sha256(str(TOP).encode()).hexdigest()[:16]


def processors():
    memory = os.sysconf("SC_PAGE_SIZE") * os.sysconf("SC_PHYS_PAGES")
    return max(1, min(len(os.sched_getaffinity(0)), memory // PROOF_BYTES))


def copy_crates(lane, crates):
    """Puts the sources of these crates into the folder, and keeps what was proved there."""
    (lane / "crates").mkdir(parents=True, exist_ok=True)
    for crate in crates:
        folder = lane / "crates" / crate
        for part in PARTS:
            shutil.rmtree(folder / part, ignore_errors=True)
            if (TOP / "crates" / crate / part).is_dir():
                shutil.copytree(TOP / "crates" / crate / part, folder / part)
    for folder in (lane / "crates").iterdir():
        if folder.name not in crates:
            shutil.rmtree(folder)
    lines = (TOP / "crates.txt").read_text().splitlines()
    kept = [it for it in lines if it.partition(":")[0].split()[:1] and it.partition(":")[0].split()[0] in crates]
    (lane / "crates.txt").write_text("\n".join(kept) + "\n")
    shutil.copyfile(TOP / "HANDLES", lane / "HANDLES")


class Lanes:
    """Copies of the crates, one for each crate that may be in proof at a time: the toolchain locks the folder of the
    crate that it works in and those of all crates below it, so in one copy the proofs would wait for one another."""

    def __init__(self, work, crates, count):
        self.all = [work / f"lane-{number}" for number in range(count)]
        self.idle = list(self.all)
        for lane in self.all:
            copy_crates(lane, crates)

    def take(self, crate):
        """An idle copy: where there is one, one in which the crate was proved before."""
        lane = max(self.idle, key=lambda it: (it / "crates" / crate / "out" / "incremental").is_dir())
        self.idle.remove(lane)
        return lane

    def give_back(self, lane):
        self.idle.append(lane)

    def share(self, crate, lane):
        """Gives the library that was built of the crate in one copy to the others."""
        made = lane / "crates" / crate / "out" / "rlib"
        for other in self.all:
            to = other / "crates" / crate / "out" / "rlib"
            if other != lane and made.is_dir():
                shutil.rmtree(to, ignore_errors=True)
                shutil.copytree(made, to, copy_function=os.link)


def lines_ahead(crates, listed):
    """For each crate, lowest first, the lines of the longest chain of crates that stand on one another from it up."""
    ahead = {}
    for crate in reversed(crates):
        above = max((ahead[it] for it in crates if crate in listed[it]), default=0)
        ahead[crate] = above + sum(it.read_bytes().count(b"\n") for it in files_of(crate))
    return ahead


class Progress:
    """Tells which crates are being proved, and how many are done of how many."""

    def __init__(self, count):
        self.count, self.done, self.begin = count, 0, time.time()

    def soon(self, crate):
        """Tells that the crate is being proved, unless the timer is stopped before: it is done where nothing changed."""
        timer = threading.Timer(TOLD_AFTER_SECONDS, self.is_begun, [crate])
        timer.daemon = True
        timer.start()
        return timer

    def is_begun(self, crate):
        tell(f"proving {crate}, with {self.done} of {self.count} crates done after {self.minutes()}")

    def is_done(self, crate):
        self.done += 1
        tell(f"{crate} is done, {self.done} of {self.count} crates after {self.minutes()}")

    def minutes(self):
        seconds = int(time.time() - self.begin)
        return f"{seconds // 60} min {seconds % 60:02} s"


def run_rt(words, crate, lane, log):
    """Runs the toolchain's command in the folder of the crate, logs what it says behind the crate's name, and returns
    its status and the last lines."""
    last = collections.deque(maxlen=LAST_LINES)
    streams = {"stdin": subprocess.DEVNULL, "stdout": subprocess.PIPE, "stderr": subprocess.STDOUT}
    with subprocess.Popen(["rt", *words], cwd=lane / "crates" / crate, text=True, errors="replace", **streams) as ran:
        for line in ran.stdout:
            line = f"{crate}: {line.rstrip()}"
            last.append(line)
            log.write(line + "\n")
            log.flush()
    return ran.returncode, list(last)


def prove_libraries(lanes, crates, listed, log, progress):
    """Proves the crates, each behind those that it stands on: as many at once as there are copies of them, those with
    the longest chain above them first. Where fewer are ready, each gets more of the processors. Returns what the first
    command said at the end that failed, or nothing."""
    ahead = lines_ahead(crates, listed)
    waiting = sorted(crates, key=lambda it: -ahead[it])
    done, running, free, failed = set(), {}, len(lanes.all), []

    def prove(crate, lane, jobs):
        timer = progress.soon(crate)
        try:
            return run_rt(["lib", "--jobs", str(jobs)], crate, lane, log)
        finally:
            timer.cancel()

    with concurrent.futures.ThreadPoolExecutor(free) as pool:
        while True:
            ready = [it for it in waiting if done.issuperset(listed[it])][:free] if not failed else []
            for place, crate in enumerate(ready):
                jobs = min(-(-free // (len(ready) - place)), MOST_JOBS)
                lane = lanes.take(crate)
                waiting.remove(crate)
                free -= jobs
                running[pool.submit(prove, crate, lane, jobs)] = crate, lane, jobs
            if not running:
                return failed
            for ended in concurrent.futures.wait(running, return_when=concurrent.futures.FIRST_COMPLETED).done:
                crate, lane, jobs = running.pop(ended)
                free += jobs
                lanes.give_back(lane)
                status, last = ended.result()
                if status:
                    failed = failed or last or [f"{crate}: rt ended with status {status}"]
                else:
                    lanes.share(crate, lane)
                    done.add(crate)
                    progress.is_done(crate)


def prove_crates(lanes, crates, listed, log):
    """Proves all crates, the program's last, and builds the program. Returns the program's file, and what the command
    said at the end that failed, or nothing."""
    progress = Progress(len(crates))
    *libraries, program = crates
    lane = lanes.all[0]
    made = lane / "crates" / program / "out" / program
    failed = prove_libraries(lanes, libraries, listed, log, progress)
    if failed:
        return made, failed
    tell(f"proving {program}, and building the program, after {progress.minutes()}")
    # A drill touches no file, and the program ends with 0; any other status is one of rt's.
    status, last = run_rt(["run", "--", "drill", "1", "1"], program, lane, log)
    return made, (last or [f"{program}: rt ended with status {status}"]) if status else []


def build(crates, listed, work, sources):
    log_path = work / "build.log"
    tell(f"the program isn't built from these sources yet: {len(crates)} crates are to be proved first")
    tell(f"a first build takes about {FIRST_BUILD_MINUTES} minutes on 4 free processors; later ones prove what changed")
    tell(f"the work is in {work}, the log of it in {log_path}")
    with open(log_path, "w") as log:
        made, failed = prove_crates(Lanes(work, crates, processors()), crates, listed, log)
    if failed or not made.is_file():
        for line in failed:
            tell(line)
        fail(f"the program could not be built, so nothing was run; {log_path} has all that was said")
    install(made, sources)


def install(made, sources):
    """Puts the program where it is run from, and records what it was built from."""
    PROGRAM.parent.mkdir(exist_ok=True)
    RECORD.unlink(missing_ok=True)
    with tempfile.NamedTemporaryFile(dir=PROGRAM.parent, delete=False) as copy:
        copy.write(made.read_bytes())
    os.chmod(copy.name, 0o755)
    os.replace(copy.name, PROGRAM)
    RECORD.write_text(record_of(sources))


def build_in_turn(crates, listed, sources):
    """Builds the program, unless another call is doing so: then that one's is waited for."""
    work = work_folder()
    work.mkdir(parents=True, exist_ok=True)
    with open(work / "lock", "w") as lock:
        try:
            fcntl.flock(lock, fcntl.LOCK_EX | fcntl.LOCK_NB)
        except BlockingIOError:
            tell("another build of these sources is under way; waiting for it")
            fcntl.flock(lock, fcntl.LOCK_EX)
        if not is_current(sources):
            build(crates, listed, work, sources)


def take_streams():
    """A standard stream that is closed would be the number of the next file that is opened."""
    for number in range(3):
        try:
            os.fstat(number)
        except OSError:
            os.open(os.devnull, os.O_RDWR)


def main():
    take_streams()
    listed = crates_listed()
    crates = [*all_below("mscs", listed), "mscs"]
    sources = sum_of_sources(crates)
    if not is_current(sources):
        if shutil.which("rt") is None:
            fail(
                "the program isn't built, and there is no command `rt` on the PATH to build it with. Install the "
                f"Rattle toolchain ({KIT}) and Python 3.8 or later, and put the toolchain's folder bin on the PATH."
            )
        build_in_turn(crates, listed, sources)
    os.write(1, f"{PROGRAM}\n".encode())


try:
    main()
except OSError as error:
    fail(f"the program could not be built: {error}")
except KeyboardInterrupt:
    fail("the build was interrupted; what was proved is kept for the next one")
