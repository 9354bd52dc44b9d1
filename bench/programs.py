"""Runs of the program that the launcher has built, timed, for the scripts beside it."""
import os
import pathlib
import statistics
import subprocess
import sys
import tempfile
import time

TOP = pathlib.Path(__file__).resolve().parent.parent
PROGRAM = TOP / "crates" / "mscs" / "out" / "mscs"


class Timed:
    """The times of some runs with the output thrown away, and the greatest memory of one in bytes.

    The system counts into it what this script itself held when it started the program, so it is told as a bound.
    """

    def __init__(self, words, data=b"", runs=5):
        self.times, self.memory = [], 0
        with tempfile.TemporaryFile() as source:
            source.write(data)
            for _ in range(runs):
                source.seek(0)
                begin = time.perf_counter()
                process = subprocess.Popen([PROGRAM, *words], stdin=source, stdout=subprocess.DEVNULL)
                _, status, usage = os.wait4(process.pid, 0)
                process.returncode = os.waitstatus_to_exitcode(status)
                self.times.append(time.perf_counter() - begin)
                self.memory = max(self.memory, usage.ru_maxrss * 1024)
                if process.returncode != 0:
                    sys.exit(f"{' '.join(words)} ended with status {process.returncode}")

    @property
    def best(self):
        return min(self.times)

    def text(self):
        median = statistics.median(self.times)
        return f"best {self.best:.3f} s, median {median:.3f} s of {len(self.times)} runs, at most {self.memory / 1e6:.1f} MB of memory"


def printed(words, data=b""):
    """What the program prints, which must end with status 0."""
    return subprocess.run([PROGRAM, *words], input=data, stdout=subprocess.PIPE, check=True).stdout.decode()


def aim(title, seconds, most):
    print(f"{title}: {seconds:.3f} s of at most {most} s, {'as aimed at' if seconds < most else 'TOO LONG'}")
