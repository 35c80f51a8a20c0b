"""Runs commands, and tells what they took."""

import multiprocessing
import os
import statistics
import tempfile
import time
from dataclasses import dataclass


@dataclass(frozen=True)
class Run:
    """How a command ended, what it printed, and what it took: seconds by the clock, seconds of processors, and its largest memory in MB."""

    status: int
    printed: str
    clock: float
    processors: float
    memory: float


def run(words, seconds=None):
    """Runs a command. Its memory counts from that of this process on, so large inputs are made apart. Status 124 is an end by time."""
    with tempfile.TemporaryFile("w+") as out, open(os.devnull, "w", encoding="utf-8") as nowhere:
        files = [(os.POSIX_SPAWN_DUP2, out.fileno(), 1), (os.POSIX_SPAWN_DUP2, nowhere.fileno(), 2)]
        limit = ["timeout", str(seconds)] if seconds else []
        before = time.monotonic()
        pid = os.posix_spawnp((limit + words)[0], limit + words, os.environ, file_actions=files)
        _, status, used = os.wait4(pid, 0)
        clock = time.monotonic() - before
        out.seek(0)
        return Run(os.waitstatus_to_exitcode(status), out.read(), clock, used.ru_utime + used.ru_stime, used.ru_maxrss / 1024)


def apart(function, *values):
    """Calls a function in a process of its own, which takes its memory with it."""
    process = multiprocessing.Process(target=function, args=values)
    process.start()
    process.join()
    if process.exitcode != 0:
        raise SystemExit(f"{function.__name__} failed")


def in_turn(commands, rounds):
    """Runs commands, given by name, one after another, so many times. Answers the runs of each."""
    runs = {name: [] for name in commands}
    for _ in range(rounds):
        for name, words in commands.items():
            it = run(words)
            if it.status != 0:
                raise SystemExit(f"{' '.join(words)[:200]} ended with {it.status}: {it.printed[:200]}")
            runs[name].append(it)
    return runs


def median(runs, what):
    """The median of what was measured: clock, processors or memory."""
    return statistics.median(getattr(it, what) for it in runs)
