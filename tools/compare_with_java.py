#!/usr/bin/env python3
"""Compares the program with a Java machine's interpreter on the same class files.

    tools/compare_with_java.py [PROGRAM]

PROGRAM is crates/deuce_main/out/deuce_main where none is given. It needs javac and java of Java 17. Each workload runs
seven times under both, in turn, and so does one call of it that does no work. A time is the median with work less the
median without, in seconds of processors; memory is the median of the largest of each run with work. The last answers
of both must be the same.
"""

import os
import sys
import tempfile

# The folder of the modules is part of the repository, and stays as it is.
sys.dont_write_bytecode = True

from common.building import PROGRAM, TOP, compile_sources
from common.calls import JAVA, compile_caller, write_script, write_words
from common.runs import apart, in_turn, median

ROUNDS = 7
COUNTER = "Counter.inc()I"
# what is told of a workload, its calls, and the call that does no work
WORKLOADS = [
    ("an int loop", [("Work.loop(I)I", 900_000)] * 20, ("Work.loop(I)I", 0)),
    ("gcd by short calls", [("Work.pairs(I)I", 100_000)] * 20, ("Work.pairs(I)I", 0)),
    ("190 frames deep", [("Work.deep(I)I", 5_000)] * 8, ("Work.deep(I)I", 0)),
    ("a counter, 300,000 times in a call", [("Work.count(I)I", 300_000)] * 8, ("Work.count(I)I", 0)),
    ("100,000 calls of Counter", [(COUNTER,)] * 100_000, (COUNTER,)),
]


def read(path):
    with open(path, encoding="utf-8") as file:
        return file.read()


def write_calls(folder):
    """Writes the calls of each workload, and those without work, for both machines."""
    for number, (_, calls, start) in enumerate(WORKLOADS):
        for name, lane in (("work", calls), ("start", [start])):
            write_script(f"{folder}/{number}-{name}.json", [[lane]], budget=1_000_000)
            write_words(f"{folder}/{number}-{name}.words", [[lane]], [start[0]])


def compare(program, room, number):
    """Runs one workload, and answers the runs of both machines, with work and without."""
    method = WORKLOADS[number][2][0]
    classes, caller = f"{room}/classes", f"{room}/caller-{number}"
    compile_caller(caller, classes, [method], False)
    commands = {}
    for name in ("work", "start"):
        commands[f"ours {name}"] = [program, "run", classes, f"{room}/{number}-{name}.json"]
        owner = method.split(".")[0]
        commands[f"theirs {name}"] = ["java", "-Xint", "-cp", f"{classes}:{caller}", "Lanes", f"{room}/{number}-{name}.words", owner]
    return in_turn(commands, ROUNDS)


def print_row(told, runs):
    """Prints what a workload took, if the last answers are the same."""
    ours, theirs = runs["ours work"], runs["theirs work"]
    if any(a.printed.splitlines()[-2].split()[-1] != b.printed.strip() for a, b in zip(ours, theirs)):
        sys.exit(f"{told}: the answers differ")
    times = [median(runs[f"{side} work"], "processors") - median(runs[f"{side} start"], "processors") for side in ("ours", "theirs")]
    memory = [median(it, "memory") for it in (ours, theirs)]
    cells = (told, f"{times[0]:.3f}", f"{times[1]:.3f}", f"{times[0] / times[1]:.2f}", f"{memory[0]:.0f}", f"{memory[1]:.0f}")
    print(f"| {' | '.join(cells)} |", flush=True)


def main():
    program = os.path.abspath(sys.argv[1] if len(sys.argv) > 1 else PROGRAM)
    with tempfile.TemporaryDirectory() as room:
        sources = {"Work": f"{JAVA}/Work.java", "Counter": f"{TOP}/examples/src/Counter.java"}
        compile_sources(room, {name: read(path) for name, path in sources.items()})
        apart(write_calls, room)
        print("| What | Seconds | Seconds of `java -Xint` | Ratio | MB | MB of `java -Xint` |\n|---|---|---|---|---|---|")
        for number, (told, _, _) in enumerate(WORKLOADS):
            print_row(told, compare(program, room, number))


if __name__ == "__main__":
    main()
