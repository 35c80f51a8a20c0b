#!/usr/bin/env python3
"""Compares the histories of a script with a Java machine that makes the same calls under one lock.

    tools/compare_with_lock.py CLASSES SCRIPT [--program ./deuce] [--engine tl2|lsa] [--rounds N]

CLASSES and SCRIPT are as `run` takes them. The program runs them over either engine, or over that of --engine. A Java
machine then makes the calls of each history anew, each lane of a phase on a thread of its own. Each call is made under
one lock, which goes to the calls in the order of the history. A reference is compared as null or not. Calls that were
refused or found no memory left nothing: they are counted, and not made. It needs javac and java of Java 17. A line
tells each call whose answers differ, and the last line of each engine counts. The status is 1 where one differs.
"""

import argparse
import json
import os
import subprocess
import sys
import tempfile
from dataclasses import dataclass

# The folder of the modules is part of the repository, and stays as it is.
sys.dont_write_bytecode = True

from common.building import TOP, compile_machine

ENGINES = ("tl2", "lsa")
HERE = os.path.dirname(os.path.abspath(__file__))
# Answers of calls that left nothing.
LEFT_OUT = ("refused", "nomemory")


@dataclass(frozen=True)
class Line:
    """A line of a history."""

    phase: int
    lane: int
    index: int
    method: str
    answer: str

    def is_made(self):
        """Whether the call ended as it does in Java, so that it can be made there."""
        return self.answer.split(" ")[0] not in LEFT_OUT

    def compared(self):
        """The answer without the address of an object."""
        return "ref" if self.answer.startswith("ref ") else self.answer


@dataclass
class Counts:
    """What was compared of the histories of an engine."""

    histories: int = 0
    calls: int = 0
    same: int = 0
    different: int = 0
    not_made: int = 0

    def told(self):
        return f"histories {self.histories}, calls {self.calls}, the same {self.same}, different {self.different}, not made {self.not_made}"


def scripted(phase):
    """The calls of a phase of a script, by what tells each in a history: the lane, if it has one, and the index."""
    if "bag" in phase:
        return {(None, index): call for index, call in enumerate(phase["bag"])}
    return {(lane, index): call for lane, calls in enumerate(phase["lanes"]) for index, call in enumerate(calls)}


def history(program, classes, script):
    """Runs a script, and answers the lines that it prints."""
    done = subprocess.run([program, "run", classes, script], capture_output=True, text=True)
    if done.returncode != 0:
        sys.exit(f"the program ends with status {done.returncode}: {done.stdout.strip() or done.stderr.strip()}")
    lines = [line.split(" ", 4) for line in done.stdout.splitlines() if line[0].isdigit()]
    return [Line(*map(int, numbers), method, answer) for *numbers, method, answer in lines]


def with_arguments(script, lines):
    """Each line with the arguments of its call. Every call of the script has one line."""
    phases = [scripted(phase) for phase in script["phases"]]
    answered = []
    for line in lines:
        lane = None if "bag" in script["phases"][line.phase] else line.lane
        call = phases[line.phase].pop((lane, line.index), None)
        if call is None or call["call"] != line.method:
            sys.exit(f"{line} is no call of the script, or has two lines")
        answered.append((line, call["args"]))
    if any(phases):
        sys.exit(f"calls of the script have no line: {phases}")
    return answered


def in_order(lines):
    """Whether lines keep the order of the phases, and in each phase that of each lane's calls."""
    last = {}
    for line in lines:
        before = last.get(line.lane, (0, -1))
        last[line.lane] = (line.phase, line.index)
        if before >= last[line.lane]:
            return False
    return all(a.phase <= b.phase for a, b in zip(lines, lines[1:]))


def under_lock(machine, classes, calls, room):
    """The answers of a Java machine to the calls of a history, in its order."""
    with open(f"{room}/calls", "w", encoding="utf-8") as file:
        for line, values in calls:
            words = [str(line.phase), str(line.lane), line.method, *map(json.dumps, values)]
            file.write(" ".join(words) + "\n")
    words = ["java", "-cp", f"{machine}:{classes}", "Locked", file.name]
    return subprocess.run(words, check=True, capture_output=True, text=True).stdout.splitlines()


def compare(counts, lines, answers):
    """Counts the calls of a history, and tells those that a Java machine answers otherwise."""
    for line, theirs in zip(lines, answers, strict=True):
        if line.compared() == theirs:
            counts.same += 1
        else:
            counts.different += 1
            print(f"{line.phase} {line.lane} {line.index} {line.method}: {line.answer}, and {theirs} in Java", flush=True)


def compare_engine(asked, machine, script, engine):
    """Runs a script over an engine, as often as is asked for, and compares the histories."""
    counts = Counts()
    with tempfile.TemporaryDirectory() as room:
        with open(f"{room}/script.json", "w", encoding="utf-8") as file:
            json.dump({**script, "engine": engine}, file)
        for _ in range(asked.rounds):
            calls = with_arguments(script, history(os.path.abspath(asked.program), asked.classes, file.name))
            made = [(line, values) for line, values in calls if line.is_made()]
            if not in_order([line for line, _ in made]):
                sys.exit("the history isn't in the order of phases and lanes")
            counts.histories += 1
            counts.calls += len(calls)
            counts.not_made += len(calls) - len(made)
            compare(counts, [line for line, _ in made], under_lock(machine, asked.classes, made, room))
    print(f"{engine}: lanes {script['lanes']}, {counts.told()}", flush=True)
    return counts


def words():
    """What the command line asks for."""
    parser = argparse.ArgumentParser(description=__doc__, formatter_class=argparse.RawDescriptionHelpFormatter)
    parser.add_argument("classes", help="the folder of class files")
    parser.add_argument("script", help="the script of the calls")
    parser.add_argument("--program", default=f"{TOP}/deuce", help="what runs them")
    parser.add_argument("--engine", choices=ENGINES, help="the engine; both where none is given")
    parser.add_argument("--rounds", type=int, default=1, help="how often each engine runs the script")
    return parser.parse_args()


def main():
    asked = words()
    with open(asked.script, encoding="utf-8") as file:
        script = json.load(file)
    with tempfile.TemporaryDirectory() as room:
        machine = compile_machine(room, f"{HERE}/compare_with_lock/Locked.java")
        counts = [compare_engine(asked, machine, script, engine) for engine in ([asked.engine] if asked.engine else ENGINES)]
    if any(it.different for it in counts):
        sys.exit(1)


if __name__ == "__main__":
    main()
