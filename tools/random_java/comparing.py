"""Runs programs here, and compares each answer with that of a Java machine."""

import os
import shutil
import subprocess
from collections import Counter
from concurrent.futures import ThreadPoolExecutor
from dataclasses import dataclass

from .building import script, write

# A run that takes longer counts as a difference.
SECONDS = 300


@dataclass
class Outcome:
    """How a program's answers compare: equal, refused (equal up to a call that passes a limit) or different."""

    kind: str
    calls: int  # how many were compared
    thrown: int  # how many of these ended by an exception
    told: str = ""


def compare_all(program, workshop, answered, jobs):
    """Compares programs, so many side by side, and answers each with its outcome."""
    with ThreadPoolExecutor(jobs) as workers:
        return list(zip(answered, workers.map(lambda it: compare(program, workshop, it), answered)))


def compare(program, workshop, answered):
    """Runs one program, and compares its answers."""
    room = f"{workshop.folder}/runs/{answered.program.package}"
    shutil.rmtree(room, ignore_errors=True)
    os.makedirs(room)
    workshop.copy_classes(answered.program, f"{room}/classes")
    write(f"{room}/script.json", script([answered.program]))
    try:
        words = [program, "run", f"{room}/classes", f"{room}/script.json"]
        done = subprocess.run(words, capture_output=True, text=True, timeout=SECONDS)
    except subprocess.TimeoutExpired:
        return Outcome("different", 0, 0, f"no end within {SECONDS} seconds")
    if done.returncode != 0:
        return Outcome("different", 0, 0, f"status {done.returncode}: {done.stdout.strip() or done.stderr.strip()}")
    return compare_answers(answered, done.stdout.splitlines())


def compare_answers(answered, history):
    """Compares the lines of a history with the answers of the Java machine, up to the first that is refused."""
    ours = [line.split(" ", 4)[4] for line in history[1:-1]]
    thrown = 0
    for i, (call, theirs) in enumerate(zip(answered.program.calls, answered.answers)):
        answer = ours[i] if i < len(ours) else "nothing"
        if answer.startswith("refused"):
            return Outcome("refused", i, thrown, f"{call.method} {answer}")
        if answer != theirs:
            arguments = ", ".join(map(str, call.arguments))
            told = f"call {i}, {call.method} of ({arguments}): {answer}, and {theirs} in Java"
            return Outcome("different", i, thrown, told)
        thrown += answer.startswith("threw")
    if history[-1] != "unplaced 0" or len(ours) != len(answered.answers):
        return Outcome("different", len(ours), thrown, f"it ends with {history[-1]}")
    return Outcome("equal", len(ours), thrown)


def summary(outcomes, faulty):
    """One line on all programs."""
    kinds = Counter(outcome.kind for outcome in outcomes)
    calls = sum(outcome.calls for outcome in outcomes)
    thrown = sum(outcome.thrown for outcome in outcomes)
    return (
        f"programs {len(outcomes)}, calls {calls}, exceptions {thrown}, differences {kinds['different']}, "
        f"refused {kinds['refused']}, not compiled {faulty}"
    )


def keep(folder, workshop, answered):
    """Copies the sources, class files, script, calls and answers of a program into a folder."""
    package = answered.program.package
    room = f"{folder}/{package}"
    shutil.rmtree(room, ignore_errors=True)
    shutil.copytree(f"{workshop.folder}/runs/{package}", room)
    shutil.copytree(f"{workshop.folder}/src/{package}", f"{room}/src/{package}")
    for name in (package, f"{package}.answers"):
        shutil.copy(f"{workshop.folder}/calls/{name}", f"{room}/{name.replace(package, 'calls')}")
