#!/usr/bin/env python3
"""Makes random Java programs, and compares what they answer here with what a Java machine answers.

    tools/random_java.py --seed N --count N [--first N] [--compiler ecj] [--program ./deuce] [--jobs N] [--keep FOLDER]
    tools/random_java.py --seed N --count N --rows FOLDER [--in-row N] [--compiler ecj]

The first form compiles each program, has a Java machine answer its calls, runs it on the program, and prints a line for
each that differs and a summary. The status is 1 where one differs. The files of such programs are put under --keep.
The second form runs nothing. It writes rows of crates/rows, which is FOLDER, from the Java machine's answers alone.
It needs javac and java of Java 17. With --compiler ecj, `ecj -1.5` compiles the programs.
A program depends on the seed and on its number alone.
"""

import argparse
import os
import sys
import tempfile

# The folder of the modules is part of the repository, and stays as it is.
sys.dont_write_bytecode = True

from common.building import TOP
from random_java.building import COMPILERS, Workshop
from random_java.comparing import compare_all, keep, summary
from random_java.rows import write_rows

# How many programs are compiled at a time.
BATCH = 100


def words():
    """What the command line asks for."""
    parser = argparse.ArgumentParser(description=__doc__, formatter_class=argparse.RawDescriptionHelpFormatter)
    parser.add_argument("--seed", type=int, required=True, help="what the programs are made from")
    parser.add_argument("--count", type=int, required=True, help="how many programs are made")
    parser.add_argument("--first", type=int, default=0, help="the number of the first one")
    parser.add_argument("--compiler", choices=COMPILERS, default="javac", help="what compiles them")
    parser.add_argument("--program", default=f"{TOP}/deuce", help="what runs them")
    parser.add_argument("--jobs", type=int, default=os.cpu_count(), help="how many run side by side")
    parser.add_argument("--keep", metavar="FOLDER", help="where the files of programs that differ are put")
    parser.add_argument("--rows", metavar="FOLDER", help="writes rows there, and runs nothing")
    parser.add_argument("--in-row", type=int, default=20, help="how many programs a row has")
    return parser.parse_args()


def batches(asked):
    numbers = range(asked.first, asked.first + asked.count)
    return [numbers[start : start + BATCH] for start in range(0, asked.count, BATCH)]


def compare(asked, room):
    """Compares all programs, and answers whether none differs."""
    program = os.path.abspath(asked.program)
    workshop, outcomes, faulty = Workshop(f"{room}/work", asked.compiler), [], {}
    for numbers in batches(asked):
        answered, faults = workshop.build(asked.seed, numbers)
        faulty.update(faults)
        for it, outcome in compare_all(program, workshop, answered, asked.jobs):
            outcomes.append(outcome)
            if outcome.kind != "equal":
                print(f"{it.program.package} {outcome.kind}: {outcome.told}", flush=True)
            if outcome.kind == "different" and asked.keep:
                keep(asked.keep, workshop, it)
    for package, fault in faulty.items():
        print(f"{package} not compiled: {fault}")
    print(summary(outcomes, len(faulty)))
    return all(outcome.kind != "different" for outcome in outcomes)


def make_rows(asked, room):
    """Writes rows of all programs."""
    workshop = Workshop(f"{room}/work", asked.compiler)
    answered, faulty = workshop.build(asked.seed, range(asked.first, asked.first + asked.count))
    rows = write_rows(asked.rows, workshop, answered, asked.in_row)
    print(f"programs {len(answered)}, rows {rows}, not compiled {len(faulty)}")


def main():
    asked = words()
    with tempfile.TemporaryDirectory() as room:
        if asked.rows:
            make_rows(asked, room)
        elif not compare(asked, room):
            sys.exit(1)


if __name__ == "__main__":
    main()
