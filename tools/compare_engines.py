#!/usr/bin/env python3
"""Compares the engines: the same calls over TL2 and over LSA.

    tools/compare_engines.py [PROGRAM] [--rounds N]

PROGRAM is crates/deuce_main/out/deuce_main where none is given. It needs javac of Java 17. Counters are calls of one
method that adds one to a field, on 1, 2, 4 and 16 lanes. Readers sum an array of 1,000 ints, each on two lanes, while
two lanes write elements of it. The banks are those of `bank`. Each runs seven times over either engine, in turn, and so
does each without its calls. A time is the median with calls less the median without, by the clock and of processors.
Both engines must print the same sums.
"""

import argparse
import os
import sys
import tempfile

# The folder of the modules is part of the repository, and stays as it is.
sys.dont_write_bytecode = True

from common.building import PROGRAM, compile_sources
from common.calls import write_script
from common.runs import apart, in_turn, median

ENGINES = ("tl2", "lsa")
CALLS, READS, WRITES, ELEMENTS = 90_000, 1_000, 20_000, 1_000
BANKS = [(7, 1000, 99_999, 1), (7, 1000, 99_999, 4), (7, 1000, 99_999, 16), (7, 50, 20_000, 8)]
COUNTER = """import org.deuce.Atomic;
public class Counter {
    static int n;
    @Atomic public static int inc() { return ++n; }
    @Atomic public static int get() { return n; }
}
"""
ROOM = """import org.deuce.Atomic;
public class Room {
    static int[] all = new int[%d];
    @Atomic public static int sum() {
        int sum = 0;
        for (int i = 0; i < all.length; i++) sum += all[i];
        return sum;
    }
    @Atomic public static int move(int from, int to) {
        all[from]--;
        all[to]++;
        return 0;
    }
}
""" % ELEMENTS


def counters(lanes):
    """Calls of a counter, dealt to lanes, and its value."""
    return [[[("Counter.inc()I",)] * (CALLS // lanes) for _ in range(lanes)], [[("Counter.get()I",)]]]


def readers():
    """Two lanes that read all elements, two that move between them, and the sum."""
    moves = [[("Room.move(II)I", (k * step) % ELEMENTS, (k * step + 1) % ELEMENTS) for k in range(WRITES)] for step in (7, 13)]
    return [[[("Room.sum()I",)] * READS] * 2 + moves, [[("Room.sum()I",)]]]


def without(phases):
    """The same phases, the last alone with calls."""
    return [[[] for _ in phases[0]], phases[1]]


def write_scripts(room, phases):
    """Writes the calls of phases for either engine, with those of the first phase (work) and without (start)."""
    for engine in ENGINES:
        write_script(f"{room}/work.{engine}.json", phases, engine=engine)
        write_script(f"{room}/start.{engine}.json", without(phases), engine=engine)


def scripted(program, room, sources, phases):
    """What runs the calls of phases, by name."""
    classes = compile_sources(room, sources)
    apart(write_scripts, room, phases)
    return {f"{engine} {name}": [program, "run", classes, f"{room}/{name}.{engine}.json"] for engine in ENGINES for name in ("work", "start")}


def banked(program, bank):
    """What runs a bank, by name."""
    seed, accounts, calls, lanes = bank
    counts = {"work": calls, "start": 0}
    return {f"{engine} {name}": [program, "bank", *map(str, (seed, accounts, counts[name], lanes)), engine] for engine in ENGINES for name in counts}


def row(title, commands, rounds):
    """The row of a workload."""
    runs = in_turn(commands, rounds)
    if len({it.printed.split()[-1] for engine in ENGINES for it in runs[f"{engine} work"]}) != 1:
        sys.exit(f"{title}: the sums differ")
    cells = [f"{median(runs[f'{engine} work'], it) - median(runs[f'{engine} start'], it):.2f}" for engine in ENGINES for it in ("clock", "processors")]
    print(f"| {title} | {' | '.join(cells)} |", flush=True)


def main():
    parser = argparse.ArgumentParser(description=__doc__, formatter_class=argparse.RawDescriptionHelpFormatter)
    parser.add_argument("program", nargs="?", default=PROGRAM, help="the program whose engines are compared")
    parser.add_argument("--rounds", type=int, default=7, help="how often each runs")
    words = parser.parse_args()
    program = os.path.abspath(words.program)
    print("| Calls | TL2, clock | processors | LSA, clock | processors |")
    print("|---|" + "---|" * 4)
    for lanes in (1, 2, 4, 16):
        with tempfile.TemporaryDirectory() as room:
            row(f"{CALLS:,} of a counter, lanes: {lanes}", scripted(program, room, {"Counter": COUNTER}, counters(lanes)), words.rounds)
    with tempfile.TemporaryDirectory() as room:
        row(f"{2 * READS:,} sums of {ELEMENTS:,} elements beside {2 * WRITES:,} moves", scripted(program, room, {"Room": ROOM}, readers()), words.rounds)
    for bank in BANKS:
        row(f"`bank {' '.join(map(str, bank))}`", banked(program, bank), words.rounds)


if __name__ == "__main__":
    main()
