#!/usr/bin/env python3
"""Compares banks with the same rewritten classes on a Java machine, over transactions in Java.

    tools/compare_bank.py [PROGRAM] [--bank SEED ACCOUNTS CALLS LANES].. [--rounds N]

PROGRAM is crates/deuce_main/out/deuce_main where none is given. It needs javac and java of Java 17. The sources and the
calls are those of docs/FORMATS.md, section The bank. `PROGRAM rewrite` rewrites the classes. The Java machine runs the
new class files, by its interpreter (-Xint) and with its compiler, over tools/compare_with_java/org/deuce/transaction,
each lane on a thread. PROGRAM runs the old ones (run) and a bank of its own (bank). Each runs seven times, in turn, and
so does each on a bank without transfers. A time is the median with transfers less the median without, by the clock and
of processors. Each total must be 100 for each account.
"""

import argparse
import os
import subprocess
import sys
import tempfile

# The folder of the modules is part of the repository, and stays as it is.
sys.dont_write_bytecode = True

from common.building import PROGRAM, class_files, compile_sources
from common.calls import compile_caller, write_script, write_words
from common.runs import apart, in_turn, median

TRANSFER, TOTAL = "Bank.transfer(III)I", "Bank.total()I"
METHODS = [TRANSFER, TOTAL]
BANKS = [(7, 1000, 99_999, 1), (7, 1000, 99_999, 4), (7, 1000, 99_999, 16), (7, 50, 20_000, 8)]
ACCOUNT = """public class Account {
    int b;
    public Account(int b) { this.b = b; }
    public int get() { return b; }
    public void add(int n) { b += n; }
}
"""
BANK = """import org.deuce.Atomic;
public class Bank {
    static Account[] all = new Account[ACCOUNTS];
    static { for (int i = 0; i < ACCOUNTS; i++) all[i] = new Account(100); }
    @Atomic public static int transfer(int from, int to, int amount) {
        if (all[from].get() >= amount) { all[from].add(-amount); all[to].add(amount); return 1; }
        return 0;
    }
    @Atomic public static int total() {
        int sum = 0;
        for (int i = 0; i < all.length; i++) sum += all[i].get();
        return sum;
    }
}
"""


def bank_phases(seed, accounts, calls, lanes):
    """The calls of a bank, as docs/FORMATS.md has them."""
    state = seed

    def draw():
        nonlocal state
        state = (6364136223846793005 * state + 1442695040888963407) % 2**64
        return state >> 33

    dealt = [[] for _ in range(lanes)]
    for k in range(calls):
        dealt[k % lanes].append((TRANSFER, draw() % accounts, draw() % accounts, draw() % 10 + 1))
    return [dealt, [[(TOTAL,)]]]


def write_calls(folder, bank):
    """Writes the calls of a bank for both machines, with its transfers and without."""
    seed, accounts, calls, lanes = bank
    for name, count in (("work", calls), ("start", 0)):
        phases = bank_phases(seed, accounts, count, lanes)
        write_script(f"{folder}/{name}.json", phases)
        write_words(f"{folder}/{name}.words", phases, METHODS)


def rewritten(program, folder, classes):
    """Rewrites classes, and answers the new folder with the names of its classes."""
    out = f"{folder}/rewritten"
    done = subprocess.run([program, "rewrite", classes, out], capture_output=True, text=True)
    if done.returncode != 0:
        sys.exit(f"the classes aren't rewritten: {done.stdout}{done.stderr}")
    names = [path[len(out) + 1 : -len(".class")].replace("/", ".") for path in class_files(out)]
    return out, names


def commands(program, room, bank):
    """What runs a bank, by name: each of four, with transfers (work) and without (start)."""
    seed, accounts, calls, lanes = bank
    classes = compile_sources(room, {"Account": ACCOUNT, "Bank": BANK.replace("ACCOUNTS", str(accounts))})
    out, names = rewritten(program, room, classes)
    caller = compile_caller(f"{room}/caller", out, METHODS, True)
    words = {}
    for name, count in (("work", calls), ("start", 0)):
        java = ["-cp", f"{caller}:{out}", "RewrittenLanes", f"{room}/{name}.words", *names]
        words[f"run {name}"] = [program, "run", classes, f"{room}/{name}.json"]
        words[f"bank {name}"] = [program, "bank", *map(str, (seed, accounts, count, lanes))]
        words[f"-Xint {name}"] = ["java", "-Xint", *java]
        words[f"java {name}"] = ["java", *java]
    return words


def total(side, printed):
    """The total that a run printed."""
    lines = printed.splitlines()
    return {"run": lambda: lines[-2].split()[-1], "bank": lambda: lines[-1].split()[-1]}.get(side, lambda: lines[0])()


def cells(bank, runs):
    """The row of a bank."""
    told = [f"`bank {' '.join(map(str, bank))}`"]
    for side in ("run", "bank", "-Xint", "java"):
        work, start = runs[f"{side} work"], runs[f"{side} start"]
        if any(total(side, it.printed) != str(100 * bank[1]) for it in work + start):
            sys.exit(f"{told[0]} on {side}: a total isn't 100 for each account")
        told += [f"{median(work, it) - median(start, it):.2f}" for it in ("clock", "processors")]
    conflicts = sorted(int(it.printed.split()[-1]) for it in runs["-Xint work"])
    return [*told, str(conflicts[len(conflicts) // 2])]


def asked():
    parser = argparse.ArgumentParser(description=__doc__, formatter_class=argparse.RawDescriptionHelpFormatter)
    parser.add_argument("program", nargs="?", default=PROGRAM, help="the program that is compared")
    parser.add_argument("--bank", nargs=4, type=int, action="append", metavar=("SEED", "ACCOUNTS", "CALLS", "LANES"), help="a bank in place of the usual ones")
    parser.add_argument("--rounds", type=int, default=7, help="how often each runs")
    return parser.parse_args()


def main():
    words = asked()
    program = os.path.abspath(words.program)
    print("| Bank | `run`, clock | processors | `bank`, clock | processors | `-Xint`, clock | processors | `java`, clock | processors | Conflicts, `-Xint` |")
    print("|---|" + "---|" * 9)
    for bank in map(tuple, words.bank or BANKS):
        with tempfile.TemporaryDirectory() as room:
            apart(write_calls, room, bank)
            print(f"| {' | '.join(cells(bank, in_turn(commands(program, room, bank), words.rounds)))} |", flush=True)


if __name__ == "__main__":
    main()
