#!/usr/bin/env python3
"""Measures the program on inputs that this script makes, and prints the tables of docs/PERFORMANCE.md.

    tools/measure.py [WORD..] [--program PATH]

PATH is crates/deuce_main/out/deuce_main, which ./deuce builds, where none is given. It needs javac of Java 17. Each case
runs three times, for at most 120 seconds and with at most 8 GB. The table has the status, the medians of seconds by the
clock and of seconds of processors, and the largest memory.
"""

import argparse
import json
import os
import sys
import tempfile

# The folder of the modules is part of the repository, and stays as it is.
sys.dont_write_bytecode = True

from common.building import PROGRAM, compile_sources
from common.class_files import additions, constructors, guarded_stores, interface_calls, late_jumps, many_places, merging_targets, other_constructors
from common.class_files import null_loads, reference_loads
from common.runs import apart, median, run

ATOMIC = "import org.deuce.Atomic;\n"
RUNS, SECONDS, BYTES = 3, 120, 8 << 30


def script(phases, lanes=1, **more):
    return json.dumps({"form": 1, "lanes": lanes, **more, "phases": phases}, separators=(",", ":"))


def calls(method, count, *args):
    return [{"call": method, "args": [*args]}] * count


def on_lanes(method, lanes, count, *args):
    return {"lanes": [calls(method, count, *args)] * lanes}


def counter():
    return {"Counter": ATOMIC + "public class Counter { static int n; @Atomic public static int inc() { return ++n; } }"}


def loops():
    return {
        "Loops": ATOMIC
        + """public class Loops {
            static int from = 1, to;
            @Atomic public static int spin(int k) { int s = 0; for (int i = 0; i < k; i++) { s += i; } return s; }
            @Atomic public static int copy(int k) { for (int i = 0; i < k; i++) { to = from; } return to; }
            @Atomic public static int divide(int k) { return 1 / k; }
        }"""
    }


def large(updates):
    methods = "".join(f"@Atomic public static void m{i}() {{ {f'f{i}++; ' * updates}}}\n" for i in range(100))
    fields = "".join(f"static int f{i};\n" for i in range(100))
    return {"Large": f"{ATOMIC}public class Large {{\n{fields}{methods}}}"}


def branches(count, locals_):
    names = ", ".join(f"v{i} = k + {i}" for i in range(locals_ - 1))
    tests = " ".join(f"if (v{i % (locals_ - 1)} == k) v{(i + 7) % (locals_ - 1)}++;" for i in range(count))
    return {"Branches": f"{ATOMIC}public class Branches {{ @Atomic public static int m(int k) {{ int {names}; {tests} return v0; }} }}"}


def switch(cases):
    labels = "".join(f"case {i}: " for i in range(cases))
    turns = "for (int i = 0; i < k; i++) { s += one(i); }"
    one = f"static int one(int i) {{ switch (i) {{ {labels}return 1; default: return 2; }} }}"
    return {"Cases": f"{ATOMIC}public class Cases {{ {one} @Atomic public static int m(int k) {{ int s = 0; {turns} return s; }} }}"}


def crossed(classes):
    def text(k):
        fields = "".join(f"static int f{i};\n" for i in range(100))
        other = f"C{(k + 1) % classes}"
        methods = "".join(f"@Atomic public static int m{i}() {{ return ++{other}.f{i}; }}\n" for i in range(100))
        return f"{ATOMIC}public class C{k} {{\n{fields}{methods}}}"

    return {f"C{k}": text(k) for k in range(classes)}


def objects():
    return {
        "Objects": ATOMIC
        + """public class Objects {
            Objects next; int item;
            static Objects first; static int[] array;
            @Atomic public static void link(int item) { Objects o = new Objects(); o.item = item; o.next = first; first = o; }
            @Atomic public static void links(int k) { for (int i = 0; i < k; i++) { link(i); } }
            @Atomic public static long walk() { long s = 0; for (Objects o = first; o != null; o = o.next) { s += o.item; } return s; }
            @Atomic public static long both(int k) { links(k); return walk(); }
            @Atomic public static long fill(int k) {
                int[] a = new int[k]; array = a; for (int i = 0; i < k; i++) { a[i] = i; }
                return a[k - 1];
            }
            @Atomic public static long sum(int from, int to) { long s = 0; for (int i = from; i < to; i++) { s += array[i]; } return s; }
            static int thrown(int k) { if (k == 0) { throw new IllegalStateException("deep"); } try { return thrown(k - 1); } finally { first = null; } }
            @Atomic public static int deep(int k) { try { return thrown(k); } catch (IllegalStateException e) { return k; } }
        }"""
    }


def above(classes):
    """Classes one under another, each of which overrides the method that is called."""
    upper = {f"C{k}": f"public class C{k} extends C{k - 1} {{ int m() {{ return {k}; }} }}" for k in range(1, classes)}
    call = "static C0 of = new C150(); @Atomic public static int call() { return of.m(); } @Atomic public static int upper() { return of.n(); }"
    return {"C0": f"{ATOMIC}public class C0 {{ int m() {{ return 0; }} int n() {{ return 1; }} {call} }}", **upper}


def loads(statements, dimensions):
    """A method of statements, each of which loads one array out of another as often as an array has dimensions."""
    chain = "[0]" * dimensions
    return {"Loads": f"{ATOMIC}public class Loads {{ static Object o; static Object{'[]' * dimensions} a; @Atomic public static void m() {{ {f'o = a{chain}; ' * statements}}} }}"}


def made():
    return script([on_lanes("Made.m(I)I", 1, 1, 0)])


INC = "Counter.inc()I"
CASES = {
    "100,000 calls of Counter, 1 lane": (counter, lambda: script([on_lanes(INC, 1, 100_000)])),
    "the same, 2 lanes": (counter, lambda: script([on_lanes(INC, 2, 50_000)], 2)),
    "the same, 4 lanes": (counter, lambda: script([on_lanes(INC, 4, 25_000)], 4)),
    "the same, 16 lanes": (counter, lambda: script([on_lanes(INC, 16, 6_250)], 16)),
    "the same, 2 lanes in 10,000 phases": (counter, lambda: script([on_lanes(INC, 2, 5)] * 10_000, 2)),
    "the same, a bag for 16 workers": (counter, lambda: script([{"bag": calls(INC, 100_000)}], 16)),
    "10 loops of 999,999 turns": (loops, lambda: script([on_lanes("Loops.spin(I)I", 1, 10, 999_999)], budget=1_000_000)),
    "999,999 turns that read and write a field": (loops, lambda: script([on_lanes("Loops.copy(I)I", 1, 1, 999_999)], budget=1_000_000)),
    "the same on each of 2 lanes": (loops, lambda: script([on_lanes("Loops.copy(I)I", 2, 1, 999_999)], 2, budget=1_000_000)),
    "100,000 divisions by 0": (loops, lambda: script([on_lanes("Loops.divide(I)I", 1, 100_000, 0)], region=1_048_576)),
    "a switch of 16,000 cases, 500,000 times": (lambda: switch(16_000), lambda: script([on_lanes("Cases.m(I)I", 1, 1, 499_999)], budget=1_000_000)),
    "100 methods of 5,000 bytes, 1,000 calls": (lambda: large(625), lambda: script([on_lanes("Large.m0()V", 1, 1_000)])),
    "the same, rewritten": (lambda: large(625), None),
    "a method of 6,000 branches and 200 locals": (lambda: branches(6_000, 200), lambda: script([on_lanes("Branches.m(I)I", 1, 1, 3)])),
    "256 classes, 100 fields and methods each, 100,000 calls": (lambda: crossed(256), lambda: script([on_lanes("C0.m0()I", 1, 100_000)])),
    "256 classes, rewritten": (lambda: crossed(256), None),
    "100,000 calls that make an object and link it": (objects, lambda: script([on_lanes("Objects.link(I)V", 1, 100_000, 5)], region=1_048_576)),
    "the same on 4 lanes": (objects, lambda: script([on_lanes("Objects.link(I)V", 4, 25_000, 5)], 4, region=1_048_576)),
    "a list of 100,000 objects, made and walked": (
        objects,
        lambda: script([{"lanes": [[*calls("Objects.links(I)V", 1, 100_000), *calls("Objects.walk()J", 1)]]}], budget=1_000_000, region=1_048_576),
    ),
    "an array of 999,999 ints, filled and summed": (
        objects,
        lambda: script([{"lanes": [[*calls("Objects.fill(I)J", 1, 999_999), *calls("Objects.sum(II)J", 1, 0, 999_999)]]}], budget=1_000_000, region=1_048_576),
    ),
    "10,000 exceptions through 190 handlers": (objects, lambda: script([on_lanes("Objects.deep(I)I", 1, 10_000, 190)], region=1_048_576)),
    "256 classes one under another, an overridden method, 100,000 calls": (lambda: above(256), lambda: script([on_lanes("C0.call()I", 1, 100_000)], region=1_048_576)),
    "the same, a method that the first of them alone has": (lambda: above(256), lambda: script([on_lanes("C0.upper()I", 1, 100_000)], region=1_048_576)),
    "10,000 exceptions through 198 handlers, in 200 frames": (objects, lambda: script([on_lanes("Objects.deep(I)I", 1, 10_000, 198)], region=1_048_576)),
    "a list of 60,000 objects, made and walked in one call": (
        objects,
        lambda: script([on_lanes("Objects.both(I)J", 1, 1, 60_000)], budget=1_000_000, region=1_048_576),
    ),
    "a method of 64,000 bytes that loads from arrays, refused": (lambda: loads(126, 250), lambda: script([on_lanes("Loads.m()V", 1, 1)])),
    "a method of 65,534 bytes that loads from null arrays, refused": (lambda: null_loads(32_765), made),
    "the same of 18,000 bytes": (lambda: null_loads(9_000), made),
    "1,000 loads and then 999 additions": (lambda: additions(1_000), made),
    "4,000 loads and then 3,999 additions": (lambda: additions(4_000), made),
    "32,767 loads and then 32,766 additions, 65,534 bytes": (lambda: additions(32_767), made),
    "4,000 loads of a reference and as many pops": (lambda: reference_loads(4_000), made),
    "the same, 30,000 loads of a reference": (lambda: reference_loads(30_000), made),
    "199 late jumps, each of which widens one local more; 7,000 instructions before": (lambda: late_jumps(199, 7_000), made),
    "the same, 14,000 instructions before": (lambda: late_jumps(199, 14_000), made),
    "the same, 1,800 late jumps, 14,000 instructions before": (lambda: late_jumps(1_800, 14_000), made),
    "the same, 3,400 late jumps, 2,000 instructions before them": (lambda: late_jumps(3_400, 2_000), made),
    "6,000 targets, to which two stacks of 2,500 references flow": (lambda: merging_targets(6_000, 2_500), made),
    "4,000 stores, each guarded by 60 handlers": (lambda: guarded_stores(4_000, 60), made),
    "6,000 forks with a constructor over a stack of 8,000 places": (lambda: constructors(6_000, 8_000), made),
    "1,500 forks with a constructor, each over another object under 30,000 places": (lambda: other_constructors(1_500, 30_000), made),
    "a method of 65,534 bytes, 65,534 locals and as much stack": (lambda: many_places(65_534, 65_534), made),
    "8,000 calls of an interface's method, whose descriptor has 60,000 bytes": (lambda: interface_calls(8_000, 59_995), made),
    "a script of 450,000 calls, refused": (counter, lambda: script([on_lanes(INC, 1, 450_000)])),
}


BANKS = {
    "a bank of 1,000 accounts, 99,999 transfers, 16 lanes": ["bank", "7", "1000", "99999", "16"],
    "the same, 9,999 transfers": ["bank", "7", "1000", "9999", "16"],
}


def make_inputs(folder, sources, script_text):
    """Makes the class files of a case, from sources or as they are, and its script."""
    made = sources()
    texts = {name: text for name, text in made.items() if isinstance(text, str)}
    if texts:
        compile_sources(folder, texts)
    os.makedirs(f"{folder}/classes", exist_ok=True)
    for name in made.keys() - texts.keys():
        with open(f"{folder}/classes/{name}.class", "wb") as it:
            it.write(made[name])
    if script_text:
        with open(f"{folder}/script.json", "w") as it:
            it.write(script_text())


def print_row(name, words):
    """Runs a command within the limits, and prints what it took."""
    runs = [run(["prlimit", f"--as={BYTES}", *words], SECONDS) for _ in range(RUNS)]
    status = "no end" if runs[-1].status == 124 else runs[-1].status
    told = [f"{median(runs, what):.2f}" for what in ("clock", "processors")]
    print(f"| {name} | {status} | {' | '.join(told)} | {max(it.memory for it in runs):.0f} |", flush=True)


def asked():
    parser = argparse.ArgumentParser(description=__doc__, formatter_class=argparse.RawDescriptionHelpFormatter)
    parser.add_argument("wanted", nargs="*", metavar="WORD", help="the cases whose names have one of these; all where none is given")
    parser.add_argument("--program", default=PROGRAM, help="what is measured")
    return parser.parse_args()


def main():
    words = asked()
    program = os.path.abspath(words.program)

    def is_wanted(name):
        return not words.wanted or any(it in name for it in words.wanted)

    print("| What | Status | Seconds by the clock | Seconds of processors | MB |\n|---|---|---|---|---|")
    for name, (sources, script_text) in CASES.items():
        if is_wanted(name):
            with tempfile.TemporaryDirectory() as folder:
                # (a process of its own makes them, since the program would begin with the memory that this one took)
                apart(make_inputs, folder, sources, script_text)
                command = ["run", f"{folder}/classes", f"{folder}/script.json"] if script_text else ["rewrite", f"{folder}/classes", f"{folder}/out"]
                print_row(name, [program, *command])
    for name, bank in BANKS.items():
        if is_wanted(name):
            print_row(name, [program, *bank])


if __name__ == "__main__":
    main()
