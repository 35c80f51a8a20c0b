#!/usr/bin/env python3
"""Makes methods of random code, and compares which of them have a typing here with which a Java machine's verifier takes.

    tools/random_methods.py --seed N --count N [--first N] [--program ./deuce] [--jobs N] [--keep FOLDER]

Each method stands in a class file of version 49, of which a Java machine infers the types. The program rewrites it: it ends well, or
refuses the method as Untypable. Here an interface reads as Object, so each class is made once more with Object in its place, and
the two are to agree on that. A line is printed for each method of which they say different things, and a summary. The status
is 1 where one differs. The class files of such methods are put under --keep. It needs javac and java of Java 17.
A method depends on the seed and on its number alone.
"""

import argparse
import os
import random
import shutil
import subprocess
import sys
import tempfile
from collections import Counter
from concurrent.futures import ThreadPoolExecutor

# The folder of the modules is part of the repository, and stays as it is.
sys.dont_write_bytecode = True

from common.building import TOP, compile_sources
from random_methods.making import Maker, PlainMaker, sources
from random_methods.methods import make

VERIFIES = f"{TOP}/tools/random_methods/Verifies.java"


def words():
    """What the command line asks for."""
    parser = argparse.ArgumentParser(description=__doc__, formatter_class=argparse.RawDescriptionHelpFormatter)
    parser.add_argument("--seed", type=int, required=True, help="what the methods are made from")
    parser.add_argument("--count", type=int, required=True, help="how many methods are made")
    parser.add_argument("--first", type=int, default=0, help="the number of the first one")
    parser.add_argument("--program", default=f"{TOP}/deuce", help="what rewrites them")
    parser.add_argument("--jobs", type=int, default=os.cpu_count(), help="how many run side by side")
    parser.add_argument("--keep", metavar="FOLDER", help="where the class files that differ are put")
    return parser.parse_args()


def class_file(seed, number, maker):
    """The class M with a random method."""
    draw = random.Random(f"{seed} {number}")
    made = maker(draw.choice(["java/lang/Object", "A", "E"]))
    make(draw, made)
    return made.content()


def make_all(asked, room, maker):
    """Makes the class files, and the classes beside them. Answers where the latter are."""
    os.makedirs(f"{room}/made")
    for i in range(asked.count):
        with open(f"{room}/made/{i}.class", "wb") as file:
            file.write(class_file(asked.seed, asked.first + i, maker))
    return compile_sources(room, sources(maker is PlainMaker))


def verified(asked, room, world):
    """What the Java machine says of each class file."""
    subprocess.run(["javac", "-nowarn", "-d", room, VERIFIES], check=True)
    java = ["java", "-cp", f"{room}:{world}", "Verifies", f"{room}/made", str(asked.count)]
    lines = subprocess.run(java, check=True, capture_output=True, text=True).stdout.splitlines()
    return [line.split(" ", 1)[1] for line in lines]


def rewritten(program, room, world, number):
    """What the program says of a class file."""
    folder = f"{room}/runs/{number}"
    shutil.copytree(world, folder)
    shutil.copy(f"{room}/made/{number}.class", f"{folder}/M.class")
    done = subprocess.run([program, "rewrite", folder, f"{folder}.out"], capture_output=True, text=True)
    shutil.rmtree(folder)
    shutil.rmtree(f"{folder}.out", ignore_errors=True)
    if done.returncode == 0:
        return "taken"
    told = done.stdout.strip() or done.stderr.strip()
    return f"refused {told}" if "Untypable" in told else f"left out {told}"


def kind_of(here, there, plainly):
    """How what is said of a method compares: here, by the Java machine, and by it with Object in place of the interface."""
    here, there, plainly = (it.split(" ", 1)[0] for it in (here, there, plainly))
    if here == "left":
        return "left out"
    if here != plainly or (here, there) == ("refused", "taken"):
        return "different"
    return here if here == there else "taken without the interface"


def compare(asked, room):
    """Compares all methods, and answers whether none differs."""
    world = make_all(asked, f"{room}/first", Maker)
    theirs = verified(asked, f"{room}/first", world)
    plainly = verified(asked, f"{room}/plain", make_all(asked, f"{room}/plain", PlainMaker))
    program, kinds = os.path.abspath(asked.program), Counter()
    with ThreadPoolExecutor(asked.jobs) as workers:
        ours = list(workers.map(lambda i: rewritten(program, f"{room}/first", world, i), range(asked.count)))
    for i, told in enumerate(zip(ours, theirs, plainly)):
        kind = kind_of(*told)
        kinds[kind] += 1
        if kind in ("different", "left out"):
            print(f"{asked.first + i} {kind}: here {told[0]}; there {told[1]}; without the interface {told[2]}", flush=True)
            if asked.keep:
                os.makedirs(asked.keep, exist_ok=True)
                shutil.copy(f"{room}/first/made/{i}.class", f"{asked.keep}/{asked.first + i}.class")
    names = ("taken", "refused", "taken without the interface", "left out", "different")
    print(f"methods {asked.count}: {', '.join(f'{name} {kinds[name]}' for name in names)}")
    return kinds["different"] == 0


def main():
    asked = words()
    with tempfile.TemporaryDirectory() as room:
        if not compare(asked, room):
            sys.exit(1)


if __name__ == "__main__":
    main()
