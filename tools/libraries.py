#!/usr/bin/env python3
"""Runs the program on the classes of Java libraries, and tells by which refusals they end.

    tools/libraries.py FOLDER.. [--program PATH] [--group N] [--static] [--keep OUT]

A FOLDER has Java sources, as a source package of Debian has, or class files. Sources are those under src/main/java where
that is there, and are compiled by javac of Java 17 as Java 8, without those that don't compile. Class files with entries
of a pool that version 49 doesn't have are left out, as lambdas have them. The others get version 49. They go in groups of
at most N (256) in the order of their paths.

The first class of a group gets a marked method; with --static the static methods of all classes are marked. Each group
is run, and what was printed is counted. Then the class that a refusal names is taken out, the group is run again, and so
on until it runs, which tells what stops each class. Where it runs, it is rewritten, too. PATH is
crates/deuce_main/out/deuce_main where none is given. With --keep the groups as they ran at last are left in OUT.
"""

import argparse
import os
import re
import shutil
import subprocess
import sys
import tempfile
from collections import Counter

# The folder of the modules is part of the repository, and stays as it is.
sys.dont_write_bytecode = True

from common.building import JAVAC, PROGRAM, VERSION_49, VERSION_AT, class_files
from common.calls import write_script
from common.patching import ClassFile, NewerPool
from common.runs import run

ADDED = "isAtomicForTheTest"
# (a later option takes the place of an earlier one)
JAVAC_8 = (*JAVAC, "-source", "8", "-target", "8", "-Xmaxerrs", "100000")
FAULT = re.compile(r"^(.*\.java):\d+: error: ", re.M)
SECONDS = 300
# status 4 and 5: refusals whose first detail names a class or one of its methods
NAMING = {"7", "13", "14", "15", "16", "17", "19", "21", "22", "23", "24", "31", "32"}


def compiled(folder, out):
    """Compiles the sources of a library without those that have faults. Answers how many sources there are and how many were left out."""
    top = f"{folder}/src/main/java" if os.path.isdir(f"{folder}/src/main/java") else folder
    sources = [f"{at}/{name}" for at, _, names in os.walk(top) for name in names if name.endswith(".java") and name not in ("module-info.java", "package-info.java")]
    left, listed = sorted(sources), f"{out}.sources"
    while left:
        with open(listed, "w", encoding="utf-8") as file:
            file.writelines(f'"{name}"\n' for name in left)
        done = subprocess.run([*JAVAC_8, "-d", out, f"@{listed}"], capture_output=True, text=True)
        if done.returncode == 0:
            break
        faulty = set(FAULT.findall(done.stderr))
        if not faulty:
            sys.exit(f"{folder} isn't compiled: {done.stderr[:500]}")
        left = [name for name in left if name not in faulty]
    return len(sources), len(sources) - len(left)


def library(folder, room):
    """The class files of a library in version 49, by their paths, and what is told of it."""
    made, told = folder, ""
    if not class_files(folder):
        made = f"{room}/made"
        os.makedirs(made)
        told = "{} sources, {} not compiled, ".format(*compiled(folder, made))
    files, newer = {}, 0
    for path in class_files(made):
        with open(path, "rb") as file:
            content = file.read()
        content = content[:VERSION_AT] + VERSION_49 + content[VERSION_AT + 2 :]
        try:
            files[os.path.relpath(path, made)] = ClassFile(content)
        except NewerPool:
            newer += 1
    return files, f"{told}{len(files)} class files, {newer} with newer entries"


class Group:
    """Some class files of a library, which run together."""

    def __init__(self, program, files, marks):
        self.program, self.files, self.marks = program, dict(files), marks

    def put(self, room):
        """Puts the class files, with a marked method in the first class, and the script that calls it."""
        shutil.rmtree(room, ignore_errors=True)
        os.makedirs(f"{room}/classes")
        entry = next((path for path, it in self.files.items() if not it.is_interface()), None)
        for path, it in self.files.items():
            os.makedirs(os.path.dirname(f"{room}/classes/{path}"), exist_ok=True)
            # (each time a class file is changed, it is taken apart anew)
            fresh = ClassFile(it.content)
            with open(f"{room}/classes/{path}", "wb") as file:
                file.write(fresh.with_method(ADDED, self.marks) if path == entry else self.marked(fresh))
        calls = [(f"{self.files[entry].name()}.{ADDED}()I",)] if entry else []
        write_script(f"{room}/script.json", [[calls]])

    def marked(self, it):
        return it.with_marks() if self.marks else it.content

    def end(self, room):
        """Runs the class files, and rewrites them where they ran. Answers how that ended."""
        self.put(room)
        for words in (["run", f"{room}/classes", f"{room}/script.json"], ["rewrite", f"{room}/classes", f"{room}/rewritten"]):
            done = run([self.program, *words], SECONDS)
            if done.status != 0:
                return done.printed.strip() or f"{words[0]}: status {done.status}"
        return "runs, and is rewritten"

    def takes_out(self, line, room):
        """Takes out the classes that a refusal names. Answers how many these are."""
        words = line.split()
        if line.startswith("error 3 "):
            gone = [os.path.relpath(words[2], f"{room}/classes")]
        elif line.startswith("error 4 18 "):
            gone = self.users_of(words[4])
        else:
            owner = self.owner(words).partition(".")[0]
            gone = [path for path, it in self.files.items() if it.name() == owner]
        for path in gone:
            del self.files[path]
        return len(gone)

    def owner(self, words):
        """The class or method that the words of a refusal name."""
        if words[:1] == ["error"] and words[1] == "7":
            return words[2]
        if words[:3] == ["error", "4", "20"]:
            return words[5]
        return words[4] if len(words) > 4 and words[2] in NAMING else ""

    def users_of(self, name):
        """The classes under a class that isn't there, or those whose pools have it."""
        under = [path for path, it in self.files.items() if it.super_name() == name]
        return under or [path for path, it in self.files.items() if any(re.fullmatch(rf"\[*L?{re.escape(name)};?", known) for known in it.named_classes())]


def kind(line, own):
    """A line without what it names: the status, the refusal, of a construct its kind, and an unknown class, unless that is the library's own."""
    words = line.split()
    if words[:1] != ["error"]:
        return line
    if words[1] == "3":
        return " ".join(["3", *words[3:5]])
    if words[1] == "7":
        return " ".join(["7", *words[3:]])
    if words[2] == "18" and words[4] in own:
        return "4 18 UnknownClass, one of the library that isn't in the group"
    return " ".join([words[1], *words[2 : 5 if words[2] in ("18", "20") else 4]])


def told_table(title, counts):
    print(f"\n| {title} | How many |\n|---|---|")
    for name, count in counts.most_common():
        print(f"| `{name}` | {count} |")


def go_through(group, room, own, stops):
    """Runs a group until it runs, and counts what stops its classes. Answers how it ended as a whole and at last."""
    first = end = group.end(room)
    while end.startswith("error") and group.files:
        gone = group.takes_out(end, room)
        stops[kind(end, own)] += gone
        if gone == 0:
            break
        end = group.end(room)
    return first, end


def asked():
    parser = argparse.ArgumentParser(description=__doc__, formatter_class=argparse.RawDescriptionHelpFormatter)
    parser.add_argument("folders", nargs="+", metavar="FOLDER", help="sources or class files of a library")
    parser.add_argument("--program", default=PROGRAM, help="what runs them")
    parser.add_argument("--group", type=int, default=256, help="how many class files run together at most")
    parser.add_argument("--static", action="store_true", help="marks all static methods")
    parser.add_argument("--keep", metavar="OUT", help="where the groups are left")
    return parser.parse_args()


def main():
    words = asked()
    ends, stops = Counter(), Counter()
    print("| Library | Class files | Group | As it is | What runs at last |\n|---|---|---|---|---|")
    for folder in words.folders:
        with tempfile.TemporaryDirectory() as room:
            files, told = library(os.path.abspath(folder), room)
            paths, own = list(files), {it.name() for it in files.values()}
            for number, start in enumerate(range(0, len(paths), words.group)):
                group = Group(os.path.abspath(words.program), {path: files[path] for path in paths[start : start + words.group]}, words.static)
                place = f"{words.keep}/{os.path.basename(folder)}-{number}" if words.keep else f"{room}/group"
                count = len(group.files)
                first, last = go_through(group, place, own, stops)
                ends[kind(first, own)] += 1
                print(f"| {os.path.basename(folder)} | {told} | {number}, of {count} | `{first}` | {len(group.files)} class files: `{last}` |", flush=True)
    told_table("How groups end as they are", ends)
    told_table("What stops a class", stops)


if __name__ == "__main__":
    main()
