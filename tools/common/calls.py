"""Writes the calls of phases and lanes twice: as a script, and for the Java machine.

Phases are a list of phases, a phase is a list of lanes, and a lane is a list of calls: each a static method, as scripts name it, with ints.
"""

import array
import json
import os
import re
import subprocess

from .building import TOP

JAVA = f"{TOP}/tools/compare_with_java"
METHOD = re.compile(r"([\w/$]+)\.(\w+)\((I*)\)([A-Z])")


def write_script(path, phases, **keys):
    """Writes a script."""
    lanes = max((len(phase) for phase in phases), default=1)
    told = [{"lanes": [[{"call": method, "args": list(values)} for method, *values in lane] for lane in phase]} for phase in phases]
    with open(path, "w", encoding="utf-8") as file:
        json.dump({"form": 1, "lanes": lanes, **keys, "phases": told}, file, separators=(",", ":"))


def write_words(path, phases, methods):
    """Writes the ints that tools/compare_with_java/Lanes.java reads."""
    numbers = {method: number for number, method in enumerate(methods)}
    words = array.array("i", [len(phases)])
    for phase in phases:
        words.append(len(phase))
        for lane in phase:
            calls = [word for method, *values in lane for word in (numbers[method], *values)]
            words.extend((len(lane), len(calls), *calls))
    words.byteswap()
    with open(path, "wb") as file:
        words.tofile(file)


def called(methods):
    """The Java class that makes one call."""
    lines = []
    for number, method in enumerate(methods):
        owner, name, values, result = METHOD.fullmatch(method).groups()
        asked = ", ".join(f"words[at + {i + 1}]" for i in range(len(values)))
        call = f"{owner.replace('/', '.')}.{name}({asked});"
        lines.append(f"case {number}: {call} return 0;" if result == "V" else f"case {number}: return {call}")
    lengths = ", ".join(str(len(METHOD.fullmatch(method).group(3)) + 1) for method in methods)
    cases = "\n".join(lines)
    return f"""final class Called {{
static final int[] LENGTHS = {{{lengths}}};
static long call(int[] words, int at) {{
switch (words[at]) {{
{cases}
default: throw new IllegalArgumentException();
}} }} }}
"""


def compile_caller(folder, classes, methods, rewritten):
    """Compiles what makes the calls of these methods on a Java machine. Rewritten classes get a context of transactions beside."""
    os.makedirs(folder, exist_ok=True)
    with open(f"{folder}/Called.java", "w", encoding="utf-8") as file:
        file.write(called(methods))
    names = [f"{folder}/Called.java", f"{JAVA}/Lanes.java"]
    if rewritten:
        context = f"{JAVA}/org/deuce/transaction"
        names += [f"{JAVA}/RewrittenLanes.java", *(f"{context}/{name}" for name in sorted(os.listdir(context)))]
    words = ["javac", "-nowarn", "-Xlint:none", "-XDignore.symbol.file", "-cp", classes, "-d", folder, *names]
    subprocess.run(words, check=True, stderr=subprocess.DEVNULL)
    return folder
