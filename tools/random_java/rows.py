"""Writes programs as rows of crates/rows: several to a row, with the text that the Java machine's answers make."""

import os
import re
import shutil

from .building import read, script, write

STEM = "random_programs"
CLASS_FILES = 120  # of a row at most


def write_rows(folder, workshop, answered, in_row):
    """Writes rows in place of those of this name. They go to data/rows, and their texts to their place in stdout."""
    rows = f"{folder}/data/rows"
    os.makedirs(rows, exist_ok=True)
    for name in os.listdir(rows):
        if name.startswith(f"{STEM}_"):
            shutil.rmtree(f"{rows}/{name}")
    starts = range(0, len(answered), in_row)
    digits = max(2, len(str(len(starts) - 1)))
    texts = {}
    for number, start in enumerate(starts):
        name = f"{STEM}_{number:0{digits}}"
        texts[name] = write_row(f"{rows}/{name}", name, workshop, answered[start : start + in_row])
    merge(f"{folder}/stdout", texts)
    return len(texts)


def write_row(folder, name, workshop, answered):
    """Writes a row, and answers what it must print."""
    os.makedirs(folder)
    programs = [it.program for it in answered]
    for program in programs:
        workshop.copy_classes(program, f"{folder}/classes")
    files = sum(len(names) for _, _, names in os.walk(f"{folder}/classes"))
    if files > CLASS_FILES:
        raise ValueError(f"{files} class files in one row: put fewer programs in it")
    write(f"{folder}/script.json", script(programs))
    write(f"{folder}/words", f"run\nrows/{name}/classes\nrows/{name}/script.json\n")
    calls = [(call.method, answer) for it in answered for call, answer in zip(it.program.calls, it.answers)]
    lines = [f"0 0 {i} {method} {answer}" for i, (method, answer) in enumerate(calls)]
    return "\n".join([f"== {name}", "status 0", f"history {len(lines)}", *lines, "unplaced 0", ""])


def merge(path, texts):
    """Puts the texts of rows into a file of such texts, in the order of their names, in place of the older ones."""
    before = read(path) if os.path.exists(path) else ""
    parts = [part for part in re.split(r"^(?=== )", before, flags=re.M) if part]
    kept = {part.split("\n", 1)[0][len("== ") :]: part for part in parts}
    others = {name: part for name, part in kept.items() if not name.startswith(f"{STEM}_")}
    write(path, "".join(text for _, text in sorted({**others, **texts}.items())))
