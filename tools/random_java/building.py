"""Puts programs into files, compiles them, and lets a Java machine answer their calls."""

import json
import os
import re
import shutil
import subprocess
from collections.abc import Callable
from dataclasses import dataclass

from common.building import ECJ, JAVAC, compile_atomic, compile_machine, renumber

from .java_5 import java_5
from .programs import Program, make_program

HERE = os.path.dirname(os.path.abspath(__file__))
# What a script may ask for at most.
LIMITS = {"budget": 1_000_000, "region": 1_048_576}


@dataclass(frozen=True)
class Compiler:
    """A Java compiler: the words that begin its command, how it tells a program's fault, and how sources are written for it."""

    words: tuple
    fault: re.Pattern
    written: Callable[[list], list]


COMPILERS = {
    "javac": Compiler((*JAVAC, "-Xmaxerrs", "10000"), re.compile(r"^.*/src/([^/]+)/\w+\.java:\d+: error: (.*)$", re.M), list),
    "ecj": Compiler(ECJ, re.compile(r"^\d+\. ERROR in .*/src/([^/]+)/\w+\.java \(at line \d+\)\n(?:.*\n){2}(.*)$", re.M), java_5),
}


@dataclass(frozen=True)
class Answered:
    """A program whose class files are made, with what a Java machine answered its calls."""

    program: Program
    answers: list


class Workshop:
    """A folder in which programs are built: their sources, class files, calls and answers."""

    def __init__(self, folder, compiler="javac"):
        self.folder = folder
        self.compiler = COMPILERS[compiler]
        self.machine = f"{folder}/machine"  # what only the Java machine gets
        os.makedirs(self.machine)
        compile_atomic(self.machine)
        compile_machine(self.machine, f"{HERE}/Answers.java")

    def build(self, seed, numbers):
        """Makes these programs of a seed, and has their calls answered. Tells those that don't compile."""
        programs = [make_program(seed, number) for number in numbers]
        for name in ("src", "classes", "calls"):
            shutil.rmtree(f"{self.folder}/{name}", ignore_errors=True)
            os.makedirs(f"{self.folder}/{name}")
        for program in programs:
            self.write_sources(program)
        programs, faulty = self.compile(programs)
        return self.answer(programs), faulty

    def write_sources(self, program):
        folder = f"{self.folder}/src/{program.package}"
        os.makedirs(folder)
        for name, lines in program.sources.items():
            write(f"{folder}/{name}.java", "\n".join(self.compiler.written(lines)) + "\n")

    def compile(self, programs):
        """Compiles programs, and answers those that could be, and the first fault of each other one."""
        faulty = {}
        while programs:
            names = [f"{self.folder}/src/{it.package}/{name}.java" for it in programs for name in it.sources]
            write(f"{self.folder}/sources", "\n".join(names))
            words = [*self.compiler.words, "-cp", self.machine, "-d", f"{self.folder}/classes", f"@{self.folder}/sources"]
            done = subprocess.run(words, capture_output=True, text=True)
            if done.returncode == 0:
                break
            faults = dict(reversed(self.compiler.fault.findall(done.stderr)))
            if not faults:
                raise RuntimeError(done.stderr[:2000])
            faulty.update(faults)
            programs = [program for program in programs if program.package not in faulty]
        return programs, faulty

    def answer(self, programs):
        """Has a Java machine make the calls of each program, and gives the class files version 49."""
        files = [f"{self.folder}/calls/{program.package}" for program in programs]
        for file, program in zip(files, programs):
            write(file, "".join(call_line(call) for call in program.calls))
        classes = f"{self.folder}/classes"
        words = ["java", "-XX:-UsePerfData", "-cp", f"{self.machine}:{classes}", "Answers", *files]
        subprocess.run(words, check=True)
        for program in programs:
            renumber(f"{classes}/{program.package}")
        return [Answered(it, read(f"{file}.answers").splitlines()) for file, it in zip(files, programs)]

    def copy_classes(self, program, folder):
        """Copies a program's class files under a folder, in the folder of its package."""
        shutil.copytree(f"{self.folder}/classes/{program.package}", f"{folder}/{program.package}")


def call_line(call):
    """A call as the Java machine gets it."""
    return " ".join((call.method, *(json.dumps(it) for it in call.arguments))) + "\n"


def script(programs):
    """The script that makes all calls of these programs, one after another on one lane."""
    calls = [{"call": call.method, "args": call.arguments} for program in programs for call in program.calls]
    lines = ",\n".join(json.dumps(call) for call in calls)
    head = json.dumps({"form": 1, "lanes": 1, **LIMITS})[:-1]
    return f'{head}, "phases": [{{"lanes": [[\n{lines}\n]]}}]}}\n'


def write(path, text):
    with open(path, "w", encoding="utf-8") as file:
        file.write(text)


def read(path):
    with open(path, encoding="utf-8") as file:
        return file.read()
