"""Compiles Java sources, and gives their class files version 49."""

import os
import subprocess

TOP = os.path.dirname(os.path.dirname(os.path.dirname(os.path.abspath(__file__))))
PROGRAM = f"{TOP}/crates/deuce_main/out/deuce_main"
ATOMIC = f"{TOP}/examples/src/org/deuce/Atomic.java"
# Java 7 is the oldest release that javac of Java 17 writes. Its class files differ from those of version 49 in the number alone.
JAVAC = ("javac", "-source", "7", "-target", "7", "-g:none", "-nowarn", "-Xlint:none", "-proc:none", "-encoding", "UTF-8")
# The compiler of Eclipse writes version 49 itself.
ECJ = ("ecj", "-1.5", "-g:none", "-nowarn", "-proc:none", "-encoding", "UTF-8")
# What calls the methods of class files on a Java machine.
CALLS = f"{TOP}/tools/common/Calls.java"
VERSION_AT, VERSION_49 = 6, b"\0\x31"


def renumber(folder):
    """Gives all class files under a folder version 49."""
    for path in class_files(folder):
        with open(path, "r+b") as file:
            file.seek(VERSION_AT)
            file.write(VERSION_49)


def class_files(folder):
    """The paths of all class files under a folder, in order."""
    return sorted(f"{at}/{name}" for at, _, names in os.walk(folder) for name in names if name.endswith(".class"))


def compile_atomic(folder):
    """Compiles the annotation into a folder of its own, for class paths."""
    subprocess.run([*JAVAC, "-d", folder, ATOMIC], check=True)
    return folder


def compile_machine(folder, source):
    """Compiles what makes calls on a Java machine, a source that stands over Calls.java."""
    subprocess.run(["javac", "-nowarn", "-d", folder, CALLS, source], check=True)
    return folder


def compile_sources(folder, sources):
    """Compiles classes, given by name and text, into class files of version 49. Answers their folder."""
    classes, names = f"{folder}/classes", []
    for name, text in sources.items():
        names.append(f"{folder}/src/{name}.java")
        os.makedirs(os.path.dirname(names[-1]), exist_ok=True)
        with open(names[-1], "w", encoding="utf-8") as file:
            file.write(text)
    atomic = compile_atomic(f"{folder}/atomic")
    subprocess.run([*JAVAC, "-cp", atomic, "-d", classes, *names], check=True)
    renumber(classes)
    return classes
