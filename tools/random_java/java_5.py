"""Writes the sources of programs in the Java of version 5, which has no handler of two classes, and lets no Throwable out that isn't declared."""

import re

HANDLER = re.compile(r"( *)\} catch \((\w+)(?: \| (\w+))? (\w+)\) \{")
# Classes of which a method would have to declare that it throws them.
DECLARED = ("Throwable", "Exception")


def java_5(lines):
    """The lines in the older Java. A handler of two classes becomes two, and what is thrown again is a RuntimeException."""
    written, at = [], 0
    while at < len(lines):
        handler = HANDLER.fullmatch(lines[at])
        if not handler:
            written.append(lines[at])
            at += 1
            continue
        indent, *names, variable = handler.groups()
        end = body_end(lines, at + 1, indent)
        for name in filter(None, names):
            written.append(f"{indent}}} catch ({name} {variable}) {{")
            written += java_5(rethrown(lines[at + 1 : end], name, variable))
        at = end
    return written


def body_end(lines, at, indent):
    """The number of the line that ends a body from a line on."""
    while not lines[at].startswith(f"{indent}}}"):
        at += 1
    return at


def rethrown(body, name, variable):
    """The body of a handler of this class."""
    if name not in DECLARED:
        return body
    return [line.replace(f"throw {variable};", f"throw (RuntimeException) {variable};") for line in body]
