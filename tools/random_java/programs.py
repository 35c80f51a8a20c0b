"""Whole programs: the sources of their classes, and the calls that a script makes of them."""

import random
from dataclasses import dataclass

from . import java_types as types
from .classes import ClassMaker, exception_source, interface_source
from .expressions import Context
from .shapes import CLASSES, EXCEPTION, HELPER, MAIN, MARKED, Method, random_parameters, random_shape
from .statements import Statements, indented

# How many calls are made of the marked methods, before those of the getter.
CALLS = 9
# How many expressions with parts a method of the main class has at most.
FUEL = 90


# It tells the value of the static field of a number, at the end.
GETTER = Method(MAIN, "get", "long", ("int",), MARKED, "static")


@dataclass(frozen=True)
class Call:
    """A call of a marked method, named as a script does."""

    method: str
    arguments: tuple


@dataclass(frozen=True)
class Program:
    """A made program, in a package of its own."""

    package: str
    sources: dict  # class to its lines
    calls: list


def make_program(seed, number):
    """The program of this number. It depends on the seed and the number alone."""
    chance = random.Random(f"{seed}/{number}")
    shape = random_shape(chance)
    package = f"p{number}"
    sources = {"I": interface_source(shape), EXCEPTION: exception_source()}
    for name in CLASSES:
        sources[name] = ClassMaker(chance, shape, name).source()
    main = MainMaker(chance, shape)
    sources[MAIN] = main.source()
    headed = {name: [f"package {package};", "", *lines] for name, lines in sources.items()}
    return Program(package, headed, main.calls(package))


class MainMaker:
    """Makes the class whose methods a script calls."""

    def __init__(self, chance, shape):
        self.random = chance
        self.shape = shape
        self.marked = []

    def source(self):
        """The lines of the class."""
        blocks = [self.static_fields()]
        references = ("A0", "int[]", "Object")
        for number, level in enumerate((HELPER, HELPER, HELPER + 0.5)):
            result = self.random.choice((*types.PRIMITIVES, "int", "long", "void", "A0"))
            method = self.new_method(f"help{number}", result, random_parameters(self.random, references), level)
            blocks.append(self.code(method, "static", 2))
            self.shape.methods.append(method)
        for number in range(3):
            result = self.random.choice((*types.PRIMITIVES, "int", "long", "void"))
            references = ("int[]",) if self.random.random() < 0.1 else ()
            parameters = random_parameters(self.random, references, 0, 4)
            method = self.new_method(f"call{number}", result, parameters, MARKED)
            blocks.append(self.code(method, "@Atomic public static", 5))
            self.marked.append(method)
        blocks += [self.getter(), object_digest(), *(array_digest(kind) for kind in types.PRIMITIVES)]
        lines = ["import org.deuce.Atomic;", "", f"public class {MAIN} {{"]
        for block in blocks:
            lines += [*indented(block), ""]
        return [*lines[:-1], "}"]

    def new_method(self, name, result, parameters, level):
        return Method(MAIN, name, result, parameters, level, "static")

    def code(self, method, words, count):
        variables = {f"a{i}": kind for i, kind in enumerate(method.parameters)}
        context = Context(MAIN, method.level, False, FUEL, variables, result=method.result)
        body = Statements(self.random, self.shape, context).body(count, 3)
        return [f"{words} {method.heading()} {{", *body, "}"]

    def static_fields(self):
        """The fields, and an initialiser that ends normally whatever happens in it.

        It first reads a field of each other class, so that a Java machine initialises these in their order. What it
        reads is dropped, since here all of them are initialised before.
        """
        held = self.shape.statics[MAIN]
        lines = ["static int failed;", *(f"static {kind} {name};" for name, kind in held.items()), "", "static {"]
        for owner, name, kind in self.shape.all_statics():
            if owner in CLASSES:
                lines.append(f"    {kind} {name} = {owner}.{name};")
        for name, kind in held.items():
            if types.is_primitive(kind):
                lines.append(f"    {name} = {types.literal(self.random, kind)};")
            else:
                lines += ["    try {", f"        {name} = {self.initial(kind)};", "    } catch (Throwable e) {"]
                lines += ["        failed++;", "    }"]
        return [*lines, "}"]

    def initial(self, kind):
        """A new object or array, most of whose elements are there."""
        context = Context(MAIN, MARKED, False, 6, {})
        return Statements(self.random, self.shape, context).new(kind, 1)

    def getter(self):
        """A marked method that tells the value of each static field, by a number where that is a reference."""
        lines = [f"@Atomic public static {GETTER.heading()} {{", "    switch (a0) {"]
        for number, (owner, name, kind) in enumerate(self.held()):
            value = f"{owner}.{name}" if types.is_primitive(kind) else f"digest({owner}.{name}, 3)"
            value = f"{value} ? 1L : 0L" if kind == "boolean" else value
            lines += [f"        case {number}:", f"            return {value};"]
        return [*lines, "        default:", "            return -1L;", "    }", "}"]

    def held(self):
        """All static fields: the count of initial values that failed, and those of the shape."""
        return [(MAIN, "failed", "int"), *self.shape.all_statics()]

    def calls(self, package):
        """Calls of the marked methods, each once at least, and then those of the getter."""
        more = [self.random.choice(self.marked) for _ in range(CALLS - len(self.marked))]
        calls = [self.call(package, method) for method in (*self.marked, *more)]
        numbers = range(len(self.held()))
        return [*calls, *(Call(calls_name(package, GETTER), (number,)) for number in numbers)]

    def call(self, package, method):
        """A call with random arguments."""
        arguments = tuple(types.argument(self.random, kind) for kind in method.parameters)
        return Call(calls_name(package, method), arguments)


def calls_name(package, method):
    """The name of a method of the main class, as a script has it."""
    return f"{package}/{MAIN}.{method.name}{types.descriptor(package, method.result, method.parameters)}"


def object_digest():
    """The method that makes a number of an object, an array or a text, and of what it refers to."""
    lines = ["static long digest(Object it, int depth) {", "    if (it == null) {", "        return 1L;", "    }"]
    lines += ["    if (depth == 0) {", "        return 2L;", "    }"]
    for kind in ("A0", *(f"{kind}[]" for kind in types.PRIMITIVES)):
        value = "((A0) it).digest(depth)" if kind == "A0" else f"digest(({kind}) it)"
        lines += [f"    if (it instanceof {kind}) {{", f"        return {value};", "    }"]
    lines += ["    if (it instanceof E) {", "        return 31L * ((E) it).code;", "    }"]
    lines += ["    long sum = it == \"x\" ? 3L : it == \"y\" ? 4L : it == \"xy\" ? 5L : it == \"\" ? 6L : 7L;"]
    lines += ["    if (it instanceof Object[]) {", "        Object[] all = (Object[]) it;"]
    lines += ["        for (int i = 0; i < all.length; i++) {"]
    lines += ["            sum = 31L * sum + digest(all[i], depth - 1);", "        }", "    }"]
    return [*lines, "    return sum;", "}"]


def array_digest(kind):
    """The method that makes a number of an array of a primitive type."""
    value = "it[i] ? 3 : 5" if kind == "boolean" else "it[i]"
    return [
        f"static long digest({kind}[] it) {{",
        "    long sum = it.length;",
        "    for (int i = 0; i < it.length; i++) {",
        f"        sum = 31L * sum + ({value});",
        "    }",
        "    return sum;",
        "}",
    ]
