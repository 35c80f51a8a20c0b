"""Random statements, as lists of lines. Each can end normally, so no statement behind one is out of reach."""

from . import java_types as types
from .expressions import Expressions
from .shapes import EXCEPTION

INDENT = "    "
CAUGHT = (EXCEPTION, *types.LIBRARY)
THROWN = tuple(name for name in types.LIBRARY if name not in ("Throwable", "Exception"))
CASES = (-(2**31), -40000, -200, -5, -1, 0, 1, 2, 3, 4, 5, 100, 255, 70000, 2**31 - 1)


def indented(lines):
    return [INDENT + line if line else line for line in lines]


def is_below(name, other):
    """Whether an exception's class is another one, or stands below it."""
    above = "RuntimeException" if name == EXCEPTION else types.LIBRARY.get(name)
    return name == other or above is not None and is_below(above, other)


class Statements(Expressions):
    """Makes the statements of one method."""

    def __init__(self, random, shape, context):
        super().__init__(random, shape, context)
        self.named = 0  # how many names of variables and labels there are
        self.labels = []  # of the loops around, the innermost last

    def fresh(self, stem):
        self.named += 1
        return f"{stem}{self.named}"

    def block(self, count, depth, **variables):
        """Statements in braces' stead, which know these variables too. What they declare ends with them."""
        outer = self.context.variables
        self.context.variables = {**outer, **variables}
        lines = [line for _ in range(count) for line in self.statement(depth)]
        self.context.variables = outer
        return indented(lines)

    def inner(self, depth, **variables):
        """A block inside a statement."""
        return self.block(self.pick(1, 1, 2), depth - 1, **variables)

    def body(self, count, depth):
        """The code of a method whose context tells its result."""
        lines = self.block(count, depth)
        if self.context.result in (None, "void"):
            return lines
        return [*lines, f"{INDENT}return {self.expression(self.context.result, 3)};"]

    def statement(self, depth):
        forms = [
            (5, self.assignment),
            (4, self.compound_assignment),
            (1, self.stepping),
            (3, self.declaration),
            (2, self.call_alone),
            (0.5, self.throwing),
        ]
        if self.labels:
            forms.append((2, self.leaving))
        if self.context.result:
            forms.append((0.5, self.returning))
        if depth > 0:
            nested = ((3, self.branch), (3, self.loop), (3, self.guarded), (2, self.selection), (0.5, self.braces))
            forms += [(weight, lambda made=made: made(depth)) for weight, made in nested]
        return self.weighted(forms)

    # Statements without parts.

    def any_kind(self):
        """A type: mostly a primitive one."""
        if self.often(0.6):
            return self.pick(*types.PRIMITIVES, "long", "int")
        return self.pick(*self.shape.references(self.context.here))

    def assignment(self):
        kind = self.any_kind()
        if not self.has_place(kind):
            return self.declaration()
        return [f"{self.place(kind, 2)} = {self.expression(kind, 3)};"]

    def compound_assignment(self):
        return [f"{self.compound(self.pick(*types.PRIMITIVES), 2)[1:-1]};"]

    def stepping(self):
        return [f"{self.step(self.pick(*types.NUMBERS), 2)[1:-1]};"]

    def declaration(self):
        """A local variable, which the rest of the block knows."""
        kind = self.any_kind()
        text = self.expression(kind, 3)
        name = self.fresh("x")
        self.context.variables = {**self.context.variables, name: kind}
        return [f"{kind} {name} = {text};"]

    def call_alone(self):
        """A call whose result is dropped."""
        kinds = ("void", "void", *types.PRIMITIVES, "A0", "Object")
        methods = [method for kind in kinds for method in self.callable_methods(kind)]
        return [f"{self.call(self.pick(*methods), 2)};"] if methods else self.assignment()

    def throwing(self):
        if self.often(0.5):
            thrown = self.new(EXCEPTION, 2)
        else:
            text = self.pick("", '"x"')
            thrown = f"new {self.pick(*THROWN)}({text})"
        return self.conditional(f"throw {thrown};")

    def conditional(self, text):
        """What ends a block, under a condition, so that the block goes on otherwise."""
        return [f"if ({self.expression('boolean', 2)}) {{", INDENT + text, "}"]

    def leaving(self):
        """A break or continue of the loop around, or of one further out."""
        word = self.pick("break", "continue")
        label = f" {self.pick(*self.labels)}" if self.often(0.4) else ""
        return self.conditional(f"{word}{label};")

    def returning(self):
        result = self.context.result
        return self.conditional("return;" if result == "void" else f"return {self.expression(result, 2)};")

    # Statements with parts.

    def braces(self, depth):
        return ["{", *self.inner(depth), "}"]

    def branch(self, depth):
        lines = [f"if ({self.expression('boolean', 3)}) {{", *self.inner(depth)]
        return [*lines, "} else {", *self.inner(depth), "}"] if self.often(0.6) else [*lines, "}"]

    def loop(self, depth):
        """A loop of few turns, two of which nest at most."""
        if len(self.labels) == 2:
            return self.branch(depth)
        maker = self.pick(self.counting, self.counting, self.while_loop, self.do_loop, self.each_loop)
        label = self.fresh("loop")
        self.labels.append(label)
        before, lines = maker(depth)
        self.labels.pop()
        is_named = any(line.endswith(f" {label};") for line in lines)
        return [*before, *([f"{label}:"] if is_named else []), *lines]

    def counted(self, depth, name, kind):
        """The body of a loop that counts by a variable to which the body can't store."""
        outer = self.context.counters
        self.context.counters = (*outer, name)
        lines = self.inner(depth, **{name: kind})
        self.context.counters = outer
        return lines

    def counting(self, depth):
        name, kind = self.fresh("q"), self.pick("int", "int", "int", "long", "byte")
        turns = self.random.randint(1, 5)
        up = f"for ({kind} {name} = 0; {name} < {turns}; {name}++) {{"
        down = f"for ({kind} {name} = {turns}; {name} > 0; {name}--) {{"
        return [], [self.pick(up, up, down), *self.counted(depth, name, kind), "}"]

    def while_loop(self, depth):
        name, turns = self.fresh("q"), self.random.randint(1, 5)
        head = f"while ({name}++ < {turns} && {self.expression('boolean', 2)}) {{"
        return [f"int {name} = 0;"], [head, *self.counted(depth, name, "int"), "}"]

    def do_loop(self, depth):
        name, turns = self.fresh("q"), self.random.randint(1, 5)
        end = f"}} while (++{name} < {turns} && {self.expression('boolean', 2)});"
        return [f"int {name} = 0;"], ["do {", *self.counted(depth, name, "int"), end]

    def each_loop(self, depth):
        known = self.shape.references(self.context.here)
        kinds = (*types.PRIMITIVES, *types.PRIMITIVES, "A0", "Object", "int[]")
        kind = self.pick(*(kind for kind in kinds if f"{kind}[]" in known))
        array, name = self.expression(f"{kind}[]", 2), self.fresh("each")
        return [], [f"for ({kind} {name} : {array}) {{", *self.inner(depth, **{name: kind}), "}"]

    def guarded(self, depth):
        """A try with handlers, a finally block, or both."""
        lines = ["try {", *self.block(self.pick(1, 2, 3), depth - 1)]
        form = self.random.random()
        if form < 0.8:
            lines += self.handlers(depth)
        if form > 0.55:
            lines += ["} finally {", *self.inner(depth)]
        return [*lines, "}"]

    def handlers(self, depth):
        """One to three handlers, none of which an earlier one leaves nothing to."""
        caught, lines = [], []
        for name in self.random.sample(CAUGHT, self.pick(1, 1, 2, 3)):
            if not any(is_below(name, other) for other in caught):
                also = self.second_class(name, caught)
                caught += [name, *also]
                lines += self.handler(name, also, depth)
        return lines

    def second_class(self, name, caught):
        """At times E, for a handler of two classes that have nothing to do with each other."""
        is_free = not any(is_below(EXCEPTION, other) for other in (name, *caught))
        return [EXCEPTION] if is_free and self.often(0.2) else []

    def handler(self, name, also, depth):
        """A handler, which at times throws again what it caught. One of E alone knows its number."""
        variable = self.fresh("e")
        known = {variable: EXCEPTION} if name == EXCEPTION else {}
        again = indented(self.conditional(f"throw {variable};")) if not known and self.often(0.2) else []
        return [f"}} catch ({' | '.join((name, *also))} {variable}) {{", *self.inner(depth, **known), *again]

    def selection(self, depth):
        """A switch over near cases, which makes a table, or over far ones."""
        kind = self.pick("int", "int", *types.NARROW)
        least, most = types.RANGES[kind]
        first, count = self.pick(-2, 0, 0, 1, 97), self.random.randint(2, 5)
        cases = range(first, first + count) if self.often(0.5) else self.random.sample(CASES, count)
        labels = [f"case {case}:" for case in cases if least <= case <= most]
        if self.often(0.8):
            labels.insert(self.random.randint(0, len(labels)), "default:")
        lines = [f"switch (({kind}) {self.expression(kind, 2)}) {{"]
        for label in labels:
            ending = self.pick([], [f"{INDENT}break;"], [f"{INDENT}break;"])
            lines += indented([label, *self.inner(depth), *ending]) if self.often(0.9) else [INDENT + label]
        return [*lines, "}"]
