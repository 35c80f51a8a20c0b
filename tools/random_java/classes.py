"""The sources of a program's small classes: an interface, an exception, and objects that stand above one another."""

from . import java_types as types
from .expressions import Context
from .shapes import CLASSES, CONSTRUCTOR, INTERFACE, MAKING, VIRTUAL
from .statements import Statements, indented

# How many expressions with parts a method of these classes has at most, and how deep its statements nest.
FUEL = 25
DEPTH = 1


def interface_source(shape):
    told = next(method for method in shape.methods if method.owner == INTERFACE)
    return ["interface I {", f"    int K = {types.written('int', shape.constant)};", "", f"    {told.heading()};", "}"]


def exception_source():
    return [
        "class E extends RuntimeException {",
        *indented(["static int made;", "int code;", ""]),
        *indented(["E(int code) {", "    this.code = code;", "    made++;", "}", ""]),
        *indented(["E(long code) {", '    super("x");', "    this.code = (int) (code >>> 32);", "    made--;", "}"]),
        "}",
    ]


class ClassMaker:
    """Makes the source of one of the classes A0, A1 and A2."""

    def __init__(self, random, shape, name):
        self.random = random
        self.shape = shape
        self.name = name
        self.parent = shape.parents.get(name)

    def statements(self, level, parameters=(), has_this=True, result=None, method=None):
        """What makes the code of a member that has these parameters."""
        variables = {f"a{i}": kind for i, kind in enumerate(parameters)}
        context = Context(self.name, level, has_this, FUEL, variables, result=result, method=method)
        return Statements(self.random, self.shape, context)

    def source(self):
        blocks = [self.static_fields(), self.instance_fields()]
        blocks += [self.constructor(i) for i in range(len(self.shape.constructors[self.name]))]
        blocks += [self.method(method) for method in self.shape.methods if self.declares(method)]
        blocks.append(self.digest())
        lines = [self.heading()]
        for block in blocks:
            lines += [*indented(block), ""]
        return [*lines[:-1], "}"]

    def heading(self):
        is_abstract = self.shape.is_abstract and self.name == CLASSES[0]
        above = f" extends {self.parent}" if self.parent else ""
        listed = " implements I" if self.name in self.shape.implementing else ""
        return f"{'abstract ' if is_abstract else ''}class {self.name}{above}{listed} {{"

    def static_fields(self):
        """The static fields, and an initialiser that ends normally whatever happens in it."""
        ((name, kind),) = self.shape.statics[self.name].items()
        lines = [f"static {kind} {name} = {types.literal(self.random, kind)};"]
        if self.random.random() < 0.5:
            maker = self.statements(MAKING + 1, has_this=False)
            body = indented(maker.body(2, DEPTH))
            change = " ^= true;" if kind == "boolean" else " += 17;"
            lines += ["", "static {", "    try {", *body, "    } catch (Throwable e) {", f"        {name}{change}"]
            lines += ["    }", "}"]
        return lines

    def instance_fields(self):
        """The fields, some with initial values, and at times an initialiser."""
        lines = []
        for name, kind in self.shape.fields[self.name].items():
            lines.append(f"{kind} {name}{self.initial(kind)};")
        if self.random.random() < 0.3:
            lines += ["", "{", *self.mostly_caught(self.statements(CONSTRUCTOR).body(1, DEPTH)), "}"]
        return lines

    def initial(self, kind):
        """The initial value of a field: of most arrays, and of some others."""
        maker = self.statements(VIRTUAL, has_this=False)
        if types.is_array(kind) and maker.often(0.95):
            return f" = {maker.new(kind, 0)}"
        return f" = {maker.expression(kind, 1)}" if maker.often(0.4) else ""

    def constructor(self, number):
        """A constructor, which calls one above, or the first one of its class."""
        parameters = self.shape.constructors[self.name][number]
        named = ", ".join(f"{kind} a{i}" for i, kind in enumerate(parameters))
        first = self.first_call(number, self.statements(CONSTRUCTOR, parameters, has_this=False))
        maker = self.statements(CONSTRUCTOR, parameters, result="void")
        kept = [f"    theInt {maker.pick('=', '+=', '^=')} a0;"] if self.name == CLASSES[0] and number == 0 else []
        body = self.mostly_caught(maker.body(maker.pick(0, 1, 2), DEPTH))
        return [f"{self.name}({named}) {{", *indented(first), *kept, *body, "}"]

    def mostly_caught(self, body):
        """Code that mostly ends normally whatever happens in it, so that there are objects."""
        if not body or self.random.random() < 0.1:
            return body
        return ["    try {", *indented(body), "    } catch (RuntimeException e) {", "        E.made += 100;", "    }"]

    def first_call(self, number, maker):
        if number > 0 and maker.often(0.6):
            return [f"this({maker.expression('int', 1)});"]
        if not self.parent:
            return []
        parameters = maker.pick(*self.shape.constructors[self.parent])
        return [f"super({', '.join(maker.expression(kind, 1) for kind in parameters)});"]

    def declares(self, method):
        """Whether the class has a method of this name and types itself."""
        if method.owner == self.name:
            return True
        if method.kind != "virtual":
            return False
        if method.owner in CLASSES:
            must = self.parent and self.shape.is_without_code(self.parent, method)
            return method.owner in self.shape.classes_above(self.name) and (must or self.random.random() < 0.5)
        if method.owner == INTERFACE and self.shape.is_interface_of(self.name):
            return not self.shape.has_above(self.name, method) or self.random.random() < 0.5
        return False

    def method(self, method):
        heading = {"static": "static ", "private": "private ", "virtual": ""}[method.kind] + method.heading()
        heading = f"public {heading}" if method.owner == INTERFACE else heading
        if self.shape.is_without_code(self.name, method):
            return [f"abstract {heading};"]
        has_this = method.kind != "static"
        maker = self.statements(method.level, method.parameters, has_this, method.result, method)
        return [f"{heading} {{", *maker.body(maker.pick(0, 1, 1, 2), DEPTH), "}"]

    def digest(self):
        """A number made of all fields, those of the classes above among them."""
        start = "super.digest(depth)" if self.parent else "17L"
        lines = ["long digest(int depth) {", f"    long sum = {start};"]
        for name, kind in self.shape.fields[self.name].items():
            value = f"this.{name}" if types.is_primitive(kind) else f"M.digest(this.{name}, depth - 1)"
            value = f"({value} ? 3 : 5)" if kind == "boolean" else value
            lines.append(f"    sum = 31L * sum + {value};")
        return [*lines, "    return sum;", "}"]
