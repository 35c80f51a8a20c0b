"""What a made program consists of: its classes, their fields, and the methods with their types."""

from dataclasses import dataclass, field

from . import java_types as types

# Each class may use those before it. A Java machine initialises them in this order, since the main class reads a
# field of each first. A run here does so too, since it goes by names.
CLASSES = ("A0", "A1", "A2")
MAIN = "M"
EXCEPTION = "E"
INTERFACE = "I"
REFERENCES = (
    *(*CLASSES, INTERFACE, EXCEPTION, "Object", "String"),
    *("int[]", "long[]", "boolean[]", "byte[]", "char[]", "short[]"),
    *("A0[]", "A1[]", "I[]", "Object[]", "int[][]", "long[][]"),
)
# The method that has no code in A0 where that is abstract.
ABSTRACT = "turn2"
# A method calls those of lower levels alone, so each call ends. Constructors call no method that makes objects.
PLAIN, VIRTUAL, CONSTRUCTOR, MAKING, INTERFACE_LEVEL, HELPER, MARKED = range(7)


@dataclass(frozen=True)
class Method:
    """A method that others may call: its name, types and level, and where it is declared first."""

    owner: str
    name: str
    result: str
    parameters: tuple
    level: int
    kind: str  # static, private or virtual; that of an interface is virtual too

    def heading(self):
        """Result, name and parameters, as a declaration has them."""
        named = ", ".join(f"{kind} a{i}" for i, kind in enumerate(self.parameters))
        return f"{self.result} {self.name}({named})"


@dataclass
class Shape:
    """The classes of one program, without their code."""

    parents: dict  # class to the class above
    implementing: tuple  # classes that list the interface themselves
    is_abstract: bool  # whether A0 can't be made
    fields: dict  # class to its fields, name to type
    statics: dict  # class to its static fields, name to type
    constructors: dict  # class to the parameters of each constructor
    constant: int  # the interface's constant K
    methods: list = field(default_factory=list)  # what code may call

    def classes_above(self, name):
        """A class and those above it, the nearest first."""
        return [name, *(self.classes_above(self.parents[name]) if name in self.parents else [])]

    def is_interface_of(self, name):
        return any(above in self.implementing for above in self.classes_above(name))

    def all_statics(self):
        """Each static field: its class, name and type."""
        return [(owner, name, kind) for owner, names in self.statics.items() for name, kind in names.items()]

    def fits(self, narrow, wide):
        """Whether a value of the one reference type is one of the other too."""
        if narrow == wide or wide == "Object":
            return True
        if types.is_array(narrow) and types.is_array(wide):
            inner, outer = types.element(narrow), types.element(wide)
            return not types.is_primitive(inner) and not types.is_primitive(outer) and self.fits(inner, outer)
        if wide == INTERFACE:
            return narrow in CLASSES and self.is_interface_of(narrow)
        return narrow in CLASSES and wide in self.classes_above(narrow)

    def is_known(self, here, kind):
        """Whether code of the class `here` may speak of this type."""
        last = len(CLASSES) if here == MAIN else CLASSES.index(here)
        stem = types.base(kind)
        if stem == INTERFACE:
            return any(self.fits(name, INTERFACE) for name in CLASSES[: last + 1])
        return stem not in CLASSES or CLASSES.index(stem) <= last

    def references(self, here):
        return [kind for kind in REFERENCES if self.is_known(here, kind)]

    def made_classes(self, here, wanted):
        """The classes that code of `here` can make objects of where this type is wanted."""
        fitting = (name for name in CLASSES if self.is_known(here, name) and self.fits(name, wanted))
        return [name for name in fitting if not (self.is_abstract and name == CLASSES[0])]

    def is_without_code(self, name, method):
        """Whether a class declares a method as abstract, or doesn't have it."""
        if method.owner == INTERFACE:
            return not self.is_interface_of(name)
        return self.is_abstract and name == CLASSES[0] and method.name == ABSTRACT

    def has_above(self, name, method):
        """Whether the class above has code for this virtual method, which `super` can call."""
        if method.kind != "virtual" or name not in self.parents:
            return False
        parent = self.parents[name]
        is_declared = method.owner == INTERFACE or method.owner in self.classes_above(parent)
        return is_declared and not self.is_without_code(parent, method)


def random_shape(random):
    """A shape, with all but the methods that only the main class has."""
    parents = {"A1": "A0", "A2": random.choice(("A0", "A1", "A1"))}
    implementing = ("A1",) if parents["A2"] == "A1" and random.random() < 0.6 else ("A1", "A2")
    shape = Shape(
        parents=parents,
        implementing=implementing,
        is_abstract=random.random() < 0.3,
        fields=random_fields(random),
        statics={name: {f"{name.lower()}Count": random.choice(types.PRIMITIVES)} for name in CLASSES},
        constructors={},
        constant=types.number(random, "int"),
    )
    shape.statics[EXCEPTION] = {"made": "int"}
    held = [kind for kind in REFERENCES if kind in ("A0", "int[]", "Object") or random.random() < 0.6]
    shape.statics[MAIN] = {types.field_name(kind): kind for kind in (*types.PRIMITIVES, *held)}
    for name in CLASSES:
        shape.constructors[name] = [("int",), *random_constructors(random)]
    shape.methods.extend(random_methods(random))
    return shape


def random_fields(random):
    """The fields of each class. One of A2 hides one of A0."""
    first = (*types.PRIMITIVES, "A0", "Object", "int[]", *random.sample(("long[]", "byte[]", "String", "A0[]"), 1))
    second = random.sample((*types.PRIMITIVES, "int[]", "A0"), 2)
    hiding = random.choice(types.PRIMITIVES)
    return {
        "A0": {types.field_name(kind): kind for kind in first},
        "A1": {f"own{i}": kind for i, kind in enumerate(("long", *second))},
        "A2": {types.field_name(hiding): random.choice(types.PRIMITIVES), "more": random.choice(types.PRIMITIVES)},
        EXCEPTION: {"code": "int"},
    }


def random_constructors(random):
    """The parameters of a second constructor, which isn't called as the first one."""
    more = random.choices((*types.PRIMITIVES, "long", "long", "int[]", "Object"), k=random.randint(1, 3))
    return [tuple(random.sample(("long", *more), len(more) + 1))]


def random_parameters(random, references, least=0, most=4):
    """Types of parameters: longs often, and in each place."""
    kinds = (*types.PRIMITIVES, "long", "int", *references)
    return tuple(random.choice(kinds) for _ in range(random.randint(least, most)))


def random_methods(random):
    """The methods of the classes and of the interface, without code."""
    results = (*types.PRIMITIVES, "int", "long", "int", "long")
    hidden = random_parameters(random, (), 1), random.choice(results)
    other = random_parameters(random, (), 1), random.choice(results)
    methods = [
        Method("A0", "plain", hidden[1], hidden[0], PLAIN, "static"),
        Method("A1", "other", other[1], other[0], PLAIN, "static"),
        Method("A2", "plain", hidden[1], hidden[0], PLAIN, "static"),
    ]
    secret = random_parameters(random, (), 1, 3), random.choice(results)
    for owner in CLASSES[:2]:
        methods.append(Method(owner, "secret", secret[1], secret[0], PLAIN, "private"))
        called = random_parameters(random, ("A0",), 0, 2)
        methods.append(Method(owner, f"ask{owner}", secret[1], called, VIRTUAL, "virtual"))
    for i, level in enumerate((VIRTUAL, MAKING, MAKING)):
        result = random.choice((*results, "A0", "int[]", "Object") if level == MAKING else results)
        parameters = random_parameters(random, ("A0", "int[]", "Object"))
        methods.append(Method(CLASSES[0], f"turn{i}", result, parameters, level, "virtual"))
    asked = random_parameters(random, ("A0", "long[]"), 1), random.choice(results)
    methods.append(Method(INTERFACE, "tell", asked[1], asked[0], INTERFACE_LEVEL, "virtual"))
    return methods
