"""Random expressions, each of a wanted type, of what the code around them may use."""

from dataclasses import dataclass, field

from . import java_types as types
from .shapes import CLASSES, CONSTRUCTOR, EXCEPTION, INTERFACE, MAIN, Method

INSTANCES = (*CLASSES, INTERFACE, EXCEPTION, "String", "Object[]", "A0[]", "I[]", "int[]", "long[]", "int[][]")
COMPARISONS = ("<", "<=", ">", ">=", "==", "!=")
SHIFTS = ("<<", ">>", ">>>")


@dataclass
class Context:
    """Where code stands, and what it may use there."""

    here: str  # its class
    level: int  # it calls methods of lower levels alone
    has_this: bool
    fuel: int  # how many expressions may still have parts
    variables: dict = field(default_factory=dict)  # name to type
    counters: tuple = ()  # variables of loops, which nothing is stored to
    result: str = None  # what `return` gives; without it none may stand
    method: Method = None  # the virtual method whose code it is


class Expressions:
    """Makes the expressions of one place. Each is in parentheses where it needs them."""

    def __init__(self, random, shape, context):
        self.random = random
        self.shape = shape
        self.context = context

    def pick(self, *choices):
        return self.random.choice(choices)

    def often(self, share):
        return self.random.random() < share

    def weighted(self, forms):
        """The text of one of several forms, each a weight and a maker."""
        weights = [weight for weight, _ in forms]
        return self.random.choices(forms, weights)[0][1]()

    def expression(self, kind, depth):
        """An expression of this type, whose parts nest so deep at most."""
        self.context.fuel -= 1
        if depth <= 0 or self.context.fuel <= 0:
            return self.leaf(kind)
        own = {"int": self.int_forms, "long": self.long_forms, "boolean": self.boolean_forms}
        forms = own.get(kind, self.narrow_forms if kind in types.NARROW else self.reference_forms)
        return self.weighted([*self.common_forms(kind, depth - 1), *forms(depth - 1, kind)])

    def any_reference(self, depth):
        return self.expression(self.pick(*self.shape.references(self.context.here)), depth)

    # What needs no parts.

    def leaf(self, kind):
        """A variable, a field without much of a receiver, a constant or a new object."""
        held = self.variable(kind)
        if held and self.often(0.7):
            return held
        if self.context.has_this and self.often(0.6):
            own = self.own_field(kind)
            if own:
                return own
        if self.context.here == MAIN and kind in self.shape.statics[MAIN].values() and self.often(0.7):
            return f"M.{types.field_name(kind)}"
        if kind == "boolean" and self.often(0.6):
            return f"({self.leaf(self.pick('int', 'long'))} {self.pick(*COMPARISONS)} {self.random.randint(-1, 5)})"
        if types.is_primitive(kind) or kind == "String":
            return types.literal(self.random, kind)
        return self.new(kind, 0)

    def own_field(self, kind):
        """The object itself, or a field of it that its name alone means."""
        if self.is_this(kind):
            return "this"
        here = self.context.here
        names = [name for name, other in self.shape.fields[here].items() if other == kind]
        if not names and here != CLASSES[0]:
            inherited = self.shape.fields[CLASSES[0]].items()
            names = [name for name, other in inherited if other == kind and not self.is_hidden(name)]
        return f"this.{self.pick(*names)}" if names else None

    def is_hidden(self, name):
        """Whether two classes have fields of this name, so that a cast has to tell which is meant."""
        return sum(name in fields for fields in self.shape.fields.values()) > 1

    def is_this(self, kind):
        return not types.is_primitive(kind) and self.shape.fits(self.context.here, kind)

    def variable(self, kind):
        """A variable of this type, or None."""
        names = [name for name, other in self.context.variables.items() if other == kind]
        return self.random.choice(names) if names else None

    # What every type has.

    def common_forms(self, kind, depth):
        """Variables, places, choices, calls and assignments."""
        called = self.callable_methods(kind)
        forms = [(4, lambda: self.leaf(kind)), (1, lambda: self.choice(kind, depth))]
        if self.has_place(kind):
            # What holds a reference often holds null.
            share = 1 if types.is_primitive(kind) else 0.05
            forms.append((5 * share, lambda: self.place(kind, depth)))
            forms.append((share, lambda: f"({self.place(kind, depth)} = {self.expression(kind, depth)})"))
        return [*forms, (5, lambda: self.call(self.pick(*called), depth))] if called else forms

    def choice(self, kind, depth):
        condition, first, second = (self.expression(it, depth) for it in ("boolean", kind, kind))
        return f"(({kind}) ({condition} ? {first} : {second}))"

    def has_place(self, kind):
        """Whether there is anything that holds values of this type."""
        fields = self.static_fields(kind) or self.object_fields(kind)
        return bool(fields or self.stored(kind)) or f"{kind}[]" in self.shape.references(self.context.here)

    def stored(self, kind):
        """The variables of this type that code may store to."""
        names = [name for name, other in self.context.variables.items() if other == kind]
        return [name for name in names if name not in self.context.counters]

    def place(self, kind, depth):
        """What can be stored to: a variable, a field or an element of an array. There is one of this type."""
        stored, statics, fields = self.stored(kind), self.static_fields(kind), self.object_fields(kind)
        forms = []
        if stored:
            forms.append((3, lambda: self.pick(*stored)))
        if statics:
            forms.append((3, lambda: self.pick(*statics)))
        if fields:
            forms.append((4, lambda: self.field_place(*self.pick(*fields), depth)))
        if f"{kind}[]" in self.shape.references(self.context.here):
            forms.append((2, lambda: self.element(kind, depth)))
        return self.weighted(forms)

    def element(self, kind, depth):
        """An element of an array. A cast lets one of a narrower type be stored to, too."""
        array, index = self.expression(f"{kind}[]", depth), self.index(depth)
        return f"{array}[{index}]" if types.is_primitive(kind) else f"(({kind}[]) {array})[{index}]"

    def static_fields(self, kind):
        """The static fields of this type that the code may use."""
        here, statics = self.context.here, self.shape.statics
        known = [name for name in (*CLASSES, EXCEPTION) if self.shape.is_known(here, name)]
        owners = [*known, MAIN] if here == MAIN else known
        return [f"{name}.{text}" for name in owners for text, other in statics[name].items() if other == kind]

    def object_fields(self, kind):
        """The fields of this type of objects that there are, each with its class."""
        found = [(name, text) for name, fields in self.shape.fields.items() for text in fields if fields[text] == kind]
        return [(owner, name) for owner, name in found if self.is_there(owner)]

    def is_there(self, kind):
        """Whether code can get an object of this class that isn't null."""
        if not self.shape.is_known(self.context.here, kind):
            return False
        is_made = kind == EXCEPTION or self.context.level > CONSTRUCTOR
        return is_made or self.context.has_this and self.is_this(kind) or self.variable(kind) is not None

    def field_place(self, owner, name, depth):
        """A field of an object. Where two classes have fields of this name, a cast tells which is meant."""
        is_own = self.context.has_this and self.is_this(owner) and self.often(0.6)
        place = "this" if is_own else self.expression(owner, depth)
        return f"(({owner}) {place}).{name}" if self.is_hidden(name) else f"{place}.{name}"

    def index(self, depth):
        forms = [
            (12, lambda: str(self.random.randint(0, 3))),
            (8, lambda: f"({self.expression('int', depth)} & 3)"),
            (0.2, lambda: self.leaf("int")),
        ]
        return self.weighted(forms)

    # Calls.

    def callable_methods(self, result):
        """The methods of lower levels that give this result."""
        here, level = self.context.here, self.context.level
        return [
            method
            for method in self.shape.methods
            if method.result == result
            and (method.level < level or method == self.context.method and self.can_call_super(method))
            and (here == MAIN if method.owner == MAIN else self.shape.is_known(here, method.owner))
            and (method.kind != "private" or method.owner == here)
            and (method.kind == "static" or self.is_there(method.owner))
            and all(types.is_primitive(kind) or self.shape.is_known(here, kind) for kind in method.parameters)
        ]

    def can_call_super(self, method):
        return self.context.has_this and self.shape.has_above(self.context.here, method)

    def call(self, method, depth):
        arguments = ", ".join(self.expression(kind, depth) for kind in method.parameters)
        return f"{self.receiver(method, depth)}.{method.name}({arguments})"

    def receiver(self, method, depth):
        if method == self.context.method:
            return "super"
        if method.kind == "static":
            return method.owner
        if self.context.has_this and self.is_this(method.owner) and self.often(0.5):
            return "this"
        return self.expression(method.owner, depth)

    # Numbers.

    def int_forms(self, depth, _):
        narrow = self.pick(*types.NARROW)
        return [
            (6, lambda: self.binary("int", "int", depth)),
            (2, lambda: f"({self.expression('int', depth)} {self.pick(*'/%')} {self.divisor('int', depth)})"),
            (2, lambda: self.shift("int", depth)),
            (1, lambda: f"((int) {self.expression('long', depth)})"),
            (1, lambda: f"({self.pick(*'-~')}{self.expression('int', depth)})"),
            (2, lambda: self.binary("int", narrow, depth)),
            (2, lambda: f"{self.measured_array(depth)}.length"),
            (1, lambda: self.library_call("int", depth)),
            (2, lambda: self.compound("int", depth)),
            (1, lambda: self.step(self.pick("int", *types.NARROW), depth)),
            *([(1, lambda: "I.K")] if self.shape.is_known(self.context.here, INTERFACE) else []),
        ]

    def long_forms(self, depth, _):
        other = self.pick("long", "long", "int", *types.NARROW)
        return [
            (6, lambda: self.binary("long", other, depth)),
            (2, lambda: f"({self.expression('long', depth)} {self.pick(*'/%')} {self.divisor('long', depth)})"),
            (2, lambda: self.shift("long", depth)),
            (2, lambda: f"((long) {self.expression(self.pick('int', *types.NARROW), depth)})"),
            (1, lambda: f"({self.pick(*'-~')}{self.expression('long', depth)})"),
            (1, lambda: self.library_call("long", depth)),
            (2, lambda: self.compound("long", depth)),
            (1, lambda: self.step("long", depth)),
        ]

    def narrow_forms(self, depth, kind):
        return [
            (4, lambda: f"(({kind}) {self.expression(self.pick('int', 'long', *types.NARROW), depth)})"),
            (1, lambda: self.compound(kind, depth)),
            (1, lambda: self.step(kind, depth)),
        ]

    def binary(self, kind, other, depth):
        first, second = self.expression(kind, depth), self.expression(other, depth)
        first, second = (first, second) if self.often(0.7) else (second, first)
        return f"({first} {self.pick(*'+-*&|^')} {second})"

    def shift(self, kind, depth):
        by = self.expression(self.pick("int", "long", "byte"), depth)
        return f"({self.expression(kind, depth)} {self.pick(*SHIFTS)} {by})"

    def divisor(self, kind, depth):
        """A number that is mostly not 0."""
        if self.often(0.95):
            return f"({self.expression(kind, depth)} | {self.pick(1, 1, 6)})"
        return self.expression(kind, depth)

    def measured_array(self, depth):
        arrays = [kind for kind in self.shape.references(self.context.here) if types.is_array(kind)]
        return self.expression(self.pick(*arrays), depth)

    def library_call(self, kind, depth):
        if self.often(0.3):
            return f"Math.abs({self.expression(kind, depth)})"
        arguments = f"{self.expression(kind, depth)}, {self.expression(kind, depth)}"
        return f"Math.{self.pick('min', 'max')}({arguments})"

    def compound(self, kind, depth):
        """A compound assignment, which narrows what it stores."""
        place = self.place(kind, depth)
        if kind == "boolean":
            return f"({place} {self.pick('&=', '|=', '^=')} {self.expression('boolean', depth)})"
        other = self.pick(kind, "int", "long", *types.NARROW)
        operator = self.pick("+=", "-=", "*=", "&=", "|=", "^=", "/=", "%=", "<<=", ">>=", ">>>=")
        by = self.divisor if operator in ("/=", "%=") else self.expression
        return f"({place} {operator} {by(other, depth)})"

    def step(self, kind, depth):
        place, operator = self.place(kind, depth), self.pick("++", "--")
        return f"({place}{operator})" if self.often(0.5) else f"({operator}{place})"

    # Truth values.

    def boolean_forms(self, depth, _):
        return [
            (6, lambda: self.comparison(self.pick("int", "int", *types.NARROW), "int", depth)),
            (4, lambda: self.comparison("long", self.pick("long", "int"), depth)),
            (3, lambda: self.connected(depth)),
            (1, lambda: f"(!{self.expression('boolean', depth)})"),
            (3, lambda: f"((Object) {self.any_reference(depth)} instanceof {self.instance()})"),
            (2, lambda: self.same_objects(depth)),
            (1, lambda: f"({self.any_reference(depth)} {self.pick('==', '!=')} null)"),
            (1, lambda: self.compound("boolean", depth)),
        ]

    def comparison(self, kind, other, depth):
        return f"({self.expression(kind, depth)} {self.pick(*COMPARISONS)} {self.expression(other, depth)})"

    def connected(self, depth):
        operator = self.pick("&&", "||", "&&", "||", "&", "|", "^", "==", "!=")
        return f"({self.expression('boolean', depth)} {operator} {self.expression('boolean', depth)})"

    def instance(self):
        return self.pick(*(kind for kind in INSTANCES if self.shape.is_known(self.context.here, kind)))

    def same_objects(self, depth):
        """Whether two references are one; texts among them."""
        if self.often(0.3):
            first, second = self.expression("String", depth), self.expression(self.pick("String", "Object"), depth)
        else:
            first, second = self.any_reference(depth), self.any_reference(depth)
        return f"((Object) {first} {self.pick('==', '!=')} (Object) {second})"

    # References.

    def reference_forms(self, depth, kind):
        forms = [(3, lambda: self.new(kind, depth)), (0.03, lambda: f"(({kind}) null)")]
        narrower = [it for it in self.shape.references(self.context.here) if it != kind and self.shape.fits(it, kind)]
        if narrower:
            forms.append((3, lambda: self.expression(self.pick(*narrower), depth)))
        if kind != "Object":
            forms.append((0.3, lambda: self.cast(kind, depth)))
        return forms

    def cast(self, kind, depth):
        """A cast of a wider type: mostly of an object that passes it."""
        wider = [it for it in self.shape.references(self.context.here) if it != kind and self.shape.fits(kind, it)]
        inner = self.expression(self.pick(*wider) if self.often(0.1) else kind, depth)
        return f"(({kind}) (Object) {inner})"

    def new(self, kind, depth):
        """A new object or array of this type, or null where none can be made here."""
        if types.is_array(kind):
            return self.new_array(kind, depth)
        if kind == "String":
            return types.literal(self.random, kind)
        if kind == EXCEPTION:
            return f"new E({self.expression(self.pick('int', 'long'), depth)})"
        if kind == "Object" and self.often(0.7):
            return self.weighted(self.object_forms(depth))
        names = self.shape.made_classes(self.context.here, kind) if self.context.level > CONSTRUCTOR else []
        if not names:
            return self.held(kind)
        name = self.pick(*names)
        parameters = self.pick(*self.shape.constructors[name])
        return f"new {name}({', '.join(self.expression(it, depth) for it in parameters)})"

    def held(self, kind):
        """What there is of a class of which no object can be made here."""
        if self.context.has_this and self.is_this(kind):
            return "this"
        return self.variable(kind) or f"(({kind}) null)"

    def object_forms(self, depth):
        arrays = ("int[]", "Object[]", "boolean[]", "long[][]")
        return [
            (2, lambda: types.literal(self.random, "String")),
            (1, lambda: "new Object()"),
            (1, lambda: self.new(EXCEPTION, depth)),
            (2, lambda: self.new(self.pick(*arrays), depth)),
        ]

    def new_array(self, kind, depth):
        inner = types.element(kind)
        if inner not in types.PRIMITIVES and inner not in self.shape.references(self.context.here):
            return f"(({kind}) null)"
        is_short = depth <= 0 or self.context.fuel <= 0
        if is_short and not types.is_primitive(inner) and self.often(0.5):
            return f"(new {kind} {{ {self.leaf(inner)}, {self.leaf(inner)}, null, {self.leaf(inner)} }})"
        if is_short or self.often(0.2):
            length = "4" if self.often(0.97) else self.pick("3", "5", "0", f"({self.leaf('int')} % 5)")
            dimensions = kind.count("[]")
            return f"(new {types.base(kind)}[{length}]{'[]' * (dimensions - 1)})"
        elements = ", ".join(self.expression(inner, depth) for _ in range(4))
        return f"(new {kind} {{ {elements} }})"
