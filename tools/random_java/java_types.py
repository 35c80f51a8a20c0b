"""The types of the made programs, written as Java writes them, and what belongs to each."""

PRIMITIVES = ("int", "long", "boolean", "byte", "char", "short")
NARROW = ("byte", "char", "short")
NUMBERS = ("int", "long", *NARROW)
LETTERS = {"int": "I", "long": "J", "boolean": "Z", "byte": "B", "char": "C", "short": "S", "void": "V"}
RANGES = {
    "int": (-(2**31), 2**31 - 1),
    "long": (-(2**63), 2**63 - 1),
    "byte": (-(2**7), 2**7 - 1),
    "char": (0, 2**16 - 1),
    "short": (-(2**15), 2**15 - 1),
}
# Numbers at which operators, conversions and switches change their ways.
EDGES = (0, 1, 2, 3, 5, 7, -1, -2, 31, 32, 63, 64, 100, 127, 128, 255, 256, 32767, 32768, 65535, 65536)
LONG_EDGES = (2**31 - 1, 2**31, 2**32 - 1, 2**32, 3 * 2**32 + 7, -(2**31), -(2**31) - 1, -(2**32))
TEXTS = ("x", "y", "xy", "")

# Each class of the library that is thrown or caught, with the one above it.
LIBRARY = {
    "Throwable": None,
    "Exception": "Throwable",
    "Error": "Throwable",
    "RuntimeException": "Exception",
    "ArithmeticException": "RuntimeException",
    "ArrayStoreException": "RuntimeException",
    "ClassCastException": "RuntimeException",
    "IllegalArgumentException": "RuntimeException",
    "IllegalStateException": "RuntimeException",
    "NegativeArraySizeException": "RuntimeException",
    "NullPointerException": "RuntimeException",
    "UnsupportedOperationException": "RuntimeException",
    "IndexOutOfBoundsException": "RuntimeException",
    "ArrayIndexOutOfBoundsException": "IndexOutOfBoundsException",
    "LinkageError": "Error",
}


def is_primitive(kind):
    return kind in PRIMITIVES


def is_array(kind):
    return kind.endswith("[]")


def element(kind):
    """The type of an array's elements."""
    return kind[: -len("[]")]


def base(kind):
    """What an array of arrays is made of in the end; any other type itself."""
    return kind.replace("[]", "")


def field_name(kind):
    """The name of the field that holds such a value: theInt, theInts for an array, theIntss for one of arrays."""
    stem = base(kind)
    return f"the{stem[0].upper()}{stem[1:]}{'s' * kind.count('[]')}"


def descriptor(package, result, parameters):
    """The descriptor of a method, as class files write it."""
    return f"({''.join(letters(package, kind) for kind in parameters)}){letters(package, result)}"


def letters(package, kind):
    """A type as descriptors write it."""
    if is_array(kind):
        return "[" + letters(package, element(kind))
    if kind in LETTERS:
        return LETTERS[kind]
    return f"Ljava/lang/{kind};" if kind in ("Object", "String") else f"L{package}/{kind};"


def literal(random, kind):
    """A random constant of a primitive type, or of String."""
    if kind == "boolean":
        return random.choice(("true", "false"))
    if kind == "String":
        return random.choice(('"x"', '"y"', '"xy"', '("x" + "y")', '""'))
    return written(kind, number(random, kind))


def number(random, kind):
    """A random number of a type: one at an edge, or any."""
    least, most = RANGES[kind]
    edges = (*EDGES, least, most, *(LONG_EDGES if kind == "long" else ()))
    chosen = random.choice((*edges, random.randint(-9, 9), random.randint(least, most)))
    return chosen if least <= chosen <= most else random.randint(0, 9)


def written(kind, value):
    """A number as Java source of its type."""
    if kind == "long":
        return f"({value}L)" if value < 0 else f"{value}L"
    if kind == "int":
        return f"({value})" if value < 0 else str(value)
    return f"((byte) {value})" if kind == "byte" else f"(({kind}) {value})"


def argument(random, kind):
    """A random argument of a type, as a script has it."""
    if not is_primitive(kind):
        return None
    return random.choice((True, False)) if kind == "boolean" else number(random, kind)
