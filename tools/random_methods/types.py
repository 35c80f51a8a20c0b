"""The types of a frame's places, and the classes that random methods use."""

# The classes, as sources for javac. A method's class stands beside them. $I is where a value of the interface is asked for.
SOURCES = {
    "I": "public interface I { int size(); A give(B b); }",
    "A": """
        public class A implements I {
            public int count;
            public long sum;
            public A next;
            public $I any;
            public static A first;
            public static long total;
            public static int[] ints;
            public A() {}
            public A(int n) { count = n; }
            public int size() { return count; }
            public A give(B b) { return b; }
            public A self(A a) { return a; }
            public static int size(Object i) { return 0; }
            public static A give(Object i, B b) { return b; }
            public static long twice(long n) { return n + n; }
        }""",
    "B": """
        public class B extends A {
            public B below;
            public A[] all;
            public static B[] many;
            public B() {}
            public B(A a, long n) { next = a; sum = n; }
            public int size() { return 2; }
            public B deep(A[] as, int i) { return null; }
            public static A of($I i, int n) { return null; }
        }""",
    "C": """
        public class C extends A {
            public byte[] bytes;
            public static $I one;
            public C() {}
            public $I twin($I i) { return i; }
        }""",
    "D": """
        public class D implements I {
            public boolean set;
            public static D[][] rows;
            public D() {}
            public int size() { return 4; }
            public A give(B b) { return b; }
        }""",
    "E": "public class E extends RuntimeException { public int code; public E() {} public E(int n) { code = n; } }",
    "F": "public class F extends E { public F() {} }",
}
OBJECT, THROWABLE, STRING = "java/lang/Object", "java/lang/Throwable", "java/lang/String"
ABOVE = {"A": OBJECT, "B": "A", "C": "A", "D": OBJECT, "I": OBJECT, STRING: OBJECT, "E": "java/lang/RuntimeException", "F": "E"}
ABOVE |= {"java/lang/RuntimeException": "java/lang/Exception", "java/lang/Exception": THROWABLE, THROWABLE: OBJECT}

# A type is "int", "long", "second", "null", "top", "this" (of a constructor, before the other one ran), a class's name or an
# array's descriptor, or ("new", where) for an object that no constructor has run over.
FIELDS = [("A", "count", "I"), ("A", "sum", "J"), ("A", "next", "LA;"), ("A", "any", "LI;"), ("B", "below", "LB;"), ("B", "all", "[LA;")]
FIELDS += [("C", "bytes", "[B"), ("D", "set", "Z"), ("E", "code", "I"), ("B", "next", "LA;")]
STATICS = [("A", "first", "LA;"), ("A", "total", "J"), ("A", "ints", "[I"), ("B", "many", "[LB;"), ("C", "one", "LI;")]
STATICS += [("D", "rows", "[[LD;")]
CONSTRUCTORS = [("A", "()V"), ("A", "(I)V"), ("B", "()V"), ("B", "(LA;J)V"), ("C", "()V"), ("D", "()V")]
CONSTRUCTORS += [("E", "()V"), ("E", "(I)V"), ("F", "()V"), (OBJECT, "()V")]
VIRTUALS = [("A", "size", "()I"), ("B", "size", "()I"), ("A", "give", "(LB;)LA;"), ("A", "self", "(LA;)LA;"), ("B", "self", "(LA;)LA;")]
VIRTUALS += [("B", "deep", "([LA;I)LB;"), ("C", "twin", "(LI;)LI;"), ("D", "size", "()I")]
INTERFACE_CALLS = [("I", "size", "()I"), ("I", "give", "(LB;)LA;")]
STATIC_CALLS = [("A", "twice", "(J)J"), ("B", "of", "(LI;I)LA;")]
CLASSES = ["A", "B", "C", "D", "E", "F", OBJECT, STRING, "I"]
CASTS = [*CLASSES, "[I", "[LA;", "[LB;", "[LI;", "[[LD;", "[Ljava/lang/Object;", "[J", "[Z"]
CAUGHT = ["E", "F", "java/lang/RuntimeException", THROWABLE]


def is_reference(t):
    """Whether a type is of objects that are built, or null."""
    return isinstance(t, str) and t not in ("int", "long", "second", "top", "this", "none")


def of_descriptor(text):
    """The type of a field descriptor."""
    if text[0] == "L":
        return text[1:-1]
    return text if text[0] == "[" else "long" if text == "J" else "int"


def descriptor_of(t):
    """The descriptor of an array's element of a class or array type."""
    return t if t[0] == "[" else f"L{t};"


def places(t):
    """The places that a value takes, the first one lowest."""
    return ["long", "second"] if t == "long" else [t]


def signature(text):
    """The types of a method descriptor's parameters, and that of its result, or None."""
    parts, at = [], 1
    while text[at] != ")":
        end = at
        while text[end] == "[":
            end += 1
        end = text.index(";", end) if text[end] == "L" else end
        parts.append(of_descriptor(text[at : end + 1]))
        at = end + 1
    result = text[at + 1 :]
    return parts, None if result == "V" else of_descriptor(result)


def line(name):
    """A class and those above it, lowest first."""
    found = [name]
    while found[-1] in ABOVE:
        found.append(ABOVE[found[-1]])
    return found


def element(array):
    """The type of an array's elements."""
    return of_descriptor(array[1:])


def fits(t, wanted):
    """Whether a value of a type can be taken where another is wanted."""
    if t == wanted or wanted == "top":
        return True
    if not (is_reference(t) and is_reference(wanted)):
        return False
    if t == "null" or wanted in (OBJECT, "I"):
        return True
    if t[0] == "[" and wanted[0] == "[":
        inner = element(t), element(wanted)
        return is_reference(inner[0]) and is_reference(inner[1]) and fits(*inner)
    return t[0] != "[" and wanted[0] != "[" and wanted in line(t)


def joined(a, b):
    """The narrowest type above both."""
    if fits(a, b):
        return b
    if fits(b, a):
        return a
    if not (is_reference(a) and is_reference(b)):
        return "top"
    if a[0] == "[" and b[0] == "[" and is_reference(element(a)) and is_reference(element(b)):
        return f"[{descriptor_of(joined(element(a), element(b)))}"
    if a[0] == "[" or b[0] == "[":
        return OBJECT
    return next((it for it in line(a) if it in line(b)), OBJECT)
