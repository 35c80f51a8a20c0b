"""Puts instructions at random. Most fit the types before them, as far as these are followed here, and some don't."""

import struct

from .assembly import Code
from .frames import Frame
from .types import CASTS, CONSTRUCTORS, FIELDS, INTERFACE_CALLS, STATICS, STATIC_CALLS, VIRTUALS
from .types import descriptor_of, element, fits, is_reference, of_descriptor, places, signature

INTS = "iadd isub imul ixor ishl iand irem".split()
LONGS = "ladd lsub lmul lxor".split()
SHUFFLES = {"pop": 1, "pop2": 2, "dup": 1, "dup_x1": 2, "dup_x2": 3, "dup2": 2, "dup2_x1": 3, "dup2_x2": 4, "swap": 2}
ELEMENTS = {"I": "i", "J": "l", "Z": "b", "B": "b", "C": "c", "S": "s"}
NEW_ARRAYS = {4: "[Z", 5: "[C", 8: "[B", 9: "[S", 10: "[I", 11: "[J"}


def shuffled(name, top):
    """What an instruction of the stack makes of its topmost places, the lowest first."""
    keep = {"pop": "", "pop2": "", "dup": "00", "dup_x1": "101", "dup_x2": "2012", "swap": "10"}
    keep |= {"dup2": "0101", "dup2_x1": "12012", "dup2_x2": "230123"}
    return [top[int(it)] for it in keep[name]]


class Instructions:
    """The instructions of a method in the making, and the types that they leave."""

    def __init__(self, draw, made, descriptor, constructor):
        self.draw, self.made, self.code, self.depth = draw, made, Code(), 0
        taken, self.result = signature(descriptor)
        first = ["this"] if constructor else []
        for t in taken:
            first += places(t)
        self.frame = Frame(first + ["top"] * draw.randint(1, 5), [])
        # How often an instruction is put whose types don't fit.
        self.wild = draw.choice([0, 0, 0.02, 0.05, 0.1])

    # The types on the stack.

    def push(self, t):
        self.frame.stack += places(t)
        self.depth = max(self.depth, len(self.frame.stack))

    def pop(self, count):
        del self.frame.stack[max(0, len(self.frame.stack) - count) :]

    def top(self, at=0):
        """The type of a place, counted from the top."""
        return self.frame.stack[-1 - at] if at < len(self.frame.stack) else "none"

    def has(self, *wanted):
        """Whether the topmost places have these types, the topmost last. Sometimes it is said of others."""
        if self.draw.random() < self.wild and sum(len(places(it)) for it in wanted) <= len(self.frame.stack):
            return True
        want = [it for t in wanted for it in places(t)]
        have = self.frame.stack[-len(want) :] if want else []
        return len(have) == len(want) and all(fits(a, b) for a, b in zip(have, want))

    def op(self, name, takes=0, gives=None, operands=b""):
        """An instruction that takes so many places and leaves a value of a type, or none. Answers where it stands."""
        at = self.code.put(name, operands)
        self.pop(takes)
        if gives is not None:
            self.push(gives)
        return at

    def index(self, number):
        return struct.pack(">H", number)

    # Kinds of instructions. Each answers whether it put one.

    def constant(self):
        kind = self.draw.randrange(6)
        if kind == 0:
            self.op("aconst_null", 0, "null")
        elif kind == 1:
            self.op(self.draw.choice(["lconst_0", "lconst_1"]), 0, "long")
        elif kind == 2:
            self.op("ldc_w", 0, "java/lang/String", self.index(self.made.string(self.draw.choice("xyz"))))
        else:
            self.op(f"iconst_{self.draw.randrange(6)}", 0, "int")
        return True

    def load(self):
        at = self.draw.randrange(len(self.frame.locals))
        t = self.frame.locals[at]
        if self.draw.random() < self.wild:
            t = self.draw.choice(["int", "null", "int"])
        if t in ("second", "top"):
            return False
        self.op({"int": "iload", "long": "lload"}.get(t, "aload"), 0, t, bytes([at]))
        return True

    def store(self):
        t = "long" if self.top() == "second" else self.top()
        width = len(places(t))
        if t == "none" or len(self.frame.locals) < width:
            return False
        at = self.draw.randrange(len(self.frame.locals) - width + 1)
        self.op({"int": "istore", "long": "lstore"}.get(t, "astore"), width, None, bytes([at]))
        self.frame.store(at, t)
        return True

    def increment(self):
        ints = [i for i, it in enumerate(self.frame.locals) if it == "int" or self.draw.random() < self.wild]
        if ints:
            self.op("iinc", 0, None, bytes([self.draw.choice(ints), 1]))
        return bool(ints)

    def shuffle(self):
        name = self.draw.choice(list(SHUFFLES))
        count = SHUFFLES[name]
        if len(self.frame.stack) < count:
            return False
        top = self.frame.stack[-count:]
        after = shuffled(name, top)
        whole = [it for i, it in enumerate(after) if it == "second" and (i == 0 or after[i - 1] != "long")]
        split = top[0] == "second" or whole or any(it == "long" and after[i + 1 : i + 2] != ["second"] for i, it in enumerate(after))
        if split and self.draw.random() >= self.wild:
            return False
        self.code.put(name)
        self.pop(count)
        self.frame.stack += after
        self.depth = max(self.depth, len(self.frame.stack))
        return True

    def arithmetic(self):
        if self.has("int", "int"):
            self.op(self.draw.choice(INTS), 2, "int")
        elif self.has("long", "long"):
            self.op(self.draw.choice(LONGS), 4, "long")
        elif self.has("long"):
            self.op("l2i", 2, "int")
        elif self.has("int"):
            name = self.draw.choice(["i2l", "ineg", "i2b", "i2c"])
            self.op(name, 1, "long" if name == "i2l" else "int")
        else:
            return False
        return True

    def array(self):
        kind = self.draw.randrange(3)
        if kind == 0 and self.has("int"):
            number = self.draw.choice(list(NEW_ARRAYS))
            self.op("newarray", 1, NEW_ARRAYS[number], bytes([number]))
        elif kind == 1 and self.has("int"):
            name = self.draw.choice(CASTS)
            self.op("anewarray", 1, f"[{descriptor_of(name)}", self.index(self.made.class_(name)))
        elif self.top()[0] == "[" or self.top() == "null":
            self.op("arraylength", 1, "int")
        else:
            return False
        return True

    def element_load(self):
        array = self.top(1)
        if self.top() != "int" or not isinstance(array, str) or array[0] != "[":
            return False
        letter = ELEMENTS.get(array[1], "a") if self.draw.random() >= self.wild else self.draw.choice("abil")
        self.op(f"{letter}aload", 2, element(array) if letter == "a" and len(array) > 2 else "long" if letter == "l" else "int")
        return True

    def element_store(self):
        for at in (1, 2):
            array = self.top(at + 1)
            if not isinstance(array, str) or array[:1] != "[" or self.top(at) != "int":
                continue
            wanted = element(array)
            if len(places(wanted)) == at and (self.has(wanted) or is_reference(wanted) and is_reference(self.top())):
                self.op(f"{ELEMENTS.get(array[1], 'a')}astore", at + 2)
                return True
        return False

    def field(self):
        if self.draw.random() < 0.5:
            owner, name, descriptor = self.draw.choice(STATICS)
            what = self.index(self.made.field(owner, name, descriptor))
            t = of_descriptor(descriptor)
            if self.has(t):
                self.op("putstatic", len(places(t)), None, what)
            else:
                self.op("getstatic", 0, t, what)
            return True
        owner, name, descriptor = self.draw.choice(FIELDS)
        what = self.index(self.made.field(owner, name, descriptor))
        t = of_descriptor(descriptor)
        if self.has(owner, t):
            self.op("putfield", 1 + len(places(t)), None, what)
        elif self.has(owner):
            self.op("getfield", 1, t, what)
        else:
            return False
        return True

    def call(self):
        kind = self.draw.choice(["invokevirtual", "invokevirtual", "invokeinterface", "invokestatic"])
        choices = {"invokevirtual": VIRTUALS, "invokeinterface": INTERFACE_CALLS, "invokestatic": STATIC_CALLS}[kind]
        owner, name, descriptor = self.draw.choice(choices)
        taken, result = signature(descriptor)
        wanted = taken if kind == "invokestatic" else [owner, *taken]
        if not self.has(*wanted):
            return False
        count = sum(len(places(it)) for it in wanted)
        if kind == "invokeinterface":
            kind, what = self.made.interface_call(owner, name, descriptor, count)
        else:
            what = self.index(self.made.method(owner, name, descriptor))
        self.op(kind, count, result, what)
        return True

    def instance(self):
        """An object that isn't built, mostly followed by its constructor."""
        owner, descriptor = self.draw.choice(CONSTRUCTORS)
        at = self.code.put("new", self.index(self.made.class_(owner)))
        what = ("new", at, owner)
        self.push(what)
        if self.draw.random() < 0.15:
            return True
        if self.draw.random() < 0.8:
            self.op("dup", 0, what)
        for t in signature(descriptor)[0]:
            self.default(t)
        self.construct(what, owner, descriptor)
        return True

    def default(self, t):
        """A value of a type."""
        if t == "int":
            self.op("iconst_1", 0, t)
        elif t == "long":
            self.op("lconst_1", 0, t)
        else:
            self.op("aconst_null", 0, t)

    def construct(self, what, owner, descriptor):
        """The call of a constructor, over its object and arguments."""
        taken, _ = signature(descriptor)
        self.op("invokespecial", 1 + sum(len(places(it)) for it in taken), None, self.index(self.made.method(owner, "<init>", descriptor)))
        self.frame.initialised(what, owner if what != "this" else self.made.name)

    def late_construct(self):
        """The constructor of an object on top of the stack, or of `this`, that isn't built."""
        if self.top() == "this":
            self.construct("this", self.made.above, "()V")
        elif isinstance(self.top(), tuple):
            self.construct(self.top(), self.top()[2], "()V")
        else:
            return False
        return True

    def test(self):
        if not is_reference(self.top()):
            return False
        name = self.draw.choice(CASTS)
        if self.draw.random() < 0.5:
            self.op("instanceof", 1, "int", self.index(self.made.class_(name)))
        else:
            self.op("checkcast", 1, name, self.index(self.made.class_(name)))
        return True

    KINDS = [constant] * 4 + [load] * 8 + [store] * 6 + [increment] + [shuffle, arithmetic, array, element_load] * 2
    KINDS += [element_store, element_store, field, field, field, call, call, call, instance, late_construct, test]

    def step(self):
        for _ in range(20):
            if self.draw.choice(self.KINDS)(self):
                return
