"""Class files of version 49 that no compiler makes, from the bytes of their code."""

import struct

PUBLIC, STATIC, SUPER, INTERFACE, ABSTRACT = 1, 8, 32, 0x200, 0x400
MARK = "RuntimeVisibleAnnotations"


class ClassMaker:
    """A class file in the making: its constant pool, and its methods."""

    def __init__(self, name, flags=PUBLIC | SUPER, above="java/lang/Object"):
        self.name, self.flags, self.above, self.pool, self.methods = name, flags, above, {}, []

    def utf8(self, text):
        content = text.encode()
        return self._entry(struct.pack(">BH", 1, len(content)) + content)

    def class_(self, name):
        return self._entry(struct.pack(">BH", 7, self.utf8(name)))

    def string(self, text):
        return self._entry(struct.pack(">BH", 8, self.utf8(text)))

    def field(self, owner, name, descriptor):
        return self._member(9, owner, name, descriptor)

    def method(self, owner, name, descriptor):
        return self._member(10, owner, name, descriptor)

    def interface_method(self, owner, name, descriptor):
        return self._member(11, owner, name, descriptor)

    def _member(self, tag, owner, name, descriptor):
        pair = self._entry(struct.pack(">BHH", 12, self.utf8(name), self.utf8(descriptor)))
        return self._entry(struct.pack(">BHH", tag, self.class_(owner), pair))

    def _entry(self, content):
        return self.pool.setdefault(content, len(self.pool) + 1)

    def marked(self, name, descriptor, stack, places, code, handlers=()):
        """Adds a static marked method with this code. A handler is a range, a place and the number of a class, 0 for any."""
        mark = struct.pack(">HHH", 1, self.utf8("Lorg/deuce/Atomic;"), 0)
        attributes = self._code(stack, places, code, handlers) + self._attribute(MARK, mark)
        self._method(PUBLIC | STATIC, name, descriptor, 2, attributes)

    def constructor(self, descriptor, stack, places, code, handlers=()):
        """Adds a constructor with this code."""
        self._method(PUBLIC, "<init>", descriptor, 1, self._code(stack, places, code, handlers))

    def _code(self, stack, places, code, handlers):
        table = struct.pack(">H", len(handlers)) + b"".join(struct.pack(">HHHH", *it) for it in handlers)
        return self._attribute("Code", struct.pack(">HHI", stack, places, len(code)) + code + table + bytes(2))

    def abstract(self, name, descriptor):
        """Adds an abstract method."""
        self._method(PUBLIC | ABSTRACT, name, descriptor, 0, b"")

    def _attribute(self, name, content):
        return struct.pack(">HI", self.utf8(name), len(content)) + content

    def _method(self, flags, name, descriptor, count, attributes):
        self.methods.append(struct.pack(">HHHH", flags, self.utf8(name), self.utf8(descriptor), count) + attributes)

    def content(self):
        """The bytes of the class file."""
        names = struct.pack(">HHH", self.flags, self.class_(self.name), self.class_(self.above))
        pool = struct.pack(">H", len(self.pool) + 1) + b"".join(self.pool)
        counts = struct.pack(">HHH", 0, 0, len(self.methods))
        return b"\xca\xfe\xba\xbe\0\0\0\x31" + pool + names + counts + b"".join(self.methods) + bytes(2)


def one_method(code, descriptor="(I)I", stack=1, places=1):
    """The class Made, with a marked method m that has this code."""
    made = ClassMaker("Made")
    made.marked("m", descriptor, stack, places, code)
    return {"Made": made.content()}


def additions(count):
    """So many loads, and then one addition fewer."""
    return one_method(b"\x1a" * count + b"\x60" * (count - 1) + b"\xac", stack=count)


def late_jumps(jumps, length):
    """A loop of so many instructions, to whose beginning as many jumps lead, each of which brings one local more that is no int there."""
    before = b"".join(b"\x03\xc4\x36" + struct.pack(">H", local) for local in range(1, jumps + 1))
    body = bytes(length)
    for local in range(1, jumps + 1):
        # aconst_null; wide astore local; iload_0; ifne to the beginning of the loop
        body += b"\x01\xc4\x3a" + struct.pack(">H", local) + b"\x1a"
        body += b"\x9a" + struct.pack(">h", -len(body))
    return one_method(before + body + b"\x03\xac", places=jumps + 1)


def many_places(length, places):
    """So many instructions that do nothing, with so many locals and places on the stack."""
    return one_method(bytes(length - 2) + b"\x03\xac", stack=places, places=places)


def null_loads(count):
    """So many loads of an element out of null, each out of the one before."""
    return one_method(b"\x01" + b"\x03\x32" * count + b"\x57\x03\xac", stack=2)


def reference_loads(count):
    """So many loads of a reference to an Object, and as many pops."""
    made = ClassMaker("Made")
    # aconst_null; checkcast Object; astore_1
    stored = b"\x01\xc0" + struct.pack(">H", made.class_("java/lang/Object")) + b"\x4c"
    made.marked("m", "(I)I", count, 2, stored + b"\x2b" * count + b"\x57" * count + b"\x03\xac")
    return {"Made": made.content()}


def _switch(at, default, targets):
    """A tableswitch at a place, from 0 on."""
    head = b"\xaa" + bytes(3 - at % 4)
    return head + struct.pack(">iii", default - at, 0, len(targets) - 1) + b"".join(struct.pack(">i", it - at) for it in targets)


def merging_targets(count, deep):
    """Two switches over the same targets, each over a deep stack of other references."""
    made = ClassMaker("Made")
    text = struct.pack(">H", made.string("x"))
    length = 2 * deep + 2 + 2 * len(_switch(0, 0, range(count))) + 8
    # aconst_null; astore_1; ldc_w "x"; astore_2; iload_0; ifeq to the second stack
    code = b"\x01\x4c\x13" + text + b"\x4d\x1a\x99"
    first = len(code) + 2 + length
    targets = range(first, first + count)
    one = b"".join(b"\x2b" if i % 2 else b"\x2c" for i in range(deep)) + b"\x1a"
    other = b"".join(b"\x2c" if i % 3 else b"\x2b" for i in range(deep)) + b"\x1a"
    at = len(code) + 2 + len(one)
    one += _switch(at, first + count, targets)
    code += struct.pack(">h", 3 + len(one)) + one + other
    code += _switch(len(code), first + count, targets)
    made.marked("m", "(I)I", deep + 2, 3, code + bytes(first - len(code)) + bytes(count) + b"\x03\xac")
    return {"Made": made.content()}


def guarded_stores(stores, handlers):
    """So many locals, of which each gets an int while as many handlers guard it."""
    code = b"".join(b"\x03\xc4\x36" + struct.pack(">H", local) for local in range(1, stores + 1)) + b"\x03\xac"
    guarded = len(code) - 2
    table = [(0, guarded, len(code) + 3 * i, 0) for i in range(handlers)]
    made = ClassMaker("Made")
    # each handler: pop; iconst_0; ireturn
    made.marked("m", "(I)I", 1, stores + 1, code + b"\x57\x03\xac" * handlers, table)
    return {"Made": made.content()}


def constructors(forks, deep):
    """An object at the bottom of a deep stack, over which a constructor runs at each of so many forks."""
    made = ClassMaker("Made")
    owner = struct.pack(">H", made.class_("java/lang/Object"))
    built = struct.pack(">H", made.method("java/lang/Object", "<init>", "()V"))
    # iload_0; ifeq to the next fork; aload_1; invokespecial; ireturn
    fork = b"\x1a\x99\0\x08\x2b\xb7" + built + b"\xac"
    # new; dup; astore_1
    code = b"\xbb" + owner + b"\x59\x4c" + b"\x1a" * deep + fork * forks + b"\x03\xac"
    made.marked("m", "(I)I", deep + 4, 2, code)
    return {"Made": made.content()}


def other_constructors(forks, deep):
    """So many objects at the bottom of a deep stack. At each of as many forks a constructor runs over another of them."""
    made = ClassMaker("Made")
    owner = struct.pack(">H", made.class_("java/lang/Object"))
    built = struct.pack(">H", made.method("java/lang/Object", "<init>", "()V"))
    # each object: new; dup; wide astore
    code = b"".join(b"\xbb" + owner + b"\x59\xc4\x3a" + struct.pack(">H", local) for local in range(1, forks + 1))
    code += b"\x1a" * deep
    # each fork: iload_0; ifeq to the next one; wide aload; invokespecial; ireturn
    code += b"".join(b"\x1a\x99\0\x0b\xc4\x19" + struct.pack(">H", local) + b"\xb7" + built + b"\xac" for local in range(1, forks + 1))
    made.marked("m", "(I)I", forks + deep + 4, forks + 1, code + b"\x03\xac")
    return {"Made": made.content()}


def interface_calls(count, letters):
    """So many calls of an interface's method, whose one parameter is of a class with a name of so many letters."""
    descriptor = f"(L{'n' * letters};)V"
    called = ClassMaker("Called", PUBLIC | INTERFACE | ABSTRACT)
    called.abstract("f", descriptor)
    made = ClassMaker("Made")
    call = b"\x01\x01\xb9" + struct.pack(">HBB", made.interface_method("Called", "f", descriptor), 2, 0)
    made.marked("m", "(I)I", 2, 1, call * count + b"\x03\xac")
    return {"Called": called.content(), "Made": made.content()}
