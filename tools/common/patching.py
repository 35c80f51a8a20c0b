"""Changes class files: adds a marked method, and marks static methods."""

import struct

# the bytes behind the tag of each kind of entry in a constant pool; a text has its own length
ENTRIES = {3: 4, 4: 4, 5: 8, 6: 8, 7: 2, 8: 2, 9: 4, 10: 4, 11: 4, 12: 4}
MARK = "RuntimeVisibleAnnotations"
STATIC, INTERFACE, NATIVE_OR_ABSTRACT = 8, 0x200, 0x500


class NewerPool(Exception):
    """A constant pool with an entry that class files of version 49 don't have."""


class ClassFile:
    """A class file taken apart as far as is needed: its pool, and where its parts lie."""

    def __init__(self, content):
        self.content = content
        self.count, self.texts, self.classes, self.end = self._read_pool()
        self.flags, self.this, self.super, listed = struct.unpack_from(">HHHH", content, self.end)
        self.fields = self.end + 8 + 2 * listed
        self.methods = self._behind_members(self.fields)
        self.added = []  # entries behind the old ones

    def _read_pool(self):
        content, at, number = self.content, 10, 1
        (count,) = struct.unpack_from(">H", content, 8)
        texts, classes = {}, {}
        while number < count:
            tag = content[at]
            if tag == 1:
                (length,) = struct.unpack_from(">H", content, at + 1)
                texts[number] = content[at + 3 : at + 3 + length].decode("latin-1")
                at += 3 + length
            elif tag in ENTRIES:
                if tag == 7:
                    (classes[number],) = struct.unpack_from(">H", content, at + 1)
                at += 1 + ENTRIES[tag]
            else:
                raise NewerPool
            number += 2 if tag in (5, 6) else 1
        return count, texts, classes, at

    def _behind_members(self, at):
        (count,) = struct.unpack_from(">H", self.content, at)
        at += 2
        for _ in range(count):
            at = self._behind_member(at)
        return at

    def _behind_member(self, at):
        (count,) = struct.unpack_from(">H", self.content, at + 6)
        at += 8
        for _ in range(count):
            (length,) = struct.unpack_from(">I", self.content, at + 2)
            at += 6 + length
        return at

    def name(self):
        return self.texts[self.classes[self.this]]

    def super_name(self):
        return self.texts[self.classes[self.super]] if self.super else None

    def named_classes(self):
        """The names of the classes that the pool has."""
        return {self.texts[text] for text in self.classes.values()}

    def is_interface(self):
        return bool(self.flags & INTERFACE)

    def _text(self, text):
        for number, known in self.texts.items():
            if known == text:
                return number
        content = text.encode("latin-1")
        self.added.append(struct.pack(">BH", 1, len(content)) + content)
        number = self.count + len(self.added) - 1
        self.texts[number] = text
        return number

    def _mark(self):
        content = struct.pack(">HHH", 1, self._text("Lorg/deuce/Atomic;"), 0)
        return struct.pack(">HI", self._text(MARK), len(content)) + content

    def _old_methods(self):
        (count,) = struct.unpack_from(">H", self.content, self.methods)
        at, methods = self.methods + 2, []
        for _ in range(count):
            end = self._behind_member(at)
            methods.append(self.content[at:end])
            at = end
        return methods

    def _marked_methods(self):
        """The methods, of which static ones with code get the mark."""
        return [self._marked(method) for method in self._old_methods()]

    def _marked(self, method):
        flags, name, _, attributes = struct.unpack_from(">HHHH", method)
        if not flags & STATIC or flags & NATIVE_OR_ABSTRACT or self.texts[name] == "<clinit>":
            return method
        return method[:6] + struct.pack(">H", attributes + 1) + method[8:] + self._mark()

    def with_marks(self):
        """The class file with marks on its static methods."""
        return self._with(self._marked_methods(), [])

    def with_method(self, name, marks):
        """The class file with a static marked method of this name, which answers 1. With marks its other static methods are marked, too."""
        code = struct.pack(">HHI", 1, 0, 2) + b"\x04\xac" + bytes(4)
        head = struct.pack(">HHHH", 0x1009, self._text(name), self._text("()I"), 2)
        added = head + struct.pack(">HI", self._text("Code"), len(code)) + code + self._mark()
        return self._with(self._marked_methods() if marks else self._old_methods(), [added])

    def _with(self, methods, added):
        end = self._behind_members(self.methods)
        pool = struct.pack(">H", self.count + len(self.added)) + self.content[10 : self.end] + b"".join(self.added)
        members = struct.pack(">H", len(methods) + len(added)) + b"".join(methods + added)
        return self.content[:8] + pool + self.content[self.end : self.methods] + members + self.content[end:]
