"""Class files with a random method, and the same ones with Object in place of the interface."""

import struct

from common.class_files import PUBLIC, SUPER, ClassMaker

from .types import OBJECT, SOURCES

INTERFACE = "I"


def sources(plain):
    """The classes beside a method. In the plain ones Object stands where a value of the interface is asked for."""
    return {name: text.replace("$I", "Object" if plain else INTERFACE) for name, text in SOURCES.items()}


class Maker(ClassMaker):
    """The class M above another one."""

    def __init__(self, above):
        super().__init__("M", PUBLIC | SUPER, above)

    def interface_call(self, owner, name, descriptor, places):
        """The instruction of a call by an interface, and the four bytes behind its opcode."""
        return "invokeinterface", struct.pack(">HBB", self.interface_method(owner, name, descriptor), places, 0)


class PlainMaker(Maker):
    """The same class, where Object stands in place of the interface, and a static method in place of each call by it."""

    def class_(self, name):
        return super().class_(OBJECT if name == INTERFACE else self._plain(name))

    def _member(self, tag, owner, name, descriptor):
        return super()._member(tag, owner, name, self._plain(descriptor))

    def marked(self, name, descriptor, *rest):
        super().marked(name, self._plain(descriptor), *rest)

    def constructor(self, descriptor, *rest):
        super().constructor(self._plain(descriptor), *rest)

    def interface_call(self, owner, name, descriptor, places):
        """A static call in its place, and two instructions that do nothing, so that all others stay where they are."""
        called = self.method("A", name, descriptor.replace("(", f"(L{OBJECT};"))
        return "invokestatic", struct.pack(">H", called) + bytes(2)

    def _plain(self, text):
        return text.replace(f"L{INTERFACE};", f"L{OBJECT};")
