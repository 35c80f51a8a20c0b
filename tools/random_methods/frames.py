"""The types of a frame, as far as they are followed while a method is made."""

from .types import joined, places


class Frame:
    """The types of locals and of the stack, its top last."""

    def __init__(self, locals_, stack):
        self.locals, self.stack = list(locals_), list(stack)

    def copy(self):
        return Frame(self.locals, self.stack)

    def merged(self, other):
        """The types above these and others, where both have as many places."""
        if len(self.stack) != len(other.stack):
            return self
        return Frame(map(joined, self.locals, other.locals), map(joined, self.stack, other.stack))

    def initialised(self, what, name):
        """An object that a constructor has run over."""
        for types in (self.locals, self.stack):
            types[:] = [name if it == what else it for it in types]

    def store(self, at, t):
        """A value in a local. Of a long that loses a place the other one is top."""
        if at > 0 and self.locals[at - 1] == "long":
            self.locals[at - 1] = "top"
        for i, it in enumerate(places(t)):
            if self.locals[at + i] == "long" and at + i + 1 < len(self.locals):
                self.locals[at + i + 1] = "top"
            self.locals[at + i] = it
        return self
