"""Makes methods of random code: instructions between labels, jumps to these, switches and handlers."""

from .frames import Frame
from .instructions import Instructions
from .types import CAUGHT, THROWABLE, fits, is_reference, joined, signature

PARAMETERS = ["I", "J", "LA;", "LB;", "LC;", "LI;", "LE;", "[I", "[LA;", "[LB;", "[LI;", "[[LD;", "[Z", "[B"]
PARAMETERS += ["Ljava/lang/Object;", "Ljava/lang/String;"]
RESULTS = ["I", "J", "V", "LA;", "LI;", "[LA;", "Ljava/lang/Object;"]


class Method(Instructions):
    """A method in the making, with the types at its labels: those that are placed, and those that wait for it."""

    def __init__(self, draw, made, descriptor, constructor):
        super().__init__(draw, made, descriptor, constructor)
        self.labels, self.waiting, self.count = {}, {}, 0

    def fresh(self):
        self.count += 1
        return self.count

    def meets(self, label):
        """Notes that the types flow to a label, if as many places are on the stack there. Answers whether."""
        seen = self.labels.get(label) or self.waiting.get(label)
        if seen and len(seen.stack) != len(self.frame.stack) and self.draw.random() >= self.wild:
            return False
        if not seen:
            self.waiting[label] = self.frame.copy()
        elif label in self.waiting and self.draw.random() < 0.8:
            self.waiting[label] = seen.merged(self.frame)
        return True

    def branch(self):
        """A conditional jump to a label, placed or still to come."""
        draw, label = self.draw, self.target()
        if self.has("int", "int") and draw.random() < 0.5:
            name, count = draw.choice(["if_icmpeq", "if_icmplt"]), 2
        elif self.has("int"):
            name, count = draw.choice(["ifeq", "ifne", "iflt"]), 1
        elif is_reference(self.top()) and is_reference(self.top(1)) and draw.random() < 0.3:
            name, count = "if_acmpeq", 2
        elif is_reference(self.top()):
            name, count = draw.choice(["ifnull", "ifnonnull"]), 1
        else:
            return False
        kept = self.frame.copy()
        self.pop(count)
        if not self.meets(label):
            self.frame = kept
            return False
        self.code.jump(name, label)
        return True

    def target(self):
        """A label: one of those placed, one that waits, or a new one."""
        known = list(self.labels) if self.draw.random() < 0.4 else list(self.waiting)
        return self.draw.choice(known) if known and self.draw.random() < 0.8 else self.fresh()

    def switch(self):
        if self.top() != "int":
            return False
        kept, labels = self.frame.copy(), []
        self.pop(1)
        for _ in range(self.draw.randint(2, 3)):
            label = self.target()
            if not self.meets(label):
                label = self.fresh()
                self.meets(label)
            labels.append(label)
        self.code.switch(0, labels[1:], labels[0])
        self.resume()
        return True

    def place(self):
        """Places a label that waits, where the code before it may go on there."""
        for label, seen in list(self.waiting.items()):
            if len(seen.stack) == len(self.frame.stack) and self.draw.random() < 0.5:
                self.settle(label, seen.merged(self.frame) if self.draw.random() < 0.9 else seen)
                return True
        label = self.fresh()
        self.settle(label, self.frame)
        return True

    def settle(self, label, frame):
        self.waiting.pop(label, None)
        self.code.place(label)
        self.frame = frame.copy()
        self.labels[label] = frame.copy()

    def end(self):
        """An instruction after which the code doesn't go on: a return, a throw or a jump."""
        draw = self.draw
        if draw.random() < 0.3 and (self.labels or self.waiting):
            label = draw.choice([*self.labels, *self.waiting])
            if self.meets(label):
                self.code.jump("goto", label)
                return
        if draw.random() < 0.2 and (fits(self.top(), THROWABLE) or draw.random() < self.wild) and self.frame.stack:
            self.op("athrow", 1)
            return
        self.leave()

    def leave(self):
        """A return of the method's result, which is loaded where it isn't on the stack."""
        t = self.result
        if t is None:
            self.code.put("return")
            return
        if not self.has(t):
            candidates = [i for i, it in enumerate(self.frame.locals) if fits(it, t)]
            if candidates and t != "long":
                self.op("iload" if t == "int" else "aload", 0, t, bytes([candidates[0]]))
            else:
                self.default(t)
        self.code.put({"int": "ireturn", "long": "lreturn"}.get(t, "areturn"))

    def resume(self):
        """Goes on at a label that waits, or else anywhere."""
        if self.waiting:
            label = self.draw.choice(list(self.waiting))
            self.settle(label, self.waiting[label])
        else:
            self.settle(self.fresh(), Frame(self.frame.locals, []))

    def guarded(self):
        """A few instructions with a handler, which begins with the types before them. The last one leaves the locals as they are."""
        start, end, label, draw = self.fresh(), self.fresh(), self.fresh(), self.draw
        caught = draw.choice([None, *CAUGHT])
        self.code.place(start)
        seen = self.frame.copy()
        for _ in range(draw.randint(1, 5)):
            self.step()
            if draw.random() < 0.8:
                seen = Frame(map(joined, seen.locals, self.frame.locals), [])
        self.op("nop")
        self.code.place(end)
        self.code.guard(start, end, label, self.made.class_(caught) if caught else 0)
        self.waiting[label] = Frame(seen.locals, [caught or THROWABLE])
        return True

    def body(self):
        """The whole code."""
        ways = [self.branch] * 5 + [self.place] * 3 + [self.switch, self.guarded, self.guarded]
        for _ in range(self.draw.randint(3, 14)):
            for _ in range(self.draw.randint(1, 6)):
                self.step()
            if len(self.code.content) < 2000:
                self.draw.choice(ways)()
        self.end()
        while self.waiting:
            self.resume()
            for _ in range(self.draw.randint(0, 2)):
                self.step()
            if self.draw.random() < 0.3 and len(self.code.content) < 3000:
                self.end()
            else:
                self.leave()
        return self


def make(draw, made):
    """Adds a marked method of random code to a class, and sometimes a constructor of such code, which the method calls."""
    descriptor = f"({''.join(draw.choices(PARAMETERS, k=draw.randint(0, 4)))})"
    if draw.random() < 0.2:
        method = Method(draw, made, descriptor + "V", True)
        if draw.random() < 0.7:
            method.op("aload", 0, "this", b"\0")
            method.late_construct()
        add(made.constructor, method.body(), descriptor + "V")
        caller = Method(draw, made, "()V", False)
        at = caller.code.put("new", caller.index(made.class_(made.name)))
        caller.push(("new", at, made.name))
        for t in signature(descriptor + "V")[0]:
            caller.default(t)
        caller.construct(("new", at, made.name), made.name, descriptor + "V")
        caller.code.put("return")
        add(lambda *words: made.marked("m", *words), caller, "()V")
    else:
        descriptor += draw.choice(RESULTS)
        add(lambda *words: made.marked("m", *words), Method(draw, made, descriptor, False).body(), descriptor)


def add(adding, method, descriptor):
    """Adds a finished method. Sometimes it has room for a place too many on the stack, or for one too few."""
    code, handlers = method.code.finished()
    room = method.depth + (method.draw.choice([0, 0, 1, -1]) if method.wild else 0)
    adding(descriptor, max(0, room), len(method.frame.locals), code, handlers)
