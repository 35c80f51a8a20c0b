"""Code in the making: instructions with labels, and the table of handlers."""

import struct

OPCODES = {}
for _at, _names in {
    0: "nop aconst_null iconst_m1 iconst_0 iconst_1 iconst_2 iconst_3 iconst_4 iconst_5 lconst_0 lconst_1",
    16: "bipush sipush ldc ldc_w ldc2_w iload lload",
    25: "aload",
    46: "iaload laload",
    50: "aaload baload caload saload istore lstore",
    58: "astore",
    79: "iastore lastore",
    83: "aastore bastore castore sastore pop pop2 dup dup_x1 dup_x2 dup2 dup2_x1 dup2_x2 swap iadd ladd",
    100: "isub lsub",
    104: "imul lmul",
    108: "idiv ldiv",
    112: "irem lrem",
    116: "ineg lneg",
    120: "ishl lshl ishr lshr iushr lushr iand land ior lor ixor lxor iinc i2l",
    136: "l2i",
    145: "i2b i2c i2s lcmp",
    153: "ifeq ifne iflt ifge ifgt ifle if_icmpeq if_icmpne if_icmplt if_icmpge if_icmpgt if_icmple if_acmpeq if_acmpne goto",
    170: "tableswitch",
    172: "ireturn lreturn",
    176: "areturn return getstatic putstatic getfield putfield invokevirtual invokespecial invokestatic invokeinterface",
    187: "new newarray anewarray arraylength athrow checkcast instanceof",
    198: "ifnull ifnonnull",
}.items():
    OPCODES |= {name: _at + i for i, name in enumerate(_names.split())}


class Code:
    """The bytes of code. A jump goes to a label, which is placed before or later."""

    def __init__(self):
        self.content, self.jumps, self.placed, self.handlers = bytearray(), [], {}, []

    def put(self, name, operands=b""):
        """An instruction with the bytes of its operands. Answers where it stands."""
        at = len(self.content)
        self.content += bytes([OPCODES[name]]) + operands
        return at

    def jump(self, name, label):
        self.jumps.append((len(self.content), len(self.content) + 1, ">h", label))
        self.put(name, bytes(2))

    def switch(self, low, labels, default):
        """A tableswitch."""
        at = self.put("tableswitch")
        self.content += bytes(-len(self.content) % 4)
        for label in (default, None, None, *labels):
            if label is not None:
                self.jumps.append((at, len(self.content), ">i", label))
            self.content += bytes(4)
        struct.pack_into(">ii", self.content, len(self.content) - 4 * len(labels) - 8, low, low + len(labels) - 1)

    def place(self, label):
        self.placed[label] = len(self.content)

    def guard(self, start, end, label, caught):
        """A handler at a label, of places from one label to another."""
        self.handlers.append((start, end, label, caught))

    def finished(self):
        """The bytes, and the handlers by their places."""
        for at, where, form, label in self.jumps:
            struct.pack_into(form, self.content, where, self.placed[label] - at)
        table = [tuple(self.placed[it] for it in handler[:3]) + handler[3:] for handler in self.handlers]
        return bytes(self.content), [it for it in table if it[0] < it[1]]
