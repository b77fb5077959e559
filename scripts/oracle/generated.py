"""The generated module of docs/FORMATS.md, and procedures of other sizes made in its way."""
from oracle.text import MASK

OPCODES = "Add Sub Mul BitAnd BitOr BitXor".split()


class Draws:
    def __init__(self, state):
        self.state = state

    def draw(self):
        self.state = (self.state * 6364136223846793005 + 1442695040888963407) & MASK
        return self.state >> 33


def procedure(name, draws, last, reach=None):
    """The lines of a procedure whose loop has the values b@13 to b@last beside its Phi and its end. Its operands are any
    values before, or, where `reach` is given, among so many right before."""
    def child(k):
        u = draws.draw() % (k - 2 if reach is None else min(reach, k - 2))
        if reach is None:
            return u if u < 10 else u + 2
        return 12 if k - 1 - u in (10, 11) else k - 1 - u

    lines = ["procedure " + name, "BB#0:"]
    lines += ["    Int64 b@%d = ArgumentReg(%%x%d)" % (r, r) for r in range(8)]
    lines += ["    Int64 b@8 = Const64(1)", "    Int64 b@9 = Const64(%d)" % draws.draw()]
    lines += ["    Void b@10 = Upsilon(b@0, ^12)", "    Void b@11 = Jump()", "  Successors: #1"]
    lines += ["BB#1:", "    Int64 b@12 = Phi()"]
    for k in range(13, last + 1):
        opcode = OPCODES[draws.draw() % 6]
        left, right = child(k), child(k)
        lines.append("    Int64 b@%d = %s(b@%d, b@%d)" % (k, opcode, left, right))
    lines.append("    Void b@%d = Upsilon(b@%d, ^12)" % (last + 1, last))
    lines.append("    Int32 b@%d = LessThan(b@%d, b@1)" % (last + 2, last))
    lines += ["    Void b@%d = Branch(b@%d)" % (last + 3, last + 2), "  Successors: Then:#1, Else:#2"]
    return lines + ["BB#2:", "    Void b@%d = Return(b@%d)" % (last + 4, last)]


def text(n):
    """The text of the generated module of a number."""
    draws = Draws(n)
    return "\n".join(line for p in range(16) for line in procedure("g%d" % p, draws, 512)) + "\n"


def one_text(values, reach=None):
    """One procedure of so many values, made in the same way."""
    return "\n".join(procedure("g", Draws(0), values - 5, reach)) + "\n"
