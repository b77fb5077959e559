"""Texts that are the same each time, with the arguments that they are run on: each pure opcode at its edges, and large
Switches, procedures and numbers of blocks."""
import random

from oracle.rules import COMPARISONS, FORMS, SHIFTS
from oracle.trials import PURE

EDGES = {
    w: [0, 1, 2, 3, 7, 2**w - 1, 2**w - 2, 2**w - 7, 2 ** (w - 1), 2 ** (w - 1) - 1, 2 ** (w - 1) + 1] for w in (32, 64)
}
AMOUNTS = [0, 1, 5, 31, 32, 33, 63, 64, 65, 95, 127, 128, 255, 256, 2**31 - 1, 2**31, 2**31 + 1, 2**32 - 1]
# Second children that an instruction may hold, or that stand beside such ones.
NEAR = [4094, 4095, 4096, 4097, 8192, 4096 * 4095, 4096 * 4095 + 1, 4096 * 4096, -4095, -4096, -4097, -4096 * 4095]
MASKS = [0xFF, 0xFF00, 0x80000001, 0x55555555, 0x33333333, 0xF0F0F0F0, 0xFFFF0000, 0x12345678, 5, 0xFFFFFFFE]
CONSTANTS = {w: sorted({n % 2**w for n in EDGES[w] + NEAR + MASKS + [m << 32 | m for m in MASKS]}) for w in (32, 64)}
QUOTIENTS = ("Div", "Div<Chill>", "Mod", "Mod<Chill>", "UDiv", "UMod")


class Lines:
    """The lines of a procedure, with ids in order."""

    def __init__(self, name):
        self.lines, self.count = ["procedure " + name, "BB#0:"], 0

    def put(self, ty, kind, *items):
        self.lines.append("    %s b@%d = %s(%s)" % (ty, self.count, kind, ", ".join(items)))
        self.count += 1
        return "b@%d" % (self.count - 1)

    def argument(self, r, ty):
        """An argument of the type; an Int32 is the low half of its word."""
        word = self.put("Int64", "ArgumentReg", "%%x%d" % r)
        return word if ty == "Int64" else self.put("Int32", "Trunc", word)

    def constant(self, ty, number):
        return self.put(ty, "Const" + ty[3:], "%d" % number)

    def branch(self, test):
        """Two Returns of different words."""
        self.put("Void", "Branch", test)
        self.lines.append("  Successors: Then:#1, Else:#2")
        for b, number in ((1, 11), (2, 22)):
            self.lines.append("BB#%d:" % b)
            self.end(self.constant("Int32", number))

    def end(self, *children):
        self.put("Void", "Return", *children)
        return self.lines


def words(rng, w):
    """Arguments of a width: words of 64 bits of which an Int32 takes the low half."""
    return [word | rng.getrandbits(32) << 32 if w == 32 else word for word in EDGES[w] + [rng.getrandbits(w)]]


def of_arguments(rng, name, kind, types, own, widened):
    """An opcode over its arguments, and the calls that it is run by; an Int32 may be widened, so that what stands above
    it counts."""
    p = Lines(name)
    got = p.put(own, kind, *[p.argument(r, ty) for r, ty in enumerate(types)])
    p.end(p.put("Int64", "ZExt32", got) if widened else got)
    rows = [[]]
    for place, ty in enumerate(types):
        given = AMOUNTS if kind in SHIFTS and place == 1 else words(rng, int(ty[3:]))
        rows = [row + [word] for row in rows for word in given]
    return p.lines, [(name, row) for row in rows]


def of_constant(rng, name, kind, types, own, constant):
    """An opcode whose second child is a constant."""
    p = Lines(name)
    p.end(p.put(own, kind, p.argument(0, types[0]), p.constant(types[1], constant)))
    return p.lines, [(name, [word]) for word in words(rng, int(types[0][3:]))]


def of_branch(rng, name, kind, ty, constant):
    """A Branch on a comparison with a constant."""
    p, bits = Lines(name), int(ty[3:])
    p.branch(p.put("Int32", kind, p.argument(0, ty), p.constant(ty, constant)))
    near = [(constant + more) % 2**bits for more in (-1, 0, 1)]
    return p.lines, [(name, [word]) for word in words(rng, bits) + near]


def in_modules(pieces):
    """Modules of some procedures each, with the calls that they are run on."""
    for first in range(0, len(pieces), 200):
        some = pieces[first : first + 200]
        yield "\n".join(line for lines, _ in some for line in lines) + "\n", [row for _, rows in some for row in rows]


def pure_opcodes():
    """Each pure opcode in each form over its arguments, and over constants."""
    rng, pieces = random.Random(5), []
    for kind in PURE:
        for types, own, _ in FORMS[kind.partition("<")[0]]:
            for widened in [False, True][: 1 + (own == "Int32")]:
                pieces.append(of_arguments(rng, "f%d" % len(pieces), kind, types, own, widened))
            if len(types) != 2:
                continue
            w = int(types[0][3:])
            for constant in AMOUNTS if kind in SHIFTS else EDGES[w] if kind in QUOTIENTS else CONSTANTS[w]:
                pieces.append(of_constant(rng, "f%d" % len(pieces), kind, types, own, constant))
                if kind in COMPARISONS:
                    pieces.append(of_branch(rng, "f%d" % len(pieces), kind, types[0], constant))
    return in_modules(pieces)


def of_bit(rng, name, ty, bit, select):
    """A Branch or a Select on one bit of a word."""
    p, bits = Lines(name), int(ty[3:])
    test = p.put(ty, "BitAnd", p.argument(0, ty), p.constant(ty, 1 << bit))
    if select:
        p.end(p.put("Int32", "Select", test, p.constant("Int32", 5), p.argument(1, "Int32")))
    else:
        p.branch(test)
    return p.lines, [(name, [word ^ more, 77]) for word in words(rng, bits) for more in (0, 1 << bit)]


def tests():
    """Branches on words, and Branches and Selects on one bit of them."""
    rng, pieces = random.Random(6), []
    for ty, bits in (("Int32", 32), ("Int64", 64)):
        p = Lines("f%d" % len(pieces))
        p.branch(p.argument(0, ty))
        pieces.append((p.lines, [("f%d" % len(pieces), [word]) for word in words(rng, bits)]))
        for bit in [bit for bit in (0, 1, 15, 31, 32, 47, 63) if bit < bits]:
            for select in (False, True):
                pieces.append(of_bit(rng, "f%d" % len(pieces), ty, bit, select))
    return in_modules(pieces)


def switch(ty, count):
    """A Switch of so many cases, some of them negative, each with a block of its own."""
    rng, bits = random.Random(count), int(ty[3:])
    cases = {0, 1, 2, 3, -1, -2, -(2 ** (bits - 1)), 2 ** (bits - 1) - 1, -4096, 4095, 4096, 65536}
    while len(cases) < count:
        cases.add(rng.choice([rng.randrange(-500, 500), rng.randrange(-(2 ** (bits - 1)), 2 ** (bits - 1))]))
    cases = sorted(cases)
    rng.shuffle(cases)
    p = Lines("f")
    spelled = [case % 2**32 if bits == 32 and rng.random() < 0.2 else case for case in cases]
    p.put("Void", "Switch", p.argument(0, ty), "cases = [" + ", ".join(map(str, spelled)) + "]")
    targets = "".join("#%d, " % (k + 1) for k in range(count))
    p.lines.append("  Successors: %sfallThrough:#%d" % (targets, count + 1))
    for k in range(count + 1):
        p.lines.append("BB#%d:" % (k + 1))
        p.put("Void", "Return", p.constant(ty, 1000 + k))
    given = {(case + more) % 2**bits for case in cases for more in (-1, 0, 1)}
    given = [word | rng.getrandbits(32) << 32 if bits == 32 else word for word in sorted(given)]
    return "\n".join(p.lines) + "\n", [("f", [word]) for word in given + [rng.getrandbits(64) for _ in range(20)]]


def many_values(values=16384):
    """One block of so many values, each looking at some before it, near and far."""
    rng, p = random.Random(7), Lines("f")
    p.argument(0, "Int64")
    p.argument(1, "Int64")
    while p.count < values - 1:
        near, far = p.count - rng.randint(1, 2), rng.randrange(p.count)
        kind = rng.choice(["Add", "Sub", "BitXor"] * 9 + ["Mul", "BitAnd", "BitOr"])
        p.put("Int64", kind, "b@%d" % near, "b@%d" % far)
    return "\n".join(p.end("b@%d" % (values - 2))) + "\n", edge_pairs("f")


def many_blocks(blocks=4096):
    """So many blocks, each but the last with a comparison and a Branch to two of those behind it."""
    p = Lines("f")
    sums = [p.argument(0, "Int64"), p.argument(1, "Int64")]
    sums += [p.put("Int64", "Add", *sums), p.constant("Int64", 2**32 + 1)]
    for b in range(blocks - 1):
        p.lines += ["BB#%d:" % b] if b else []
        kind = ("LessThan", "Above", "Equal", "BelowEqual")[b % 4]
        mixed = p.put("Int64", "BitXor", sums[b % 3], sums[3])
        p.put("Void", "Branch", p.put("Int32", kind, mixed, sums[(b + 1) % 4]))
        p.lines.append("  Successors: Then:#%d, Else:#%d" % (b + 1, min(b + 2 + b % 3, blocks - 1)))
    p.lines.append("BB#%d:" % (blocks - 1))
    return "\n".join(p.end(p.put("Int64", "Mul", sums[2], sums[2]))) + "\n", edge_pairs("f")


def diamonds(blocks=4096):
    """So many blocks, most of them in fours: a comparison, two ways, and a Phi where they meet."""
    p, at = Lines("f"), 0
    a, b, last = [p.argument(r, "Int64") for r in (0, 1, 2)]

    def jump(number, to):
        p.put("Void", "Jump")
        p.lines.append("  Successors: #%d" % to)
        p.lines.append("BB#%d:" % number)

    while at + 4 < blocks:
        test = p.put("Int32", "LessThan", last, b)
        p.put("Void", "Branch", test)
        p.lines += ["  Successors: Then:#%d, Else:#%d" % (at + 1, at + 2), "BB#%d:" % (at + 1)]
        phi = p.count + 6
        for kind, other, block in (("Add", a, at + 2), ("BitXor", b, at + 3)):
            p.put("Void", "Upsilon", p.put("Int64", kind, last, other), "^%d" % phi)
            jump(block, at + 3)
        last = p.put("Int64", "Phi")
        jump(at + 4, at + 4)
        at += 4
    while at + 1 < blocks:
        jump(at + 1, at + 1)
        at += 1
    return "\n".join(p.end(last)) + "\n", edge_pairs("f")


def edge_pairs(name):
    return [(name, [a, b]) for a in EDGES[64][:7] for b in (0, 5, 2**63 + 9)]


SWAPS = """procedure swaps
BB#0:
    Int64 b@0 = ArgumentReg(%x0)
    Int64 b@1 = ArgumentReg(%x1)
    Int64 b@2 = ArgumentReg(%x2)
    Void b@3 = Upsilon(b@0, ^7)
    Void b@4 = Upsilon(b@1, ^8)
    Void b@5 = Upsilon(b@2, ^9)
    Void b@6 = Jump()
  Successors: #1
BB#1:
    Int64 b@7 = Phi()
    Int64 b@8 = Phi()
    Int64 b@9 = Phi()
    Int64 b@10 = Const64(1)
    Void b@11 = Upsilon(b@8, ^7)
    Void b@12 = Upsilon(b@7, ^8)
    Int64 b@13 = Sub(b@9, b@10)
    Void b@14 = Upsilon(b@13, ^9)
    Int32 b@15 = GreaterThan(b@13, b@10)
    Void b@16 = Branch(b@15)
  Successors: Then:#1, Else:#2
BB#2:
    Int32 b@17 = Const32(7)
    Int64 b@18 = Shl(b@7, b@17)
    Int64 b@19 = BitXor(b@18, b@8)
    Void b@20 = Return(b@19)
procedure later
BB#0:
    Int64 b@0 = ArgumentReg(%x0)
    Int32 b@1 = Trunc(b@0)
    Void b@2 = Upsilon(b@1, ^4)
    Void b@3 = Upsilon(b@0, ^8)
    Int32 b@4 = Phi()
    Int32 b@5 = Mul(b@4, b@4)
    Void b@6 = Upsilon(b@5, ^4)
    Int64 b@7 = ZExt32(b@4)
    Int64 b@8 = Phi()
    Void b@9 = Upsilon(b@7, ^8)
    Int64 b@10 = Sub(b@8, b@7)
    Void b@11 = Branch(b@10)
  Successors: Then:#1, Else:#2
BB#1:
    Void b@12 = Return(b@10)
BB#2:
    Int64 b@13 = SExt32(b@5)
    Void b@14 = Return(b@13)
"""


def locations():
    """Phis that change places, and Phis that stand behind other values and Upsilons of their block."""
    calls = [("swaps", [5, 9, count]) for count in (0, 1, 2, 3, 100, 101)]
    return SWAPS, calls + [("later", [word | high << 32]) for word in EDGES[32] for high in (0, 1, 2**32 - 1)]
