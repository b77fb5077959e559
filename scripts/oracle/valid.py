"""Random valid modules of the whole language or of what is compiled."""
from oracle.rules import ARITHMETIC, COMPARISONS, FORMS, INTS, OPEN, SHIFTS, site_breaches
from oracle.text import ACCESSES, ANYWHERE, CHECKS, TERMINALS

WHOLE = [opcode for opcode in FORMS if opcode not in TERMINALS]
# A Phi is made before the values of its block.
PART = tuple(opcode for opcode in ARITHMETIC if opcode not in (*TERMINALS, "Phi"))
WORDS = [0, 1, 2, 5, 7, 2**31 - 1, 2**31, 2**32 - 1, 2**32, 2**63 - 1, 2**63, 2**64 - 1]
QUOTIENTS = ("Div", "Mod", "UDiv", "UMod")
# Opcodes whose second child may become a part of the instruction where it is a constant that fits.
WITH_CONSTANTS = ["Add", "Sub", "BitAnd", "BitOr", "BitXor", *SHIFTS, *COMPARISONS]


def blank_value(opcode, ty):
    return {"ty": ty, "id": None, "opcode": opcode, "flag": "", "children": [], "targets": [], "line": 0}


def any_word(rng, bits):
    return rng.choice(WORDS + [rng.getrandbits(bits)]) % (1 << bits)


def any_mask(rng, bits):
    """A pattern of a run of ones that repeats, and at times a bit more."""
    size = rng.choice([size for size in (2, 4, 8, 16, 32, 64) if size <= bits])
    ones, turned = rng.randint(1, size - 1), rng.randrange(size)
    run = (1 << ones) - 1
    run = (run << turned | run >> size - turned) % (1 << size)
    word = sum(run << at for at in range(0, bits, size))
    return word if rng.random() < 0.8 else word ^ (1 << rng.randrange(bits))


def near_word(rng, bits):
    """A constant that an instruction may hold, or one beside such a constant."""
    edge = rng.choice([0, 1, 4095, 4096, 8192, 4096 * rng.randint(1, 4095), 4096 * 4095, 4096 * 4096, 65535, 65536])
    word = rng.choice([edge, edge, rng.randint(0, 4095), rng.getrandbits(24)]) + rng.choice([0, 0, 0, -1, 1])
    return word * rng.choice([1, 1, -1]) % (1 << bits)


def second_word(rng, opcode, bits):
    """A constant for the second child of an opcode; for a shift an amount of 32 bits."""
    if opcode in SHIFTS:
        return rng.choice([0, 1, 7, 31, 32, 33, 63, 64, 65, 2**31, 2**32 - 1, rng.randrange(64), rng.getrandbits(32)])
    if opcode.startswith("Bit") and rng.random() < 0.8:
        return any_mask(rng, bits)
    return rng.choice([near_word, near_word, any_word])(rng, bits)


# ---- sites
def any_constraint(rng):
    register = "%%x%d" % rng.randint(0, 30)
    return rng.choice(ANYWHERE + [register, register, "late:" + register])


def any_registers(rng):
    if rng.random() < 0.1:
        return sorted(rng.sample(sorted(OPEN), rng.randint(20, 25)))
    return sorted(rng.sample(range(31), rng.choice([0, 0, 1, 2, 5])))


def site(rng, v):
    """Gives a value random constraints and clobbers that keep the rules."""
    for _ in range(300):
        front = CHECKS.get(v["opcode"], 0)
        ids = [child for child, _ in v["children"]]
        v["children"] = [(child, None if k < front else any_constraint(rng)) for k, child in enumerate(ids)]
        v["earlyClobbered"], v["lateClobbered"] = any_registers(rng), any_registers(rng)
        if v["opcode"] == "Patchpoint":
            v["size"] = rng.choice([1, 1, 2, 63, 64, rng.randint(1, 64)])
            if v["ty"] != "Void":
                v["resultConstraint"] = any_constraint(rng)
        if not site_breaches(v):
            return
    v["children"] = [(child, None if k < front else "WarmAny") for k, child in enumerate(ids)]
    v["earlyClobbered"], v["lateClobbered"] = [], []
    v.pop("resultConstraint", None)


# ---- paths
def paths(targets):
    """For each block the blocks that every path to it has passed; all blocks where none comes to it."""
    count = len(targets)
    past = []
    for avoided in range(count):
        seen, todo = set(), [] if avoided == 0 else [0]
        while todo:
            at = todo.pop()
            if at not in seen:
                seen.add(at)
                todo += [t for t in targets[at] if t != avoided]
        past.append(seen)
    return [{d for d in range(count) if d == b or b not in past[d]} for b in range(count)]


# ---- procedures
def ending(rng, b, returns, whole, blocks):
    """The opcode of a terminal and its successors; mostly on to later blocks."""
    names = ["Jump", "Branch", "Branch", "Return", "Switch"] + (["Oops"] if whole or rng.random() < 0.1 else [])
    name = "Return" if b == blocks - 1 and rng.random() < 0.7 else rng.choice(names)
    many = rng.randint(1, 5) if whole or rng.random() < 0.8 else rng.randint(6, 40)
    least = b + 1 if b + 1 < blocks and rng.random() < 0.7 else 0
    count = {"Jump": 1, "Branch": 2, "Switch": many}.get(name, 0)
    return name, [rng.randrange(least, blocks) for _ in range(count)]


def ending_loops(rng, ends):
    """Terminals that go on to later blocks, but for some Branches of which each goes back a number of times that is
    told at the start; and the blocks of these."""
    last, new, loops = len(ends) - 1, [], set()
    for b, (name, targets) in enumerate(ends):
        if b == last:
            name, targets = "Return", []
        elif name in ("Return", "Oops") and rng.random() < 0.8:
            name, targets = "Branch", [0, 0]
        targets = [rng.randint(b + 1, min(b + 2, last) if rng.random() < 0.8 else last) for _ in targets]
        if name == "Branch" and b and rng.random() < 0.7:
            targets[0] = rng.randint(1, b)
            loops.add(b)
        new.append((name, targets))
    return new, loops


class Maker:
    """A procedure that is being made."""

    def __init__(self, rng, name, whole, size, counts=(1, 1, 2, 3, 4, 6, 9)):
        self.rng, self.whole, self.size = rng, whole, size
        self.count = rng.choice(counts)
        self.returns = rng.choice(["Void", "Int32", "Int64"] if whole else ["Void", "Int32", "Int32", "Int64", "Int64"])
        self.ends = [ending(rng, b, self.returns, whole, self.count) for b in range(self.count)]
        self.loops = {}
        if not whole and rng.random() < 0.6:
            self.ends, loops = ending_loops(rng, self.ends)
            self.loops = {b: blank_value("Phi", rng.choice(INTS)) for b in sorted(loops)}
        self.blocks = [[] for _ in range(self.count)]
        self.slots = [rng.choice([1, 8, 24, 4096]) for _ in range(rng.choice([0, 0, 1, 3]))] if whole else []
        self.name, self.known, self.phis = name, [], []

    def pick(self, ty):
        """A value of the type that may be used here; a constant is made where there is none."""
        good = [v for v in self.known if v["ty"] == ty or ty == "any" and v["ty"] != "Void"]
        if good and self.rng.random() < 0.95:
            return self.rng.choice(good[-6:] if self.rng.random() < 0.5 else good)
        ty = self.rng.choice(INTS) if ty == "any" else ty
        return self.constant(ty, any_word(self.rng, int(ty[3:])))

    def constant(self, ty, number):
        v = blank_value("Const32" if ty == "Int32" else "Const64", ty)
        v["number"] = number
        return self.add(v)

    def made(self, opcode, ty, *children):
        """A value that is made for one use, and mostly has no other."""
        v = blank_value(opcode, ty)
        v["children"] = [(child, None) for child in children]
        return self.add(v) if self.rng.random() < 0.3 else self.add_here(v)

    def second(self, opcode, ty):
        """A second child: mostly a constant that may become a part of the instruction."""
        bits = int(ty[3:])
        ty = "Int32" if opcode in SHIFTS else ty
        if self.rng.random() < 0.5:
            return self.pick(ty)
        return self.constant(ty, second_word(self.rng, opcode, bits))

    def condition(self):
        """What a Branch or a Select tests: anything, a comparison, or one bit of a word."""
        rng = self.rng
        ty, what = rng.choice(INTS), rng.random()
        if what < 0.25:
            return self.pick("any")
        if what < 0.4:
            one = self.constant(ty, 1 << rng.randrange(int(ty[3:])))
            return self.made("BitAnd", ty, self.pick(ty), one)
        opcode = rng.choice(COMPARISONS)
        test = self.made(opcode, "Int32", self.pick(ty), self.second(opcode, ty))
        if rng.random() < 0.1:
            return self.made(rng.choice(["Equal", "NotEqual"]), "Int32", test, self.constant("Int32", 0))
        return test

    def between(self):
        """Values between a condition and its use, Upsilons among them."""
        for _ in range(0 if self.whole else self.rng.choice([0, 0, 0, 1, 2])):
            self.value(self.rng.choice(["Add", "Sub", "Equal", "Upsilon", "Upsilon", "SExt8"]))

    def divisor(self, opcode, ty):
        """A second child of a quotient: mostly one by which it is defined."""
        what = self.rng.random()
        if what < 0.02:
            return self.pick(ty)
        if what < 0.5:
            return self.made("BitOr", ty, self.pick(ty), self.constant(ty, self.rng.choice([1, 2, 16])))
        return self.constant(ty, any_word(self.rng, int(ty[3:])) or 3)

    def selector(self, targets):
        """What a Switch looks at, and its cases: mostly such that cases are hit."""
        rng = self.rng
        ty, most = rng.choice(INTS), 4 * len(targets) + 4
        bits, count = int(ty[3:]), len(targets) - 1
        if self.whole or rng.random() < 0.4:
            v = self.pick(ty)
        else:
            mask = (1 << rng.choice([2, 3, 5])) - 1
            v = self.made("BitAnd", ty, self.pick(ty), self.constant(ty, mask))
            if rng.random() < 0.4:
                v = self.made("Sub", ty, v, self.constant(ty, rng.choice([2, 4])))
        near = [w % (1 << bits) for w in range(-9, most)]
        wide = [any_word(rng, bits) for _ in range(count)]
        words = rng.sample(sorted(set(near + wide)), count) if rng.random() < 0.5 else rng.sample(near, count)
        return v, [self.case(word, bits) for word in words]

    def case(self, word, bits):
        """A word as a case says it: of 64 bits, where one of 32 bits may be spelled with its sign."""
        signed = word - (1 << bits) if word >> (bits - 1) else word
        return (word if self.rng.random() < 0.3 else signed) % 2**64

    def add_here(self, v):
        self.here.append(v)
        return v

    def add(self, v):
        self.here.append(v)
        self.known.append(v)
        return v

    def value(self, opcode):
        rng = self.rng
        types, own, more = rng.choice(FORMS[opcode])
        v = blank_value(opcode, own)
        if opcode == "Upsilon":
            phis = [phi for phi in self.phis if phi["ty"] == types[0]]
            if not phis:
                return
            v["phi"] = rng.choice(phis)
        if opcode == "ArgumentReg" and self.at != 0 or opcode == "SlotBase" and not self.slots:
            return
        children = [self.pick(ty) for ty in types] if self.whole else self.worthwhile(opcode, types)
        if more:
            most = 8 if opcode == "CCall" else rng.choice([3, 3, 12])
            children += [self.pick("any") for _ in range(rng.randint(0, most))]
        v["children"] = [(child, None) for child in children]
        self.fill(v)
        self.add(v)

    def worthwhile(self, opcode, types):
        """Children of what is compiled: constants that fit, conditions, and divisors."""
        if opcode == "Select":
            test = self.condition()
            self.between()
            return [test, self.pick(types[1]), self.pick(types[2])]
        if opcode in WITH_CONSTANTS:
            return [self.pick(types[0]), self.second(opcode, types[0])]
        if opcode in QUOTIENTS:
            return [self.pick(types[0]), self.divisor(opcode, types[1])]
        return [self.pick(ty) for ty in types]

    def fill(self, v):
        rng, opcode = self.rng, v["opcode"]
        if opcode in ("Const32", "Const64"):
            v["number"] = any_word(rng, int(opcode[5:]))
        elif opcode == "ArgumentReg":
            v["register"] = rng.randint(0, 7)
        elif opcode == "SlotBase":
            v["slot"] = rng.randrange(len(self.slots))
        elif opcode in ("Div", "Mod"):
            v["flag"] = rng.choice(["", "<Chill>"])
        elif opcode in ACCESSES:
            v["flag"], v["offset"] = rng.choice(["", "<Traps>"]), rng.choice([0, 8, -8, 2**31 - 1])
        elif opcode == "Patchpoint" or opcode in CHECKS:
            site(rng, v)

    def phi(self):
        v = blank_value("Phi", self.rng.choice(INTS))
        self.phis.append(v)
        return v

    def end(self):
        rng = self.rng
        name, targets = self.ends[self.at]
        v = blank_value(name, "Void")
        v["targets"] = targets
        if self.at in self.loops:
            v["children"] = [(self.once_less(v), None)]
        elif name == "Branch":
            v["children"] = [(self.pick("any") if self.whole else self.condition(), None)]
            self.between()
        if name == "Switch":
            child, v["cases"] = self.selector(targets)
            v["children"] = [(child, None)]
        if name == "Return" and self.returns != "Void":
            v["children"] = [(self.pick(self.returns), None)]
        self.here.append(v)

    def once_less(self, end):
        """Counts a loop's number down; gives the condition by which it goes back once more."""
        phi = self.loops[self.at]
        ty = phi["ty"]
        name, one = self.rng.choice([("Sub", 1), ("Add", (1 << int(ty[3:])) - 1)])
        less = self.made(name, ty, phi, self.constant(ty, one))
        self.set(phi, less)
        opcode, number = self.rng.choice([("GreaterThan", 0), ("GreaterEqual", 1), ("LessThan", 1), ("LessEqual", 0)])
        if opcode.startswith("Less"):
            end["targets"] = end["targets"][::-1]
        return self.made(opcode, "Int32", less, self.constant(ty, number))

    def make(self):
        rng = self.rng
        before = paths([targets for _, targets in self.ends])
        phis = {b: [self.phi() for _ in range(rng.choice([0, 0, 1, 2]))] for b in range(self.count)}
        if not self.whole and rng.random() < 0.9:
            # A Phi of block 0 is lost where it is not run again.
            self.phis = self.phis[len(phis[0]) :]
            phis[0] = []
        for b in sorted(range(self.count), key=lambda b: len(before[b])):
            self.at, self.here = b, self.blocks[b]
            self.known = [v for d in sorted(before[b]) for v in self.blocks[d]]
            for v in phis[b] + ([self.loops[b]] if b in self.loops else []):
                self.add(v)
            for _ in range(rng.randint(0, self.size)):
                self.value(rng.choice(WHOLE if self.whole else PART + 2 * QUOTIENTS + ("Upsilon",) * 4))
            if b == 0:
                self.first_words()
            self.end()
        return self.finish()

    def first_words(self):
        """Most Phis are set before any block runs, and all numbers of loops."""
        for phi in self.phis:
            if self.rng.random() < (0.95 if self.whole else 0.99):
                self.set(phi, self.pick(phi["ty"]))
        for phi in self.loops.values():
            self.set(phi, self.constant(phi["ty"], self.rng.choice([1, 2, 3, 7, 20])))

    def set(self, phi, child):
        v = blank_value("Upsilon", "Void")
        v["children"], v["phi"] = [(child, None)], phi
        self.add(v)

    def finish(self):
        values = [v for block in self.blocks for v in block]
        numbers = range(len(values))
        if self.rng.random() < 0.5:
            numbers = self.rng.sample(range(3 * len(values) + 5), len(values))
        for v, number in zip(values, numbers):
            v["id"] = number
        for v in values:
            v["children"] = [(child["id"], where) for child, where in v["children"]]
            if "phi" in v:
                v["phi"] = v["phi"]["id"]
        blocks = [{"number": b, "line": 0, "values": block} for b, block in enumerate(self.blocks)]
        slots = [(k, size, 0) for k, size in enumerate(self.slots)]
        return {"name": self.name, "line": 0, "slots": slots, "blocks": blocks}


def any_module(rng, whole, size=8):
    return [Maker(rng, "f%d" % k, whole, size).make() for k in range(rng.choice([1, 1, 1, 2, 3]))]


def large_module(rng):
    """One procedure of what is compiled with many values, or with many blocks."""
    size, counts = rng.choice([(3000, (1, 2)), (300, (9, 20)), (6, (60, 100))])
    return [Maker(rng, "f", False, size, counts).make()]
