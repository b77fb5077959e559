"""Texts of each constraint of a site, alone and with each other one, of sites at their limits, and whether the sites of
an object obey the constraints of their values, by a reading of docs/FORMATS.md of its own."""
import random

from oracle import valid, worlds
from oracle.edges import Lines
from oracle.rules import ASKING, INTS, OPEN, fixed, is_late
from oracle.text import CHECKS

LATE = ("LateColdAny", "SomeLateRegister")
# Each constraint that a reported child may have; of the fixed ones some registers, at both ends of both ranges.
CHILD = ["WarmAny", "ColdAny", "LateColdAny", "SomeRegister", "SomeRegisterWithClobber", "SomeLateRegister"]
CHILD += ["%x0", "%x14", "%x19", "%x28", "late:%x3", "late:%x20"]
RESULT = ["SomeRegister", "SomeEarlyRegister", "%x0", "%x19"]
# What a site clobbers, early and late: nothing, some, the scratch registers and x30, all that are no child's.
EVERY = sorted(OPEN)
CLOBBERS = [([], []), ([1, 21], []), ([], [2, 22]), ([1, 15, 30], [16, 17, 22]), ("rest", []), ([], "rest")]
# The opcodes of sites with the types of their values.
SITES = [("Patchpoint", "Void"), ("Patchpoint", "Int32"), ("Patchpoint", "Int64"), ("Check", "Void")]
SITES += [(name, ty) for name in ("CheckAdd", "CheckSub", "CheckMul") for ty in INTS]


# ---- whether a site obeys
def late(where):
    return where in LATE or is_late(where)


def faults(v, constants, site):
    """What is wrong with the row of a site of a value; `constants` has the words of the constants by their ids."""
    _, kind, _, size, result, clobbers, places = site
    opcode, ty = v["opcode"], v["ty"]
    reported = [(child, where or "WarmAny") for child, where in v["children"][CHECKS.get(opcode, 0) :]]
    early, lates = set(v.get("earlyClobbered", [])), set(v.get("lateClobbered", []))
    listed = {r for r in range(32) if clobbers >> r & 1}
    stand = [place[2] if place[0] == 1 else None for place in places]
    if kind != (2 if opcode == "Patchpoint" else 3) or size != (v.get("size", 1) if kind == 2 else 1):
        yield "kind or size"
    if len(places) != len(reported):
        yield "%d places of %d children" % (len(places), len(reported))
        return
    own = [r for r, (_, where) in zip(stand, reported) if where == "SomeRegisterWithClobber"]
    typed = kind == 2 and ty != "Void"
    if typed != (result != 0) or typed and result // 256 != (1 if ty == "Int32" else 2):
        yield "result"
    result = result % 256 if typed else None
    for k, ((child, where), (how, width, what)) in enumerate(zip(reported, places)):
        is_constant, word, bits = constants[child]
        asks = where in ASKING or fixed(where) is not None
        if width != bits or how == 3 and (not is_constant or what != word) or asks and how != 1:
            yield "place %d" % k
        if fixed(where) is not None and what != fixed(where):
            yield "place %d isn't in its register" % k
        if how == 1 and what not in OPEN:
            yield "place %d is in no register of values" % k
        if how == 1 and (what in early or late(where) and what in lates | set(own) | {result}):
            yield "place %d is in a register that is changed" % k
        if where == "SomeRegisterWithClobber" and stand.count(what) > 1:
            yield "place %d shares its register" % k
    if typed:
        where = v.get("resultConstraint", "SomeRegister")
        apart = where == "SomeEarlyRegister" and (result in early or result in stand)
        if result in lates or apart or fixed(where) not in (None, result):
            yield "the result"
    if listed != (early | lates | set(own) if kind == 2 else set()):
        yield "clobbers"


def looked_at(module, file):
    """How many patchpoints and exits an object has; where one of them doesn't obey, or a value has none, ValueError."""
    _, procedures, sites = worlds.tables_of(file)
    ends = sorted(row[0] for row in procedures.values()) + [float("inf")]
    count = 0
    for p in module:
        first = procedures[p["name"]][0]
        end = min(at for at in ends if at > first)
        values = {v["id"]: v for block in p["blocks"] for v in block["values"]}
        bits = {"Int32": 32, "Int64": 64, "Void": 0}
        constants = {
            n: (v["opcode"].startswith("Const"), v.get("number"), bits[v["ty"]]) for n, v in values.items()
        }
        for site in sites:
            if first <= site[0] < end and site[1] in (2, 3):
                wrong = list(faults(values[site[2]], constants, site))
                if wrong:
                    raise ValueError("%s b@%d: %s: %s" % (p["name"], site[2], ", ".join(wrong), site))
                count += 1
    return count


# ---- texts
class Maker(valid.Maker):
    """A procedure with one site between values that are live across it."""

    def __init__(self, name, opcode, ty, given):
        super().__init__(random.Random(name), name, False, 0, (1,))
        self.opcode, self.ty, self.given = opcode, ty, given
        self.ends, self.loops, self.returns = [("Return", [])], {}, "Int64"

    def argument(self, r):
        v = valid.blank_value("ArgumentReg", "Int64")
        v["register"] = r
        return self.add(v)

    def make(self):
        constraints, result, early, lates = self.given
        self.at, self.here = 0, self.blocks[0]
        words = [self.argument(r) for r in range(4)]
        narrow = [self.made("Trunc", "Int32", word) for word in words]
        live = [self.made("BitXor", "Int64", words[0], words[k]) for k in (1, 2, 3)]
        v = valid.blank_value(self.opcode, self.ty)
        if self.opcode == "Check":
            front = [self.made("Equal", "Int32", narrow[0], self.constant("Int32", 5))]
        else:
            front = [narrow[0], narrow[1]] if self.ty == "Int32" else words[:2]
        front = front[: CHECKS.get(self.opcode, 0)]
        children = [self.child(k, words, narrow) for k in range(len(constraints))]
        v["children"] = [(child, None) for child in front] + list(zip(children, constraints))
        v["resultConstraint"], v["earlyClobbered"], v["lateClobbered"] = result, early, lates
        if self.opcode == "Patchpoint":
            v["size"] = 1 + len(self.name) % 3
        self.add(v)
        sums = words[0]
        for word in words[1:] + live + children:
            word = self.made("ZExt32", "Int64", word) if word["ty"] == "Int32" else word
            sums = self.made("Add", "Int64", self.made("RotL", "Int64", sums, self.constant("Int32", 7)), word)
        if v["ty"] != "Void":
            word = self.made("ZExt32", "Int64", v) if v["ty"] == "Int32" else v
            sums = self.made("Sub", "Int64", sums, word)
        end = valid.blank_value("Return", "Void")
        end["children"] = [(sums, None)]
        self.add(end)
        return self.finish()

    def child(self, k, words, narrow):
        """A word that is used elsewhere too, its low half, or a constant."""
        how = self.rng.randrange(5)
        if how == 4:
            return self.constant("Int64", 2**63 + k)
        return narrow[self.rng.randrange(3)] if how == 3 else words[self.rng.randrange(3)]


def cleared(clobbers, constraints, result):
    """The early and late clobbers, where `rest` are all registers but those of fixed children and of the result, and
    those that are asked for, at the end of the order."""
    held = {fixed(where) for where in [*constraints, result]}
    asked = sum(where in ASKING for where in constraints) + (fixed(result) is None)
    left = [r for r in EVERY if r not in held]
    rest = left[: len(left) - asked]
    return [rest if which == "rest" else [r for r in which if r not in held] for which in clobbers]


def procedures():
    """Each constraint alone in each kind of site, and each two of them in each opcode, with results and clobbers in
    turn."""
    turn = 0
    for k, (opcode, ty) in enumerate(SITES):
        twos = [[one, other] for one in CHILD for other in CHILD if one != other or fixed(one) is None]
        if opcode in ("CheckAdd", "CheckSub", "CheckMul"):
            # Half of them for each type.
            twos = twos[k % 2 :: 2]
        for constraints in [[one] for one in CHILD] + twos:
            turn += 1
            typed = opcode == "Patchpoint" and ty != "Void"
            result = RESULT[turn // len(CLOBBERS) % len(RESULT)] if typed else "SomeRegister"
            if fixed(result) in [fixed(where) for where in constraints if is_late(where)]:
                result = "SomeEarlyRegister"
            given = (constraints, result, *cleared(CLOBBERS[turn % len(CLOBBERS)], constraints, result))
            yield Maker("f%d" % turn, opcode, ty, given).make()


# Of each opcode the words of x0 and x1 with which it exits, of 32 bits and of 64, and some with which it doesn't.
EXITS = {
    "Check": [(5, 0)], "CheckAdd": [(2**31 - 1, 1), (2**63, 2**63)], "CheckSub": [(2**31, 1), (2**63, 1)],
    "CheckMul": [(2**16, 2**15), (2**32, 2**31)],
}
STAYS = [(7, 2**64 - 3), (2**64 - 2**31, 1), (2**31, 2**31)]


def trials_of(p):
    """Two trials of a procedure with one site: of a check one with which it exits."""
    v = next(v for v in p["blocks"][0]["values"] if v["opcode"] == "Patchpoint" or v["opcode"] in CHECKS)
    rng = random.Random(p["name"])
    first = EXITS.get(v["opcode"], STAYS)
    for x0, x1 in (first[-1 if v["ty"] == "Int64" else 0], rng.choice(STAYS)):
        yield trial_of(p["name"], [x0, x1, rng.getrandbits(64), rng.getrandbits(64)])


def trial_of(name, words, answers=("give 0x8765432187654321",)):
    lines = ["procedure " + name, "blocks 100", "steps 1000000"]
    lines += ["x%d 0x%x" % row for row in enumerate(words)] + ["x%d 0x%x" % (r, 2**62 + r) for r in range(18, 30)]
    return "\n".join([*lines, *answers, *["junk 0x%x" % (2**64 - 1)] * 32]) + "\n"


def in_modules():
    """Texts of these procedures, with their trials."""
    every = list(procedures())
    for first in range(0, len(every), 32):
        some = every[first : first + 32]
        yield some, [trial for p in some for trial in trials_of(p)]


# ---- sites at their limits
def many_words(p, count):
    """Words that differ, each made from the one before."""
    words = [p.argument(r, "Int64") for r in range(4)]
    while len(words) < count:
        words.append(p.put("Int64", "Add", words[-1], words[len(words) % 4]))
    return words[:count]


def summed(p, words):
    got = words[0]
    for word in words[1:]:
        got = p.put("Int64", "BitXor", got, word)
    return got


def registers(name, numbers):
    return "%s = [%s]" % (name, ", ".join("%%x%d" % r for r in numbers))


def as_many_as_there_are(constraint):
    """25 children in registers, most of which are used behind the site."""
    p = Lines("most")
    words = many_words(p, 25)
    p.put("Void", "Patchpoint", *["%s:%s" % (word, constraint) for word in words])
    return p.end(summed(p, words))


def all_changed(which):
    """A patchpoint of 64 words that changes every register that it may, before or behind its reads."""
    p = Lines("changes")
    words = many_words(p, 30)
    changed = [r for r in range(31) if r not in (18, 29, 5)] + ([5] if which == "earlyClobbered" else [])
    children = ["%s:%s" % (word, ("ColdAny", "WarmAny", "LateColdAny")[k % 3]) for k, word in enumerate(words)]
    items = [*children, "resultConstraint = %x5", "size = 64", registers(which, changed)]
    return p.end(p.put("Int64", "Sub", p.put("Int64", "Patchpoint", *items), summed(p, words)))


def many_reported(opcode, count=1000):
    """A check that reports so many words, each fourth of 32 bits, and each tenth a constant."""
    p = Lines("reports")
    words = many_words(p, count)
    words = [p.put("Int32", "Trunc", word) if k % 4 == 3 else word for k, word in enumerate(words)]
    words = [p.constant("Int64", 2**64 - k) if k % 10 == 9 else word for k, word in enumerate(words)]
    children = ["%s:%s" % (word, ("ColdAny", "WarmAny", "LateColdAny")[k % 3]) for k, word in enumerate(words)]
    front = [words[0]] if opcode == "Check" else [words[0], words[1]]
    got = p.put("Void" if opcode == "Check" else "Int64", opcode, *front, *children)
    return p.end(words[2] if opcode == "Check" else got)


def limits():
    """Texts of sites at their limits, with trials and with how many places their site has."""
    words = [[1, 2**31, 5, 2**64 - 9], [0, 1, 2, 3], [2**62, 2**62, 1, 3]]
    for constraint in ASKING:
        yield as_many_as_there_are(constraint), [trial_of("most", row) for row in words], 25
    for which in ("earlyClobbered", "lateClobbered"):
        yield all_changed(which), [trial_of("changes", row) for row in words], 30
    for opcode in CHECKS:
        yield many_reported(opcode), [trial_of("reports", row) for row in words], 1000
