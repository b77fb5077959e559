"""Random procedures that load, store, call, check and have patchpoints, trials of them, and their runs on QEMU with an
outside that answers as a trial says."""
import os
import re
import shutil
import struct
import subprocess

from oracle import trials, valid
from oracle.rules import INTS
from oracle.text import ACCESSES, CHECKS

CC, QEMU = TOOLS = ("aarch64-linux-gnu-gcc", "qemu-aarch64")
REGION, PAGE, CODE, SP, LINK = 0x20000000, 4096, 0x40000000, 0x80000000, 0x30000000
CALLEES = [0x50000000, 0x50000010, 0x7123456789A0]
SIZES = {"Load8Z": 1, "Load8S": 1, "Load16Z": 2, "Load16S": 2, "Store8": 1, "Store16": 2}
# What a procedure has beside arithmetic, as often as it is made.
PARTS = ["access"] * 5 + ["call"] * 3 + ["patchpoint"] * 3 + ["check"] * 4


def there():
    return all(shutil.which(tool) for tool in TOOLS)


# ---- procedures
class Maker(valid.Maker):
    """A procedure of one or more blocks whose accesses are mostly of bytes that are there."""

    def __init__(self, rng, name, size, counts=(1, 1, 2, 3, 5)):
        super().__init__(rng, name, False, size, counts)
        self.slots = [rng.choice([8, 16, 24, 64, 4096]) for _ in range(rng.choice([1, 2, 3]))]

    def value(self, opcode):
        if self.rng.random() < 0.45:
            getattr(self, self.rng.choice(PARTS))()
        else:
            super().value(opcode)

    def child(self, opcode, ty, *children, **more):
        v = valid.blank_value(opcode, ty)
        v["children"] = [(child, None) for child in children]
        v.update(more)
        return v

    def slot(self, k):
        return self.add_here(self.child("SlotBase", "Int64", slot=k))

    def base(self, size):
        """A pointer to bytes that are there, and how many are before and behind it."""
        rng = self.rng
        if rng.random() < 0.5:
            good = [k for k, bytes in enumerate(self.slots) if bytes >= size]
            if good:
                k = rng.choice(good)
                at = rng.choice([0, self.slots[k] - size, rng.randint(0, self.slots[k] - size)])
                return self.slot(k), at
        at = rng.choice([0, PAGE - size, rng.randint(0, PAGE - size)])
        if rng.random() < 0.3:
            return self.constant("Int64", REGION + at), 0
        return self.constant("Int64", REGION), at

    def pointer(self, size, traps):
        """A pointer and an offset: with Traps at times of bytes that aren't there, all or some."""
        rng = self.rng
        if traps and rng.random() < 0.15:
            far = rng.choice([REGION + PAGE - rng.randint(0, size - 1), REGION + PAGE + 5, 0x60000000])
            return self.constant("Int64", far), 0
        base, at = self.base(size)
        how = rng.randrange(5)
        if how == 0:
            return self.made("Add", "Int64", base, self.constant("Int64", at)), 0
        if how == 1 and at % 8 == 0 and size == 8:
            index = self.made("Shl", "Int64", self.constant("Int64", at // 8), self.constant("Int32", 3))
            return self.made("Add", "Int64", base, index), 0
        if how == 2:
            other = rng.choice([8, -16, 40000])
            return self.made("Add", "Int64", base, self.constant("Int64", other % 2**64)), at - other
        return base, at

    def access(self):
        rng = self.rng
        opcode = rng.choice(ACCESSES)
        ty = "Int32" if opcode in SIZES else rng.choice(INTS)
        size, traps = SIZES.get(opcode, 4 if ty == "Int32" else 8), rng.random() < 0.5
        pointer, offset = self.pointer(size, traps)
        flag = "<Traps>" if traps else ""
        if opcode.startswith("Load"):
            self.add(self.child(opcode, ty, pointer, flag=flag, offset=offset))
        else:
            self.add(self.child(opcode, "Void", self.pick(ty), pointer, flag=flag, offset=offset))

    def anything(self, most):
        return [self.pick("any") for _ in range(self.rng.randint(0, most))]

    def call(self):
        callee = self.constant("Int64", self.rng.choice(CALLEES))
        self.add(self.child("CCall", self.rng.choice(("Void", *INTS)), callee, *self.anything(8)))

    def patchpoint(self):
        v = self.child("Patchpoint", self.rng.choice(("Void", *INTS)), *self.anything(self.rng.choice([3, 3, 12, 25])))
        valid.site(self.rng, v)
        self.add(v)

    def small(self, ty):
        """A word for which a check mostly doesn't exit."""
        if self.rng.random() < 0.25:
            return self.pick(ty)
        return self.made("BitAnd", ty, self.pick(ty), self.constant(ty, 0xFFF))

    def check(self):
        rng = self.rng
        opcode, ty = rng.choice(list(CHECKS)), rng.choice(INTS)
        if opcode == "Check":
            front = [self.condition() if rng.random() < 0.15 else self.never(ty)]
        else:
            front = [self.small(ty), self.small(ty)]
        most = rng.choice([0, 2, 5, 30])
        v = self.child(opcode, "Void" if opcode == "Check" else ty, *front, *self.anything(most))
        valid.site(rng, v)
        self.add(v)

    def never(self, ty):
        """A condition that mostly fails: a word of 12 bits beside one with more, or one bit of it."""
        word = self.made("BitAnd", ty, self.pick(ty), self.constant(ty, 0xFFF))
        if self.rng.random() < 0.5:
            return self.made("BitAnd", ty, word, self.constant(ty, 0x1000))
        return self.made(self.rng.choice(["Equal", "Above", "GreaterThan"]), "Int32", word, self.constant(ty, 0x1234))


def any_module(rng, size):
    return [Maker(rng, "f%d" % k, size).make() for k in range(rng.choice([1, 1, 2]))]


# ---- trials
def any_answer(rng, slots):
    if rng.random() < 0.02:
        return "leave"
    writes = {}
    for _ in range(rng.choice([0, 0, 1, 3])):
        at = rng.choice([REGION + rng.randrange(PAGE), REGION + PAGE + 3, *(slot + 1 for slot in slots)])
        writes[at] = rng.randrange(256)
    return " ".join(["give 0x%x" % trials.any_word(rng)] + ["0x%x:%02x" % pair for pair in writes.items()])


def any_trial(rng, name, slots):
    lines = ["procedure " + name, "blocks 200", "steps 1000000"]
    lines += ["x%d 0x%x" % (r, trials.any_word(rng)) for r in range(30)]
    lines.append("bytes 0x%x %s" % (REGION, rng.randbytes(PAGE).hex()))
    lines += [any_answer(rng, slots) for _ in range(rng.choice([0, 3, 40, 40]))]
    ones = rng.random() < 0.3
    lines += ["junk 0x%x" % (2**64 - 1 if ones else trials.any_word(rng)) for _ in range(32 * 41)]
    return "\n".join(lines) + "\n"


# ---- objects
def tables_of(file):
    """The words of the text, and of each procedure its offset, F, its slots and its saved registers; and all sites."""
    text, frames, exits = (trials.section(file, number) for number in (1, 2, 3))
    symbols, names = trials.section(file, 4), trials.section(file, 5)
    procedures, at = {}, 16
    for k in range(24, len(symbols), 24):
        name, _, _, _, offset, _ = struct.unpack_from("<IBBHQQ", symbols, k)
        bytes, slots, saved, returns = struct.unpack_from("<IIII", frames, at)
        rows = [struct.unpack_from("<II", frames, at + 16 + 8 * i) for i in range(slots + saved)]
        at += 16 + 8 * (slots + saved)
        procedures[names[name : names.index(b"\0", name)].decode()] = (offset, bytes, rows[:slots], rows[slots:], returns)
    sites, at = [], 16
    for _ in range(struct.unpack_from("<I", exits, 8)[0]):
        pc, kind, value, size, count, result, clobbers, _ = struct.unpack_from("<8I", exits, at)
        places = [struct.unpack_from("<IIQ", exits, at + 32 + 16 * i) for i in range(count)]
        sites.append((pc, kind, value, size, result, clobbers, places))
        at += 32 + 16 * count
    return struct.unpack("<%dI" % (len(text) // 4), text), procedures, sites


# ---- runs
def build(folder):
    path = os.path.join(folder, "machine")
    source = os.path.join(os.path.dirname(os.path.abspath(__file__)), "machine.c")
    subprocess.check_call([CC, "-O1", "-static", "-o", path, source])
    return path


def pieces(trial):
    lines = [line.split() for line in trial.split("\n")]
    return lambda word: [line[1:] for line in lines if line and line[0] == word]


def input_of(file, trial):
    words, procedures, sites = tables_of(file)
    said = pieces(trial)
    (name,) = said("procedure")[0]
    _, frame, slots, saved, _ = procedures[name]
    entry = [int((said("x%d" % r) or [["0"]])[0][0], 0) for r in range(30)] + [LINK]
    out = [CODE, SP, frame, *entry, len(words), *words]
    mapped = [(int(at, 0), bytes.fromhex(data)) for at, data in said("bytes")]
    out.append(len(mapped))
    for at, data in mapped:
        out += [at, len(data), *data]
    ranges = [(at, len(data)) for at, data in mapped] + [(SP - 16 - offset, size) for offset, size in slots]
    out += [len(ranges), *(number for pair in ranges for number in pair)]
    out += [len(saved), *(number for pair in saved for number in pair), len(sites)]
    for *row, places in sites:
        out += [*row, len(places), *(number for place in places for number in place)]
    answers = [line.split() for line in trial.split("\n") if re.match("give|leave", line)]
    out.append(len(answers))
    for first, *rest in answers:
        writes = [piece.split(":") for piece in rest[1:]]
        out += [first == "leave", int(rest[0], 0) if rest else 0, len(writes)]
        out += [number for at, byte in writes for number in (int(at, 0), int(byte, 16))]
    junk = said("junk")
    return name, "\n".join("%x" % number for number in [*out, len(junk), *(int(word, 0) for (word,) in junk)])


def observed(folder, machine, file, trial):
    """What is seen of the run on QEMU, as it is printed; the address of a trap is that of the byte that faulted."""
    name, numbers = input_of(file, trial)
    offset, _, _, _, returns = tables_of(file)[1][name]
    done = subprocess.run([QEMU, machine, "%x" % offset], input=numbers.encode(), capture_output=True, timeout=120)
    if done.returncode:
        return "QEMU ended with %d" % done.returncode
    lines, memory = done.stdout.decode().split("\n"), {}
    for line in lines:
        if line.startswith("range "):
            _, at, data = (line + " ").split(" ")[:3]
            memory.update((int(at, 16) + k, byte) for k, byte in enumerate(bytes.fromhex(data)))
    status = next(line for line in lines if line.startswith(("status", "odd")))
    if status.startswith("status returned"):
        word = int(status.split()[2])
        status = "status returned" + (" %d" % (word % 2**returns) if returns else "")
    if status.startswith("status trapped"):
        status = re.sub(" ([0-9a-f]+)$", r" 0x\1", status)
    events = [line for line in lines if line.startswith("event")]
    shown = trials.shown(status[7:], memory).split("\n")
    return "\n".join([status, *events, *shown[1:]])


def alike(one, other):
    """Whether two observations are the same, but that the byte that faulted may be a later one of the access."""
    first, second = (re.match(r"status trapped b@(\d+) 0x([0-9a-f]+)\n", text) for text in (one, other))
    if first and second:
        near = 0 <= int(second[2], 16) - int(first[2], 16) < 8 and first[1] == second[1]
        return near and one[first.end() :] == other[second.end() :]
    return one == other
