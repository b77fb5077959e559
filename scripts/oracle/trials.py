"""Trials: their reading, where a procedure may begin, what its run gives, and what of it is printed."""
import operator
import re
import struct
from functools import partial

from oracle.text import MASK, NAME, Bad, lines_of, pieces_of, want

MOST = {"blocks": 2**20, "steps": 2**45}
DEFAULTS = {"sp": 0x80000000, "code": 0x40000000, "blocks": 1000, "steps": 1000000}


# ---- reading
def word(piece):
    want(re.fullmatch(r"[0-9]{1,20}|0x[0-9a-fA-F]{1,16}", piece))
    number = int(piece, 16) if piece.startswith("0x") else int(piece)
    want(number <= MASK)
    return number


def some_bytes(piece):
    want(re.fullmatch(r"([0-9a-fA-F]{2})+", piece))
    return bytes.fromhex(piece)


def put(memory, address, data):
    """Adds bytes at addresses that have none yet, none of them past the last address."""
    want(address + len(data) <= 2**64)
    for at, byte in enumerate(data, address):
        want(at not in memory)
        memory[at] = byte


def answer(pieces):
    writes = {}
    want(pieces)
    word(pieces[0])
    for piece in pieces[1:]:
        address, colon, data = piece.partition(":")
        want(colon)
        put(writes, word(address), some_bytes(data))


def take(trial, first, rest):
    """What a line behind the header adds to a trial."""
    if first in DEFAULTS:
        want(len(rest) == 1 and first not in trial)
        trial[first] = word(rest[0])
        want(trial[first] <= MOST.get(first, MASK))
    elif first in ("bytes", "stack"):
        want(len(rest) == 2)
        put(trial["memory" if first == "bytes" else "stack"], word(rest[0]), some_bytes(rest[1]))
        want(len(trial["memory"]) <= 65536)
    elif first == "junk":
        want(len(rest) == 1)
        word(rest[0])
        trial["junk"] += 1
        want(trial["junk"] <= 8224)
    elif first in ("leave", "give"):
        if first == "leave":
            want(rest == [])
        else:
            answer(rest)
        trial["answers"] += 1
        want(trial["answers"] <= 256)
    else:
        want(len(rest) == 1 and re.fullmatch(r"x[0-9]{1,10}", first))
        number = int(first[1:])
        want(number <= 30 and number not in trial["x"])
        trial["x"][number] = word(rest[0])


def read_trial(text):
    """The trial of a text, or the number of its bad line."""
    trial, lines = None, lines_of(text)
    for at, line in enumerate(lines, 1):
        try:
            _, pieces = pieces_of(line)
            if not pieces:
                continue
            if trial is None:
                want(len(pieces) == 2 and pieces[0] == "procedure" and re.fullmatch(NAME, pieces[1]))
                trial = {"name": pieces[1], "x": {}, "memory": {}, "stack": {}, "junk": 0, "answers": 0}
            else:
                take(trial, pieces[0], pieces[1:])
        except Bad:
            return at
    if trial is None:
        return len(lines) + 1
    trial["x"].setdefault(30, 0x30000000)
    return dict(DEFAULTS, **trial)


# ---- objects
def section(file, number):
    (headers,) = struct.unpack_from("<Q", file, 40)
    offset, size = struct.unpack_from("<QQ", file, headers + 64 * number + 24)
    return file[offset : offset + size]


def procedures_of(file):
    """Of each procedure of an object its name, the bytes of its code and those of its frame; and those of the text."""
    frames, symbols, names = section(file, 2), section(file, 4), section(file, 5)
    found, at = {}, 16
    for k in range(24, len(symbols), 24):
        name, _, _, _, _, size = struct.unpack_from("<IBBHQQ", symbols, k)
        frame, slots, saved, _ = struct.unpack_from("<IIII", frames, at)
        at += 16 + 8 * (slots + saved)
        found[names[name : names.index(b"\0", name)].decode()] = (size, frame)
    return found, len(section(file, 1))


def begins(trial, file):
    """Whether a procedure of an object may begin as the trial says."""
    found, text = procedures_of(file)
    if trial["name"] not in found:
        return False
    frame, sp, code, link = found[trial["name"]][1], trial["sp"], trial["code"], trial["x"][30]
    if sp % 16 or sp < frame or code % 4 or code + text > 2**64 or code <= link < code + text:
        return False
    apart = sp <= code or code + text <= sp - frame
    return apart and not any(sp - frame <= at < sp or code <= at < code + text for at in trial["memory"])


# A header's bytes with the number of the fault that a change of them is, and the byte that is then named.
HEADER_FAULTS = [
    (0, 4, 2, None), (4, 16, 3, None), (16, 18, 4, 16), (18, 20, 5, 18), (20, 40, 6, None), (48, 64, 6, None),
]


def header_fault(at):
    """The byte and the number of the refusal of an object whose header differs in one byte."""
    return next((at if byte is None else byte, code) for low, high, code, byte in HEADER_FAULTS if low <= at < high)


# ---- runs of what is compiled
def signed_of(word, bits):
    return word - (1 << bits) if word >> (bits - 1) else word


def divided(chill, rest, bits, a, b):
    """The signed quotient toward zero, or what is left; None where it is undefined."""
    a, b = signed_of(a, bits), signed_of(b, bits)
    if b == 0:
        return 0 if chill else None
    if a == -(1 << bits - 1) and b == -1 and not chill:
        return None
    quotient = abs(a) // abs(b) * (-1 if (a < 0) != (b < 0) else 1)
    return a - b * quotient if rest else quotient


def compared(of):
    """A comparison of signed words."""
    return lambda w, a, b: of(signed_of(a, w), signed_of(b, w))


# What each pure opcode gives for the bits of its first child's type and the words of its children, before it is cut
# to the type of the value; None where that is undefined.
PURE = {
    "Identity": lambda w, a: a,
    "Add": lambda w, a, b: a + b, "Sub": lambda w, a, b: a - b, "Mul": lambda w, a, b: a * b,
    "BitAnd": lambda w, a, b: a & b, "BitOr": lambda w, a, b: a | b, "BitXor": lambda w, a, b: a ^ b,
    "Neg": lambda w, a: -a,
    "Div": partial(divided, False, False), "Div<Chill>": partial(divided, True, False),
    "Mod": partial(divided, False, True), "Mod<Chill>": partial(divided, True, True),
    "UDiv": lambda w, a, b: a // b if b else None, "UMod": lambda w, a, b: a % b if b else None,
    "Shl": lambda w, a, b: a << b % w, "ZShr": lambda w, a, b: a >> b % w,
    "SShr": lambda w, a, b: signed_of(a, w) >> b % w,
    "RotL": lambda w, a, b: a << b % w | a >> w - b % w, "RotR": lambda w, a, b: a >> b % w | a << w - b % w,
    "Clz": lambda w, a: w - a.bit_length(),
    "SExt8": lambda w, a: signed_of(a % 2**8, 8), "SExt16": lambda w, a: signed_of(a % 2**16, 16),
    "SExt32": lambda w, a: signed_of(a, 32), "ZExt32": lambda w, a: a, "Trunc": lambda w, a: a,
    "Equal": lambda w, a, b: a == b, "NotEqual": lambda w, a, b: a != b,
    "LessThan": compared(operator.lt), "GreaterThan": compared(operator.gt),
    "LessEqual": compared(operator.le), "GreaterEqual": compared(operator.ge),
    "Above": lambda w, a, b: a > b, "Below": lambda w, a, b: a < b,
    "AboveEqual": lambda w, a, b: a >= b, "BelowEqual": lambda w, a, b: a <= b,
    "Select": lambda w, c, a, b: a if c else b,
}
BITS = {"Int32": 32, "Int64": 64, "Void": 1}


def prepared(p):
    """The values of each block with what a run asks of them: the function of a pure opcode, the ids of the children,
    the bits of the first one, and the mask of the value's type."""
    if "prepared" not in p:
        types = {v["id"]: v["ty"] for block in p["blocks"] for v in block["values"]}
        p["prepared"] = [
            [
                (
                    v, PURE.get(v["opcode"] + v["flag"]), [child for child, _ in v["children"]],
                    BITS[types[v["children"][0][0]]] if v["children"] else 0, (1 << BITS[v["ty"]]) - 1,
                )
                for v in block["values"]
            ]
            for block in p["blocks"]
        ]
    return p["prepared"]


def next_block(v, bits, words):
    """The block that a Jump, a Branch or a Switch goes to."""
    targets = v["targets"]
    if v["opcode"] == "Jump":
        return targets[0]
    if v["opcode"] == "Branch":
        return targets[0 if words[0] else 1]
    cases = [case % (1 << bits) for case in v["cases"]]
    return targets[cases.index(words[0])] if words[0] in cases else targets[-1]


def evaluate(p, arguments, most):
    """How a procedure ends within so many blocks, as its status is printed, and how many it ran."""
    words, locations, at, blocks = {}, {}, 0, prepared(p)
    for count in range(1, most + 1):
        for v, pure, ids, bits, mask in blocks[at]:
            opcode, children = v["opcode"], [words[child] for child in ids]
            if pure:
                word = pure(bits, *children)
                if word is None:
                    return "undefined", count
                words[v["id"]] = word & mask
            elif opcode in ("Const32", "Const64"):
                words[v["id"]] = v["number"]
            elif opcode == "ArgumentReg":
                words[v["id"]] = arguments[v["register"]]
            elif opcode == "Upsilon":
                locations[v["phi"]] = children[0]
            elif opcode == "Phi":
                if v["id"] not in locations:
                    return "undefined", count
                words[v["id"]] = locations[v["id"]]
            elif opcode == "Oops":
                return "undefined", count
            elif opcode == "Return":
                return " ".join(["returned"] + ["%d" % word for word in children]), count
            elif opcode != "Nop":
                at = next_block(v, bits, children)
    return "going", most


def returned_bits(p):
    """The width of what a procedure returns; 0 where that is no word."""
    values = [v for block in p["blocks"] for v in block["values"]]
    types = {v["id"]: v["ty"] for v in values}
    returned = next((v["children"] for v in values if v["opcode"] == "Return"), [])
    return BITS[types[returned[0][0]]] if returned else 0


def shown(end, memory):
    """What is printed of a run without events."""
    lines = ["status " + end]
    for at in sorted(memory) if end != "undefined" else []:
        if at - 1 not in memory:
            lines.append("memory 0x%x " % at)
        lines[-1] += "%02x" % memory[at]
    return "\n".join(lines) + "\n"


# ---- random trials
def word_text(rng, number):
    return rng.choice(["%d", "%d", "0x%x", "0x%X"]) % number if rng.random() < 0.9 else "%020d" % number


def any_word(rng):
    edges = [0, 1, 2, 3, 10, MASK, MASK - 1, 2**63, 2**63 - 1, 2**31, 2**31 - 1, 2**32, 2**32 - 1, 2**63 + 2**31]
    return rng.choice(edges + [rng.getrandbits(64), rng.getrandbits(64), rng.getrandbits(32), rng.getrandbits(10)])


def any_bytes(rng):
    return bytes(rng.randrange(256) for _ in range(rng.choice([1, 1, 2, 8, 40]))).hex()


def any_trial(rng, names, steps):
    """The text of a trial, which mostly places."""
    wide = rng.random() < 0.15
    lines = []
    for r in range(31):
        if rng.random() < (0.7 if r < 8 else 0.1) and r != 30:
            lines.append("x%d %s" % (r, word_text(rng, any_word(rng))))
    if rng.random() < 0.3:
        lines.append("x30 " + word_text(rng, rng.choice([0, 0x30000001, MASK, 0x40000000 if wide else 4])))
    if rng.random() < 0.4:
        good = [0x10000, 2**64 - 16, 0x7FFFFFF0, 0x90000 + 16 * rng.randint(0, 99)]
        lines.append("sp " + word_text(rng, rng.choice(good + [8, 16, 0x40000010, 0x80000008] * wide)))
    if rng.random() < 0.4:
        good = [0, 4, 0x50000000, 2**63, 2**64 - 2**20]
        lines.append("code " + word_text(rng, rng.choice(good + [2, 2**64 - 4, 0x80000000, 0x7FFFFFF0] * wide)))
    for _ in range(rng.choice([0, 0, 1, 2, 4])):
        good = [0x2000, 0x2008, 0x3000, 0x20000 + rng.randint(0, 60), 2**64 - 40]
        at = rng.choice(good + [0x40000000, 0x7FFFFFFF, 0x80000000, 0x3FFFFFFF] * wide)
        lines.append("bytes %s %s" % (word_text(rng, at), any_bytes(rng)))
    for _ in range(rng.choice([0, 0, 0, 1, 2])):
        lines.append("stack %s %s" % (word_text(rng, 0x80000000 - rng.randint(1, 400)), any_bytes(rng)))
    lines += ["junk " + word_text(rng, any_word(rng))] * rng.choice([0, 0, 1, 2])
    for _ in range(rng.choice([0, 0, 1])):
        lines.append(rng.choice(["leave", "give 5", "give 0x5 0x2000:00ff 77:1234"]))
    if rng.random() < 0.8:
        lines.append("blocks " + word_text(rng, rng.choice([0, 1, 2, 3, 4, 5, 7, 50, 1000, 5000])))
    lines.append("steps " + word_text(rng, steps))
    rng.shuffle(lines)
    name = rng.choice(names) if rng.random() < 0.95 else "other"
    text = "".join(one + rng.choice(["", "", " ", "  ; c", "// d"]) + "\n" for one in ["procedure " + name] + lines)
    return text[:-1] if rng.random() < 0.1 else text


STRANGE = [
    "x31 0", "x7 5", "x007 5", "x-1 5", "x1", "x1 2 3", "x1 = 2", "sp 16", "sp", "code 18446744073709551616",
    "blocks 1048576", "blocks 1048577", "steps 35184372088832", "steps 35184372088833", "bytes 5 0", "bytes 5 0g",
    "bytes 0xffffffffffffffff 00", "bytes 0xffffffffffffffff 0000", "bytes 0x2000 11", "stack 0x2000 11",
    "stack 0xfffffffffffffffe 112233", "junk -1", "junk 0x10000000000000000", "leave 1", "leave", "give", "give 1 2",
    "give 1 5:", "give 1 :00", "give 1 5:00 5:11", "give 1 5:0011 6:22", "give 1 0xffffffffffffffff:0011",
    "procedure f0", "Stack slots:", "Predecessors: #1", "Predecessors", "steps", "frob 1", "x1 0X5", "; é", "é",
    "x2 000000000000000000005", "x2 00000000000000000005", "bytes 7 AbCd", "x3 1\r\r",
]


def damaged_trial(rng, text):
    lines = text.split("\n")
    what, i = rng.randrange(6), rng.randrange(len(lines))
    if what in (0, 1, 2):
        lines.insert(rng.choice([i, max(i, 1)]), rng.choice(STRANGE))
    elif what == 3:
        lines.insert(i, rng.choice(lines))
    elif what == 4:
        lines.pop(i)
    else:
        k = rng.randrange(len(text))
        return text[:k] + rng.choice(["", *" ,:#=;x0g\r\n-"]) + text[k + rng.randint(0, 1) :]
    return "\n".join(lines)
