"""Random texts: procedures of what is compiled, lines of the whole language, and damages of characters and lines."""
import re

from oracle.text import ACCESSES, ANYWHERE, CHECKS, EFFECTS, OPCODES, value_row


# ---- procedures of what is compiled: a list of blocks, each a list of values (kind, id, arguments)
def shape(rng):
    blocks = rng.randint(1, 6)
    kinds = []
    for block in range(blocks):
        row = ["arg"] * rng.randint(1, 3) + ["const"] if block == 0 else []
        row += [rng.choice(["add", "sub", "phi", "upsilon", "const"]) for _ in range(rng.randint(0, 7))]
        last = block == blocks - 1
        row.append(rng.choice(["return", "return", "branch"] if last else ["jump", "branch", "branch", "return"]))
        kinds.append(row)
    return kinds


def procedure(rng):
    kinds = shape(rng)
    firsts = [sum(len(row) for row in kinds[:block]) for block in range(len(kinds))]
    phis = [firsts[b] + i for b, row in enumerate(kinds) for i, kind in enumerate(row) if kind == "phi"]
    block_0, result = [], []
    for block, row in enumerate(kinds):
        own, values = [], []
        for i, kind in enumerate(row):
            number = firsts[block] + i
            known = own if block == 0 else own + block_0
            if kind == "upsilon" and not (known and phis) or kind in ("add", "sub") and not known:
                kind = "const"
            if kind in ("branch", "return") and not known:
                kind = "jump"
            values.append((kind, number, fields(rng, kind, known, phis, len(kinds))))
            if kind in ("arg", "const", "add", "sub", "phi"):
                own.append(number)
        if block == 0:
            block_0 = own
        result.append(values)
    return result


def fields(rng, kind, known, phis, blocks):
    if kind == "arg":
        return [rng.randint(0, 7)]
    if kind == "const":
        return [rng.choice([0, 1, 2, -1, rng.randint(-(2**63), 2**63 - 1)])]
    if kind in ("add", "sub"):
        return [rng.choice(known), rng.choice(known)]
    if kind == "upsilon":
        return [rng.choice(known), rng.choice(phis)]
    if kind == "jump":
        return [rng.randrange(blocks)]
    if kind == "branch":
        return [rng.choice(known), rng.randrange(blocks), rng.randrange(blocks)]
    return [rng.choice(known)] if kind == "return" else []


def text_of(blocks):
    lines = ["procedure f"]
    for number, values in enumerate(blocks):
        lines.append("BB#%d:" % number)
        for kind, at, f in values:
            lines += {
                "arg": lambda: ["Int64 b@%d = ArgumentReg(%%x%d)" % (at, *f)],
                "const": lambda: ["Int64 b@%d = Const64(%d)" % (at, *f)],
                "add": lambda: ["Int64 b@%d = Add(b@%d, b@%d)" % (at, *f)],
                "sub": lambda: ["Int64 b@%d = Sub(b@%d, b@%d)" % (at, *f)],
                "phi": lambda: ["Int64 b@%d = Phi()" % at],
                "upsilon": lambda: ["Void b@%d = Upsilon(b@%d, ^%d)" % (at, *f)],
                "jump": lambda: ["Void b@%d = Jump()" % at, "Successors: #%d" % f[0]],
                "branch": lambda: [
                    "Void b@%d = Branch(b@%d)" % (at, f[0]), "Successors: Then:#%d, Else:#%d" % (f[1], f[2])
                ],
                "return": lambda: ["Void b@%d = Return(b@%d)" % (at, *f)],
            }[kind]()
    return "\n".join(lines) + "\n"


# ---- lines of the whole language
def blanks(rng):
    return rng.choice(["", "", "", " ", "\t", "  "])


def number_text(rng, number):
    if number >= 0 and rng.random() < 0.2:
        return "0x%x" % number if rng.random() < 0.5 else "0x%X" % number
    if rng.random() < 0.8:
        return "%d" % number
    return "%s%0*d" % ("-" if number < 0 else "", rng.randint(1, 12), abs(number))


def any_constraint(rng):
    return rng.choice(ANYWHERE + ["%x0", "%x30", "%fp", "late:%x7", "late:%lr", "%x007"])


def any_registers(rng):
    registers = [blanks(rng) + "%%x%d" % rng.randint(0, 30) for _ in range(rng.randint(0, 3))]
    return "[" + ",".join(registers) + blanks(rng) + "]"


def any_items(rng, name):
    items = []
    if name in ("Const32", "Const64"):
        bits = int(name[5:])
        least, most = -(2 ** (bits - 1)), 2**bits - 1
        items.append(number_text(rng, rng.choice([0, 1, -1, least, most, rng.randint(least, most)])))
    if name == "ArgumentReg":
        items.append(rng.choice(["%x0", "%x30", "%fp", "%lr", "%x007"]))
    if name == "SlotBase":
        items.append("stack%d" % rng.choice([0, 7, 2**31 - 1]))
    site = name == "Patchpoint" or name in CHECKS
    for _ in range(rng.choice([0, 1, 1, 2, 2, 3, 4])):
        child = rng.choice(["@", "b@"]) + "%0*d" % (rng.choice([1, 1, 3]), rng.choice([0, 1, 9, 2**31 - 1]))
        if rng.random() < 0.2:
            number = number_text(rng, rng.choice([0, -5, 2**63]))
            child = "$" + number + blanks(rng) + "(" + blanks(rng) + child + ")" + blanks(rng)
        items.append(child + (":" + any_constraint(rng) if site and rng.random() < 0.5 else ""))
    if name == "Upsilon":
        items.append("^%d" % rng.randint(0, 9))
    named = []
    equals = lambda left, right: left + blanks(rng) + "=" + blanks(rng) + right
    if name in ACCESSES and rng.random() < 0.6:
        named.append(equals("offset", number_text(rng, rng.choice([0, 8, -8, -(2**31), 2**31 - 1]))))
    if name == "Switch":
        cases = [number_text(rng, rng.choice([0, -1, 5, 2**64 - 1, -(2**63)])) for _ in range(rng.randint(0, 3))]
        named.append(equals("cases", "[" + ", ".join(cases) + "]"))
    if name == "Patchpoint" and rng.random() < 0.5:
        named.append(equals("resultConstraint", any_constraint(rng)))
    if name == "Patchpoint" and rng.random() < 0.5:
        named.append(equals("size", "%d" % rng.choice([0, 1, 3, 64])))
    for clobbers in ("earlyClobbered", "lateClobbered", "usedRegisters"):
        if site and rng.random() < 0.4:
            named.append(equals(clobbers, any_registers(rng)))
    if site and rng.random() < 0.2:
        named.append(equals("generator", rng.choice(["0", "99999999999999999999", "-7", "0x55"])))
    if rng.random() < 0.3:
        effects = rng.choices(EFFECTS + ["Reads:Top", "Writes:1-2.@+"], k=rng.randint(1, 3))
        named.append(rng.choice([" | ", "|"]).join(effects))
    rng.shuffle(named)
    return items + named


def any_value(rng):
    """A value's line, and that of its successors where it has some."""
    name = rng.choice(sorted(OPCODES))
    flags = {"Div": "<Chill>", "Mod": "<Chill>"}
    flag = flags.get(name, "<Traps>" if name in ACCESSES else "") if rng.random() < 0.5 else ""
    inner = ",".join(blanks(rng) + one + blanks(rng) for one in any_items(rng, name))
    ty, mark, number = rng.choice(["Int32", "Int64", "Void"]), rng.choice(["@", "b@"]), rng.randint(0, 20)
    kind = name + flag + blanks(rng)
    line = "%s %s%d%s=%s%s(%s)" % (ty, mark, number, blanks(rng), blanks(rng), kind, inner)
    return [line] + any_successors(rng, name, line)


def any_successors(rng, name, line):
    def target():
        return "%d" % rng.randint(0, 9)

    if name == "Jump":
        return ["Successors: #" + target()]
    if name == "Branch":
        comma = blanks(rng) + "," + blanks(rng)
        return ["Successors:" + rng.choice([" ", "  ", "\t"]) + "Then:#" + target() + comma + "Else:#" + target()]
    if name == "Switch":
        count = value_row(line)["cases"]
        return ["Successors: " + "".join("#" + target() + ", " for _ in count) + "fallThrough:#" + target()]
    return ["Successors:"] if name in ("Return", "Oops") and rng.random() < 0.5 else []


def any_text(rng):
    lines = []
    for _ in range(rng.choice([1, 1, 2, 3])):
        lines.append("procedure " + rng.choice(["f", "g", "_a.b$1", "f"]))
        for _ in range(rng.choice([0, 0, 1, 2])):
            size = rng.choice([0, 8, 100, 65536])
            lines.append("stack%d: byteSize%s=%s%d" % (rng.randint(0, 3), blanks(rng), blanks(rng), size))
        for _ in range(rng.randint(1, 3)):
            lines.append("BB#%d:" % rng.randint(0, 9))
            for _ in range(rng.randint(0, 5)):
                lines += any_value(rng)
    return "".join(map(lambda line: dressed(rng, line), lines))


def dressed(rng, line):
    """A line with blanks, comments and lines that carry nothing."""
    before = rng.choice(["", "; é", "Predecessors: #1", "  Stack   slots:", "//x"]) + "\n"
    before = before if rng.random() < 0.1 else ""
    comment, end = rng.choice(["", "", "", "; c", "// d"]), rng.choice(["\n", "\n", "\r\n"])
    return before + rng.choice(["", "", "  ", "\t"]) + line + blanks(rng) + comment + end


# ---- other spellings of canonical text
def respelled(rng, text):
    """The text with blanks, comments, other spellings, and items that carry nothing."""
    return "".join(dressed(rng, respelled_line(rng, line)) for line in text.split("\n")[:-1])


def respelled_line(rng, line):
    head, mark, inner = line.partition("(")
    if not mark or rng.random() < 0.3:
        return line
    name, items = head.split()[-1].partition("<")[0], inner[:-1]
    # A constraint of a child that is computed with, and a result's of a value without one, are no one's.
    items = re.sub(r"(b@[0-9]+)(?!:|[0-9])", r"\1:%x18", items, count=2) if name in CHECKS else items
    items = re.sub(r"b@[0-9]+", lambda at: rng.choice(["%s", "%s", "$-5(%s)"]) % at[0][rng.randint(0, 1) :], items)
    more = ["Terminal|Reads:Top"]
    if name in CHECKS or name == "Patchpoint":
        more += ["generator = 0x7f", "usedRegisters = [%x18, %fp]"]
    if name == "Patchpoint" and head.startswith("    Void"):
        more.append("resultConstraint = " + rng.choice(["WarmAny", "%x18", "late:%x3"]))
    more = rng.sample(more, rng.randint(0, len(more)))
    return head + "(" + ", ".join(([items] if items else []) + more) + ")"


# ---- damages of characters and lines
def damage(rng, text):
    lines = text.split("\n")
    for _ in range(rng.choice([1, 1, 2])):
        i, what = rng.randrange(len(lines)), rng.randrange(8)
        line = lines[i]
        digits = [k for k, c in enumerate(line) if c.isdigit()]
        if what == 0:
            lines.insert(i, lines[rng.randrange(len(lines))])
        elif what == 1 and len(lines) > 1:
            lines.pop(i)
        elif what == 2:
            j = rng.randrange(len(lines))
            lines[i], lines[j] = lines[j], lines[i]
        elif what in (3, 4) and digits:
            k = rng.choice(digits)
            lines[i] = line[:k] + rng.choice("0123456789") + line[k + 1 :]
        elif what == 5:
            lines[i] = rng.choice([" ", "\t", "  "]) + line + rng.choice(["", " ", "\t"])
        elif what == 6 and line:
            k = rng.randrange(len(line))
            lines[i] = line[:k] + rng.choice(["", *" ,#@^()[]|=:;b019x%\r-"]) + line[k + rng.randint(0, 1) :]
        else:
            whole = "\n".join(lines)
            return whole[: rng.randrange(len(whole) + 1)]
    return "\n".join(lines)

