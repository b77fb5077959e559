"""Texts of modules, read as docs/FORMATS.md says: lines, tokens, items, values, limits, canonical text."""
import re

MASK = (1 << 64) - 1
PLAIN = """
    Nop Identity FramePointer Add Sub Mul BitAnd BitOr BitXor Neg Div Mod UDiv UMod Shl SShr ZShr RotL
    RotR Clz SExt8 SExt16 SExt32 ZExt32 Trunc Equal NotEqual LessThan GreaterThan LessEqual GreaterEqual
    Above Below AboveEqual BelowEqual Select CCall Phi Oops Return
""".split()
ACCESSES = "Load8Z Load8S Load16Z Load16S Load Store8 Store16 Store".split()
CHECKS = {"Check": 1, "CheckAdd": 2, "CheckSub": 2, "CheckMul": 2}
LEADS = {"Const32": "number", "Const64": "number", "ArgumentReg": "register", "SlotBase": "slot"}
JUMPS = {"Jump": "one", "Branch": "two", "Switch": "many"}
OPCODES = set(PLAIN) | set(ACCESSES) | set(CHECKS) | set(LEADS) | set(JUMPS) | {"Upsilon", "Patchpoint"}
TERMINALS = ("Jump", "Branch", "Switch", "Return", "Oops")
ANYWHERE = "WarmAny ColdAny LateColdAny SomeRegister SomeRegisterWithClobber SomeEarlyRegister SomeLateRegister".split()
EFFECTS = """
    Terminal ReadsLocalState WritesLocalState ReadsPinned WritesPinned ExitsSideways ControlDependent Fence
""".split()

NAME = r"[A-Za-z_][A-Za-z0-9_.$]{0,254}"
EFFECT = r"(Reads|Writes):[A-Za-z0-9.@+-]+"


class Bad(Exception):
    pass


def want(good):
    if not good:
        raise Bad()


def plain(piece):
    want(re.fullmatch(r"[0-9]{1,10}", piece) and int(piece) < 2**31)
    return int(piece)


def signed(piece, least=None, most=None):
    want(re.fullmatch(r"-?[0-9]{1,20}|0x[0-9a-fA-F]{1,16}", piece))
    number = int(piece, 16) if piece.startswith("0x") else int(piece)
    want(least is None or least <= number <= most)
    return number


def register(piece):
    number = {"%fp": 29, "%lr": 30}.get(piece)
    if number is None:
        want(piece.startswith("%x"))
        number = plain(piece[2:])
        want(number <= 30)
    return number


def constraint(piece):
    if piece in ANYWHERE:
        return piece
    late = piece.startswith("late:")
    return ("late:" if late else "") + "%%x%d" % register(piece[5:] if late else piece)


def tokens(text):
    return re.findall(r"[()\[\],=|]|[^()\[\],=| \t]+", text)


def listed(pieces):
    want(pieces[:1] == ["["] and pieces[-1:] == ["]"] and len(pieces) >= 2)
    inner = pieces[1:-1]
    want(inner == [] or len(inner) % 2 == 1 and all(piece == "," for piece in inner[1::2]))
    return inner[::2]


def ident(piece):
    want(re.match(r"b?@", piece))
    return plain(piece[piece.index("@") + 1 :])


def item(pieces, opcode):
    """What an item says: its kind, and what it gives."""
    first = pieces[0]
    if len(pieces) == 1 and first.startswith("^"):
        return "phi", plain(first[1:])
    if first.startswith(("@", "b@")):
        want(len(pieces) == 1)
        name, colon, rest = first.partition(":")
        return "child", (ident(name), constraint(rest) if colon else None)
    if first.startswith("$"):
        signed(first[1:])
        want(len(pieces) in (4, 5) and pieces[1] == "(" and pieces[3] == ")")
        rest = pieces[4:]
        want(rest == [] or rest[0].startswith(":"))
        return "child", (ident(pieces[2]), constraint(rest[0][1:]) if rest else None)
    if pieces[1:2] == ["="]:
        rest = pieces[2:]
        want(rest)
        if first in ("earlyClobbered", "lateClobbered", "usedRegisters"):
            return first, sorted(set(register(piece) for piece in listed(rest)))
        if first == "cases":
            return first, [signed(piece, -(2**63), MASK) & MASK for piece in listed(rest)]
        want(len(rest) == 1)
        readers = {
            "offset": lambda: signed(rest[0], -(2**31), 2**31 - 1),
            "resultConstraint": lambda: constraint(rest[0]),
            "size": lambda: plain(rest[0]),
            "generator": lambda: signed(rest[0]),
        }
        want(first in readers)
        return first, readers[first]()
    if all(piece in EFFECTS or re.fullmatch(EFFECT, piece) for piece in pieces[::2]):
        want(len(pieces) % 2 == 1 and all(piece == "|" for piece in pieces[1::2]))
        return "effects", None
    want(len(pieces) == 1)
    if opcode in ("Const32", "Const64"):
        bits = int(opcode[5:])
        return "number", signed(first, -(2 ** (bits - 1)), 2**bits - 1) & (2**bits - 1)
    if opcode == "ArgumentReg":
        return "register", register(first)
    want(opcode == "SlotBase" and first.startswith("stack"))
    return "slot", plain(first[5:])


def may_have(opcode, kind):
    site = opcode == "Patchpoint" or opcode in CHECKS
    return {
        "child": True, "effects": True, "phi": opcode == "Upsilon", "offset": opcode in ACCESSES,
        "cases": opcode == "Switch", "resultConstraint": opcode == "Patchpoint", "size": opcode == "Patchpoint",
        "earlyClobbered": site, "lateClobbered": site, "generator": site, "usedRegisters": site,
    }.get(kind, LEADS.get(opcode) == kind)


def value_row(text):
    at = text.find("(")
    want(at >= 0 and text.endswith(")"))
    head = tokens(text[:at])
    want(len(head) == 4 and head[0] in ("Int32", "Int64", "Void") and head[2] == "=")
    name, _, flag = head[3].partition("<")
    want(name in OPCODES)
    want(head[3] == name or flag == "Chill>" and name in ("Div", "Mod") or flag == "Traps>" and name in ACCESSES)
    value = {"ty": head[0], "id": ident(head[1]), "opcode": name, "flag": "<" + flag if flag else ""}
    value.update(children=[], targets=[])
    inner = text[at + 1 : -1]
    pieces, depth, item_tokens = [], 0, []
    for piece in tokens(inner):
        depth += (piece == "[") - (piece == "]")
        if piece == "," and depth == 0:
            pieces.append(item_tokens)
            item_tokens = []
        else:
            item_tokens.append(piece)
    if pieces or item_tokens:
        pieces.append(item_tokens)
    stage = 0
    for number, one in enumerate(pieces):
        want(one)
        kind, gives = item(one, name)
        want(may_have(name, kind))
        rank = {"number": 0, "register": 0, "slot": 0, "child": 1, "phi": 2}.get(kind, 3)
        want(rank > 0 or number == 0)
        want(rank >= stage and not (kind == "phi" and stage == 2))
        stage = rank
        if kind == "child":
            want(gives[1] is None or name == "Patchpoint" or name in CHECKS)
            value["children"].append(gives)
        elif kind != "effects":
            want(kind not in value)
            value[kind] = gives
    want(name not in LEADS or LEADS[name] in value)
    want(name != "Upsilon" or "phi" in value)
    want(name != "Switch" or "cases" in value)
    return value


def successors(pieces):
    if not pieces:
        return "none", []
    want(len(pieces) % 2 == 1 and all(piece == "," for piece in pieces[1::2]))
    pieces = pieces[::2]
    if len(pieces) == 2 and pieces[0].startswith("Then:#") and pieces[1].startswith("Else:#"):
        return "two", [plain(piece[6:]) for piece in pieces]
    if pieces[-1].startswith("fallThrough:#"):
        want(all(piece.startswith("#") for piece in pieces[:-1]))
        return "many", [plain(piece[1:]) for piece in pieces[:-1]] + [plain(pieces[-1][13:])]
    want(len(pieces) == 1 and pieces[0].startswith("#"))
    return "one", [plain(pieces[0][1:])]


def pieces_of(line):
    """What stands before a line's comment, and its tokens; none where it carries nothing."""
    comment = re.search(r";|//", line)
    text = line[: comment.start()] if comment else line
    want(all(ord(c) < 128 for c in text) and (comment or not line.endswith("\r")))
    text = text.rstrip(" \t")
    pieces = tokens(text)
    nothing = not pieces or pieces[0].startswith("Predecessors:") or pieces == ["Stack", "slots:"]
    return text, [] if nothing else pieces


def lines_of(text):
    """The lines of a text, each without its end."""
    lines = text.split("\n")
    rest = lines.pop()
    return [line[:-1] if line.endswith("\r") else line for line in lines] + ([rest] if rest else [])


def row(line):
    text, pieces = pieces_of(line)
    if not pieces:
        return "blank", None
    if pieces[0] == "Successors:":
        return "successors", successors(pieces[1:])
    if len(pieces) == 1 and pieces[0].startswith("BB#") and pieces[0].endswith(":"):
        return "heading", plain(pieces[0][3:-1])
    slot = len(pieces) == 4 and pieces[0].startswith("stack") and pieces[0].endswith(":")
    if slot and pieces[1:3] == ["byteSize", "="]:
        return "slot", (plain(pieces[0][5:-1]), plain(pieces[3]))
    if len(pieces) == 2 and pieces[0] == "procedure" and re.fullmatch(NAME, pieces[1]):
        return "header", pieces[1]
    return "value", value_row(text)


def read(text):
    """The module of a text, or the number of its bad line."""
    lines = lines_of(text)
    module, awaits = [], "header"
    for at, line in enumerate(lines, 1):
        try:
            kind, gives = row(line)
            if kind == "blank":
                continue
            if awaits in ("one", "two", "many"):
                want(kind == "successors" and gives[0] == awaits)
                value = module[-1]["blocks"][-1]["values"][-1]
                want(awaits != "many" or len(gives[1]) == len(value["cases"]) + 1)
                value["targets"], awaits = gives[1], "value"
            elif kind == "header":
                want(awaits in ("header", "value", "bare"))
                module.append({"name": gives, "line": at, "slots": [], "blocks": []})
                awaits = "slot"
            elif kind == "slot":
                want(awaits == "slot")
                module[-1]["slots"].append((*gives, at))
            elif kind == "heading":
                want(awaits in ("slot", "value", "bare"))
                module[-1]["blocks"].append({"number": gives, "line": at, "values": []})
                awaits = "value"
            elif kind == "successors":
                want(awaits == "bare" and gives[0] == "none")
                awaits = "value"
            else:
                want(awaits in ("value", "bare"))
                gives["line"] = at
                module[-1]["blocks"][-1]["values"].append(gives)
                awaits = JUMPS.get(gives["opcode"], "bare" if gives["opcode"] in ("Return", "Oops") else "value")
        except Bad:
            return at
    return module if awaits in ("value", "bare") else len(lines) + 1


# ---- limits
LIMITS = [
    ("procedures", 256), ("values", 65536), ("children", 262144), ("procedure values", 16384),
    ("procedure blocks", 4096), ("procedure children", 131072), ("slots", 4096), ("slot bytes", 65536),
]


def steps_of(module):
    """The lines of a module in order, each with what it adds to the quantities that are counted."""
    for p in module:
        yield p["line"], {"procedures": 1}
        for _, size, line in p["slots"]:
            yield line, {"slots": 1, "slot bytes": size}
        for block in p["blocks"]:
            yield block["line"], {"procedure blocks": 1}
            for v in block["values"]:
                children = len(v["children"]) + len(v.get("cases", []))
                one = {"values": 1, "procedure values": 1}
                yield v["line"], dict(one, **{"children": children, "procedure children": children})


def limit_fault(module):
    """The first line that passes a limit, and which limit; None where there is none."""
    counts = dict.fromkeys((name for name, _ in LIMITS), 0)
    for line, adds in steps_of(module):
        if "procedures" in adds:
            counts = {name: n if name in ("procedures", "values", "children") else 0 for name, n in counts.items()}
        for name, more in adds.items():
            counts[name] += more
        for name, most in LIMITS:
            if counts[name] > most:
                return line, name
    return None


# ---- canonical text
def word_text(word, bits):
    return "%d" % (word - (1 << bits) if word >> (bits - 1) else word)


def value_text(v):
    name, items = v["opcode"], []
    if name in ("Const32", "Const64"):
        items.append(word_text(v["number"], int(name[5:])))
    if name == "ArgumentReg":
        items.append("%%x%d" % v["register"])
    if name == "SlotBase":
        items.append("stack%d" % v["slot"])
    computed = 0 if name == "Patchpoint" else CHECKS.get(name, len(v["children"]))
    for k, (child, where) in enumerate(v["children"]):
        items.append("b@%d" % child + (":" + (where or "WarmAny") if k >= computed else ""))
    if name == "Upsilon":
        items.append("^%d" % v["phi"])
    if v.get("offset", 0):
        items.append("offset = %d" % v["offset"])
    if name == "Switch":
        items.append("cases = [" + ", ".join(word_text(case, 64) for case in v["cases"]) + "]")
    if v.get("resultConstraint", "SomeRegister") != "SomeRegister" and v["ty"] != "Void":
        items.append("resultConstraint = " + v["resultConstraint"])
    if v.get("size", 1) != 1:
        items.append("size = %d" % v["size"])
    for clobbers in ("earlyClobbered", "lateClobbered"):
        if v.get(clobbers):
            items.append(clobbers + " = [" + ", ".join("%%x%d" % r for r in v[clobbers]) + "]")
    lines = ["    %s b@%d = %s%s(%s)" % (v["ty"], v["id"], name, v["flag"], ", ".join(items))]
    if name in JUMPS:
        many = ["#"] * (len(v["targets"]) - 1) + ["fallThrough:#"]
        marks = {"one": ["#"], "two": ["Then:#", "Else:#"]}.get(JUMPS[name], many)
        lines.append("  Successors: " + ", ".join(mark + "%d" % t for mark, t in zip(marks, v["targets"])))
    return lines


def canonical(module):
    lines = []
    for p in module:
        lines.append("procedure " + p["name"])
        lines += ["    stack%d: byteSize = %d" % slot[:2] for slot in p["slots"]]
        for block in p["blocks"]:
            lines.append("BB#%d:" % block["number"])
            for value in block["values"]:
                lines += value_text(value)
    return "\n".join(lines) + "\n"
