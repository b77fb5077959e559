"""The rules of a valid module, and which of them a module breaks first.

A second reading of the rules, over what text.py reads. Each rule is stated where it is looked at.
"""
from oracle.text import ACCESSES, CHECKS, MASK, TERMINALS

INTS = ("Int32", "Int64")
# The 25 registers that a site may ask for.
OPEN = set(range(0, 15)) | set(range(19, 29))
ASKING = ("SomeRegister", "SomeRegisterWithClobber", "SomeLateRegister")
SAME = "Add Sub Mul BitAnd BitOr BitXor Div Mod UDiv UMod".split()
SHIFTS = "Shl SShr ZShr RotL RotR".split()
COMPARISONS = """
    Equal NotEqual LessThan GreaterThan LessEqual GreaterEqual Above Below AboveEqual BelowEqual
""".split()
# What each opcode takes and gives: types of children, the type of the value, and whether more children of any
# type may follow. T is one of the two types of words, the same one wherever it stands; U is any of them; R is a
# type of words or none.
ROWS = {
    "Nop": ("", "Void", False), "Identity": ("T", "T", False), "Const32": ("", "Int32", False),
    "Const64": ("", "Int64", False), "ArgumentReg": ("", "Int64", False), "FramePointer": ("", "Int64", False),
    "SlotBase": ("", "Int64", False), "Neg": ("T", "T", False), "Clz": ("T", "T", False),
    "SExt8": ("Int32", "Int32", False), "SExt16": ("Int32", "Int32", False), "SExt32": ("Int32", "Int64", False),
    "ZExt32": ("Int32", "Int64", False), "Trunc": ("Int64", "Int32", False), "Select": ("U T T", "T", False),
    "Load8Z": ("Int64", "Int32", False), "Load8S": ("Int64", "Int32", False), "Load16Z": ("Int64", "Int32", False),
    "Load16S": ("Int64", "Int32", False), "Load": ("Int64", "T", False), "Store8": ("Int32 Int64", "Void", False),
    "Store16": ("Int32 Int64", "Void", False), "Store": ("T Int64", "Void", False), "CCall": ("Int64", "R", True),
    "Patchpoint": ("", "R", True), "Check": ("U", "Void", True), "CheckAdd": ("T T", "T", True),
    "CheckSub": ("T T", "T", True), "CheckMul": ("T T", "T", True), "Upsilon": ("T", "Void", False),
    "Phi": ("", "T", False), "Jump": ("", "Void", False), "Branch": ("T", "Void", False),
    "Switch": ("T", "Void", False), "Oops": ("", "Void", False),
}
ROWS.update({name: ("T T", "T", False) for name in SAME})
ROWS.update({name: ("T Int32", "T", False) for name in SHIFTS})
ROWS.update({name: ("T T", "Int32", False) for name in COMPARISONS})


def forms_of(opcode):
    """Each list of types of children and type of a value that an opcode may have, and whether more may follow."""
    if opcode == "Return":
        return [([], "Void", False), (["Int32"], "Void", False), (["Int64"], "Void", False)]
    children, own, more = ROWS[opcode]
    forms = []
    for t in INTS:
        for u in INTS:
            for r in (*INTS, "Void"):
                says = {"T": t, "U": u, "R": r}
                form = ([says.get(c, c) for c in children.split()], says.get(own, own), more)
                if form not in forms:
                    forms.append(form)
    return forms


FORMS = {opcode: forms_of(opcode) for opcode in [*ROWS, "Return"]}


def has_row(opcode, types, own):
    return any(
        types[: len(front)] == front and own == gives and (len(types) == len(front) or more)
        and all(t in INTS for t in types[len(front) :])
        for front, gives, more in FORMS[opcode]
    )


# ---- sites
def fixed(where):
    """The register of a fixed constraint, early or late."""
    where = where[5:] if where and where.startswith("late:") else where
    return int(where[2:]) if where and where.startswith("%x") else None


def is_late(where):
    return where.startswith("late:")


def site_breaches(v):
    """The rules on constraints, clobbers and sizes that a value breaks."""
    opcode, broken = v["opcode"], set()
    if opcode == "Patchpoint" and not 1 <= v.get("size", 1) <= 64:
        broken.add(19)
    if opcode == "CCall" and len(v["children"]) > 9:
        broken.add(19)
    if opcode != "Patchpoint" and opcode not in CHECKS:
        return broken
    reported = [where or "WarmAny" for _, where in v["children"][CHECKS.get(opcode, 0) :]]
    typed = opcode == "Patchpoint" and v["ty"] != "Void"
    result = v.get("resultConstraint", "SomeRegister") if typed else None
    early, late = set(v.get("earlyClobbered", [])), set(v.get("lateClobbered", []))
    # No reported child is early alone, and a result is in a register: some one, an early one or a fixed one.
    if "SomeEarlyRegister" in reported:
        broken.add(15)
    if typed and result not in ("SomeRegister", "SomeEarlyRegister") and fixed(result) is None:
        broken.add(15)
    # Fixed registers are those that a site may ask for; the platform's register and the frame's are never clobbered.
    children = [fixed(where) for where in reported if fixed(where) is not None]
    own = fixed(result) if typed else None
    if any(r not in OPEN for r in children + [own] if r is not None) or (early | late) & {18, 29}:
        broken.add(16)
    # Two things that would share a register.
    lates = [fixed(where) for where in reported if is_late(where)]
    shared = len(set(children)) < len(children) or set(children) & early or set(lates) & late
    if shared or own is not None and (own in lates or own in late):
        broken.add(17)
    # As many open registers must be left as are asked for.
    asked = sum(where in ASKING for where in reported) + (result in ("SomeRegister", "SomeEarlyRegister"))
    if asked > len(OPEN - early - late - set(children) - {own}):
        broken.add(18)
    return broken


# ---- procedures
def case_breach(v, ty):
    """Whether two cases are one at the width of the child, or a case is none of 32 bits where the child has them."""
    signed = [case - (1 << 64) if case >> 63 else case for case in v["cases"]]
    if ty == "Int32" and not all(-(2**31) <= case < 2**32 for case in signed):
        return True
    words = [case & (2**32 - 1 if ty == "Int32" else MASK) for case in signed]
    return len(set(words)) < len(words)


def breaches(p, names):
    """The lines of a procedure with the rules broken there, but for the one on uses."""
    # 1: no procedure before has the name.
    if p["name"] in names:
        yield p["line"], 1
    # 2: slots are numbered 0, 1, 2 and so on, and none is empty.
    for place, (number, size, line) in enumerate(p["slots"]):
        if number != place or size == 0:
            yield line, 2
    # 3: so are blocks. 5: a block ends in a terminal.
    for place, block in enumerate(p["blocks"]):
        if block["number"] != place:
            yield block["line"], 3
        if not block["values"]:
            yield block["line"], 5
        elif block["values"][-1]["opcode"] not in TERMINALS:
            yield block["values"][-1]["line"], 5
    first, returns = {}, None
    for block in p["blocks"]:
        for v in block["values"]:
            first.setdefault(v["id"], v)
    slots, headings = {number for number, _, _ in p["slots"]}, {block["number"] for block in p["blocks"]}
    for place, block in enumerate(p["blocks"]):
        for v in block["values"]:
            line, opcode = v["line"], v["opcode"]
            # 4: an id is given once.
            if first[v["id"]] is not v:
                yield line, 4
            # 6: a terminal is its block's last.
            if opcode in TERMINALS and v is not block["values"][-1]:
                yield line, 6
            # 7: whatever is named is there.
            named = [child for child, _ in v["children"]] + ([v["phi"]] if opcode == "Upsilon" else [])
            if not all(name in first for name in named):
                yield line, 7
            # 8: number and types of children, and the own type, are those of the opcode.
            types = [first[child]["ty"] if child in first else None for child, _ in v["children"]]
            if None not in types and not has_row(opcode, types, v["ty"]):
                yield line, 8
            # 9: an Upsilon names a Phi of its child's type.
            if opcode == "Upsilon" and v["phi"] in first:
                phi = first[v["phi"]]
                if phi["opcode"] != "Phi" or types and types[0] not in (None, phi["ty"]):
                    yield line, 9
            # 10, 11: slots and successors are there.
            if opcode == "SlotBase" and v["slot"] not in slots:
                yield line, 10
            if not all(target in headings for target in v["targets"]):
                yield line, 11
            # 12: cases differ and fit.
            if opcode == "Switch" and types and types[0] in INTS and case_breach(v, types[0]):
                yield line, 12
            # 13: all Returns are like the first one.
            if opcode == "Return":
                returns = types[:1] if returns is None else returns
                if types[:1] != returns:
                    yield line, 13
            # 14: arguments are taken in block 0, from x0 to x7.
            if opcode == "ArgumentReg" and (place != 0 or v["register"] > 7):
                yield line, 14
            # 15 to 19
            for rule in site_breaches(v):
                yield line, rule


def reached(p, avoided=None):
    """The blocks that some path from block 0 comes to, none of its blocks being the avoided one."""
    seen, todo = set(), [0] if avoided != 0 else []
    while todo:
        at = todo.pop()
        if at not in seen:
            seen.add(at)
            todo += [t for t in p["blocks"][at]["values"][-1]["targets"] if t != avoided]
    return seen


def uses_breach(p):
    """20: on each path of blocks from block 0 to a use its definition stands before. The first line that breaks it."""
    at = {v["id"]: (b, k) for b, block in enumerate(p["blocks"]) for k, v in enumerate(block["values"])}
    past, whole = {}, reached(p)
    for b, block in enumerate(p["blocks"]):
        for k, v in enumerate(block["values"]):
            for child, _ in v["children"]:
                home, place = at[child]
                if home == b:
                    # A path that comes to the block for the first time has run nothing of it.
                    covered = place < k or b not in whole
                else:
                    if home not in past:
                        past[home] = reached(p, home)
                    covered = b not in past[home]
                if not covered:
                    return v["line"]
    return None


def first_breach(module):
    """The first line that breaks a rule, and the least rule that is broken there; None where there is none."""
    found, names = [], set()
    for p in module:
        found += breaches(p, names)
        names.add(p["name"])
    if not found:
        found = [(line, 20) for line in map(uses_breach, module) if line is not None]
    return min(found, default=None)


# ---- what touches no memory, no frame, and nothing outside
ARITHMETIC = [
    opcode for opcode in FORMS if opcode not in ["SlotBase", "FramePointer", "CCall", "Patchpoint", *ACCESSES, *CHECKS]
]
