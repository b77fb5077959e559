"""Damages of valid modules: each changes one thing of a module, where it finds it."""
import copy

from oracle.rules import INTS, OPEN, SHIFTS
from oracle.text import CHECKS, TERMINALS
from oracle.valid import any_constraint, blank_value


def values_of(p, *opcodes):
    return [v for block in p["blocks"] for v in block["values"] if not opcodes or v["opcode"] in opcodes]


def block_of(p, v):
    return next(block for block in p["blocks"] if any(one is v for one in block["values"]))


def id_twice(rng, m, p, v):
    v["id"] = rng.choice(values_of(p))["id"]


def no_terminal(rng, m, p, v):
    rng.choice(p["blocks"])["values"].pop()


def empty_block(rng, m, p, v):
    rng.choice(p["blocks"])["values"] = []


def terminal_inside(rng, m, p, v):
    block = rng.choice(p["blocks"])
    new = blank_value(rng.choice(["Oops", "Jump"]), "Void")
    new["id"], new["targets"] = 2**20, [0] if new["opcode"] == "Jump" else []
    block["values"].insert(rng.randrange(len(block["values"])), new)


def unknown_child(rng, m, p, v):
    users = [v for v in values_of(p) if v["children"]]
    if users:
        v = rng.choice(users)
        k = rng.randrange(len(v["children"]))
        v["children"][k] = (2**31 - 1, v["children"][k][1])


def unknown_phi(rng, m, p, v):
    for v in values_of(p, "Upsilon")[-1:]:
        v["phi"] = 2**31 - 1


def other_type(rng, m, p, v):
    v["ty"] = rng.choice(["Int32", "Int64", "Void"])


def other_child(rng, m, p, v):
    users = [v for v in values_of(p) if v["children"]]
    if users:
        v = rng.choice(users)
        k = rng.randrange(len(v["children"]))
        v["children"][k] = (rng.choice(values_of(p))["id"], v["children"][k][1])


def other_count(rng, m, p, v):
    if v["children"] and rng.random() < 0.5:
        v["children"].pop()
    else:
        v["children"].append((rng.choice(values_of(p))["id"], None))


def other_phi(rng, m, p, v):
    for v in values_of(p, "Upsilon")[:1]:
        v["phi"] = rng.choice(values_of(p, "Phi") + [v] + values_of(p)[:1])["id"]


def slot_number(rng, m, p, v):
    p["slots"].append((rng.choice([0, 1, 2, 7]), rng.choice([0, 8]), 0))


def slot_gone(rng, m, p, v):
    bases = values_of(p, "SlotBase")
    if not bases:
        bases = [blank_value("SlotBase", "Int64")]
        bases[0]["id"] = 2**20 + 2
        p["blocks"][0]["values"].insert(0, bases[0])
    rng.choice(bases)["slot"] = len(p["slots"]) + rng.choice([0, 1, 2**20])


def block_number(rng, m, p, v):
    rng.choice(p["blocks"])["number"] += rng.choice([-1, 1, 5]) if rng.random() < 0.5 else 1
    for block in p["blocks"]:
        block["number"] = max(block["number"], 0)


def same_name(rng, m, p, v):
    m.append(copy.deepcopy(rng.choice(m)))


def unknown_successor(rng, m, p, v):
    ends = [v for v in values_of(p) if v["targets"]]
    if ends:
        v = rng.choice(ends)
        v["targets"][rng.randrange(len(v["targets"]))] = len(p["blocks"]) + rng.choice([0, 3])


def other_successor(rng, m, p, v):
    ends = [v for v in values_of(p) if v["targets"]]
    if ends:
        v = rng.choice(ends)
        v["targets"][rng.randrange(len(v["targets"]))] = rng.randrange(len(p["blocks"]))


def case_added(rng, m, p, v):
    branches = values_of(p, "Branch")
    if branches and not values_of(p, "Switch"):
        v = rng.choice(branches)
        v["opcode"], v["cases"], v["targets"] = "Switch", [7], v["targets"][:1] * 2
    switches = values_of(p, "Switch")
    if switches:
        v = rng.choice(switches)
        old = rng.choice(v["cases"] + [5])
        v["cases"].append((old + rng.choice([0, 2**32, -(2**32), 2**63, 2**31, -(2**31) - 20])) % 2**64)
        v["targets"].append(0)


def other_return(rng, m, p, v):
    """A Return of another type than that of the first one, or with a child where that has none."""
    returns = values_of(p, "Return")
    ends = [v for v in values_of(p, *TERMINALS) if v not in returns[:1]]
    if returns and ends:
        v = rng.choice(ends)
        types = {w["id"]: w["ty"] for w in values_of(p)}
        first = [types.get(child) for child, _ in returns[0]["children"]]
        words = [w for w in block_of(p, v)["values"] if w["ty"] in INTS and [w["ty"]] != first]
        for name in ("cases", "phi"):
            v.pop(name, None)
        v["opcode"], v["targets"] = "Return", []
        v["children"] = [(rng.choice(words)["id"], None)] if words and rng.random() < 0.7 else []


def argument_moved(rng, m, p, v):
    arguments = values_of(p, "ArgumentReg")
    if arguments and rng.random() < 0.5:
        rng.choice(arguments)["register"] = rng.randint(8, 30)
    elif len(p["blocks"]) > 1:
        new = blank_value("ArgumentReg", "Int64")
        new["id"], new["register"] = 2**20, rng.randint(0, 9)
        rng.choice(p["blocks"][1:])["values"].insert(0, new)


def site_of(rng, p):
    """A site of the procedure, with what it reports; one is made where there is none."""
    sites = values_of(p, "Patchpoint", *CHECKS)
    if sites:
        return rng.choice(sites)
    block = rng.choice(p["blocks"])
    v = blank_value("Patchpoint", rng.choice(["Int32", "Int64", "Void"]))
    v["id"] = 2**20 + 1
    block["values"].insert(len(block["values"]) - 1, v)
    return v


def reports(rng, p, v, where):
    """One child more at the end of a site, of a value before it in its block."""
    values = block_of(p, v)["values"]
    before = [w for w in values[: next(k for k, w in enumerate(values) if w is v)] if w["ty"] != "Void"]
    if before:
        v["children"].append((rng.choice(before)["id"], where))


def strange_constraint(rng, m, p, v):
    v = site_of(rng, p)
    if v["opcode"] == "Patchpoint" and rng.random() < 0.5:
        v["resultConstraint"] = any_constraint(rng)
    else:
        reports(rng, p, v, rng.choice(["SomeEarlyRegister", any_constraint(rng)]))


def strange_register(rng, m, p, v):
    v = site_of(rng, p)
    what = rng.randrange(3)
    if what == 0:
        v.setdefault(rng.choice(["earlyClobbered", "lateClobbered"]), []).append(rng.choice([15, 16, 17, 18, 29, 30]))
        for clobbers in ("earlyClobbered", "lateClobbered"):
            v[clobbers] = sorted(set(v.get(clobbers, [])))
    elif what == 1 and v["opcode"] == "Patchpoint":
        v["resultConstraint"] = rng.choice(["", "late:"]) + "%%x%d" % rng.choice([15, 17, 18, 29, 30])
    else:
        reports(rng, p, v, rng.choice(["", "late:"]) + "%%x%d" % rng.choice([15, 16, 17, 18, 29, 30, 4]))


def register_twice(rng, m, p, v):
    v = site_of(rng, p)
    register = rng.choice([0, 3, 14, 19, 28])
    late, other = rng.choice(["", "late:"]), rng.choice(["", "late:"])
    what = rng.randrange(4)
    if what in (0, 1, 3):
        reports(rng, p, v, "%s%%x%d" % (late, register))
    if what == 0:
        reports(rng, p, v, "%s%%x%d" % (other, register))
    if what in (1, 2):
        clobbers = rng.choice(["earlyClobbered", "lateClobbered"])
        v[clobbers] = sorted(set(v.get(clobbers, []) + [register]))
    if what in (2, 3) and v["opcode"] == "Patchpoint":
        v["resultConstraint"] = "%s%%x%d" % (other, register)


def many_asked(rng, m, p, v):
    """As many registers as there are, or one or two more, where nothing else stands in the way."""
    v = site_of(rng, p)
    early = sorted(rng.sample(sorted(OPEN) + [15, 16, 17, 30], rng.randint(0, 14)))
    late = sorted(rng.sample(sorted(OPEN), rng.randint(0, 14)))
    v["earlyClobbered"], v["lateClobbered"] = early, late
    v["children"] = v["children"][: CHECKS.get(v["opcode"], 0)]
    typed = v["opcode"] == "Patchpoint" and v["ty"] != "Void"
    if typed:
        v["resultConstraint"] = rng.choice(["SomeRegister", "SomeEarlyRegister"])
    left = len(OPEN - set(early) - set(late)) - typed + rng.choice([-1, 0, 0, 1, 1, 2])
    for _ in range(left):
        reports(rng, p, v, rng.choice(["SomeRegister", "SomeRegisterWithClobber", "SomeLateRegister"]))


def call_or_size(rng, m, p, v):
    calls = values_of(p, "CCall")
    if calls and rng.random() < 0.6:
        v = rng.choice(calls)
        while len(v["children"]) < rng.choice([9, 10, 10]):
            v["children"].append(v["children"][0])
    else:
        v = site_of(rng, p)
        if v["opcode"] == "Patchpoint":
            v["size"] = rng.choice([0, 65, 64, 2**31 - 1])


def moved(rng, m, p, v):
    """A value to another place of its block, or to another block."""
    movable = [v for v in values_of(p) if v["opcode"] not in TERMINALS]
    if movable:
        v = rng.choice(movable)
        home = block_of(p, v)
        home["values"] = [one for one in home["values"] if one is not v]
        block = home if rng.random() < 0.4 else rng.choice(p["blocks"])
        block["values"].insert(rng.randint(0, max(len(block["values"]) - 1, 0)), v)


def shift_width(rng, m, p, v):
    shifts = values_of(p, *SHIFTS)
    if shifts:
        v = rng.choice(shifts)
        v["children"] = [v["children"][0], v["children"][0]]


DAMAGES = [
    id_twice, no_terminal, empty_block, terminal_inside, unknown_child, unknown_phi, other_type, other_child,
    other_count, other_phi, slot_number, slot_gone, block_number, same_name, unknown_successor, other_successor,
    case_added, other_return, argument_moved, strange_constraint, strange_register, register_twice, many_asked,
    call_or_size, moved, moved, moved, other_child, other_successor, shift_width,
]


def damaged(rng, module):
    """A copy of the module with one thing changed, and at times with two."""
    module = copy.deepcopy(module)
    for _ in range(rng.choice([1, 1, 1, 2])):
        p = rng.choice(module)
        values = values_of(p)
        if values and all(block["values"] for block in p["blocks"]):
            rng.choice(DAMAGES)(rng, module, p, rng.choice(values))
    return module
