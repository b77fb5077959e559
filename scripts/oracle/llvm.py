"""Modules of what is compiled as LLVM's text, a function each of eight arguments; a location of a Phi is memory that
LLVM's mem2reg takes away."""
from oracle.rules import COMPARISONS
from oracle.text import word_text
from oracle.trials import BITS

PLAIN = {
    "Add": "add", "Sub": "sub", "Mul": "mul", "BitAnd": "and", "BitOr": "or", "BitXor": "xor",
    "Div": "sdiv", "Mod": "srem", "UDiv": "udiv", "UMod": "urem",
}
SHIFTS = {"Shl": "shl", "SShr": "ashr", "ZShr": "lshr"}
CONDITIONS = dict(zip(COMPARISONS, "eq ne slt sgt sle sge ugt ult uge ule".split()))
WIDTHS = {"SExt8": ("i8", "sext"), "SExt16": ("i16", "sext"), "SExt32": ("i32", "sext"), "ZExt32": ("i32", "zext")}
DECLARED = "".join(
    "declare i%d @llvm.%s.i%d(i%d, %s)\n" % (w, name, w, w, more % {"w": w})
    for w in (32, 64)
    for name, more in (("fshl", "i%(w)d, i%(w)d"), ("fshr", "i%(w)d, i%(w)d"), ("ctlz", "i1"))
)


class Function:
    """The text of a procedure."""

    def __init__(self, p):
        values = [v for block in p["blocks"] for v in block["values"]]
        self.p, self.lines, self.fresh = p, [], 0
        self.bits = {v["id"]: BITS[v["ty"]] for v in values}
        self.names = {v["id"]: "%%v%d" % v["id"] for v in values}
        for v in values:
            if v["opcode"] in ("Const32", "Const64"):
                self.names[v["id"]] = word_text(v["number"], self.bits[v["id"]])
            elif v["opcode"] == "ArgumentReg":
                self.names[v["id"]] = "%%x%d" % v["register"]

    def put(self, text, name=None):
        """Adds an instruction; gives the name of what it gives."""
        self.fresh += name is None
        name = name or "%%t%d" % self.fresh
        self.lines.append("  %s = %s" % (name, text))
        return name

    def amount(self, bits, name):
        low = self.put("and i32 %s, %d" % (name, bits - 1))
        return self.put("zext i32 %s to i64" % low) if bits == 64 else low

    def chilled(self, word, rest, ty, a, b, own):
        """A quotient by 1 where the true one has none; 0 by 0 then."""
        zero = self.put("icmp eq %s %s, 0" % (ty, b))
        least = self.put("icmp eq %s %s, -%d" % (ty, a, 1 << int(ty[1:]) - 1))
        both = self.put("and i1 %s, %s" % (least, self.put("icmp eq %s %s, -1" % (ty, b))))
        bad = self.put("or i1 %s, %s" % (zero, both))
        by = self.put("select i1 %s, %s 1, %s %s" % (bad, ty, ty, b))
        got = self.put("%s %s %s, %s" % (word, ty, a, by), own if rest else None)
        if not rest:
            self.put("select i1 %s, %s 0, %s %s" % (zero, ty, ty, got), own)

    def value(self, v):
        opcode, own = v["opcode"], self.names[v["id"]]
        names = [self.names[child] for child, _ in v["children"]]
        bits = self.bits[v["children"][0][0]] if names else 0
        ty, mine = "i%d" % bits, "i%d" % self.bits[v["id"]]
        if v["flag"]:
            self.chilled(PLAIN[opcode], opcode == "Mod", ty, *names, own)
        elif opcode in PLAIN:
            self.put("%s %s %s, %s" % (PLAIN[opcode], ty, *names), own)
        elif opcode in SHIFTS:
            self.put("%s %s %s, %s" % (SHIFTS[opcode], ty, names[0], self.amount(bits, names[1])), own)
        elif opcode in ("RotL", "RotR"):
            called = "@llvm.fsh%s.%s" % (opcode[3].lower(), ty)
            given = "%s %s, %s %s, %s %s" % (ty, names[0], ty, names[0], ty, self.amount(bits, names[1]))
            self.put("call %s %s(%s)" % (ty, called, given), own)
        elif opcode == "Clz":
            self.put("call %s @llvm.ctlz.%s(%s %s, i1 false)" % (ty, ty, ty, names[0]), own)
        elif opcode == "Neg":
            self.put("sub %s 0, %s" % (ty, names[0]), own)
        elif opcode in CONDITIONS:
            test = self.put("icmp %s %s %s, %s" % (CONDITIONS[opcode], ty, *names))
            self.put("zext i1 %s to i32" % test, own)
        elif opcode in WIDTHS:
            low, how = WIDTHS[opcode]
            part = names[0] if low == ty else self.put("trunc %s %s to %s" % (ty, names[0], low))
            self.put("%s %s %s to %s" % (how, low, part, mine), own)
        elif opcode == "Trunc":
            self.put("trunc i64 %s to i32" % names[0], own)
        elif opcode == "Identity":
            self.put("or %s %s, 0" % (ty, names[0]), own)
        elif opcode == "Select":
            test = self.put("icmp ne %s %s, 0" % (ty, names[0]))
            self.put("select i1 %s, %s %s, %s %s" % (test, mine, names[1], mine, names[2]), own)
        elif opcode == "Upsilon":
            self.lines.append("  store %s %s, %s* %%p%d" % (ty, names[0], ty, v["phi"]))
        elif opcode == "Load":
            pointer = self.put("inttoptr i64 %s to %s*" % (names[0], mine))
            self.put("load %s, %s* %s" % (mine, mine, pointer), own)
        elif opcode == "Phi":
            self.put("load %s, %s* %%p%d" % (mine, mine, v["id"]), own)
        elif opcode in ("Jump", "Branch", "Switch", "Return", "Oops"):
            self.end(v, ty, names)

    def end(self, v, ty, names):
        opcode, to = v["opcode"], ["label %%b%d" % target for target in v["targets"]]
        if opcode == "Branch":
            test = self.put("icmp ne %s %s, 0" % (ty, names[0]))
            self.lines.append("  br i1 %s, %s, %s" % (test, *to))
        elif opcode == "Switch":
            bits = int(ty[1:])
            cases = [word_text(case % (1 << bits), bits) for case in v["cases"]]
            rows = " ".join("%s %s, %s" % (ty, case, where) for case, where in zip(cases, to))
            self.lines.append("  switch %s %s, %s [ %s ]" % (ty, names[0], to[-1], rows))
        elif opcode == "Jump":
            self.lines.append("  br " + to[0])
        elif opcode == "Oops":
            self.lines.append("  unreachable")
        else:
            self.lines.append("  ret " + ("%s %s" % (ty, names[0]) if names else "void"))

    def text(self):
        values = [v for block in self.p["blocks"] for v in block["values"]]
        returned = [v["children"] for v in values if v["opcode"] == "Return"]
        gives = "i%d" % self.bits[returned[0][0][0]] if returned and returned[0] else "void"
        given = ", ".join("i64 %%x%d" % r for r in range(8))
        self.lines = ["define %s @%s(%s) {" % (gives, self.p["name"], given), "entry:"]
        for v in values:
            if v["opcode"] == "Phi":
                self.put("alloca i%d" % self.bits[v["id"]], "%%p%d" % v["id"])
        self.lines.append("  br label %b0")
        for block in self.p["blocks"]:
            self.lines.append("b%d:" % block["number"])
            for v in block["values"]:
                self.value(v)
        return "\n".join(self.lines + ["}"]) + "\n"


def of(module):
    """LLVM's text of a module."""
    return DECLARED + "".join(Function(p).text() for p in module)
