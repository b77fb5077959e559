"""Runs of procedures of an object on QEMU, with Debian's binutils for AArch64."""
import os
import shutil
import struct
import subprocess

AS, LD, QEMU = TOOLS = ("aarch64-linux-gnu-as", "aarch64-linux-gnu-ld", "qemu-aarch64")
KEPT = range(18, 30)
FIELDS = 9


def there():
    return all(shutil.which(tool) for tool in TOOLS)


def caller_text(names):
    """A program that makes a call for each row of nine words: the place of the procedure, and x0 to x7. Behind the
    call the row's second word is x0, and the third is 0 where SP and x18 to x29 are as they were."""
    loads = ["ldp x%d, x%d, [x10, #%d]" % (r, r + 1, 8 + 8 * r) for r in (0, 2, 4, 6)]
    marks = ["ldr x%d, =%#x" % (r, 0x0123456789ABCD00 + r) for r in KEPT]
    looks = ["ldr x12, =%#x\neor x12, x12, x%d\norr x11, x11, x12" % (0x0123456789ABCD00 + r, r) for r in KEPT]
    lines = [
        ".global _start\n_start:\nldr x9, =stack\nmov x10, sp\nstr x10, [x9]",
        "next:\nldr x9, =at\nldr x10, [x9]\nldr x11, =end\ncmp x10, x11\nb.eq done",
        "ldr x12, [x10]\nldr x13, =procedures\nldr x12, [x13, x12, lsl #3]",
        *loads, *marks, "mov x30, #0xf0000000\nmsr nzcv, x30\nblr x12", "mov x11, #0", *looks,
        "ldr x9, =stack\nldr x12, [x9]\nmov x13, sp\neor x12, x12, x13\norr x11, x11, x12",
        "ldr x9, =at\nldr x10, [x9]\nstp x0, x11, [x10, #8]\nadd x10, x10, #%d\nstr x10, [x9]\nb next" % (8 * FIELDS),
        "done:\nldr x1, =rows\nldr x2, =end\nsub x2, x2, x1\nmov x0, #1\nmov x8, #64\nsvc #0",
        "mov x0, #0\nmov x8, #93\nsvc #0\n.ltorg\n.data\n.balign 8\nstack: .quad 0\nat: .quad rows\nprocedures:",
        *[".quad %s" % name for name in names], 'rows: .incbin "rows"\nend:',
    ]
    return "\n".join(lines) + "\n"


def results(folder, file, calls):
    """Of each call, a name and up to eight words, x0 and what has changed of what a callee keeps; None where the
    program didn't end well."""
    names = sorted({name for name, _ in calls})
    places = {name: place for place, name in enumerate(names)}
    with open(os.path.join(folder, "f.o"), "wb") as out:
        out.write(file)
    with open(os.path.join(folder, "caller.s"), "w") as out:
        out.write(caller_text(names))
    with open(os.path.join(folder, "rows"), "wb") as out:
        for name, arguments in calls:
            out.write(struct.pack("<9Q", places[name], *arguments, *[0] * (8 - len(arguments))))
    subprocess.check_call([AS, "-o", "caller.o", "caller.s"], cwd=folder)
    subprocess.check_call([LD, "-o", "caller", "caller.o", "f.o"], cwd=folder)
    try:
        done = subprocess.run([QEMU, "./caller"], cwd=folder, capture_output=True, timeout=120)
    except subprocess.TimeoutExpired:
        return None
    if done.returncode or len(done.stdout) != 8 * FIELDS * len(calls):
        return None
    rows = struct.iter_unpack("<9Q", done.stdout)
    return [(row[1], row[2]) for row in rows]
