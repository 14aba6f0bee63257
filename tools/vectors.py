#!/usr/bin/env python3
"""vectors.py: test vectors of the program crates/vectors, made with an outside emulator.

    tools/vectors.py SEED

Needs qemu's user-mode SPARC and GNU binutils for SPARC (Debian: qemu-user and
binutils-sparc64-linux-gnu). Writes the vectors to standard output, in the form that
crates/vectors/src/case.rt states, and how many there are of each kind to standard error. The same
seed gives the same vectors: crates/vectors/stdin is what seed 8 gives.

A case is a routine of at most ten words with the start values of at most six registers and of the
codes, for the older terminal or for the newer one; the routines for the newer have branches with
prediction. The cases for the older are assembled for 32-bit V8 into one program, and run by an
emulator of V8 and by one of V9 with 32-bit addresses, which must leave the same; those for the newer
are assembled for 32-bit V9, and run by the latter. For each case a program sets the codes by a
code-setting instruction, loads all registers, calls the routine, stores all registers and reads the
codes by branches; at its end it writes all that to its standard output. The words of a vector are
those in the linked program, its results what qemu left. The run fails where a routine leaves a
register otherwise that the case does not name, the link register too.
"""
import collections
import itertools
import os
import random
import struct
import subprocess
import sys
import tempfile

sys.dont_write_bytecode = True
import script

AS = ["sparc64-linux-gnu-as", "-32"]
LD = ["sparc64-linux-gnu-ld", "-m", "elf32_sparc", "-static"]
OBJCOPY = ["sparc64-linux-gnu-objcopy", "-O", "binary", "-j", ".routines"]
# The editions, with what `as` calls them and the emulators that run their cases.
OLDER, NEWER = 8, 9
ARCHITECTURES = {OLDER: ("-Av8", ("qemu-sparc", "qemu-sparc32plus")), NEWER: ("-Av8plus", ("qemu-sparc32plus",))}

REGISTERS = ["%" + bank + str(k) for bank in "goli" for k in range(8)]
# The registers that routines use: all but %g0, %g7, the stack, the link and %fp, which has the case's block.
LINK = 15
USED = [r for r in range(32) if r not in (0, 7, 14, LINK, 30)]
PLAIN = "add and or xor sub andn orn xnor".split()
SETTING = [op + "cc" for op in PLAIN]
SHIFTS = "sll srl sra".split()
BRANCHES = "bn be ble bl bleu bcs bneg bvs ba bne bg bge bgu bcc bpos bvc".split()
CORNERS = [0, 1, 0xFFFFFFFF, 0x7FFFFFFF, 0x80000000]
NUMBERS = [0, 1, -1, 4095, -4096]
# The words of a case, and the registers that it names.
WORDS, NAMED = 10, 6
# A case's block, in bytes: 32 registers before, 32 after, and the codes.
BLOCK = 4 * 65

# How each setting of the codes NZVC is reached. No instruction of V8 sets both N and Z.
CODES = {
    0b0000: ("addcc", 1, 0),
    0b0001: ("addcc", 0xFFFFFFFF, 2),
    0b0010: ("subcc", 0x80000000, 1),
    0b0011: ("addcc", 0x80000000, 0x80000001),
    0b0100: ("addcc", 0, 0),
    0b0101: ("addcc", 0xFFFFFFFF, 1),
    0b0110: ("tsubcc", 1, 1),
    0b0111: ("addcc", 0x80000000, 0x80000000),
    0b1000: ("addcc", 0xFFFFFFFF, 0),
    0b1001: ("subcc", 0, 1),
    0b1010: ("addcc", 0x7FFFFFFF, 1),
    0b1011: ("subcc", 0x7FFFFFFF, 0xFFFFFFFF),
}

Case = collections.namedtuple("Case", "edition kind texts start codes")


def fail(message):
    raise script.Problem(message)


class Maker:
    """Makes cases at random, for one terminal and then for the other."""

    def __init__(self, seed):
        self.random = random.Random(seed)
        self.edition = OLDER
        self.cases = []

    def pick(self, things):
        return things[int(self.random.random() * len(things))]

    def word(self):
        return self.pick(CORNERS) if self.pick(range(4)) == 0 else int(self.random.random() * (1 << 32))

    def number(self):
        return self.pick(range(-4096, 4096))

    def registers(self, count):
        """Different registers."""
        left = list(USED)
        return [left.pop(int(self.random.random() * len(left))) for _ in range(count)]

    def add(self, kind, texts, start, codes=None):
        """A case with a return after the texts, unless they have one."""
        texts = list(texts) if "retl" in texts else [*texts, "retl", "nop"]
        if len(texts) > WORDS or len(start) > NAMED:
            fail("a case is too long")
        codes = self.pick(list(CODES)) if codes is None else codes
        self.cases.append(Case(self.edition, kind, texts, start, codes))

    def branch(self, cond, annul, words):
        """A branch; for the newer terminal with either hint, or without prediction."""
        return branch(cond, annul, words, self.pick((None, False, True)) if self.edition == NEWER else None)


# Single instructions.

def three(op, rs1, operand, rd):
    return f"{op} {REGISTERS[rs1]},{operand},{REGISTERS[rd]}"


def alone(make, kind, text, start):
    """An instruction before the return or in the return's slot."""
    make.add(kind, [text] if make.pick(range(3)) else ["retl", text], start)


def with_register(make, kind, op, x, y):
    a, b, c = make.registers(3)
    alone(make, kind, three(op, a, REGISTERS[b], c), {a: x, b: y, c: make.word()})


def with_number(make, kind, op, x, number):
    a, c = make.registers(2)
    alone(make, kind, three(op, a, number, c), {a: x, c: make.word()})


def in_place(make, kind, op):
    """Registers that are one, and %g0 in each place."""
    a, b = make.registers(2)
    x, y = make.word(), make.word()
    for rs1, rs2, rd in ((a, a, a), (a, b, a), (a, b, b), (a, a, b), (0, a, b), (a, 0, b), (a, b, 0), (0, 0, a), (0, a, 0)):
        alone(make, kind, three(op, rs1, REGISTERS[rs2], rd), {a: x, b: y})


def operations(make):
    for kind, ops in (("plain operation", PLAIN), ("code-setting operation", SETTING)):
        for op in ops:
            for x, y in itertools.product(CORNERS, CORNERS):
                with_register(make, kind, op, x, y)
            for x, number in itertools.product(CORNERS, NUMBERS):
                with_number(make, kind, op, x, number)
            in_place(make, kind, op)
            for _ in range(15):
                with_register(make, kind, op, make.word(), make.word())
                with_number(make, kind, op, make.word(), make.number())


def shifts(make):
    for op in SHIFTS:
        for count in range(32):
            with_number(make, "shift", op, make.word(), count)
            with_register(make, "shift", op, make.word(), count)
        for x, count in itertools.product(CORNERS, (0, 1, 31, 32, 33, 63, 0x80000000, 0xFFFFFFFF)):
            with_register(make, "shift", op, x, count)
        for x, count in itertools.product(CORNERS, (0, 1, 30, 31)):
            with_number(make, "shift", op, x, count)
        in_place(make, "shift", op)
        for _ in range(20):
            with_register(make, "shift", op, make.word(), make.word())


def sethis(make):
    numbers = [0, 1, 0x1FFFFF, 0x200000, 0x3FFFFF]
    for value in numbers + [int(make.random.random() * (1 << 22)) for _ in range(60)]:
        (a,) = make.registers(1)
        alone(make, "sethi", f"sethi {value},{REGISTERS[a]}", {a: make.word()})
    alone(make, "sethi", "sethi 77,%g0", {})


# Branches. A word that runs leaves its mark.

# What stands between a branch's name and its target, without prediction and with each hint.
HINTS = {None: " ", False: ",pn %icc,", True: ",pt %icc,"}


def branch(cond, annul, words, hint=None):
    return f"{BRANCHES[cond]}{',a' if annul else ''}{HINTS[hint]}.{4 * words:+d}"


def marks(register):
    """Words that each set a bit of a register."""
    return (three("or", register, 1 << k, register) for k in range(12))


def conditions(make, hints):
    """Each condition, annulling or not, with each of the hints, on each setting of the codes."""
    for cond, annul, hint, codes in itertools.product(range(16), (False, True), hints, CODES):
        (m,) = make.registers(1)
        a, b, c = itertools.islice(marks(m), 3)
        make.add("condition", [branch(cond, annul, 3, hint), a, b, c], {m: 0}, codes)


def comparisons(make):
    """Each condition after SUBcc of the corners, and after a code-setting instruction."""
    for cond, (x, y) in itertools.product(range(16), itertools.product(CORNERS, CORNERS)):
        for op, annul in (("subcc", make.pick((False, True))), (make.pick(SETTING), make.pick((False, True)))):
            x, y = (x, y) if op == "subcc" else (make.word(), make.word())
            p, q, m = make.registers(3)
            a, b, c = itertools.islice(marks(m), 3)
            compare = three(op, p, REGISTERS[q], make.pick((0, p)))
            make.add("condition", [compare, make.branch(cond, annul, 3), a, b, c], {p: x, q: y, m: 0})


def plain_word(make, registers, mark):
    """A marking word, or now and then one that computes or sets the codes."""
    a, b = registers
    kind = make.pick(range(8))
    if kind == 0:
        return three(make.pick(SETTING), make.pick((a, b)), REGISTERS[make.pick((a, b))], make.pick((0, a, b)))
    if kind == 1:
        return three(make.pick(PLAIN), a, make.number(), b)
    if kind == 2:
        return three(make.pick(SHIFTS), b, make.pick(range(32)), a)
    return mark


def forward(make):
    """A routine whose branches go forward, to words and to slots; no branch stands in a slot."""
    a, b, m = make.registers(3)
    size = make.pick((5, 6, 7, 8))
    mark = marks(m)
    texts = []
    while len(texts) < size:
        room = size - len(texts)
        if room > 1 and make.pick(range(5)) < 3:
            # The last target is the return.
            texts.append(make.branch(make.pick(range(16)), make.pick((False, True)), make.pick(range(1, room + 1))))
        texts.append(plain_word(make, (a, b), next(mark)))
    texts += ["retl", next(mark)]
    make.add("forward routine", texts, {a: make.word(), b: make.word(), m: 0})


def counters(m, n):
    """Words that count how often they run, at most 15 times each, in digits of two registers."""
    return (three("add", r, 16**k, r) for r in (m, n) for k in range(3))


def ended_below(make):
    """A loop with its test at the end; a branch forward may stand in it."""
    c, m, n = make.registers(3)
    count = counters(m, n)
    # The first three hold while the counter is above zero, the others for one turn more.
    again = make.pick((9, 10, 12, 11, 14, 13))
    before = [next(count)] if make.pick((0, 1)) else []
    body = [next(count)]
    if make.pick((0, 1)):
        body += [make.branch(make.pick(range(16)), make.pick((False, True)), make.pick((1, 2))), next(count)]
    body.append(three("subcc", c, 1, c))
    body += [make.branch(again, make.pick((False, True)), -len(body)), next(count)]
    after = [next(count)] if make.pick((0, 1)) else []
    make.add("loop", before + body + after + ["retl", next(count)], {c: make.pick(range(1, 6)), m: 0, n: 0})


def ended_above(make):
    """A loop with its test at the start, closed by a branch that is always taken."""
    c, m, n = make.registers(3)
    count = counters(m, n)
    # The first three hold once the counter is zero, the others a turn later.
    out = make.pick((1, 2, 4, 3, 5, 6))
    before = [next(count)] if make.pick((0, 1)) else []
    body = [three("subcc", c, 1, c), make.branch(out, make.pick((False, True)), 5), next(count), next(count)]
    body += [make.branch(8, make.pick((False, True)), -4), next(count)]
    make.add("loop", before + body + ["retl", next(count)], {c: make.pick(range(1, 6)), m: 0, n: 0})


def routines(make, forwards, loops):
    for _ in range(forwards):
        forward(make)
    for _ in range(loops):
        ended_below(make)
        ended_above(make)


# Assembling, running.

def harness(cases):
    """The program that runs all cases."""
    yield "\t.text\n\t.globl _start\n_start:\n"
    for k, case in enumerate(cases):
        op, x, y = CODES[case.codes]
        yield f"\tset {x},%g1\n\tset {y},%g2\n\t{op} %g1,%g2,%g0\n\tset block{k},%fp\n"
        yield from (f"\tld [%fp+{4 * r}],{REGISTERS[r]}\n" for r in USED)
        yield f"link{k}:\n\tcall routine{k}\n\tnop\n"
        yield from (f"\tst {REGISTERS[r]},[%fp+{128 + 4 * r}]\n" for r in [*USED, LINK])
        yield "\tmov 0,%g1\n"
        for name, bit in (("bneg", 8), ("be", 4), ("bvs", 2), ("bcs", 1)):
            yield f"\t{name} 1f\n\tmov {bit},%g2\n\tmov 0,%g2\n1:\tor %g1,%g2,%g1\n"
        yield "\tst %g1,[%fp+256]\n"
    yield "\tset blocks,%o1\n1:\tmov 1,%o0\n\tset blocks_end,%o2\n\tsub %o2,%o1,%o2\n\tmov 4,%g1\n\tta 0x10\n"
    yield "\tset blocks_end,%o2\n\tadd %o1,%o0,%o1\n\tcmp %o1,%o2\n\tblu 1b\n\tnop\n"
    yield "\tmov 0,%o0\n\tmov 1,%g1\n\tta 0x10\n"
    yield "\t.section .routines,\"ax\"\n"
    for k, case in enumerate(cases):
        padded = case.texts + ["nop"] * (WORDS - len(case.texts))
        yield f"routine{k}:\n" + "".join(f"\t{text}\n" for text in padded)
    yield "\t.data\n\t.align 8\nblocks:\n"
    for k, case in enumerate(cases):
        start = [case.start.get(r, unnamed(r)) for r in range(32)]
        start[LINK] = f"link{k}"
        yield f"block{k}:\n\t.word " + ",".join(map(str, start)) + f"\n\t.skip {BLOCK - 128}\n"
    yield "blocks_end:\n"


def unnamed(r):
    """What a register holds that a case does not name."""
    return 0xC0DE0000 + r


def run(command, **more):
    done = subprocess.run(command, capture_output=True, **more)
    if done.returncode or done.stderr:
        fail(f"{command[0]}: status {done.returncode}: {done.stderr.decode(errors='replace')[:2000]}")
    return done.stdout


def emulated(edition, cases):
    """The words of all routines, and the blocks that qemu left."""
    flag, emulators = ARCHITECTURES[edition]
    with tempfile.TemporaryDirectory() as folder:
        path = os.path.join(folder, "cases")
        with open(path + ".s", "w", encoding="utf-8") as out:
            out.writelines(harness(cases))
        run(AS + [flag, "-o", path + ".o", path + ".s"])
        run(LD + ["-o", path, path + ".o"])
        run(OBJCOPY + [path, path + ".words"])
        with open(path + ".words", "rb") as read:
            words = read.read()
        blocks = [run([emulator, path], timeout=60) for emulator in emulators]
    if any(other != blocks[0] for other in blocks):
        fail("the emulators differ")
    if len(words) != 4 * WORDS * len(cases) or len(blocks[0]) != BLOCK * len(cases):
        fail("the program is not as long as its cases")
    return struct.iter_unpack(f">{WORDS}I", words), struct.iter_unpack(f">{BLOCK // 4}I", blocks[0])


def vector(case, words, block):
    """A case's line."""
    start, end, codes = block[:32], block[32:64], block[64]
    wrong = [REGISTERS[r] for r in [*USED, LINK] if r not in case.start and end[r] != start[r]]
    if wrong:
        fail(f"{case.texts} changes {wrong}")
    named = [*case.start] + [0] * (NAMED - len(case.start))
    packed = struct.unpack(">2I", bytes([*named, case.codes, codes]))
    values = [case.start.get(r, 0) for r in named] + [end[r] if r else 0 for r in named]
    return " ".join(f"{w:08x}" for w in (*words, *packed, *values, case.edition)) + "\n"


def main(arguments):
    if len(arguments) != 1 or not arguments[0].isdecimal():
        fail("call it as `vectors.py SEED`, the seed a number; `vectors.py --help` says more")
    make = Maker(int(arguments[0]))
    operations(make)
    shifts(make)
    sethis(make)
    conditions(make, [None])
    comparisons(make)
    routines(make, 1300, 250)
    make.edition = NEWER
    conditions(make, [False, True])
    comparisons(make)
    routines(make, 400, 80)
    for edition in ARCHITECTURES:
        cases = [case for case in make.cases if case.edition == edition]
        sys.stdout.writelines(map(vector, cases, *emulated(edition, cases)))
        for kind, count in collections.Counter(case.kind for case in cases).items():
            print(f"edition {edition}: {count} {kind}", file=sys.stderr)


if __name__ == "__main__":
    script.run(main, __doc__)
