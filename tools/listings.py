#!/usr/bin/env python3
"""listings.py: makes the data of the program crates/listings, from an outside assembler.

    tools/listings.py

Needs GNU binutils for SPARC (Debian: binutils-sparc64-linux-gnu). Writes crates/listings/stdin, a
word to a line with the assembler text it came from, and crates/listings/stdout, what the program
must print. The data is the same at each run (fixed seed).

Each instruction is given to `as -32 -Av8`, or -Av8plus for branches with prediction, with a nop
after it, and its word is taken from the assembler's listing. The run fails, and writes nothing, where
  - the assembler reports anything;
  - a word of the listing is not the word in the object file;
  - an instruction of the subset, or one outside it that is given by name, is disassembled by
    objdump as a text from which `as` makes another word. Three differences are allowed: objdump
    leaves out a zero, so that a zero given as a number may come back as %g0; it shows `or` of a
    register and zero as `mov`, which comes back as `or` of zero and the register; and it shows
    each JMPL to %o7+8 as `retl`, whatever its rd (MISSHOWN).
Words outside the subset that no assembler text gives are given by `.word`.

A line is `WORD TEXT` for a word that both terminals read, `WORD V9 TEXT` for one that only the newer one
reads and the older one refuses with 2. For one that both refuse it is `WORD !NUMBER TEXT`, with the number
that the reader must give: 24 for V8's privileged instructions, 2 for all others. The run fails, too,
where the opcodes that the assembler gives to the privileged names are not those of assembly.PRIVILEGED.
"""
import collections
import os
import random
import re
import subprocess
import sys
import tempfile

sys.dont_write_bytecode = True
import assembly
import script

AS = ["sparc64-linux-gnu-as", "-32"]
OBJDUMP = ["sparc64-linux-gnu-objdump", "-d", "-z"]
# The architectures, as `as` and objdump name them.
OLDER, NEWER = ("-Av8", "sparc"), ("-Av8plus", "sparc:v8plus")
CRATE = os.path.join(os.path.dirname(os.path.abspath(__file__)), "..", "crates", "listings")
NOP = 0x01000000

REGISTERS = ["%" + bank + str(k) for bank in "goli" for k in range(8)]
ALU = [op + cc for cc in ("", "cc") for op in "add and or xor sub andn orn xnor".split()]
SHIFTS = "sll srl sra".split()
LOADS = "ld ldub lduh ldsb ldsh".split()
STORES = "st stb sth".split()
CONDITIONS = "bn be ble bl bleu bcs bneg bvs ba bne bg bge bgu bcc bpos bvc".split()
SIMM13 = [-4096, -4095, -1, 0, 1, 4094, 4095]
# Texts whose word objdump shows as another instruction, with what it shows.
MISSHOWN = {"jmpl %o7+8,%g1": "retl"}
# The numbers of a word that is refused.
NOT_READ, IS_PRIVILEGED = 2, 24
# Branch distances in words.
FAR = [2, -1, 2097151, -2097152]
DISTANCES = [0, 1, -1, 2, -2, 3, 127, -128, 65535, -65536, 1048575, 1048576, -1048577, 2097150, 2097151, -2097151, -2097152]
# Those of branches with prediction.
PREDICTED_FAR = [0, 2, -1, 262143, -262144]
PREDICTED_DISTANCES = [1, -2, 3, 127, -128, 65535, -65536, 131071, 131072, -131073, 262142, -262143]
# Bits 21:20 of a branch with prediction, which say the codes that it tests: 00 %icc, 10 %xcc, the others none.
CODES_AT, XCC, NO_CODES = 20, 2, (1, 3)


def fail(message):
    raise script.Problem(message)


# The texts of the subset, in the canonical form that the program prints.

def reg(n):
    return REGISTERS[n % 32]


def three(op, rs1, operand, rd):
    return f"{op} {reg(rs1)},{operand},{reg(rd)}"


def address(rs1, displacement):
    return f"[{reg(rs1)}{displacement}]"


def memory(op, rd, where):
    return f"{op} {reg(rd)},{where}" if op in STORES else f"{op} {where},{reg(rd)}"


def branch(cond, annul, words):
    return f"{CONDITIONS[cond]}{',a' if annul else ''} .{4 * words:+d}"


def predicted(cond, annul, hint, words, codes="%icc"):
    return f"{CONDITIONS[cond]}{',a' if annul else ''},{'pt' if hint else 'pn'} {codes},.{4 * words:+d}"


def operations():
    """Every opcode, with a register and with the numbers at the edges."""
    for k, op in enumerate(ALU):
        yield three(op, k + 1, reg(k + 9), k + 17)
        yield from (three(op, k + 3, v, k + 5) for v in SIMM13)
    for k, op in enumerate(SHIFTS):
        yield three(op, k + 1, reg(k + 9), k + 17)
        yield from (three(op, k + 3, v, k + 5) for v in (0, 1, 2, 16, 30, 31))
    for k, op in enumerate(LOADS + STORES):
        yield memory(op, k + 1, address(k + 9, "+" + reg(k + 17)))
        yield from (memory(op, k + 3, address(k + 8, f"{v:+d}")) for v in SIMM13 + [-4, 4, 29])


def registers():
    """Every register in each place of each format."""
    for r in range(32):
        yield three(ALU[r % 16], r, reg(r + 11), r + 22)
        yield three(SHIFTS[r % 3], r, reg(r + 11), r + 22)
        yield memory(LOADS[r % 5], r + 22, address(r, "+" + reg(r + 11)))
        yield memory(STORES[r % 3], r + 22, address(r, "+" + reg(r + 11)))
        yield f"sethi {r},{reg(r)}"


def sethi_and_branches():
    yield "retl"
    for imm22 in (0, 1, 0x200000, 0x3FFFFF):
        yield from (f"sethi {imm22},{reg(rd)}" for rd in (0, 1, 31))
    for cond in range(16):
        yield from (branch(cond, annul, words) for annul in (False, True) for words in FAR)
    for words in DISTANCES:
        yield branch(8, False, words)
        yield branch(9, True, words)


def at_random(pick, count):
    def simm13():
        return pick(8192) - 4096

    for _ in range(count):
        a, b, c = pick(32), pick(32), pick(32)
        kind = pick(8)
        if kind < 3:
            yield three(ALU[pick(16)], a, reg(b) if pick(2) else simm13(), c)
        elif kind == 3:
            yield three(SHIFTS[pick(3)], a, reg(b) if pick(2) else pick(32), c)
        elif kind < 6:
            yield memory((LOADS + STORES)[pick(8)], a, address(b, "+" + reg(c) if pick(2) else f"{simm13():+d}"))
        elif kind == 6:
            yield f"sethi {pick(1 << 22)},{reg(a)}"
        else:
            yield branch(pick(16), pick(2), pick(1 << 22) - (1 << 21))


# The texts that only the newer terminal reads.

def predictions(pick, count):
    """Every condition, annulling or not, with both hints and the distances at the edges; and some at random."""
    flags = [(annul, hint) for annul in (False, True) for hint in (False, True)]
    for cond in range(16):
        yield from (predicted(cond, *flag, words) for flag in flags for words in PREDICTED_FAR)
    for words in PREDICTED_DISTANCES:
        yield from (predicted(cond, *flag, words) for cond in (8, 9) for flag in flags)
    for _ in range(count):
        yield predicted(pick(16), pick(2), pick(2), pick(1 << 19) - (1 << 18))


# The texts outside the subset.

def other_codes():
    """Branches with prediction on %xcc."""
    yield from (predicted(cond, cond % 2, cond // 2 % 2, PREDICTED_FAR[cond % 5], "%xcc") for cond in range(16))

def named_outside():
    """Instructions of V8 that are not of the subset, by their names."""
    for op in "ldd ldstub swap".split():
        yield from (f"{op} {where},%g2" for where in ("[%o0]", "[%o0+8]", "[%o0+%g1]"))
    yield from (f"std %g2,{where}" for where in ("[%o1]", "[%o0+8]", "[%o0+%g1]"))
    for f in ("%f2", "%fsr", "%c2", "%csr"):
        yield f"ld [%o0+4],{f}"
        yield f"st {f},[%o0+4]"
    yield from ("ldd [%o0],%f2", "ldd [%o0],%c2")
    yield from (f"std {f},[%o0]" for f in ("%f2", "%c2"))
    yield from ("call .+8", "call .-8", "call .+2147483644", "call %g1")
    for k in range(0, 16, 3):
        yield "fbn fbne fblg fbul fbl fbug fbg fbu fba fbe fbue fbge fbuge fble fbule fbo".split()[k] + " .+8"
        yield "cbn cb123 cb12 cb13 cb1 cb23 cb2 cb3 cba cb0 cb03 cb02 cb023 cb01 cb013 cb012".split()[k] + ",a .-8"
    yield from ("unimp 0", "unimp 77", "unimp 2097151")
    for op in "addx subx umul smul udiv sdiv".split():
        yield from (f"{op}{cc} {operands}" for cc, operands in (("", "%g1,%g2,%g3"), ("cc", "%g1,-5,%g3")))
    for op in "mulscc taddcc taddcctv tsubcc tsubcctv save restore".split():
        yield from (f"{op} {operands}" for operands in ("%g1,%g2,%g3", "%g1,-96,%g3"))
    yield from (f"rd {r},%g1" for r in ("%y", "%asr17"))
    yield from (f"wr %g1,{x},{r}" for r in ("%y", "%asr17") for x in ("%g2", "5"))
    yield "stbar"
    yield from ("ta 3", "tn 3", "te %g1+5", "tne %g1+%g2", "tvc %g1+%g2")
    yield from ("jmp %o7+12", "jmp %o7+4", "ret", "jmp %g1", "jmp %g1+%g2", "jmpl %g1+8,%o7", "jmpl %o7+8,%g1")
    yield from ("flush %g1+4", "flush %g1+%g2")
    yield from ("fadds %f0,%f1,%f2", "fmuld %f0,%f2,%f4", "fmovs %f0,%f1", "fitos %f1,%f2", "fsqrtd %f2,%f4", "fcmps %f0,%f1", "fcmped %f2,%f4")


def named_privileged():
    """V8's privileged instructions, by their names."""
    yield from (f"rd {r},{to}" for r in ("%psr", "%wim", "%tbr") for to in ("%g1", "%i7"))
    yield from (f"wr %g1,{x},{r}" for r in ("%psr", "%wim", "%tbr") for x in ("%g2", "5", "-1"))
    yield from (f"rett {where}" for where in ("%l2+4", "%i7+8", "%l1+%l2"))
    for op in "lda lduba lduha ldsba ldsha ldda ldstuba swapa".split():
        yield from (f"{op} {where},%g2" for where in ("[%o0+%g1]10", "[%i0]255"))
    for op in "sta stba stha stda".split():
        yield from (f"{op} %g2,{where}" for where in ("[%o0+%g1]10", "[%i0]255"))
    yield from (f"std {q},{where}" for q in ("%fq", "%cq") for where in ("[%o0]", "[%o0+8]"))


def format3(op, rd, op3, rs1, low):
    return op << 30 | rd << 25 | op3 << 19 | rs1 << 14 | low


def raw_outside():
    """Words near the subset: a bit that must be zero, an opcode or an op2 that is not read."""
    alu, loads, stores = [*range(0x00, 0x08), *range(0x10, 0x18)], [0x00, 0x01, 0x02, 0x09, 0x0A], [0x04, 0x05, 0x06]
    shifts = [0x25, 0x26, 0x27]
    for k, bit in enumerate(range(5, 13)):
        yield format3(2, 1, alu[k], 2, 1 << bit | 3)
        yield format3(2, 1, alu[k + 8], 2, 1 << bit | 3)
        yield format3(2, 1, shifts[k % 3], 2, 1 << bit | 3)
        yield format3(2, 1, shifts[(k + 1) % 3], 2, 1 << 13 | 1 << bit | 3)
        yield format3(3, 1, loads[k % 5], 2, 1 << bit | 3)
        yield format3(3, 1, stores[k % 3], 2, 1 << bit | 3)
    for k, op3 in enumerate(x for x in range(64) if x not in alu + shifts + [0x38]):
        yield format3(2, 1, op3, 2, (k % 2) << 13 | 3)
    for k, op3 in enumerate(x for x in range(64) if x not in loads + stores):
        yield format3(3, 1, op3, 2, (k % 2) << 13 | 3)
    for op2 in (0, 1, 3, 5, 6, 7):
        # With op2 1 and the rest 0 it is a branch with prediction.
        yield from (1 << 25 | op2 << 22 | low for low in (0, 0x3FFFFF) if (op2, low) != (1, 0))
    yield from (0x40000000, 0x40800002, 0x41000000, 0x5FFFFFFF, 0x60000000, 0x7FFFFFFF)
    yield from (0x81C3E008 ^ 1 << bit for bit in range(32))


def number_of(word):
    """The number of a word that is refused."""
    return IS_PRIVILEGED if assembly.opcode_of(word) in assembly.PRIVILEGED else NOT_READ


# The assembler and the disassembler.

def run(command):
    done = subprocess.run(command, capture_output=True, encoding="utf-8", errors="replace")
    if done.returncode or done.stderr:
        fail(" ".join(command) + ": " + done.stderr)
    return done.stdout


def disassembled(path, machine):
    """The words of an object file, each with its address and text."""
    rows = re.findall(r"^ *([0-9a-f]+):\t((?:[0-9a-f]{2} ){4})\t?(.*)$", run(OBJDUMP + ["-m", machine, path]), flags=re.M)
    return [(int(at, 16), int(word.replace(" ", ""), 16), text.strip()) for at, word, text in rows]


def assembled(texts, architecture=OLDER):
    """The word that `as` makes of each text, from its listing, and objdump's address and text of it."""
    flag, machine = architecture
    source = "".join(f"\t{text}\n\tnop\n" for text in texts)
    with tempfile.TemporaryDirectory() as folder:
        path = os.path.join(folder, "words")
        with open(path + ".s", "w", encoding="utf-8") as out:
            out.write(source)
        listing = run(AS + [flag, "-aln", "-o", path + ".o", path + ".s"])
        objects = disassembled(path + ".o", machine)
    rows = re.findall(r"^ *\d+ [0-9a-f?]+ ([0-9A-F]{8}) *\t\t(.*)$", listing, flags=re.M)
    given = [line for text in texts for line in (text, "nop")]
    if [text for _, text in rows] != given:
        fail("the assembler's listing does not have the lines that were given")
    words = [int(word, 16) for word, _ in rows]
    if words != [word for _, word, _ in objects]:
        fail("the listing and the object file differ")
    if set(words[1::2]) != {NOP}:
        fail("a nop is not assembled as one")
    return [(word, at, text) for word, (at, _, text) in zip(words, objects)][::2]


def from_here(at, text):
    """objdump's text with a branch's or a call's target, an address, made relative."""
    found = re.fullmatch(r"((?:b|fb|cb|call)[a-z0-9]*(?:,a)?(?:,pn)?)\s+(%[ix]cc, )?(0x[0-9a-f]+|[0-9a-f]+)(?: <.*>)?", text)
    if not found:
        return text
    name, codes, target = found.groups(default="")
    distance = (int(target, 16) - at + (1 << 31)) % (1 << 32) - (1 << 31)
    return f"{name} {codes}.{distance:+d}"


def plain(word):
    """A word in the form that `as` makes of objdump's text, where that leaves out a zero."""
    if word >> 31 and word & 0x3FFF == 0x2000:
        word &= ~0x2000
    rs1 = word >> 14 & 31
    if word & 0xC1F83FFF == 0x80100000:
        return word & ~(31 << 14) | rs1
    return word


def cross_check(texts, made, architecture=OLDER):
    """objdump's text of each word gives the word again."""
    again = assembled([from_here(at, text) for _, at, text in made], architecture)
    wrong = [
        f"{text}: {word:08x}, disassembled as {shown}, assembled as {back:08x}"
        for text, (word, _, shown), (back, _, _) in zip(texts, made, again)
        if plain(word) != plain(back) and MISSHOWN.get(text) != shown
    ]
    if wrong:
        fail("as and objdump disagree:\n" + "\n".join(wrong))


def made(texts, architecture=OLDER):
    """The words of texts, each with its text; objdump's text of a word gives the word again."""
    texts = list(dict.fromkeys(texts))
    rows = assembled(texts, architecture)
    cross_check(texts, rows, architecture)
    return [(word, text) for text, (word, _, _) in zip(texts, rows)]


def raw(words):
    """Words that are given by `.word`, each with that text."""
    texts = [f".word 0x{word:08x}" for word in words]
    return [(word, text) for text, (word, _, _) in zip(texts, assembled(texts))]


def outside():
    """The words that both terminals refuse."""
    privileged = made(named_privileged())
    if {assembly.opcode_of(word) for word, _ in privileged} != set(assembly.PRIVILEGED):
        fail("the privileged names have other opcodes")
    opcodes = [*assembly.PRIVILEGED, *assembly.BESIDE_PRIVILEGED]
    near = raw((*raw_outside(), *(word for opcode in opcodes for word in assembly.opcode_words(opcode))))
    xcc = made(other_codes(), NEWER)
    no_codes = raw(word ^ (XCC ^ codes) << CODES_AT for word, _ in xcc for codes in NO_CODES)
    return [*made(named_outside()), *privileged, *near, *xcc, *no_codes]


def main(arguments):
    if arguments:
        fail("call it as `listings.py`, with no arguments")
    rng = random.Random(8)

    def pick(n):
        return int(rng.random() * n)

    both = made([*operations(), *registers(), *sethi_and_branches(), *at_random(pick, 320)])
    newer = made(predictions(pick, 60), NEWER)
    read = dict(both) | {word: f"V9 {text}" for word, text in newer}
    if len(read) != len(both) + len(newer):
        fail("two texts of the subset are one word")
    refused = {}
    for word, text in outside():
        if word in read:
            fail(f"{text} is {read[word]}, which is of the subset")
        refused.setdefault(word, f"!{number_of(word)} {text}")
    lines = dict(both) | refused | read
    numbers = collections.Counter(map(number_of, refused))
    with open(os.path.join(CRATE, "stdin"), "w", encoding="utf-8") as out:
        out.writelines(f"{word:08x} {text}\n" for word, text in lines.items())
    with open(os.path.join(CRATE, "stdout"), "w", encoding="utf-8") as out:
        out.write(f"{len(lines)} words: {len(both)} read and written back, {len(newer)} on the newer terminal alone, "
                  f"{numbers[NOT_READ]} not read, {numbers[IS_PRIVILEGED]} privileged, 0 wrong\n")


if __name__ == "__main__":
    script.run(main, __doc__)
