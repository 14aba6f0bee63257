"""kindcases.py: routines made for the program crates/tables, each for one rule of the listing of kinds.

Each case has a name that says what it is about. Those that are short have what requests 2 and 4 to 7 of document 02 give, written
down here: the answer, or a text of marks. This has for each word the marks of r0 to r7 as digits, or `-` if the word is not
reached; r8 to r31 are at each word that is reached as in the entry row, the frame address as unset. A longer one has None, and what it gives is what
tools/plain/kinds.c gives.

A case is for one terminal, the older one unless it is told. The entry row is ENTRY unless it is told: r1 a number, r2 an address, r3 an address or null, r4 a return address, r5 unset,
r6 a number and r7 an address, so that what r6 or r7 is given can be seen.
"""
from collections import namedtuple

import cases
import layout
from cases import ALWAYS, EQUAL, LESS, NEVER, branch, predicted, sethi, word
from framecases import FRAMES_WITH_MORE, SCRATCH, SET_AT_ENTRY
from parts import NOP, RETURN
from script import NEWER, OLDER

# A policy is the number of its regions and a list of them; a region is its size, how many fields it has, and the fields.
Policy = namedtuple("Policy", "count regions")
# What is expected is (answer, marks): no marks on a refusal, or None if the marks are those of the plain program.
Case = namedtuple("Case", "name policy entry words length expected edition", defaults=[OLDER])

TABLE, MARKS, WORDS = 4096, 32, 128
ACCEPTED = "0 0 0"
FIELD = (1, layout.BOTH, 0, 0, 30, 32, 126)
POLICY = Policy(2, [(32, 1, [FIELD]), (64, 0, [])])
KNOWN = {1: cases.number(3, 9), 2: cases.start(), 3: cases.null_or(1), 4: cases.BACK, 6: cases.FULL, 7: cases.at(8, 16, 8)}
ENTRY = cases.spell(KNOWN)
FIRST = "11234512"
LD_ALTERNATE, CALL = 0xC4820141, 0x40000000
END = [RETURN, NOP]


def marks_of(text, entry):
    """The marks that a text stands for."""
    rest = [layout.ENTRY.unpack_from(entry, layout.ENTRY.size * r)[0] or 5 for r in range(8, MARKS)]
    rows = [[0] * MARKS if digits == "-" else [int(digit) for digit in digits] + rest for digits in text.split()]
    return bytes(mark for row in rows for mark in row)


def listed(name, words, text, known=None):
    """A routine that is accepted, with the text of its marks, or None."""
    entry = ENTRY if known is None else cases.spell(known)
    return Case(name, POLICY, entry, words, TABLE, (ACCEPTED, None if text is None else marks_of(text, entry)))


def refused(name, answer, words=END, policy=POLICY, entry=ENTRY, length=TABLE):
    return Case(name, policy, entry, words, length, (answer, b""))


def one_after_another(name, steps):
    """Steps are (mark, instruction, rs1, second operand): each instruction gives r6 that mark. r6 is an address or null before
    each, and unset before one that makes it that, so that it is seen to be written."""
    words, marks = [], ["1"]
    for mark, operation, rs1, second in steps:
        words += [word("or", 6, 0, "r5" if mark == 3 else "r3"), word(operation, 6, rs1, second)]
        marks += ["5" if mark == 3 else "3", str(mark)]
    return listed(name, words + END, " ".join(f"{FIRST[:6]}{mark}{FIRST[7]}" for mark in marks + marks[-1:]))


# One word

def copies():
    yield one_after_another("copies", [
        (mark, operation, *operands) for mark in (1, 2, 3, 4, 5) for operation in ("or", "orcc") for operands in ((mark, "r0"), (0, f"r{mark}"))])
    yield one_after_another("no-copies", [
        (5, "or", 2, 0), (5, "or", 3, 0), (5, "or", 4, 0), (5, "orcc", 2, 0), (5, "or", 2, 32), (5, "or", 2, "r1"), (5, "or", 1, "r2"),
        (5, "orn", 2, "r0"), (5, "orn", 0, "r2"), (5, "xor", 2, "r0"), (5, "xor", 0, "r2"), (5, "and", 2, "r0"), (5, "andn", 2, "r0"),
        (5, "xnor", 0, "r2"), (5, "or", 2, "r2"), (1, "or", 0, "r0"), (1, "or", 0, 7), (1, "or", 1, 0)])


def sums():
    for kind in "", "cc":
        yield one_after_another("sums" + kind, [
            (2, "add" + kind, 2, "r1"), (2, "add" + kind, 1, "r2"), (2, "add" + kind, 2, -4), (2, "add" + kind, 0, "r2"), (5, "add" + kind, 2, "r7"),
            (5, "add" + kind, 3, 0), (5, "add" + kind, 3, "r0"), (5, "add" + kind, 0, "r3"), (5, "add" + kind, 4, "r0"), (5, "add" + kind, 5, "r1"),
            (5, "add" + kind, 1, "r5"), (5, "add" + kind, 2, "r5"), (5, "add" + kind, 5, "r2")])
        yield one_after_another("differences" + kind, [
            (2, "sub" + kind, 2, "r1"), (5, "sub" + kind, 1, "r2"), (2, "sub" + kind, 2, 0), (2, "sub" + kind, 2, "r0"), (5, "sub" + kind, 0, "r2"),
            (5, "sub" + kind, 7, "r2"), (5, "sub" + kind, 3, 0), (5, "sub" + kind, 3, "r0"), (5, "sub" + kind, 4, 0), (5, "sub" + kind, 4, "r0"),
            (5, "sub" + kind, 5, "r1"), (5, "sub" + kind, 1, "r5"), (5, "sub" + kind, 2, "r5")])


def numbers():
    plain = ["add", "and", "or", "xor", "sub", "andn", "orn", "xnor"]
    shifts = ["sll", "srl", "sra"]
    yield one_after_another("of-numbers", [
        (mark, operation, *operands) for operation in plain + shifts
        for mark, operands in ((1, (1, "r1")), (1, (1, 3)), (5, (1, "r5")), (5, (5, 3)))])
    yield one_after_another("shifts", [
        (5, operation, *operands) for operation in shifts for operands in ((2, 0), (2, "r0"), (1, "r2"), (3, "r0"), (4, 0))])
    yield listed("sethi", [sethi(7, 5)] + END, f"{FIRST} 11234511 11234511")
    yield listed("sethi-r15", [sethi(15, 5)] + END, None)


def accesses():
    yield one_after_another("loads", [
        *((1, operation, *operands) for operation in ("ldub", "lduh", "ldsb", "ldsh") for operands in ((2, 0), (5, "r5"), (3, "r4"))),
        (5, "ld", 2, 0), (5, "ld", 1, "r1"), (5, "ld", 5, "r5")])
    yield listed("stores", [word(operation, 7, 2, 0) for operation in ("st", "stb", "sth")] + END, " ".join([FIRST] * 5))
    yield listed("into-r0", [word("add", 0, 2, 4), word("or", 0, 0, "r3"), word("ld", 0, 2, 0), word("or", 6, 0, "r0")] + END, " ".join([FIRST] * 6))


def every_pair():
    """Arithmetic, logic and shift instructions on operands of every mark, in as many routines as they need."""
    operations = [name for name, (form, _) in cases.OPCODES.items() if form == 2 and name not in ("andcc", "xorcc", "andncc", "orncc", "xnorcc")]
    registers = [f"r{register}" for register in range(6)]
    words = [word(operation, 6, rs1, second) for operation in operations for rs1 in range(6)
             for second in registers + [0, 31 if operation in ("sll", "srl", "sra") else 32]]
    most = WORDS - len(END)
    for at in range(0, len(words), most):
        yield listed(f"pairs-{at}", words[at:at + most] + END, None)


# Edges and slots

def flows():
    copy = word("or", 6, 0, "r2")
    yield listed("return-and-words-behind", END + [sethi(1, 1)] + END, f"{FIRST} {FIRST} - - -")
    yield listed("slot-of-return-shows-before", [RETURN, copy], f"{FIRST} {FIRST}")
    yield listed("ba", [branch(ALWAYS, 3), copy, copy] + END, f"{FIRST} {FIRST} - 11234522 11234522")
    yield listed("ba-a", [branch(ALWAYS, 3, True), copy, copy] + END, f"{FIRST} {FIRST} - {FIRST} {FIRST}")
    yield listed("bn", [branch(NEVER, -9), copy] + END, f"{FIRST} {FIRST} 11234522 11234522")
    yield listed("bn-a", [branch(NEVER, 99, True), copy] + END, f"{FIRST} {FIRST} {FIRST} {FIRST}")
    yield listed("be", [branch(EQUAL, 4), copy] + END + END,
                 f"{FIRST} {FIRST} 11234522 11234522 11234522 11234522")
    yield listed("be-a", [branch(EQUAL, 4, True), copy] + END + END,
                 f"{FIRST} {FIRST} {FIRST} {FIRST} 11234522 11234522")
    yield listed("be-to-the-word-after-its-slot", [branch(EQUAL, 2, True), copy] + END, f"{FIRST} {FIRST} 11234552 11234552")
    for annul in False, True:
        for first in 0, 8:
            each = [[branch(first + k, 3, annul), word("or", register, 0, "r2"), NOP] for k, register in enumerate(EIGHT)]
            yield listed(f"conditions-{annul:d}-from-{first}", [one for three in each for one in three] + END, None)
    yield listed("return-without-return-mark", [word("or", 15, 0, 1)] + END, None)
    yield listed("store-in-slot", [branch(ALWAYS, 2), word("st", 6, 2, 0)] + END, " ".join([FIRST] * 4))


def landings():
    """Branches into slots. In most of them r6 is made an address or null on the edge into word 3, the slot of word 2, which copies it
    to r7."""
    give, copy = word("or", 6, 0, "r3"), word("or", 7, 0, "r6")
    met, given = "11234552 11234555 11234555", "11234532 11234533 11234533"
    into = [branch(EQUAL, 3, True), give]
    yield listed("slot-landed-on", into + [branch(ALWAYS, 4), copy] + END + END, f"{FIRST} {FIRST} {FIRST} {met} 11234511 11234511")
    yield listed("slot-of-ba-a-landed-on", into + [branch(ALWAYS, 4, True), copy] + END + END, f"{FIRST} {FIRST} {FIRST} {met} {FIRST} {FIRST}")
    yield listed("slot-of-be-landed-on", into + [branch(EQUAL, 4), copy] + END + END, f"{FIRST} {FIRST} {FIRST} {met} 11234511 11234511")
    yield listed("slot-of-bn-a-landed-on", into + [branch(NEVER, 0, True), copy] + END, f"{FIRST} {FIRST} {FIRST} {met}")
    yield listed("slot-of-return-landed-on", into + [RETURN, copy] + END, f"{FIRST} {FIRST} {FIRST} {met}")
    for name, transfer in ("branch", branch(ALWAYS, 4)), ("return", RETURN):
        words = [branch(ALWAYS, 3), give, transfer, copy] + END + END
        yield listed(f"slot-of-an-unreached-{name}-landed-on", words, f"{FIRST} {FIRST} - {given} - -")
    back = [branch(ALWAYS, 4, True), copy] + END + END + [branch(ALWAYS, -5, True), NOP]
    yield listed("slot-landed-on-by-an-unreached-branch", back, f"{FIRST} {FIRST} 11234511 11234511 {FIRST} {FIRST} - -")
    words = [branch(NEVER, 3), NOP, branch(ALWAYS, 4), copy] + END + END
    yield listed("slot-named-by-bn", words, f"{FIRST} {FIRST} {FIRST} {FIRST} - - 11234511 11234511")
    # A slot that is landed on by its own branch is run a second time.
    total = word("add", 6, 6, "r2")
    yield listed("own-slot", [branch(ALWAYS, 1), copy] + END, f"{FIRST} 11234515 11234511 11234511")
    yield listed("own-slot-of-ba-a", [branch(ALWAYS, 1, True), copy] + END, f"{FIRST} {FIRST} 11234511 11234511")
    yield listed("own-slot-of-be", [branch(EQUAL, 1), total] + END, f"{FIRST} {' '.join(['11234552'] * 3)}")
    yield listed("own-slot-of-be-a", [branch(EQUAL, 1, True), copy] + END, f"{FIRST} 11234515 11234515 11234515")
    # An edge from behind raises the slot, which passes this on; the edge of its transfer to word 6 stays as it was.
    yield listed("slot-landed-on-from-behind", [branch(EQUAL, 6, True), copy, NOP, give, branch(ALWAYS, -3), NOP] + END,
                 f"{FIRST} 11234555 11234555 11234555 11234535 11234535 11234511 11234511")
    # Each slot makes a register unset, if its branch can be taken.
    for annul in False, True:
        for first in 0, 8:
            each = [[branch(first + k, 3, annul), NOP, branch(ALWAYS, 2, True), word("or", register, 0, "r1")] for k, register in enumerate(EIGHT)]
            yield listed(f"conditions-that-land-{annul:d}-from-{first}", [one for four in each for one in four] + END, None, NUMBERS)
    longest = [branch(EQUAL, WORDS - 3, True), give] + [NOP] * (WORDS - 6) + [RETURN, copy] + END
    yield listed("last-slot-that-may-be-landed-on", longest, f"{' '.join([FIRST] * (WORDS - 3))} {met}")


NUMBERS = {register: cases.FULL for register in range(2, MARKS)}
# Eight registers that a word may write; and all of these but r1, each with the one before it.
EIGHT = [6, 8, 9, 10, 11, 12, 13, 15]
CHAIN = [*zip([*range(2, 14), 15], range(1, 14))]


def many_rounds():
    """As many words as there may be, in a loop that is passed through 14 times: with r1 unset and all others numbers, each round
    makes one register more unset."""
    copies = [word("or", register, 0, f"r{before}") for register, before in reversed(CHAIN)]
    body = copies + [NOP] * (WORDS - len(copies) - 4)
    return body + [branch(EQUAL, -len(body)), NOP] + END


def backward_blocks():
    """Blocks that are run from the last to the first, in a loop: each has a copy, and each round makes more registers unset."""
    most = (WORDS - 4) // 3
    copies = [word("or", register, 0, f"r{before}") for register, before in (CHAIN * 4)[:most]]
    into_last = branch(ALWAYS, 3 * most - 1)
    blocks = [one for k in range(1, most) for one in (copies[k], branch(ALWAYS, -4), NOP)]
    return [into_last, NOP, copies[0], branch(EQUAL, 3 * most - 4), NOP] + blocks + END


def branches_back():
    """Many branches back to the first words, each over a slot that makes another register unset."""
    most, first = 45, 30
    back = [one for k in range(most) for one in (branch(EQUAL, k % first - first - 2 * k), word("or", CHAIN[k % len(CHAIN)][0], 0, "r1"))]
    return [NOP] * first + back + END


def ordinary():
    """Adds up the bytes of a field that has a zero at its end."""
    return [word("or", 9, 0, 0), word("or", 8, 0, 0), word("ldub", 10, 2, "r9"), word("subcc", 0, 10, 0), branch(EQUAL, 6), word("add", 8, 8, "r10"),
            word("add", 9, 9, 1), word("subcc", 0, 9, 30), branch(LESS, -6), NOP] + END


def measured():
    """Routines that the listing is measured on. The first has nearly the most raises that there can be."""
    yield listed("listing, 128 words, 14 rounds", many_rounds(), None, NUMBERS)
    yield listed("listing, 41 blocks from the last to the first", backward_blocks(), None, NUMBERS)
    yield listed("listing, 45 branches back", branches_back(), None, NUMBERS)
    yield listed("listing, a loop of 12 words", ordinary(), None)


def loops():
    """Marks that meet: an edge back raises words that were passed before."""
    yield listed("back-to-word-0", [word("or", 6, 0, "r7"), branch(EQUAL, -1), word("or", 7, 0, "r1")] + END,
                 "11234555 11234555 11234555 11234551 11234551")
    yield listed("back-to-word-0-alone", [branch(LESS, 0), sethi(2, 0)] + END, "11534512 11534512 11134512 11134512")
    yield listed("same-mark-meets", [branch(EQUAL, 0), word("add", 2, 2, 4)] + END, " ".join([FIRST] * 4))
    yield listed("many-rounds", many_rounds(), None, NUMBERS)
    # Each loop inside raises the one around it, which is passed again.
    deep = len(CHAIN)
    nest = [NOP] * deep + [one for k, (register, before) in enumerate(CHAIN) for one in (branch(EQUAL, -(deep + k)), word("or", register, 0, f"r{before}"))]
    yield listed("nested-loops", nest + END, None, NUMBERS)
    behind = [branch(EQUAL, 6), NOP, word("or", 7, 0, "r3"), branch(ALWAYS, 3), NOP, NOP, NOP]
    yield listed("meeting-behind-an-unreached-word", behind + END, f"{FIRST} {FIRST} {FIRST} 11234513 11234513 - 11234515 11234515 11234515")
    # On each way the sum is an address, but its operands meet before it is made.
    ways = [branch(EQUAL, 6), NOP, word("or", 6, 0, "r2"), word("or", 7, 0, "r1"), branch(ALWAYS, 2), NOP, word("add", 1, 6, "r7")]
    yield listed("sum-of-operands-that-meet", ways + END,
                 f"{FIRST} {FIRST} {FIRST} 11234522 11234521 11234521 11234555 15234555 15234555")


def meetings():
    """Any two marks meet, each pair in a register of its own."""
    pairs = [(first, second) for first in range(1, 6) for second in range(first, 6)]
    for part in 0, 8:
        held = list(zip(EIGHT, pairs[part:]))
        before, after = ([word("or", register, 0, f"r{pair[way]}") for register, pair in held] for way in (0, 1))
        forth = before + [branch(EQUAL, 2 + len(after)), NOP] + after + END
        back = after + [branch(EQUAL, 2 + len(before)), NOP] + before + END
        yield listed(f"meetings-{part}", forth, None)
        yield listed(f"meetings-the-other-way-{part}", back, None)
    for first, second in (1, 2), (2, 3), (4, 1):
        words = [word("or", 6, 0, f"r{first}"), word("or", 7, 0, f"r{second}"), branch(EQUAL, 4), NOP,
                 word("or", 6, 0, f"r{second}"), word("or", 7, 0, f"r{first}")]
        pairs = ["12", f"{first}2", *[f"{first}{second}"] * 3, f"{second}{second}", "55", "55"]
        yield listed(f"meet-{first}-{second}", words + END, " ".join(FIRST[:6] + pair for pair in pairs))


# Refusals

def lengths():
    for length in 0, 1, 32, 64, 4095, 4097:
        yield refused(f"table-{length}", "21 0 0", length=length)
    for size in 0, 391, 392, 393, 463, 465, 536:
        yield refused(f"entry-of-{size}", "21 0 0", entry=(ENTRY + bytes(100))[:size])
    yield refused("entry-without-scratch-words", "21 0 0", entry=cases.spell(KNOWN, layout.BEFORE_SCRATCH))
    yield refused("no-words", "21 0 0", [])
    yield refused("words-129", "21 0 0", [NOP] * 127 + END)
    yield listed("words-128", [NOP] * 126 + [branch(ALWAYS, -126), word("or", 6, 0, "r2")], " ".join(["11234552"] * 128))
    yield listed("entry-of-each-mark", END, f"{FIRST} {FIRST}")
    yield listed("entry-unset", END, "15555555 15555555", {15: cases.NONE})


def forms():
    for name, register, entry in [("r0-unset", 0, cases.NONE), ("r0-not-0", 0, cases.number(1, 1)), ("kind-5", 9, cases.entry(5)),
                                  ("region-2", 9, cases.start(2)), ("step-of-unset", 31, cases.entry(0, 0, 8))]:
        yield refused(f"entry-{name}", "21 0 0", entry=cases.spell({**KNOWN, register: entry}))
    yield refused("entry-note-of-kind-3", "21 0 0", entry=cases.spell({**KNOWN, "note": cases.note(3)}))
    yield refused("words-not-read", "2 1 0", [NOP, CALL] + END)
    yield refused("word-privileged", "24 1 0", [NOP, LD_ALTERNATE] + END)
    yield refused("slot-skipped-not-read", "2 1 0", [branch(ALWAYS, 2, True), CALL] + END)
    yield refused("not-read-before-privileged", "2 0 0", [CALL, LD_ALTERNATE] + END)
    yield refused("privileged-before-not-read", "24 0 0", [LD_ALTERNATE, CALL] + END)
    yield refused("word-behind-not-read", "2 2 0", END + [CALL] + END)
    yield refused("target-before", "3 0 0", [branch(EQUAL, -1), NOP] + END)
    yield refused("target-behind", "3 0 0", [branch(EQUAL, 4), NOP] + END)
    yield refused("last-slot-landed-on", "3 3 0", [branch(EQUAL, 3), NOP] + END)
    yield refused("last-slot-landed-on-by-its-branch", "3 1 0", [branch(ALWAYS, 1), NOP])
    yield refused("last-slot-of-a-full-routine-landed-on", "3 127 0", [branch(EQUAL, WORDS - 1)] + [NOP] * (WORDS - 3) + END)
    yield refused("last-slot-landed-on-by-an-unreached-branch", "3 5 0", END + [branch(EQUAL, 3), NOP] + END)
    yield refused("last-slot-landed-on-and-a-bad-target", "3 2 0", [branch(EQUAL, 5), NOP, branch(EQUAL, 99), NOP] + END)
    yield listed("last-slot-named-by-bn", [branch(NEVER, 3), NOP] + END, " ".join([FIRST] * 4))
    yield refused("transfer-in-a-slot-landed-on", "3 3 0", [branch(EQUAL, 3), NOP, RETURN, RETURN] + END)
    yield refused("transfer-in-slot", "3 1 0", [RETURN, RETURN, NOP])
    yield refused("last-word-goes-on", "3 0 0", [NOP])
    yield refused("unreached-goes-on", "3 2 0", END + [NOP])
    yield refused("untaken-goes-out", "3 0 0", [branch(EQUAL, 0), NOP])
    yield listed("always-with-no-word-behind", [branch(ALWAYS, 0), NOP], " ".join([FIRST] * 2))


def orders():
    """The first of several refusals."""
    bad = POLICY._replace(regions=[(33, 1, [FIELD]), (64, 0, [])])
    yield refused("policy-before-table", "20 0 0", policy=bad, length=0)
    yield refused("policy-before-words", "20 0 0", [], policy=bad)
    yield refused("policy-before-entry", "20 0 0", policy=bad, entry=b"")
    yield refused("policy-before-reading", "20 0 0", [CALL], policy=bad)
    yield refused("table-before-reading", "21 0 0", [CALL], length=4095)
    yield refused("entry-before-reading", "21 0 0", [LD_ALTERNATE], entry=ENTRY[:-1])
    yield refused("words-before-flow", "21 0 0", [NOP] * 129)
    yield refused("reading-before-flow", "2 3 0", [branch(EQUAL, 99), NOP, NOP, CALL] + END)
    yield refused("privileged-before-flow", "24 3 0", [branch(EQUAL, 99), NOP, NOP, LD_ALTERNATE] + END)


def policies():
    full = [(8, 0, [])] * 8
    halves = [(4, layout.READ, 0, 2 * k, 1, 0, 9) for k in range(17)]
    yield Case("eight-regions", Policy(8, full), cases.spell({1: cases.start(7)}), END, TABLE, (ACCEPTED, None))
    yield Case("no-region", Policy(0, []), cases.spell({}), END, TABLE, (ACCEPTED, None))
    for name, policy in [
            ("nine-regions", Policy(9, full)), ("regions-255", Policy(255, full)), ("size-0", Policy(1, [(0, 0, [])])),
            ("size-4104", Policy(1, [(4104, 0, [])])), ("seventeen-fields", Policy(1, [(64, 17, halves)])),
            ("field-outside", Policy(1, [(8, 1, [(1, layout.READ, 0, 8, 1, 0, 9)])])),
            ("fields-overlap", Policy(1, [(8, 2, [(3, layout.READ, 0, 0, 2, 0, 9), (1, layout.READ, 0, 3, 1, 0, 9)])])),
            ("field-off-grid", Policy(1, [(8, 1, [(3, layout.READ, 0, 1, 1, 0, 9)])])),
            ("field-to-no-region", Policy(1, [(8, 1, [(6, layout.READ, 1, 0, 1, 0, 0)])])),
            ("field-lo-above-hi", Policy(1, [(8, 1, [(5, layout.READ, 0, 0, 1, 9, 8)])]))]:
        yield refused(f"policy-{name}", "20 0 0", policy=policy, entry=cases.spell({}))


# The caller's registers

def callers():
    """A word that writes one of them refuses the listing, where it is and whatever else it does. Others may be written, and all read."""
    some = "sethi", "subcc", "or-registers", "srl", "ldsb"
    for register in 14, 16, 17, 23, 24, 30, 31:
        for sort, one in cases.writers(register):
            if sort in some or register == 16 and not sort.endswith("-registers"):
                yield refused(f"{sort}-to-r{register}", f"25 0 {register}", [one] + END)
    for register in 13, 15:
        yield listed(f"each-to-r{register}", [one for _, one in cases.writers(register)] + END, None)
    stores = [word(operation, register, 2, 0) for operation in ("st", "stb", "sth") for register in (14, 16, 24, 31)]
    yield listed("stores-of-the-callers", stores + END, " ".join([FIRST] * 14))
    reads = [word("or", 6, 0, "r14"), word("or", 7, 16, "r0"), word("add", 6, 31, 8), word("subcc", 0, 16, "r24"), word("ldub", 7, 14, "r31"),
             word("stb", 7, 16, 0)]
    known = {14: cases.start(), 16: cases.null_or(1), 31: cases.FULL}
    marks = ["11234512", "11234522", "11234523", "11234513", "11234513", "11234511", "11234511", "11234511"]
    yield listed("reads-of-the-callers", reads + END, " ".join(marks), {**KNOWN, **known})
    for name, answer, words in TAKING:
        yield refused("taking-" + name, answer, words)
    yield refused("policy-before-taking", "20 0 0", [cases.TAKES] + END, policy=POLICY._replace(count=9))
    yield refused("table-before-taking", "21 0 0", [cases.TAKES] + END, length=4095)
    yield refused("entry-before-taking", "21 0 0", [cases.TAKES] + END, entry=cases.spell({16: cases.entry(5)}))
    yield refused("taking-with-the-register-known", "25 0 16", [cases.TAKES] + END, entry=cases.spell({16: cases.number(0, 0)}))
    for hint in False, True:
        code = [predicted(ALWAYS, 2, True, hint), cases.TAKES] + END
        yield refused("taking-in-skipped-slot-of-predicted" + "-with-hint" * hint, "25 1 16", code)._replace(edition=NEWER)
        yield refused("taking-in-skipped-slot-of-predicted-on-the-older" + "-with-hint" * hint, "2 0 0", code)
    for name, answer, words in PREDICTED_TAKING:
        yield refused("taking-" + name, answer, words)._replace(edition=NEWER)


TAKES, TAKES_POINTER, TAKES_LAST = cases.TAKES, cases.TAKES_POINTER, cases.TAKES_LAST
TAKING = [
    ("alone", "3 0 0", [TAKES]), ("last", "3 2 0", END + [TAKES]), ("last-slot-landed-on", "3 1 0", [branch(ALWAYS, 1), TAKES]),
    ("last-slot-of-return", "25 1 16", [RETURN, TAKES]), ("twice", "25 0 31", [TAKES_LAST, TAKES_POINTER] + END),
    ("twice-first-in-slot", "25 1 31", [branch(ALWAYS, 2), TAKES_LAST, TAKES] + END),
    ("second", "25 1 14", [NOP, TAKES_POINTER, TAKES_LAST] + END), ("before-flow", "25 0 16", [TAKES, NOP]),
    ("at-word-2-before-flow-at-5", "25 2 16", [NOP, NOP, TAKES, NOP, NOP, branch(EQUAL, 99), NOP] + END),
    ("in-slot-before-flow", "25 1 16", [branch(ALWAYS, 2), TAKES, RETURN, RETURN]),
    ("after-flow", "3 0 0", [branch(EQUAL, 99), NOP, TAKES] + END), ("in-the-slot-after-flow", "3 0 0", [branch(EQUAL, 99), TAKES] + END),
    ("in-slot-of-ba", "25 1 16", [branch(ALWAYS, 2), TAKES] + END), ("in-slot-of-ba-a", "25 1 16", [branch(ALWAYS, 2, True), TAKES] + END),
    ("in-slot-of-be", "25 1 31", [branch(EQUAL, 2), TAKES_LAST] + END), ("in-slot-of-be-a", "25 1 14", [branch(EQUAL, 2, True), TAKES_POINTER] + END),
    ("in-slot-of-bn", "25 1 16", [branch(NEVER, 2), TAKES] + END), ("in-slot-of-bn-a", "25 1 16", [branch(NEVER, 2, True), TAKES] + END),
    ("in-slot-of-return", "25 1 16", [RETURN, TAKES] + END), ("unreached", "25 2 16", END + [TAKES] + END),
    ("unreached-after-ba", "25 2 31", [branch(ALWAYS, 3), NOP, TAKES_LAST] + END),
    ("in-an-unreached-slot", "25 3 16", END + [branch(ALWAYS, 2, True), TAKES] + END),
    ("in-slot-landed-on", "25 3 16", [branch(EQUAL, 3), NOP, branch(ALWAYS, 2), TAKES] + END),
    ("in-skipped-slot-landed-on", "25 3 14", [branch(EQUAL, 3), NOP, branch(ALWAYS, 2, True), TAKES_POINTER] + END),
    ("in-slot-of-return-landed-on", "25 3 16", [branch(EQUAL, 3), NOP, RETURN, TAKES] + END),
    ("copied-to-itself", "25 0 16", [word("or", 16, 0, "r16")] + END), ("unset-copied-to-itself", "25 0 14", [word("or", 14, 14, "r0")] + END),
    ("word-not-read-behind", "2 3 0", [TAKES] + END + [CALL]), ("word-privileged-behind", "24 3 0", [TAKES] + END + [LD_ALTERNATE]),
]
PREDICTED_TAKING = [
    ("in-slot-of-predicted", "25 1 31", [predicted(EQUAL, 2), TAKES_LAST] + END),
    ("before-a-far-predicted", "25 0 14", [TAKES_POINTER, predicted(EQUAL, 99), NOP] + END),
    ("after-a-far-predicted", "3 0 0", [predicted(ALWAYS, 99), TAKES] + END), ("behind-predicted", "25 2 16", [predicted(ALWAYS, 3), NOP, TAKES] + END),
]


# The frame

def frames():
    """The frame address in r14 is marked unset; elsewhere it refuses the listing, and so does a scratch word that is set."""
    framed = {**KNOWN, 14: cases.entry(layout.FRAME)}
    yield listed("entry-frame-address", END, f"{FIRST} {FIRST}", framed)
    for register in range(MARKS):
        if register != 14:
            yield refused(f"entry-frame-address-in-r{register}", "21 0 0", entry=cases.spell({**KNOWN, register: cases.entry(layout.FRAME)}))
    for name, entry in FRAMES_WITH_MORE:
        yield refused(f"entry-frame-address-with-{name}", "21 0 0", entry=cases.spell({**KNOWN, 14: entry}))
    for name in SCRATCH:
        for sort, entry in [*SET_AT_ENTRY, ("frame-address", framed[14])]:
            yield refused(f"entry-{name}-{sort}", "21 0 0", entry=cases.spell({**framed, name: entry}))
    yield refused("entry-scratch-set-without-the-frame", "21 0 0", entry=cases.spell({**KNOWN, 33: cases.FULL}))
    yield refused("entry-every-scratch-set", "21 0 0", entry=cases.spell({**framed, **{name: cases.FULL for name in SCRATCH}}))
    yield refused("policy-before-scratch-set", "20 0 0", policy=POLICY._replace(count=9), entry=cases.spell({**framed, 33: cases.FULL}))
    yield refused("scratch-set-before-reading", "21 0 0", [CALL], entry=cases.spell({**framed, 33: cases.FULL}))
    yield refused("scratch-set-before-flow", "21 0 0", [NOP], entry=cases.spell({**framed, 38: cases.BACK}))
    yield refused("scratch-set-before-taking", "21 0 0", [cases.TAKES] + END, entry=cases.spell({**framed, 36: cases.start()}))
    for sort, entry in ("address", cases.start()), ("number", cases.FULL), ("or-null", cases.null_or(1)), ("return", cases.BACK), ("unset", cases.NONE):
        yield listed(f"entry-pointer-{sort}", END, f"{FIRST} {FIRST}", {**KNOWN, 14: entry})
    yield refused("entry-note-behind-the-scratch-words", "21 0 0", entry=cases.spell({**framed, "note": cases.note(3)}))
    yield listed("entry-note-of-the-pointer", END, f"{FIRST} {FIRST}", {**framed, "note": cases.note(2, 14, 5)})
    # What is loaded from the frame is unset, whatever was stored; r14 is unset as an operand and where it is copied.
    for name, one in [(f"st-r{r}-at-{offset}", word("st", r, 14, offset)) for r, offset in ((1, 96), (2, 100), (3, 104), (4, 108), (6, 112), (7, 116))]:
        offset = int(name.split("-")[-1])
        yield listed(f"{name}-and-ld", [one, word("ld", 6, 14, offset)] + END, f"{FIRST} {FIRST} 11234552 11234552", framed)
    marks = ["11234512", "11234552", "11234512", "11234552", "11234512", "11234552"]
    steps = [word("ld", 6, 14, 96), sethi(6, 1), word("or", 6, 0, "r14"), sethi(6, 1), word("add", 6, 14, 96)]
    yield listed("uses-of-the-pointer", steps + END, " ".join(marks + marks[-1:]), framed)
    narrow = [word("or", 6, 0, "r14"), word("ldub", 6, 14, 96), word("or", 6, 0, "r14"), word("ldsh", 6, 14, 0)]
    yield listed("narrow-loads-of-the-frame", narrow + END, f"{FIRST} 11234552 {FIRST} 11234552 {FIRST} {FIRST}", framed)
    yield listed("ld-by-a-number-first", [word("ld", 6, 1, "r14")] + END, f"{FIRST} 11234552 11234552", framed)
    yield listed("stores-of-the-pointer", [word("st", 14, 14, 96), word("stb", 14, 2, 0)] + END, " ".join([FIRST] * 4), framed)
    yield listed("spill-in-slots", [branch(EQUAL, 4), word("st", 6, 14, 96)] + END + [word("ld", 6, 14, 96)] + END,
                 f"{FIRST} {FIRST} {FIRST} {FIRST} {FIRST} 11234552 11234552", framed)
    yield listed("pointer-meets-itself", [branch(EQUAL, 2), NOP] + END, " ".join([FIRST] * 4), framed)
    yield refused("pointer-written", "25 0 14", [word("ld", 14, 14, 96)] + END, entry=cases.spell(framed))
    yield listed("frame-on-9", [predicted(EQUAL, 2, False, True), word("ld", 6, 14, 96)] + END, f"{FIRST} {FIRST} 11234552 11234552",
                 framed)._replace(edition=NEWER)
    yield refused("scratch-set-on-9", "21 0 0", entry=cases.spell({**framed, 35: cases.FULL}))._replace(edition=NEWER)


# The predicted branch

def predictions():
    """On the newer terminal it does what another branch does, whatever its hint; its annul bit and its target are its own. The older
    terminal does not read it."""
    for at, case in enumerate([*flows(), *landings()]):
        words = [cases.as_predicted(one, (at + k) % 2 == 1) for k, one in enumerate(case.words)]
        if words != case.words:
            yield case._replace(name=case.name + "-predicted", words=words, edition=NEWER)
    copy = word("or", 6, 0, "r2")
    for hint in False, True:
        end = "-with-hint" * hint
        for name, code, text in [
                ("be", [predicted(EQUAL, 4, False, hint), copy] + END + END, f"{FIRST} {FIRST} {' '.join(['11234522'] * 4)}"),
                ("be-a", [predicted(EQUAL, 4, True, hint), copy] + END + END, f"{FIRST} {FIRST} {FIRST} {FIRST} 11234522 11234522"),
                ("ba", [predicted(ALWAYS, 3, False, hint), copy, copy] + END, f"{FIRST} {FIRST} - 11234522 11234522"),
                ("ba-a", [predicted(ALWAYS, 3, True, hint), copy, copy] + END, f"{FIRST} {FIRST} - {FIRST} {FIRST}"),
                ("bn", [predicted(NEVER, -2**18, False, hint), copy] + END, f"{FIRST} {FIRST} 11234522 11234522"),
                ("bn-a", [predicted(NEVER, 2**18 - 1, True, hint), copy] + END, f"{FIRST} {FIRST} {FIRST} {FIRST}"),
                ("back", [NOP, predicted(EQUAL, -1, False, hint), copy] + END, " ".join([FIRST[:6] + "52"] * 3 + ["11234522"] * 2)),
                ("to-its-slot", [predicted(ALWAYS, 1, True, hint), copy] + END, f"{FIRST} {FIRST} 11234522 11234522")]:
            yield listed(f"predicted-{name}{end}", code, text)._replace(edition=NEWER)
            yield refused(f"predicted-{name}{end}-on-the-older", f"2 {int(code[0] == NOP)} 0", code)
        for codes in 1, 2, 3:
            for condition in NEVER, EQUAL, ALWAYS:
                code = [predicted(condition, 2, False, hint, codes), NOP] + END
                yield refused(f"predicted-{condition}-codes-{codes}{end}", "2 0 0", code)._replace(edition=NEWER)
    for name, answer, code in [
            ("in-a-slot", "3 1 0", [branch(ALWAYS, 2), predicted(ALWAYS, 1)] + END), ("last", "3 2 0", END + [predicted(ALWAYS, -2)]),
            ("with-return-in-its-slot", "3 1 0", [predicted(NEVER, 2), RETURN] + END), ("to-the-end", "3 0 0", [predicted(EQUAL, 4), NOP] + END),
            ("far", "3 0 0", [predicted(ALWAYS, 2**18 - 1), NOP] + END), ("far-back", "3 1 0", [NOP, predicted(ALWAYS, -2**18), NOP] + END),
            ("far-back-as-in-18-bits", "3 0 0", [predicted(ALWAYS, 2 - 2**18), NOP] + END), ("below-0", "3 0 0", [predicted(EQUAL, -1), NOP] + END),
            ("to-the-last-slot", "3 3 0", [predicted(EQUAL, 3), NOP] + END), ("then-privileged", "24 1 0", [predicted(ALWAYS, 2), LD_ALTERNATE] + END),
            ("then-not-read", "2 1 0", [predicted(ALWAYS, 2), CALL] + END), ("with-no-word-behind", "3 0 0", [predicted(EQUAL, 0), NOP])]:
        yield refused("predicted-" + name, answer, code)._replace(edition=NEWER)
    for name, one in ("return-of-9", 0x81CFE008), ("flushw", 0x81580000):
        yield refused(name, "24 1 0", [NOP, one] + END)._replace(edition=NEWER)


def made():
    """All cases; the first is that by which they are known from others."""
    for several in (flows, landings, loops, meetings, copies, sums, numbers, accesses, every_pair, lengths, forms, orders, policies, callers, frames, predictions):
        yield from several()
