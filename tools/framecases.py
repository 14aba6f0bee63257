"""framecases.py: bundles made for the program crates/corpus, each with the answer that request 7 of document 02 gives it: the frame, its
six scratch words, and the rows and bundles that have them.

They are as those of cases.py, of version 2 unless it is told. r14 has the frame address in every row unless it is named. Entries are known by
the numbers that answers have for them: 0 to 31 are registers, 33 to 38 scratch words.
"""
import cases
import layout
from cases import (ALWAYS, BACK, BYTES, ENTRIES, EQUAL, FIELD_KINDS, FULL, LEAST, LESS, MOST, NEVER, NONE, NOTES, NOT_EQUAL, ONWARD, PAIRS, SET, TWO, Case,
                   at, branch, changed, entry, field, note, null_or, number, sethi, start, word)
from layout import BEFORE_SCRATCH, POINTER, READ, SCRATCH_OFFSETS, VERSION
from parts import NOP, RETURN
from script import NEWER, OLDER

FRAME = entry(layout.FRAME)
# The scratch words: the number of each in answers, and its offset in the frame.
SCRATCH = dict(zip(layout.NAMED[layout.REGISTERS:], SCRATCH_OFFSETS))
FIRST, LAST = min(SCRATCH), max(SCRATCH)
FEW, BAD = number(0, 9), entry(6)
LOADS, STORES = ["ld", "ldub", "lduh", "ldsb", "ldsh"], ["st", "stb", "sth"]


def framed(known):
    return {POINTER: FRAME, **known}


def routine(code, rows, first=None, version=VERSION, **others):
    """As in cases.py, with the frame address in r14. Unless it is told the entry row is row 0 without scratch words."""
    known = {name: e for name, e in rows[0].items() if name not in SCRATCH} if first is None else first
    return cases.routine(code, [framed(one) for one in rows], first=framed(known), version=version, **others)


def then_return(code, rows, **others):
    """The words with their rows, and after them the return and a nop, whose row is that of the last word's successor."""
    return routine(code + [RETURN, NOP], rows + [rows[-1]], **others)


def behind(code, rows, **others):
    """The same behind a branch to itself, so that any row may be known to them."""
    return then_return([branch(ALWAYS, 0), NOP, *code], [{}, {}, *rows], **others)


def makes(name, one, before, after, answer="0 0 0", **others):
    """A word, what is known before it and what is claimed after it. The answer is told as if it were word 0."""
    given, _, register = answer.split()
    return Case(name, behind([one], [before, after], **others), answer if answer == "0 0 0" else f"{given} 2 {register}")


def tried(name, one, before, answer, **others):
    """A word, and nothing is claimed after it."""
    return makes(name, one, before, {POINTER: NONE}, answer, **others)


# The layout of version 2

def layouts():
    regions = [(8, [field(1, READ, 0, 1), field(1, READ, 1, 1)]), (8, [])]
    two, old = (routine([RETURN, NOP], [{}, {}], regions=regions, version=version) for version in (VERSION, BEFORE_SCRATCH))
    yield Case("version-2", two, "0 0 0")
    yield Case("version-1-with-the-frame", old, "0 0 0")
    for version in (0, 1, 3, 4, 128, 130, 255):
        yield Case(f"rows-of-2-in-version-{version}", changed(two, 4, version), "23 0 0")
    for version in (0, 2, 3, 129, 255):
        yield Case(f"rows-of-1-in-version-{version}", changed(old, 4, version), "23 0 0")
    for high in (1, 2, 255):
        yield Case(f"rows-of-2-in-version-{256 * high + 2}", changed(two, 3, high), "23 0 0")
    yield Case("rows-of-1-in-version-257", changed(old, 3, 1), "23 0 0")
    yield Case("rows-of-2-in-version-512", changed(changed(two, 3, 2), 4, 0), "23 0 0")
    for place, name in (0, "mark-first-byte"), (1, "mark-second-byte"), (2, "mark-third-byte"), (8 + 3, "first-region-zero"), (12 + 3, "second-region-zero"), (
            16 + 3, "first-field-zero"), (32 + 3, "second-field-zero"):
        yield Case("version-2-" + name, changed(two, place, two[place] ^ 1), "23 0 0")
    yield Case("version-2-one-byte-more", two + b"\0", "23 0 0")
    yield Case("version-2-one-byte-less", two[:-1], "23 0 0")
    yield Case("version-2-a-row-less", two[:-layout.ROW_SIZE], "23 0 0")
    yield Case("version-2-head-alone", two[:8], "23 0 0")
    yield Case("version-2-no-word", cases.routine([], [], first={}, version=VERSION), "21 0 0")
    # All entries and the note of a row are different ones, so that any that is misplaced is seen.
    code = [NOP, branch(EQUAL, -1), NOP, *ONWARD]
    for version in VERSION, BEFORE_SCRATCH:
        every = {r: number(r, r + 1) for r in range(1, 14)} | {r: number(2 * r, 3 * r) for r in range(16, 32)} | {"note": note(2, 9, 7)}
        more = every | {name: number(5 * name, 6 * name) for name in SCRATCH if version == VERSION}
        rows = [more] * len(code)
        yield Case(f"every-entry-in-version-{version}", routine([branch(ALWAYS, 0), NOP, *code], [{}, {}, *rows], version=version), "0 0 0")


def long_ones():
    """At and about the limits of words and bytes. With no region version 1 has room for 133 words, version 2 for 132."""
    fields = [field(1, READ, k, 1, 0, 9) for k in range(16)]
    rows, words = [{}] * 128, [NOP] * 126 + [RETURN, NOP]
    for version, most, (regions, of_each) in (BEFORE_SCRATCH, 133, (1, 6)), (VERSION, 132, (4, 3)):
        name = f"version-{version}-"
        yield Case(name + "full", routine(words, rows, regions=[(16, fields)] * 8, version=version), "0 0 0")
        yield Case(name + "over-full", routine(words, rows, regions=[(16, fields)] * 8 + [(16, [])], version=version), "23 0 0")
        yield Case(name + "word-129", routine(words + [NOP], rows + [{}], version=version), "21 0 0")
        for count, answer in (most, "21 0 0"), (most + 1, "23 0 0"), (most + 7, "23 0 0"):
            yield Case(f"{name}word-{count}", routine([NOP] * count, [{}] * count, version=version), answer)
        # As many bytes as there may be, and too many words; and a field more.
        to_the_last = [(16, fields[:of_each])] * regions
        yield Case(name + "to-the-last-byte", routine([NOP] * most, [{}] * most, regions=to_the_last, version=version), "21 0 0")
        more = to_the_last[1:] + [(16, fields[:of_each + 1])]
        yield Case(name + "a-field-more", routine([NOP] * most, [{}] * most, regions=more, version=version), "23 0 0")


def both_versions():
    """What a row without scratch words says: r14 may have the frame address there, and each scratch word is unset."""
    old = {"version": BEFORE_SCRATCH}
    for version, name in (BEFORE_SCRATCH, "1"), (VERSION, "2"):
        told = {"version": version}
        yield Case(f"frame-address-in-version-{name}", routine([RETURN, NOP], [{}, {}], **told), "0 0 0")
        for one, offset in SCRATCH.items():
            yield Case(f"st-at-{offset}-in-version-{name}", then_return([word("st", 3, POINTER, offset)], [{3: FEW}, {}], **told), "0 0 0")
            yield Case(f"ld-at-{offset}-unset-in-version-{name}", then_return([word("ld", 3, POINTER, offset)], [{}, {}], **told), f"4 0 {one}")
        yield Case(f"st-then-ld-unset-in-version-{name}",
                   then_return([word("st", 3, POINTER, 96), word("ld", 4, POINTER, 96)], [{3: FEW}, {3: FEW}, {}], **told), "4 1 33")
        yield Case(f"st-at-92-in-version-{name}", then_return([word("st", 3, POINTER, 92)], [{3: FEW}, {}], **told), "7 0 14")
        yield Case(f"stb-at-96-in-version-{name}", then_return([word("stb", 3, POINTER, 96)], [{3: FEW}, {}], **told), "8 0 14")
        yield Case(f"frame-address-copied-in-version-{name}", then_return([word("or", 3, POINTER, "r0")], [{}, {}], **told), "6 0 14")
        yield Case(f"frame-address-in-r13-in-version-{name}", routine([RETURN, NOP], [{}, {13: FRAME}], **told), "1 1 13")
        yield Case(f"frame-address-in-the-result-in-version-{name}", routine([RETURN, NOP], [{}, {}], result=FRAME, **told), "21 0 0")
        yield Case(f"frame-address-misfits-in-version-{name}", cases.routine([RETURN, NOP], [framed({}), {}], first={}, **told), "15 0 14")
        for sort, e, good in NOTES:
            yield Case(f"note-{sort}-in-version-{name}", routine([RETURN, NOP], [{}, {"note": e}], **told), "0 0 0" if good else "1 1 32")
        yield Case(f"note-misfits-in-version-{name}", then_return([NOP], [{"note": note(2, 1, 5)}, {"note": note(2, 1, 6)}], **told), "12 0 32")
        yield Case(f"result-in-version-{name}", routine([RETURN, NOP], [{8: FEW}, {}], result=FEW, **told), "0 0 0")
        yield Case(f"result-too-large-in-version-{name}", routine([RETURN, NOP], [{8: FEW}, {}], result=number(0, 8), **told), "14 0 8")
    yield Case("st-in-slot-in-version-1", routine([branch(ALWAYS, 2), word("st", 3, POINTER, 96), *ONWARD], [{3: FEW}, {}, {}, {}], **old), "0 0 0")
    yield Case("ld-in-slot-in-version-1", routine([branch(ALWAYS, 2), word("ld", 3, POINTER, 116), *ONWARD], [{}] * 4, **old), "4 1 38")
    yield Case("ld-by-a-landing-in-version-1", routine([branch(ALWAYS, 1, True), word("ld", 3, POINTER, 96), *ONWARD], [{}] * 4, **old), "4 1 33")


# Form

def forms():
    for r in range(layout.REGISTERS):
        yield Case(f"frame-address-in-r{r}", routine([RETURN, NOP], [{}, {r: FRAME}]), "0 0 0" if r == POINTER else f"1 1 {r}")
        if r != POINTER:
            yield Case(f"frame-address-in-r{r}-at-entry", routine([RETURN, NOP], [{}, {}], first={r: FRAME}), "21 0 0")
    for name, e, good in ENTRIES + [("kind-6", entry(6), False), ("kind-255", entry(255), False)]:
        if name != "kind-5":
            yield Case(f"pointer-{name}", routine([RETURN, NOP], [{}, {POINTER: e}], regions=TWO), "0 0 0" if good else "1 1 14")
            answer = "0 0 0" if good else "21 0 0"
            yield Case(f"pointer-{name}-at-entry", routine([RETURN, NOP], [{POINTER: NONE}, {}], first={POINTER: e}, regions=TWO), answer)
    yield Case("pointer-unset", routine([RETURN, NOP], [{POINTER: NONE}, {POINTER: NONE}]), "0 0 0")
    for name, e in FRAMES_WITH_MORE:
        yield Case(f"frame-address-with-{name}", routine([RETURN, NOP], [{}, {POINTER: e}], regions=TWO), "1 1 14")
        yield Case(f"frame-address-with-{name}-at-entry", routine([RETURN, NOP], [{POINTER: NONE}, {}], first={POINTER: e}, regions=TWO), "21 0 0")
    for one in SCRATCH:
        yield Case(f"frame-address-in-{one}", routine([RETURN, NOP], [{}, {one: FRAME}]), f"1 1 {one}")
        yield Case(f"frame-address-in-{one}-at-entry", routine([RETURN, NOP], [{}, {}], first={one: FRAME}), "21 0 0")
        yield Case(f"bad-{one}-of-the-first-row", routine([RETURN, NOP], [{one: BAD}, {}], first={}), f"1 0 {one}")
        yield Case(f"bad-{one}-of-the-last-row", routine([RETURN, NOP], [{}, {one: BAD}]), f"1 1 {one}")
        for name, e in SET_AT_ENTRY:
            yield Case(f"{one}-{name}-at-entry", routine([RETURN, NOP], [{}, {}], first={one: e}, regions=TWO), "21 0 0")
            yield Case(f"{one}-{name}-at-entry-and-in-row-0", routine([RETURN, NOP], [{one: e}, {}], first={one: e}, regions=TWO), "21 0 0")
            yield Case(f"{one}-{name}-in-row-1", routine([RETURN, NOP], [{}, {one: e}], regions=TWO), "0 0 0")
        for name, e in UNSET_WITH_MORE:
            yield Case(f"{one}-unset-with-{name}-at-entry", routine([RETURN, NOP], [{}, {}], first={one: e}, regions=TWO), "21 0 0")
    for k, (name, e, good) in enumerate(ENTRIES):
        for one in (FIRST + k % 6, FIRST + (k + 3) % 6):
            yield Case(f"{one}-{name}", routine([RETURN, NOP], [{}, {one: e}], regions=TWO), "0 0 0" if good else f"1 1 {one}")
    for name, e in ("unset", NONE), ("a-number", FEW), ("an-address", start()):
        yield Case(f"scratch-set-and-pointer-{name}", routine([RETURN, NOP], [{}, {POINTER: e, 33: FEW, 38: BACK}], regions=TWO), "0 0 0")
    yield makes("scratch-kept-without-the-frame-address", NOP, {33: FEW}, {POINTER: NONE, 33: FEW})
    yield Case("frame-address-as-result", routine([RETURN, NOP], [{}, {}], result=FRAME), "21 0 0")
    for name, rows, answer in BROKEN:
        yield Case("broken-" + name, routine([RETURN, NOP], rows, first={}), answer)
    yield Case("scratch-at-entry-before-a-broken-row", routine([RETURN, NOP], [{5: BAD}, {}], first={35: FEW}), "21 0 0")
    yield Case("broken-scratch-before-not-read", routine([0, NOP], [{}, {35: BAD}]), "1 1 35")
    yield Case("broken-scratch-before-a-register-of-the-caller", routine([cases.TAKES, *ONWARD], [{}, {}, {38: BAD}]), "1 2 38")
    yield Case("scratch-at-entry-after-a-bad-size", routine([RETURN, NOP], [{}, {}], first={33: FEW}, regions=[(12, [])]), "19 0 0")


FRAMES_WITH_MORE = [("region", entry(5, 1)), ("step", entry(5, 0, 8)), ("step-1", entry(5, 0, 1)), ("lo", entry(5, 0, 0, 1)), ("hi", entry(5, 0, 0, 0, 1)),
                    ("offset", entry(5, 0, 8, 96, 96)), ("zero", changed(FRAME, 3, 1))]
SET_AT_ENTRY = [("number", number(0, 0)), ("numbers", FEW), ("address", start()), ("or-null", null_or(1)), ("return", BACK)]
UNSET_WITH_MORE = [("step", entry(0, 0, 8)), ("hi", entry(0, 0, 0, 0, 1)), ("zero", changed(NONE, 3, 1))]
# The lowest number is named, of the earliest row: registers, then the note, then scratch words.
BROKEN = [
    ("r31-and-33", [{31: BAD, 33: BAD}, {}], "1 0 31"),
    ("r1-and-38", [{1: BAD, 38: BAD}, {}], "1 0 1"),
    ("note-and-33", [{33: BAD, "note": note(3)}, {}], "1 0 32"),
    ("note-and-38", [{38: BAD, "note": note(3)}, {}], "1 0 32"),
    ("r31-note-and-33", [{31: BAD, 33: BAD, "note": note(3)}, {}], "1 0 31"),
    ("33-and-38", [{33: BAD, 38: BAD}, {}], "1 0 33"),
    ("34-and-36", [{34: BAD, 36: BAD}, {}], "1 0 34"),
    ("37-and-38", [{37: BAD, 38: FRAME}, {}], "1 0 37"),
    ("pointer-and-33", [{POINTER: entry(5, 1), 33: FRAME}, {}], "1 0 14"),
    ("38-before-r1-of-the-next-row", [{38: BAD}, {1: BAD}], "1 0 38"),
    ("33-before-the-note-of-the-next-row", [{33: BAD}, {"note": note(3)}], "1 0 33"),
    ("note-before-33-of-the-next-row", [{"note": note(3)}, {33: BAD}], "1 0 32"),
    ("every-one", [{name: BAD for name in SCRATCH}, {}], "1 0 33"),
]


# Fits

def fitting():
    """The entry row and row 0 (15), and a row after a nop (12)."""
    for name, a, b, good in FRAME_PAIRS:
        first, second = {POINTER: a}, {POINTER: b}
        yield Case("pointer-fits-" + name, routine([RETURN, NOP], [second, {}], first=first, regions=TWO), "0 0 0" if good else "15 0 14")
        yield Case("pointer-fits-on-" + name, then_return([NOP], [first, second], regions=TWO), "0 0 0" if good else "12 0 14")
    for one in SCRATCH:
        for name, e in SET_AT_ENTRY:
            yield Case(f"{one}-{name}-misfits-at-entry", routine([RETURN, NOP], [{one: e}, {}], first={}, regions=TWO), f"15 0 {one}")
        yield makes(f"{one}-kept", NOP, {one: FEW}, {one: FEW})
        yield makes(f"{one}-said-less", NOP, {one: FEW}, {one: number(0, 12)})
        yield makes(f"{one}-said-unset", NOP, {one: FEW}, {})
        yield makes(f"{one}-said-more", NOP, {one: FEW}, {one: number(0, 8)}, f"12 0 {one}")
        yield makes(f"{one}-said-set", NOP, {}, {one: FEW}, f"12 0 {one}")
        for other in SCRATCH:
            if other != one:
                yield makes(f"{one}-is-not-{other}", NOP, {one: FEW}, {other: FEW}, f"12 0 {other}")
    for k, (name, a, b, good) in enumerate(PAIRS):
        one = FIRST + k % 6
        yield makes(f"{one}-fits-{name}", NOP, {one: a}, {one: b}, "0 0 0" if good else f"12 0 {one}", regions=TWO)
    for name, misfits, register in MISFITS:
        after = {key: BACK for key in misfits if key != "note"} | ({"note": SET} if "note" in misfits else {})
        yield Case("misfits-" + name, routine([RETURN, NOP], [after, {}], first={}), f"15 0 {register}")
        yield makes("misfits-on-" + name, NOP, {}, after, f"12 0 {register}")
    yield Case("scratch-misfit-and-flow", routine([NOP], [{33: FEW}], first={}), "3 0 0")
    yield Case("scratch-misfit-and-a-register-of-the-caller", routine([cases.TAKES, *ONWARD], [{33: FEW}, {}, {}], first={}), "25 0 16")
    yield Case("scratch-misfit-before-unset", routine([word("add", 3, 1, 1), *ONWARD], [{33: FEW}, {}, {}], first={}), "15 0 33")


FRAME_PAIRS = [
    ("itself", FRAME, FRAME, True), ("unset", FRAME, NONE, True), ("from-unset", NONE, FRAME, False), ("number", FRAME, FULL, False),
    ("zero", FRAME, number(0, 0), False), ("address", FRAME, start(), False), ("or-null", FRAME, null_or(), False), ("return", FRAME, BACK, False),
    ("from-number", FULL, FRAME, False), ("from-zero", number(0, 0), FRAME, False), ("from-address", start(), FRAME, False),
    ("from-or-null", null_or(), FRAME, False), ("from-return", BACK, FRAME, False),
]
MISFITS = [
    ("r31-and-33", [31, 33], 31), ("r1-and-38", [1, 38], 1), ("note-and-33", ["note", 33], 32), ("note-and-38", ["note", 38], 32),
    ("r31-note-and-33", [31, "note", 33], 31), ("33-and-38", [33, 38], 33), ("34-and-35", [34, 35], 34), ("37-and-38", [37, 38], 37), ("38", [38], 38),
    ("every-one", list(SCRATCH), 33),
]


# Accesses of the frame

def accesses():
    known = {3: FEW, **{name: FEW for name in SCRATCH}}
    inside = set(SCRATCH_OFFSETS)
    for operation in LOADS + STORES:
        whole = operation in ("ld", "st")
        for offset in sorted({*range(88, 128), *FAR}):
            if not whole and offset not in inside and offset % 8 > 3 and offset not in NARROW:
                continue
            answer = "7 0 14" if offset not in inside else "0 0 0" if whole else "8 0 14"
            yield tried(f"{operation}-at-{offset}", word(operation, 3, POINTER, offset), known, answer)
        for offset in (96, 116, 97, 98, 92, 120, LEAST + 96, MOST - 31, 352, 65632, 8288, 24, -96, -8096, -160, 96 - 2**16, 1 << 24 | 96):
            answer = 7 if offset not in inside else 0 if whole else 8
            indexed = {**known, 1: number(offset, offset)}
            yield tried(f"{operation}-by-r1-{offset}", word(operation, 3, POINTER, "r1"), indexed, f"{answer} 0 14" if answer else "0 0 0")
            yield tried(f"{operation}-by-r1-{offset}-first", word(operation, 3, 1, "r14"), indexed, f"{answer} 0 1" if answer else "0 0 0")
        yield tried(f"{operation}-by-r0", word(operation, 3, POINTER, "r0"), known, "7 0 14")
        yield tried(f"{operation}-by-r0-first", word(operation, 3, 0, "r14"), known, "7 0 0")
        for name, other, number_given in BESIDE:
            for regions, sort in (FIELD_KINDS, ""), (FIELD_KINDS[::-1], "-of-another"):
                if sort and number_given != "6":
                    continue
                beside = {**known, 2: other}
                named = {"4": (2, 2), "5": (2, 2), "6": (POINTER, 2)}[number_given]
                yield tried(f"{operation}-beside-{name}{sort}", word(operation, 3, POINTER, "r2"), beside, f"{number_given} 0 {named[0]}", regions=regions)
                yield tried(f"{operation}-beside-{name}{sort}-first", word(operation, 3, 2, "r14"), beside, f"{number_given} 0 {named[1]}", regions=regions)
        yield tried(f"{operation}-by-the-pointer-twice", word(operation, 3, POINTER, "r14"), known, "6 0 14")
    for name, one, before, answer in ACCESSES:
        yield tried("access-" + name, one, before, answer, regions=FIELD_KINDS)
    for name, entry_of_pointer, answer in POINTERS:
        for operation, offset in ("ld", 16), ("st", 16):
            before = {POINTER: entry_of_pointer, 3: number(0, 1)}
            yield tried(f"{operation}-by-a-pointer-that-is-{name}", word(operation, 3, POINTER, offset), before, answer, regions=FIELD_KINDS)


# Offsets farther away; and offsets at which narrow instructions are tried beside those that two bits of eight leave.
FAR = (-4096, -4000, -120, -116, -100, -96, -92, -8, -4, -1, 0, 1, 4, 24, 28, 48, 64, 68, 80, 84, 128, 160, 192, 196, 224, 232, 352, 464, 1120, 4064, 4092, 4095)
NARROW = (92, 94, 95, 97, 98, 99, 101, 117, 118, 119, 120, 124, 125, -4)
# What may stand beside r14 as an operand, and the number that it gives.
BESIDE = [
    ("two", number(96, 100, 4), "6"), ("all-six", number(96, 116, 4), "6"), ("first-and-third", number(96, 104, 8), "6"), ("zero-and-96", number(0, 96, 8), "6"),
    ("two-outside", number(0, 4, 4), "6"), ("two-bytes", number(96, 97), "6"), ("every-number", FULL, "6"), ("start", start(), "6"), ("address", at(0, 16, 4), "6"),
    ("address-96", at(24, 24), "6"), ("return", BACK, "6"), ("or-null", null_or(1), "5"), ("unset", NONE, "4"),
]
POINTERS = [("unset", NONE, "4 0 14"), ("or-null", null_or(), "5 0 14"), ("number", number(8, 8), "6 0 14"), ("return", BACK, "6 0 14"), ("address", start(), "0 0 0"),
            ("address-96", at(32, 32), "7 0 14")]
HELD, BASE = {3: FEW, 33: FEW, 38: FEW}, {8: start(), 9: start(1)}
ACCESSES = [
    # 4 for the operands, then 5, then 6, 7, 8, and 4 for the scratch word
    ("unset-stored-beside-the-pointer", word("st", 3, POINTER, "r14"), {}, "4 0 3"),
    ("unset-stored-outside", word("st", 3, POINTER, 0), {}, "4 0 3"),
    ("unset-stored-in-a-byte", word("stb", 3, POINTER, 96), {}, "4 0 3"),
    ("unset-stored", word("st", 3, POINTER, 96), {}, "4 0 3"),
    ("unset-stored-over-a-set-one", word("st", 3, POINTER, 96), {33: FEW}, "4 0 3"),
    ("unset-stored-beside-or-null", word("st", 3, POINTER, "r2"), {2: null_or()}, "4 0 3"),
    ("unset-index-then-unset-stored", word("st", 3, POINTER, "r2"), {}, "4 0 2"),
    ("unset-index-first-then-unset-stored", word("st", 3, 2, "r14"), {}, "4 0 2"),
    ("unset-index-of-a-load", word("ld", 3, 2, "r14"), HELD, "4 0 2"),
    ("or-null-index-of-the-pointer-stored", word("st", POINTER, POINTER, "r2"), {2: null_or()}, "5 0 2"),
    ("or-null-first-of-the-pointer-stored", word("st", POINTER, 2, "r14"), {2: null_or()}, "5 0 2"),
    ("pointer-stored-by-or-null", word("st", POINTER, 2, 0), {2: null_or()}, "5 0 2"),
    ("pointer-stored-by-unset", word("st", POINTER, 2, 0), {}, "4 0 2"),
    ("byte-of-unset-at-97", word("ldub", 3, POINTER, 97), {}, "7 0 14"),
    ("byte-of-unset-at-96", word("ldub", 3, POINTER, 96), {}, "8 0 14"),
    ("signed-byte-of-unset", word("ldsb", 3, POINTER, 100), {}, "8 0 14"),
    ("half-of-unset", word("lduh", 3, POINTER, 104), {}, "8 0 14"),
    ("signed-half-of-unset", word("ldsh", 3, POINTER, 116), {}, "8 0 14"),
    ("unset-outside", word("ld", 3, POINTER, 92), {}, "7 0 14"),
    ("unset-behind", word("ld", 3, POINTER, 120), {}, "7 0 14"),
    ("unset-at-97", word("ld", 3, POINTER, 97), {}, "7 0 14"),
    ("unset-by-two", word("ld", 3, POINTER, "r2"), {2: number(96, 100, 4)}, "6 0 14"),
    ("load-of-unset-to-r0", word("ld", 0, POINTER, 96), {}, "4 0 33"),
    ("load-of-the-last-unset-to-r0", word("ld", 0, POINTER, 116), {33: FEW}, "4 0 38"),
    ("load-to-r0", word("ld", 0, POINTER, 96), {33: FEW}, "0 0 0"),
    ("load-of-an-address-to-r0", word("ld", 0, POINTER, 96), {33: start()}, "0 0 0"),
    ("load-at-97-to-r0", word("ld", 0, POINTER, 97), HELD, "7 0 14"),
    ("load-of-unset-by-r1-first", word("ld", 3, 1, "r14"), {1: number(104, 104)}, "4 0 35"),
    ("load-of-another-unset", word("ld", 3, POINTER, 100), HELD, "4 0 34"),
    ("store-of-r0", word("st", 0, POINTER, 96), {}, "0 0 0"),
    ("store-of-a-caller's", word("st", 31, POINTER, 112), {31: FEW}, "0 0 0"),
    ("store-of-the-return-address", word("st", 15, POINTER, 96), {}, "0 0 0"),
    # A load to r14 or another of the caller's would be 25, in another pass.
    # The pointer is stored: to a field and to the frame, at each width, wherever that is.
    *[(f"pointer-{operation}-to-the-frame-{offset}", word(operation, POINTER, POINTER, offset), HELD, "6 0 14")
      for operation in STORES for offset in (96, 97, 98, 116, 92, 120, 0, -4)],
    *[(f"pointer-{operation}-to-the-frame-by-r1", word(operation, POINTER, 1, "r14"), {1: number(96, 96)}, "6 0 1") for operation in STORES],
    *[(f"pointer-{operation}-to-a-field-{offset}", word(operation, POINTER, 8, offset), BASE, "6 0 8")
      for operation, offset in (("st", 16), ("st", 24), ("st", 28), ("stb", 0), ("stb", 4), ("sth", 8), ("sth", 12))],
    ("pointer-stored-outside-a-field", word("st", POINTER, 8, 32), BASE, "6 0 8"),
    ("pointer-stored-in-another-element", word("st", POINTER, 8, 0), BASE, "6 0 8"),
    ("pointer-stored-off-grid", word("st", POINTER, 9, 10), BASE, "6 0 9"),
    ("pointer-stored-without-permission", word("st", POINTER, 9, 0), BASE, "6 0 9"),
    ("pointer-stored-to-write-only", word("st", POINTER, 9, 8), BASE, "6 0 9"),
    ("pointer-stored-by-numbers", word("st", POINTER, 1, 8), {1: FEW}, "6 0 1"),
    ("pointer-stored-by-number-and-address", word("st", POINTER, 1, "r8"), {**BASE, 1: number(16, 16)}, "6 0 1"),
    ("pointer-stored-beside-itself", word("st", POINTER, POINTER, "r14"), {}, "6 0 14"),
    ("pointer-that-is-a-number-stored", word("stb", POINTER, 8, 0), {**BASE, POINTER: FEW}, "0 0 0"),
    ("pointer-that-is-a-start-stored", word("st", POINTER, 8, 24), {**BASE, POINTER: start(1)}, "0 0 0"),
    ("number-beside-a-pointer-that-is-one", word("ld", 3, POINTER, "r1"), {POINTER: number(96, 96), 1: number(0, 0)}, "6 0 14"),
]


# What accesses do

def spills():
    """Stores keep the entry of the register in one scratch word, loads give it back."""
    for one, offset in SCRATCH.items():
        store, load = word("st", 3, POINTER, offset), word("ld", 3, POINTER, offset)
        others = {name: number(name, name + 1) for name in SCRATCH if name != one}
        yield makes(f"st-sets-{one}", store, {3: FEW}, {one: FEW})
        yield makes(f"st-sets-{one}-by-r1", word("st", 3, 1, "r14"), {3: FEW, 1: number(offset, offset)}, {one: FEW})
        yield makes(f"st-sets-{one}-and-keeps-the-register", store, {3: FEW}, {one: FEW, 3: FEW})
        yield makes(f"st-sets-{one}-to-no-less", store, {3: FEW}, {one: number(0, 8)}, f"12 0 {one}")
        yield makes(f"st-replaces-{one}", store, {3: FEW, one: BACK}, {one: FEW})
        yield makes(f"st-leaves-nothing-in-{one}", store, {3: FEW, one: BACK}, {one: BACK}, f"12 0 {one}")
        yield makes(f"st-of-more-in-{one}", store, {3: FEW, one: number(0, 3)}, {one: number(0, 3)}, f"12 0 {one}")
        yield makes(f"st-sets-{one}-and-no-other", store, {3: FEW, **others}, {one: FEW, **others})
        yield makes(f"ld-of-{one}", load, {one: FEW}, {3: FEW})
        yield makes(f"ld-of-{one}-and-no-less", load, {one: FEW}, {3: number(0, 8)}, "12 0 3")
        yield makes(f"ld-of-{one}-by-r1", word("ld", 3, 1, "r14"), {one: FEW, 1: number(offset, offset)}, {3: FEW})
        yield makes(f"ld-of-{one}-keeps-it", load, {one: FEW, **others}, {3: FEW, one: FEW, **others})
        yield makes(f"ld-of-{one}-among-others", load, {one: FEW, **{name: BACK for name in others}}, {3: FEW})
        for other in others:
            yield makes(f"st-to-{one}-sets-no-{other}", store, {3: FEW}, {other: FEW}, f"12 0 {other}")
            yield tried(f"ld-of-{one}-with-{other}-set", load, {other: FEW}, f"4 0 {one}")
    for k, (name, e) in enumerate(KEPT):
        one = FIRST + k % 6
        store, load = word("st", 3, POINTER, SCRATCH[one]), word("ld", 4, POINTER, SCRATCH[one])
        rows = [{3: e}, {one: e}, {4: e, one: e}]
        yield Case(f"kept-{name}", behind([store, load], rows, regions=TWO), "0 0 0")
        yield Case(f"kept-over-words-{name}", behind([store, NOP, sethi(3, 0), load], [{3: e}, *[{one: e}] * 3, {4: e}], regions=TWO), "0 0 0")
        for other, e2 in KEPT:
            if other != name and not fits(e, e2):
                yield makes(f"kept-{name}-not-as-{other}", store, {3: e}, {one: e2}, f"12 0 {one}", regions=TWO)
                yield makes(f"given-back-{name}-not-as-{other}", load, {one: e}, {4: e2}, "12 0 4", regions=TWO)
    yield makes("kept-full-step", word("st", 3, POINTER, 96), {3: number(0, 8, 4)}, {33: number(0, 8, 8)}, "12 0 33")
    yield makes("kept-r0", word("st", 0, POINTER, 96), {33: FULL}, {33: number(0, 0)})
    yield makes("ld-to-r0-leaves-it", word("ld", 0, POINTER, 96), {33: FEW}, {33: FEW})
    yield makes("ld-to-r8", word("ld", 8, POINTER, 96), {33: BACK}, {8: BACK})
    yield makes("ld-to-its-index", word("ld", 1, POINTER, "r1"), {1: number(96, 96), 33: FEW}, {1: FEW})
    yield makes("st-of-its-index", word("st", 1, 1, "r14"), {1: number(96, 96)}, {33: number(96, 96)})
    for name, code, rows, answer in ROUTINES:
        yield Case("spill-" + name, routine(code, rows, regions=BYTES), answer)
    for register in POINTER, 16, 24, 31:
        yield Case(f"ld-to-r{register}", behind([word("ld", register, POINTER, 96)], [{33: FEW}, {}]), f"25 2 {register}")
        yield Case(f"ld-of-unset-to-r{register}", then_return([word("ld", register, POINTER, 96)], [{}, {}]), f"25 0 {register}")
    for name, one, before, after, answer in BESIDE_NOTES:
        yield makes("note-" + name, one, {**before, 3: FEW, 33: FEW}, after, answer)


def fits(a, b):
    """Whether one of KEPT fits another."""
    return a == b or (a, b) in [(number(0, 0), null_or()), (number(0, 0), null_or(1)), (start(), null_or()), (number(0, 0), FULL), (number(1, 9, 4), FULL), (number(0, 0), FEW), (number(0, 8, 8), FULL),
                                (FEW, FULL), (number(0, 0), number(0, 8, 8)), (number(0, 8, 8), FEW), (number(1, 9, 4), FEW), (start(), at(0, 32))]


KEPT = [("zero", number(0, 0)), ("few", FEW), ("numbers-by-4", number(1, 9, 4)), ("numbers-by-8", number(0, 8, 8)), ("every-number", FULL), ("start", start()),
        ("address", at(8, 16, 4, 1)), ("any-address", at(0, 32)), ("or-null", null_or()), ("or-null-of-the-second", null_or(1)), ("return-address", BACK)]
SPILL, FILL = word("st", 3, POINTER, 96), word("ld", 3, POINTER, 96)
COMPARED = note(2, 3, 5)
# The word, what is known before it beside r3 and the first scratch word, what is claimed after it, and the answer.
BESIDE_NOTES = [
    ("kept-by-st", SPILL, {"note": COMPARED}, {"note": COMPARED}, "0 0 0"),
    ("set-kept-by-st", SPILL, {"note": SET}, {"note": SET}, "0 0 0"),
    ("not-set-by-st", SPILL, {}, {"note": SET}, "12 0 32"),
    *[(f"of-r{r}-kept-by-st-at-{offset}", word("st", 3, POINTER, offset), {"note": note(2, r, 5)}, {"note": note(2, r, 5)}, "0 0 0")
      for r, offset in ((1, 96), (2, 100), (4, 112), (6, 116), (14, 96), (24, 96), (25, 100), (30, 112), (31, 116))],
    ("lost-by-ld", FILL, {"note": COMPARED}, {"note": COMPARED}, "12 0 32"),
    ("set-after-ld", FILL, {"note": COMPARED}, {"note": SET, 3: FEW}, "0 0 0"),
    ("kept-by-ld-of-another", word("ld", 4, POINTER, 96), {"note": COMPARED}, {"note": COMPARED, 4: FEW}, "0 0 0"),
    ("kept-by-ld-to-r0", word("ld", 0, POINTER, 96), {"note": COMPARED}, {"note": COMPARED}, "0 0 0"),
    ("set-kept-by-ld", FILL, {"note": SET}, {"note": SET}, "0 0 0"),
    ("not-set-by-ld", FILL, {}, {"note": SET}, "12 0 32"),
    ("not-made-by-ld", FILL, {"note": SET}, {"note": COMPARED}, "12 0 32"),
    ("of-r14-kept-by-st", SPILL, {"note": note(2, POINTER, 0)}, {"note": note(2, POINTER, 0)}, "0 0 0"),
    ("and-a-scratch-word-misfit", SPILL, {"note": SET}, {"note": COMPARED, 33: number(0, 3)}, "12 0 32"),
]
ADD = word("add", 3, 3, 1)
ROUTINES = [
    ("return-address-and-back", [word("st", 15, POINTER, 96), sethi(15, 5), word("ld", 15, POINTER, 96), *ONWARD],
     [{}, {33: BACK}, {33: BACK, 15: number(5120, 5120)}, {}, {}], "0 0 0"),
    ("return-address-and-not-back", [word("st", 15, POINTER, 96), sethi(15, 5), *ONWARD], [{}, {33: BACK}, {33: BACK, 15: number(5120, 5120)}, {}], "6 2 15"),
    ("address-and-used", [word("st", 8, POINTER, 116), word("ld", 9, POINTER, 116), word("stb", 1, 9, 29), *ONWARD],
     [{8: start(), 1: number(32, 126)}, {38: start(), 1: number(32, 126)}, {9: start(), 1: number(32, 126)}, {}, {}], "0 0 0"),
    ("address-and-used-outside", [word("st", 8, POINTER, 116), word("ld", 9, POINTER, 116), word("stb", 1, 9, 30), *ONWARD],
     [{8: start(), 1: number(32, 126)}, {38: start(), 1: number(32, 126)}, {9: start(), 1: number(32, 126)}, {}, {}], "7 2 9"),
    ("or-null-and-used", [word("st", 8, POINTER, 116), word("ld", 9, POINTER, 116), word("ldub", 1, 9, 0), *ONWARD],
     [{8: null_or()}, {38: null_or()}, {9: null_or()}, {}, {}], "5 2 9"),
    ("two-words-swapped", [word("st", 1, POINTER, 96), word("st", 2, POINTER, 100), word("ld", 1, POINTER, 100), word("ld", 2, POINTER, 96), *ONWARD],
     [{1: FEW, 2: BACK}, {2: BACK, 33: FEW}, {33: FEW, 34: BACK}, {33: FEW, 1: BACK}, {1: BACK, 2: FEW}, {}], "0 0 0"),
    ("over-another", [SPILL, word("st", 0, POINTER, 96), FILL, *ONWARD], [{3: FEW}, {33: FEW}, {33: number(0, 0)}, {3: number(0, 0)}, {}], "0 0 0"),
    ("six", [*(word("st", 3, POINTER, offset) for offset in SCRATCH_OFFSETS), *ONWARD],
     [*({3: FEW, **{one: FEW for one in list(SCRATCH)[:k]}} for k in range(7)), {}], "0 0 0"),
    ("changed-on-the-way", [SPILL, ADD, FILL, *ONWARD], [{3: FEW}, {3: FEW, 33: FEW}, {3: number(1, 10), 33: FEW}, {3: FEW}, {}], "0 0 0"),
    ("misfit-of-a-load-in-the-note", [FILL, *ONWARD], [{}, {}, {}], "4 0 33"),
]


# The frame address as an operand of other words

def operands():
    for name, (form, _) in cases.OPCODES.items():
        if form == 2:
            for second, sort in (0, "0"), (1, "1"), ("r0", "r0"), ("r1", "r1"), ("r14", "itself"), ("r8", "an-address"), ("r9", "or-null"), ("r15", "return"):
                before = {1: FEW, 8: start(), 9: null_or()}
                if name in ("add", "or", "sub", "orcc", "subcc", "and") or sort in ("r0", "r1"):
                    yield tried(f"{name}-of-the-pointer-and-{sort}", word(name, 3, POINTER, second), before, "6 0 14", regions=TWO)
                    if isinstance(second, str):
                        rs1 = int(second[1:])
                        yield tried(f"{name}-of-{sort}-and-the-pointer", word(name, 3, rs1, "r14"), before, f"6 0 {rs1}", regions=TWO)
            yield tried(f"{name}-of-the-pointer-and-unset", word(name, 3, POINTER, "r2"), {}, "4 0 2")
            yield tried(f"{name}-of-unset-and-the-pointer", word(name, 3, 2, "r14"), {}, "4 0 2")
            yield tried(f"{name}-of-the-pointer-into-r0", word(name, 0, POINTER, 0), {}, "6 0 14")
            yield tried(f"{name}-of-r0-and-the-pointer-into-r0", word(name, 0, 0, "r14"), {}, "6 0 0")
    yield tried("pointer-compared", word("subcc", 0, POINTER, 0), {}, "6 0 14")
    yield Case("pointer-moved-to-itself", then_return([word("or", POINTER, POINTER, 0)], [{}, {}]), "25 0 14")
    yield Case("pointer-moved-down", then_return([word("add", POINTER, POINTER, -96)], [{}, {}]), "25 0 14")
    number_in, other = {POINTER: number(5, 5)}, {POINTER: start()}
    yield makes("pointer-that-is-a-number-copied", word("or", 3, 0, "r14"), number_in, {**number_in, 3: number(5, 5)})
    yield makes("pointer-that-is-an-address-added", word("add", 3, POINTER, 8), other, {**other, 3: at(8, 8)}, regions=TWO)
    yield makes("pointer-kept-by-a-nop", NOP, {}, {})
    yield makes("pointer-said-unset", NOP, {}, {POINTER: NONE})
    yield makes("pointer-said-set", NOP, {POINTER: NONE}, {}, "12 0 14")
    yield Case("return-with-the-frame-address-in-r15", routine([RETURN, NOP], [{15: FRAME}, {}], first={}), "1 0 15")
    yield Case("result-of-the-pointer", routine([RETURN, word("or", 8, 0, "r14")], [{}, {}]), "6 1 0")


# Branches and slots that spill

def edges():
    for name, code, rows, answer in EDGES:
        yield Case("frame-edge-" + name, routine(code, rows), answer)
    results = [("from-the-slot", [{}, {33: FEW}, {}], FEW, "0 0 0"), ("too-much-from-the-slot", [{}, {33: FEW}, {}], number(0, 8), "14 1 8"),
               ("unset-in-the-slot", [{}, {}, {}], FEW, "4 2 33"), ("by-the-slots-row", [{}, {}, {33: FEW}], FEW, "4 2 33")]
    for name, rows, result, answer in results:
        code = [branch(ALWAYS, 0), NOP, RETURN, word("ld", 8, POINTER, 96)]
        given, at_word, register = answer.split()
        told = answer if answer == "0 0 0" else f"{given} {int(at_word) + 1} {register}"
        yield Case("frame-result-" + name, routine(code, [{}, *rows], result=result), told)


LOW, HIGH, CALLED = number(0, 4), number(5, 9), {3: FEW, "note": COMPARED}
SPLIT = [*ONWARD, *ONWARD]
EDGES = [
    ("st-in-slot", [branch(ALWAYS, 2), SPILL, *ONWARD], [{3: FEW}, {}, {33: FEW}, {}], "0 0 0"),
    ("st-in-slot-and-no-less", [branch(ALWAYS, 2), SPILL, *ONWARD], [{3: FEW}, {}, {33: number(0, 8)}, {}], "12 0 33"),
    ("st-in-skipped-slot", [branch(ALWAYS, 2, True), SPILL, *ONWARD], [{3: FEW}, {}, {33: FEW}, {}], "12 0 33"),
    ("st-in-slot-of-never", [branch(NEVER, 0), SPILL, *ONWARD], [{3: FEW}, {}, {33: FEW}, {}], "0 0 0"),
    ("st-in-skipped-slot-of-never", [branch(NEVER, 0, True), SPILL, *ONWARD], [{3: FEW}, {}, {33: FEW}, {}], "12 0 33"),
    ("st-in-slot-taken", [branch(EQUAL, 4, True), SPILL, *SPLIT], [{3: FEW, "note": SET}, {}, {}, {}, {33: FEW}, {}], "0 0 0"),
    ("st-in-slot-not-taken", [branch(EQUAL, 4, True), SPILL, *SPLIT], [{3: FEW, "note": SET}, {}, {33: FEW}, {}, {}, {}], "12 0 33"),
    ("st-in-slot-both", [branch(EQUAL, 4), SPILL, *SPLIT], [{3: FEW, "note": SET}, {}, {33: FEW}, {}, {33: FEW}, {}], "0 0 0"),
    ("st-of-what-is-narrowed", [branch(LESS, 4), SPILL, *SPLIT], [CALLED, {}, {33: HIGH}, {}, {33: LOW}, {}], "0 0 0"),
    ("st-of-what-is-narrowed-no-less", [branch(LESS, 4), SPILL, *SPLIT], [CALLED, {}, {33: number(6, 9)}, {}, {33: LOW}, {}], "12 0 33"),
    ("st-of-what-is-narrowed-no-less-taken", [branch(LESS, 4), SPILL, *SPLIT], [CALLED, {}, {33: HIGH}, {}, {33: number(0, 3)}, {}], "12 0 33"),
    ("scratch-not-narrowed", [SPILL, branch(LESS, 4), NOP, *SPLIT],
     [CALLED, {**CALLED, 33: FEW}, {}, {3: HIGH, 33: FEW}, {}, {3: LOW, 33: FEW}, {}], "0 0 0"),
    ("scratch-not-narrowed-taken", [SPILL, branch(LESS, 4), NOP, *SPLIT], [CALLED, {**CALLED, 33: FEW}, {}, {}, {}, {33: LOW}, {}], "12 1 33"),
    ("scratch-not-narrowed-else", [SPILL, branch(LESS, 4), NOP, *SPLIT], [CALLED, {**CALLED, 33: FEW}, {}, {33: HIGH}, {}, {}, {}], "12 1 33"),
    ("note-kept-over-a-spill", [SPILL, branch(LESS, 4), NOP, *SPLIT], [CALLED, CALLED, {}, {3: HIGH}, {}, {3: LOW}, {}], "0 0 0"),
    ("note-lost-by-a-fill", [SPILL, FILL, branch(LESS, 4), NOP, *SPLIT], [CALLED, {**CALLED, 33: FEW}, CALLED, {}, {}, {}, {}, {}], "12 1 32"),
    ("no-member-left-and-a-bad-access", [branch(LESS, 4, True), word("ld", 4, POINTER, 92), *SPLIT], [{3: FEW, "note": note(2, 3, 0)}, {}, {}, {}, {}, {}], "0 0 0"),
    ("no-member-left-and-a-misfit", [branch(LESS, 4), NOP, *SPLIT], [{3: FEW, "note": note(2, 3, 0)}, {}, {}, {}, {38: FEW}, {}], "0 0 0"),
    ("pointer-noted-on-equal", [branch(EQUAL, 4), NOP, *SPLIT], [{"note": note(2, POINTER, 0)}, {}, {"note": note(2, POINTER, 0)}, {}, {}, {}], "0 0 0"),
    ("pointer-noted-on-less", [branch(LESS, 4), NOP, *SPLIT], [{"note": note(2, POINTER, 0)}, {}, {}, {}, {}, {}], "0 0 0"),
    ("pointer-noted-not-0", [branch(EQUAL, 4), NOP, *SPLIT], [{"note": note(2, POINTER, 0)}, {}, {}, {}, {POINTER: number(0, 0)}, {}], "12 0 14"),
    ("pointer-noted-no-start", [branch(NOT_EQUAL, 4), NOP, *SPLIT], [{"note": note(2, POINTER, 0)}, {}, {}, {}, {3: FEW}, {}], "12 0 3"),
    ("pointer-noted-examined", [branch(EQUAL, 4), NOP, *SPLIT], [{"note": note(2, POINTER, 5)}, {}, {}, {}, {3: FEW}, {}], "12 0 3"),
    ("pointer-noted-examined-on-less", [branch(LESS, 4), NOP, *SPLIT], [{"note": note(2, POINTER, 0)}, {}, {3: FEW}, {}, {}, {}], "12 0 3"),
    ("both-broken", [branch(EQUAL, 4), NOP, *SPLIT], [{"note": SET}, {}, {33: FEW}, {}, {38: FEW}, {}], "12 0 38"),
    ("taken-broken", [branch(EQUAL, 4), NOP, *SPLIT], [{"note": SET}, {}, {}, {}, {36: FEW}, {}], "12 0 36"),
    ("other-broken", [branch(EQUAL, 4), NOP, *SPLIT], [{"note": SET}, {}, {35: FEW}, {}, {}, {}], "12 0 35"),
    ("bad-access-in-slot", [branch(ALWAYS, 2), word("st", 3, POINTER, 120), *ONWARD], [{3: FEW}, {}, {}, {}], "7 1 14"),
    ("bad-width-in-slot", [branch(ALWAYS, 2), word("stb", 3, POINTER, 116), *ONWARD], [{3: FEW}, {}, {}, {}], "8 1 14"),
    ("pointer-in-slot", [branch(ALWAYS, 2), word("st", POINTER, POINTER, 116), *ONWARD], [{}] * 4, "6 1 14"),
    ("unset-in-slot", [branch(ALWAYS, 2), FILL, *ONWARD], [{}, {33: FEW}, {}, {}], "4 1 33"),
    ("unset-in-skipped-slot", [branch(ALWAYS, 2, True), FILL, *ONWARD], [{}] * 4, "0 0 0"),
    ("unset-in-slot-of-return", [RETURN, FILL], [{}, {33: FEW}], "4 1 33"),
    ("st-in-slot-of-return", [RETURN, SPILL], [{3: FEW}, {}], "0 0 0"),
    ("st-in-slot-then-ld", [branch(ALWAYS, 2), SPILL, FILL, *ONWARD], [{3: FEW}, {}, {33: FEW}, {3: FEW}, {}], "0 0 0"),
    ("ld-in-slot-after-st", [SPILL, branch(ALWAYS, 2), word("ld", 4, POINTER, 96), *ONWARD], [{3: FEW}, {33: FEW}, {}, {4: FEW}, {}], "0 0 0"),
    ("unreached", [*ONWARD, FILL, *ONWARD], [{}] * 5, "4 2 33"),
    ("unreached-with-its-row", [*ONWARD, FILL, *ONWARD], [{}, {}, {33: FEW}, {3: FEW}, {}], "0 0 0"),
    ("slot-landed-on", [branch(ALWAYS, 3), NOP, branch(ALWAYS, 2), SPILL, *ONWARD], [{3: FEW}, {}, {3: FEW}, {3: FEW}, {33: FEW}, {}], "0 0 0"),
    ("slot-landed-on-unset-by-its-row", [branch(ALWAYS, 3), NOP, branch(ALWAYS, 2), FILL, *ONWARD], [{}, {}, {33: FEW}, {}, {3: FEW}, {}], "4 3 33"),
    ("slot-landed-on-unset-by-its-transfers-row", [branch(ALWAYS, 3), SPILL, branch(ALWAYS, 2), FILL, *ONWARD], [{3: FEW}, {}, {}, {33: FEW}, {3: FEW}, {}], "4 3 33"),
    ("slot-landed-on-misfit", [branch(ALWAYS, 3), SPILL, branch(ALWAYS, 2), SPILL, *ONWARD], [{3: FEW}, {}, {3: FEW}, {3: FEW, 34: FEW}, {33: FEW}, {}], "12 0 34"),
    ("own-slot", [branch(ALWAYS, 1), SPILL, *ONWARD], [{3: FEW}, {3: FEW, 33: FEW}, {33: FEW}, {}], "0 0 0"),
    ("own-skipped-slot", [branch(ALWAYS, 1, True), SPILL, *ONWARD], [{3: FEW}, {3: FEW}, {33: FEW}, {}], "0 0 0"),
    ("loop", [SPILL, FILL, branch(EQUAL, -1), NOP, *ONWARD], [{3: FEW, "note": SET}, {33: FEW, "note": SET}, {33: FEW, "note": SET}, {}, {33: FEW}, {}], "0 0 0"),
    ("loop-that-loses", [SPILL, FILL, branch(EQUAL, -1), word("st", 15, POINTER, 96), *ONWARD],
     [{3: FEW, "note": SET}, {33: FEW, "note": SET}, {33: FEW, "note": SET}, {}, {}, {}], "12 2 33"),
    ("set-on-one-way", [branch(EQUAL, 3), NOP, SPILL, *ONWARD], [{3: FEW, "note": SET}, {}, {3: FEW}, {33: FEW}, {}], "12 0 33"),
    ("set-on-both-ways", [branch(EQUAL, 3), SPILL, SPILL, *ONWARD], [{3: FEW, "note": SET}, {}, {3: FEW}, {33: FEW}, {}], "0 0 0"),
]

GROUPS = [layouts, long_ones, both_versions, forms, fitting, accesses, spills, operands]


def made():
    """All of them: one after another on the older and on the newer terminal, those with branches on both, and with predicted ones too."""
    for k, case in enumerate(case for group in GROUPS for case in group()):
        yield case._replace(edition=NEWER if k % 2 else OLDER)
    yield from cases.on_each(edges())
    yield from cases.in_place_of_others(edges())
