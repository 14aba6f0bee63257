"""cases.py: bundles made for the program crates/corpus, each with the answer that document 01, with requests 1 to 7, gives it.

They are what the wrong versions of tools/plain/mutants.txt need beside the bundles of the independent implementation.
Each case has a name that says what it is about. Most are a few words long: what is tried stands at word 0 or 1,
and the rest is a return with a nop in its slot. A case is for one terminal, the older one unless it is told. Its bundle is
of version 1 unless it is told: rows without scratch words are shorter. Those of request 7 are in framecases.py.
"""
import struct
from collections import namedtuple

import assembly
import layout
import parts
from layout import ADDRESS, BOTH, OR_NULL, READ, UNSET, WRITE
from parts import NOP, RETURN
from script import NEWER, OLDER, Problem

Case = namedtuple("Case", "name bundle answer edition", defaults=[OLDER])

RETURN_ADDRESS, START_OR_NULL = layout.RETURN, OR_NULL
LEAST, MOST = -2**31, 2**31 - 1


# The parts of a bundle as bytes, so that any of them can be wrong

def field(element, permission, offset, count, lo=0, hi=0, target=0):
    return layout.field_bytes((element, permission, target, offset, count, lo, hi))


def entry(kind, region=0, step=0, lo=0, hi=0):
    return layout.entry_bytes((kind, region, step, lo, hi))


def number(lo, hi, step=1):
    """A number from lo to hi; a single one has step 8."""
    return layout.entry_bytes(layout.number(lo, hi, step))


def row(known, note=bytes(layout.NOTE.size), version=layout.VERSION):
    """A row of the entries that are known, by the numbers that answers have for them. r0 is 0, all others are unset."""
    held = (layout.ROW_SIZES[version] - layout.NOTE.size) // layout.ENTRY.size
    plain = layout.row_bytes(layout.row({}))
    entries = {name: plain[layout.ENTRY.size * k:layout.ENTRY.size * (k + 1)] for k, name in enumerate(layout.NAMED[:held])}
    for name, e in known.items():
        if name not in entries:
            raise Problem(f"a row of version {version} has no entry {name}")
        entries[name] = e
    return b"".join(entries.values()) + note


def bundle(regions, entry_row, result, words, rows, version):
    """A bundle. A region is its size and the list of its fields."""
    head = layout.HEAD.pack(layout.MARK, version, len(regions), len(words))
    sizes = b"".join(layout.REGION.pack(size, len(fields), 0) for size, fields in regions)
    fields = b"".join(f for _, of_region in regions for f in of_region)
    code = b"".join(layout.WORD.pack(w) for w in words)
    return head + sizes + fields + entry_row + result + code + b"".join(rows)


FULL = number(LEAST, MOST)
NONE, BACK = entry(UNSET), entry(RETURN_ADDRESS)

LOGIC = ["add", "and", "or", "xor", "sub", "andn", "orn", "xnor"]
OPCODES = {name: (2, code) for code, name in enumerate(LOGIC)}
OPCODES.update({name + "cc": (2, code + 0x10) for code, name in enumerate(LOGIC)})
OPCODES.update(sll=(2, 0x25), srl=(2, 0x26), sra=(2, 0x27))
OPCODES.update(ld=(3, 0), ldub=(3, 1), lduh=(3, 2), st=(3, 4), stb=(3, 5), sth=(3, 6), ldsb=(3, 9), ldsh=(3, 10))
NEVER, EQUAL, AT_MOST, LESS, ALWAYS, NOT_EQUAL, GREATER, AT_LEAST = 0, 1, 2, 3, 8, 9, 10, 11


# Words, entries and notes

def word(name, rd, rs1, second):
    """An instruction of format 10 or 11. The second operand is a number, or a register as "r5"."""
    form, opcode = OPCODES[name]
    low = int(second[1:]) if isinstance(second, str) else 1 << 13 | second & 0x1FFF
    return form << 30 | rd << 25 | opcode << 19 | rs1 << 14 | low


def branch(condition, distance, annul=False):
    return annul << 29 | condition << 25 | 2 << 22 | distance & 0x3FFFFF


def predicted(condition, distance, annul=False, hint=False, codes=0):
    """The predicted branch; codes 0 are those of 32 bits, the only ones that are read."""
    return annul << 29 | condition << 25 | 1 << 22 | codes << 20 | hint << 19 | distance & 0x7FFFF


def as_predicted(one, hint):
    """A branch that is not predicted as one that is; any other word, and a branch too far for that, as it is."""
    distance = assembly.target_of(0, one)
    if distance is None or not -2**18 <= distance < 2**18:
        return one
    return predicted(one >> 25 & 15, distance, bool(one >> 29 & 1), hint)


def sethi(rd, value):
    return rd << 25 | 4 << 22 | value


def note(kind, register=0, value=0):
    return struct.pack(">BBHi", kind, register, 0, value)


def start(region=0):
    return entry(ADDRESS, region, 8)


def at(lo, hi, step=1, region=0):
    """An address with offsets from lo to hi."""
    return entry(ADDRESS, region, 8 if lo == hi else step, lo, hi)


def null_or(region=0):
    return entry(START_OR_NULL, region)


def changed(data, place, value):
    return data[:place] + bytes([value]) + data[place + 1:]


# Routines

BYTES = [(32, [field(1, BOTH, 0, 30, 32, 126)])]
TWO = [(32, [field(1, BOTH, 0, 8, 0, 9)]), (64, [field(5, BOTH, 8, 4, 0, 9)])]
SET, CODES_UNKNOWN = note(1), note(0)


def routine(words, rows, regions=(), result=NONE, first=None, version=layout.BEFORE_SCRATCH):
    """A bundle of these words. A row is the entries that are known, by their numbers, with the note at "note"; r15 has the
    return address unless it is named. The entry row is `first`, or row 0."""
    spelled = [spell(one, version) for one in rows]
    return bundle(list(regions), spelled[0] if first is None else spell(first, version), result, words, spelled, version)


def spell(known, version=layout.VERSION):
    named = {15: BACK, **known}
    return row({r: e for r, e in named.items() if r != "note"}, named.get("note", CODES_UNKNOWN), version)


def then_return(words, rows, **others):
    """The words with their rows, and after them the return and a nop, whose row is that of the last word's successor."""
    return routine(words + [RETURN, NOP], rows + [rows[-1]], **others)


def made(name, one, before, register, right, small=None, **others):
    """What a word makes of a row: its register has the entry `right`, and not always one of `small`."""
    cases = [Case(name, then_return([one], [before, {register: right}], **others), "0 0 0")]
    if small is not None:
        less = then_return([one], [before, {register: small}], **others)
        cases.append(Case(name + "-and-no-less", less, f"12 0 {register}"))
    return cases


def refused(name, one, before, answer, **others):
    """A word that breaks a condition."""
    return [Case(name, then_return([one], [before, {}], **others), answer)]


# The bundle's layout. Its first region begins at byte 8, its first field after 4 bytes a region.

def layouts():
    two = routine([RETURN, NOP], [{}, {}], [(8, [field(1, READ, 0, 1), field(1, READ, 1, 1)]), (8, [])])
    yield Case("mark-first-byte", changed(two, 0, 0x56), "23 0 0")
    yield Case("mark-second-byte", changed(two, 1, 0x55), "23 0 0")
    yield Case("mark-third-byte", changed(two, 2, 0x53), "23 0 0")
    yield Case("version-257", changed(two, 3, 1), "23 0 0")
    yield Case("version-0", changed(two, 4, 0), "23 0 0")
    yield Case("version-2-with-rows-of-1", changed(two, 4, 2), "23 0 0")
    yield Case("first-region-zero", changed(two, 8 + 3, 1), "23 0 0")
    yield Case("second-region-zero", changed(two, 12 + 3, 1), "23 0 0")
    yield Case("first-field-zero", changed(two, 16 + 3, 1), "23 0 0")
    yield Case("second-field-zero", changed(two, 32 + 3, 1), "23 0 0")
    yield Case("bad-size-and-a-field-zero", changed(changed(two, 9, 4), 32 + 3, 1), "23 0 0")
    yield Case("one-byte-more", two + b"\0", "23 0 0")
    yield Case("one-byte-less", two[:-1], "23 0 0")
    yield Case("words-256-more", changed(two, 6, 1), "23 0 0")
    yield Case("empty-input", b"", "23 0 0")
    yield Case("head-alone", two[:8], "23 0 0")
    yield Case("no-region", routine([RETURN, NOP], [{}, {}]), "0 0 0")


def long_ones():
    """At and about the limits of words and bytes of version 1. The last is longer than a bundle may be, by the least that counts can give."""
    fields = [field(1, BOTH, k, 1, 0, 9) for k in range(16)]
    rows = [{}] * 128
    words = [NOP] * 126 + [RETURN, NOP]
    yield Case("full", routine(words, rows, [(16, fields)] * 8), "0 0 0")
    yield Case("word-129", routine(words + [NOP], rows + [{}]), "21 0 0")
    yield Case("word-133", routine(words + [NOP] * 5, rows + [{}] * 5), "21 0 0")
    yield Case("over-full", routine(words, rows, [(16, fields)] * 8 + [(16, [])]), "23 0 0")


# Adding regions and fields

def adds():
    whole = [RETURN, NOP], [{}, {}]
    fields = [field(1, READ, k, 1) for k in range(16)]
    yield Case("eight-regions", routine(*whole, [(8, [])] * 8), "0 0 0")
    yield Case("nine-regions", routine(*whole, [(8, [])] * 9), "18 0 0")
    yield Case("ninth-of-no-size", routine(*whole, [(8, [])] * 8 + [(12, [])]), "18 0 0")
    yield Case("second-of-nine-of-no-size", routine(*whole, [(8, [])] + [(0, [])] * 8), "19 0 0")
    yield Case("sixteen-regions", routine(*whole, [(8, [])] * 16), "18 0 0")
    yield Case("seventeen-fields", routine(*whole, [(24, fields + [field(1, READ, 16, 1)])]), "18 0 0")
    yield Case("seventeenth-bad", routine(*whole, [(24, fields + [field(0, READ, 16, 1)])]), "18 0 0")
    yield Case("seventeen-after-a-bad-one", routine(*whole, [(24, [field(1, 0, 0, 1)] + fields)]), "20 0 0")
    yield Case("seventeen-and-a-later-size", routine(*whole, [(24, fields + [field(1, READ, 16, 1)]), (12, [])]), "19 0 0")
    yield Case("no-word-and-a-bad-size", routine([], [], [(12, [])], first={}), "19 0 0")
    yield Case("no-word", routine([], [], first={}), "21 0 0")
    for size in (0, 4, 12, 4104):
        yield Case(f"size-{size}", routine(*whole, [(size, [])]), "19 0 0")
    for size in (8, 4096):
        yield Case(f"size-{size}", routine(*whole, [(size, [])]), "0 0 0")
    for name, one, good in FIELDS:
        regions = [(32, [field(1, READ, 0, 4)] + one), (8, [])]
        yield Case("field-" + name, routine(*whole, regions), "0 0 0" if good else "20 0 0")


# A field, or more, after four bytes at 0 in a region of 32 bytes, beside a region of 8; and whether they obey the rules.
FIELDS = [
    ("touching", [field(1, READ, 4, 1)], True),
    ("overlapping", [field(1, READ, 3, 1)], False),
    ("below-the-second", [field(1, READ, 8, 1), field(1, READ, 4, 1)], False),
    ("into-the-second", [field(1, READ, 8, 4), field(1, READ, 11, 1)], False),
    ("to-the-end", [field(1, READ, 4, 28)], True),
    ("one-past-the-end", [field(1, READ, 4, 29)], False),
    ("words-past-the-end", [field(5, READ, 16, 5)], False),
    ("count-0", [field(1, READ, 4, 0)], False),
    ("count-65535", [field(5, READ, 4, 65535)], False),
    ("element-0", [field(0, READ, 4, 1)], False),
    ("element-8", [field(8, READ, 4, 1)], False),
    ("permission-0", [field(1, 0, 4, 1)], False),
    ("permission-4", [field(1, 4, 4, 1)], False),
    ("permission-7", [field(1, 7, 4, 1)], False),
    ("permission-3", [field(1, BOTH, 4, 1)], True),
    ("odd-half", [field(3, READ, 5, 1)], False),
    ("even-word", [field(5, READ, 6, 1)], False),
    ("even-address", [field(6, READ, 6, 1)], False),
    ("even-address-or-null", [field(7, READ, 6, 1)], False),
    ("address-or-null-at-12", [field(7, READ, 12, 1)], True),
    ("unsigned-byte-whole", [field(1, READ, 4, 1, 0, 255)], True),
    ("unsigned-byte-256", [field(1, READ, 4, 1, 0, 256)], False),
    ("unsigned-byte-below-0", [field(1, READ, 4, 1, -1, 255)], False),
    ("signed-byte-whole", [field(2, READ, 4, 1, -128, 127)], True),
    ("signed-byte-128", [field(2, READ, 4, 1, 0, 128)], False),
    ("signed-byte-below", [field(2, READ, 4, 1, -129, 0)], False),
    ("unsigned-half-whole", [field(3, READ, 4, 1, 0, 65535)], True),
    ("unsigned-half-65536", [field(3, READ, 4, 1, 0, 65536)], False),
    ("signed-half-whole", [field(4, READ, 4, 1, -32768, 32767)], True),
    ("signed-half-32768", [field(4, READ, 4, 1, 0, 32768)], False),
    ("signed-word-whole", [field(5, READ, 4, 1, LEAST, MOST)], True),
    ("lo-above-hi", [field(1, READ, 4, 1, 3, 2)], False),
    ("lo-and-hi-alike", [field(1, READ, 4, 1, 3, 3)], True),
    ("number-with-a-target", [field(1, READ, 4, 1, 0, 0, 1)], False),
    ("target-next-region", [field(6, READ, 4, 1, 0, 0, 1)], True),
    ("target-none", [field(6, READ, 4, 1, 0, 0, 2)], False),
    ("null-target-none", [field(7, READ, 4, 1, 0, 0, 2)], False),
    ("target-7", [field(6, READ, 4, 1, 0, 0, 7)], False),
    ("address-with-lo", [field(6, READ, 4, 1, -1, 0)], False),
    ("address-with-hi", [field(7, READ, 4, 1, 0, 1)], False),
]


# Form

def forms():
    """Rows with one entry or note, in the last row: r31's entry, or the note."""
    for name, e, good in ENTRIES:
        rows = [{}, {31: e}]
        yield Case("entry-" + name, routine([RETURN, NOP], rows, TWO), "0 0 0" if good else "1 1 31")
    for name, e, good in NOTES:
        rows = [{}, {"note": e}]
        yield Case("note-" + name, routine([RETURN, NOP], rows, TWO), "0 0 0" if good else "1 1 32")
    bad = entry(5)
    yield Case("r0-of-step-1", routine([RETURN, NOP], [{0: entry(1, 0, 1)}, {}], first={}), "1 0 0")
    yield Case("r0-one", routine([RETURN, NOP], [{}, {0: number(1, 1)}]), "1 1 0")
    yield Case("r0-unset", routine([RETURN, NOP], [{}, {0: NONE}]), "1 1 0")
    yield Case("r0-up-to-8", routine([RETURN, NOP], [{}, {0: number(0, 8, 8)}]), "1 1 0")
    yield Case("r0-down-to-minus-8", routine([RETURN, NOP], [{}, {0: number(-8, 0, 8)}]), "1 1 0")
    yield Case("broken-twice", routine([RETURN, NOP], [{3: bad, 7: bad, "note": note(3)}, {1: bad}], first={}), "1 0 3")
    yield Case("broken-note-and-r31", routine([RETURN, NOP], [{31: bad, "note": note(3)}, {}], first={}), "1 0 31")
    yield Case("broken-row-after-a-word-not-read", routine([0, NOP], [{}, {5: bad}]), "1 1 5")
    for name, e in [("entry", {9: bad}), ("entry-r0", {0: NONE}), ("entry-note", {"note": note(3)})]:
        yield Case("bad-" + name, routine([RETURN, NOP], [{}, {}], first=e), "21 0 0")
    yield Case("bad-result", routine([RETURN, NOP], [{}, {}], result=bad), "21 0 0")
    yield Case("result-unset", routine([RETURN, NOP], [{}, {}]), "0 0 0")
    yield Case("result-return", routine([RETURN, NOP], [{8: BACK}, {}], result=BACK), "0 0 0")
    yield Case("result-or-null", routine([RETURN, NOP], [{8: start(1)}, {}], TWO, null_or(1)), "0 0 0")


ENTRIES = [
    ("unset-with-region", entry(0, 1), False),
    ("unset-with-step", entry(0, 0, 8), False),
    ("unset-with-lo", entry(0, 0, 0, 1), False),
    ("unset-with-hi", entry(0, 0, 0, 0, 1), False),
    ("unset-with-zero", changed(entry(0), 3, 1), False),
    ("number-with-zero", changed(number(1, 2), 3, 1), False),
    ("number-with-region", entry(1, 1, 8, 5, 5), False),
    ("number-upside-down", entry(1, 0, 1, 5, 4), False),
    ("single-of-step-1", entry(1, 0, 1, 5, 5), False),
    ("single-of-step-8", entry(1, 0, 8, 5, 5), True),
    ("step-0", entry(1, 0, 0, 0, 8), False),
    ("step-3", entry(1, 0, 3, 0, 6), False),
    ("step-16", entry(1, 0, 16, 0, 32), False),
    ("step-2", entry(1, 0, 2, 1, 5), True),
    ("step-4", entry(1, 0, 4, -3, 5), True),
    ("step-8", entry(1, 0, 8, 1, 9), True),
    ("off-step", entry(1, 0, 4, 0, 6), False),
    ("full", FULL, True),
    ("address-at-size", at(0, 64, 1, 1), True),
    ("address-above-size", at(0, 65, 1, 1), False),
    ("address-below-0", at(-1, 8, 1, 1), False),
    ("address-far-above", at(0, 4096, 1, 1), False),
    ("address-above-first", at(0, 33), False),
    ("address-off-step", at(0, 6, 4), False),
    ("address-of-no-region", at(0, 0, 8, 2), False),
    ("or-null-of-no-region", null_or(2), False),
    ("or-null-with-step", entry(3, 0, 8), False),
    ("or-null-with-hi", entry(3, 0, 0, 0, 1), False),
    ("return-with-region", entry(4, 1), False),
    ("return", BACK, True),
    ("kind-5", entry(5), False),
]
NOTES = [
    ("kind-3", note(3), False),
    ("set-with-register", note(1, 1), False),
    ("set-with-number", note(1, 0, 1), False),
    ("unset-with-number", note(0, 0, 1), False),
    ("of-r0", note(2, 0, 5), False),
    ("of-r1", note(2, 1, 5), True),
    ("of-r31-unset", note(2, 31, 5), True),
    ("of-r32", note(2, 32, 5), False),
    ("of-the-return-address", note(2, 15, -1), True),
    ("first-zero", changed(note(2, 1, 5), 2, 1), False),
    ("second-zero", changed(note(2, 1, 5), 3, 1), False),
]


# Fits: the entry row and row 0

def fitting():
    for name, a, b, good in PAIRS:
        yield Case("fits-" + name, routine([RETURN, NOP], [{31: b}, {}], TWO, first={31: a}), "0 0 0" if good else "15 0 31")
    for name, a, b, good in NOTE_PAIRS:
        held = routine([RETURN, NOP], [{"note": b}, {}], first={"note": a})
        yield Case("note-fits-" + name, held, "0 0 0" if good else "15 0 32")
    yield Case("misfits-twice", routine([RETURN, NOP], [{3: BACK, 7: BACK, "note": SET}, {}], first={3: FULL}), "15 0 3")
    yield Case("misfits-last-and-note", routine([RETURN, NOP], [{31: BACK, "note": SET}, {}], first={}), "15 0 31")
    yield Case("misfit-and-flow", routine([NOP], [{3: BACK}], first={}), "3 0 0")


PAIRS = [
    ("itself", number(1, 9, 4), number(1, 9, 4), True),
    ("unset", FULL, NONE, True),
    ("from-unset", NONE, FULL, False),
    ("lower", number(0, 9), number(1, 9), False),
    ("higher", number(1, 10), number(1, 9), False),
    ("inside", number(2, 8), number(1, 9), True),
    ("double-step", number(0, 16, 8), number(0, 16, 4), True),
    ("half-step", number(0, 16, 2), number(0, 16, 4), False),
    ("off-grid", number(2, 10, 4), number(0, 16, 4), False),
    ("grid-from-lo", number(5, 9, 4), number(1, 17, 4), True),
    ("single-on-grid", number(5, 5), number(1, 9, 4), True),
    ("single-off-grid", number(6, 6), number(1, 9, 4), False),
    ("address-as-number", at(1, 9), number(1, 9), False),
    ("null-as-number", null_or(), number(0, 0), False),
    ("number-as-address", number(0, 8), at(0, 8), False),
    ("zero-as-address", number(0, 0), start(), False),
    ("other-region", at(0, 8), at(0, 8, 1, 1), False),
    ("address-inside", at(4, 8, 4, 1), at(0, 16, 2, 1), True),
    ("or-null-as-start", null_or(), start(), False),
    ("or-null", null_or(1), null_or(1), True),
    ("or-null-of-other-region", null_or(1), null_or(0), False),
    ("null-of-second-region", number(0, 0), null_or(1), True),
    ("one-as-null", number(1, 1), null_or(), False),
    ("zero-or-eight-as-null", number(0, 8, 8), null_or(), False),
    ("start-of-second", start(1), null_or(1), True),
    ("start-of-other", start(1), null_or(0), False),
    ("offset-8-as-start", at(8, 8), null_or(), False),
    ("start-to-8-as-start", at(0, 8, 8), null_or(), False),
    ("unset-as-null", NONE, null_or(), False),
    ("return", BACK, BACK, True),
    ("number-as-return", FULL, BACK, False),
    ("unset-as-return", NONE, BACK, False),
    ("return-as-number", BACK, FULL, False),
]
NOTE_PAIRS = [
    ("set-as-unset", SET, CODES_UNKNOWN, True),
    ("unset-as-set", CODES_UNKNOWN, SET, False),
    ("compared-as-set", note(2, 1, 5), SET, True),
    ("set-as-compared", SET, note(2, 1, 5), False),
    ("unset-as-compared", CODES_UNKNOWN, note(2, 1, 5), False),
    ("other-register", note(2, 2, 5), note(2, 1, 5), False),
    ("other-number", note(2, 1, 6), note(2, 1, 5), False),
    ("itself", note(2, 1, 5), note(2, 1, 5), True),
]


# What words make

def results():
    n, few = number, number(0, 9)
    for name, op, a, b, right, small in RESULTS:
        yield from made(name, word(op, 3, 1, "r2"), {1: a, 2: b}, 3, right, small, regions=TWO)
    yield from made("sethi", sethi(3, 0x3FFFFF), {}, 3, n(-1024, -1024))
    yield from made("to-r0", word("add", 0, 1, 5), {1: few}, 1, few)
    yield from made("address-from-second-region", word("add", 3, 1, 8), {1: at(0, 48, 8, 1)}, 3, at(8, 56, 8, 1), regions=TWO)
    for name, op, a, b in NO_RULE:
        yield from refused("no-rule-" + name, word(op, 3, 1, "r2"), {1: a, 2: b}, "6 0 1", regions=TWO)
    for name, op, a, b in LEAVING:
        yield from refused("leaving-" + name, word(op, 0, 1, "r2"), {1: a, 2: b}, "16 0 1", regions=TWO)


# An operation, its operands, what it makes of them, and a smaller set (or None).
RESULTS = [
    ("add-singles-round", "add", number(MOST, MOST), number(1, 1), number(LEAST, LEAST), None),
    ("and-singles", "and", number(12, 12), number(10, 10), number(8, 8), None),
    ("or-singles", "or", number(12, 12), number(10, 10), number(14, 14), None),
    ("xor-singles", "xor", number(12, 12), number(10, 10), number(6, 6), None),
    ("sub-singles", "sub", number(12, 12), number(10, 10), number(2, 2), None),
    ("andn-singles", "andn", number(12, 12), number(10, 10), number(4, 4), None),
    ("orn-singles", "orn", number(12, 12), number(10, 10), number(-3, -3), None),
    ("xnor-singles", "xnor", number(12, 12), number(10, 10), number(-7, -7), None),
    ("sll-single-by-48", "sll", number(3, 3), number(48, 48), number(3 << 16, 3 << 16), None),
    ("srl-single-by-48", "srl", number(-1, -1), number(48, 48), number(65535, 65535), None),
    ("sra-single-by-48", "sra", number(-2**20 - 1, -2**20 - 1), number(48, 48), number(-17, -17), None),
    ("or-with-first-0", "or", number(0, 0), number(1, 9, 4), number(1, 9, 4), None),
    ("or-with-second-0", "or", number(1, 9, 4), number(0, 0), number(1, 9, 4), None),
    ("or-moves-return", "or", number(0, 0), BACK, BACK, None),
    ("or-moves-or-null", "or", null_or(1), number(0, 0), null_or(1), None),
    ("or-moves-address", "or", number(0, 0), at(8, 16, 4, 1), at(8, 16, 4, 1), None),
    ("or-with-1", "or", number(0, 8, 8), number(1, 1), FULL, number(0, MOST)),
    ("xor-with-first-0", "xor", number(0, 0), number(0, 8), FULL, number(0, 8)),
    ("andn-with-0", "andn", number(0, 8), number(0, 0), FULL, number(0, 8)),
    ("or-of-bytes", "or", number(0, 200), number(0, 100), FULL, number(0, 255)),
    ("add", "add", number(1, 9, 4), number(0, 4, 2), number(1, 13, 2), number(1, 13, 4)),
    ("add-steps-other-way", "add", number(0, 4, 2), number(1, 9, 4), number(1, 13, 2), number(1, 13, 4)),
    ("sub", "sub", number(1, 9, 4), number(0, 4, 2), number(-3, 9, 2), number(1, 9, 2)),
    ("sub-0", "sub", number(0, 8, 8), number(0, 0), number(0, 8, 8), None),
    ("sum-to-the-most", "add", number(0, MOST - 1), number(1, 1), number(1, MOST), None),
    ("sum-from-the-least", "add", number(LEAST + 1, 0), number(-1, -1), number(LEAST, -1), None),
    ("sum-above", "add", number(0, MOST), number(0, 1), FULL, number(0, MOST)),
    ("sum-below", "sub", number(LEAST, 0), number(0, 1), FULL, number(LEAST, 0)),
    ("and-two", "and", number(4, 200, 4), number(0, 100, 4), number(0, 100), number(0, 100, 4)),
    ("and-two-other-way", "and", number(0, 100, 4), number(4, 200, 4), number(0, 100), number(0, 99)),
    ("and-from-above-0", "and", number(8, 100, 4), number(8, 200, 4), number(0, 100), number(8, 100)),
    ("and-from-0", "and", number(0, 200), number(0, 100), number(0, 100), number(0, 99)),
    ("and-first", "and", number(0, 100), FULL, number(0, 100), number(0, 99)),
    ("and-second", "and", FULL, number(0, 100), number(0, 100), None),
    ("and-negatives", "and", number(-8, -1), number(-9, 5), FULL, number(LEAST, 5)),
    ("and-with-0", "and", FULL, number(0, 0), number(0, 0), None),
    ("andn", "andn", number(0, 8), number(1, 2), FULL, number(0, 8)),
    ("sll-by-1", "sll", number(-3, 3, 2), number(1, 1), number(-6, 6, 4), None),
    ("sll-by-2", "sll", number(0, 3), number(2, 2), number(0, 12, 4), number(0, 16, 8)),
    ("sll-by-4", "sll", number(0, 3), number(4, 4), number(0, 48, 8), None),
    ("sll-by-0", "sll", number(0, 8, 4), number(0, 0), number(0, 8, 4), None),
    ("sll-by-33", "sll", number(0, 3), number(33, 33), number(0, 6, 2), None),
    ("sll-above", "sll", number(0, 2**30), number(1, 1), FULL, number(0, MOST)),
    ("sll-below", "sll", number(-2**30 - 1, 0), number(1, 1), FULL, None),
    ("sll-to-the-least", "sll", number(-2**30, 0), number(1, 1), number(LEAST, 0, 2), None),
    ("sll-by-many", "sll", number(1, 1), number(0, 1), FULL, number(0, MOST)),
    ("sra", "sra", number(-5, 8), number(1, 1), number(-3, 4), number(-2, 4)),
    ("sra-of-steps", "sra", number(0, 32, 8), number(1, 1), number(0, 16), number(0, 16, 4)),
    ("sra-by-0", "sra", number(0, 8, 4), number(0, 0), number(0, 8), number(0, 8, 4)),
    ("sra-by-minus-1", "sra", number(-5, 8), number(-1, -1), number(-1, 0), None),
    ("sra-to-one", "sra", number(0, 7), number(3, 3), number(0, 0), None),
    ("sra-below", "sra", number(-8, -5), number(1, 1), number(-4, -3), None),
    ("srl", "srl", number(0, 9), number(1, 1), number(0, 4), number(0, 3)),
    ("srl-full-by-24", "srl", FULL, number(24, 24), number(0, 255), number(0, 254)),
    ("srl-negative-by-1", "srl", number(-8, 9), number(1, 1), number(0, MOST), number(0, MOST - 1)),
    ("srl-negative-by-0", "srl", number(-8, 9), number(0, 0), FULL, number(-8, 9)),
    ("srl-by-0", "srl", number(0, 8, 4), number(0, 0), number(0, 8), number(0, 8, 4)),
    ("address-plus", "add", at(8, 16, 8), number(-4, 4, 4), at(4, 20, 4), at(4, 20, 8)),
    ("plus-address", "add", number(-4, 4, 4), at(8, 16, 8, 1), at(4, 20, 4, 1), None),
    ("address-minus", "sub", at(8, 16, 4), number(0, 4, 4), at(4, 16, 4), at(8, 16, 4)),
    ("address-to-size", "add", at(0, 28), number(4, 4), at(4, 32), None),
    ("address-to-size-of-second", "add", at(0, 32, 1, 1), number(32, 32), at(32, 64, 1, 1), None),
    ("address-plus-eight", "add", at(0, 8, 4), number(8, 8), at(8, 16, 4), at(8, 16, 8)),
    ("address-to-start", "sub", at(4, 8, 4), number(4, 4), at(0, 4, 4), None),
    ("or-null-minus-0", "sub", null_or(1), number(0, 0), null_or(1), None),
]
NO_RULE = [
    ("addresses-added", "add", start(), start()),
    ("addresses-subtracted", "sub", at(8, 8), start()),
    ("number-minus-address", "sub", number(40, 40), at(8, 8)),
    ("address-or-number", "or", at(8, 8), number(8, 8)),
    ("address-and-number", "and", at(8, 8), FULL),
    ("address-shifted", "sll", at(8, 8), number(1, 1)),
    ("shift-by-address", "srl", number(8, 8), start()),
    ("or-null-plus-0", "add", null_or(), number(0, 0)),
    ("zero-plus-or-null", "add", number(0, 0), null_or()),
    ("or-null-minus-1", "sub", null_or(), number(1, 1)),
    ("or-null-minus-few", "sub", null_or(), number(0, 8)),
    ("return-minus-0", "sub", BACK, number(0, 0)),
    ("return-plus-number", "add", BACK, number(8, 8)),
    ("return-and-number", "and", BACK, number(0, 8)),
    ("zero-xor-address", "xor", number(0, 0), start()),
]
LEAVING = [
    ("above", "add", at(0, 32), number(1, 1)),
    ("below", "sub", at(0, 8), number(1, 1)),
    ("second-above", "add", at(0, 64, 1, 1), number(1, 1)),
    ("above-by-number", "add", number(0, 33), start()),
    ("far-above", "add", at(8, 8), number(0, MOST)),
    ("above-by-difference", "sub", at(0, 32), number(-1, 0)),
]


# Conditions of a word, and notes

def conditions():
    few, both = number(0, 9), {1: NONE, 2: NONE}
    yield from refused("unset-twice", word("add", 3, 1, "r2"), both, "4 0 1")
    yield from refused("unset-second", word("sub", 3, 1, "r2"), {1: few}, "4 0 2")
    yield from refused("unset-first", word("sll", 3, 1, "r2"), {2: few}, "4 0 1")
    yield from refused("unset-and-or-null", word("add", 3, 1, "r2"), {1: null_or()}, "4 0 2", regions=TWO)
    for name, one, before, after, good in AFTER:
        yield Case("note-" + name, then_return([one], [before, after]), "0 0 0" if good else "12 0 32")
    for name, e in [("or-null", null_or()), ("address", at(0, 8))]:
        rows = [{1: e}, {"note": note(2, 1, 0)}]
        yield Case("note-by-compare-of-" + name, then_return([word("subcc", 0, 1, 0)], rows, regions=TWO), "0 0 0")
    yield Case("misfit-of-two", then_return([NOP], [{}, {3: few, 7: few, "note": SET}]), "12 0 3")


FEW = {1: number(0, 9), 2: number(5, 5), 3: number(0, 9)}
AFTER = [
    ("by-compare", word("subcc", 0, 1, 5), FEW, {"note": note(2, 1, 5)}, True),
    ("by-compare-with-register", word("subcc", 0, 1, "r2"), FEW, {"note": note(2, 1, 5)}, True),
    ("by-compare-into-other", word("subcc", 4, 1, 5), FEW, {"note": note(2, 1, 5)}, True),
    ("by-compare-into-second", word("subcc", 2, 1, "r2"), FEW, {"note": note(2, 1, 5)}, True),
    ("by-compare-into-itself", word("subcc", 1, 1, 5), FEW, {"note": note(2, 1, 5)}, False),
    ("set-by-compare-into-itself", word("subcc", 1, 1, 5), FEW, {"note": SET}, True),
    ("by-compare-of-r0", word("subcc", 0, 0, 5), FEW, {"note": note(2, 1, 5)}, False),
    ("by-compare-with-many", word("subcc", 0, 1, "r3"), FEW, {"note": note(2, 1, 0)}, False),
    ("by-addition", word("addcc", 0, 1, -5), FEW, {"note": note(2, 1, 5)}, False),
    ("by-addition-of-the-same", word("addcc", 0, 1, 5), FEW, {"note": note(2, 1, 5)}, False),
    ("by-and", word("andcc", 0, 1, 5), FEW, {"note": note(2, 1, 5)}, False),
    ("set-by-and", word("andcc", 0, 1, 5), FEW, {"note": SET}, True),
    ("not-by-sub", word("sub", 0, 1, 5), FEW, {"note": SET}, False),
    ("kept-by-other-write", word("add", 3, 1, 5), {**FEW, "note": note(2, 1, 5)}, {"note": note(2, 1, 5)}, True),
    ("lost-by-write", word("or", 1, 1, 0), {**FEW, "note": note(2, 1, 5)}, {"note": note(2, 1, 5)}, False),
    ("set-after-write", sethi(1, 0), {**FEW, "note": note(2, 1, 5)}, {"note": SET}, True),
]


# Loads and stores

FIELD_KINDS = [
    (32, [field(1, BOTH, 0, 4, 0, 9), field(2, BOTH, 4, 4, -9, 9), field(3, BOTH, 8, 2, 0, 999), field(4, BOTH, 12, 2, -99, 99),
          field(5, BOTH, 16, 2, -5, 5), field(6, BOTH, 24, 1, target=1), field(7, BOTH, 28, 1, target=1)]),
    (32, [field(5, READ, 0, 2, 7, 7), field(5, WRITE, 8, 2, 0, 9), field(5, BOTH, 24, 1, 0, 3)]),
]
LOADS = [("ldub", 0, number(0, 9)), ("ldsb", 4, number(-9, 9)), ("lduh", 8, number(0, 999)), ("ldsh", 12, number(-99, 99)),
         ("ld", 16, number(-5, 5)), ("ld", 24, start(1)), ("ld", 28, null_or(1))]

UNSERVED = [("ldub", 4), ("ldsb", 0), ("lduh", 12), ("ldsh", 8), ("ldub", 8), ("ldsh", 16), ("ld", 0), ("lduh", 28)]


def accesses():
    for name, offset, right in LOADS:
        yield from made(f"{name}-at-{offset}", word(name, 3, 8, offset), {8: start()}, 3, right, regions=FIELD_KINDS)
    for name, offset in UNSERVED:
        yield from refused(f"{name}-at-{offset}", word(name, 3, 8, offset), {8: start()}, "8 0 8", regions=FIELD_KINDS)
    for name, one, before, answer in ACCESSES:
        yield Case(name, then_return([one], [before, {}], regions=FIELD_KINDS), answer)
    yield from made("loads-single", word("ld", 3, 8, 0), {8: start(1)}, 3, number(7, 7), regions=FIELD_KINDS)
    some = number(-9, 9), number(-9, 9, 2)
    yield from made("loads-not-every-second", word("ldsb", 3, 8, 4), {8: start()}, 3, *some, regions=FIELD_KINDS)
    kept = {8: start(), 3: number(1, 2)}
    stored = then_return([word("stb", 3, 8, 0)], [kept, {3: number(1, 2)}], regions=FIELD_KINDS)
    yield Case("store-keeps-register", stored, "0 0 0")


FIRST, SECOND = {8: start()}, {8: start(1)}
ACCESSES = [
    ("stb-signed", word("stb", 3, 8, 4), {**FIRST, 3: number(-9, 9)}, "0 0 0"),
    ("sth-signed", word("sth", 3, 8, 12), {**FIRST, 3: number(-9, 9)}, "0 0 0"),
    ("sth-unsigned", word("sth", 3, 8, 8), {**FIRST, 3: number(0, 9)}, "0 0 0"),
    ("st-start", word("st", 3, 8, 24), {**FIRST, 3: start(1)}, "0 0 0"),
    ("st-null", word("st", 3, 8, 28), {**FIRST, 3: number(0, 0)}, "0 0 0"),
    ("st-or-null", word("st", 3, 8, 28), {**FIRST, 3: null_or(1)}, "0 0 0"),
    ("st-or-null-as-start", word("st", 3, 8, 24), {**FIRST, 3: null_or(1)}, "11 0 3"),
    ("st-start-of-other", word("st", 3, 8, 28), {**FIRST, 3: start()}, "11 0 3"),
    ("stb-too-much", word("stb", 3, 8, 0), {**FIRST, 3: number(0, 10)}, "11 0 3"),
    ("stb-word-field", word("stb", 3, 8, 16), {**FIRST, 3: number(0, 1)}, "8 0 8"),
    ("sth-byte-field", word("sth", 3, 8, 0), {**FIRST, 3: number(0, 1)}, "8 0 8"),
    ("one-past", word("ldub", 3, 8, 32), FIRST, "7 0 8"),
    ("before", word("ldub", 3, 8, -1), FIRST, "7 0 8"),
    ("over-two-fields", word("ldub", 3, 8, "r2"), {**FIRST, 2: number(3, 4)}, "7 0 8"),
    ("word-past-the-end", word("ld", 3, 8, 13), SECOND, "7 0 8"),
    ("gap", word("ld", 3, 8, 16), SECOND, "7 0 8"),
    ("gap-before", word("ld", 3, 8, 23), SECOND, "7 0 8"),
    ("number-first", word("ld", 3, 2, "r8"), {8: start(), 2: number(16, 20, 4)}, "0 0 0"),
    ("number-first-outside", word("ld", 3, 2, "r8"), {8: start(1), 2: number(16, 20, 4)}, "7 0 2"),
    ("far-outside", word("ld", 3, 8, "r2"), {8: at(8, 8), 2: number(MOST, MOST)}, "7 0 8"),
    ("off-grid", word("ld", 3, 8, 2), SECOND, "9 0 8"),
    ("step-2", word("ld", 3, 8, "r2"), {**SECOND, 2: number(0, 4, 2)}, "9 0 8"),
    ("step-2-first", word("ld", 3, 8, "r2"), {8: at(0, 4, 2, 1), 2: number(0, 0)}, "9 0 8"),
    ("step-8", word("ld", 3, 8, "r2"), {8: start(), 2: number(16, 20, 4)}, "0 0 0"),
    ("half-odd", word("lduh", 3, 8, 9), FIRST, "9 0 8"),
    ("wide-step", word("lduh", 3, 8, "r2"), {8: at(8, 8), 2: number(0, 2, 2)}, "0 0 0"),
    ("bytes-by-eights", word("ldub", 3, 8, "r2"), {8: start(), 2: number(0, 2, 2)}, "0 0 0"),
    ("write-only", word("ld", 3, 8, 8), SECOND, "10 0 8"),
    ("read-only", word("st", 3, 8, 0), {**SECOND, 3: number(7, 7)}, "10 0 8"),
    ("read-only-and-value", word("st", 3, 8, 0), {**SECOND, 3: number(8, 8)}, "10 0 8"),
    ("write-only-off-grid", word("ld", 3, 8, 10), SECOND, "9 0 8"),
    ("write-only-wrong-element", word("ldub", 3, 8, 8), SECOND, "8 0 8"),
    ("wrong-element-off-grid", word("lduh", 3, 8, 1), SECOND, "8 0 8"),
    ("to-write-only", word("st", 3, 8, 8), {**SECOND, 3: number(0, 9)}, "0 0 0"),
    ("load-to-r0", word("ld", 0, 8, 8), SECOND, "10 0 8"),
    ("access-unset-twice", word("ldub", 3, 1, "r2"), {}, "4 0 1"),
    ("access-unset-second", word("ldub", 3, 8, "r2"), FIRST, "4 0 2"),
    ("store-unset-thrice", word("stb", 3, 8, "r2"), FIRST, "4 0 2"),
    ("store-unset", word("stb", 3, 8, 0), FIRST, "4 0 3"),
    ("store-unset-to-or-null", word("stb", 3, 8, 0), {8: null_or()}, "4 0 3"),
    ("store-unset-to-number", word("stb", 3, 8, 0), {8: number(0, 8)}, "4 0 3"),
    ("or-null-unset", word("ldub", 3, 1, "r2"), {1: null_or()}, "4 0 2"),
    ("or-null-twice", word("ldub", 3, 1, "r2"), {1: null_or(), 2: null_or()}, "5 0 1"),
    ("or-null-second", word("ldub", 3, 1, "r2"), {1: number(0, 8), 2: null_or()}, "5 0 2"),
    ("or-null-first", word("ldub", 3, 1, 0), {1: null_or()}, "5 0 1"),
    ("or-null-and-address", word("ldub", 3, 1, "r2"), {1: null_or(), 2: start()}, "5 0 1"),
    ("address-and-or-null", word("ldub", 3, 1, "r2"), {1: start(), 2: null_or()}, "5 0 2"),
    ("two-numbers", word("ldub", 3, 1, 8), {1: number(0, 8)}, "6 0 1"),
    ("two-addresses", word("ldub", 3, 1, "r2"), {1: start(), 2: start()}, "6 0 1"),
    ("return-and-number", word("ldub", 3, 15, 0), {}, "6 0 15"),
]


# Words that are not read, and those beside them that are

def words():
    for one in UNREAD:
        yield Case(f"not-read-{one:08x}", routine([one], [{}]), "2 0 0")
    for one in WITH_OPCODES:
        number_given = 24 if assembly.opcode_of(one) in assembly.PRIVILEGED else 2
        yield Case(f"opcode-{one:08x}", routine([one], [{}]), f"{number_given} 0 0")
    for name, code, answer in PRIVILEGED:
        yield Case("privileged-" + name, routine(code, [{}] * len(code)), answer)
    known = {1: number(0, 9), 2: number(1, 1), 8: start()}
    for one in READ_TOO:
        yield Case(f"read-{one:08x}", then_return([one], [known, {}], regions=BYTES), "0 0 0")
    high = {30: number(5, 5), 29: number(2, 2)}
    yield from made("reads-r13-r30-r29", word("sub", 13, 30, "r29"), high, 13, number(3, 3))
    yield Case("reads-number-4095", then_return([word("or", 3, 0, 4095)], [{}, {3: number(4095, 4095)}]), "0 0 0")
    yield Case("reads-number-minus-4096", then_return([word("or", 3, 0, -4096)], [{}, {3: number(-4096, -4096)}]), "0 0 0")


UNREAD = [
    0x00000000, 0x00C00000, 0x01400000, 0x01800000, 0x01C00000,                       # format 00: all but SETHI and branches
    0x40000000, 0x41000000, 0x50800000, 0x7FFFFFFF,                                    # CALL
    0x81C3E00C, 0x83C3E008, 0x81C7E008, 0x81C3C008,                                    # JMPL beside the leaf return
    0x80400000, 0x80780000, 0x80C00000, 0x81200000, 0x81400000,                        # format 10: opcodes 08, 0F, 18, 24, 28
    0x80000020, 0x80001000, 0x80A00020, 0x81280020, 0x81281000, 0x81282020, 0x81283000,  # bits 12:5
    0xC0180000, 0xC0380000, 0xC0400000, 0xC0580000, 0xC0700000, 0xC0000020, 0xC0001000,  # format 11
    0x81F00000, 0x83F00000, 0xBFF7FFFF,                                                # DONE, RETRY of V9 (opcode 3E)
]
# Each privileged opcode and each beside one, every other bit 0 and every other bit 1
WITH_OPCODES = [one for opcode in [*assembly.PRIVILEGED, *assembly.BESIDE_PRIVILEGED] for one in assembly.opcode_words(opcode)]
READS_STATE, LOADS_SPACE = 0x83480000, 0xC4820141  # rd %psr,%g1; lda [%o0+%g1]10,%g2
PRIVILEGED = [
    ("alone", [READS_STATE], "24 0 0"),
    ("with-bits-12-to-5", [LOADS_SPACE], "24 0 0"),
    ("then-not-read", [READS_STATE, 0], "24 0 0"),
    ("after-not-read", [0, READS_STATE], "2 0 0"),
    ("second", [NOP, READS_STATE, 0], "24 1 0"),
    ("in-skipped-slot", [branch(ALWAYS, 2, True), LOADS_SPACE, RETURN, NOP], "24 1 0"),
    ("after-flow", [branch(ALWAYS, 100), NOP, LOADS_SPACE], "24 2 0"),
]
READ_TOO = [0x80000001, 0x80B80001, 0x80383FFF, 0x81380001, 0x8138201F, 0xC00A2001, 0xC00A201D]


# Flow

def flows():
    ready = {"note": SET}
    for name, code, answer in FLOWS:
        yield Case("flow-" + name, routine(code, [ready] * len(code)), answer)


ONWARD = [RETURN, NOP]
FLOWS = [
    ("nop-alone", [NOP], "3 0 0"),
    ("return-alone", [RETURN], "3 0 0"),
    ("branch-last", [NOP, branch(ALWAYS, -1)], "3 1 0"),
    ("after-slot", [RETURN, NOP, NOP], "3 2 0"),
    ("return-in-slot", [RETURN, RETURN, NOP], "3 1 0"),
    ("branch-in-slot", [RETURN, branch(ALWAYS, -1), NOP], "3 1 0"),
    ("never-in-slot", [branch(NEVER, 0), branch(NEVER, 0), NOP, *ONWARD], "3 1 0"),
    ("slot-of-a-slot", [branch(ALWAYS, 2), branch(ALWAYS, 1), NOP, *ONWARD], "3 1 0"),
    ("always-to-itself", [branch(ALWAYS, 0), NOP], "0 0 0"),
    ("to-own-slot", [branch(ALWAYS, 1), NOP, *ONWARD], "0 0 0"),
    ("to-own-slot-skipped", [branch(ALWAYS, 1, True), NOP, *ONWARD], "0 0 0"),
    ("to-slot-of-return", [branch(ALWAYS, 3), NOP, *ONWARD, *ONWARD], "0 0 0"),
    ("to-slot-of-always", [branch(ALWAYS, 3), NOP, branch(ALWAYS, 2), NOP, *ONWARD], "0 0 0"),
    ("to-slot-of-equal", [branch(ALWAYS, 3), NOP, branch(EQUAL, 0), NOP, *ONWARD], "0 0 0"),
    ("to-slot-of-never", [branch(ALWAYS, 3), NOP, branch(NEVER, 0), NOP, *ONWARD], "0 0 0"),
    ("to-slot-of-annulled-always", [branch(ALWAYS, 3), NOP, branch(ALWAYS, -2, True), NOP, *ONWARD], "0 0 0"),
    ("to-slot-of-annulled-never", [branch(ALWAYS, 3), NOP, branch(NEVER, 0, True), NOP, *ONWARD], "0 0 0"),
    ("to-slot-before", [branch(ALWAYS, 2), NOP, branch(EQUAL, -1), NOP, *ONWARD], "0 0 0"),
    ("to-own-last-slot", [branch(ALWAYS, 1), NOP], "3 1 0"),
    ("to-own-last-slot-skipped", [NOP, branch(ALWAYS, 1, True), NOP], "3 2 0"),
    ("to-own-last-slot-and-on", [NOP, branch(EQUAL, 1), NOP], "3 1 0"),
    ("to-last-slot-of-return", [NOP, branch(ALWAYS, 3), NOP, *ONWARD], "3 4 0"),
    ("to-last-slot-of-return-from-unreached", [*ONWARD, branch(EQUAL, 3), NOP, *ONWARD], "3 5 0"),
    ("to-last-slot-of-always", [branch(ALWAYS, 3), NOP, branch(ALWAYS, -2), NOP], "3 3 0"),
    ("to-last-slot-of-annulled-always", [branch(ALWAYS, 3), NOP, branch(ALWAYS, -2, True), NOP], "3 3 0"),
    ("to-last-slot-and-a-bad-target", [branch(ALWAYS, 5), NOP, branch(ALWAYS, 100), NOP, *ONWARD], "3 2 0"),
    ("to-last-slot-and-a-transfer-in-slot", [branch(ALWAYS, 5), NOP, RETURN, RETURN, RETURN, NOP], "3 3 0"),
    ("never-to-last-slot", [branch(NEVER, 3), NOP, *ONWARD], "0 0 0"),
    ("never-annulled-to-last-slot", [branch(NEVER, 3, True), NOP, *ONWARD], "0 0 0"),
    ("to-a-transfer-in-slot", [branch(ALWAYS, 3), NOP, RETURN, RETURN, NOP], "3 3 0"),
    ("to-a-branch-in-skipped-slot", [branch(ALWAYS, 3), NOP, branch(ALWAYS, 2, True), branch(ALWAYS, 1), *ONWARD], "3 3 0"),
    ("to-a-transfer-in-own-slot", [branch(ALWAYS, 1), branch(ALWAYS, 1), *ONWARD], "3 1 0"),
    ("to-a-last-transfer-in-slot", [branch(ALWAYS, 3), NOP, RETURN, RETURN], "3 3 0"),
    ("to-the-end", [branch(ALWAYS, 2), NOP], "3 0 0"),
    ("below-0", [NOP, branch(ALWAYS, -2), NOP], "3 1 0"),
    ("to-0", [NOP, branch(ALWAYS, -1), NOP], "0 0 0"),
    ("far", [NOP, branch(ALWAYS, 0x1FFFFF), NOP], "3 1 0"),
    ("far-as-in-19-bits", [NOP, branch(ALWAYS, 0x7FFFF), NOP], "3 1 0"),
    ("far-back", [NOP, branch(ALWAYS, 0x200000), NOP], "3 1 0"),
    ("two-on", [branch(EQUAL, 0), NOP], "3 0 0"),
    ("two-on-annulled", [branch(EQUAL, 0, True), NOP], "3 0 0"),
    ("two-on-never", [branch(NEVER, 0), NOP], "3 0 0"),
    ("never-anywhere", [branch(NEVER, 100), NOP, *ONWARD], "0 0 0"),
    ("never-annulled-anywhere", [branch(NEVER, 100, True), NOP, *ONWARD], "0 0 0"),
    ("equal-anywhere", [branch(EQUAL, 100), NOP, *ONWARD], "3 0 0"),
    ("skipped-transfer", [branch(ALWAYS, 3, True), branch(ALWAYS, 0), NOP, *ONWARD], "3 1 0"),
    ("skipped-not-read", [branch(ALWAYS, 2, True), 0, *ONWARD], "2 1 0"),
    ("and-not-read", [branch(ALWAYS, 100), NOP, 0], "2 2 0"),
    ("return-at-the-end", [NOP, RETURN, NOP], "0 0 0"),
]


# Edges

def edges():
    for condition in range(16):
        if condition not in (NEVER, ALWAYS):
            yield Case(f"codes-of-{condition}", routine([branch(condition, 0), NOP, *ONWARD], [{}] * 4), "4 0 32")
    yield Case("codes-of-always", routine([branch(ALWAYS, 2), NOP, *ONWARD], [{}] * 4), "0 0 0")
    yield Case("codes-set-only", routine([branch(5, 2), NOP, *ONWARD], [{"note": SET}, {}, {}, {}]), "0 0 0")
    for name, code, rows, answer in EDGES:
        yield Case("edge-" + name, routine(code, rows, TWO), answer)


FEW_SET = {3: number(0, 9), 5: number(0, 9), "note": SET}
UNSET_ADD, COUNTS = word("add", 3, 1, 1), word("add", 3, 3, 1)
SPLIT = [NOP, *ONWARD, *ONWARD]
EDGES = [
    ("both-broken", [branch(EQUAL, 4), *SPLIT], [FEW_SET, {}, {5: number(0, 3)}, {}, {3: number(0, 3)}, {}], "12 0 3"),
    ("taken-broken", [branch(EQUAL, 4), *SPLIT], [FEW_SET, {}, {}, {}, {3: number(0, 3)}, {}], "12 0 3"),
    ("other-broken", [branch(EQUAL, 4), *SPLIT], [FEW_SET, {}, {5: number(0, 3)}, {}, {}, {}], "12 0 5"),
    ("note-broken", [branch(EQUAL, 4), *SPLIT], [FEW_SET, {}, {}, {}, {"note": note(2, 1, 1)}, {}], "12 0 32"),
    ("slot-broken", [NOP, branch(ALWAYS, 2), UNSET_ADD, *ONWARD], [{}] * 5, "4 2 1"),
    ("slot-broken-of-return", [RETURN, UNSET_ADD], [{}, {}], "4 1 1"),
    ("slot-by-branch-row", [branch(ALWAYS, 2), COUNTS, *ONWARD], [{3: number(0, 9)}, {}, {3: number(1, 10)}, {}], "0 0 0"),
    ("slot-row-not-read", [branch(ALWAYS, 2), COUNTS, *ONWARD], [{}, {3: number(0, 9)}, {}, {}], "4 1 3"),
    ("slot-then-misfit", [branch(ALWAYS, 2), COUNTS, *ONWARD], [{3: number(0, 9)}, {}, {3: number(0, 9)}, {}], "12 0 3"),
    ("annulled-always-skips", [branch(ALWAYS, 2, True), UNSET_ADD, *ONWARD], [{}] * 4, "0 0 0"),
    ("annulled-taken-runs", [branch(EQUAL, 4, True), UNSET_ADD, *ONWARD, *ONWARD], [FEW_SET] * 6, "4 1 1"),
    ("annulled-taken-counts", [branch(EQUAL, 4, True), COUNTS, *ONWARD, *ONWARD],
     [FEW_SET, {}, {3: number(0, 9)}, {}, {3: number(1, 10)}, {}], "0 0 0"),
    ("annulled-never-skips", [branch(NEVER, 0, True), UNSET_ADD, *ONWARD], [{}] * 4, "0 0 0"),
    ("never-runs-slot", [branch(NEVER, 0), UNSET_ADD, *ONWARD], [{}] * 4, "4 1 1"),
    ("untaken-counts", [branch(EQUAL, 4), COUNTS, *ONWARD, *ONWARD],
     [FEW_SET, {}, {3: number(1, 10)}, {}, {3: number(1, 10)}, {}], "0 0 0"),
    ("never-goes-on", [branch(NEVER, 4), *SPLIT], [FEW_SET, {}, {5: number(0, 3)}, {}, {3: number(0, 3)}, {}], "12 0 5"),
    ("always-goes", [branch(ALWAYS, 4), *SPLIT], [FEW_SET, {}, {5: number(0, 3)}, {}, {}, {}], "0 0 0"),
    ("unreached", [RETURN, NOP, UNSET_ADD, *ONWARD], [{}] * 5, "4 2 1"),
    ("unreached-misfit", [RETURN, NOP, NOP, *ONWARD], [{}, {}, {}, {3: number(0, 3)}, {}], "12 2 3"),
    ("after-always", [branch(ALWAYS, 3), NOP, UNSET_ADD, *ONWARD], [{}] * 5, "4 2 1"),
    ("two-words-broken", [UNSET_ADD, UNSET_ADD, *ONWARD], [{}] * 4, "4 0 1"),
    ("return-unset", [RETURN, NOP], [{15: NONE}, {}], "4 0 15"),
    ("return-number", [RETURN, NOP], [{15: FULL}, {}], "6 0 15"),
    ("entry-and-not-read", [0, NOP], [{3: BACK}, {}], "2 0 0"),
]


# Branches into slots. The branch is word 0, the slot's transfer word 2 and the slot word 3, unless it is told.

def landings():
    for name, code, rows, answer in LANDINGS:
        yield Case("landing-" + name, routine(code, rows, TWO), answer)
    for condition in range(16):
        for annul in False, True:
            name, answer = f"landing-on-{condition}" + "-annulled" * annul, "0 0 0" if condition == NEVER else "4 3 3"
            yield Case(name, routine([branch(condition, 3, annul), *BY_ALWAYS[1:]], [FEW_SET, {}, FEW, {}, {}, {}]), answer)
    adds = [branch(ALWAYS, 3), NOP, RETURN, word("add", 8, 8, 1), RETURN, word("or", 8, 0, 5)]
    small, large, more = {8: number(0, 8)}, {8: number(20, 29)}, {8: number(21, 30)}
    for name, rows, answer in [
            ("none-of-the-slot", [large, {}, small, large, more, {}], "0 0 0"),
            ("of-the-return", [large, {}, {8: number(0, 9)}, large, more, {}], "14 2 8"),
            ("by-the-returns-row", [small, {}, large, small, {}, {}], "14 2 8")]:
        yield Case("landing-result-" + name, routine(adds, rows, result=number(0, 9)), answer)


# The slot adds 1 to r3.
FEW, MORE, LATER, TO_12 = {3: number(0, 9)}, {3: number(1, 10)}, {3: number(2, 11)}, {3: number(0, 12)}
BY_ALWAYS = [branch(ALWAYS, 3), NOP, branch(ALWAYS, 2), COUNTS, *ONWARD]
BY_EQUAL = [branch(ALWAYS, 3), NOP, branch(EQUAL, 2, True), COUNTS, *ONWARD]
BY_RETURN = [branch(ALWAYS, 3), NOP, RETURN, COUNTS, *ONWARD]
SKIPPED = [branch(ALWAYS, 3), NOP, branch(ALWAYS, 2, True), COUNTS, *ONWARD]
SKIPPED_BY_NEVER = [branch(ALWAYS, 3), NOP, branch(NEVER, 0, True), COUNTS, *ONWARD]
PARTING = [branch(ALWAYS, 3), NOP, branch(ALWAYS, 4), COUNTS, *ONWARD, *ONWARD]
OWN, OWN_SKIPPED = [branch(ALWAYS, 1), COUNTS, *ONWARD], [branch(ALWAYS, 1, True), COUNTS, *ONWARD]
OWN_ON_EQUAL, BEHIND = [branch(EQUAL, 1), COUNTS, *ONWARD], [branch(ALWAYS, 2), COUNTS, branch(EQUAL, -1), NOP, *ONWARD]
UNREACHED = [branch(ALWAYS, 2), COUNTS, *ONWARD, branch(ALWAYS, -3), NOP]
STORES, STORED = [branch(ALWAYS, 3), NOP, branch(ALWAYS, 2), word("stb", 3, 1, 0), *ONWARD], {1: start(), **FEW}
NO_MEMBER = {1: number(0, 4), **FEW, "note": note(2, 1, 9)}
LANDINGS = [
    ("fits-both-ways", BY_ALWAYS, [FEW, {}, FEW, FEW, MORE, {}], "0 0 0"),
    ("unset-by-its-row", BY_ALWAYS, [FEW, {}, FEW, {}, MORE, {}], "4 3 3"),
    ("unset-by-its-row-then-another", BY_ALWAYS, [FEW, {}, FEW, {}, {15: NONE}, {}], "4 3 3"),
    ("unset-by-its-row-after-another", BY_ALWAYS, [FEW, {}, FEW, {}, LATER, {}], "12 2 3"),
    ("unset-by-its-transfers-row", BY_ALWAYS, [FEW, {}, {}, FEW, MORE, {}], "4 3 3"),
    ("misfit-of-the-branch", BY_ALWAYS, [FEW, {}, FEW, {3: number(0, 5)}, MORE, {}], "12 0 3"),
    ("misfit-of-the-branch-in-the-note", BY_ALWAYS, [FEW_SET, {}, FEW, {"note": note(2, 3, 5)}, MORE, {}], "12 0 32"),
    ("fits-its-row-alone", BY_ALWAYS, [FEW, {}, {3: number(0, 5)}, FEW, MORE, {}], "0 0 0"),
    ("misfit-of-the-slot", BY_ALWAYS, [FEW, {}, FEW, TO_12, MORE, {}], "12 3 3"),
    ("misfit-of-the-slot-then-another", BY_ALWAYS, [FEW, {}, FEW, TO_12, {**MORE, 15: NONE}, {}], "12 3 3"),
    ("misfit-of-the-transfer", BY_ALWAYS, [FEW, {}, TO_12, FEW, MORE, {}], "12 2 3"),
    ("misfit-of-transfer-and-slot", BY_ALWAYS, [FEW, {}, TO_12, TO_12, MORE, {}], "12 2 3"),
    ("parts-from-the-transfer", PARTING, [FEW, {}, FEW, TO_12, {3: number(1, 13)}, {}, MORE, {}], "0 0 0"),
    ("misfit-where-it-parts", PARTING, [FEW, {}, FEW, FEW, LATER, {}, MORE, {}], "12 3 3"),
    ("on-equal-unset-by-its-row", BY_EQUAL, [FEW, {}, FEW_SET, {}, {}, {}], "4 3 3"),
    ("of-return-fits-both-ways", BY_RETURN, [FEW, {}, FEW, FEW, MORE, {}], "0 0 0"),
    ("of-return-unset-by-its-row", BY_RETURN, [FEW, {}, FEW, {}, {}, {}], "4 3 3"),
    ("of-return-unset-by-the-returns-row", BY_RETURN, [FEW, {}, {}, FEW, MORE, {}], "4 3 3"),
    ("of-return-misfit", BY_RETURN, [FEW, {}, FEW, FEW, LATER, {}], "12 3 3"),
    ("skipped-by-its-row", SKIPPED, [FEW, {}, {}, FEW, {}, {}], "0 0 0"),
    ("skipped-unset-by-its-row", SKIPPED, [FEW, {}, FEW, {}, {}, {}], "4 3 3"),
    ("skipped-misfit", SKIPPED, [FEW, {}, LATER, FEW, LATER, {}], "12 3 3"),
    ("skipped-by-never-by-its-row", SKIPPED_BY_NEVER, [FEW, {}, {}, FEW, {}, {}], "0 0 0"),
    ("skipped-by-never-unset-by-its-row", SKIPPED_BY_NEVER, [FEW, {}, FEW, {}, {}, {}], "4 3 3"),
    ("own-twice", OWN, [FEW, MORE, LATER, {}], "0 0 0"),
    ("own-unset-by-its-row", OWN, [FEW, {}, {}, {}], "4 1 3"),
    ("own-misfit-of-the-branch", OWN, [FEW, FEW, {}, {}], "12 0 3"),
    ("own-misfit-of-the-slot", OWN, [FEW, MORE, MORE, {}], "12 1 3"),
    ("own-skipped-once", OWN_SKIPPED, [FEW, FEW, MORE, {}], "0 0 0"),
    ("own-skipped-unset-by-its-row", OWN_SKIPPED, [FEW, {}, {}, {}], "4 1 3"),
    ("own-on-equal-once-or-twice", OWN_ON_EQUAL, [FEW_SET, MORE, {3: number(1, 11)}, {}], "0 0 0"),
    ("own-on-equal-misfit-of-the-slot", OWN_ON_EQUAL, [FEW_SET, MORE, MORE, {}], "12 1 3"),
    ("from-behind", BEHIND, [FEW_SET, {}, {"note": SET}, {}, {}, {}], "4 1 3"),
    ("from-behind-misfit", BEHIND, [FEW_SET, {**FEW, "note": SET}, {**MORE, "note": SET}, {}, {}, {}], "12 2 3"),
    ("from-the-last-branch", [branch(ALWAYS, 2), COUNTS, branch(ALWAYS, -1), NOP], [FEW, {}, {}, {}], "4 1 3"),
    ("from-an-unreached-branch", UNREACHED, [FEW, {}, {}, {}, {}, {}], "4 1 3"),
    ("with-no-member-left", [branch(EQUAL, 3), *BY_ALWAYS[1:]], [NO_MEMBER, {}, FEW, {}, {}, {}], "4 3 3"),
    ("with-no-member-left-fits", [branch(EQUAL, 3), *BY_ALWAYS[1:]], [NO_MEMBER, {}, FEW, {3: number(0, 3)}, MORE, {}], "0 0 0"),
    ("stores", STORES, [STORED, {}, STORED, STORED, {}, {}], "0 0 0"),
    ("stores-outside-by-its-row", STORES, [STORED, {}, STORED, {**STORED, 1: at(0, 8)}, {}, {}], "7 3 1"),
    ("stores-too-much-by-its-row", STORES, [STORED, {}, STORED, {1: start(), **TO_12}, {}, {}], "11 3 3"),
    ("stores-too-much-by-its-transfers-row", STORES, [STORED, {}, {1: start(), **TO_12}, STORED, {}, {}], "11 3 3"),
]


def returns():
    few = number(0, 9)
    yield Case("result-too-large", routine([NOP, RETURN, NOP], [{8: few}] * 3, result=number(0, 8)), "14 1 8")
    yield Case("result-unset-in-r8", routine([RETURN, NOP], [{9: few}, {}], result=few), "14 0 8")
    yield Case("result-after-slot", routine([RETURN, word("add", 8, 8, 1)], [{8: few}, {}], result=number(1, 10)), "0 0 0")
    yield Case("result-fits-before-slot", routine([RETURN, word("add", 8, 8, 1)], [{8: few}, {}], result=few), "14 0 8")
    yield Case("result-of-slot-row", routine([RETURN, NOP], [{}, {8: few}], result=few), "14 0 8")
    yield Case("result-inside", routine([RETURN, NOP], [{8: number(1, 2)}, {}], result=few), "0 0 0")


# The caller's registers, r14 and r16 to r31: no word may write them, any word may read them. TAKES writes r16.

TAKES, TAKES_POINTER, TAKES_LAST = sethi(16, 0), sethi(14, 0), sethi(31, 0)


def writers(rd):
    """A word of each sort that writes a register, with its name."""
    yield "sethi", sethi(rd, 5)
    for name, (form, _) in OPCODES.items():
        if form == 2:
            yield name, word(name, rd, 1, 5)
            yield name + "-registers", word(name, rd, 1, "r2")
    for name, offset, _ in LOADS[:5]:
        yield name, word(name, rd, 8, offset)


def written():
    """A word of each sort to registers that are the caller's and to some beside these, and then a branch to itself."""
    known = {1: number(0, 9), 2: number(1, 1), 8: start()}
    for rd, answer in WRITTEN.items():
        for name, one in writers(rd):
            yield Case(f"{name}-to-r{rd}", routine([one, branch(ALWAYS, 0), NOP], [known, {15: NONE}, {}], FIELD_KINDS), answer)
    for name, one, before, answer in TAKEN:
        yield Case("caller-" + name, then_return([one], [before, {}], regions=FIELD_KINDS), answer)
    for name, one, before, after, answer in READ_ALONE:
        yield Case("caller-" + name, then_return([one], [before, after], regions=FIELD_KINDS), answer)
    for name, code, rows, answer in BEFORE_AND_AFTER:
        yield Case("caller-" + name, routine(code, rows, first={}, result=number(0, 9)), answer)


# A register as destination, and the answer.
WRITTEN = {
    0: "0 0 0", 8: "0 0 0", 13: "0 0 0", 14: "25 0 14", 15: "0 0 0", 16: "25 0 16", 17: "25 0 17", 23: "25 0 23", 24: "25 0 24",
    30: "25 0 30", 31: "25 0 31",
}
# A word that takes a register of the caller, before any other condition of it; what it does to that register does not matter.
TAKEN = [
    ("copied-to-itself", word("or", 16, 16, 0), {16: number(3, 3)}, "25 0 16"),
    ("copied-to-itself-from-r0", word("or", 31, 0, "r31"), {31: start()}, "25 0 31"),
    ("given-what-it-has", sethi(16, 0), {16: number(0, 0)}, "25 0 16"),
    ("set", word("add", 20, 20, 1), {20: number(0, 9)}, "25 0 20"),
    ("pointer-moved", word("add", 14, 14, -96), {14: at(0, 8)}, "25 0 14"),
    ("from-another-of-the-caller", word("add", 17, 30, "r24"), {30: number(0, 9), 24: number(0, 9)}, "25 0 17"),
    ("from-r16-to-r31", word("or", 31, 16, "r0"), {16: number(0, 9)}, "25 0 31"),
    ("from-unset", word("add", 16, 1, 1), {}, "25 0 16"),
    ("from-unset-second", word("sub", 14, 0, "r2"), {}, "25 0 14"),
    ("without-a-rule", word("add", 16, 1, "r1"), {1: start()}, "25 0 16"),
    ("leaving-its-region", word("sub", 16, 1, 1), {1: start()}, "25 0 16"),
    ("loaded-from-or-null", word("ld", 16, 1, 0), {1: null_or()}, "25 0 16"),
    ("loaded-from-a-number", word("ldub", 16, 1, 0), {1: number(0, 9)}, "25 0 16"),
    ("loaded-from-outside", word("ldub", 31, 8, 32), FIRST, "25 0 31"),
    ("loaded-from-another-element", word("ldub", 16, 8, 8), FIRST, "25 0 16"),
    ("loaded-off-grid", word("ld", 16, 8, 2), SECOND, "25 0 16"),
    ("loaded-without-permission", word("ld", 14, 8, 8), SECOND, "25 0 14"),
    ("loaded-through-itself", word("ldub", 16, 16, 0), {16: start()}, "25 0 16"),
    ("loaded-with-an-index", word("ldsh", 24, 8, "r2"), {**FIRST, 2: number(12, 14, 2)}, "25 0 24"),
]
# A word that reads a register of the caller, or says less or more of one; the row before it and the row after it.
READ_ALONE = [
    ("compared", word("subcc", 0, 16, 5), {16: number(0, 9)}, {16: number(0, 9), "note": note(2, 16, 5)}, "0 0 0"),
    ("pointer-compared", word("subcc", 0, 14, 0), {14: start()}, {14: start(), "note": note(2, 14, 0)}, "0 0 0"),
    ("added-to-r0", word("addcc", 0, 31, "r17"), {31: number(0, 9), 17: number(1, 1)}, {"note": SET}, "0 0 0"),
    ("added", word("add", 3, 16, "r31"), {16: number(0, 9), 31: number(1, 1)}, {3: number(1, 10), 16: number(0, 9)}, "0 0 0"),
    ("second", word("sub", 3, 1, "r24"), {1: number(9, 9), 24: number(0, 9)}, {3: number(0, 9), 24: number(0, 9)}, "0 0 0"),
    ("moved", word("or", 8, 0, "r30"), {30: BACK}, {8: BACK, 30: BACK}, "0 0 0"),
    ("pointer-moved-to-r1", word("add", 1, 14, 8), {14: start()}, {1: at(8, 8), 14: start()}, "0 0 0"),
    ("shifted", word("sll", 13, 17, "r23"), {17: number(3, 3), 23: number(2, 2)}, {13: number(12, 12)}, "0 0 0"),
    ("unset", word("add", 3, 16, 1), {}, {}, "4 0 16"),
    ("unset-second", word("add", 3, 0, "r14"), {}, {}, "4 0 14"),
    ("loaded-through", word("ldub", 3, 16, 0), {16: start()}, {3: number(0, 9), 16: start()}, "0 0 0"),
    ("loaded-with-index", word("ld", 3, 8, "r31"), {**FIRST, 31: number(16, 20, 4)}, {3: number(-5, 5)}, "0 0 0"),
    ("loaded-through-outside", word("ldub", 3, 14, 32), {14: start()}, {}, "7 0 14"),
    ("st", word("st", 16, 8, 16), {**FIRST, 16: number(0, 1)}, {16: number(0, 1)}, "0 0 0"),
    ("stb", word("stb", 14, 8, 0), {**FIRST, 14: number(0, 9)}, {14: number(0, 9)}, "0 0 0"),
    ("sth", word("sth", 31, 8, 8), {**FIRST, 31: number(0, 9)}, {31: number(0, 9)}, "0 0 0"),
    ("st-start", word("st", 24, 8, 24), {**FIRST, 24: start(1)}, {24: start(1)}, "0 0 0"),
    ("st-unset", word("st", 16, 8, 16), FIRST, {}, "4 0 16"),
    ("stb-unset-pointer", word("stb", 14, 8, 0), FIRST, {}, "4 0 14"),
    ("stb-too-much", word("stb", 31, 8, 0), {**FIRST, 31: number(0, 10)}, {}, "11 0 31"),
    ("stb-then-misfit", word("stb", 16, 8, 0), {**FIRST, 16: number(0, 9)}, {16: number(0, 8)}, "12 0 16"),
    ("stored-through", word("stb", 3, 16, 0), {16: start(), 3: number(0, 9)}, {16: start()}, "0 0 0"),
    ("stored-through-pointer", word("stb", 3, 14, "r0"), {14: start(), 3: number(0, 9)}, {14: start()}, "0 0 0"),
    ("stored-with-index", word("stb", 3, 8, "r20"), {**FIRST, 20: number(0, 3), 3: number(0, 9)}, {20: number(0, 3)}, "0 0 0"),
    ("stored-through-itself", word("st", 16, 16, 24), {16: start()}, {}, "11 0 16"),
    ("kept", NOP, {14: start(), 16: number(0, 9), 31: BACK}, {14: start(), 16: number(0, 9), 31: BACK}, "0 0 0"),
    ("said-less", NOP, {16: number(0, 9)}, {16: number(0, 12)}, "0 0 0"),
    ("said-unset", NOP, {14: start(), 16: number(0, 9), 31: BACK}, {}, "0 0 0"),
    ("said-more", NOP, {16: number(0, 9)}, {16: number(0, 3)}, "12 0 16"),
    ("said-set", NOP, {}, {31: FULL}, "12 0 31"),
    ("pointer-said-set", NOP, {}, {14: start(), 16: FULL}, "12 0 14"),
]
# The entry row is of nothing but the return address, and the result a number from 0 to 9.
BAD = entry(5)
BEFORE_AND_AFTER = [
    ("before-entry", [TAKES, *ONWARD], [{3: BACK}, {}, {}], "25 0 16"),
    ("in-the-last-slot-before-entry", [RETURN, TAKES], [{3: BACK}, {}], "25 1 16"),
    ("before-the-row-of-its-own", [TAKES, *ONWARD], [{}, {16: FULL}, {}], "25 0 16"),
    ("in-the-last-slot-before-result", [RETURN, TAKES_POINTER], [{}, {}], "25 1 14"),
    ("in-the-last-slot-before-misfit", [NOP, RETURN, TAKES], [{}, {3: BACK}, {}], "25 2 16"),
    ("in-the-last-slot-before-unset", [UNSET_ADD, RETURN, TAKES_LAST], [{}, {}, {}], "25 2 31"),
    ("in-the-last-slot-before-codes", [branch(EQUAL, 2), NOP, RETURN, TAKES], [{}] * 4, "25 3 16"),
    ("in-the-last-slot-before-return", [RETURN, TAKES], [{15: NONE}, {}], "25 1 16"),
    ("before-unset-of-another", [UNSET_ADD, TAKES, *ONWARD], [{}] * 4, "25 1 16"),
    ("after-form-of-its-row", [TAKES, *ONWARD], [{16: BAD}, {}, {}], "1 0 16"),
    ("after-form-of-another-row", [TAKES, *ONWARD], [{}, {}, {5: BAD}], "1 2 5"),
    ("after-form-of-the-note", [RETURN, TAKES], [{}, {"note": note(3)}], "1 1 32"),
    ("after-not-read", [TAKES, 0], [{}, {}], "2 1 0"),
    ("after-not-read-before-it", [0, TAKES], [{}, {}], "2 0 0"),
    ("after-not-read-and-flow", [TAKES_POINTER, branch(ALWAYS, 99), NOP, 0], [{}] * 4, "2 3 0"),
    ("after-privileged", [TAKES, *ONWARD, LOADS_SPACE], [{}] * 4, "24 3 0"),
    ("after-privileged-before-it", [READS_STATE, TAKES_LAST], [{}, {}], "24 0 0"),
    ("privileged-with-rd", [word("ld", 16, 8, 0) | 0x10 << 19], [{}], "24 0 0"),
    ("not-read-with-rd", [16 << 25], [{}], "2 0 0"),
]


def taking():
    """Words that take a register of the caller, beside flow: at each word comes 3, and then 25."""
    ready = {"note": SET}
    for name, code, answer in TAKING:
        yield Case("taking-" + name, routine(code, [ready] * len(code)), answer)


TAKING = [
    ("alone", [TAKES], "3 0 0"),
    ("last", [NOP, TAKES], "3 1 0"),
    ("pointer-last", [NOP, TAKES_POINTER], "3 1 0"),
    ("last-unreached", [*ONWARD, TAKES], "3 2 0"),
    ("last-by-a-load", [NOP, word("ldub", 31, 8, 0)], "3 1 0"),
    ("last-slot-landed-on", [branch(ALWAYS, 1), TAKES], "3 1 0"),
    ("last-slot-of-return-landed-on", [NOP, branch(ALWAYS, 3), NOP, RETURN, TAKES], "3 4 0"),
    ("last-slot-of-return", [RETURN, TAKES], "25 1 16"),
    ("last-slot-of-always", [branch(ALWAYS, 0), TAKES_LAST], "25 1 31"),
    ("twice", [TAKES_LAST, TAKES, *ONWARD], "25 0 31"),
    ("twice-first-in-slot", [branch(ALWAYS, 2), TAKES, TAKES_LAST, *ONWARD], "25 1 16"),
    ("twice-and-the-pointer", [NOP, TAKES, TAKES_POINTER, *ONWARD], "25 1 16"),
    ("before-a-goes-on", [TAKES, NOP], "25 0 16"),
    ("before-taking-last", [TAKES_POINTER, TAKES], "25 0 14"),
    ("at-word-2-before-flow-at-5", [NOP, NOP, TAKES, NOP, NOP, branch(ALWAYS, 99), NOP], "25 2 16"),
    ("before-return-in-slot", [TAKES, RETURN, RETURN, NOP], "25 0 16"),
    ("before-a-far-branch", [TAKES, branch(EQUAL, 99), NOP, *ONWARD], "25 0 16"),
    ("before-a-branch-last", [NOP, TAKES_POINTER, branch(ALWAYS, -1)], "25 1 14"),
    ("in-slot-before-a-far-branch", [branch(ALWAYS, 2), TAKES, branch(ALWAYS, 99), NOP], "25 1 16"),
    ("in-slot-before-last-slot-landed-on", [branch(ALWAYS, 3), TAKES, RETURN, NOP], "25 1 16"),
    ("after-a-far-branch", [branch(EQUAL, 99), NOP, TAKES, *ONWARD], "3 0 0"),
    ("in-the-slot-of-a-far-branch", [branch(ALWAYS, 99), TAKES, *ONWARD], "3 0 0"),
    ("in-the-slot-of-a-branch-that-goes-out", [branch(EQUAL, 0), TAKES], "3 0 0"),
    ("after-return-in-slot", [RETURN, RETURN, TAKES, *ONWARD], "3 1 0"),
    ("after-flow-at-2", [NOP, NOP, branch(ALWAYS, -3), NOP, NOP, TAKES, *ONWARD], "3 2 0"),
    ("in-slot-of-always", [branch(ALWAYS, 2), TAKES, *ONWARD], "25 1 16"),
    ("in-slot-of-equal", [branch(EQUAL, 2), TAKES_LAST, *ONWARD], "25 1 31"),
    ("in-slot-of-never", [branch(NEVER, 2), TAKES, *ONWARD], "25 1 16"),
    ("in-slot-of-annulled-always", [branch(ALWAYS, 2, True), TAKES, *ONWARD], "25 1 16"),
    ("in-slot-of-annulled-equal", [branch(EQUAL, 2, True), TAKES_POINTER, *ONWARD], "25 1 14"),
    ("in-slot-of-annulled-never", [branch(NEVER, 2, True), TAKES, *ONWARD], "25 1 16"),
    ("in-slot-of-return", [NOP, RETURN, TAKES, *ONWARD], "25 2 16"),
    ("by-an-addition-in-slot", [branch(EQUAL, 2), word("add", 16, 16, 1), *ONWARD], "25 1 16"),
    ("by-a-load-in-skipped-slot", [branch(ALWAYS, 2, True), word("ldsb", 30, 8, 4), *ONWARD], "25 1 30"),
    ("by-a-shift-in-slot-of-return", [RETURN, word("sra", 23, 1, 1)], "25 1 23"),
    ("by-a-comparison-in-skipped-slot", [branch(NEVER, 9, True), word("subcc", 24, 1, 1), *ONWARD], "25 1 24"),
    ("unreached", [*ONWARD, TAKES, *ONWARD], "25 2 16"),
    ("unreached-after-always", [branch(ALWAYS, 3), NOP, TAKES_POINTER, *ONWARD], "25 2 14"),
    ("in-an-unreached-slot", [*ONWARD, branch(ALWAYS, 2), TAKES, *ONWARD], "25 3 16"),
    ("in-an-unreached-skipped-slot", [*ONWARD, branch(ALWAYS, 2, True), TAKES_LAST, *ONWARD], "25 3 31"),
    ("in-slot-landed-on", [branch(ALWAYS, 3), NOP, branch(ALWAYS, 2), TAKES, *ONWARD], "25 3 16"),
    ("in-skipped-slot-landed-on", [branch(ALWAYS, 3), NOP, branch(ALWAYS, 2, True), TAKES, *ONWARD], "25 3 16"),
    ("in-slot-of-return-landed-on", [branch(EQUAL, 3), NOP, RETURN, TAKES, *ONWARD], "25 3 16"),
    ("in-own-slot-landed-on", [branch(ALWAYS, 1, True), TAKES, *ONWARD], "25 1 16"),
    ("landed-on", [branch(EQUAL, 2), NOP, TAKES_POINTER, *ONWARD], "25 2 14"),
    ("in-a-loop", [NOP, TAKES, branch(EQUAL, -2), NOP, *ONWARD], "25 1 16"),
    ("not-by-annulled-always", [branch(ALWAYS, 2, True), NOP, *ONWARD], "0 0 0"),
    ("not-by-the-highest-condition", [branch(15, 2, True), NOP, *ONWARD], "0 0 0"),
    ("not-by-condition-14", [branch(14, 2), NOP, *ONWARD], "0 0 0"),
]


# Narrowing

def narrowed(name, condition, before, noted, taken, other, answer="0 0 0", slot=NOP):
    """A branch to word 4, after a comparison of r1; the rows claim what is left of r1 where it is taken and where not."""
    rows = [{1: before, 2: number(0, 8, 8), "note": note(2, 1, noted)}, {}, other, {}, taken, {}]
    return Case("narrows-" + name, routine([branch(condition, 4), slot, *ONWARD, *ONWARD], rows, TWO), answer)


def narrowing():
    for name, condition, before, noted, taken, other in NARROWED:
        right = [{} if left is None else {1: left[0]} for left in (taken, other)]
        yield narrowed(name, condition, before, noted, *right)
        for way, left in enumerate((taken, other)):
            if left is not None and left[1] is not None:
                rows = [right[0], {1: left[1]}] if way else [{1: left[1]}, right[1]]
                yield narrowed(f"{name}-no-less-{way}", condition, before, noted, *rows, answer="12 0 1")
    few, wrong = number(0, 9), {3: number(0, 9)}
    for name, condition, before, noted in EMPTY:
        yield narrowed("to-nothing-" + name, condition, before, noted, wrong, {})
    for name, condition, before, noted in ONE_LEFT:
        yield narrowed("to-one-" + name, condition, before, noted, wrong, {}, "12 0 3")
    for condition in (4, 5, 6, 7, 12, 13, 14, 15):
        yield narrowed(f"not-on-{condition}", condition, few, 5, {1: few}, {1: few})
        below, above = number(0, 4), number(5, 9)
        yield narrowed(f"not-on-{condition}-at-all", condition, few, 5, {1: below if condition < 8 else above}, {}, "12 0 1")
        below, above = number(0, 5), number(6, 9)
        yield narrowed(f"not-on-{condition}-by-5", condition, few, 5, {1: below if condition < 8 else above}, {}, "12 0 1")
    yield narrowed("and-keeps-note", LESS, few, 5, {"note": note(2, 1, 5)}, {"note": note(2, 1, 5)})
    yield narrowed("or-null-and-keeps-note", EQUAL, null_or(), 0, {"note": note(2, 1, 0)}, {"note": note(2, 1, 0)})
    yield narrowed("before-slot", EQUAL, number(0, 36, 4), 4, {3: number(4, 12, 8)}, {}, slot=word("add", 3, 1, "r2"))
    yield narrowed("and-not-after-slot", LESS, few, 5, {1: number(1, 5)}, {1: number(6, 10)}, slot=word("add", 1, 1, 1))
    high = [branch(LESS, 4), *SPLIT], [{16: few, "note": note(2, 16, 5)}, {}, {16: number(5, 9)}, {}, {16: number(0, 4)}, {}]
    yield Case("narrows-of-the-caller", routine(*high), "0 0 0")
    unnoted = {1: few, "note": SET}
    yield Case("narrows-only-compared", routine([branch(LESS, 4), *SPLIT], [unnoted, {}, {1: few}, {}, {1: few}, {}]), "0 0 0")


# Condition, entry and number compared; what is left where it is taken and where not, each with a smaller set that it does
# not fit (or None).
NARROWED = [
    ("equal", EQUAL, number(0, 36, 4), 8, (number(8, 8), None), (number(0, 36, 4), None)),
    ("equal-lo", EQUAL, number(0, 36, 4), 0, (number(0, 0), None), (number(4, 36, 4), number(8, 36, 4))),
    ("equal-hi", EQUAL, number(0, 36, 4), 36, (number(36, 36), None), (number(0, 32, 4), number(0, 28, 4))),
    ("not-equal-lo", NOT_EQUAL, number(0, 8, 8), 0, (number(8, 8), None), (number(0, 0), None)),
    ("not-equal-hi", NOT_EQUAL, number(0, 36, 4), 36, (number(0, 32, 4), number(0, 28, 4)), (number(36, 36), None)),
    ("less", LESS, number(0, 36, 4), 9, (number(0, 8, 4), number(0, 4, 4)), (number(12, 36, 4), number(16, 36, 4))),
    ("less-at-member", LESS, number(0, 36, 4), 8, (number(0, 4, 4), number(0, 0)), (number(8, 36, 4), number(12, 36, 4))),
    ("at-most", AT_MOST, number(0, 36, 4), 8, (number(0, 8, 4), number(0, 4, 4)), (number(12, 36, 4), number(16, 36, 4))),
    ("at-least", AT_LEAST, number(0, 36, 4), 8, (number(8, 36, 4), number(12, 36, 4)), (number(0, 4, 4), number(0, 0))),
    ("greater", GREATER, number(0, 36, 4), 8, (number(12, 36, 4), number(16, 36, 4)), (number(0, 8, 4), number(0, 4, 4))),
    ("greater-between", GREATER, number(1, 37, 4), 8, (number(9, 37, 4), number(13, 37, 4)), (number(1, 5, 4), number(1, 1))),
    ("or-null-equal", EQUAL, null_or(1), 0, (number(0, 0), None), (start(1), number(0, 0))),
    ("or-null-not-equal", NOT_EQUAL, null_or(1), 0, (start(1), number(0, 0)), (number(0, 0), start(1))),
    ("or-null-and-5", EQUAL, null_or(1), 5, (null_or(1), number(0, 0)), (null_or(1), start(1))),
    ("or-null-at-most", AT_MOST, null_or(1), 0, (null_or(1), number(0, 0)), (null_or(1), start(1))),
    ("or-null-greater", GREATER, null_or(1), 0, (null_or(1), start(1)), (null_or(1), number(0, 0))),
    ("address", LESS, at(0, 8), 5, (at(0, 8), at(0, 4)), (at(0, 8), None)),
    ("address-equal", EQUAL, at(0, 8), 0, (at(0, 8), start()), (at(0, 8), None)),
]
EMPTY = [
    ("less", LESS, number(5, 9), 5),
    ("less-least", LESS, FULL, LEAST),
    ("at-most", AT_MOST, number(5, 9), 4),
    ("greater", GREATER, number(5, 9), 9),
    ("greater-most", GREATER, FULL, MOST),
    ("at-least", AT_LEAST, number(5, 9), 10),
    ("equal", EQUAL, number(0, 8, 4), 3),
    ("equal-above", EQUAL, number(0, 8, 4), 12),
    ("not-equal", NOT_EQUAL, number(5, 5), 5),
    ("not-equal-most", NOT_EQUAL, number(MOST, MOST), MOST),
    ("not-equal-least", NOT_EQUAL, number(LEAST, LEAST), LEAST),
]
ONE_LEFT = [
    ("less", LESS, number(5, 9), 6),
    ("at-most", AT_MOST, number(5, 9), 5),
    ("greater", GREATER, number(5, 9), 8),
    ("at-least", AT_LEAST, number(5, 9), 9),
    ("equal", EQUAL, number(5, 9), 5),
    ("not-equal", NOT_EQUAL, number(0, 8, 8), 8),
]


# The predicted branch. It does what the other branch does, whatever its hint, on the newer terminal; the older one does not read it.

def in_place_of_others(several):
    """Cases with predicted branches in the place of others."""
    for case in several:
        policy, first, result, code, rows = layout.open_bundle(case.bundle)
        for hint in False, True:
            other = [as_predicted(one, hint) for one in code]
            if other != code:
                name = case.name + "-predicted" + "-hint" * hint
                data = layout.bundle_bytes(policy, first, result, other, rows, layout.version_of(case.bundle))
                yield Case(name, data, case.answer, NEWER)
                if not case.answer.startswith("2 "):
                    at_word = next(k for k, one in enumerate(other) if one != code[k])
                    yield Case(name + "-on-the-older", data, f"2 {at_word} 0")


def predictions():
    yield from in_place_of_others([*flows(), *edges(), *landings(), *taking(), *narrowing()])
    for condition in range(16):
        for annul, hint in (False, False), (False, True), (True, False), (True, True):
            name = f"predicted-{condition}" + "-annulled" * annul + "-hint" * hint
            yield from on_both(name, [predicted(condition, 2, annul, hint), NOP, *ONWARD], "2 0 0", "0 0 0")
            for codes in 1, 2, 3:
                code = [predicted(condition, 2, annul, hint, codes), NOP, *ONWARD]
                yield from on_both(f"{name}-codes-{codes}", code, "2 0 0", "2 0 0")
    for name, code, older, newer in PREDICTED:
        yield from on_both("predicted-" + name, code, older, newer)


def on_both(name, code, older, newer):
    """These words on the older and on the newer terminal, with rows that say no more than that the codes are set."""
    data = routine(code, [{"note": SET}] * len(code))
    return Case(name, data, older), Case(name + "-on-9", data, newer, NEWER)


# The words, and the answers on the older and on the newer terminal.
PREDICTED = [
    ("alone", [predicted(NEVER, 0)], "2 0 0", "3 0 0"),
    ("with-every-bit-1", [0x3E7FFFFF, NOP, *ONWARD], "2 0 0", "2 0 0"),
    ("last", [NOP, predicted(ALWAYS, -1)], "2 1 0", "3 1 0"),
    ("in-slot-of-return", [RETURN, predicted(ALWAYS, -1), NOP], "2 1 0", "3 1 0"),
    ("in-slot-of-another", [branch(ALWAYS, 2), predicted(ALWAYS, 1), *ONWARD], "2 1 0", "3 1 0"),
    ("with-another-in-its-slot", [predicted(ALWAYS, 2), branch(ALWAYS, 1), *ONWARD], "2 0 0", "3 1 0"),
    ("with-return-in-its-slot", [predicted(NEVER, 2), RETURN, *ONWARD], "2 0 0", "3 1 0"),
    ("in-skipped-slot", [branch(ALWAYS, 2, True), predicted(NEVER, 0), *ONWARD], "2 1 0", "3 1 0"),
    ("unreached", [*ONWARD, predicted(ALWAYS, -2), NOP], "2 2 0", "0 0 0"),
    ("to-the-end", [predicted(ALWAYS, 2), NOP], "2 0 0", "3 0 0"),
    ("below-0", [NOP, predicted(ALWAYS, -2), NOP], "2 1 0", "3 1 0"),
    ("to-0-with-hint", [NOP, predicted(ALWAYS, -1, hint=True), NOP], "2 1 0", "0 0 0"),
    ("far", [NOP, predicted(ALWAYS, 2**18 - 1), NOP], "2 1 0", "3 1 0"),
    ("far-back", [NOP, predicted(ALWAYS, -2**18), NOP], "2 1 0", "3 1 0"),
    ("far-never", [predicted(NEVER, 2**18 - 1), NOP, *ONWARD], "2 0 0", "0 0 0"),
    ("far-back-never", [predicted(NEVER, -2**18), NOP, *ONWARD], "2 0 0", "0 0 0"),
    ("far-back-as-in-18-bits", [predicted(ALWAYS, 2 - 2**18), NOP, *ONWARD], "2 0 0", "3 0 0"),
    ("far-as-in-18-bits", [NOP, predicted(ALWAYS, 2**18 - 1), NOP, *ONWARD], "2 1 0", "3 1 0"),
    ("far-as-in-16-bits", [predicted(ALWAYS, 2**16 + 2), NOP, *ONWARD], "2 0 0", "3 0 0"),
    ("far-as-in-17-bits", [predicted(ALWAYS, 2**17 + 2), NOP, *ONWARD], "2 0 0", "3 0 0"),
    ("as-if-in-bytes", [predicted(ALWAYS, 8), NOP, *ONWARD], "2 0 0", "3 0 0"),
    ("then-not-read", [predicted(ALWAYS, 2), 0, *ONWARD], "2 0 0", "2 1 0"),
    ("then-privileged", [predicted(ALWAYS, 2), READS_STATE, *ONWARD], "2 0 0", "24 1 0"),
    ("after-privileged", [READS_STATE, predicted(ALWAYS, 2)], "24 0 0", "24 0 0"),
    ("with-codes-after-privileged", [LOADS_SPACE, predicted(ALWAYS, 2, codes=2)], "24 0 0", "24 0 0"),
    ("with-codes-before-privileged", [predicted(ALWAYS, 2, codes=2), LOADS_SPACE], "2 0 0", "2 0 0"),
    ("after-flow", [branch(ALWAYS, 100), NOP, predicted(ALWAYS, 100)], "2 2 0", "3 0 0"),
    ("with-codes-after-flow", [predicted(ALWAYS, 100), NOP, predicted(ALWAYS, 0, codes=1)], "2 0 0", "2 2 0"),
    ("as-in-another-with-a-long-distance", [NOP, branch(ALWAYS, 0x7FFFF), NOP], "3 1 0", "3 1 0"),
]

GROUPS = [layouts, long_ones, adds, forms, fitting, results, conditions, accesses, words, flows, edges, landings, returns, written, taking, narrowing]


def cases():
    """All of them. The first is the bundle of the program crates/answer. Without a predicted branch the answer is that on both terminals."""
    yield Case("return-then-nop", parts.return_then_nop(), "0 0 0")
    yield from on_each(case for group in GROUPS for case in group())
    yield from predictions()


def on_each(several):
    """These cases on the older and on the newer terminal."""
    for case in several:
        yield from (case, case._replace(name=case.name + "-on-9", edition=NEWER))
