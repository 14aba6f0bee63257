"""layout.py: the layout of a bundle, from its parts to bytes and back, as document 01 and request 7 of document 02 state it.

An entry is (kind, region, step, lo, hi), a note (kind, register, number), a row (38 entries, note), a field (element,
permission, target, offset, count, lo, hi), a policy a list of regions (size, fields). They are written and read as they
are, right or wrong, as long as there is room for them.

The entries of a row are in the order of its bytes: 32 registers, and six scratch words. Answers name them otherwise: 0 to 31 are the
registers, 32 is the note and 33 to 38 are the scratch words (NAMED). A bundle of version 1 has rows without scratch words; these are
read as unset.
"""
import struct

from script import Problem

MARK = b"WTR"
HEAD = struct.Struct(">3sHBH")          # mark, version, regions, words
REGION = struct.Struct(">HBB")          # size, fields, zero
FIELD = struct.Struct(">BBBBHHii")      # element, permission, target, zero, offset, count, lo, hi
ENTRY = struct.Struct(">BBBBii")        # kind, region, step, zero, lo, hi
NOTE = struct.Struct(">BBHi")           # kind, register, zeros, number
WORD = struct.Struct(">I")
REGISTERS, SCRATCH_WORDS = 32, 6
ENTRIES = REGISTERS + SCRATCH_WORDS
# The number that answers have for the note, and those for the entries of a row, in the order of its bytes.
NOTE_NAMED = REGISTERS
NAMED = (*range(REGISTERS), *range(NOTE_NAMED + 1, NOTE_NAMED + 1 + SCRATCH_WORDS))
# The frame: how many bytes, the register that has its address, and where the scratch words stand in it.
FRAME_SIZE, POINTER = 120, 14
SCRATCH_OFFSETS = range(96, FRAME_SIZE, 4)
# What the counts of a bundle have room for: regions, fields of a region, words.
ROOM_REGIONS, ROOM_FIELDS, ROOM_WORDS = 255, 255, 65535
ROW_SIZE = ENTRIES * ENTRY.size + NOTE.size
# The version that is written, and of each version the bytes of a row and the most bytes of a bundle.
VERSION, BEFORE_SCRATCH = 2, 1
ROW_SIZES = {BEFORE_SCRATCH: ROW_SIZE - SCRATCH_WORDS * ENTRY.size, VERSION: ROW_SIZE}
MOST_BYTES = {BEFORE_SCRATCH: 53180, VERSION: 62468}

UNSET, NUMBER, ADDRESS, OR_NULL, RETURN, FRAME = range(6)
NOTE_NONE, NOTE_SET, NOTE_COMPARED = range(3)
READ, WRITE, BOTH = 1, 2, 3
SINGLE_STEP = 8
# Elements 1 to 5: number, lowest and highest value. 6 and 7 are an address, and an address or null.
ELEMENTS = {
    "unsigned byte": (1, 0, 255),
    "signed byte": (2, -128, 127),
    "unsigned half": (3, 0, 65535),
    "signed half": (4, -32768, 32767),
    "signed word": (5, -2**31, 2**31 - 1),
}
TO_START, TO_START_OR_NULL = 6, 7
PERMISSIONS = {"read": READ, "write": WRITE, "read and write": BOTH}
FULL = (NUMBER, 0, 1, -2**31, 2**31 - 1)
NOTHING = (UNSET, 0, 0, 0, 0)
ZERO = (NUMBER, 0, SINGLE_STEP, 0, 0)
RETURN_ADDRESS = (RETURN, 0, 0, 0, 0)
FRAME_ADDRESS = (FRAME, 0, 0, 0, 0)
NO_NOTE = (NOTE_NONE, 0, 0)
# A row that is to be found has r0 unset, as no well-formed row has; it is written as zeros.
TO_FIND = ([NOTHING] * ENTRIES, NO_NOTE)


def number(lo, hi, step=1):
    """A number from lo to hi; a single one has step 8."""
    return NUMBER, 0, SINGLE_STEP if lo == hi else step, lo, hi


def row(known, note=NO_NOTE):
    """A row of the entries that are known, by the numbers that answers have for them. r0 is 0, all others are unset."""
    return [known.get(name, NOTHING if name else ZERO) for name in NAMED], note


# To bytes

def entry_bytes(entry):
    kind, region, step, lo, hi = entry
    return ENTRY.pack(kind, region, step, 0, lo, hi)


def row_bytes(row, version=VERSION):
    entries, (kind, register, number) = row
    held = REGISTERS if version == BEFORE_SCRATCH else ENTRIES
    if entries[held:] != [NOTHING] * (ENTRIES - held):
        raise Problem(f"a bundle of version {version} has no room for what a scratch word holds")
    return b"".join(map(entry_bytes, entries[:held])) + NOTE.pack(kind, register, 0, number)


def field_bytes(field):
    element, permission, target, *rest = field
    return FIELD.pack(element, permission, target, 0, *rest)


def bundle_bytes(policy, entry, result, words, rows, version=VERSION):
    """The bundle of its parts; entry is the entry row, result the result entry."""
    parts = [HEAD.pack(MARK, version, len(policy), len(words))]
    parts += [REGION.pack(size, len(fields), 0) for size, fields in policy]
    parts += [field_bytes(field) for _, fields in policy for field in fields]
    parts += [row_bytes(entry, version), entry_bytes(result)] + [WORD.pack(word) for word in words]
    return b"".join(parts + [row_bytes(row, version) for row in rows])


# From bytes

def version_of(data):
    """The version of a bundle, one of ROW_SIZES."""
    if len(data) < HEAD.size:
        raise Problem(f"not a bundle: it has {len(data)} bytes, and the head alone has {HEAD.size}")
    mark, version, _, _ = HEAD.unpack_from(data)
    if mark != MARK or version not in ROW_SIZES:
        raise Problem(f"not a bundle: it does not begin with {MARK.decode()} and the version {' or '.join(map(str, ROW_SIZES))}")
    return version


def open_bundle(data):
    """Policy, entry row, result entry, words and rows of a bundle."""
    version = version_of(data)
    _, _, regions, count = HEAD.unpack_from(data)
    try:
        return unpacked(data, version, regions, count)
    except struct.error:
        raise Problem(f"not a bundle: it has {len(data)} bytes, and its counts give another length") from None


def unpacked(data, version, regions, count):
    policy, start = policy_in(data, regions)
    size = ROW_SIZES[version]
    code = start + size + ENTRY.size
    rows = code + WORD.size * count
    if len(data) != rows + size * count:
        raise struct.error("length")
    words = [WORD.unpack_from(data, code + WORD.size * k)[0] for k in range(count)]
    return (policy, row_in(data, start, version), entry_in(data, start + size), words,
            [row_in(data, rows + size * k, version) for k in range(count)])


def policy_in(data, regions):
    """The policy, and where the entry row begins."""
    policy, at = [], HEAD.size + REGION.size * regions
    for k in range(regions):
        size, count, _ = REGION.unpack_from(data, HEAD.size + REGION.size * k)
        policy.append((size, [field_in(data, at + FIELD.size * j) for j in range(count)]))
        at += FIELD.size * count
    return policy, at


def field_in(data, at):
    element, permission, target, _, *rest = FIELD.unpack_from(data, at)
    return element, permission, target, *rest


def entry_in(data, at):
    kind, region, step, _, lo, hi = ENTRY.unpack_from(data, at)
    return kind, region, step, lo, hi


def row_in(data, at, version=VERSION):
    held = (ROW_SIZES[version] - NOTE.size) // ENTRY.size
    kind, register, _, number = NOTE.unpack_from(data, at + held * ENTRY.size)
    entries = [entry_in(data, at + ENTRY.size * k) for k in range(held)]
    return entries + [NOTHING] * (ENTRIES - held), (kind, register, number)


def row_parts(data):
    """What stands before the rows of a bundle, and the bytes of each row."""
    size, count = ROW_SIZES[version_of(data)], len(open_bundle(data)[3])
    start = len(data) - size * count
    return data[:start], [data[at:at + size] for at in range(start, len(data), size)]


def is_to_find(row):
    """Whether the row of these bytes is to be found."""
    return row[0] == UNSET


def without_rows(data):
    """A bundle with all its rows to be found."""
    before, _ = row_parts(data)
    return before.ljust(len(data), b"\0")
