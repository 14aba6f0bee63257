#!/usr/bin/env python3
"""runs.py: writes the data of the program crates/runs to standard output.

    tools/runs.py            from the runs that stand in the data
    tools/runs.py RUNS ..    from these and others

RUNS has runs of the machine as text, a blank line between two. A line is a name and what stands for it:
  edition E            the terminal: 8, which it is also without this line, or 9
  policy N             the number of regions; for each of them
    region SIZE N      its size and the number of its fields; for each of them
      field ELEMENT PERMISSION TARGET OFFSET COUNT LO HI
  words W ..           the routine, in hexadecimal
  bases B ..           where the regions begin, in hexadecimal
  return R             the return address, in hexadecimal
  frame F              the frame address, in hexadecimal
  regs V+ V- ..        the 32 registers in hexadecimal, + set, - unset
  codes D+             NZVC as a hexadecimal digit, and its mark
  memory BYTES         in hexadecimal
  allowance N
and what the run gives: end (0 returned, 1 spent, else the number of the refusal or fault), steps,
regs, codes, scratch (six marks, + set, - unset) and memory (`same`, or whole). A run without a frame, from before
there were scratch words, is given one that overlaps no region, with its bytes at the end of memory.

Of the runs that fit the program's room a sample is taken: EACH runs at most of every end with the memory
changed and of every end with it unchanged, with a branch into a slot and without, with an access through r14 and
without, with a scratch word set at the end and without, on each terminal, evenly over the smaller half of the sizes of memory;
none that ends with 20. Those that stand in the data stay there. After them come runs that are made from
one run of the sample, with what document 01 says of them, which needs no implementation to tell:
  20   its policy is changed so that it breaks one rule, another each time; a run that is refused changes nothing
  20   it has no words, and its policy breaks a rule
  21   it has neither words nor bases
  22   its last region ends at 2^32, or lies where the first does, or it has one base more than regions
  101  a branch or a return stands in the slot of a branch
  102  after a nop an add, a store or a return reads a register that is not set; the store also at an odd address
  104  after a nop a half is stored at an odd address
  0    a branch goes into a slot: its own, that of another branch or of a return, one that is skipped, one with a
       branch in it, which is run; and some of these with few steps allowed (1), or no word after the slot (101)
  0    these with predicted branches, on the newer terminal; and a predicted branch of each condition, taken and not taken
  101  a predicted branch on the older terminal, and one with other codes than those of 32 bits on the newer
  0    a scratch word is stored and loaded: each of the six, by r14 and by other registers, in frames that touch a region or end just
       below 2^32; and several with few steps allowed (1)
  102  a scratch word is loaded that is unset, though it was handed in as set
  103  an access of another width, or to the rest of the frame
  104  an access to the frame at an odd address
  22   the frame is misplaced, or memory has another length
The first of them ends with 20, so that they are known again. How many runs there are of each end, and how many
with a branch into a slot, is written to standard error.

A record of the data is numbers of 32 bits, big-endian, and then bytes. The first number says how many come
after it; these are
    0  edition                 6  number of words W           11  sizes of 8 regions
    1  end                     7  number of bases             19  numbers of fields of 8 regions
    2  steps                   8  number of fields F          27  8 bases
    3  allowance               9  length of memory            35  the state before, 34 numbers
    4  return address         10  1 if memory is changed      69  the state after, 34 numbers
    5  number of regions     103  frame address              104  W words, and F fields, 4 numbers each
A state is 32 registers, their marks (bit r that of register r, set 1), and the codes NZVC with 16 added
if they are set, and 2^(5 + k) for each scratch word k that is. A field is its place (16 times the region, plus
its number there), element, permission and target, a byte each; offset and count, 16 bits each; lo and hi, 2^31
added. The bytes are memory before, and memory after if it is changed.
"""
import collections
import copy
import itertools
import os
import struct
import sys

sys.dont_write_bytecode = True
import assembly
import script
from cases import ALWAYS, EQUAL, NEVER, NOT_EQUAL, as_predicted, branch, predicted, word
from parts import NOP, RETURN
from script import NEWER, OLDER

DATA = os.path.join(os.path.dirname(os.path.abspath(__file__)), "..", "crates", "runs", "stdin")
# How the first run ends that is made here; none ends so that is not.
MADE = 20
RETURNED, SPENT, BAD_SHAPE, BAD_PLACEMENT, NO_WORD, UNSET_READ, NO_FIELD, UNALIGNED = 0, 1, 21, 22, 101, 102, 103, 104
# Words of those that are made, beside the nop and the return: a branch always to the second word after it, r1 and r2 added, and a store
# of the half in r2 at the address in r1.
BRANCH, ADD, STORE = 0x10800002, 0x86004002, 0xC4304000
STACK, LINK = 14, 15
# The frame: its bytes, its scratch words and the offset of the first, and its bytes where a run has none.
FRAME, SCRATCH, FIRST = 120, 6, 96
FRAME_BYTES = bytes(range(1, FRAME + 1))
UNSET = "-" * SCRATCH
# The program's room: bytes of memory, words.
MEMORY, WORDS = 2168, 131
EACH = 2
REGIONS, FIELDS, REGISTERS = 8, 16, 32
# The codes of a state: that they are set; Z alone; N and C. After them come the marks of scratch words.
CODES_SET, EQUALS, IS_LESS = 16, 4, 9
FIRST_MARK = 32
EXCESS = 2 ** 31
Field = collections.namedtuple("Field", "place element permission target offset count lo hi")


def marked(words):
    """The marks of some scratch words, in the number of the codes."""
    return sum(FIRST_MARK << k for k in words)


def state(registers, codes, scratch):
    values = [int(register[:-1], 16) for register in registers]
    marks = sum(2 ** r for r, register in enumerate(registers) if register[-1] == "+")
    (digit, mark), = codes
    return values + [marks, int(digit, 16) + (CODES_SET if mark == "+" else 0) + marked(k for k in range(SCRATCH) if scratch[k] == "+")]


def padded(numbers):
    return numbers + [0] * (REGIONS - len(numbers))


def overlaps(frame, bases, sizes):
    return any(frame < base + size and base < frame + FRAME for base, size in zip(bases, sizes))


def free_frame(bases, sizes):
    """The address of a frame that overlaps no region."""
    return next(frame for frame in itertools.count(2 ** 30, 128) if not overlaps(frame, bases, sizes))


class Run:
    def __init__(self, text):
        lines = collections.defaultdict(list)
        for line in text.splitlines():
            name, *rest = line.split()
            lines[name].append(rest)
        self.edition = script.edition_named(lines["edition"][0], "edition") if "edition" in lines else OLDER
        self.end, self.steps, self.allowance = (int(lines[name][0][0]) for name in ("end", "steps", "allowance"))
        self.returns = int(lines["return"][0][0], 16)
        self.words, self.bases = ([int(number, 16) for number in lines[name][0]] for name in ("words", "bases"))
        self.sizes, self.counts = ([int(region[k]) for region in lines["region"]] for k in (0, 1))
        self.regions = len(self.sizes)
        places = [FIELDS * region + k for region, count in enumerate(self.counts) for k in range(count)]
        self.fields = [Field(place, *map(int, rest)) for place, rest in zip(places, lines["field"], strict=True)]
        self.before, self.after = map(state, lines["regs"], lines["codes"], [UNSET, *lines["scratch"][0]] if "scratch" in lines else [UNSET] * 2)
        self.changed = lines["memory"][1] != ["same"]
        self.memory, self.left = (bytes.fromhex("".join(rest)) for rest in (lines["memory"][0], lines["memory"][1] * self.changed))
        if "frame" in lines:
            self.frame = int(lines["frame"][0][0], 16)
        else:
            self.frame = free_frame(self.bases, self.sizes)
            self.memory, self.left = self.memory + FRAME_BYTES, self.left + FRAME_BYTES * self.changed

    def fits(self):
        return len(self.memory) <= MEMORY and len(self.words) <= WORDS and len(self.bases) <= REGIONS

    def through(self):
        """Whether a word is an access by r14."""
        return any(one >> 30 == 3 and one >> 14 & 31 == STACK for one in self.words)

    def sort(self):
        landing = bool(assembly.landings(self.words, self.edition))
        return self.edition, self.end, self.changed, landing, self.through(), FIRST_MARK <= self.after[-1]

    def record(self):
        numbers = [self.edition, self.end, self.steps, self.allowance, self.returns, self.regions]
        numbers += [len(self.words), len(self.bases), len(self.fields), len(self.memory), self.changed]
        numbers += padded(self.sizes) + padded(self.counts) + padded(self.bases) + self.before + self.after + [self.frame] + self.words
        fields = [field._replace(lo=field.lo + EXCESS, hi=field.hi + EXCESS) for field in self.fields]
        parts = [struct.pack(f">{len(numbers) + 1}I", len(numbers) + 4 * len(fields), *numbers)]
        parts += [struct.pack(">4B2H2I", *field) for field in fields]
        return b"".join(parts) + self.memory + self.left


def run_in(data, at):
    """The run whose record begins at a place of the data, and where the next one begins."""
    (count,) = struct.unpack_from(">I", data, at)
    numbers = list(struct.unpack_from(f">{count}I", data, at + 4))
    run = Run.__new__(Run)
    run.edition, run.end, run.steps, run.allowance, run.returns, run.regions, words, bases, fields, length, changed = numbers[:11]
    run.sizes, run.counts, run.bases = numbers[11:11 + run.regions], numbers[19:19 + run.regions], numbers[27:27 + bases]
    run.before, run.after, run.frame, run.words, run.changed = numbers[35:69], numbers[69:103], numbers[103], numbers[104:104 + words], bool(changed)
    places = at + 4 + 4 * (104 + words)
    packed = [Field(*struct.unpack_from(">4B2H2I", data, places + 16 * k)) for k in range(fields)]
    run.fields = [field._replace(lo=field.lo - EXCESS, hi=field.hi - EXCESS) for field in packed]
    start = at + 4 + 4 * count
    run.memory, run.left = data[start:start + length], data[start + length:start + 2 * length] if changed else b""
    return run, start + length * (2 if changed else 1)


def standing():
    """The runs of the data that are not made here: those before the first that is."""
    with open(DATA, "rb") as file:
        data = file.read()
    at, runs = 0, []
    while at < len(data):
        run, at = run_in(data, at)
        if run.end == MADE:
            break
        runs.append(run)
    return runs


def sample(kept, others):
    """The runs that stay and, where they are fewer than EACH, others, sort by sort."""
    classes = collections.defaultdict(lambda: ([], []))
    for runs, place in (kept, 0), (others, 1):
        for run in runs:
            if run.fits() and run.end != MADE:
                classes[run.sort()][place].append(run)
    for _, (stay, members) in sorted(classes.items()):
        members.sort(key=lambda run: len(run.memory))
        taken = max(0, min(EACH - len(stay), len(members)))
        yield from stay
        for k in range(taken):
            yield members[k * len(members) // taken // 2]


def kinds(run):
    """Which fields are addresses, and which are signed halves: two at least, the last field of their region and not the first."""
    addresses = [k for k, field in enumerate(run.fields) if field.element in (6, 7)]
    last = [FIELDS * region + count - 1 for region, count in enumerate(run.counts) if 2 <= count]
    return addresses, [k for k, field in enumerate(run.fields) if field.element == 4 and 2 <= field.count and field.place in last]


def altered(run, change, **outcome):
    """The run with some of its parts changed, and an outcome that leaves memory as it was."""
    other = copy.copy(run)
    vars(other).update(change, **outcome, changed=False, left=b"")
    return other


def refused(run):
    """Runs that are refused with 20, each because of one rule that its policy breaks."""
    (address, *_), (half, *_) = kinds(run)
    field, earlier = run.fields[half], run.fields[half - 1]
    region = field.place // FIELDS
    byte = {"element": 1, "target": 0, "lo": 0, "hi": 0}
    sizes, counts = run.sizes, run.counts

    def with_region(size, number, fields):
        """So many regions more, the first of them with so many fields of one byte."""
        added = [Field(FIELDS * run.regions + k, 1, 3, 0, k, 1, 0, 255) for k in range(fields)]
        return {"regions": run.regions + number, "sizes": sizes + [size] * min(number, REGIONS - run.regions), "fields": run.fields + added,
                "counts": counts + [fields] + [0] * (REGIONS - run.regions - 1)}

    def with_size(size):
        return {"sizes": sizes[:region] + [size] + sizes[region + 1:]}

    def with_field(k, **parts):
        return {"fields": run.fields[:k] + [run.fields[k]._replace(**parts)] + run.fields[k + 1:]}

    def with_pair(first, second):
        return {"fields": run.fields[:half - 1] + [first, second] + run.fields[half + 1:]}

    changes = [
        with_region(8, REGIONS + 1 - run.regions, 0),
        with_region(24, 1, FIELDS + 1),
        with_region(0, 1, 0), with_size(sizes[region] + 4), with_size(4104),
        with_field(half, element=0, lo=0, hi=0), with_field(half, element=8, lo=0, hi=0),
        with_field(half, permission=0), with_field(half, permission=4),
        with_field(half, offset=field.offset + 1, count=1), with_field(half, count=0),
        with_field(half, **byte, count=sizes[region] - field.offset + 1),
        with_field(half, lo=field.hi + 1), with_field(half, lo=-32769), with_field(half, hi=32768), with_field(half, target=1),
        with_field(address, target=run.regions), with_field(address, lo=-1), with_field(address, hi=1),
        with_pair(earlier._replace(**byte, count=1), field._replace(**byte, offset=earlier.offset, count=1)),
        with_pair(field._replace(place=earlier.place), earlier._replace(place=field.place)),
    ]
    for change in changes:
        yield altered(run, change, end=MADE, steps=0, after=run.before)


def misplaced(run):
    """Runs that are refused with 22: the last region ends at 2^32, or lies where the first does; there is one base more than regions."""
    for bases in run.bases[:-1] + [2 ** 32 - run.sizes[-1]], run.bases[:-1] + run.bases[:1], run.bases + [8]:
        yield altered(run, {"bases": bases}, end=BAD_PLACEMENT, steps=0, after=run.before)


def empty(run):
    """Runs without a word: 20 where the policy breaks a rule too, 21 where there are no bases either."""
    yield altered(run, {"words": [], "sizes": [4] + run.sizes[1:]}, end=MADE, steps=0, after=run.before)
    yield altered(run, {"words": [], "bases": []}, end=BAD_SHAPE, steps=0, after=run.before)


def faulting(run):
    """Runs whose second word faults, with 101, 102 or 104. What is not told is right: the store's address is that of an element which it
    may write, r15 is the return address, and all registers are set but the one that is named."""
    _, (half, *_) = kinds(run)
    field = run.fields[half]
    fields = run.fields[:half] + [field._replace(permission=3)] + run.fields[half + 1:]
    address = run.bases[field.place // FIELDS] + field.offset
    *_, codes = run.before
    for fault, words, at, unset in [
            (NO_WORD, [BRANCH, BRANCH, NOP, NOP], address, None),
            (NO_WORD, [BRANCH, RETURN, NOP, NOP], address, None),
            (UNSET_READ, [NOP, ADD], address, 2),
            (UNSET_READ, [NOP, STORE], address, 2),
            (UNSET_READ, [NOP, STORE], address + 1, 2),
            (UNSET_READ, [NOP, RETURN, NOP], address, LINK),
            (UNALIGNED, [NOP, STORE], address + 1, None)]:
        values = {1: at, LINK: run.returns}
        registers = [values.get(r, run.before[r]) for r in range(REGISTERS)]
        rest = [sum(2 ** r for r in range(REGISTERS) if r != unset), codes]
        yield altered(run, {"fields": fields, "words": words, "before": registers + rest}, end=fault, steps=1, after=[0] + registers[1:] + rest)


def landing(run):
    """Runs of routines with a branch into a slot. r1 and r2 are 0 at first: the slot adds 1 to r1, and other slots add 1 to r2. The
    codes are at first as they are left."""
    count, mark = word("add", 1, 1, 1), word("add", 2, 2, 1)
    into, last = [branch(ALWAYS, 3), mark], [RETURN, mark]
    own = [branch(ALWAYS, 1), count, *last]
    loop = [branch(ALWAYS, 2), count, word("subcc", 0, 1, 3), branch(NOT_EQUAL, -2), mark, *last]
    for end, steps, words, codes, first, second in [
            (RETURNED, 5, own, 0, 2, 1),
            (RETURNED, 4, [branch(ALWAYS, 1, True), count, *last], 0, 1, 1),
            (RETURNED, 5, [branch(EQUAL, 1), count, *last], EQUALS, 2, 1),
            (RETURNED, 4, [branch(EQUAL, 1), count, *last], 0, 1, 1),
            (RETURNED, 5, [branch(EQUAL, 1, True), count, *last], EQUALS, 2, 1),
            (RETURNED, 3, [branch(EQUAL, 1, True), count, *last], 0, 0, 1),
            (RETURNED, 5, [*into, branch(ALWAYS, 0), count, *last], 0, 1, 2),
            (RETURNED, 5, [*into, branch(EQUAL, 0), count, *last], 0, 1, 2),
            (RETURNED, 5, [*into, branch(ALWAYS, 0, True), count, *last], 0, 1, 2),
            (RETURNED, 5, [*into, branch(NEVER, 0, True), count, *last], 0, 1, 2),
            (RETURNED, 5, [*into, RETURN, count, *last], 0, 1, 2),
            (RETURNED, 4, [branch(ALWAYS, 3, True), mark, RETURN, count, *last], 0, 1, 1),
            (RETURNED, 6, [*into, branch(ALWAYS, 0), branch(ALWAYS, 2), count, *last], 0, 1, 2),
            (RETURNED, 15, loop, EQUALS, 3, 4),
            (SPENT, 2, own, 0, 1, 0),
            (SPENT, 3, own, 0, 2, 0),
            (SPENT, 10, loop, IS_LESS, 3, 2),
            (NO_WORD, 3, [*into, RETURN, count], 0, 1, 1)]:
        registers = run.before[:REGISTERS]
        registers[1:3], registers[LINK] = [0, 0], run.returns
        rest = [2 ** REGISTERS - 1, CODES_SET + codes]
        change = {"words": words, "before": registers + rest, "allowance": steps if end == SPENT else 99}
        yield altered(run, change, end=end, steps=steps, after=[0, first, second, *registers[3:], *rest])


def holds(condition, codes):
    """Whether a condition holds with the codes NZVC."""
    n, z, v, c = (codes >> bit & 1 for bit in (3, 2, 1, 0))
    return bool([0, z, z | n ^ v, n ^ v, c | z, c, n, v][condition % 8]) != (condition >= 8)


def parting(run, registers, condition, codes, annul, hint):
    """A predicted branch over a return. Its slot adds 1 to r2; where it is taken 1 is added to r1."""
    words = [predicted(condition, 4, annul, hint), word("add", 2, 2, 1), RETURN, NOP, word("add", 1, 1, 1), RETURN, NOP]
    taken = holds(condition, codes)
    slot = not annul or (taken and condition != ALWAYS)
    rest = [2 ** REGISTERS - 1, CODES_SET + codes]
    change = {"edition": NEWER, "words": words, "before": registers + rest, "allowance": 99}
    return altered(run, change, end=RETURNED, steps=3 + slot + taken, after=[0, int(taken), int(slot), *registers[3:], *rest])


def unread(run, edition, registers, words):
    """A run whose first word is not read."""
    rest = [2 ** REGISTERS - 1, CODES_SET]
    change = {"edition": edition, "words": words, "before": registers + rest, "allowance": 99}
    return altered(run, change, end=NO_WORD, steps=0, after=[0, *registers[1:], *rest])


def predictions(run):
    """Runs with predicted branches: those into slots again, each condition with codes that it holds with and codes that it does not, if
    there are both, and words that are not read."""
    for one in landing(run):
        for hint in False, True:
            yield altered(one, {"edition": NEWER, "words": [as_predicted(each, hint) for each in one.words]}, after=one.after)
    registers = run.before[:REGISTERS]
    registers[1:3], registers[LINK] = [0, 0], run.returns
    for condition in range(16):
        for way in False, True:
            codes = next((codes for codes in range(16) if holds(condition, codes) == way), IS_LESS)
            for annul in False, True:
                yield parting(run, registers, condition, codes, annul, (condition + way + annul) % 2 == 1)
    for condition in NEVER, EQUAL, ALWAYS:
        for hint in False, True:
            yield unread(run, OLDER, registers, [predicted(condition, 2, False, hint), NOP, RETURN, NOP])
            for codes in 1, 2, 3:
                yield unread(run, NEWER, registers, [predicted(condition, 2, False, hint, codes), NOP, RETURN, NOP])


def placed(run, words, end, steps, set_words=(), values=(), stored=(), **change):
    """A run of words that work on the frame. r1 has a value to be stored, r14 the frame address and r15 the return address. It leaves the
    scratch words set, the values, by register, and the values stored, by scratch word."""
    frame = change.get("frame", run.frame)
    registers = {1: 0xCAFE5A01, STACK: frame, LINK: run.returns, **change.pop("registers", {})}
    handed = [registers.get(r, run.before[r]) for r in range(REGISTERS)]
    marks = 2 ** REGISTERS - 1 - sum(2 ** r for r in change.pop("unset", ()))
    codes = run.before[-1]
    left = {**dict(enumerate(handed)), 0: 0, **dict(values)}
    change = {"words": words, "before": [*handed, marks, codes + marked(change.pop("handed", ()))], "allowance": 99, **change}
    one = altered(run, change, end=end, steps=steps, after=[*(left[r] for r in range(REGISTERS)), marks, codes + marked(set_words)])
    memory = bytearray(one.memory)
    for k, value in dict(stored).items():
        at = sum(run.sizes) + FIRST + 4 * k
        memory[at:at + 4] = value.to_bytes(4, "big")
    vars(one).update({"changed": True, "left": bytes(memory)} if stored else {})
    return one


def kept_words(run):
    """Runs that store scratch words and load them again."""
    value = 0xCAFE5A01

    def kept(k, store, load, **change):
        return placed(run, [store, load, RETURN, NOP], RETURNED, 4, [k], {2: value}, {k: value}, **change)

    first, again = word("st", 1, STACK, FIRST), word("ld", 2, STACK, FIRST)
    for k in range(SCRATCH):
        yield kept(k, word("st", 1, STACK, FIRST + 4 * k), word("ld", 2, STACK, FIRST + 4 * k))
    yield kept(2, word("st", 1, STACK, "r3"), word("ld", 2, 4, -100), registers={3: FIRST + 8, 4: run.frame + FIRST + 108})
    yield kept(5, word("st", 1, 5, "r6"), word("ld", 2, STACK, FIRST + 20), registers={5: 2 ** 32 - 8, 6: run.frame + FIRST + 28})
    for frame in run.bases[-1] + run.sizes[-1], run.bases[0] - FRAME, 2 ** 32 - FRAME - 8:
        if not overlaps(frame, run.bases, run.sizes):
            yield kept(0, first, again, frame=frame)
    stores = [word("st", 1, STACK, FIRST + 4 * k) for k in range(SCRATCH)]
    yield placed(run, stores, SPENT, 4, range(4), stored={k: value for k in range(4)}, allowance=4)
    yield placed(run, [first, word("st", 1, STACK, FIRST + 2)], UNALIGNED, 1, [0], stored={0: value})
    yield placed(run, [first, word("ld", 2, STACK, FIRST + 4)], UNSET_READ, 1, [0], stored={0: value})
    yield placed(run, [first, word("st", 0, STACK, FIRST), again, RETURN, NOP], RETURNED, 5, [0], {2: 0}, {0: 0})


def faulting_in_frame(run):
    """Runs whose second word faults in the frame: at an unset scratch word, at the rest of the frame or with another width, unaligned."""
    faults = [(UNSET_READ, "ld", FIRST + 4 * k) for k in range(SCRATCH)]
    faults += [(NO_FIELD, name, offset) for name in ("ldub", "ldsb", "lduh", "ldsh", "stb", "sth") for offset in (0, FIRST, FIRST + 20)]
    faults += [(NO_FIELD, name, FIRST + 23) for name in ("ldub", "stb")]
    faults += [(NO_FIELD, name, offset) for name in ("ld", "st") for offset in (-4, 0, FIRST - 8, FIRST - 4, FRAME, FRAME + 4)]
    faults += [(UNALIGNED, name, offset) for name in ("ld", "st") for offset in (FIRST + 1, FIRST + 2, FRAME - 1)]
    faults += [(UNALIGNED, name, FIRST + 1) for name in ("lduh", "ldsh", "sth")]
    for fault, name, offset in faults:
        yield placed(run, [NOP, word(name, 1, STACK, offset)], fault, 1, handed=range(SCRATCH))
    yield placed(run, [NOP, word("st", 2, STACK, FIRST + 1)], UNSET_READ, 1, unset=[2])
    yield placed(run, [NOP, word("ld", 2, STACK, FIRST)], UNSET_READ, 1, unset=[STACK])


def misplaced_frames(run):
    """Runs that are refused with 22 for the frame or the length of memory, with scratch words handed in as set."""
    last = run.bases[-1] + run.sizes[-1]
    for frame in 0, 4, run.frame + 1, run.frame + 4, 2 ** 32 - FRAME, 2 ** 32 - 8, run.bases[0], run.bases[-1] - FRAME + 8, last - 8:
        yield placed(run, [RETURN, NOP], BAD_PLACEMENT, 0, values={0: run.before[0]}, handed=range(SCRATCH), frame=frame)
    for memory in run.memory[:-FRAME], run.memory[:-1], run.memory + b"!":
        yield placed(run, [RETURN, NOP], BAD_PLACEMENT, 0, values={0: run.before[0]}, handed=[0, 5], memory=memory)


def framed(run):
    """Runs with the frame, on each terminal in turn."""
    for k, one in enumerate(itertools.chain(kept_words(run), faulting_in_frame(run), misplaced_frames(run))):
        vars(one).update(edition=NEWER if k % 2 else OLDER)
        yield one


def run_of(text):
    """The run that a text has; a problem names its first line."""
    try:
        return Run(text)
    except (ValueError, IndexError, TypeError):
        raise script.Problem(f"no run: `{text.strip().splitlines()[0]} ..`") from None


def main(arguments):
    others = []
    for path in arguments:
        with open(path, encoding="utf-8", errors="replace") as text:
            others += [run_of(each) for each in text.read().split("\n\n") if each.strip()]
    runs = list(sample(standing(), others))
    whole = [run for run in runs if run.end == 0 and 3 <= run.regions < REGIONS and all(kinds(run))]
    if not whole:
        raise script.Problem("no run that returned can be made into others: it needs three to seven regions, an address and two signed halves")
    for made in refused, empty, misplaced, faulting, landing, predictions:
        runs += made(whole[0])
    runs += framed(min(whole, key=lambda run: len(run.memory)))
    for run in runs:
        sys.stdout.buffer.write(run.record())
    for end, count in sorted(collections.Counter(run.end for run in runs).items()):
        print(f"end {end}: {count} runs", file=sys.stderr)
    print(f"with a branch into a slot: {sum(bool(assembly.landings(run.words, run.edition)) for run in runs)} runs", file=sys.stderr)
    print(f"with an access through r14: {sum(run.through() for run in runs)} runs", file=sys.stderr)
    print(f"on the newer terminal: {sum(run.edition == NEWER for run in runs)} runs", file=sys.stderr)


if __name__ == "__main__":
    script.run(main, __doc__)
