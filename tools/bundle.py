#!/usr/bin/env python3
"""bundle.py: makes the bundle of a routine from readable files, or lists it.

    tools/bundle.py FOLDER               reads FOLDER/routine.s, policy.txt and rows.txt, writes FOLDER/bundle.bin
    tools/bundle.py --list FOLDER        prints each word of FOLDER/bundle.bin with its disassembly and its row
    tools/bundle.py --rows FOLDER        prints the rows of FOLDER/bundle.bin as a rows.txt would have them
    tools/bundle.py --edition 9 ..       for the newer terminal, which follows SPARC Version 9; 8 is the older one
    tools/bundle.py --version 1 FOLDER   writes a bundle of version 1, whose rows have no scratch words; 2 has them

Without --edition it is the one in FOLDER/edition, a line with 8 or 9; without that file, 8. Without --version it is the one in
FOLDER/version, a line with 1 or 2; without that file, 2.

To make a bundle needs GNU as for SPARC (Debian: binutils-sparc64-linux-gnu); to list one, its objdump for
the disassembly, which is left out otherwise. It writes down what the files say and does not check it: to
accept or refuse a bundle is the bundle program's task. On a file that cannot be written down it prints the
file, the line and the reason, and ends with status 1; there is then no bundle.bin, also none of before.

Rows that rows.txt does not have are found by the program `infer` (crates/infer/out/infer, made by `rt run </dev/null` in
crates/infer) or, for edition 9, `infer9`; those that it has are kept. Then two lines are printed: how many rows were found, and the answer to the
bundle with them. A refused one is written too, so that `explain.py FOLDER` says what is wrong. If rows.txt has them all,
nothing is found and nothing printed.

The files are UTF-8. In policy.txt and rows.txt, `#` begins a comment and an indented line goes on with the
line above, except that each `field` is a line of its own. Numbers are decimal, or hexadecimal after 0x.

routine.s
    for `as -32 -Av8`, or -Av8plus for edition 9: words in .text alone, with nothing left for a linker

policy.txt
    region NAME SIZE
      field NAME at OFFSET: COUNT ELEMENT, PERMISSION, LO to HI
  ELEMENT      unsigned byte, signed byte, unsigned half, signed half, signed word, address of REGION,
               address of REGION or null (plurals too: bytes, halves, words, addresses)
  PERMISSION   read, write, read and write
  LO to HI     not for addresses; left out, all that the element can hold

rows.txt
    entry: ROW          what the terminal hands over
    result: ENTRY       what must be in r8 at the return
    WORD: ROW           what holds at the word; ascending; left out, it is found
  WORD         its number, from 0 on; a label of routine.s; LABEL+N, so many words after it; or +1, the word
               after that of the row above
  ROW          parts with commas between; registers and scratch words that are not named are unset, r0 is 0, the note is
               none
    as entry, as before, as WORD  first part: begin with the entry row, the row above, a word's row (above);
                                  not with a `slot`
    REGISTER = ENTRY              r0 to r31, or %g0 to %i7; %sp is r14
    SCRATCH = ENTRY               a scratch word, spelled as in routine.s: [%sp+96], [%sp+100], [%sp+104], [%sp+108], [%sp+112]
                                  or [%sp+116]; not in the entry row, where all six are unset, nor in a bundle of version 1
    note none, note set           condition codes not set; set
    note compared REGISTER N      set by comparing that register's present value with the number N
    slot                          alone: a row for a delay slot, which is not read; all unset; not for a slot
                                  that a branch lands on, whose row is read
  ENTRY        unset; return; any number; SET; REGION+SET; REGION (that is REGION+0); REGION or null; frame, the address of the
               frame, in r14 alone
  SET          N; LO..HI (step 1); LO..HI step S
"""
import os
import re
import sys

sys.dont_write_bytecode = True
import assembly
import layout
import programs
import script
from layout import (ADDRESS, ELEMENTS, FRAME, FRAME_ADDRESS, FULL, NO_NOTE, NOTE_COMPARED, NOTE_NONE, NOTE_SET, NOTHING, NUMBER,
                    OR_NULL, PERMISSIONS, RETURN, RETURN_ADDRESS, SINGLE_STEP, TO_START, TO_START_OR_NULL, UNSET)
from script import Problem

REGISTERS = ["%" + bank + str(k) for bank in "goli" for k in range(layout.REGISTERS // 4)]
POINTERS = ("%sp", "%o6", f"r{layout.POINTER}")
RESERVED = {"unset", "return", "frame", "any", "or", "null", "entry", "result"}
NUM = r"-?(?:0x[0-9a-fA-F]+|[0-9]+)"
SET = re.compile(rf"({NUM})(?:\.\.({NUM}))?(?: step ([0-9]+))?")
FIELD = re.compile(rf"field ([\w-]+) at ({NUM}): ({NUM}) ([^,]+), ([^,]+?)(?:, ({NUM}) to ({NUM}))?")
WORD = re.compile(r"([0-9]+)|\+([0-9]+)|([^\W\d][\w.$]*|[.$][\w.$]*)(?: ?\+ ?([0-9]+))?")
SCRATCH = re.compile(r"\[ ?(%\w+|r[0-9]+) ?\+ ?([0-9]+|0x[0-9a-fA-F]+) ?\]")
SLOT = layout.row({})
ANSWER = re.compile(r"\d+ \d+ \d+")
ACCEPTED = "0 0 0"


# Lines

def lines_of(path, own_line=None):
    """(first line, last line, text) of each text, without comments; indented lines are joined to the one above
    unless they begin with the word own_line."""
    joined = []
    for number, raw in enumerate(script.read_lines(path), 1):
        text = " ".join(raw.split("#")[0].split())
        if not text:
            continue
        if raw[0].isspace() and joined and not (own_line and text.startswith(own_line)):
            first, _, above = joined[-1]
            joined[-1] = (first, number, above + " " + text)
        else:
            joined.append((number, number, text))
    return joined


def at_lines(path, first, last, parse, *arguments):
    """parse(*arguments); a problem gets the file's name and the line."""
    try:
        return parse(*arguments)
    except Problem as problem:
        lines = f"line {first}" if first == last else f"lines {first} to {last}"
        raise Problem(f"{os.path.basename(path)}, {lines}: {problem}") from None


def whole(text, lowest, highest, what):
    """The number that text spells, within what the bundle has room for."""
    spelled = re.fullmatch(NUM, text) and not re.fullmatch(r"-?0[0-9]+", text) and len(text) < 20
    value = int(text, 0) if spelled else None
    if value is None or not lowest <= value <= highest:
        raise Problem(f"{what} must be a number from {lowest} to {highest}, not `{text}`")
    return value


def word_sized(text, what):
    return whole(text, -2**31, 2**31 - 1, what)


# Policy: a list of (name, size, fields); a field is (name, element, permission, target, offset, count, lo, hi)

def read_policy(path):
    lines = lines_of(path, own_line="field ")
    names = [text.split()[1] for _, _, text in lines if text.startswith("region ")]
    regions = []
    for first, last, text in lines:
        at_lines(path, first, last, add_policy_line, regions, names, text)
    return regions


def add_policy_line(regions, names, text):
    if text.startswith("region "):
        regions.append(region_of(text, [name for name, _, _ in regions]))
        expect_room(len(regions), layout.ROOM_REGIONS, "regions")
    elif not regions:
        raise Problem("expected `region NAME SIZE` first")
    else:
        regions[-1][2].append(field_of(text, names))
        expect_room(len(regions[-1][2]), layout.ROOM_FIELDS, "fields of a region")


def expect_room(count, most, what):
    if count > most:
        raise Problem(f"a bundle has room for {most} {what}, and this is number {count}")


def region_of(text, taken):
    match = re.fullmatch(r"region ([A-Za-z][\w-]*) (\S+)", text)
    if not match:
        raise Problem(f"expected `region NAME SIZE`, not `{text}`")
    name = match[1]
    if name in taken or name in RESERVED or re.fullmatch(r"r\d+", name):
        raise Problem(f"a region cannot be named `{name}`: the name is taken")
    return name, whole(match[2], 0, 65535, "a region's size"), []


def field_of(text, names):
    match = FIELD.fullmatch(text)
    if not match:
        raise Problem(f"expected `field NAME at OFFSET: COUNT ELEMENT, PERMISSION, LO to HI`, not `{text}`")
    name, offset, count, element, permission, lo, hi = match.groups()
    if permission not in PERMISSIONS:
        raise Problem(f"a permission is one of {', '.join(PERMISSIONS)}; not `{permission}`")
    place = whole(offset, 0, 65535, "an offset"), whole(count, 0, 65535, "a count")
    number, target, low, high = element_of(element, names)
    if lo is not None:
        low, high = word_sized(lo, "the lowest value"), word_sized(hi, "the highest value")
    return name, number, PERMISSIONS[permission], target, *place, low, high


def element_of(text, names):
    """Number, target, lowest and highest value of an element."""
    match = re.fullmatch(r"address(?:es)? of ([\w-]+)( or null)?", text)
    if match:
        return TO_START_OR_NULL if match[2] else TO_START, index_of(match[1], names), 0, 0
    singular = re.sub(r"halves$", "half", re.sub(r"(byte|word)s$", r"\1", text))
    if singular not in ELEMENTS:
        raise Problem(f"an element is one of {', '.join(ELEMENTS)}, address of REGION, address of REGION or null; "
                      f"not `{text}`")
    number, low, high = ELEMENTS[singular]
    return number, 0, low, high


def index_of(name, names):
    if name not in names:
        raise Problem(f"policy.txt has no region named `{name}`")
    return names.index(name)


def unnamed(regions):
    """The policy as a bundle has it."""
    return [(size, [field[1:] for field in fields]) for _, size, fields in regions]


# Rows: a row is (list of 38 entries, note); an entry is (kind, region, step, lo, hi); a note (kind, register, number). The entries
# are those of the registers and then of the scratch words; an entry's place is its place in the list.

class Rows:
    """The entry row and result entry by their names, and the rows by their words, as far as they are read. It knows the
    names of the regions, the word of each label, how many words there are, which branches land on slots and the bundle's version."""

    def __init__(self, names, labels, count, landings={}, version=layout.VERSION):
        self.names, self.labels, self.count, self.landings, self.version = names, labels, count, landings, version
        self.named, self.rows = {}, {}

    def add(self, text):
        """Adds a line."""
        key, colon, rest = (part.strip() for part in text.partition(":"))
        if not colon or not (key in ("entry", "result") or WORD.fullmatch(key)):
            raise Problem(f"expected `entry:`, `result:` or a word and a colon, not `{text}`")
        if key in self.named:
            raise Problem(f"a second line `{key}:`")
        if key == "result":
            self.named[key] = held_in(None, entry_of(rest, self.names))
        elif key == "entry":
            self.named[key] = with_nothing_kept(self.row_of(rest))
        else:
            word = self.next_word(key)
            row = self.row_of(rest)
            if row is SLOT and word in self.landings:
                raise Problem(f"{self.called(word)} is the slot of word {word - 1}, but {assembly.branches_text(self.landings[word])} "
                              "to it: it needs a row, with what holds when it is branched to")
            self.rows[word] = row

    def next_word(self, key):
        """The word that a line's key names, which comes after those above."""
        word, above = self.word_of(key), self.last()
        if word in self.rows:
            raise Problem(f"a second row of {self.called(word)}")
        if word < above:
            raise Problem(f"the row of {self.called(word)} stands below that of {self.called(above)}: rows ascend")
        if word >= self.count:
            raise Problem(f"there is no word {word}: routine.s has words 0 to {self.count - 1}")
        return word

    def last(self):
        """The word of the row above; -1 if there is none."""
        return max(self.rows, default=-1)

    def word_of(self, text):
        """The word that a text names."""
        match = WORD.fullmatch(text)
        if not match:
            raise Problem(f"a word is its number, a label, LABEL+N or +1; not `{text}`")
        number, after, label, distance = match.groups()
        if label and label not in self.labels:
            raise Problem(f"routine.s has no label `{label}`" + (f"; it has {', '.join(self.labels)}" if self.labels else ""))
        start = self.labels[label] if label else self.last() if after else 0
        return start + whole((number or after or distance or "0").lstrip("0") or "0", 0, 65535, "a word")

    def parts(self):
        """Entry row, result entry and rows; those that no line has are to be found."""
        return self.named["entry"], self.named["result"], [self.rows.get(word, layout.TO_FIND) for word in range(self.count)]

    def lacking(self):
        """How many words have no row, in words; nothing if each has one."""
        words = [word for word in range(self.count) if word not in self.rows]
        return f"no row for {len(words)} of the {self.count} words, from {self.called(words[0])} on" if words else ""

    def called(self, word):
        """A word with its labels."""
        labels = [label for label, at in self.labels.items() if at == word]
        return f"word {word}" + (f" ({', '.join(labels)})" if labels else "")

    def row_of(self, text):
        if text == "slot":
            return SLOT
        entries, note, seen = list(SLOT[0]), NO_NOTE, set()
        parts = [part.strip() for part in text.split(",") if part.strip()]
        for place, part in enumerate(parts):
            if part.startswith("as ") and place == 0:
                entries, note = self.copied(part[3:])
                continue
            what, value = part_of(part, self.names)
            if what in seen:
                raise Problem(f"{what if what == 'note' else place_text(what)} is given twice")
            seen.add(what)
            if what == "note":
                note = value
            elif self.version == layout.BEFORE_SCRATCH and what >= layout.REGISTERS:
                raise Problem(f"{place_text(what)} is given, and a bundle of version {self.version} has no scratch words")
            else:
                entries[what] = held_in(what, value)
        return entries, note

    def copied(self, source):
        """The row that a row begins with."""
        if source == "entry":
            row, name = self.named.get(source), "the entry row"
        else:
            word = self.last() if source == "before" else self.word_of(source)
            row, name = self.rows.get(word), f"the row of {self.called(word)}"
        if row is None:
            raise Problem(f"`as {source}` names no row above this line")
        if row is SLOT:
            raise Problem(f"`as {source}` names {name}, a `slot`, which says nothing: name the row that is meant")
        return list(row[0]), row[1]


def part_of(text, names):
    """The place of the entry, or `note`, that a part of a row is about, and the entry or note."""
    if text.startswith("note "):
        return "note", note_of(text[5:])
    place, equals, entry = (part.strip() for part in text.partition("="))
    if not equals:
        raise Problem("`slot` stands alone in its row" if text == "slot" else "`as ..` stands first in its row"
                      if text.startswith("as ") else f"expected `REGISTER = ENTRY`, `[%sp+N] = ENTRY` or `note ..`, not `{text}`")
    return scratch_of(place) if place.startswith("[") else register_of(place), entry_of(entry, names)


def register_of(text):
    if text in REGISTERS:
        return REGISTERS.index(text)
    match = re.fullmatch(r"r([0-9]|[12][0-9]|3[01])", text)
    if not match and text not in POINTERS:
        raise Problem(f"a register is r0 to r31, or %g0 to %i7; not `{text}`")
    return int(match[1]) if match else layout.POINTER


def scratch_of(text):
    """The place of the scratch word that a text spells."""
    match = SCRATCH.fullmatch(text)
    offset = int(match[2], 0) if match and match[1] in POINTERS and not re.fullmatch("0[0-9]+", match[2]) else None
    if offset not in layout.SCRATCH_OFFSETS:
        raise Problem(f"a scratch word is one of {', '.join(map(scratch_text, layout.SCRATCH_OFFSETS))}; not `{text}`")
    return layout.REGISTERS + layout.SCRATCH_OFFSETS.index(offset)


def held_in(place, entry):
    """An entry that may stand in this place, or, without one, in the result."""
    if entry == FRAME_ADDRESS and place != layout.POINTER:
        raise Problem("`frame`, the address of the frame, stands in r14 (%sp) alone")
    return entry


def with_nothing_kept(row):
    """A row that may be the entry row."""
    kept = [place for place in range(layout.REGISTERS, layout.ENTRIES) if row[0][place] != NOTHING]
    if kept:
        raise Problem(f"{place_text(kept[0])} is given in the entry row: all six scratch words are unset at the start")
    return row


def note_of(text):
    match = re.fullmatch(r"compared (\S+) (\S+)", text)
    if match:
        return NOTE_COMPARED, register_of(match[1]), word_sized(match[2], "the number compared with")
    if text not in ("none", "set"):
        raise Problem(f"a note is none, set, or compared REGISTER N; not `{text}`")
    return (NOTE_NONE if text == "none" else NOTE_SET), 0, 0


def entry_of(text, names):
    plain = {"unset": NOTHING, "return": RETURN_ADDRESS, "frame": FRAME_ADDRESS, "any number": FULL}
    if text in plain:
        return plain[text]
    if SET.fullmatch(text):
        return (NUMBER, 0) + set_of(text)
    if text.endswith(" or null"):
        return OR_NULL, index_of(text[:-len(" or null")], names), 0, 0, 0
    region, plus, offsets = (part.strip() for part in text.partition("+"))
    if not re.fullmatch(r"[A-Za-z][\w-]*", region):
        raise Problem(f"an entry is unset, return, any number, SET, REGION+SET, REGION or null, or frame; not `{text}`")
    return (ADDRESS, index_of(region, names)) + set_of(offsets if plus else "0")


def set_of(text):
    """Step, lowest and highest member."""
    match = SET.fullmatch(text)
    if not match:
        raise Problem(f"a set is N, LO..HI or LO..HI step S; not `{text}`")
    lo = word_sized(match[1], "the lowest member")
    hi = word_sized(match[2], "the highest member") if match[2] else lo
    step = whole(match[3], 0, 255, "a step") if match[3] else SINGLE_STEP if lo == hi else 1
    return step, lo, hi


def read_rows(path, names, labels, words, edition, version):
    """The rows of a rows.txt."""
    rows, name = Rows(names, labels, len(words), assembly.landings(words, edition), version), os.path.basename(path)
    for first, last, text in lines_of(path):
        at_lines(path, first, last, rows.add, text)
    for key in ("entry", "result"):
        if key not in rows.named:
            raise Problem(f"{name} has no line `{key}:`")
    return rows


def rows_in(folder):
    """How many rows a folder's rows.txt has; None if it is not there or no text."""
    try:
        keys = [text.partition(":")[0].strip() for _, _, text in lines_of(os.path.join(folder, "rows.txt"))]
    except Problem:
        return None
    return sum(key not in ("entry", "result") for key in keys)


def words_shown(words, labels, edition):
    """Each word with its number, its labels and, if there is a disassembler, its text."""
    names = ["".join(f"{label}: " for label, at in labels.items() if at == k) for k in range(len(words))]
    texts, wide = assembly.disassemble(words, edition), max(map(len, names), default=0)
    return [f"{k:3}  {names[k]:<{wide}}{word:08X}" + (f"  {texts[k]:<32}" if texts else "") for k, word in enumerate(words)]


# Bundle

def bundle_of(folder, edition, version):
    """The bundle of a folder's three files, and in words how many rows are to be found in it."""
    regions = read_policy(os.path.join(folder, "policy.txt"))
    words, labels = assembly.assemble(folder, edition)
    if len(words) > layout.ROOM_WORDS:
        raise Problem(f"routine.s has {len(words)} words: a bundle has room for {layout.ROOM_WORDS}")
    names = [name for name, _, _ in regions]
    rows = read_rows(os.path.join(folder, "rows.txt"), names, labels, words, edition, version)
    entry, result, given = rows.parts()
    return layout.bundle_bytes(unnamed(regions), entry, result, words, given, version), rows.lacking()


def make(folder, edition, told=None):
    """Writes a folder's bundle, and gives the lines that tell what was found for it. The one of before is gone first, so that
    it is never taken for the new one."""
    path = os.path.join(folder, "bundle.bin")
    if os.path.lexists(path):
        os.remove(path)
    data, lacking = bundle_of(folder, edition, version_of(folder, told))
    answer, held = rows_found(data, lacking, edition) if lacking else ("", data)
    write_whole(path, held)
    return found_lines(folder, edition, lacking, answer, held != data) if lacking else []


def write_whole(path, data):
    """Writes a file that is there whole or not at all."""
    try:
        with open(path + ".new", "wb") as file:
            file.write(data)
        os.replace(path + ".new", path)
    except OSError:
        if os.path.exists(path + ".new"):
            os.remove(path + ".new")
        raise


# Rows that are found

def rows_found(data, lacking, edition):
    """The answer of the program that finds rows, and the bundle with these; as it was, if it does not open."""
    program = programs.program_of("infer", edition)
    if not programs.is_built(program):
        raise Problem(f"rows.txt has {lacking}, and {programs.not_built(program)}")
    line, _, filled = programs.run(program, data).partition(b"\n")
    answer = line.decode("ascii", "replace")
    if not ANSWER.fullmatch(answer) or filled and not is_filled(filled, data):
        raise programs.unknown(program)
    return answer, filled or data


def is_filled(filled, data):
    """Whether a bundle is another one with all rows that are to be found in it."""
    before, given = layout.row_parts(data)
    if len(filled) != len(data) or not filled.startswith(before):
        return False
    _, rows = layout.row_parts(filled)
    return all(not layout.is_to_find(row) and (layout.is_to_find(old) or row == old) for row, old in zip(rows, given))


def found_lines(folder, edition, lacking, answer, found):
    """How many rows were found, and what becomes of the bundle with them."""
    done = f"found by {programs.place_of(programs.program_of('infer', edition))}" if found else "not looked for, since the bundle does not open"
    told = "" if script.edition_of(folder) == edition else f"--edition {edition} "
    more = "" if answer == ACCEPTED else f"; `tools/explain.py {told}{folder}` says why"
    return [f"rows.txt has {lacking}: {done}", f"{answer}: {'accepted' if answer == ACCEPTED else 'refused'}{more}"]


def read_bundle(path):
    """A bundle's version, and its policy, entry row, result entry, words and rows."""
    data = script.read_bytes(path)
    try:
        return layout.version_of(data), layout.open_bundle(data)
    except Problem as problem:
        raise Problem(f"{os.path.basename(path)} is {problem}") from None


# The version

def taken_version(arguments):
    """The version that `--version 1` or `--version 2` tells, None without it, and the other arguments."""
    if "--version" not in arguments:
        return None, arguments
    at = arguments.index("--version")
    return version_named(arguments[at + 1:at + 2], "--version"), arguments[:at] + arguments[at + 2:]


def version_named(words, what):
    for version in layout.ROW_SIZES:
        if words == [str(version)]:
            return version
    raise Problem(f"{what} is {layout.VERSION}, with scratch words in its rows, or {layout.BEFORE_SCRATCH}, without")


def version_of(folder, told=None):
    """The version that was told; if none was, that of the file `version` in a folder, or the one that is written otherwise."""
    file = os.path.join(folder, "version")
    if told is None and os.path.lexists(file):
        return version_named(" ".join(script.read_lines(file)).split(), "the line of the file version")
    return told or layout.VERSION


def names_of(folder, policy):
    """(name, names of the fields) of each region, by the folder's policy.txt, and a remark. There are none if that is not
    there or is another policy."""
    path = os.path.join(folder, "policy.txt")
    if not os.path.exists(path):
        return [], []
    regions = read_policy(path)
    if unnamed(regions) != policy:
        return [], ["(policy.txt is not the policy of bundle.bin: regions and fields are named by number)"]
    return [(name, [field[0] for field in fields]) for name, _, fields in regions], []


# Text of entries and rows, as in rows.txt

def scratch_text(offset):
    return f"[%sp+{offset}]"


def place_text(place):
    """A register, or a scratch word, by the place of its entry in a row."""
    return f"r{place}" if place < layout.REGISTERS else scratch_text(layout.SCRATCH_OFFSETS[place - layout.REGISTERS])


def set_text(step, lo, hi):
    return str(lo) if lo == hi else f"{lo}..{hi}" if step == 1 else f"{lo}..{hi} step {step}"


def entry_text(entry, names):
    kind, region, step, lo, hi = entry
    name = names[region] if region < len(names) else f"region{region}"
    if kind == NUMBER:
        return "any number" if entry == FULL else set_text(step, lo, hi)
    if kind == ADDRESS:
        return f"{name}+{set_text(step, lo, hi)}"
    return {UNSET: "unset", OR_NULL: f"{name} or null", RETURN: "return", FRAME: "frame"}.get(kind, f"kind {kind}")


def note_text(note):
    kind, register, number = note
    return {0: "note none", 1: "note set", 2: f"note compared r{register} {number}"}.get(kind, f"note of kind {kind}")


def changes(row, base, names):
    """The parts of a row that are not those of another."""
    parts = [f"{place_text(k)} = {entry_text(entry, names)}" for k, (entry, other) in enumerate(zip(row[0], base[0])) if entry != other]
    return parts + ([note_text(row[1])] if row[1] != base[1] else [])


def row_text(row, names):
    """The row's set registers but r0, its set scratch words, and its note if there is one."""
    return "to be found" if row == layout.TO_FIND else ", ".join(changes(row, SLOT, names)) or "all unset"


def short_text(row, bases, names):
    """A row as rows.txt has it: by itself or, if that is shorter, by what is changed in one of the rows that it may begin with."""
    texts = [", ".join(changes(row, SLOT, names)) or "note none"]
    return min(texts + [", ".join([f"as {name}", *changes(row, base, names)]) for name, base in bases], key=len)


def rows_lines(entry, result, words, rows, names, edition):
    """The lines of a rows.txt with these rows; those that are to be found are left out."""
    lines = [f"entry: {', '.join(changes(entry, SLOT, names))}".rstrip(), f"result: {entry_text(result, names)}"]
    slots, above, last = assembly.plain_slots(words, edition), None, None  # the row above, and the last that is no `slot`
    for word in (word for word, row in enumerate(rows) if row != layout.TO_FIND):
        bases = [("entry", entry)] + ([("before" if last == above else str(last), rows[last])] if last is not None else [])
        is_slot = word in slots and rows[word] == SLOT
        lines.append(f"{word}: " + ("slot" if is_slot else short_text(rows[word], bases, names)))
        above, last = word, last if is_slot else word
    return lines


def reads_as(lines, names, data, edition):
    """Whether a rows.txt with these lines gives the bundle."""
    policy, _, _, words, _ = layout.open_bundle(data)
    version = layout.version_of(data)
    rows = Rows(names, {}, len(words), assembly.landings(words, edition), version)
    try:
        for line in lines:
            rows.add(line)
        entry, result, given = rows.parts()
        return layout.bundle_bytes(policy, entry, result, words, given, version) == data
    except Problem:
        return False


def rows_text(folder, edition):
    """The rows of a folder's bundle as a rows.txt has them."""
    path = os.path.join(folder, "bundle.bin")
    _, (policy, *parts) = read_bundle(path)
    named, remarks = names_of(folder, policy)
    names = [name for name, _ in named] or [f"region{k}" for k in range(len(policy))]
    lines = rows_lines(*parts, names, edition)
    if not reads_as(lines, names, script.read_bytes(path), edition):
        raise Problem("bundle.bin has a row that is badly formed, and rows.txt has no words for it: `explain.py` says where it stands")
    return "\n".join([f"# {remark}" for remark in remarks] + lines)


def listing(folder, edition):
    version, (policy, entry, result, words, rows) = read_bundle(os.path.join(folder, "bundle.bin"))
    named, lines = names_of(folder, policy)
    names = [name for name, _ in named]
    if version == layout.BEFORE_SCRATCH:
        lines.append(f"(a bundle of version {version}: its rows have no scratch words)")
    lines += [f"entry: {row_text(entry, names)}", f"result: {entry_text(result, names)}"]
    texts = assembly.disassemble(words, edition)
    if texts is None:
        lines.insert(0, "(no disassembly: objdump of GNU binutils for SPARC is not here)")
    for index, word in enumerate(words):
        text = f"  {texts[index]:<28}" if texts else ""
        lines.append(f"{index:3}  {word:08X}{text}  {row_text(rows[index], names)}")
    return "\n".join(lines)


def main(arguments):
    told, others = script.taken_edition(arguments)
    version, others = taken_version(others)
    printing = {"--list": listing, "--rows": rows_text}.get(others[0]) if others else None
    folders = others[1:] if printing else others
    if len(folders) != 1 or folders[0].startswith("-") or printing and version:
        raise Problem("call it as `bundle.py FOLDER`, `bundle.py --list FOLDER` or `bundle.py --rows FOLDER`; `bundle.py --help` says more")
    if not os.path.isdir(folders[0]):
        raise Problem(f"{folders[0]} is no folder")
    edition = script.edition_of(folders[0], told)
    for line in [printing(folders[0], edition)] if printing else make(folders[0], edition, version):
        print(line)


if __name__ == "__main__":
    script.run(main, __doc__)
