#!/usr/bin/env python3
"""explain.py: says the answer to a bundle in words.

    tools/explain.py FOLDER          FOLDER as for bundle.py, with its bundle.bin
    tools/explain.py BUNDLE          a bundle alone; regions and fields are then named by number
    tools/explain.py --edition 9 ..  on the newer terminal, which follows SPARC Version 9; 8 is the older one

Without --edition it is the one in FOLDER/edition, a line with 8 or 9; without that file, 8.

Prints the answer, the entry of its number in docs/CARD.md, and then what in the bundle it is about: the word (disassembled
by GNU binutils for SPARC, if that is here), its operands, the region's fields, or the frame's scratch words, and the bytes
reached; for 12 and 14 the way, what was narrowed on it or why nothing was, what the word and its slot make of the register or
scratch word and what it does not fit; for 1 and 18 to 23 the bytes that are badly formed. A slot is shown with the row that its
branch or return hands on; or with its own, if a branch lands on it and it is refused with that. Where rows.txt does not have
all rows, the row is shown whole.

All this is found by the program `explain` (crates/explain/out/explain, made by `rt run </dev/null` in crates/explain) or, for
edition 9, `explain9`, which calls the functions of the check; this script has the names and the words.
"""
import os
import re
import struct
import sys
from collections import namedtuple

sys.dont_write_bytecode = True
import assembly
import bundle
import layout
import programs
import script
from script import Problem

CARD = os.path.join(programs.ROOT, "docs", "CARD.md")
NOTE = layout.NOTE_NAMED  # the register that stands for the note
KINDS = ["an unset entry", "a number", "an address", "an address that may be null", "the return address", "the frame's address"]
ELEMENTS = {number: name for name, (number, _, _) in layout.ELEMENTS.items()}
PERMISSIONS = {number: name for name, number in layout.PERMISSIONS.items()}
WIDTHS = {1: 1, 2: 1, 3: 2, 4: 2, 5: 4, 6: 4, 7: 4}
SERVED_BY = {1: "ldub and stb", 2: "ldsb and stb", 3: "lduh and sth", 4: "ldsh and sth", 5: "ld and st", 6: "ld and st", 7: "ld and st"}
# Names of instructions, in the order of the program's numbers
ALU = ["add", "and", "or", "xor", "sub", "andn", "orn", "xnor"]
OTHER = {"shift": ["sll", "srl", "sra"], "load": ["ld", "ldub", "lduh", "ldsb", "ldsh"], "store": ["st", "stb", "sth"]}
BRANCHES = ["bn", "be", "ble", "bl", "bleu", "bcs", "bneg", "bvs", "ba", "bne", "bg", "bge", "bgu", "bcc", "bpos", "bvc"]
HINTS = ["", ",pn", ",pt"]  # none, predicted untaken, taken
READINGS = ("sethi", "alu", "shift", "load", "store", "branch", "return", "unread")
TESTS = ["", "the element is none of 1 to 7", "the permission is none of 1 to 3", "the count is 0",
         "the offset is no multiple of the element's width", "it does not end inside its region",
         "lo, hi or target are not what the element allows", "it begins before the field before it ends"]

# What the program says: the answer, items by name (the values of each), and rows by the item that begins them; and the edition.
Said = namedtuple("Said", "answer items rows edition")
# A row that is said: entries by the numbers that answers have for them (0 to 31 registers, 33 to 38 scratch words), and the note.
Row = namedtuple("Row", "entries note")


def card_entry(number):
    """The card's entry for an answer to a bundle."""
    _, _, rest = "\n".join(script.read_lines(CARD)).partition("\n## Answers to a bundle\n")
    for part in rest.split("\n## ")[0].split("\n### ")[1:]:
        if part.startswith(f"{number}:"):
            return part.strip()
    raise Problem(f"{number} is no answer to a bundle: docs/CARD.md has all of them")


# What the program says

def said_of(lines, edition):
    """The answer and the items."""
    try:
        answer = tuple(int(part) for part in lines[0].split(" "))
        items, rows, row = {}, {}, None
        for line in lines[1:]:
            name, *values = line.split(" ")
            if name == "part":
                items["part"], values = values[0], values[1:]
                name = "place"
            values = [int(value) for value in values]
            items.setdefault(name, []).append(values)
            if name in ("row", "handed", "made"):
                row = rows[name] = Row({}, None)
            elif name == "entry":
                row.entries[values[0]] = tuple(values[1:])
            elif name == "note":
                rows[next(key for key in rows if rows[key] is row)] = row._replace(note=tuple(values))
        return Said(answer, items, rows, edition)
    except (ValueError, IndexError, AttributeError):
        raise programs.unknown(programs.program_of("explain", edition)) from None


def first(said, name):
    """The values of the first item with this name; nothing if there is none."""
    return said.items.get(name, [None])[0]


# Names and entries

def region_name(names, region):
    return names[region][0] if region < len(names) else f"region{region}"


def field_name(names, region, index):
    name = names[region][1][index] if region < len(names) else str(index)
    return f"field {name} of {region_name(names, region)}"


def entry_text(names, entry):
    return bundle.entry_text(tuple(entry), [name for name, _ in names])


def is_scratch(register):
    """Whether a register that an answer names stands for a scratch word."""
    return register > NOTE


def register_name(register):
    """A register, or the scratch word that it stands for."""
    return bundle.place_text(layout.NAMED.index(register))


def held_text(names, row, register):
    if register == NOTE:
        return bundle.note_text(row.note)
    return f"{register_name(register)} = {entry_text(names, row.entries.get(register, layout.NOTHING))}"


def unfit_text(names, a, b):
    """Why entry a does not fit entry b."""
    a, b = tuple(a), tuple(b)
    if a[:2] == b[:2] and a[0] in (layout.NUMBER, layout.ADDRESS):
        what, (step, lo, hi) = "offset " if a[0] == layout.ADDRESS else "", a[2:]
        stray = [k for k in (lo, hi, min(lo + step, hi)) if not b[3] <= k <= b[4] or (k - b[3]) % b[2]]
        return f"{what}{stray[0]} is not {'' if b[3] == b[4] else 'in '}{bundle.set_text(*b[2:])}" if stray else ""
    return f"{entry_text(names, a)} does not fit {entry_text(names, b)}"


def misfit_text(names, said):
    if "has-note" in said.items:
        return f"{bundle.note_text(tuple(first(said, 'has-note')))} does not fit {bundle.note_text(tuple(first(said, 'asks-note')))}"
    return unfit_text(names, first(said, "has"), first(said, "asks"))


# Words

def instruction_name(said):
    kind = next(name for name in READINGS if name in said.items)
    values = said.items[kind][0]
    if kind == "alu":
        return ALU[values[0]] + ("cc" if values[1] else "")
    if kind == "branch":
        return BRANCHES[values[1]] + (",a" if values[0] else "") + HINTS[values[2]]
    return OTHER[kind][values[0]] if kind in OTHER else {"return": "retl"}.get(kind, kind)


def words_in(data, said):
    """The words of a bundle as they are disassembled; none if there is no disassembler. Where a predicted branch is not read,
    they are shown as the newer terminal has them."""
    words = layout.open_bundle(data)[3]
    unread = "unread" in said.items and assembly.predicted_codes(first(said, "word")[1]) is not None
    return words, assembly.disassemble(words, script.NEWER if unread else said.edition)


def word_text(data, said, index):
    words, texts = words_in(data, said)
    named = index == first(said, "word")[0]
    text = texts[index] if texts else instruction_name(said) if named else ""
    return f"word {index}: {words[index]:08X}  {text}".rstrip() + (slot_text(data, said) if named else "")


def slot_text(data, said):
    """Of which word the word that is named is the slot, and which branch to it if that is why it is looked at."""
    if "landed" in said.items:
        return "  (slot of word {}; {} to it)".format(*first(said, "landed"), landing_text(data, said))
    return "  (slot of word {})".format(*first(said, "slot")) if "slot" in said.items else ""


def landing_text(data, said):
    """That these words branch to the word that is named."""
    return assembly.branches_text(assembly.landings(layout.open_bundle(data)[3], said.edition)[first(said, "word")[0]])


def edge_text(said):
    """The way that is refused."""
    taken, _, _ = first(said, "edge")
    if "caller" in said.items:
        return "the return"
    plain = "branch" not in said.items and "slot" not in said.items
    return ("" if plain else "taken, " if taken else "not taken, ") + f"to word {first(said, 'to')[0]}"


def condition_text(data, said):
    """The name of the branch whose edge is shown."""
    words, _ = words_in(data, said)
    return BRANCHES[words[first(said, "row")[0]] >> 25 & 15]


def kept_text(data, names, said):
    """Why nothing was narrowed."""
    note, why = said.rows["row"].note, first(said, "kept")[0]
    if why == 1:
        return f"no comparison is noted ({bundle.note_text(note)}); a write to the compared register takes it away"
    if why == 2:
        return f"{condition_text(data, said)} never narrows: only be, bne, bl, bge, ble and bg do"
    if why == 3:
        return f"{held_text(names, said.rows['row'], note[1])} is no number, and only a number is narrowed, or an address that may be null by 0"
    return f"{bundle.note_text(note)} leaves every number of r{note[1]}"


def narrowing_text(data, names, said):
    """What a branch narrowed, or why nothing; nothing for other words."""
    if "branch" not in said.items and "slot" not in said.items or "caller" in said.items:
        return ""
    if "kept" in said.items:
        return "not narrowed: " + kept_text(data, names, said)
    register = first(said, "narrowed")[0]
    before, after = (held_text(names, said.rows[row], register) for row in ("row", "handed"))
    return f"narrowed from {before} to {after}"


# Fields

def bytes_text(low, high):
    return f"byte {low}" if low == high else f"bytes {low} to {high}"


def field_end(field):
    return field[4] + field[5] * WIDTHS.get(field[1], 1)


def field_text(names, region, field):
    """A field as in policy.txt, after the bytes that it has."""
    index, element, permission, target, offset, count, lo, hi = field
    name = names[region][1][index] if region < len(names) else f"field {index}"
    if element in ELEMENTS:
        kind = re.sub("half$", "halve", ELEMENTS[element]) + "s" if count > 1 else ELEMENTS[element]
        values = f", {lo} to {hi}"
    else:
        kind, values = f"address{'es' if count > 1 else ''} of {region_name(names, target)}" + (" or null" if element == 7 else ""), ""
    return f"  {bytes_text(offset, field_end(field) - 1)}: {name}, {count} {kind}, {PERMISSIONS[permission]}{values}"


def region_lines(names, said):
    """The bytes that are reached and the fields of the region; nothing if there are none."""
    if "region" not in said.items:
        return []
    region, size, _ = first(said, "region")
    name, fields, lines = region_name(names, region), said.items.get("field", []), []
    if "reach" in said.items:
        _, step, lo, hi, width = first(said, "reach")
        lines = [f"reached in {name}: offsets {bundle.set_text(step, lo, hi)}, width {width}, so {bytes_text(lo, hi + width - 1)}"]
    return lines + [f"fields of {name} ({size} bytes):" + ("" if fields else " none")] + [field_text(names, region, field) for field in fields]


def reached_field(said):
    """The field that holds the first byte reached; nothing if none does."""
    lo = first(said, "reach")[2]
    return next((field for field in said.items.get("field", []) if field[4] <= lo < field_end(field)), None)


# The frame

def is_frame(entry):
    return entry[1] == layout.FRAME


def uses_frame(said):
    """Whether the frame's address is an operand of the word, or stored by it."""
    read = ["first", "second"] + (["stored"] if "store" in said.items else [])
    return any(is_frame(first(said, name)) for name in read if name in said.items)


def frame_offsets(said):
    """The entry that is added to the frame's address."""
    one, other = first(said, "first"), first(said, "second")
    return (other if is_frame(one) else one)[1:]


def width_of(said):
    """The width of a load or store."""
    name = instruction_name(said)
    return 1 if name.endswith("b") else 2 if name.endswith("h") else 4


def scratch_lines(names, said):
    """What the scratch words hold in the row that the word is looked at with."""
    row = said.rows["handed" if "handed" in said.rows else "row"]
    held = [held_text(names, row, register) for register in layout.NAMED if is_scratch(register) and register in row.entries]
    return ["scratch words: " + ("; ".join(held) + "; the others are unset" if held else "all unset")]


def frame_lines(said):
    """The bytes of the frame that are reached."""
    offset, width = frame_offsets(said)[3], width_of(said)
    return [f"reached in the frame ({layout.FRAME_SIZE} bytes): offset {offset}, width {width}, so {bytes_text(offset, offset + width - 1)}"]


def offsets_text():
    return f"{', '.join(map(str, layout.SCRATCH_OFFSETS[:-1]))} or {layout.SCRATCH_OFFSETS[-1]}"


def frame_reason(names, said):
    """Why a use of the frame is refused with 6, 7 or 8."""
    number, name = said.answer[0], instruction_name(said)
    memory = "load" in said.items or "store" in said.items
    if number == 6 and not memory:
        return f"{name} takes the frame's address, which is there for ld and st of scratch words alone: it is not moved, added to or compared"
    if number == 6 and "store" in said.items and is_frame(first(said, "stored")):
        return "the frame's address is stored, and it is kept in r14 alone: neither a field nor a scratch word holds it"
    offsets = frame_offsets(said)
    if number == 6 and offsets[0] == layout.NUMBER:
        return f"to the frame's address a single number is added, {offsets_text()}, and not {entry_text(names, offsets)}"
    if number == 6:
        return f"to the frame's address a single number is added, {offsets_text()}, and not {KINDS[offsets[0]]}"
    if number == 7:
        return f"a scratch word is at offset {offsets_text()} of the frame, not at {offsets[3]}; all else in the frame is the host's"
    return f"{name} does not serve a scratch word: ld and st do"


# What a refusal of one word is about

def operand_lines(names, said):
    """What the word reads, with the entries."""
    if "first" not in said.items:
        return [f"  codes: {bundle.note_text(said.rows['row'].note)}"]
    register, *entry = first(said, "first")
    lines = [f"  rs1: r{register} = {entry_text(names, entry)}"]
    if "second" in said.items:
        reading = said.items[next(name for name in READINGS if name in said.items)][0]
        register, *entry = first(said, "second")
        lines.append(f"  number in the word: {reading[-1]}" if reading[-2] else f"  rs2: r{register} = {entry_text(names, entry)}")
    if "store" in said.items:
        register, *entry = first(said, "stored")
        lines.append(f"  rd, stored: r{register} = {entry_text(names, entry)}")
    return lines


def access_reason(names, said):
    """Why a load or store is refused with 7 to 11 or 13."""
    number, name = said.answer[0], instruction_name(said)
    region, step, lo, hi, width = first(said, "reach")
    field = reached_field(said)
    if number == 7 and field is None:
        return f"byte {lo} is in no field"
    called = field_name(names, region, field[0])
    if number == 7:
        return f"byte {field_end(field)} is not in {called}, which ends with byte {field_end(field) - 1}"
    if number == 8:
        return f"{name} does not serve {called}: {SERVED_BY[field[1]]} do"
    if number == 9:
        return f"{f'offset {lo}' if lo % width else f'the step {step}'} is no multiple of {width}"
    if number == 10:
        return f"{name} {'writes' if 'store' in said.items else 'reads'}, and the permission of {called} is {PERMISSIONS[field[2]]}"
    if number == 13:
        return f"byte {hi + width - 1} is above 4095"
    element, target = field[1], field[3]
    asked = (layout.NUMBER, 0, 8 if field[6] == field[7] else 1, *field[6:]) if element < 6 else (
        layout.ADDRESS if element == 6 else layout.OR_NULL, target, 8 if element == 6 else 0, 0, 0)
    return f"for {called}, " + unfit_text(names, first(said, "stored")[1:], asked)


def word_reason(names, said):
    """Why one word is refused with 4 to 11, 13 or 16."""
    number, _, register = said.answer
    if number == 4:
        return ("the condition codes are not set" if register == NOTE else f"r{register} is unset" if not is_scratch(register) else
                f"{register_name(register)} is loaded, and it is unset in this row")
    if number == 5:
        return f"r{register} may be null"
    if number in (6, 7, 8) and uses_frame(said):
        return frame_reason(names, said)
    if number not in (6, 16):
        return access_reason(names, said)
    if number == 16:
        region, *made = first(said, "offsets")
        size = first(said, "region")[1]
        return f"the offset made in {region_name(names, region)} is {bundle.set_text(*made)}, and offsets there are 0 to {size}"
    kind = first(said, "first")[1]
    if "return" in said.items:
        return f"r15 holds {KINDS[kind]}, not the return address"
    here = f"{KINDS[kind]} and {KINDS[first(said, 'second')[1]]}"
    if "load" in said.items or "store" in said.items:
        return f"a load or store adds one address and one number, not {here}"
    return f"there is no rule for {instruction_name(said)} of {here}"


def word_lines(data, names, said):
    """A refusal by one word's own conditions, or by a slot's."""
    at = first(said, "row")[0]
    lines = [f"with row {at}" + (", its own, as a word that is branched to:" if "landed" in said.items else ":")]
    if "slot" in said.items:
        text = narrowing_text(data, names, said)
        lines = [f"with row {at} as word {at} hands it on ({edge_text(said)}):" + (" " + text if text else "")]
    number, _, register = said.answer
    reached = region_lines(names, said) if number not in (4, 5, 6) else scratch_lines(names, said) if is_scratch(register) else []
    if number in (7, 8) and uses_frame(said):
        reached = frame_lines(said)
    return lines + operand_lines(names, said) + reached + ["wrong: " + word_reason(names, said)]


# What does not fit

def edge_lines(data, names, said):
    """12 and 14: the register before the word, on the edge and after the slot, and what it does not fit."""
    _, word, register = said.answer
    _, _, runs = first(said, "edge")
    transfer = "branch" in said.items or "return" in said.items
    lines = [word_text(data, said, word + 1) + f"  (slot of word {word})"] if transfer else []
    slot = f"; the slot {'runs' if runs else 'is skipped'}" if transfer else ""
    own = ", from its own row" if "landed" in said.items else ""
    lines += [f"way: {edge_text(said)}{own}{slot}", f"row {word}: {held_text(names, said.rows['row'], register)}"]
    if "branch" in said.items:
        lines += [f"on this way{', before the slot' if runs else ''}: {held_text(names, said.rows['handed'], register)}",
                  "  " + narrowing_text(data, names, said)]
    if runs or not transfer:
        after = f"after the slot, word {word + 1}" if runs else f"after word {word}"
        lines.append(f"{after}: {held_text(names, said.rows['made'], register)}")
    asks = bundle.note_text(tuple(first(said, "asks-note"))) if register == NOTE else entry_text(names, first(said, "asks"))
    asked = f"next row, {first(said, 'to')[0]}: " + ("" if register == NOTE else f"{register_name(register)} = ") if "to" in said.items else "result: "
    return lines + [asked + asks] + target_lines(said) + ["wrong: " + misfit_text(names, said)]


def target_lines(said):
    """What the next row is for, where it is that of a slot."""
    to, _, slot = first(said, "to") if "to" in said.items else (0, 0, 0)
    text = f"  word {to} is the slot of word {to - 1}: row {to} is for the branches to it; as a slot it runs with row {to - 1}"
    return [text] if slot else []


def start_lines(names, said):
    """15: the entry row and row 0."""
    register = said.answer[2]
    has, asks = ("has-note", "asks-note") if register == NOTE else ("has", "asks")
    text = bundle.note_text if register == NOTE else lambda values: f"{register_name(register)} = " + entry_text(names, values)
    start = ": all six scratch words are unset at the start" if is_scratch(register) else ""
    return [f"entry row: {text(tuple(first(said, has)))}", f"row 0: {text(tuple(first(said, asks)))}", "wrong: " + misfit_text(names, said) + start]


def flow_reason(data, said):
    """Why the flow of a word is wrong."""
    _, word, _ = said.answer
    count, edges, ends = first(said, "words")[0], said.items["edge"], list(said.items.get("to", []))
    transfer = "branch" in said.items or "return" in said.items
    if transfer and word == count - 1:
        return "a branch or return is the last word, so that it has no slot"
    if transfer and "slot" in said.items:
        return "a branch or return stands in the slot of word {}".format(*first(said, "slot"))
    if "landed" in said.items:
        return f"no word follows: as a slot it needs none, but {landing_text(data, said)} to it, and then it goes on to the next word"
    if not transfer:
        return "no word follows, and this is no slot"
    for (taken, exists, _), (to, inside, _) in zip(edges, ends):
        if exists and not inside:
            far = to - 2**32 if to >= 2**31 else to
            way = "its target" if taken else "not taken, the next word after its slot"
            return f"{way} is word {far}, and the code has words 0 to {count - 1}"
    return "its edges do not end where they may"


def unread_reason(said):
    """Why a word is not read."""
    codes, newer = assembly.predicted_codes(first(said, "word")[1]), said.edition == script.NEWER
    if codes is None:
        return "this is no instruction of the subset"
    name = {assembly.ICC: "%icc", assembly.XCC: "%xcc"}.get(codes, f"reserved codes ({codes} in bits 21 and 20)")
    if newer:
        return f"this is a predicted branch on {name}, and only %icc is read: compare 32-bit values and branch on %icc"
    if codes == assembly.ICC:
        return "this is a predicted branch, which only the newer terminal reads: write it without prediction, or load it there"
    return f"this is a predicted branch on {name}: write it without prediction (or, for the newer terminal, on %icc)"


def writes_reason(said):
    """Why the register that a word would write is refused."""
    register = said.answer[2]
    sort = "the stack pointer" if register == layout.POINTER else "a local register" if register < 24 else "an in register"
    return f"it would write r{register}, {bundle.REGISTERS[register]}, {sort}, which is the caller's: write one of %g1 to %g7 or %o0 to %o5"


# What is badly formed

def raw_text(raw):
    """An entry or a note in bytes and in its parts."""
    names = "kind {}, region {}, step {}, zero {}, lo {}, hi {}" if len(raw) == 12 else "kind {}, register {}, zero {}, zero {}, number {}"
    parts = struct.unpack(">BBBBii" if len(raw) == 12 else ">BBBBi", raw)
    return f"bytes {raw.hex(' ', 4)} ({names.format(*parts)})"


def place_lines(said, of):
    """The bytes of an entry or a note that are badly formed."""
    place, raw = first(said, "misfit"), bytes(first(said, "bytes"))
    name = "" if place is None else "note: " if place[0] == NOTE else f"{register_name(place[0])}: "
    return [f"{of}{name}{raw_text(raw)}",
            f"wrong: the {'note' if place == [NOTE] else 'entry'} at byte {first(said, 'at')[0]} of the bundle {place_reason(said, place, raw)}"]


def place_reason(said, place, raw):
    """What is wrong with an entry or a note."""
    if place != [NOTE] and raw[0] == layout.FRAME and place != [layout.POINTER]:
        return f"has kind {layout.FRAME}, the frame's address, which stands in r{layout.POINTER} alone"
    if said.items.get("part") == "entry" and is_scratch(place[0]) and raw[0] != layout.UNSET:
        return "is set: all six scratch words are unset at the start"
    return "breaks a rule above"


def most_text(data):
    """How many bytes a bundle has at most."""
    old = data[3:5] == bytes([0, layout.BEFORE_SCRATCH])
    version = layout.BEFORE_SCRATCH if old else layout.VERSION
    return f"a bundle{f' of version {version}' if old else ''} has at most {layout.MOST_BYTES[version]:,}"


def form_lines(data, said):
    """1 and 18 to 23: where the bytes at fault stand."""
    number, word, _ = said.answer
    part, at = said.items.get("part"), first(said, "at")
    if number == 1:
        return place_lines(said, f"row {word}, ")
    if number == 21:
        if "words" in said.items:
            return [f"wrong: there are {first(said, 'words')[0]} words, and a routine has 1 to 128"]
        return place_lines(said, {"entry": "entry row, ", "result": "result entry: "}[part])
    if number == 23:
        length = first(said, "length")[0]
        if part in ("size", "head"):
            why = most_text(data) if part == "size" else "they do not begin with the mark WTR and version 1 or 2"
            return [f"wrong: it has {length} bytes, and {why}"]
        if "given" in said.items:
            return [f"wrong: it has {length} bytes, and its counts give {first(said, 'given')[0]}"]
        return [f"wrong: the zero of {part} {first(said, 'place')[0]}, byte {at[0]} of the bundle, is not 0"]
    if part == "region":
        region, size = first(said, "place")[0], first(said, "size")[0]
        why = f"size {size}" if number == 19 else "there are 8 before it"
        return [f"wrong: region {region}, at byte {at[0]} of the bundle: {why}"]
    region, index = first(said, "place")
    why = TESTS[first(said, "breaks")[0]] if "breaks" in said.items else "there are 16 before it"
    values = "element {}, permission {}, target {}, offset {}, count {}, lo {}, hi {}".format(*first(said, "field")[1:])
    return [f"region {region} ({first(said, 'size')[0]} bytes); the fields before end at {first(said, 'end')[0]}",
            f"wrong: field {index} of region {region}, at byte {at[0]} of the bundle ({values}): {why}"]


# The answer

def detail_lines(data, names, said):
    """What in the bundle the answer is about."""
    number, word, _ = said.answer
    if number == 1 or 18 <= number <= 23:
        return form_lines(data, said)
    lines = [word_text(data, said, word)]
    if number == 2:
        return lines + ["wrong: " + unread_reason(said)]
    if number == 24:
        name = assembly.PRIVILEGED[assembly.opcode_of(first(said, "word")[1])]
        return lines + [f"wrong: this is {name}, which only the supervisor may run"]
    if number == 3:
        return lines + ["wrong: " + flow_reason(data, said)]
    if number == 25:
        return lines + ["wrong: " + writes_reason(said)]
    if number == 15:
        return lines + start_lines(names, said)
    return lines + (edge_lines if number in (12, 14) else word_lines)(data, names, said)


def policy_of(data):
    """The policy of a bundle, also of one that is wrong further on; None if there is none."""
    try:
        return layout.policy_in(data, data[5])[0]
    except (struct.error, IndexError):
        return None


def row_lines(data, names, said, given):
    """The row that the answer is about, where rows.txt has only so many of the rows and the others were found."""
    rows = layout.open_bundle(data)[4] if "row" in said.items else []
    if given is None or given >= len(rows):
        return []
    at = first(said, "row")[0]
    return [f"row {at}, all of it: {bundle.row_text(rows[at], [name for name, _ in names])}",
            f"(rows.txt has {given} of the {len(rows)} rows, the others were found: `bundle.py --rows` prints all)"]


def explained(data, names, remarks, edition, given=None):
    """The answer to a bundle, the card's entry and what in the bundle the answer is about, line by line; given is how many rows
    rows.txt has, if there is one."""
    said = said_of(programs.lines_of(programs.run(programs.program_of("explain", edition), data)), edition)
    lines = ["{} {} {}".format(*said.answer), card_entry(said.answer[0])]
    return lines + ([""] + remarks + detail_lines(data, names, said) + row_lines(data, names, said, given) if said.answer[0] else [])


def explain(path, edition):
    folder = os.path.isdir(path)
    data = script.read_bytes(os.path.join(path, "bundle.bin") if folder else path)
    names, remarks = bundle.names_of(path, policy_of(data)) if folder else ([], [])
    return "\n".join(explained(data, names, remarks, edition, bundle.rows_in(path) if folder else None))


def main(arguments):
    told, paths = script.taken_edition(arguments)
    if len(paths) != 1:
        raise Problem("call it as `explain.py FOLDER`, or with a bundle for FOLDER; `explain.py --help` says more")
    print(explain(paths[0], script.edition_of(paths[0], told)))


if __name__ == "__main__":
    script.run(main, __doc__)
