#!/usr/bin/env python3
"""kinds.py: lists what each register of a routine holds, by its kind, before there are rows.

    tools/kinds.py FOLDER            FOLDER as for bundle.py; of rows.txt the line `entry:` alone is read
    tools/kinds.py BUNDLE            a bundle; its rows and its result entry are not looked at
    tools/kinds.py --table ..        a letter for each of the 32 registers, in place of names and words
    tools/kinds.py --edition 9 ..    on the newer terminal, which follows SPARC Version 9; 8 is the older one

Without --edition it is the one in FOLDER/edition, a line with 8 or 9; without that file, 8.

Of FOLDER it reads routine.s and policy.txt (see `bundle.py --help`) and of rows.txt one line, with what the terminal hands
over:

    entry: r8 = haulier, r9 = line, r15 = return

Other lines of rows.txt may be missing or wrong, and no file is written. A FOLDER needs GNU as for SPARC; the disassembly
needs its objdump, and is left out otherwise. A BUNDLE has no labels.

Each word is printed with the registers that are not unset: `%o0 address  %o1 number`; %g0, which is always the number 0, is
left out. The kinds are number, address, address or null, and return. What a register holds on one way to the word and not on
another, and all that a load of a word (ld) gives, is unset here; a row may say more. So is the address of the frame in %sp, and
what is loaded from a scratch word; the scratch words themselves are not listed. A word that no way leads to is not reached. A
slot has the kinds of its branch or return, before that runs; a slot that a branch lands on has what is alike in these and on
the ways into it. With --table the letters of %g0 to %g7, %o0 to %o7, %l0 to %l7 and %i0 to %i7 follow each other: `.` not
reached, `n` number, `a` address, `z` address or null, `r` return, `-` unset.

A routine that cannot be listed (23, 18 to 21, 2, 24, 3 and 25, as in the check) is explained as by explain.py.

The kinds are found by the program `kinds` (crates/kinds/out/kinds, made by `rt run </dev/null` in crates/kinds), the reason of
a refusal by the program `explain` (made so in crates/explain), or by `kinds9` and `explain9` for edition 9; this script has
the names and the words.
"""
import os
import re
import sys

sys.dont_write_bytecode = True
import assembly
import bundle
import explain
import layout
import programs
import script
from script import Problem

MOST_WORDS = 128
NOT_REACHED, UNSET = ".", "-"
KINDS = {"n": "number", "a": "address", "z": "address or null", "r": "return"}
LETTERS = {NOT_REACHED: "not reached", **KINDS, UNSET: "unset"}
LINE = re.compile(r"(\d+) ([0-9a-f]{8}) ([.nazr-]{8}) ([.nazr-]{8}) ([.nazr-]{8}) ([.nazr-]{8})")
ANSWER = re.compile(r"\d+ \d+ \d+")


# What is listed

def entry_in(path, names, labels, count):
    """The entry row of a rows.txt, whatever its other lines are."""
    if not os.path.lexists(path):
        raise Problem("rows.txt is not here: a listing needs its line `entry:`, which says what the terminal hands over")
    rows = bundle.Rows(names, labels, count)
    for first, last, text in bundle.lines_of(path):
        if text.partition(":")[0].strip() == "entry":
            bundle.at_lines(path, first, last, rows.add, text)
    if "entry" not in rows.named:
        raise Problem("rows.txt has no line `entry:`, which says what the terminal hands over")
    return rows.named["entry"]


def of_folder(folder, edition):
    """The bundle of a folder, with nothing in its rows and its result entry; the labels; the names of regions and fields."""
    regions = bundle.read_policy(os.path.join(folder, "policy.txt"))
    words, labels = assembly.assemble(folder, edition)
    if len(words) > MOST_WORDS:
        raise Problem(f"routine.s has {len(words)} words, and a routine has at most {MOST_WORDS}")
    entry = entry_in(os.path.join(folder, "rows.txt"), [name for name, _, _ in regions], labels, len(words))
    data = layout.bundle_bytes(bundle.unnamed(regions), entry, layout.NOTHING, words, [bundle.SLOT] * len(words))
    return data, labels, [(name, [field[0] for field in fields]) for name, _, fields in regions]


def without_rows(data):
    """A bundle with nothing in its rows and its result entry; as it is, if it has no such places."""
    try:
        words = layout.open_bundle(data)[3]
    except Problem:
        return data
    version = layout.version_of(data)
    rows = len(data) - layout.ROW_SIZES[version] * len(words)
    code = rows - layout.WORD.size * len(words)
    result = code - layout.ENTRY.size
    return (data[:result] + layout.entry_bytes(layout.NOTHING) + data[code:rows]
            + layout.row_bytes(bundle.SLOT, version) * len(words))


# What the program says

def marks_of(lines, words):
    """The letters of each word's registers."""
    matches = [LINE.fullmatch(line) for line in lines]
    if not all(matches) or [(int(m[1]), int(m[2], 16)) for m in matches] != list(enumerate(words)):
        raise programs.unknown("kinds")
    return ["".join(m.groups()[2:]) for m in matches]


def refusal_lines(answer, data, names, edition):
    """A refusal: the card's entry, and what it is about. The check refuses with the same where there is nothing in the rows."""
    program = programs.program_of("explain", edition)
    if not programs.is_built(program):
        return [answer, explain.card_entry(int(answer.split()[0])), "", f"({programs.builder_of(program)} builds the program that says more)"]
    lines = explain.explained(without_rows(data), names, [], edition)
    if lines[0] != answer:
        raise programs.unknown("kinds")
    return lines


# Text

def kinds_text(letters):
    if NOT_REACHED in letters:
        return "not reached"
    held = [f"{bundle.REGISTERS[r]} {KINDS[letter]}" for r, letter in enumerate(letters) if r and letter != UNSET]
    return "  ".join(held) or "all unset"


def groups_text(letters):
    return " ".join(letters[k:k + 8] for k in range(0, len(letters), 8))


def slot_text(branches):
    return f"  (slot; {assembly.branches_text(branches)} to it)" if branches else "  (slot)"


def listing_lines(words, labels, marks, table, edition):
    """Each word with its kinds; a slot is called one, with the words that branch to it."""
    text = groups_text if table else kinds_text
    slots, landings = [False] + [assembly.is_transfer(word, edition) for word in words], assembly.landings(words, edition)
    lines = [f"{shown}  {text(letters)}{slot_text(landings.get(k)) if slots[k] else ''}"
             for k, (shown, letters) in enumerate(zip(bundle.words_shown(words, labels, edition), marks))]
    head = "%g0 to %g7, %o0 to %o7, %l0 to %l7, %i0 to %i7: " + ", ".join(f"{letter} {name}" for letter, name in LETTERS.items())
    return ([head] if table else []) + lines


def listing(path, table, edition):
    data, labels, names = of_folder(path, edition) if os.path.isdir(path) else (script.read_bytes(path), {}, [])
    lines = programs.lines_of(programs.run(programs.program_of("kinds", edition), data))
    if len(lines) == 1 and ANSWER.fullmatch(lines[0]):
        return "\n".join(refusal_lines(lines[0], data, names, edition))
    words = layout.open_bundle(data)[3]
    return "\n".join(listing_lines(words, labels, marks_of(lines, words), table, edition))


def main(arguments):
    told, others = script.taken_edition(arguments)
    table = others[:1] == ["--table"]
    paths = others[1:] if table else others
    if len(paths) != 1 or paths[0].startswith("-"):
        raise Problem("call it as `kinds.py FOLDER` or `kinds.py --table FOLDER`, or with a bundle for FOLDER; "
                      "`kinds.py --help` says more")
    print(listing(paths[0], table, script.edition_of(paths[0], told)))


if __name__ == "__main__":
    script.run(main, __doc__)
