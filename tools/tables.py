#!/usr/bin/env python3
"""tables.py: chooses the records of the program crates/tables and writes its data, stdin and stdout.

    tools/tables.py                from the listings that the repository has
    tools/tables.py LISTINGS ..    with more of the independent implementation

LISTINGS has listings of kinds as text, a blank line between two. A line is a name and what stands for it:
  level N        how many requests had landed; before the seventh entry rows had no scratch words, and are read with six that are unset
  terminal E     8, which it is also without this line, or 9
  policy HEX     the number of regions, a byte; the regions, 4 bytes each; the fields of all, 16 bytes each, as in a bundle
  entry HEX      the entry row
  words W ..     the routine, in hexadecimal
  table N        the length of the lent table
  answer N W R   number, word and register
  marks M ..     32 digits a word, or `same` if the table is left as it was
Other lines are passed over.

There are two sources: the independent implementation's listings, and those of kindcases.py, all of which are taken. Of the
first those that stand in the data stay there. Of others only those are taken that are needed: every wrong version of
tools/plain/kinds-mutants.txt that is told apart by one of them is told apart by one that is taken, and every number is the
answer to several, with a branch into a slot and without, 25 also in slots, and some have the frame address in r14. What a later request lists otherwise is to be taken out of
the data first. The plain program (tools/plain/kinds.c) must give what is expected of
every listing, and every version must be told apart by the data, but those that the list shows to be no wrong versions. It takes
some minutes: each version is compiled and makes every listing.

A record of the data is numbers of 32 bits, big-endian, and then bytes. The first number says how many come
after it; these are
    0  edition                   4  length of the table         8  number of fields F
    1  number of the answer      5  length of the entry row     9  how many marks M follow
    2  its word                  6  number of words W          10  sizes of 8 regions
    3  its register              7  number of regions          18  numbers of fields of 8 regions
   26  W words, and F fields, 4 numbers each
A field is its place (16 times the region, plus its number there), element, permission and target, a byte each; offset and
count, 16 bits each; lo and hi, 2^31 added. The bytes are the entry row, and M marks; of a table that is written all marks behind these are 0.
"""
import os
import struct
import subprocess
import sys
import tempfile

sys.dont_write_bytecode = True
import corpus
import kindcases
import layout
import mutants
import script
from kindcases import Case, Policy
from script import Problem

TOOLS = os.path.dirname(os.path.abspath(__file__))
SOURCE = os.path.join(TOOLS, "plain", "kinds.c")
LIST = os.path.join(TOOLS, "plain", "kinds-mutants.txt")
CRATE = os.path.join(TOOLS, "..", "crates", "tables")
REGIONS, FIELDS, HEAD, EXCESS = 8, 16, 26, 2 ** 31
# The request from which on entry rows have scratch words.
WITH_SCRATCH = 7
# Seconds that the plain program has for all listings, and for one.
SECONDS, SECONDS_EACH = 20, 2
# How many listings there are to be with a branch into a slot, and how many that are refused at such a slot.
LANDING, REFUSED = 10, 5


# Records

def padded(numbers):
    return (numbers + [0] * REGIONS)[:REGIONS]


def field_bytes(place, field):
    element, permission, target, offset, count, lo, hi = field
    return struct.pack(">4B2H2I", place, element, permission, target, offset, count, lo + EXCESS, hi + EXCESS)


def record(case):
    """The record of a case. There is no room in it for a ninth region; a region's fields behind the sixteenth have the place of that."""
    answer, marks = case.expected
    regions = case.policy.regions[:REGIONS]
    fields = [field_bytes(FIELDS * r + min(k, FIELDS - 1), field) for r, (_, _, own) in enumerate(regions) for k, field in enumerate(own)]
    numbers = [case.edition, *map(int, answer.split()), case.length, len(case.entry), len(case.words), case.policy.count, len(fields), len(marks)]
    numbers += padded([size for size, _, _ in regions]) + padded([count for _, count, _ in regions]) + case.words
    return struct.pack(f">{len(numbers) + 1}I", len(numbers) + 4 * len(fields), *numbers) + b"".join(fields) + case.entry + marks


def records(data):
    """The records that stand one after another, as bytes."""
    at, found = 0, []
    while at < len(data):
        (count,) = struct.unpack_from(">I", data, at)
        numbers = struct.unpack_from(f">{HEAD}I", data, at + 4)
        end = at + 4 + 4 * count + numbers[5] + numbers[9]
        found.append(data[at:end])
        at = end
    return found


def expected(one):
    """What a record expects, as the plain program prints it: a line with the answer, and one with the table."""
    _, number, at_word, register, *_, count = struct.unpack_from(">10I", one, 4)
    marks = one[len(one) - count:].ljust(kindcases.TABLE, b"\0")
    return f"{number} {at_word} {register}", "same" if number else "".join(map(str, marks))


def words_of(one):
    """The edition and the words of a record."""
    edition, *_, count = struct.unpack_from(">7I", one, 4)
    return edition, struct.unpack_from(f">{count}I", one, 4 + 4 * HEAD)


def is_framed(one):
    """Whether the entry row of a record has the frame address in r14."""
    (count,), numbers = struct.unpack_from(">I", one), struct.unpack_from(f">{HEAD}I", one, 4)
    entry = one[4 + 4 * count:][:numbers[5]]
    return len(entry) == layout.ROW_SIZE and layout.entry_in(entry, layout.POINTER * layout.ENTRY.size) == layout.FRAME_ADDRESS


# Listings as text

def widened(entry, level):
    """An entry row with scratch words, that are unset if there were none at this level."""
    if level >= WITH_SCRATCH or len(entry) != layout.ROW_SIZES[layout.BEFORE_SCRATCH]:
        return entry
    return entry[:-layout.NOTE.size] + bytes(layout.SCRATCH_WORDS * layout.ENTRY.size) + entry[-layout.NOTE.size:]


def case_of(text):
    """The case that a text has; a problem names its first line."""
    try:
        lines = dict((line.split(" ", 1) + [""])[:2] for line in text.strip().splitlines())
        policy, marks = bytes.fromhex(lines["policy"]), lines["marks"]
        heads = [layout.REGION.unpack_from(policy, 1 + layout.REGION.size * r) for r in range(policy[0])]
        at, regions = 1 + layout.REGION.size * policy[0], []
        for size, count, _ in heads:
            fields = [layout.FIELD.unpack_from(policy, at + layout.FIELD.size * k) for k in range(count)]
            regions.append((size, count, [(element, permission, target, *rest) for element, permission, target, _, *rest in fields]))
            at += layout.FIELD.size * count
        words = [int(one, 16) for one in lines["words"].split()]
        table = b"" if marks == "same" else bytes(map(int, marks.replace(" ", "")))
        entry = widened(bytes.fromhex(lines["entry"]), int(lines.get("level", WITH_SCRATCH)))
        edition = script.edition_named([lines.get("terminal", "8")], "terminal")
        return Case("", Policy(policy[0], regions), entry, words, int(lines["table"]), (lines["answer"], table), edition)
    except (ValueError, KeyError, IndexError, struct.error):
        raise Problem(f"no listing: `{(text.strip().splitlines() or [''])[0]} ..`") from None


def cases_in(path):
    """The cases of a file."""
    with open(path, encoding="utf-8", errors="replace") as file:
        return [case_of(each) for each in file.read().split("\n\n") if each.strip()]


# The plain program

def tables(program, held, seconds=SECONDS):
    """What a program gives for each record, None where it stops or does not end."""
    try:
        done = subprocess.run([program], input=b"".join(held), capture_output=True, timeout=seconds)
        lines = done.stdout.decode().splitlines()
        if done.returncode == 0 and len(lines) == 2 * len(held):
            return list(zip(lines[::2], lines[1::2]))
    except subprocess.TimeoutExpired:
        pass
    return [None] if len(held) == 1 else [tables(program, [one], SECONDS_EACH)[0] for one in held]


def wrong(source, held, folder):
    """The places of the records for which a program gives something else than is expected."""
    given = tables(mutants.compiled(source, folder), held)
    return [at for at, (one, pair) in enumerate(zip(held, given)) if pair != expected(one)]


def made_records(text, folder):
    """The records of kindcases.py; what is not written down there is what the plain program gives."""
    program, found = mutants.compiled(text, folder), []
    for case in kindcases.made():
        answer, marks = case.expected
        if marks is None:
            given, digits = tables(program, [record(case._replace(expected=(answer, b"")))])[0]
            if given != answer:
                raise Problem(f"{case.name}: kinds.c answers {given}, and {answer} is expected")
            case = case._replace(expected=(answer, bytes(map(int, digits)).rstrip(b"\0")))
        one = record(case)
        if tables(program, [one])[0] != expected(one):
            raise Problem(f"{case.name}: kinds.c gives something else than is expected")
        found.append(one)
    return found


def standing(first_made):
    """The independent implementation's records in the data."""
    with open(os.path.join(CRATE, "stdin"), "rb") as file:
        there = records(file.read())
    return there[:there.index(first_made)] if first_made in there else []


def sort_of(one):
    """What a record counts as, and how many of these there are to be."""
    edition, words = words_of(one)
    sort, each = corpus.sort_of(edition, words, expected(one)[0], LANDING, REFUSED)
    return (f"edition {edition}, frame, number {expected(one)[0].split()[0]}", corpus.EACH) if is_framed(one) else (sort, each)


def chosen(text, other, kept, made, folder):
    """The places of the other records to take, the first `kept` among them. Every version must be told apart by one of these or by a
    record that is made."""
    told, amiss = [], wrong(text, other, folder)
    if amiss:
        raise Problem(f"kinds.c itself gives something else for listing {amiss[0]}")
    for version in mutants.versions(LIST):
        places = wrong(version.source(text.split("\n")), other + made, folder)
        if bool(places) == (version.reason is not None):
            raise Problem(f"{version.name}: " + ("survives" if version.reason is None else "has a reason, but is told apart"))
        told.append((version, [at for at in places if at < len(other)]))
    sorts = list(map(sort_of, other))
    return corpus.chosen([len(one) for one in other], told, sorts, range(kept))


def main(arguments):
    with open(SOURCE, encoding="utf-8") as file:
        text = file.read()
    with tempfile.TemporaryDirectory() as folder:
        more = [record(case) for path in arguments for case in cases_in(path)]
        made = made_records(text, folder)
        kept = standing(made[0])
        other = list(dict.fromkeys(kept + more))
        taken = [other[at] for at in chosen(text, other, len(kept), made, folder)]
    with open(os.path.join(CRATE, "stdin"), "wb") as file:
        file.write(b"".join(taken + made))
    with open(os.path.join(CRATE, "stdout"), "w") as file:
        file.write(f"{len(taken) + len(made)} cases, 0 wrong\n")
    print(f"{len(taken)} of {len(other)} of the independent implementation, {len(made)} made")


if __name__ == "__main__":
    script.run(main, __doc__)
