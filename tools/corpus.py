#!/usr/bin/env python3
"""corpus.py: chooses the records of the program crates/corpus and writes its data, stdin and stdout.

    tools/corpus.py                                from the bundles that the repository has
    tools/corpus.py EDITION BUNDLES ANSWERS ..     with more bundles of the independent implementation
    tools/corpus.py --anew ..                      so, and what the data has is chosen anew
    tools/corpus.py --examples                     takes the examples as they are now; all else stays

EDITION is 8 or 9, the terminal. BUNDLES has bundles one after another, each after its length as a 32-bit big-endian
number; it may be compressed, and its name then ends with .xz. Line n of ANSWERS is the answer to bundle n on that terminal:
number, word and register in decimal.

There are three sources: the independent implementation's bundles, the bundles of cases.py and framecases.py, and those of
examples/ with the answers that stand beside them (on the terminal that the file `edition` there names; without one it is 8).
What the data has of the first two stays there, unless it is chosen anew. Else only those are taken that are needed: every
wrong version of tools/plain/mutants.txt is told apart by a record, and every number is on each terminal the answer to EACH
bundles of the independent implementation with a word of the predicted branch's form, and to EACH without, if it has so many.
Beside them EACH that are accepted have a branch into a slot, and every number from the pass of flow on is once the answer at
such a slot; 25 is the answer to EACH in other slots with the annul bit and to EACH without; EACH that are refused with 3 have
a word there or behind that writes a register of the caller; every number is EACH times the answer where a scratch word is
named, where the frame address is used, and, if it is 0, with an access of the frame; and it is once the answer to another
bundle of version 2. Of the bundles given the NEAREST shortest of a sort are looked at, if they have at most LONG bytes. The
choice is the same at each run. It takes a quarter of an hour: each version is compiled and answers every bundle. With --examples
it takes a moment, and tools/mutants.py tells whether all versions are still told apart.

A request may change the answer to a bundle that stands in the data. Then the run ends with a line that names it. If it was made it
is answered anew in cases.py; if it is the independent implementation's it is to be taken out of the data first.

The records stand in the order of the sources. The first made bundle is that of the program crates/answer, so that what
stands before it is the independent implementation's. A record: edition (a byte), number (a byte), register (a byte), word
(16 bits), the bundle's length (32 bits), big-endian, and then the bundle.
"""
import lzma
import os
import struct
import sys
from collections import Counter

sys.dont_write_bytecode = True
import assembly
import layout
import mutants
import script
from mutants import Record

TOOLS = os.path.dirname(os.path.abspath(__file__))
EXAMPLES = os.path.join(TOOLS, "..", "examples")
CRATE = os.path.join(TOOLS, "..", "crates", "corpus")
EACH, NEAREST, LONG = 3, 8, 25000
# The numbers that name a word before the pass of flow, and those of that pass.
BEFORE_FLOW, FLOW, CALLERS_REGISTER = ["1", "2", "24"], "3", "25"
# The opcodes of format 11 that store, and the caller's registers.
STORES, CALLERS = (4, 5, 6), (14, *range(16, layout.REGISTERS))
# What a record costs beside its bytes, in bytes.
BEGINNING = 400


def record(one):
    """The bytes of a record."""
    number, word, register = (int(part) for part in one.answer.split())
    return mutants.HEAD.pack(one.edition, number, register, word, len(one.bundle)) + one.bundle


def stream(edition, bundles, answers):
    """The records of bundles that stand one after another, with their answers."""
    at, found = 0, []
    try:
        for answer in answers.splitlines():
            (length,) = struct.unpack_from(">I", bundles, at)
            found.append(Record(edition, bundles[at + 4:at + 4 + length], answer))
            at += 4 + length
    except struct.error:
        at = None
    if at != len(bundles):
        raise script.Problem("as many answers as bundles are needed")
    return found


def streams(arguments):
    """The records of each three arguments that name some."""
    if len(arguments) % 3:
        raise script.Problem("call it with EDITION BUNDLES ANSWERS, once or more; `--help` says more")
    for edition, bundles, answers in zip(*[iter(arguments)] * 3):
        with (lzma.open if bundles.endswith(".xz") else open)(bundles, "rb") as data, open(answers) as lines:
            yield stream(script.edition_named([edition], "EDITION"), data.read(), lines.read())


def examples():
    found = []
    for name in sorted(os.listdir(EXAMPLES)):
        folder = os.path.join(EXAMPLES, name)
        if os.path.isdir(folder):
            with open(os.path.join(folder, "bundle.bin"), "rb") as bundle, open(os.path.join(folder, "answer.txt")) as answer:
                found.append(Record(script.edition_of(folder), bundle.read(), answer.read().strip()))
    return found


def words_in(bundle):
    """The words of a bundle; none if its length is wrong."""
    try:
        return layout.open_bundle(bundle)[3]
    except script.Problem:
        return []


def standing(first_made):
    """The records in the data: the independent implementation's, and the others."""
    with open(os.path.join(CRATE, "stdin"), "rb") as file:
        there = mutants.records(file.read())
    at = there.index(first_made) if first_made in there else 0
    return there[:at], there[at:]


def takes(word):
    """Whether a word that is read would write a register of the caller."""
    form, opcode = assembly.opcode_of(word)
    writes = {0: word >> 22 & 7 == 4, 2: word != assembly.RETURN, 3: opcode not in STORES}
    return writes.get(form, False) and word >> 25 & 31 in CALLERS


def sort_of(edition, words, answer, accepted, refused):
    """What one of the independent implementation's records counts as, and how many of these there are to be: so many that are accepted
    with a branch into a slot, so many that are refused at such a slot."""
    number, word = answer.split()[0], int(answer.split()[1])
    slots = assembly.landings(words, edition)
    kind = f"edition {edition}" + ", predicted" * any(assembly.predicted_codes(one) is not None for one in words)
    if number == "0" and slots:
        return f"{kind}, branch into a slot", accepted
    if number not in BEFORE_FLOW and word in slots:
        return f"{kind}, slot, number {number}", refused
    if number == CALLERS_REGISTER and word > 0 and assembly.is_transfer(words[word - 1], edition):
        annulled = words[word - 1] != assembly.RETURN and words[word - 1] >> 29 & 1
        return f"{kind}, number {number} in a slot" + ", annulled" * annulled, EACH
    if number == FLOW and any(map(takes, words[word:])):
        return f"{kind}, number {number} before {CALLERS_REGISTER}", EACH
    return f"{kind}, number {number}", EACH


def uses_pointer(word):
    """Whether a word has r14 as an operand, or stores it."""
    form, opcode = assembly.opcode_of(word)
    second = not word >> 13 & 1 and word & 31 == layout.POINTER
    stored = form == 3 and opcode in STORES and word >> 25 & 31 == layout.POINTER
    return form in (2, 3) and (word >> 14 & 31 == layout.POINTER or second or stored)


def framed(row):
    return row[0][layout.POINTER][0] == layout.FRAME


def bundle_sort(one):
    """What a record counts as, and how many of these there are to be: by the frame, if it has to do with it, by its version, or else by
    its words and its answer."""
    number, at, register = map(int, one.answer.split())
    try:
        version, (_, _, _, words, rows) = layout.version_of(one.bundle), layout.open_bundle(one.bundle)
    except script.Problem:
        return sort_of(one.edition, [], one.answer, EACH, 1)
    if register > layout.NOTE_NAMED:
        return f"edition {one.edition}, scratch word, number {number}", EACH
    if number in (4, 5, 6, 7, 8) and uses_pointer(words[at]) and any(map(framed, rows[max(at - 1, 0):at + 1])):
        return f"edition {one.edition}, frame, number {number}", EACH
    if number == 0 and any(word >> 30 == 3 and uses_pointer(word) and framed(row) for word, row in zip(words, rows)):
        return f"edition {one.edition}, frame, number {number}", EACH
    if version == layout.VERSION:
        return f"edition {one.edition}, version {version}, number {number}", 1
    return sort_of(one.edition, words, one.answer, EACH, 1)


def shortest(records):
    """Of each sort the shortest records, in their order."""
    of_sort = {}
    for one in (one for one in records if len(one.bundle) <= LONG):
        of_sort.setdefault(bundle_sort(one), []).append(one)
    near = {one for several in of_sort.values() for one in sorted(several, key=lambda one: len(one.bundle))[:NEAREST]}
    return [one for one in records if one in near]


def chosen(lengths, told, sorts, always):
    """The places of the records to take, those at `always` among them: one after another the one that serves most for
    its length. `told` has the places of the records that tell each version apart. `sorts` has the sort of each of the first
    records, the independent implementation's, and how many of that sort there are to be."""
    wants = Counter()
    serves = [[] for _ in lengths]
    for version, places in told:
        for at in places:
            serves[at].append(version.name)
        wants[version.name] = min(1, len(places))
    for at, (sort, _) in enumerate(sorts):
        serves[at].append(sort)
    wants.update({sort: min(each, count) for (sort, each), count in Counter(sorts).items()})
    taken = set()

    def take(at):
        taken.add(at)
        wants.subtract(serves[at])

    for at in always:
        take(at)
    while any(count > 0 for count in wants.values()):
        served = {at: sum(wants[want] > 0 for want in serves[at]) for at in range(len(lengths)) if at not in taken}
        take(max(served, key=lambda at: (served[at] / (BEGINNING + lengths[at]), -at)))
    return sorted(taken)


def write(held, crate=CRATE):
    """Writes records as the data of a program, and what it must print."""
    with open(os.path.join(crate, "stdin"), "wb") as file:
        file.write(b"".join(map(record, held)))
    with open(os.path.join(crate, "stdout"), "w") as file:
        file.write(f"{len(held)} bundles, 0 wrong\n")


def with_examples():
    """Writes the data with the examples as they are now, in the place of those that it has."""
    made, shown = mutants.case_records(lambda length: length <= mutants.ROOM), examples()
    kept, rest = standing(made[0])
    mine = [one for one in rest if one in set(made)]
    write(kept + mine + shown)
    print(f"{len(kept)} of the independent implementation, {len(mine)} made, {len(shown)} examples; {len(rest) - len(mine)} taken out")


def main(arguments):
    if arguments == ["--examples"]:
        return with_examples()
    anew = arguments[:1] == ["--anew"]
    more, shown = [one for several in streams(arguments[anew:]) for one in several], examples()
    made = mutants.case_records(lambda length: length <= mutants.ROOM)
    kept, rest = standing(made[0])
    other = [one for one in dict.fromkeys(kept + shortest(more)) if len(one.bundle) <= mutants.ROOM]
    stock, first = other + made + shown, len(other)
    stays = {made[0], *(() if anew else rest)}
    always = [*(() if anew else range(len(kept))), *(first + at for at, one in enumerate(made) if one in stays),
              *range(first + len(made), len(stock))]
    places = chosen([len(one.bundle) for one in stock], mutants.all_wrong(stock), list(map(bundle_sort, other)), always)
    write([stock[at] for at in places])
    others, mine = sum(at < first for at in places), sum(first <= at < first + len(made) for at in places)
    print(f"{others} of {first} of the independent implementation, {mine} of {len(made)} made, {len(shown)} examples")


if __name__ == "__main__":
    script.run(main, __doc__)
