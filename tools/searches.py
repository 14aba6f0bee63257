#!/usr/bin/env python3
"""searches.py: writes the data of the program crates/searches, stdin and stdout.

    tools/searches.py               from the searches that stand in the data
    tools/searches.py SEARCHES      from others of the independent implementation

SEARCHES has lists of fields as text, each with searches in it, a blank line between two lists:
  fields N       the number of fields; after it a line for each
  field ELEMENT PERMISSION TARGET OFFSET COUNT LO HI
  want FIRST PAST found INDEX looked N
A search wants the bytes from offset FIRST up to PAST, which is not among them. It finds field INDEX, counted from 0, or `none`,
and looks at N fields. One whose FIRST or PAST is negative or does not fit 32 bits is passed over: no call can ask for it.
List n, counted from 0, is region n modulo 8 of a policy of 8 regions of 4,096 bytes; the others have no fields.

After them come lists that are made here, each for one thing. What is expected of their searches is request 3 of document 02 word
for word, `outcome` below, or the refusal 20; and `outcome` must give what the independent implementation gave for each of its
searches. The first list that is made is refused, so that they are known again.

A record of the data is numbers of 32 bits, big-endian. The first says how many come after it; these are
    0  number of the answer      3  number of fields F         13  numbers of fields of 8 regions
    1  the region searched       4  number of searches S       21  F fields, and S searches, 4 numbers each
    2  number of regions         5  sizes of 8 regions
A field is its place (16 times the region, plus its number there), element, permission and target, a byte each; offset and
count, 16 bits each; lo and hi, 2^31 added. A search is FIRST, PAST, INDEX with 1 added or 0 for `none`, and N.
"""
import os
import struct
import sys
from collections import namedtuple

sys.dont_write_bytecode = True
import layout
import script
from explain import WIDTHS
from kindcases import Policy
from script import Problem
from tables import EXCESS, FIELDS, REGIONS, field_bytes, padded

CRATE = os.path.join(os.path.dirname(os.path.abspath(__file__)), "..", "crates", "searches")
ACCEPTED, REFUSED = 0, 20
SIZE, HEAD, TOP = 4096, 21, 2 ** 32 - 1
# The most searches of a record.
SEARCHES = 53
# The number of the answer, the region that is searched, the policy, and the searches: (first, past, index or None, looked).
List = namedtuple("List", "number region policy searches")


# What a search gives

def outcome(extents, first, past):
    """Which field a search finds, and how many it looks at: it "is to end at the first field that holds the wanted bytes or begins past
    their lowest offset", and looks at "exactly those up to and with that one, or all if there is none". An extent is a field's first
    byte and the first one after it."""
    for k, (begin, end) in enumerate(extents):
        holds = begin <= first and past <= end
        if holds or first < begin:
            return k if holds else None, k + 1
    return None, len(extents)


def extents_of(policy, region):
    _, count, fields = policy.regions[region]
    return [(offset, offset + WIDTHS[element] * number) for element, _, _, offset, number, _, _ in fields[:count]]


def held(number, one):
    """A list with its number, each of whose searches gives what request 3 says."""
    for first, past, *given in one.searches:
        expected = list(outcome(extents_of(one.policy, one.region), first, past))
        if given != expected:
            raise Problem(f"list {number}: bytes {first} up to {past} give {given}, and request 3 says {expected}")
    return one


# Records

def record(one):
    """The record of a list. There is no room in it for a ninth region, nor for a region's seventeenth field."""
    regions = one.policy.regions[:REGIONS]
    fields = [field_bytes(FIELDS * r + k, field) for r, (_, _, own) in enumerate(regions) for k, field in enumerate(own[:FIELDS])]
    searches = [struct.pack(">4I", first, past, 0 if index is None else index + 1, looked) for first, past, index, looked in one.searches]
    numbers = [one.number, one.region, one.policy.count, len(fields), len(searches)]
    numbers += padded([size for size, _, _ in regions]) + padded([count for _, count, _ in regions])
    return struct.pack(f">{HEAD + 1}I", HEAD + 4 * (len(fields) + len(searches)), *numbers) + b"".join(fields + searches)


def list_in(data, at):
    """The list whose record begins at a place of the data, and where the next one begins."""
    _, number, region, count, fields, searches, *rest = struct.unpack_from(f">{HEAD + 1}I", data, at)
    at += 4 * (HEAD + 1)
    end = at + 16 * fields
    own = [[] for _ in range(REGIONS)]
    for place, *parts, lo, hi in struct.iter_unpack(">4B2H2I", data[at:end]):
        own[place // FIELDS].append((*parts, lo - EXCESS, hi - EXCESS))
    policy = Policy(count, list(zip(rest[:REGIONS], rest[REGIONS:], own)))
    at, end = end, end + 16 * searches
    wanted = [(first, past, index - 1 if index else None, looked) for first, past, index, looked in struct.iter_unpack(">4I", data[at:end])]
    return List(number, region, policy, wanted), end


def standing():
    """The lists of the data that are not made here: those before the first that is."""
    with open(os.path.join(CRATE, "stdin"), "rb") as file:
        data = file.read()
    at, lists = 0, []
    while at < len(data):
        one, at = list_in(data, at)
        if one.number == REFUSED:
            break
        lists.append(one)
    return lists


# Lists as text

def list_in_lines(number, lines):
    (name, count), fields, wants = lines[0], lines[1:1 + int(lines[0][1])], lines[1 + int(lines[0][1]):]
    if [name] + [line[0] for line in lines[1:]] != ["fields"] + ["field"] * int(count) + ["want"] * len(wants):
        raise ValueError
    if len(fields) > FIELDS or len(wants) > SEARCHES:
        raise ValueError
    own = [tuple(map(int, rest)) for _, *rest in fields]
    policy = Policy(REGIONS, [(SIZE, len(own), own) if r == number % REGIONS else (SIZE, 0, []) for r in range(REGIONS)])
    wanted = [(int(first), int(past), None if index == "none" else int(index), int(looked))
              for _, first, past, _, index, _, looked in wants]
    kept = [search for search in wanted if 0 <= min(search[:2]) and max(search[:2]) <= TOP]
    return List(ACCEPTED, number % REGIONS, policy, kept)


def list_of(number, text):
    """The list that a text has, with room for it in a record; a problem names its first line."""
    try:
        one = list_in_lines(number, [line.split() for line in text.strip().splitlines()])
        record(one), extents_of(one.policy, one.region)
        return one
    except (ValueError, IndexError, KeyError, struct.error):
        raise Problem(f"no list of fields: `{text.strip().splitlines()[0]} ..`") from None


def lists_of(path):
    texts = [text for text in "\n".join(script.read_lines(path)).split("\n\n") if text.strip()]
    return [list_of(number, text) for number, text in enumerate(texts)]


# Lists that are made

def field(element, offset, count):
    return element, layout.BOTH, 0, offset, count, 0, 0


def regions(*lists, size=SIZE):
    """A policy with a region for each list of fields."""
    return Policy(len(lists), [(size, len(fields), fields) for fields in lists])


def searched(policy, region, wants):
    extents = extents_of(policy, region)
    return List(ACCEPTED, region, policy, [(first, past, *outcome(extents, first, past)) for first, past in wants])


def refused(policy, region):
    return List(REFUSED, region, policy, [(first, past, None, 0) for first, past in [(0, 1), (3, 4), (9, 10), (0, TOP)]])


# [0, 4), [4, 8), [10, 12) and [20, 24), of elements that differ in width; and 16 fields of one byte.
FOUR = [field(5, 0, 1), field(3, 4, 2), field(1, 10, 2), field(6, 20, 1)]
BYTES = [field(1, k, 1) for k in range(FIELDS)]
# Each byte of 16, every two that are neighbours, all, and past all.
EACH = [(k, k + 1) for k in range(FIELDS)] + [(k, k + 2) for k in range(FIELDS)] + [(0, FIELDS), (FIELDS, FIELDS + 1), (FIELDS, TOP)]
# Bytes in, between and past the four.
SOME = [(0, 4), (3, 5), (4, 8), (4, 9), (8, 10), (11, 12), (12, 13), (19, 20), (20, 24), (23, 25), (24, 25), (30, 31)]


def made_refused():
    # Two fields that have one byte in common.
    yield refused(regions([field(1, 0, 4), field(1, 3, 4)]), 0)
    # A region that is not there, though its places have fields: the next one, the last that there is room for, and numbers past that.
    three, eight = Policy(3, regions(*[FOUR] * REGIONS).regions), regions(*[FOUR] * REGIONS)
    for policy, region in (three, 3), (three, 7), (three, 255), (eight, 8), (eight, 255):
        yield refused(policy, region)
    # No regions at all, and one more than there may be.
    yield refused(regions(), 0)
    yield refused(Policy(0, eight.regions), 0)
    yield refused(Policy(REGIONS + 1, eight.regions), 0)
    # A size that no region may have.
    for size in 0, 4, 12, SIZE + 8:
        yield refused(regions([], size=size), 0)
    # A region that claims 17 fields; the place after its own has a field that would do.
    yield refused(Policy(2, [(SIZE, FIELDS + 1, BYTES), (SIZE, 1, [field(1, FIELDS, 1)])]), 0)
    # A field that breaks a rule in another region than the one that is searched, before and after it.
    for other in 0, 2:
        yield refused(regions(*[[field(8, 0, 1)] if r == other else FOUR for r in range(3)]), 1)


def made_accepted():
    # Between two regions with fields at the same offsets.
    yield searched(regions(FOUR, FOUR, FOUR), 1, SOME)
    # Every place is in use up to the next region, whose first field holds the byte after them.
    yield searched(regions(BYTES, BYTES, [field(1, FIELDS, 1)]), 1, EACH)
    # The places after the region's fields have others that hold bytes.
    yield searched(Policy(1, [(SIZE, 2, FOUR)]), 0, SOME)
    # 16 fields of one byte in the first region, and in the last, up to place 127.
    yield searched(regions(BYTES), 0, EACH)
    yield searched(regions(*[BYTES] * REGIONS), REGIONS - 1, EACH)
    # A region without fields between two with some.
    yield searched(regions(FOUR, [], FOUR), 1, SOME)
    # All bytes that can be wanted of the first 26.
    pairs = [(first, past) for first in range(26) for past in range(first + 1, 27)]
    for at in range(0, len(pairs), SEARCHES):
        yield searched(regions(FOUR), 0, pairs[at:at + SEARCHES])
    # Offsets that are a field's in their low 8, 16 or 24 bits, and the highest.
    far = [(first, past) for high in (2 ** 8, 2 ** 16, 2 ** 24) for first, past in ((0, high + 4), (high, high + 4), (high + 20, high + 24))]
    yield searched(regions(FOUR), 0, far + [(0, TOP), (20, TOP), (TOP - 4, TOP), (TOP - 1, TOP)])
    # A field that ends where its region ends.
    yield searched(regions([field(1, SIZE - 1, 1)]), 0, [(SIZE - 2, SIZE), (SIZE - 1, SIZE), (SIZE - 1, SIZE + 1), (SIZE, SIZE + 1)])


# The data

def data_of(other):
    """What stdin and stdout hold, with the lists of the independent implementation."""
    lists = other + list(made_refused()) + list(made_accepted())
    counts = f"{len(lists)} lists, {sum(len(one.searches) for one in lists)} searches, 0 wrong\n"
    return b"".join(map(record, lists)), counts.encode()


def main(arguments):
    if len(arguments) > 1:
        raise Problem("call it as `searches.py` or `searches.py SEARCHES`; `searches.py --help` says more")
    other = [held(number, one) for number, one in enumerate(lists_of(arguments[0]) if arguments else standing())]
    if not other:
        raise Problem("no searches of the independent implementation stand in the data: name a file with some")
    for name, data in zip(("stdin", "stdout"), data_of(other)):
        with open(os.path.join(CRATE, name), "wb") as file:
            file.write(data)
    print(f"{len(other)} lists of the independent implementation with {sum(len(one.searches) for one in other)} searches")


if __name__ == "__main__":
    script.run(main, __doc__)
