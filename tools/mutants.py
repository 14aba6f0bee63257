#!/usr/bin/env python3
"""mutants.py: holds wrong versions of the plain checker against the records of crates/corpus.

    tools/mutants.py            makes every wrong version and lists those that answer each record right
    tools/mutants.py -v         lists for each version the record that it answers wrong first, too

The wrong versions are listed in tools/plain/mutants.txt, each a line of tools/plain/answer.c replaced by
another. They are compiled with gcc (-O1, one after another) and answer all the records, each for the edition
that it has, and the bundles of cases.py and framecases.py that are too long for the program. A version that
answers each of them right survives: a record that tells it apart is missing, or it is no wrong version, and
then the list has the reason. The status is 0 if the right program answers each right and exactly those
versions survive that have a reason.
"""
import itertools
import os
import re
import struct
import subprocess
import sys
import tempfile
from collections import namedtuple

sys.dont_write_bytecode = True
import cases
import framecases
import layout
import script
from script import Problem

TOOLS = os.path.dirname(os.path.abspath(__file__))
SOURCE = os.path.join(TOOLS, "plain", "answer.c")
LIST = os.path.join(TOOLS, "plain", "mutants.txt")
DATA = os.path.join(TOOLS, "..", "crates", "corpus", "stdin")
SECONDS = 20
# The longest bundle that the program reads.
ROOM = layout.MOST_BYTES[layout.VERSION] + 1
# The beginning of a record: edition, number, register, word, the bundle's length.
HEAD = struct.Struct(">BBBHI")
# A record: the edition, the bundle, and the answer, a line as the program prints it.
Record = namedtuple("Record", "edition bundle answer")


class Version:
    """A wrong version: the line sought from a place on, what replaces it, and why it is none if it is none."""

    def __init__(self, name, lines):
        self.name = name
        parts = {line[0]: line[2:] for line in lines}
        if set(parts) - set("@-+=") or len(parts) != len(lines) or not {"-", "+"} <= set(parts):
            raise Problem(f"{name}: expected lines `-` and `+`, and perhaps `@` and `=`, each once")
        self.old, self.new = parts["-"], parts["+"]
        self.after, self.reason = parts.get("@"), parts.get("=")

    def source(self, lines):
        """The program's text with the line replaced."""
        first = 0
        if self.after is not None:
            first = next((at for at, line in enumerate(lines) if self.after in line), len(lines))
        places = [at for at in range(first, len(lines)) if lines[at].strip() == self.old]
        if not places or (self.after is None and len(places) > 1):
            raise Problem(f"{self.name}: {len(places)} lines read `{self.old}`")
        return "\n".join(lines[:places[0]] + [self.new] + lines[places[0] + 1:])


def versions(path=LIST):
    """The wrong versions that a list has."""
    with open(path, encoding="utf-8") as file:
        text = file.read()
    blocks = [block.strip("\n").split("\n") for block in text.split("\n\n")[1:] if block.strip()]
    listed = [Version(block[0], block[1:]) for block in blocks if not block[0].startswith("#")]
    names = [version.name for version in listed]
    for name in names:
        if not re.fullmatch(r"[a-z0-9-]+", name) or names.count(name) > 1:
            raise Problem(f"`{name}` is no name, or stands twice")
    return listed


def records(data):
    """The records of the data."""
    at, found = 0, []
    while at < len(data):
        edition, number, register, word, length = HEAD.unpack_from(data, at)
        start, at = at + HEAD.size, at + HEAD.size + length
        found.append(Record(edition, data[start:at], f"{number} {word} {register}"))
    return found


def case_records(fits):
    """The records of those cases whose bundle has a length that fits, each once."""
    made = itertools.chain(cases.cases(), framecases.made())
    return list(dict.fromkeys(Record(case.edition, case.bundle, case.answer) for case in made if fits(len(case.bundle))))


def compiled(source, folder):
    path = os.path.join(folder, "answer")
    subprocess.run(["gcc", "-O1", "-w", "-I", os.path.dirname(SOURCE), "-o", path, "-x", "c", "-"], input=source.encode(), check=True)
    return path


def answers(program, edition, bundles):
    """The answer to each bundle, None where the program stops or does not end."""
    stream = b"".join(struct.pack(">I", len(bundle)) + bundle for bundle in bundles)
    try:
        done = subprocess.run([program, str(edition), "-s"], input=stream, capture_output=True, timeout=SECONDS)
        lines = done.stdout.decode().splitlines()
        if done.returncode == 0 and len(lines) == len(bundles):
            return lines
    except subprocess.TimeoutExpired:
        pass
    return [answer(program, edition, bundle) for bundle in bundles]


def answer(program, edition, bundle):
    try:
        done = subprocess.run([program, str(edition)], input=bundle, capture_output=True, timeout=SECONDS)
    except subprocess.TimeoutExpired:
        return None
    return done.stdout.decode().strip() if done.returncode == 0 else None


def wrong(source, held, folder):
    """The places of the records that a program answers wrong."""
    program, found = compiled(source, folder), []
    for edition in sorted({one.edition for one in held}):
        places = [at for at, one in enumerate(held) if one.edition == edition]
        given = answers(program, edition, [held[at].bundle for at in places])
        found += [at for at, line in zip(places, given) if line != held[at].answer]
    return sorted(found)


def all_wrong(held):
    """Each wrong version with the places of the records that tell it apart, after the right program was seen to be right."""
    with open(SOURCE, encoding="utf-8") as file:
        text = file.read()
    with tempfile.TemporaryDirectory() as folder:
        amiss = wrong(text, held, folder)
        if amiss:
            raise Problem(f"answer.c itself answers record {amiss[0] + 1} otherwise")
        for version in versions():
            yield version, wrong(version.source(text.split("\n")), held, folder)


def report(held, verbose):
    """Prints what survives; whether only versions with a reason do."""
    caught, equal, bad = 0, 0, 0
    for version, places in all_wrong(held):
        if places and version.reason is None:
            caught += 1
            if verbose:
                print(f"{version.name}: record {places[0] + 1}, {len(places)} in all")
        elif places:
            bad += 1
            print(f"{version.name}: has a reason, but answers record {places[0] + 1} otherwise")
        elif version.reason is None:
            bad += 1
            print(f"{version.name}: survives")
        else:
            equal += 1
            if verbose:
                print(f"{version.name}: no wrong version: {version.reason}")
    print(f"{len(held)} bundles; {caught + equal + bad} versions: {caught} caught, {equal} shown to be none, {bad} amiss")
    return bad == 0


def main(arguments):
    if arguments not in ([], ["-v"]):
        raise Problem("call it as `mutants.py`, `mutants.py -v` or `mutants.py --help`")
    with open(DATA, "rb") as file:
        held = records(file.read())
    held += case_records(lambda length: length > ROOM)
    if not report(held, arguments == ["-v"]):
        raise Problem("a wrong version survives, or one that is none is caught")


if __name__ == "__main__":
    script.run(main, __doc__)
