#!/usr/bin/env python3
"""found.py: measures how many rows are found again: of bundles that are accepted, without their rows.

    tools/found.py EDITION BUNDLES ANSWERS ..             all that are accepted
    tools/found.py --every N EDITION BUNDLES ANSWERS ..   one of N of these

EDITION, BUNDLES and ANSWERS are those of corpus.py (see `corpus.py --help`). Each bundle that ANSWERS accepts is handed to the program
`infer` (crates/infer/out/infer, made by `rt run </dev/null` in crates/infer) or, for edition 9, `infer9`: first as it is, and one that
is not accepted any more is counted and passed over; then with all its rows to be found. The rows are found again if that is accepted too.

Printed is a line for each BUNDLES, and then the misses, counted by the number of the answer and by whether anything reaches the word
that is named: a word that nothing reaches needs a row too, and none may be found. Last is the bundle that took the longest. It takes
some milliseconds a bundle; standard error says how far it has come.
"""
import os
import subprocess
import sys
import time
from collections import Counter, namedtuple
from concurrent.futures import ThreadPoolExecutor

sys.dont_write_bytecode = True
import assembly
import bundle
import corpus
import layout
import programs
import script
from script import Problem

AT_ONCE, SHOWN = 2, 100  # programs that run at once; bundles after which progress is said
SIGNED = {2: (lambda a, b: a <= b), 3: (lambda a, b: a < b), 10: (lambda a, b: a > b), 11: (lambda a, b: a >= b)}
EQUAL, NOT_EQUAL, NEVER, ALWAYS = 1, 9, 0, 8
# What became of a bundle: the answer with its own rows and with those found (None if there is none), and the seconds for the latter.
Outcome = namedtuple("Outcome", "place record own found seconds")


# Which words are reached

def holds_for_some(condition, row):
    """Whether a branch's condition may hold, as far as the row's note and its register tell."""
    (kind, register, number), entries = row[1], row[0]
    entry = entries[register]
    if condition in (NEVER, ALWAYS) or kind != layout.NOTE_COMPARED or entry[0] != layout.NUMBER:
        return condition != NEVER
    _, _, step, lo, hi = entry
    if condition == EQUAL:
        return lo <= number <= hi and (number - lo) % step == 0
    if condition == NOT_EQUAL:
        return lo != hi or lo != number
    return condition not in SIGNED or SIGNED[condition](lo, number) or SIGNED[condition](hi, number)


def words_after(word, words, row, edition):
    """The words that a word leads to, but for its slot."""
    code = words[word]
    if not assembly.is_transfer(code, edition):
        return [word + 1]
    if code == assembly.RETURN:
        return []
    condition = code >> 25 & 15
    taken = [assembly.target_of(word, code, edition)] if holds_for_some(condition, row) else []
    return taken + ([word + 2] if holds_for_some(condition ^ 8, row) else [])


def reached(data, edition):
    """The words of an accepted bundle that something reaches, as far as its rows tell, and the slots of these."""
    _, _, _, words, rows = layout.open_bundle(data)
    found, left = set(), [0]
    while left:
        word = left.pop()
        if word not in found:
            found.add(word)
            left += words_after(word, words, rows[word], edition)
    return found | {word + 1 for word in found if assembly.is_transfer(words[word], edition)}


# What the program gives

def answer_to(data, edition):
    """The answer to a bundle once its rows are found, None if there is none, and the seconds that it took."""
    begun = time.monotonic()
    try:
        line, _, filled = programs.run(programs.program_of("infer", edition), data).partition(b"\n")
    except subprocess.SubprocessError:
        return None, time.monotonic() - begun
    right = bundle.ANSWER.fullmatch(line.decode("ascii", "replace")) and bundle.is_filled(filled, data)
    return line.decode() if right else None, time.monotonic() - begun


def outcome(place, record):
    """What becomes of an accepted bundle."""
    own, _ = answer_to(record.bundle, record.edition)
    found, seconds = answer_to(layout.without_rows(record.bundle), record.edition) if own == bundle.ACCEPTED else (None, 0)
    return Outcome(place, record, own, found, seconds)


def outcomes(records, every):
    """What becomes of those that are accepted, or of one of so many, each with its place in the file, from 1 on."""
    chosen = [(place, one) for place, one in enumerate(records, 1) if one.answer == bundle.ACCEPTED][::every]
    with ThreadPoolExecutor(AT_ONCE) as pool:
        for done, one in enumerate(pool.map(lambda pair: outcome(*pair), chosen), 1):
            if done % SHOWN == 0:
                print(f"{done} of {len(chosen)}", file=sys.stderr, flush=True)
            yield one


# Text

def miss_text(one):
    """A miss, by the answer and by whether anything reaches the word that is named."""
    if one.found is None:
        return "no answer"
    number, word, _ = map(int, one.found.split())
    which = "is reached" if word in reached(one.record.bundle, one.record.edition) else "nothing reaches"
    return f"{number} at a word that {which}"


def count_text(held):
    """How many were accepted, and how many of them were found again."""
    found = sum(one.found == bundle.ACCEPTED for one in held)
    return f"{found} of {len(held)} found again" + (f" ({100 * found / len(held):.2f} %)" if held else "")


def measure(named, every):
    """Measures the records of each name, and prints what comes of it."""
    held = []
    for name, records in named:
        now = list(outcomes(records, every))
        mine = [one for one in now if one.own == bundle.ACCEPTED]
        print(f"{name}: {count_text(mine)}; {len(now) - len(mine)} not accepted any more", flush=True)
        held += [(name, one) for one in mine]
    missed = [(name, one) for name, one in held if one.found != bundle.ACCEPTED]
    print(f"in all: {count_text([one for _, one in held])}")
    for text, count in Counter(miss_text(one) for _, one in missed).most_common():
        print(f"  missed, {text}: {count}")
    for name, one in missed:
        print(f"  {name}, bundle {one.place}: {one.found or 'no answer'}")
    for name, one in [max(held, key=lambda pair: pair[1].seconds)] if held else []:
        print(f"slowest: {one.seconds:.3f} s, {name}, bundle {one.place}")


def taken_every(arguments):
    """The number after `--every`, 1 without it, and the other arguments."""
    if arguments[:1] != ["--every"]:
        return 1, arguments
    if not arguments[1:2] or not arguments[1].isdecimal() or int(arguments[1]) == 0:
        raise Problem("--every is a number from 1 on")
    return int(arguments[1]), arguments[2:]


def main(arguments):
    every, others = taken_every(arguments)
    if not others:
        raise Problem("call it as `found.py [--every N] EDITION BUNDLES ANSWERS ..`; `found.py --help` says more")
    names = [os.path.basename(path).partition(".")[0] for path in others[1::3]]
    measure(zip(names, corpus.streams(others)), every)


if __name__ == "__main__":
    script.run(main, __doc__)
