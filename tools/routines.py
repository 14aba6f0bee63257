#!/usr/bin/env python3
"""routines.py: writes the data of the program crates/routines, stdin and stdout: routines without rows.

    tools/routines.py                   from tools/routines.txt and the examples
    tools/routines.py --answers INFER   so, and the answers in tools/routines.txt are taken anew first

tools/routines.txt has routines such as dealers write, with loops of many sorts; some of them are wrong, and no rows exist for
these. Each begins with a line

    == NAME NUMBER WORD REGISTER

with the answer that is expected once rows are found; after it come the lines of its policy.txt, the lines `entry:` and `result:` of
its rows.txt, and its routine.s (see `bundle.py --help`).

INFER is a Python file that finds rows independently, in bundles of version 1 for the older terminal. Of it are called
open_bundle(data), which gives policy, words, rows, entry row and result entry, and infer(policy, words, entry row, result entry), whose
`answer` is that to the bundle with the rows that it finds.

A record is one of crates/corpus (see `corpus.py --help`). Its bundle is of version 2, or of its own version if it is an example's,
and all its rows are to be found. To assemble the routines needs GNU as for SPARC. The data is the same at each run.
"""
import importlib.util
import os
import re
import sys
import tempfile

sys.dont_write_bytecode = True
import bundle
import corpus
import layout
import script
from mutants import Record
from script import Problem

TOOLS = os.path.dirname(os.path.abspath(__file__))
SOURCE = os.path.join(TOOLS, "routines.txt")
CRATE = os.path.join(TOOLS, "..", "crates", "routines")
HEAD = re.compile(r"(?m)^== (\S+) (.*)\n")
START = re.compile(r"(?m)^entry: .*\nresult: .*\n")


def read_source():
    with open(SOURCE, encoding="utf-8") as file:
        return file.read()


def routines_in(text):
    """Name, answer and text of each routine."""
    _, *parts = HEAD.split(text)
    return list(zip(parts[::3], parts[1::3], parts[2::3]))


def bundle_of(name, text, version=layout.VERSION):
    """The bundle of a routine, with all its rows to be found."""
    start = START.search(text)
    if not start:
        raise Problem(f"routines.txt: {name} has no lines `entry:` and `result:`, one after the other")
    files = {"policy.txt": "# Its regions\n" + text[:start.start()], "rows.txt": start[0], "routine.s": text[start.end():]}
    with tempfile.TemporaryDirectory() as folder:
        for file, held in files.items():
            with open(os.path.join(folder, file), "w", encoding="utf-8") as out:
                out.write(held)
        try:
            data, _ = bundle.bundle_of(folder, script.OLDER, version)
        except Problem as problem:
            raise Problem(f"routines.txt: {name}: {problem}") from None
    return data


def examples():
    """The examples without their rows."""
    return [one._replace(bundle=layout.without_rows(one.bundle)) for one in corpus.examples()]


def records(text):
    """The records of the routines and of the examples."""
    return [Record(script.OLDER, bundle_of(name, held), answer) for name, answer, held in routines_in(text)] + examples()


# The answers

def loaded(path):
    """A Python file as a module."""
    spec = importlib.util.spec_from_file_location("finder", path)
    if spec is None or not os.path.isfile(path):
        raise Problem(f"{path} is no Python file")
    module = importlib.util.module_from_spec(spec)
    spec.loader.exec_module(module)
    return module


def answer_by(finder, name, text):
    """The answer to a routine with the rows that a module finds."""
    policy, words, _, entry, result = finder.open_bundle(bundle_of(name, text, layout.BEFORE_SCRATCH))
    return "{} {} {}".format(*finder.infer(policy, words, entry, result).answer)


def answered(text, finder):
    """The text of routines.txt with the answers that a module gives."""
    answers = {name: answer_by(finder, name, held) for name, _, held in routines_in(text)}
    return HEAD.sub(lambda head: f"== {head[1]} {answers[head[1]]}\n", text)


def main(arguments):
    if arguments and (arguments[0] != "--answers" or len(arguments) != 2):
        raise Problem("call it as `routines.py` or `routines.py --answers INFER`; `routines.py --help` says more")
    text = read_source()
    if arguments:
        text = answered(text, loaded(arguments[1]))
        with open(SOURCE, "w", encoding="utf-8") as file:
            file.write(text)
    held = records(text)
    os.makedirs(CRATE, exist_ok=True)
    corpus.write(held, CRATE)
    accepted = sum(one.answer == bundle.ACCEPTED for one in held)
    print(f"{len(held)} routines, {accepted} of them accepted")


if __name__ == "__main__":
    script.run(main, __doc__)
