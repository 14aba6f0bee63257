#!/usr/bin/env python3
"""parts.py: the bundle that the program crates/answer is run on.

    tools/parts.py

Writes crates/answer/stdin, the return and a nop with every row equal to the entry row, and
crates/answer/stdout, what the program must print. The data is the same at each run.
"""
import os
import sys

sys.dont_write_bytecode = True
import layout
import script

CRATE = os.path.join(os.path.dirname(os.path.abspath(__file__)), "..", "crates", "answer")

RETURN, NOP = 0x81C3E008, 0x01000000
UNSIGNED_BYTE, _, _ = layout.ELEMENTS["unsigned byte"]


def return_then_nop():
    """Accepted: r15 has the return address, and nothing is asked of r8."""
    policy = [(32, [(UNSIGNED_BYTE, layout.WRITE, 0, 0, 30, 32, 126)])]
    every = layout.row({15: layout.RETURN_ADDRESS})
    return layout.bundle_bytes(policy, every, layout.NOTHING, [RETURN, NOP], [every, every])


def write(name, data):
    with open(os.path.join(CRATE, name), "wb") as out:
        out.write(data)


def main(arguments):
    if arguments:
        raise script.Problem("call it as `parts.py`, with no arguments")
    write("stdin", return_then_nop())
    write("stdout", b"0 0 0\n")


if __name__ == "__main__":
    script.run(main, __doc__)
