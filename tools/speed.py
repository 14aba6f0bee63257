#!/usr/bin/env python3
"""speed.py: measures the proved programs beside the plain ones, in one run, and prints the ratios.

    tools/speed.py

Needs the programs answer, corpus, tables and speed (crates/answer/out/answer and so on, made by `rt run </dev/null` in the
folder of each), gcc, which builds tools/plain with -O2, and valgrind and size for the memory. Each time is the best of five runs of the whole program, start and reading
included. The memory of a program is the most that its stack and heap take (valgrind's massif) and its static data.
"""
import os
import re
import struct
import subprocess
import sys
import tempfile
import time

sys.dont_write_bytecode = True
import kindcases
import layout
import mutants
import parts
import programs
import script
import tables

ROOT = os.path.join(os.path.dirname(os.path.abspath(__file__)), "..")
RUNS = 5


def full_bundle():
    """Accepted, and as long as a bundle can be: 8 regions of 16 fields, 128 words, every register known, and every scratch word from where
    the first six words have stored them."""
    fields = [(parts.UNSIGNED_BYTE, layout.BOTH, 0, 8 * k, 8, 32, 126) for k in range(16)]
    known = {r: layout.number(0, 36, 4) for r in range(1, 32)}
    known[1] = layout.number(32, 126)
    known[8] = (layout.ADDRESS, 3, layout.SINGLE_STEP, 0, 0)
    known[layout.POINTER] = layout.FRAME_ADDRESS
    known[15] = layout.RETURN_ADDRESS
    scratch = layout.NAMED[layout.REGISTERS:]
    rows = [layout.row({**known, **{name: known[1] for name in scratch[:k]}}) for k in range(128)]
    spill, store = 0xC223A000, 0xC22A2000  # st %g1, [%sp + an offset]; stb %g1, [%o0]
    words = [spill + offset for offset in layout.SCRATCH_OFFSETS] + [store] * 120 + [parts.RETURN, parts.NOP]
    return layout.bundle_bytes([(128, fields)] * 8, rows[0], layout.NOTHING, words, rows)


def best(command, data):
    """The best time of the runs, in seconds, and what the program wrote."""
    times = []
    for _ in range(RUNS):
        began = time.perf_counter()
        wrote = subprocess.run(command, input=data, capture_output=True, check=True).stdout
        times.append(time.perf_counter() - began)
    return min(times), wrote.decode().split("\n")


def expect(right, program):
    if not right:
        raise script.Problem(f"{program} does not answer 0 0 0 to what is accepted")


def answers(name, bundle, count, plain):
    ours, wrote = best([programs.path_of("corpus")], (mutants.HEAD.pack(script.OLDER, 0, 0, 0, len(bundle)) + bundle) * count)
    expect(wrote[-2:-1] == [f"{count} bundles, 0 wrong"], "corpus")
    theirs, lines = best([plain, "-s"], (struct.pack(">I", len(bundle)) + bundle) * count)
    expect(lines[:-1] == ["0 0 0"] * count, "the plain answer")
    print(f"{name}: {count / ours:,.0f} bundles a second, plain {count / theirs:,.0f}, time ratio {ours / theirs:.2f}")


def listings(name, case, count, plain):
    """The listing of a routine that is accepted; the proved program reads the record each time, and compares."""
    (_, marks), = tables.tables(plain, [tables.record(case._replace(expected=(kindcases.ACCEPTED, b"")))])
    record = tables.record(case._replace(expected=(kindcases.ACCEPTED, bytes(map(int, marks)))))
    ours, wrote = best([programs.path_of("tables")], record * count)
    expect(wrote[-2:-1] == [f"{count} cases, 0 wrong"], "tables")
    theirs, lines = best([plain, "-n", str(count)], record)
    expect(lines[0] == kindcases.ACCEPTED, "the plain listing")
    print(f"{name}: {count / ours:,.0f} listings a second, plain {count / theirs:,.0f}, time ratio {ours / theirs:.2f}")


def steps(name, routine, plain):
    count = 10 ** 7
    ours, _ = best([programs.path_of("speed")], f"{routine}7".encode())
    theirs, _ = best([plain, str(routine), str(count)], b"")
    print(f"{name}: {count / ours / 1e6:.0f} million steps a second, plain {count / theirs / 1e6:.0f}, time ratio {ours / theirs:.2f}")


def most_memory(command, data, folder):
    """The most bytes of stack, heap and static data that a program takes."""
    out = f"{folder}/massif"
    subprocess.run(["valgrind", "--tool=massif", "--stacks=yes", f"--massif-out-file={out}", command],
                   input=data, capture_output=True, check=True)
    with open(out) as file:
        snapshots = file.read().split("#-----------\nsnapshot=")[1:]
    taken = max(sum(int(n) for n in re.findall(r"^mem_\w+_B=(\d+)", one, re.M)) for one in snapshots)
    sizes = subprocess.run(["size", command], capture_output=True, check=True, text=True).stdout.split("\n")[1].split()
    return taken + int(sizes[1]) + int(sizes[2])


def memory(name, bundle, plain, folder):
    ours = most_memory(programs.path_of("answer"), bundle, folder)
    theirs = most_memory(plain, bundle, folder)
    print(f"{name}: {ours:,} bytes of memory, plain {theirs:,}, ratio {ours / theirs:.2f}")


def main(arguments):
    if arguments:
        raise script.Problem("call it as `speed.py`, with no arguments")
    with tempfile.TemporaryDirectory() as folder:
        for job in ("answer", "kinds", "machine"):
            subprocess.run(["gcc", "-O2", "-o", f"{folder}/{job}", f"{ROOT}/tools/plain/{job}.c"], check=True)
        answers("128 words, 8 full regions", full_bundle(), 400, f"{folder}/answer")
        for name in ("name", "charge", "linked", "sum"):
            with open(f"{ROOT}/examples/{name}/bundle.bin", "rb") as file:
                answers(f"example {name}", file.read(), 4000, f"{folder}/answer")
        memory("128 words, 8 full regions", full_bundle(), f"{folder}/answer", folder)
        for case in kindcases.measured():
            listings(case.name, case, 400, f"{folder}/kinds")
        steps("arithmetic loop", 0, f"{folder}/machine")
        steps("loop with a load and a store", 1, f"{folder}/machine")
        for place, routine in (("first", 2), ("eighth", 3), ("last", 4)):
            steps(f"loop of loads from the {place} of 16 fields", routine, f"{folder}/machine")


if __name__ == "__main__":
    script.run(main, __doc__)
