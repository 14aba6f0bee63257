#!/usr/bin/env python3
"""test.py: tests the tools.

    tools/test.py

Holds bundle.py, explain.py and kinds.py against the examples, and tries on them what can be wrong with a file, a folder, the
assembler, a program, an answer or the place where they run: each must be said in a line with the file and the line, with status 1.
Sees that rows are found, kept, printed and read again as they were.
Holds the words and the data of both terminals against what they must be, and the examples and routines that use the frame
against the answers of the plain checker too.
Holds what pace.py says of a gate against a log that is made here, runs one that is made, and tries logs that are none.
Sees that every crate, definition, edit and file that the documents name is there, and that every edit is named.
Sees that each script says what it does when asked for help, and does nothing else.

What needs GNU binutils for SPARC, gcc or a program (crates/answer/out/answer, that of explain, infer or kinds, or those with a
9) is left out where that is not here, and this is said. The last line is `N passed, 0 failed`, with the number of those left out if there are any; the status is 0 if
none failed.
"""
import contextlib
import io
import lzma
import os
import re
import shutil
import struct
import subprocess
import sys
import tempfile

sys.dont_write_bytecode = True
import assembly
import bundle
import cases as bundles
import corpus
import explain
import found
import kindcases
import kinds
import layout
import mutants
import naming
import pace
import parts
import programs
import routines
import runs
import script
import searches
import tables
from cases import predicted
from script import NEWER, OLDER

TOOLS = os.path.dirname(os.path.abspath(__file__))
ROOT = os.path.dirname(TOOLS)
EXAMPLES = os.path.join(ROOT, "examples")
NAMES = sorted(name for name in os.listdir(EXAMPLES) if os.path.isdir(os.path.join(EXAMPLES, name)))
ANSWER, EXPLAIN, INFER, KINDS = (programs.path_of(program) for program in ("answer", "explain", "infer", "kinds"))
ANSWER_9, EXPLAIN_9, INFER_9, KINDS_9 = (programs.path_of(program) for program in ("answer9", "explain9", "infer9", "kinds9"))
WITHOUT_ROWS = ["tare", "tare-one-past"]  # examples whose rows are found
PATH = os.environ.get("PATH", "")
AS, OBJDUMP = (assembly.BINUTILS + tool for tool in ("as", "objdump"))
CASES = []


def cases(*needs):
    """Notes a function that yields (name, whether it passed, what is shown if not); needs are paths of programs."""
    def noted(function):
        CASES.append((function, needs))
        return function
    return noted


# Files and tools

def of_edition(edition):
    """The examples for a terminal."""
    return [name for name in NAMES if script.edition_of(os.path.join(EXAMPLES, name)) == edition]


def read(*path):
    with open(os.path.join(*path), "rb") as file:
        return file.read()


def write(data, *path):
    with open(os.path.join(*path), "wb") as file:
        file.write(data)


@contextlib.contextmanager
def example(name="name"):
    """A copy of an example's folder."""
    with tempfile.TemporaryDirectory() as scratch:
        yield shutil.copytree(os.path.join(EXAMPLES, name), os.path.join(scratch, "routine"))


@contextlib.contextmanager
def routine():
    """A folder with the texts below and a bundle.bin of before."""
    with example() as folder:
        for name, text in TEXTS.items():
            write(text, folder, name)
        yield folder


@contextlib.contextmanager
def only_tool(tool, text):
    """With no tool of binutils but this one, which is a shell script with this text."""
    with tempfile.TemporaryDirectory() as scratch:
        write(f"#!/bin/sh\n{text}\n".encode(), scratch, tool)
        os.chmod(os.path.join(scratch, tool), 0o755)
        os.environ["PATH"] = scratch
        try:
            yield
        finally:
            os.environ["PATH"] = PATH


@contextlib.contextmanager
def assembler_giving(data):
    """With an assembler that gives this object file whatever it is given."""
    with tempfile.TemporaryDirectory() as scratch:
        write(data, scratch, "object")
        with only_tool(AS, f'exec {shutil.which("cp")} "{scratch}/object" "$4"'):
            yield


@contextlib.contextmanager
def only_program(name, printed):
    """With no program but this one, which prints these bytes and keeps what it is given in the file that is yielded."""
    with tempfile.TemporaryDirectory() as scratch:
        cat, before = shutil.which("cat", path=PATH), programs.FOLDER
        programs.FOLDER = scratch
        try:
            path = programs.path_of(name)
            os.makedirs(os.path.dirname(path))
            write(printed, path + ".prints")
            write(f"#!/bin/sh\n{cat} > '{path}.given'\n{cat} '{path}.prints'\n".encode(), path)
            os.chmod(path, 0o755)
            yield path + ".given"
        finally:
            programs.FOLDER = before


def called(tool, *arguments, **more):
    """A script's status, standard output and standard error."""
    done = subprocess.run([sys.executable, os.path.join(TOOLS, tool), *arguments], capture_output=True, **more)
    return done.returncode, done.stdout.decode("utf-8", "replace"), done.stderr.decode("utf-8", "replace")


def problem_of(*arguments, out=None):
    """What bundle.py says is wrong, called with these arguments; nothing if it does its work. What it prints goes to out."""
    try:
        with contextlib.redirect_stdout(io.StringIO() if out is None else out):
            bundle.main(list(arguments))
    except (script.Problem, OSError) as problem:
        return script.shown(script.reason(problem))
    except Exception as problem:
        return f"a traceback: {problem!r}"
    return ""


def one_line(tool, status, out, said):
    """Whether a script said what is wrong in one line and ended with status 1."""
    return status == 1 and out == "" and said.startswith(tool + ": ") and said.count("\n") == 1


# Object files

def object_file(words, labels=(), more=(), tail=b"", symbols=(), relocated=()):
    """An object file with words in .text and labels (name, word), and with more sections (name, type, flags, data), bytes
    after the words, symbols (name, section) and relocations (offset, symbol: the labels and symbols count from 1)."""
    names, table = b"\0", struct.pack(">IIIBBH", 0, 0, 0, 0, 0, 0)
    for name, value, section in [(name, 4 * word, 1) for name, word in labels] + [(name, 0, at) for name, at in symbols]:
        table += struct.pack(">IIIBBH", len(names), value, 0, 0, 0, section)
        names += name.encode() + b"\0"
    text = b"".join(struct.pack(">I", word) for word in words) + tail
    rela = b"".join(struct.pack(">IIi", offset, symbol << 8, 0) for offset, symbol in relocated)
    sections = [("", 0, 0, b"", 0, 0), (".text", 1, 6, text, 0, 0), (".strtab", 3, 0, names, 0, 0), (".symtab", 2, 0, table, 2, 0),
                (".rela.text", 4, 0, rela, 3, 1)] + [(*section, 0, 0) for section in more]
    titles = "\0".join([""] + [section[0] for section in sections] + [".shstrtab", ""]).encode()
    sections.append((".shstrtab", 3, 0, titles, 0, 0))
    held, heads = b"", b""
    for name, kind, flags, data, link, info in sections:
        at = titles.index(b"\0" + name.encode() + b"\0") + 1 if name else 0
        heads += struct.pack(">10I", at, kind, flags, 0, 52 + len(held), len(data), link, info, 4, 0)
        held += b"" if kind == assembly.EMPTY else data
    head = struct.pack(">16sHHIIIIIHHHHHH", b"\x7fELF\1\2\1", 1, 2, 1, 0, 0, 52 + len(held), 0, 52, 0, 0, 40, len(sections),
                       len(sections) - 1)
    return head + held + heads


def words_of(name):
    return layout.open_bundle(read(EXAMPLES, name, "bundle.bin"))[3]


WORDS = words_of("name")
OBJECT = object_file(WORDS, [("next", 1)])

# The texts of example `name` without its comments, and its rows with words by label
POLICY, ROWS, ROUTINE = "policy.txt", "rows.txt", "routine.s"
TEXTS = {
    POLICY: b"""region haulier 40
  field name    at 0:  30 unsigned bytes, write, 32 to 126
  field account at 32: 1 signed word, read, 0 to 999999
region line 32
  field text at 0: 32 unsigned bytes, read, 32 to 126
""",
    ROUTINE: b"""        clr     %g1
next:   ldub    [%o1 + %g1], %g2
        add     %o0, %g1, %o2
        inc     %g1
        cmp     %g1, 30
        bl      next
        stb     %g2, [%o2]
        retl
        mov     %g1, %o0
""",
    ROWS: b"""entry: r8 = haulier, r9 = line, r15 = return
result: 30
0: as entry
1: as entry, r1 = 0..29
2: as before, r2 = 32..126
3: as before, r10 = haulier+0..29
4: as before, r1 = 1..30
5: as before, note compared r1 30
6: slot
7: r1 = 30, r15 = return
8: slot
""",
}
LABELLED = b"""entry: r8 = haulier, r9 = line, r15 = return
result: 30
0: as entry
next: as entry, r1 = 0..29
+1: as before, r2 = 32..126
+1: as before, r10 = haulier+0..29
next+3: as before, r1 = 1..30
+1: as before, note compared r1 30
+1: slot
+1: r1 = 30, r15 = return
next + 7: slot
"""


# The examples

def made_again(names):
    for name in names:
        with example(name) as folder:
            os.remove(os.path.join(folder, "bundle.bin"))
            status, out, said = called("bundle.py", folder)
            same = status == 0 and read(folder, "bundle.bin") == read(EXAMPLES, name, "bundle.bin")
            yield f"bundle.py makes the bundle of {name}", same and bool(out) == (name in WITHOUT_ROWS), out + said


@cases(AS)
def examples_are_made():
    yield from made_again(name for name in NAMES if name not in WITHOUT_ROWS)


@cases(AS, INFER)
def examples_without_rows_are_made():
    yield from made_again(WITHOUT_ROWS)


@cases()
def examples_without_rows():
    for name in NAMES:
        count = bundle.rows_in(os.path.join(EXAMPLES, name))
        yield f"the rows of {name}", count == (0 if name in WITHOUT_ROWS else len(words_of(name))), str(count)


@cases()
def examples_are_listed():
    for name in NAMES:
        status, out, said = called("bundle.py", "--list", os.path.join(EXAMPLES, name))
        lines = [line for line in out.splitlines() if re.match(r" *\d+  [0-9A-F]{8}  ", line)]
        yield f"bundle.py lists {name}", (status, said, len(lines)) == (0, "", len(words_of(name))), out + said


@cases(EXPLAIN)
def examples_are_explained():
    yield from explained(of_edition(8))


@cases(EXPLAIN_9)
def examples_are_explained_on_the_newer():
    yield from explained(of_edition(9))


def explained(names):
    for name in names:
        answer = read(EXAMPLES, name, "answer.txt").decode()
        status, out, said = called("explain.py", os.path.join(EXAMPLES, name))
        found = "\nwrong: " in out or answer == "0 0 0\n"
        right = out.startswith(f"{answer}{answer.split()[0]}: ")
        yield f"explain.py explains {name}", status == 0 and found and right and not said, out + said


def answer_of(program, name):
    return subprocess.run([program], input=read(EXAMPLES, name, "bundle.bin"), capture_output=True).stdout


@cases(ANSWER)
def examples_are_answered():
    for name in of_edition(8):
        out = answer_of(ANSWER, name)
        yield f"the bundle program answers {name}", out == read(EXAMPLES, name, "answer.txt"), out.decode()
    for name in of_edition(9):
        out = answer_of(ANSWER, name)
        yield f"the older terminal does not read {name}", out == b"2 4 0\n", out.decode()


@cases(ANSWER_9)
def examples_are_answered_on_the_newer():
    for name in NAMES:
        out = answer_of(ANSWER_9, name)
        yield f"the newer terminal's bundle program answers {name}", out == read(EXAMPLES, name, "answer.txt"), out.decode()


@cases(AS, OBJDUMP)
def text_shows_what_is_printed():
    """What examples/README.md shows of the tools."""
    text = read(EXAMPLES, "README.md").decode()
    for command, shown in re.findall(r"^    \$ tools/((?:bundle|explain|kinds)\.py .*)\n((?:    .+\n)+)", text, re.M):
        tool, *options, folder = command.split()
        told, options = script.taken_edition(options)
        edition, name = script.edition_of(os.path.join(ROOT, folder), told), "infer" if tool == "bundle.py" else tool.removesuffix(".py")
        if "--rows" not in options and not programs.is_built(programs.program_of(name, edition)):
            continue
        with tempfile.TemporaryDirectory() as scratch:
            shutil.copytree(os.path.join(ROOT, folder), os.path.join(scratch, folder))
            _, out, _ = called(*command.split(), cwd=scratch)
        lines = [line[4:] for line in shown.splitlines() if line != "    .."]
        yield f"examples/README.md shows {command}", "\n".join(lines) in out, out


# The layout

@cases()
def layout_is_one():
    for what, made, expected in [
            ("an entry", layout.entry_bytes((2, 7, 4, -2, 5)), "02070400 fffffffe 00000005"),
            ("a field", layout.field_bytes((6, 3, 7, 0x102, 0x304, -2, 5)), "06030700 0102 0304 fffffffe 00000005"),
            ("a note", layout.row_bytes(layout.row({}, (2, 31, -2)))[-8:], "021f0000 fffffffe"),
            ("a row", layout.row_bytes(layout.row({1: (1, 0, 1, 2, 3)}))[:36],
             "01000800" + "0" * 16 + "010001000000000200000003" + "0" * 24),
            ("the frame's address", layout.entry_bytes(layout.FRAME_ADDRESS), "05" + "0" * 22),
            ("scratch words", layout.row_bytes(layout.row({31: (1, 0, 1, 2, 3), 33: (2, 7, 4, -2, 5), 38: (4, 0, 0, 0, 0)}, (1, 0, 0)))[372:],
             "010001000000000200000003" "02070400fffffffe00000005" + "0" * 96 + "040000000000000000000000" "0100000000000000"),
            ("a head", layout.bundle_bytes([(0x102, [])], layout.row({}), layout.NOTHING, [], [])[:12],
             "575452 0002 01 0000 0102 00 00"),
            ("a head of version 1", layout.bundle_bytes([], layout.row({}), layout.NOTHING, [], [], 1)[:8], "575452 0001 00 0000")]:
        yield f"the bytes of {what}", made == bytes.fromhex(expected), made.hex()
    for version, size in (1, 392), (2, 464):
        yield f"the size of a row of version {version}", len(layout.row_bytes(layout.row({}), version)) == layout.ROW_SIZES[version] == size, ""
    yield "no scratch word in a row of version 1", refused(layout.row_bytes, layout.row({33: layout.ZERO}), 1), ""
    yield "parts.py makes crates/answer/stdin", parts.return_then_nop() == read(ROOT, "crates", "answer", "stdin"), ""
    for name in NAMES:
        data = read(EXAMPLES, name, "bundle.bin")
        again = layout.bundle_bytes(*layout.open_bundle(data), layout.version_of(data))
        yield f"{name} opened and written again", again == data, ""
        yield f"{name} has its version", layout.version_of(data) == bundle.version_of(os.path.join(EXAMPLES, name)), ""
    old = [name for name in NAMES if layout.version_of(read(EXAMPLES, name, "bundle.bin")) == 1]
    yield "one example is of version 1", old == ["sum"], str(old)
    short = [length for length in range(len(data)) if not refused(layout.open_bundle, data[:length])]
    yield "no bundle cut short is opened", short == [], str(short)
    yield "no bundle too long is opened", refused(layout.open_bundle, data + b"\0"), ""


def refused(call, *arguments):
    try:
        call(*arguments)
    except script.Problem:
        return True
    return False


# What is accepted

def made(files, data=OBJECT):
    """The bundle that is made of the texts with other files among them."""
    with routine() as folder, assembler_giving(data):
        for name, text in files.items():
            write(text, folder, name)
        bundle.main([folder])
        return read(folder, "bundle.bin")


@cases()
def accepted():
    right, mark = read(EXAMPLES, "name", "bundle.bin"), b"\xef\xbb\xbf"
    yield "words by label", made({ROWS: LABELLED}) == right, ""
    for name, text in TEXTS.items():
        yield f"{name} with a byte-order mark", made({name: mark + text}) == right, ""
        yield f"{name} with CR LF", made({name: text.replace(b"\n", b"\r\n")}) == right, ""
        yield f"{name} with UTF-8 in a comment", made({name: text + ("!" if name == ROUTINE else "#").encode() + " für\n".encode()}) == right, ""
    rows = b"entry: r15 = return\nresult: unset\n0: as entry\n+1: slot\n"
    none = made({POLICY: b"# nothing\n", ROWS: rows}, object_file([parts.RETURN, parts.NOP]))
    yield "a policy without regions", layout.open_bundle(none)[0] == [], ""
    inserted = object_file([parts.NOP] + WORDS, [("next", 2)])
    rows = LABELLED.replace(b"0: as entry\n", b"0: as entry\n+1: as entry\n", 1)
    _, _, _, words, made_rows = layout.open_bundle(made({ROWS: rows}, inserted))
    yield "an inserted word renumbers nothing", len(words) == 10 and made_rows[2:] == layout.open_bundle(right)[4][1:], ""


# What is wrong in the files: file, what stands there, what is put in its place (all of it if nothing stood there), and
# what bundle.py says

DIGITS = b"9" * 5000
MISTAKES = [
    (POLICY, b"region line", b"# f\xfcr\nregion line", r"policy.txt, line 4: byte FC \(hexadecimal\) is no UTF-8"),
    (POLICY, b"region line", b"region l\xffne", r"policy.txt, line 4: byte FF "),
    (POLICY, b"region haulier", b"\xef\xbb\xbfregion \xe4", r"policy.txt, line 1: byte E4 "),
    (POLICY, None, b"", r"policy.txt is empty"),
    (POLICY, None, b" \n\t\n", r"policy.txt is empty"),
    (POLICY, None, bytes(2**20 + 1), r"policy.txt is longer than 1048576 bytes"),
    (POLICY, b"write", b"wirte", r"policy.txt, line 2: a permission is one of "),
    (POLICY, b"signed word", b"signed long", r"policy.txt, line 3: an element is one of "),
    (POLICY, b"unsigned bytes", b"addresses of lines", r"policy.txt, line 2: policy.txt has no region named `lines`"),
    (POLICY, b"region haulier 40", b"", r"policy.txt, line 2: expected `region NAME SIZE` first"),
    (POLICY, b"region haulier 40", b"region haulier", r"policy.txt, line 1: expected `region NAME SIZE`"),
    (POLICY, b"region line", b"region haulier", r"policy.txt, line 4: a region cannot be named `haulier`"),
    (POLICY, b"region line", b"region r1", r"policy.txt, line 4: a region cannot be named `r1`"),
    (POLICY, b"haulier 40", b"haulier 65536", r"policy.txt, line 1: a region's size must be a number from 0 to 65535"),
    (POLICY, b"haulier 40", b"haulier " + DIGITS, r"policy.txt, line 1: a region's size must be"),
    (POLICY, b"haulier 40", b"haulier 040", r"policy.txt, line 1: a region's size must be"),
    (POLICY, b"haulier 40", "haulier ٤٠".encode(), r"policy.txt, line 1: a region's size must be"),
    (POLICY, b"at 32", b"at -1", r"policy.txt, line 3: an offset must be a number from 0 to 65535"),
    (POLICY, b"999999", b"2147483648", r"policy.txt, line 3: the highest value must be a number from -2147483648 to 2147483647"),
    (POLICY, b"0 to 999999", b"0 to", r"policy.txt, line 3: expected `field NAME at OFFSET"),
    (POLICY, b"region line", b"".join(b"region r_%d 8\n" % k for k in range(254)) + b"region line",
     r"policy.txt, line 258: a bundle has room for 255 regions"),
    (POLICY, b"region line", b"  field x at 36: 1 signed byte, read\n" * 255 + b"region line",
     r"policy.txt, line 257: a bundle has room for 255 fields of a region"),
    (ROWS, b"6: slot", b"6: slot # \x80", r"rows.txt, line 9: byte 80 "),
    (ROWS, None, b"", r"rows.txt is empty"),
    (ROWS, None, b"# nothing\n", r"rows.txt has no line `entry:`"),
    (ROWS, b"result: 30", b"", r"rows.txt has no line `result:`"),
    (ROWS, b"result: 30", b"entry: r8 = haulier", r"rows.txt, line 2: a second line `entry:`"),
    (ROWS, b"result: 30", b"result 30", r"rows.txt, line 2: expected `entry:`, `result:` or a word and a colon"),
    (ROWS, b"r8 = haulier", b"r8 = hauler", r"rows.txt, line 1: policy.txt has no region named `hauler`"),
    (ROWS, b"r8 = haulier", b"r32 = haulier", r"rows.txt, line 1: a register is r0 to r31"),
    (ROWS, b"r8 = haulier", b"r8 = haulier+x", r"rows.txt, line 1: a set is N, LO..HI"),
    (ROWS, b"r8 = haulier", b"r8 = *", r"rows.txt, line 1: an entry is unset, return"),
    (ROWS, b"r8 = haulier", b"r8 haulier", r"rows.txt, line 1: expected `REGISTER = ENTRY`"),
    (ROWS, b"r8 = haulier", b"[%sp+96] haulier", r"rows.txt, line 1: expected `REGISTER = ENTRY`, `\[%sp\+N\] = ENTRY`"),
    (ROWS, b"r8 = haulier", b"[%sp+96] = haulier", r"rows.txt, line 1: \[%sp\+96\] is given in the entry row: all six scratch words are unset at the start"),
    (ROWS, b"r8 = haulier", b"r8 = haulier, [%sp+96] = unset, [%sp+116] = 0", r"rows.txt, line 1: \[%sp\+116\] is given in the entry row"),
    (ROWS, b"r8 = haulier", b"r8 = frame", r"rows.txt, line 1: `frame`, the address of the frame, stands in r14 \(%sp\) alone"),
    (ROWS, b"result: 30", b"result: frame", r"rows.txt, line 2: `frame`, the address of the frame, stands in r14"),
    (ROWS, b"1: as entry,", b"1: as entry, [%sp+96] = frame,", r"rows.txt, line \d+: `frame`, the address of the frame, stands in r14"),
    (ROWS, b"1: as entry,", b"1: as entry, [%sp+92] = 0,", r"rows.txt, line \d+: a scratch word is one of \[%sp\+96\], .*, \[%sp\+116\]; not `\[%sp\+92\]`"),
    (ROWS, b"1: as entry,", b"1: as entry, [%sp+98] = 0,", r"rows.txt, line \d+: a scratch word is one of "),
    (ROWS, b"1: as entry,", b"1: as entry, [%sp+120] = 0,", r"rows.txt, line \d+: a scratch word is one of "),
    (ROWS, b"1: as entry,", b"1: as entry, [%sp+096] = 0,", r"rows.txt, line \d+: a scratch word is one of "),
    (ROWS, b"1: as entry,", b"1: as entry, [%sp] = 0,", r"rows.txt, line \d+: a scratch word is one of "),
    (ROWS, b"1: as entry,", b"1: as entry, [%o5+96] = 0,", r"rows.txt, line \d+: a scratch word is one of "),
    (ROWS, b"1: as entry,", b"1: as entry, [%sp+" + DIGITS[:400] + b"] = 0,", r"rows.txt, line \d+: a scratch word is one of "),
    (ROWS, b"1: as entry,", b"1: as entry, [%sp+96] = 0, [%sp + 0x60] = 1,", r"rows.txt, line \d+: \[%sp\+96\] is given twice"),
    (ROWS, b"1: as entry,", b"1: as entry, [%sp+96] = hauler,", r"rows.txt, line \d+: policy.txt has no region named `hauler`"),
    (POLICY, b"region line", b"region frame", r"policy.txt, line 4: a region cannot be named `frame`"),
    (ROWS, b"r8 = haulier", b"r8 = haulier, %o0 = 1", r"rows.txt, line 1: r8 is given twice"),
    (ROWS, b"0..29", b"0..2147483648", r"rows.txt, line \d+: the highest member must be a number from"),
    (ROWS, b"0..29", b"-2147483649..29", r"rows.txt, line \d+: the lowest member must be a number from"),
    (ROWS, b"0..29", b"0.." + DIGITS, r"rows.txt, line \d+: the highest member must be a number from"),
    (ROWS, b"0..29", b"0..29 step 256", r"rows.txt, line \d+: a step must be a number from 0 to 255"),
    (ROWS, b"compared r1 30", b"compared r1", r"rows.txt, line \d+: a note is none, set, or compared"),
    (ROWS, b"compared r1 30", b"compared r1 0x100000000", r"rows.txt, line \d+: the number compared with must be"),
    (ROWS, b"compared r1 30", b"compared r1 30, note set", r"rows.txt, line \d+: note is given twice"),
    (ROWS, b"0: as entry", b"0: as before", r"rows.txt, line \d+: `as before` names no row above"),
    (ROWS, b"0: as entry", b"0: as next", r"rows.txt, line \d+: `as next` names no row above"),
    (ROWS, b"0: as entry", b"0: as nowhere", r"rows.txt, line \d+: routine.s has no label `nowhere`; it has next"),
    (ROWS, b"0: as entry", "0: as ²".encode(), r"rows.txt, line \d+: routine.s has no label `²`"),
    (ROWS, b"0: as entry", b"0: as *", r"rows.txt, line \d+: a word is its number, a label, LABEL\+N or \+1; not `\*`"),
    (ROWS, b"0: as entry", b"0: as " + DIGITS, r"rows.txt, line \d+: a word must be a number from 0 to 65535"),
    (ROWS, b"7: r1 = 30", b"7: as before, r1 = 30", r"rows.txt, line \d+: `as before` names the row of word 6, a `slot`"),
    (ROWS, b"7: r1 = 30", b"7: as 6, r1 = 30", r"rows.txt, line \d+: `as 6` names the row of word 6, a `slot`"),
    (ROWS, b"7: r1 = 30", b"7: as next+5, r1 = 30", r"rows.txt, line \d+: `as next\+5` names the row of word 6, a `slot`"),
    (ROWS, b"7: r1 = 30", b"7: r1 = 30, as next", r"rows.txt, line \d+: `as ..` stands first in its row"),
    (ROWS, b"6: slot", b"6: slot, r1 = 30", r"rows.txt, line \d+: `slot` stands alone in its row"),
    (ROWS, b"8: slot", b"9: slot", r"rows.txt, line \d+: there is no word 9: routine.s has words 0 to 8"),
    (ROWS, b"8: slot", b"next: slot", r"rows.txt, line \d+: a second row of word 1 \(next\)"),
    (ROWS, b"8: slot", b"nxt: slot", r"rows.txt, line \d+: routine.s has no label `nxt`; it has next"),
    (ROWS, b"5: as before", b"4: as before", r"rows.txt, line \d+: a second row of word 4"),
    (ROWS, b"0: as entry\n1: as", b"1: as entry\n0: as",
     r"rows.txt, line \d+: the row of word 0 stands below that of word 1 \(next\)"),
    (ROWS, b"8: slot", DIGITS + b": slot", r"rows.txt, line \d+: a word must be a number from 0 to 65535"),
    (ROWS, b"result: 30", b"result:\n  30\n  31", r"rows.txt, lines 2 to 4: an entry is "),
    (ROWS, b"r8 = haulier", b"r8 = \x1b[2Jhaulier", r"rows.txt, line 1: an entry is .*\\x1b\[2J"),
    (ROUTINE, None, b"", r"routine.s is empty"),
    (ROUTINE, b"clr ", b"! \xa7\n clr ", r"routine.s, line \d+: byte A7 "),
]


@cases()
def mistakes_in_files():
    for file, old, new, expected in MISTAKES:
        with routine() as folder, assembler_giving(OBJECT):
            write(TEXTS[file].replace(old, new, 1) if old else new, folder, file)
            said = problem_of(folder)
            yield f"{file}: {expected}", re.match(expected, said) and "bundle.bin" not in os.listdir(folder), said


@cases()
def files_that_are_none():
    for file in (POLICY, ROWS, ROUTINE):
        with routine() as folder, assembler_giving(OBJECT):
            os.remove(os.path.join(folder, file))
            said = problem_of(folder)
            right = said == f"{file}: No such file or directory" and "bundle.bin" not in os.listdir(folder)
            yield f"{file} is missing", right, said
            os.mkdir(os.path.join(folder, file))
            said = problem_of(folder)
            yield f"{file} is a folder", said == f"{file} is no file", said
    with routine() as folder, assembler_giving(OBJECT):
        os.remove(os.path.join(folder, "bundle.bin"))
        os.mkdir(os.path.join(folder, "bundle.bin"))
        said = problem_of(folder)
        yield "bundle.bin is a folder", "bundle.bin: " in said, said


# What is wrong with the assembler

NONE = "what sparc64-linux-gnu-as gives is no object file for SPARC"
DATA = (".data", 1, 3, b"1234")
OBJECTS = [
    ("an empty object file", b"", NONE),
    ("words alone", read(EXAMPLES, "name", "bundle.bin"), NONE),
    ("an object file for another machine", OBJECT[:18] + b"\0\x3e" + OBJECT[20:], NONE),
    ("an object file that is linked", OBJECT[:16] + b"\0\2" + OBJECT[18:], NONE),
    ("no words", object_file([]), "routine.s has no words: its .text is empty"),
    ("too many words", object_file([parts.NOP] * 65536), "routine.s has 65536 words: a bundle has room for 65535"),
    ("no whole words", object_file(WORDS, tail=b"\1\2\3"), "routine.s gives 39 bytes, which are no whole words"),
    (".data", object_file(WORDS, more=[DATA]), "routine.s: 4 bytes in .data: a bundle has room for the words of .text alone"),
    (".rodata", object_file(WORDS, more=[(".rodata", 1, 2, b"1")]), "routine.s: 1 bytes in .rodata: a bundle has room"),
    (".bss", object_file(WORDS, more=[(".bss", assembly.EMPTY, 3, bytes(8))]), "routine.s: 8 bytes in .bss: a bundle has room"),
    ("common storage", object_file(WORDS, symbols=[("pool", assembly.COMMON)]), "routine.s: common storage `pool`"),
    ("a name not defined", object_file(WORDS, symbols=[("there", 0)], relocated=[(20, 1)]),
     "routine.s: word 5 uses `there`, which is not defined"),
    ("a global label", object_file(WORDS, [("next", 1)], relocated=[(20, 1)]),
     "routine.s, line 6: word 5 needs the address of `next` that a linker would give"),
]


@cases()
def mistakes_in_objects():
    for name, data, expected in OBJECTS:
        with routine() as folder, assembler_giving(data):
            said = problem_of(folder)
            yield name, said.startswith(expected) and "bundle.bin" not in os.listdir(folder), said
    cut = [length for length in range(0, len(OBJECT)) if not refused(assembly.words_in, OBJECT[:length], [])]
    yield "no object file cut short is read", cut == [], str(cut)


@cases()
def mistakes_of_assemblers():
    for name, text, expected in [
            ("an assembler that is not here", None, f"{AS} is not here or cannot be run: install GNU binutils for SPARC"),
            ("an assembler that says nothing", "exit 3", f"{AS} ends with status 3 and says nothing"),
            ("an assembler that writes nothing", "exit 0", f"{AS} gives no object file: routine.o: No such file"),
            ("an error with its line", "echo '{standard input}:7: Error: bad word' >&2; exit 1", "routine.s, line 7: bad word"),
            ("a warning", "echo '{standard input}:7: Warning: odd' >&2", "routine.s, line 7: Warning: odd"),
            ("a message that is no UTF-8", r"printf '{standard input}:7: Error: \344\n' >&2; exit 1", "routine.s, line 7: \\xe4")]:
        with routine() as folder, only_tool(AS if text else "other", text or ""):
            said = problem_of(folder)
            yield name, said.startswith(expected) and "bundle.bin" not in os.listdir(folder), said


MISTAKEN = [
    (b" .data\nx: .word 5\n", "routine.s, line 2: 4 bytes in .data"),
    (b' .section ".rodata"\n .byte 5\n', "routine.s, line 2: 1 bytes in .rodata"),
    (b" .section .bss\n .skip 8\n", "routine.s, line 2: 8 bytes in .bss"),
    (b" .common x, 8, 4\n", "routine.s, line 2: common storage `x`"),
    (b" b there\n nop\n", "routine.s, line 2: word 2 uses `there`, which is not defined"),
    (b" .global here\nhere: nop\n b here\n nop\n", "routine.s, line 4: word 3 needs the address of `here` that a linker would give"),
    (b"x: sethi %hi(x), %g1\n", "routine.s: word 2 needs the address of `.text` that a linker would give"),
    (b" unknown %g1\n", "routine.s, line 2: Unknown opcode: `unknown"),
    (b" .byte 1\n", "routine.s gives 9 bytes, which are no whole words"),
    (b' .warning "odd"\n', "routine.s, line 2: Warning: odd"),
]


@cases(AS)
def mistakes_that_the_assembler_finds():
    for text, expected in MISTAKEN:
        with routine() as folder:
            write(b" retl; nop\n" + text, folder, ROUTINE)
            said = problem_of(folder)
            yield f"{ROUTINE}: {expected}", said.startswith(expected), said


@cases(AS)
def labels_of_the_assembler():
    with routine() as folder:
        write(LABELLED, folder, ROWS)
        right = problem_of(folder) == "" and read(folder, "bundle.bin") == read(EXAMPLES, "name", "bundle.bin")
        yield "words by label, assembled", right, ""


# Rows that are found

SOME = re.sub(rb"(?m)^[36]: .*\n", b"", TEXTS[ROWS]).replace(b"4: as before,", b"4: as before, r10 = haulier+0..29,")
START = b"".join(line + b"\n" for line in TEXTS[ROWS].split(b"\n")[:2])
LACKING = "rows.txt has no row for 2 of the 9 words, from word 3 on"


def start_lines(name):
    """Of an example's rows.txt the lines `entry:` and `result:`."""
    lines = bundle.lines_of(os.path.join(EXAMPLES, name, ROWS))
    return "".join(f"{text}\n" for _, _, text in lines if text.startswith(("entry:", "result:"))).encode()


def row_at(data, word):
    """Where the row of a word of a bundle begins and ends."""
    before, rows = layout.row_parts(data)
    return len(before) + sum(map(len, rows[:word])), len(before) + sum(map(len, rows[:word + 1]))


def with_row(data, word, row):
    begin, end = row_at(data, word)
    return data[:begin] + row + data[end:]


def found_by(printed, rows=SOME, name="infer", *options):
    """What bundle.py says is wrong, what it prints, the bundle that it writes and the one that it hands to a program, which
    prints these bytes."""
    out = io.StringIO()
    with routine() as folder, assembler_giving(OBJECT), only_program(name, printed) as given:
        write(rows, folder, ROWS)
        said = problem_of(*options, folder, out=out)
        held = read(folder, "bundle.bin") if "bundle.bin" in os.listdir(folder) else None
        return said, out.getvalue().replace(folder, "FOLDER"), held, read(given) if os.path.exists(given) else None


@cases()
def rows_that_are_missing():
    whole = read(EXAMPLES, "name", "bundle.bin")
    blank = with_row(with_row(whole, 3, bytes(464)), 6, bytes(464))
    for what, line, second in [("accepted", b"0 0 0\n", "0 0 0: accepted\n"),
                               ("refused", b"7 6 10\n", "7 6 10: refused; `tools/explain.py FOLDER` says why\n")]:
        given = found_by(line + whole)
        yield f"rows that are found, and {what}", given == ("", f"{LACKING}: found by crates/infer/out/infer\n{second}", whole, blank), repr(given[:2])
    given = found_by(b"20 0 0\n")
    second = "not looked for, since the bundle does not open\n20 0 0: refused; `tools/explain.py FOLDER` says why\n"
    yield "a bundle that does not open", given == ("", f"{LACKING}: {second}", blank, blank), repr(given[:2])
    said, out, held, given = found_by(b"7 6 10\n" + whole, SOME, "infer9", "--edition", "9")
    right = (said, held, given) == ("", whole, blank) and "found by crates/infer9/out/infer9" in out and "explain.py --edition 9 FOLDER`" in out
    yield "rows that are found for the newer terminal", right, said + out
    said, out, held, given = found_by(b"0 0 0\n" + whole, START)
    right = held == whole and given == layout.without_rows(whole) and "no row for 9 of the 9 words, from word 0 on: found" in out
    yield "no row at all", right, said + out
    given = found_by(b"", TEXTS[ROWS])
    yield "no program is called where all rows are there", given == ("", "", whole, None), repr(given[:2])


@cases()
def mistakes_of_the_program():
    whole = read(EXAMPLES, "name", "bundle.bin")
    begin, _ = row_at(whole, 4)
    for options, name in ((), "infer"), (("--edition", "9"), "infer9"):
        given = found_by(b"", SOME, "other", *options)
        expected = f"{LACKING}, and crates/{name}/out/{name} is not built: `rt run </dev/null` in crates/{name} proves and builds it"
        yield f"{name} is not built", given == (expected, "", None, None), repr(given)
    for what, printed in [
            ("nothing", b""), ("no answer", b"x\n"), ("two numbers", b"0 0\n"), ("an answer that is no ASCII", b"\xff\n"),
            ("a byte less", b"0 0 0\n" + whole[:-1]), ("a byte too much", b"0 0 0\n" + whole + b"\0"),
            ("another version", b"0 0 0\n" + whole[:4] + b"\1" + whole[5:]), ("another mark", b"0 0 0\n" + b"X" + whole[1:]),
            ("another policy", b"0 0 0\n" + whole[:9] + b"\x30" + whole[10:]),
            ("another row in the place of one that is given", b"0 0 0\n" + whole[:begin + 24] + b"\0" + whole[begin + 25:]),
            ("a row that is still to be found", b"0 0 0\n" + with_row(whole, 6, bytes(464)))]:
        said, out, held, _ = found_by(printed)
        right = said.endswith("crates/infer/out/infer does not say what is known here: `rt run </dev/null` in crates/infer builds it anew") and (out, held) == ("", None)
        yield f"a program that prints {what}", right, said + out


@cases()
def rows_to_be_found():
    for version, size in layout.ROW_SIZES.items():
        yield f"the bytes of a row to be found, version {version}", layout.row_bytes(layout.TO_FIND, version) == bytes(size), ""
        data = made_in(version)
        before, rows = layout.row_parts(data)
        right = len(rows) == 9 and {len(row) for row in rows} == {size} and before + b"".join(rows) == data and not any(map(layout.is_to_find, rows))
        yield f"the rows of a bundle of version {version}", right, ""
        right = layout.without_rows(data) == before + bytes(9 * size) and layout.open_bundle(layout.without_rows(data))[4] == [layout.TO_FIND] * 9
        yield f"a bundle of version {version} without rows", right, ""
    for what, words, expected in [("a loop", WORDS, {6, 8}), ("a loop that begins in a slot", LOOP, {7, 10, 12}), ("no transfer", [parts.NOP], set())]:
        yield f"slots that no branch lands on: {what}", assembly.plain_slots(words) == expected, repr(assembly.plain_slots(words))
    yield "slots on each terminal", (assembly.plain_slots(NET), assembly.plain_slots(NET, 9)) == ({11}, {5, 9, 11}), ""
    for what, rows, expected in [("all", TEXTS[ROWS], 9), ("some", SOME, 7), ("none", START, 0), ("no text", b"\xff", None)]:
        with example() as folder:
            write(rows, folder, ROWS)
            yield f"the rows of a rows.txt: {what}", bundle.rows_in(folder) == expected, str(bundle.rows_in(folder))


@cases()
def rows_that_are_printed():
    for name in NAMES:
        edition, data = script.edition_of(os.path.join(EXAMPLES, name)), read(EXAMPLES, name, "bundle.bin")
        text = bundle.rows_text(os.path.join(EXAMPLES, name), edition)
        with example(name) as folder, assembler_giving(object_file(layout.open_bundle(data)[3])):
            write(text.encode(), folder, ROWS)
            said = problem_of(folder)
            right = not said and read(folder, "bundle.bin") == data
        yield f"the rows of {name} printed and read again", right, said + text
    text = bundle.rows_text(os.path.join(EXAMPLES, "name"), 8) + "\n"
    yield "the rows of name as they are printed", text == TEXTS[ROWS].decode().replace("haulier,", "haulier+0,").replace("line,", "line+0,"), text
    lines = bundle.rows_text(os.path.join(EXAMPLES, "heaviest"), 8).splitlines()
    shown = {line.partition(":")[0]: line.partition(": ")[2] for line in lines}
    expected = {"0": "as entry", "7": "slot", "8": "as 6, note none", "11": "r3 = 0..20000, r15 = return"}
    yield "rows as short as they can be", {key: shown[key] for key in expected} == expected, "\n".join(lines)


@cases()
def rows_that_are_printed_of_any_bundle():
    held = [one for one in mutants.records(read(ROOT, "crates", "corpus", "stdin")) if one.answer.split()[0] in ("0", "12", "14", "7")]
    names = [f"region{k}" for k in range(8)]
    lost = []
    for at, one in enumerate(held):
        _, *given = layout.open_bundle(one.bundle)
        lines = bundle.rows_lines(*given, names, one.edition)
        lost += [] if bundle.reads_as(lines, names, one.bundle, one.edition) else [at]
    yield f"the rows of {len(held)} bundles of crates/corpus printed and read again", held and lost == [], str(lost)
    with example() as folder:
        whole = read(folder, "bundle.bin")
        write(with_row(with_row(whole, 3, bytes(464)), 6, bytes(464)), folder, "bundle.bin")
        lines = bundle.rows_text(folder, 8).splitlines()
        right = [line.partition(":")[0] for line in lines[2:]] == ["0", "1", "2", "4", "5", "7", "8"] and lines[5].startswith("4: as before, r1 = ")
        yield "rows to be found are not printed", right, "\n".join(lines)
        lines = bundle.listing(folder, 8).splitlines()
        yield "rows to be found are listed as such", [k for k, line in enumerate(lines[-9:]) if line.endswith("  to be found")] == [3, 6], "\n".join(lines)
        for what, data in [("an entry of kind 9", with_row(whole, 3, b"\1\0\x08" + bytes(9) + b"\x09" + bytes(451))), ("a note of kind 9", whole[:-8] + b"\x09" + whole[-7:]),
                           ("a byte that is not 0", whole[:-5] + b"\1" + whole[-4:])]:
            write(data, folder, "bundle.bin")
            said = problem_of("--rows", folder)
            yield f"bundle.py --rows with {what}", said.startswith("bundle.bin has a row that is badly formed"), said
        write(whole[:-1], folder, "bundle.bin")
        yield "bundle.py --rows with no bundle", problem_of("--rows", folder).startswith("bundle.bin is not a bundle"), ""
        write(whole, folder, "bundle.bin")
        write(read(EXAMPLES, "sum", POLICY), folder, POLICY)
        text = bundle.rows_text(folder, 8)
        yield "bundle.py --rows with another policy.txt", text.startswith("# (policy.txt is not the policy") and "r8 = region0+0" in text, text


def found_again(names, rows_of):
    """The examples with such lines of their rows.txt: the rows are found, and the answer is theirs."""
    for name in names:
        answer = read(EXAMPLES, name, "answer.txt").decode().strip()
        with example(name) as folder, assembler_giving(object_file(words_of(name))):
            write(rows_of(name), folder, ROWS)
            status, out, said = called("bundle.py", folder)
            lines, held = out.splitlines(), read(folder, "bundle.bin") if status == 0 else b""
            right = (status, said, len(lines)) == (0, "", 2) and lines[1].startswith(f"{answer}: {'accepted' if answer == '0 0 0' else 'refused'}")
            yield f"the rows of {name} are found", right, out + said
            text = called("bundle.py", "--rows", folder)[1]
            write(text.encode(), folder, ROWS)
            given = called("bundle.py", folder)
            yield f"the rows found for {name} read again", held and given == (0, "", "") and read(folder, "bundle.bin") == held, text


def first_rows(name):
    """Of an example's rows.txt the lines up to that of word 1, which name no label."""
    lines = bundle.lines_of(os.path.join(EXAMPLES, name, ROWS))
    return "".join(f"{text}\n" for _, _, text in lines[:4]).encode()


@cases(INFER)
def rows_of_examples_are_found():
    yield from found_again(of_edition(8), start_lines)


@cases(INFER_9)
def rows_of_examples_are_found_on_the_newer():
    yield from found_again(of_edition(9), start_lines)


@cases(INFER)
def rows_that_are_kept():
    yield from found_again(["name", "charge", "heaviest"], first_rows)
    with routine() as folder, assembler_giving(OBJECT):
        write(START + b"1: as entry, r1 = 0..30\n", folder, ROWS)
        status, out, said = called("bundle.py", folder)
        yield "a row that is kept is checked", status == 0 and "\n7 " in out and out.count("refused") == 1, out + said
        shown = called("bundle.py", "--rows", folder)[1]
        yield "a row that is kept stays as it is", "\n1: as entry, r1 = 0..30\n" in shown, shown
        for what, row in [("registers", b"7: as entry, r1 = 30, r2 = 32..126\n"), ("codes", b"7: r1 = 30, r15 = return, note compared r1 30\n")]:
            write(START + row, folder, ROWS)
            status, out, said = called("bundle.py", folder)
            yield f"a row that is kept with {what} that no later word needs", status == 0 and out.endswith("\n0 0 0: accepted\n"), out + said


@cases(INFER, ANSWER)
def rows_found_are_answered_alike():
    for name in of_edition(8):
        data = layout.without_rows(read(EXAMPLES, name, "bundle.bin"))
        line, _, filled = programs.run("infer", data).partition(b"\n")
        given = subprocess.run([ANSWER], input=filled, capture_output=True).stdout.strip()
        yield f"the bundle program answers the rows found for {name}", given == line, f"{given} {line}"


@cases(INFER)
def bundles_without_rows_to_find():
    whole = read(EXAMPLES, "name", "bundle.bin")
    for what, data, expected in [
            ("no bytes", b"", b"23 0 0\n"), ("a byte less", whole[:-1], b"23 0 0\n"), ("another mark", b"X" + whole[1:], b"23 0 0\n"),
            ("a region of 41 bytes", whole[:9] + b"\x29" + whole[10:], b"19 0 0\n"), ("all rows", whole, b"0 0 0\n" + whole),
            ("all rows, refused", read(EXAMPLES, "name-one-past", "bundle.bin"), b"7 6 10\n" + read(EXAMPLES, "name-one-past", "bundle.bin")),
            ("all rows of version 1", made_in(1), b"0 0 0\n" + made_in(1))]:
        given = programs.run("infer", data)
        yield f"infer with {what}", given == expected, repr(given[:20])
    for version in layout.ROW_SIZES:
        data = layout.without_rows(made_in(version))
        line, _, filled = programs.run("infer", data).partition(b"\n")
        yield f"infer with no rows of version {version}", line == b"0 0 0" and bundle.is_filled(filled, data), repr(line)


@cases()
def rows_found_are_explained():
    data = read(EXAMPLES, "name-one-past", "bundle.bin")
    names, _ = bundle.names_of(os.path.join(EXAMPLES, "name-one-past"), explain.policy_of(data))
    said = explain.said_of(["7 6 10", f"word 6 {WORDS[6]}", "row 5"], OLDER)
    lines = explain.row_lines(data, names, said, 0)
    right = len(lines) == 2 and lines[0].startswith("row 5, all of it: r1 = 1..31, r2 = ") and lines[1].startswith("(rows.txt has 0 of the 9 rows, the others were found")
    yield "the row is shown where rows.txt has none", right, "\n".join(lines)
    yield "no row is shown where rows.txt has all", explain.row_lines(data, names, said, 9) == explain.row_lines(data, names, said, None) == [], ""
    yield "no row is shown where the answer is about none", explain.row_lines(data, names, explain.said_of(["3 6 0"], OLDER), 0) == [], ""


@cases(EXPLAIN)
def rows_found_are_explained_by_the_program():
    with example("name-one-past") as folder:
        before = called("explain.py", folder)[1]
        write(START, folder, ROWS)
        status, out, said = called("explain.py", folder)
        right = status == 0 and out.startswith(before) and "\nrow 5, all of it: r1 = 1..31, " in out and not said
        yield "explain.py with a rows.txt without rows", right and ", note compared r1 31\n(rows.txt has 0 of the 9 rows" in out, out + said
        os.remove(os.path.join(folder, ROWS))
        yield "explain.py without rows.txt", called("explain.py", folder) == (0, before, ""), ""


# Routines without rows

@cases()
def routines_without_rows():
    text = routines.read_source()
    listed, held = routines.routines_in(text), mutants.records(read(ROOT, "crates", "routines", "stdin"))
    names = [name for name, _, _ in listed]
    yield "each routine has a name of its own", len(set(names)) == len(names) == 54, str(names)
    yield "each routine has an answer", all(re.fullmatch(r"\d+ \d+ \d+", answer) for _, answer, _ in listed), ""
    expected = [(8, answer) for _, answer, _ in listed] + [(one.edition, one.answer) for one in corpus.examples()]
    yield "crates/routines has the routines and the examples", [(one.edition, one.answer) for one in held] == expected, str(len(held))
    yield "their rows are to be found", all(layout.without_rows(one.bundle) == one.bundle for one in held), ""
    yield "the examples are those of now", held[54:] == routines.examples(), ""
    yield "crates/routines/stdout", read(ROOT, "crates", "routines", "stdout") == f"{len(held)} bundles, 0 wrong\n".encode(), ""
    yield "a routine without what is handed over", refused(routines.bundle_of, "x", "region a 8\nresult: 0\n retl\n nop\n"), ""


@cases(AS)
def routines_are_assembled():
    text = routines.read_source()
    held = b"".join(map(corpus.record, routines.records(text)))
    yield "crates/routines has what routines.py makes", held == read(ROOT, "crates", "routines", "stdin"), ""
    with tempfile.TemporaryDirectory() as folder:
        path = os.path.join(folder, "finder.py")
        write(b"class Found: answer = 12, 3, 1\ndef open_bundle(data): return data[3:5], 1, 2, 3, 4\n"
              b"def infer(version, words, entry, result):\n    assert (version, words, entry, result) == (b'\\0\\1', 1, 3, 4)\n    return Found\n", path)
        given = routines.routines_in(routines.answered(text, routines.loaded(path)))
    right = [(name, held) for name, _, held in given] == [(name, held) for name, _, held in routines.routines_in(text)]
    yield "answers taken from another finder of rows", right and {answer for _, answer, _ in given} == {"12 3 1"}, ""
    for what, held, expected in [("no such instruction", " unknown\n", "routines.txt: x: routine.s, line 1: Unknown opcode"),
                                 ("no words", "", "routines.txt: x: routine.s is empty")]:
        try:
            said = str(routines.bundle_of("x", f"entry: r15 = return\nresult: 0\n{held}"))
        except script.Problem as problem:
            said = str(problem)
        yield f"a routine with {what}", said.startswith(expected), said


def answered_as_expected(edition):
    program = programs.program_of("infer", edition)
    for at, one in enumerate(mutants.records(read(ROOT, "crates", "routines", "stdin"))):
        if one.edition == edition:
            line, _, filled = programs.run(program, one.bundle).partition(b"\n")
            right = line.decode() == one.answer and bundle.is_filled(filled, one.bundle)
            yield f"{program} with record {at} of crates/routines", right, f"{line} {one.answer}"


@cases(INFER)
def rows_of_routines_are_found():
    yield from answered_as_expected(OLDER)


@cases(INFER_9)
def rows_of_routines_are_found_on_the_newer():
    yield from answered_as_expected(NEWER)


# How many rows are found again

@contextlib.contextmanager
def program_doing(function):
    """With a function of a program's name and a bundle in the place of programs."""
    before, programs.run = programs.run, function
    try:
        yield
    finally:
        programs.run = before


def measured(records, every=1):
    """What found.py prints of records."""
    out = io.StringIO()
    with contextlib.redirect_stdout(out), contextlib.redirect_stderr(io.StringIO()):
        found.measure([("some", records)], every)
    return out.getvalue()


@cases()
def words_that_are_reached():
    number = layout.number
    for condition, entry, expected in [
            (1, number(0, 9), True), (1, number(6, 9), False), (1, number(0, 8, 4), False), (9, number(5, 5), False), (9, number(4, 4), True), (9, number(0, 9), True),
            (3, number(5, 9), False), (3, number(4, 9), True), (2, number(6, 9), False), (2, number(5, 9), True), (10, number(0, 5), False), (10, number(0, 6), True),
            (11, number(0, 4), False), (11, number(0, 5), True), (4, number(6, 9), True), (0, number(0, 9), False), (8, number(0, 9), True), (1, layout.NOTHING, True)]:
        given = found.holds_for_some(condition, layout.row({1: entry}, (layout.NOTE_COMPARED, 1, 5)))
        yield f"whether condition {condition} may hold of {entry}", given == expected, ""
    yield "whether a condition may hold of codes that are set", found.holds_for_some(1, layout.row({1: layout.ZERO}, (layout.NOTE_SET, 0, 0))), ""
    never = layout.row({1: number(6, 9)}, (layout.NOTE_COMPARED, 1, 5))
    for what, words, row, expected in [
            ("a loop", WORDS, None, set(range(9))), ("a loop that begins in a slot", LOOP, None, set(range(13))),
            ("a word that is passed over", [AWAY, parts.NOP, parts.NOP, parts.RETURN, parts.NOP], None, {0, 1, 3, 4}),
            ("a word after the return", [parts.RETURN, parts.NOP, parts.NOP, parts.NOP], None, {0, 1}),
            ("a branch that is never taken", [0x02800004, parts.NOP, parts.RETURN, parts.NOP, parts.NOP, parts.RETURN, parts.NOP], never, {0, 1, 2, 3})]:
        data = layout.bundle_bytes([], layout.row({}), layout.NOTHING, words, [row or layout.row({}, (layout.NOTE_SET, 0, 0))] * len(words))
        yield f"words that are reached: {what}", found.reached(data, OLDER) == expected, repr(found.reached(data, OLDER))


@cases()
def rows_found_again_are_counted():
    whole, other = read(EXAMPLES, "name", "bundle.bin"), read(EXAMPLES, "linked", "bundle.bin")
    records = [mutants.Record(8, whole, "0 0 0"), mutants.Record(8, b"", "23 0 0"), mutants.Record(8, other, "0 0 0"), mutants.Record(9, whole, "0 0 0")]

    def giving(line, filled=None):
        """A program that answers a bundle without rows so, and that does not accept the one of `linked`."""
        def run(name, data):
            if data == other:
                return b"25 0 16\n" + data
            return b"0 0 0\n" + data if data == whole else line + (whole if filled is None else filled)
        return run

    for what, line, filled, expected in [
            ("found", b"0 0 0\n", None, "some: 2 of 2 found again (100.00 %); 1 not accepted any more\nin all: 2 of 2 found again (100.00 %)\nslowest: "),
            ("missed", b"7 6 10\n", None, "in all: 0 of 2 found again (0.00 %)\n  missed, 7 at a word that is reached: 2\n  some, bundle 1: 7 6 10\n  some, bundle 4: 7 6 10\n"),
            ("not filled in", b"0 0 0\n", layout.without_rows(whole), "  missed, no answer: 2\n  some, bundle 1: no answer\n")]:
        with program_doing(giving(line, filled)):
            given = measured(records)
        yield f"rows that are {what}", expected in given, given
    with program_doing(giving(b"0 0 0\n")):
        given = measured(records, 3)
    yield "one of three", given.startswith("some: 1 of 1 found again"), given
    words = [AWAY, parts.NOP, parts.NOP, parts.RETURN, parts.NOP]
    passed = mutants.Record(8, layout.bundle_bytes([], layout.row({}), layout.NOTHING, words, [layout.row({})] * 5), "0 0 0")
    for answer, expected in [("4 2 1", "4 at a word that nothing reaches"), ("4 1 1", "4 at a word that is reached"), (None, "no answer")]:
        given = found.miss_text(found.Outcome(1, passed, "0 0 0", answer, 0))
        yield f"a miss with {answer}", given == expected, given
    yield "no records", measured([]) == "some: 0 of 0 found again; 0 not accepted any more\nin all: 0 of 0 found again\n", ""
    for arguments, expected in [(["--every", "3", "a"], (3, ["a"])), (["a"], (1, ["a"]))]:
        yield f"the number in {arguments}", found.taken_every(arguments) == expected, ""
    for arguments in ["--every"], ["--every", "0"], ["--every", "x", "a"]:
        yield f"no number in {arguments}", refused(found.taken_every, arguments), ""


@cases(INFER)
def rows_are_found_again():
    with tempfile.TemporaryDirectory() as folder:
        shown = [one for one in corpus.examples() if one.edition == OLDER]
        held = b"".join(struct.pack(">I", len(one.bundle)) + one.bundle for one in shown)
        write(held, folder, "some.bin")
        write(lzma.compress(held), folder, "some.bin.xz")
        write("".join(f"{one.answer}\n" for one in shown).encode(), folder, "some.txt")
        count = sum(one.answer == "0 0 0" for one in shown)
        for name in "some.bin", "some.bin.xz":
            status, out, said = called("found.py", "8", os.path.join(folder, name), os.path.join(folder, "some.txt"))
            yield f"found.py with {name}", (status, said) == (0, "") and out.startswith(f"some: {count} of {count} found again (100.00 %)"), out + said


# Listings of kinds

ENTRY = TEXTS[ROWS].split(b"\n")[0] + b"\n"
# What kinds.py says of the words of example `name`, whose label it has from routine.s
HELD = ["%o0 address  %o1 address  %o7 return",
        "%g1 number  %o0 address  %o1 address  %o7 return",
        "%g1 number  %g2 number  %o0 address  %o1 address  %o7 return"] + 6 * [
        "%g1 number  %g2 number  %o0 address  %o1 address  %o2 address  %o7 return"]
HELD[6], HELD[8] = HELD[6] + "  (slot)", HELD[8] + "  (slot)"
LISTED = [f"{k:3}  {'next: ' if k == 1 else '      '}{word:08X}  {held}" for k, (word, held) in enumerate(zip(WORDS, HELD))]
AWAY = 0x30800003  # ba,a to the third word from here


def noisy(data):
    """A bundle whose rows and result entry are badly formed."""
    count = len(layout.open_bundle(data)[3])
    rows = len(data) - layout.ROW_SIZES[layout.version_of(data)] * count
    code = rows - layout.WORD.size * count
    return data[:code - layout.ENTRY.size] + b"\xff" * layout.ENTRY.size + data[code:rows] + b"\xff" * (len(data) - rows)


def kinds_of(files, data=OBJECT, *options):
    """What kinds.py does with the texts and other files among them, with no disassembler: its status, output and errors."""
    with routine() as folder, assembler_giving(data):
        before = read(folder, "bundle.bin")
        for name, text in files.items():
            os.remove(os.path.join(folder, name)) if text is None else write(text, folder, name)
        status, out, said = called("kinds.py", *options, folder)
        return (status, out, said) if read(folder, "bundle.bin") == before else (None, "bundle.bin is changed", said)


@cases(KINDS)
def kinds_of_examples():
    yield "crates/kinds/stdin is an example", read(ROOT, "crates", "kinds", "stdin") == read(EXAMPLES, "name", "bundle.bin"), ""
    for name in of_edition(8):
        data, answer = read(EXAMPLES, name, "bundle.bin"), read(EXAMPLES, name, "answer.txt").decode()
        with example(name) as folder:
            path = os.path.join(folder, "bundle.bin")
            status, out, said = called("kinds.py", path)
            if answer.startswith("25 "):
                yield f"kinds.py refuses {name}", (status, said) == (0, "") and out.startswith(answer), out + said
            else:
                lines = [line for line in out.splitlines() if re.match(r" *\d+  [0-9A-F]{8}  ", line)]
                yield f"kinds.py lists {name}", (status, said, len(lines)) == (0, "", len(words_of(name))), out + said
            write(noisy(data), folder, "bundle.bin")
            yield f"kinds.py looks at no row of {name}", called("kinds.py", path) == (status, out, said), ""


@cases(KINDS)
def kinds_before_rows():
    for what, rows in [("its rows", TEXTS[ROWS]), ("no rows", ENTRY), ("rows that are wrong", b"3: nothing\n" + ENTRY + b"next 4\nresult: x\n")]:
        status, out, said = kinds_of({ROWS: rows})
        yield f"kinds.py with {what}", (status, out.splitlines(), said) == (0, LISTED, ""), out + said
    status, out, said = kinds_of({ROWS: ENTRY}, OBJECT, "--table")
    right = status == 0 and out.splitlines()[4] == "  3        82006001  nnn----- aaa----r -------- --------" and ". not reached, n number" in out
    yield "kinds.py --table", right and out.count("\n") == 10, out + said
    rows = b"entry: r3 = line or null\n"
    status, out, said = kinds_of({ROWS: rows}, object_file([AWAY, parts.NOP, parts.NOP, parts.RETURN, parts.NOP]))
    held = [line[15:] for line in out.splitlines()]
    null = "%g3 address or null"
    yield "kinds.py with a word that is not reached", held == [null, f"{null}  (slot)", "not reached", null, f"{null}  (slot)"], out + said
    status, out, said = kinds_of({ROWS: b"entry:\n"}, object_file([parts.RETURN, parts.NOP]))
    yield "kinds.py with nothing handed over", [line[15:] for line in out.splitlines()] == ["all unset", "all unset  (slot)"], out + said


@cases()
def mistakes_before_rows():
    for what, files, data, expected in [
            ("no rows.txt", {ROWS: None}, OBJECT, "rows.txt is not here: a listing needs its line `entry:`"),
            ("no entry row", {ROWS: b"0: slot\n"}, OBJECT, "rows.txt has no line `entry:`"),
            ("two entry rows", {ROWS: ENTRY + ENTRY}, OBJECT, "rows.txt, line 2: a second line `entry:`"),
            ("an entry row that names no region", {ROWS: b"\nentry: r8 = x\n"}, OBJECT, "rows.txt, line 2: policy.txt has no region named `x`"),
            ("no policy.txt", {POLICY: None}, OBJECT, "policy.txt: No such file or directory"),
            ("a policy.txt that is wrong", {POLICY: b"region x\n"}, OBJECT, "policy.txt, line 1: expected `region NAME SIZE`"),
            ("no routine.s", {ROUTINE: None}, OBJECT, "routine.s: No such file or directory"),
            ("no words", {}, object_file([]), "routine.s has no words: its .text is empty"),
            ("129 words", {ROWS: ENTRY}, object_file([parts.NOP] * 129), "routine.s has 129 words, and a routine has at most 128")]:
        status, out, said = kinds_of(files, data)
        yield f"kinds.py with {what}", one_line("kinds.py", status, out, said) and said.startswith(f"kinds.py: {expected}"), out + said
    good = [f"{k} {word:08x} " + " ".join(["n" * 8] * 4) for k, word in enumerate(WORDS)]
    yield "a listing that is known", kinds.marks_of(good, WORDS) == ["n" * 32] * len(WORDS), ""
    for what, lines in [("no lines", []), ("a line less", good[:-1]), ("another word", good[:-1] + [good[-1].replace("90", "91", 1)]),
                        ("a letter less", good[:-1] + [good[-1][:-1]]), ("an unknown letter", good[:-1] + [good[-1][:-1] + "x"])]:
        yield f"a listing with {what}", refused(kinds.marks_of, lines, WORDS), ""


@cases(KINDS, EXPLAIN)
def refusals_before_rows():
    whole = read(EXAMPLES, "name", "bundle.bin")
    less = struct.pack(">I", WORDS[5])
    entry = len(whole) - (layout.ROW_SIZE + layout.WORD.size) * len(WORDS) - layout.ENTRY.size - layout.ROW_SIZE
    call, privileged, far = (whole.replace(less, struct.pack(">I", word), 1) for word in (0x40000000, 0xC4820141, 0x06800040))
    for what, data, answer, expected in [
            ("a call", call, "2 5 0", "wrong: this is no instruction of the subset"),
            ("lda", privileged, "24 5 0", "wrong: this is lda, which only the supervisor may run"),
            ("a branch out of the code", far, "3 5 0", "wrong: its target is word 69, and the code has words 0 to 8"),
            ("an element 9", whole[:16] + b"\x09" + whole[17:], "20 0 0", "the element is none of 1 to 7"),
            ("a region of 41 bytes", whole[:9] + b"\x29" + whole[10:], "19 0 0", "wrong: region 0, at byte 8 of the bundle: size 41"),
            ("r0 that is an address", whole[:entry] + b"\2" + whole[entry + 1:], "21 0 0", f"wrong: the entry at byte {entry} of the bundle"),
            ("a byte less", whole[:-1], "23 0 0", f"wrong: it has {len(whole) - 1} bytes, and its counts give {len(whole)}"),
            ("no bytes", b"", "23 0 0", "wrong: it has 0 bytes")]:
        with example() as folder:
            write(noisy(data) if len(data) == len(whole) else data, folder, "bundle.bin")
            status, out, said = called("kinds.py", os.path.join(folder, "bundle.bin"))
        yield f"kinds.py with {what}", status == 0 and out.startswith(answer + "\n") and expected in out and not said, out + said
    status, out, said = kinds_of({POLICY: TEXTS[POLICY].replace(b"at 0:  30", b"at 0:  41"), ROWS: ENTRY})
    yield "kinds.py with a field past its region", status == 0 and out.startswith("20 0 0\n") and "it does not end inside its region" in out, out + said


# Slots that branches land on

LOOP = words_of("heaviest")
BRANCH, NEVER = 0x10800003, 0x00800003  # ba and bn to the third word from here


def changed(entries, name="heaviest"):
    """The bundle of an example with other entries in its rows, by word and register."""
    policy, entry, result, words, rows = layout.open_bundle(read(EXAMPLES, name, "bundle.bin"))
    for (word, register), other in entries.items():
        rows[word][0][register] = other
    return layout.bundle_bytes(policy, entry, result, words, rows)


@cases()
def slots_that_are_targets():
    for what, words, expected in [
            ("a loop that begins in a slot", LOOP, {4: [9]}), ("a loop that does not", WORDS, {}),
            ("a slot after a return", [BRANCH, parts.NOP, parts.RETURN, parts.NOP], {3: [0]}),
            ("a target that is no slot", [BRANCH, parts.NOP, parts.NOP, parts.NOP], {}),
            ("bn", [NEVER, parts.NOP, parts.RETURN, parts.NOP], {}),
            ("a branch to its own slot", [0x30800001, parts.NOP], {1: [0]}),
            ("a return in a slot", [BRANCH, parts.NOP, parts.RETURN, parts.RETURN, parts.NOP], {}),
            ("a target outside", [BRANCH, parts.NOP, parts.RETURN], {})]:
        yield f"slots that branches land on: {what}", assembly.landings(words) == expected, repr(assembly.landings(words))
    for branches, expected in [([9], "word 9 branches"), ([3, 9], "words 3 and 9 branch"), ([3, 5, 9], "words 3, 5 and 9 branch")]:
        yield f"the text of {branches}", assembly.branches_text(branches) == expected, assembly.branches_text(branches)
    rows = read(EXAMPLES, "heaviest", ROWS)
    for what, text, expected in [
            ("its row", rows, ""), ("an empty row", re.sub(rb"(?m)^4: .*$", b"4:", rows).replace(b"5: as before, ", b"5: "), ""),
            ("`slot`", re.sub(rb"(?m)^4: .*$", b"4: slot", rows),
             "rows.txt, line 8: word 4 (next) is the slot of word 3, but word 9 branches to it: it needs a row")]:
        with routine() as folder, assembler_giving(object_file(LOOP, [("next", 4)])):
            write(read(EXAMPLES, "heaviest", POLICY), folder, POLICY)
            write(text, folder, ROWS)
            said = problem_of(folder)
        yield f"a slot that a branch lands on with {what}", said.startswith(expected) and bool(said) == bool(expected), said


@cases(EXPLAIN)
def refusals_of_slots():
    number = layout.NUMBER, 0
    policy, entry, result, _, _ = layout.open_bundle(read(EXAMPLES, "heaviest", "bundle.bin"))
    last = layout.bundle_bytes(policy, entry, result, [BRANCH, parts.NOP, parts.RETURN, parts.NOP], [entry] * 4)
    both = "(slot of word 3; word 9 branches to it)"
    for what, data, answer, expected in [
            ("its own row", read(EXAMPLES, "heaviest-one-past", "bundle.bin"), "7 4 8",
             [both, "with row 4, its own, as a word that is branched to:", "wrong: byte 40 is not in field 0"]),
            ("what its branch hands on", changed({(3, 1): (*number, 4, 0, 40)}), "7 4 8",
             ["(slot of word 3)\n", "with row 3 as word 3 hands it on (taken, to word 11):", "wrong: byte 40 is not in field 0"]),
            ("an unset register of its own row", changed({(4, 1): layout.NOTHING}), "4 4 1",
             [both, "with row 4, its own, as a word that is branched to:", "wrong: r1 is unset"]),
            ("the row after it", changed({(5, 1): (*number, 4, 0, 32)}), "12 4 1",
             [both, "way: to word 5, from its own row\n", "after word 4: r1 = 4..36 step 4", "wrong: 36 is not in 0..32 step 4"]),
            ("what a branch brings", changed({(4, 1): (*number, 8, 0, 0)}), "12 9 1",
             ["way: taken, to word 4; the slot runs\n", "word 4 is the slot of word 3: row 4 is for the branches to it; as a slot it runs with row 3\n",
              "wrong: 4 is not 0"]),
            ("no word after it", last, "3 3 0",
             ["(slot of word 2; word 0 branches to it)", "wrong: no word follows: as a slot it needs none, but word 0 branches to it"])]:
        with example() as folder:
            path = os.path.join(folder, "other.bin")
            write(data, path)
            status, out, said = called("explain.py", path)
        right = status == 0 and out.startswith(answer + "\n") and all(text in out for text in expected) and not said
        yield f"explain.py with a slot refused by {what}", right, out + said


@cases(KINDS)
def kinds_of_slots():
    status, out, said = called("kinds.py", os.path.join(EXAMPLES, "heaviest", "bundle.bin"))
    slots = {k: line.partition("  (")[2] for k, line in enumerate(out.splitlines()) if "  (" in line}
    expected = {4: "slot; word 9 branches to it)", 7: "slot)", 10: "slot)", 12: "slot)"}
    yield "kinds.py says which slot a branch lands on", (status, slots, said) == (0, expected, ""), out + said


# The newer terminal

NET = words_of("net")
PREDICTED, UNREAD = 0x10480003, 0x10680003  # ba,pt to the third word from here, on %icc and on %xcc


def with_word(word, name="net"):
    """The bundle of an example with another word 8."""
    policy, entry, result, words, rows = layout.open_bundle(read(EXAMPLES, name, "bundle.bin"))
    return layout.bundle_bytes(policy, entry, result, words[:8] + [word] + words[9:], rows)


@cases()
def editions_that_are_told():
    for arguments, expected in [(["a"], (None, ["a"])), (["--edition", "9", "a"], (9, ["a"])), (["a", "--edition", "8"], (8, ["a"]))]:
        yield f"the edition in {arguments}", script.taken_edition(arguments) == expected, ""
    for arguments in [["--edition"], ["--edition", "7"], ["a", "--edition", "v9"]]:
        yield f"no edition in {arguments}", refused(script.taken_edition, arguments), ""
    with example() as folder:
        yield "a folder without a file edition", script.edition_of(folder) == 8, ""
        for text, told, expected in [(b"9\n", None, 9), (b"8\r\n", None, 8), (b"9\n", 8, 8), (b"v9\n", 9, 9)]:
            write(text, folder, "edition")
            yield f"a file edition with {text}, told {told}", script.edition_of(folder, told) == expected, ""
        for text in (b"", b"v9\n", b"9 9\n", b"7\n"):
            write(text, folder, "edition")
            said = problem_of(folder)
            yield f"a file edition with {text}", "edition is" in said and "8, the older terminal, or 9" in said or said == "edition is empty", said
    for name in of_edition(9):
        yield f"{name} has its edition", read(EXAMPLES, name, "edition") == b"9\n", ""
    for program, name in (("answer9", "net"), ("kinds9", "net"), ("explain9", "net-unsigned")):
        yield f"crates/{program}/stdin is an example", read(ROOT, "crates", program, "stdin") == read(EXAMPLES, name, "bundle.bin"), ""


@cases()
def predicted_branches():
    for what, word, older, newer in [
            ("bl,a,pn %icc", NET[4], None, 6), ("bne,pt %icc", NET[8], None, -3), ("the same on %xcc", words_of("net-xcc")[8], None, None),
            ("the longest way back", 0x12440000, None, 4 - 2**18), ("the longest way on", 0x1243FFFF, None, 4 + 2**18 - 1),
            ("bne", 0x12BFFFFD, 1, 1), ("brz,pt", 0x02F87FFD, None, None), ("sethi", parts.NOP, None, None)]:
        given = assembly.target_of(4, word), assembly.target_of(4, word, 9)
        yield f"the target of {what}", given == (older, newer), repr(given)
    for what, words, older, newer in [
            ("a predicted branch to a slot", [PREDICTED, parts.NOP, parts.RETURN, parts.NOP], {}, {3: [0]}),
            ("the slot of a predicted branch", [BRANCH, parts.NOP, PREDICTED, parts.NOP, parts.NOP, parts.NOP], {}, {3: [0]}),
            ("a branch on %xcc", [UNREAD, parts.NOP, parts.RETURN, parts.NOP], {}, {})]:
        given = assembly.landings(words), assembly.landings(words, 9)
        yield f"slots that branches land on: {what}", given == (older, newer), repr(given)
    data = object_file(NET, [("next", 1), ("keep", 6)])
    for what, machine in (("V8", 2), ("V9 with 32-bit addresses", 18)):
        words, _ = assembly.words_in(data[:18] + struct.pack(">H", machine) + data[20:], [])
        yield f"an object file for {what}", words == NET, ""


@cases(AS)
def editions_of_the_assembler():
    with example("net") as folder:
        said = problem_of("--edition", "8", folder)
        right = said.startswith("routine.s, line 9: Architecture mismatch") and "`--edition 9` is for the newer one" in said
        yield "predicted branches for the older terminal", right and "bundle.bin" not in os.listdir(folder), said
        os.remove(os.path.join(folder, "edition"))
        right = problem_of("--edition", "9", folder) == "" and read(folder, "bundle.bin") == read(EXAMPLES, "net", "bundle.bin")
        yield "predicted branches for the newer terminal", right, ""
    with routine() as folder:
        right = problem_of("--edition", "9", folder) == "" and read(folder, "bundle.bin") == read(EXAMPLES, "name", "bundle.bin")
        yield "the words of a routine without them are the same", right, ""


@cases(OBJDUMP)
def predicted_branches_are_shown():
    for words, expected in [(NET, {4: "bl,a,pn %icc to word 6", 8: "bne,pt %icc to word 1"}),
                            ([0x12BFFFFF, 0x10480002, 0x106FFFFE], {0: "bne to word -1", 1: "b,pt %icc to word 3", 2: "b %xcc, 0x0"})]:
        texts = assembly.disassemble(words, 9)
        yield f"the text of {sorted(expected.values())}", {k: texts[k] for k in expected} == expected, repr(texts)
    yield "the text on the older terminal", assembly.disassemble(NET)[4] == "unknown", ""
    status, out, said = called("bundle.py", "--list", os.path.join(EXAMPLES, "net"))
    yield "bundle.py --list takes the folder's edition", status == 0 and "  bne,pt %icc to word 1  " in out, out + said


def explained_bundle(data, *options):
    """What explain.py says of a bundle, with no disassembler."""
    with example("net") as folder, only_tool("other", ""):
        write(data, folder, "other.bin")
        return called("explain.py", *options, os.path.join(folder, "other.bin"))


@cases(EXPLAIN)
def predicted_branches_on_the_older():
    for what, word, expected in [
            ("a predicted branch", NET[8], "wrong: this is a predicted branch, which only the newer terminal reads: write it without prediction"),
            ("one on %xcc", UNREAD, "wrong: this is a predicted branch on %xcc: write it without prediction"),
            ("one on codes 1", 0x10580003, "wrong: this is a predicted branch on reserved codes (1 in bits 21 and 20)"),
            ("brz", 0x02F87FFD, "wrong: this is no instruction of the subset")]:
        policy, entry, result, words, rows = layout.open_bundle(read(EXAMPLES, "name", "bundle.bin"))
        data = layout.bundle_bytes(policy, entry, result, words[:5] + [word] + words[6:], rows)
        status, out, said = explained_bundle(data)
        yield f"explain.py with {what} on the older terminal", out.startswith("2 5 0\n") and expected in out and not said, out + said


@cases(EXPLAIN_9)
def predicted_branches_on_the_newer():
    for what, data, answer, expected in [
            ("%xcc", with_word(UNREAD), "2 8 0", ["wrong: this is a predicted branch on %xcc, and only %icc is read: compare 32-bit values"]),
            ("codes 3", with_word(0x10780003), "2 8 0", ["predicted branch on reserved codes (3 in bits 21 and 20), and only %icc is read"]),
            ("a hint taken", read(EXAMPLES, "net-unsigned", "bundle.bin"), "12 8 1",
             ["word 8: 0A4FFFF9  bcs,pt\n", "not narrowed: bcs never narrows", "wrong: 40 is not in 0..36 step 4"]),
            ("annul and a hint untaken", with_word(0x2A47FFF9), "12 8 1", ["word 8: 2A47FFF9  bcs,a,pn\n"]),
            ("a target outside", with_word(0x12480004), "3 8 0", ["wrong: its target is word 12, and the code has words 0 to 11"])]:
        status, out, said = explained_bundle(data, "--edition", "9")
        right = status == 0 and out.startswith(answer + "\n") and all(text in out for text in expected) and not said
        yield f"explain.py with {what} on the newer terminal", right, out + said


@cases(KINDS_9)
def kinds_on_the_newer():
    for name in of_edition(9):
        path = os.path.join(EXAMPLES, name, "bundle.bin")
        status, out, said = called("kinds.py", "--edition", "9", path)
        if name == "net-xcc":
            yield f"kinds.py refuses {name}", status == 0 and out.startswith("2 8 0\n"), out + said
        else:
            slots = [k for k, line in enumerate(out.splitlines()) if line.endswith("  (slot)")]
            yield f"kinds.py lists {name}", (status, said, slots, out.count("\n")) == (0, "", [5, 9, 11], 12), out + said


# Searches for fields

@cases()
def searches_of_fields():
    four = searches.extents_of(searches.regions(searches.FOUR), 0)
    yield "the worked example's fields", four == [(0, 4), (4, 8), (10, 12), (20, 24)], repr(four)
    for first, past, expected in [(4, 9, (None, 3)), (4, 8, (1, 2)), (8, 9, (None, 3)), (24, 25, (None, 4))]:
        given = searches.outcome(four, first, past)
        yield f"a search for bytes {first} up to {past}", given == expected, repr(given)
    yield "a search without fields", searches.outcome([], 0, 1) == (None, 0), ""
    held = tuple(read(ROOT, "crates", "searches", name) for name in ("stdin", "stdout"))
    yield "crates/searches has what searches.py makes", searches.data_of(searches.standing()) == held, ""
    text = ("fields 2\nfield 1 3 0 0 4 0 0\nfield 5 1 0 8 1 -1 1\nwant 8 12 found 1 looked 2\n"
            "want -1 1 found none looked 1\nwant 0 4294967296 found none looked 2")
    one = searches.held(9, searches.list_of(9, text))
    right = (one.number, one.region, one.searches) == (0, 1, [(8, 12, 1, 2)]) and searches.list_in(searches.record(one), 0)[0] == one
    yield "a list of fields as text", right, repr(one)
    yield "a search that gives something else", refused(searches.held, 9, one._replace(searches=[(8, 12, 1, 1)])), ""
    for what, lost, instead in [
            ("a field less", "field 1 3 0 0 4 0 0\n", ""), ("no such element", "field 5", "field 8"), ("an offset of 17 bits", " 8 1 -1", " 65536 1 -1"),
            ("a number less", " looked 1", " looked"), ("another line", "want 8", "wish 8"), ("no number", "fields 2", "fields")]:
        yield f"a list of fields with {what}", refused(searches.list_of, 9, text.replace(lost, instead, 1)), ""


# The data of both terminals

ASSEMBLED = [
    ("ba,pt %icc,", predicted(bundles.ALWAYS, 2, hint=True)), ("ba,pn %icc,", predicted(bundles.ALWAYS, 2)),
    ("bn,a,pt %icc,", predicted(bundles.NEVER, 2, True, True)), ("bne,pn %icc,", predicted(bundles.NOT_EQUAL, 2)),
    ("bl,a,pn %icc,", predicted(bundles.LESS, 2, True)), ("bge,pt %xcc,", predicted(bundles.AT_LEAST, 2, hint=True, codes=2)),
    ("ble,a,pt %icc,", predicted(bundles.AT_MOST, 2, True, True)),
]


@cases(AS)
def made_words_as_assembled():
    for text, expected in ASSEMBLED:
        with tempfile.TemporaryDirectory() as folder:
            write(f"{text} 1f\nnop\n1: nop\n".encode(), folder, ROUTINE)
            words, _ = assembly.assemble(folder, NEWER)
        yield f"the word of `{text}`", words[0] == expected, f"{words[0]:08X} {expected:08X}"


@cases()
def made_predicted_branches():
    far = 2**18
    for what, word, expected in [
            ("farthest", predicted(bundles.ALWAYS, far - 1), far + 9), ("farthest back", predicted(bundles.ALWAYS, -far, hint=True), 10 - far),
            ("codes 01", predicted(bundles.ALWAYS, 3, codes=1), None), ("codes 10", predicted(bundles.ALWAYS, 3, codes=2), None),
            ("codes 11", predicted(bundles.NEVER, 3, codes=3), None), ("format 011", 0x00C00003, None), ("format 101", 0x01400003, None)]:
        given = assembly.target_of(10, word), assembly.target_of(10, word, NEWER)
        yield f"the target of a predicted branch: {what}", given == (None, expected), repr(given)
    for hint in False, True:
        for word, expected in [(bundles.branch(2, -5, True), predicted(2, -5, True, hint)), (parts.NOP, parts.NOP),
                               (bundles.branch(2, far), bundles.branch(2, far)), (bundles.branch(2, far - 1), predicted(2, far - 1, hint=hint))]:
            yield f"{word:08X} as predicted", bundles.as_predicted(word, hint) == expected, f"{bundles.as_predicted(word, hint):08X}"


@cases()
def editions_of_bundles():
    data = read(ROOT, "crates", "corpus", "stdin")
    held = mutants.records(data)
    yield "crates/corpus opened and written again", b"".join(map(corpus.record, held)) == data, ""
    yield "crates/corpus has both editions", {one.edition for one in held} == {OLDER, NEWER}, ""
    branches = {(one.edition, one.answer.split()[0]) for one in held
                for k, word in enumerate(corpus.words_in(one.bundle)) if assembly.target_of(k, word, NEWER) != assembly.target_of(k, word)}
    yield "crates/corpus has the predicted branch on both terminals", {(OLDER, "2"), (NEWER, "0"), (NEWER, "3"), (NEWER, "12")} <= branches, str(branches)
    answers = {(case.edition, case.bundle): case.answer for case in bundles.cases()}
    wrong = [case.name for case in bundles.cases() if answers[case.edition, case.bundle] != case.answer]
    yield "each made bundle has one answer on a terminal", wrong == [], str(wrong)
    lost = [name for name, one in zip(NAMES, corpus.examples()) if one not in held]
    yield "crates/corpus has each example", lost == [], str(lost)
    two = b"\0\0\0\1a\0\0\0\0"
    yield "bundles one after another", corpus.stream(NEWER, two, "23 0 0\n2 1 0\n") == [(9, b"a", "23 0 0"), (9, b"", "2 1 0")], ""
    for what, text in ("one answer less", "23 0 0\n"), ("one answer more", "23 0 0\n" * 3):
        yield f"bundles with {what}", refused(corpus.stream, NEWER, two, text), ""


LISTING = """case 1
terminal 9
policy 00
entry {}
words 81c3e008 01000000
table 4096
answer 2 1 0
marks same"""
RUN = """edition 9
policy 1
region 8 1
field 1 3 0 0 8 0 255
words 81c3e008 01000000
bases 1000
return 2000
regs {0}
codes 4+
memory 0000000000000000
allowance 9
end 0
steps 2
regs {0}
codes 4+
memory same"""


@cases()
def editions_of_listings_and_runs():
    data = read(ROOT, "crates", "tables", "stdin")
    held = tables.records(data)
    yield "crates/tables opened and written again", b"".join(held) == data, ""
    yield "crates/tables has both editions", {tables.words_of(one)[0] for one in held} == {OLDER, NEWER}, ""
    text = LISTING.format(kindcases.ENTRY.hex())
    for given, expected in (text, NEWER), (text.replace("terminal 9\n", ""), OLDER), (text.replace("terminal 9", "terminal 8"), OLDER):
        one = tables.case_of(given)
        yield f"a listing on terminal {expected}", tables.words_of(tables.record(one)) == (expected, (parts.RETURN, parts.NOP)), repr(one)
    yield "a listing on terminal 7", refused(tables.case_of, text.replace("terminal 9", "terminal 7")), ""
    data, at, several = read(ROOT, "crates", "runs", "stdin"), 0, []
    while at < len(data):
        run, at = runs.run_in(data, at)
        several.append(run)
    yield "crates/runs opened and written again", data.startswith(b"".join(run.record() for run in runs.standing())), ""
    yield "crates/runs has both editions", {run.edition for run in several} == {OLDER, NEWER}, ""
    yield "crates/runs says how many there are", read(ROOT, "crates", "runs", "stdout").decode() == f"{len(several)} runs, 0 wrong\n", ""
    text = RUN.format(" ".join(["0+"] * 32))
    for given, expected in (text, NEWER), (text.replace("edition 9\n", ""), OLDER), (text.replace("edition 9", "edition 8"), OLDER):
        one, _ = runs.run_in(runs.run_of(given).record(), 0)
        yield f"a run on terminal {expected}", (one.edition, one.end, one.words) == (expected, 0, [parts.RETURN, parts.NOP]), repr(vars(one))
    yield "a run on terminal 7", refused(runs.run_of, text.replace("edition 9", "edition 7")), ""
    true = ["".join(f"{codes:X}" for codes in range(16) if runs.holds(condition, codes)) for condition in range(16)]
    expected = ["", "4567CDEF", "2345" "6789CDEF", "236789" "CD", "1345679BCDEF", "13579BDF", "89ABCDEF", "2367ABEF"]
    yield "which codes each condition holds with", true[:8] == ["".join(sorted(one)) for one in expected], repr(true)
    opposite = ["".join(f"{codes:X}" for codes in range(16) if f"{codes:X}" not in one) for one in true[:8]]
    yield "which codes the opposite conditions hold with", true[8:] == opposite, repr(true)


@cases("gcc")
def plain_program_is_told_the_edition():
    branch = bundles.routine([predicted(bundles.ALWAYS, 2), parts.NOP, parts.RETURN, parts.NOP], [{}] * 4)
    with tempfile.TemporaryDirectory() as folder, open(mutants.SOURCE, encoding="utf-8") as source:
        program = mutants.compiled(source.read(), folder)
        for arguments, status, expected in [
                ([], 0, b"2 0 0\n"), (["8"], 0, b"2 0 0\n"), (["9"], 0, b"0 0 0\n"), (["9", "-n", "2"], 0, b"0 0 0\n"), (["7"], 2, b""), (["9", "9"], 2, b"")]:
            done = subprocess.run([program, *arguments], input=branch, capture_output=True)
            yield f"plain answer {' '.join(arguments)}", (done.returncode, done.stdout) == (status, expected), done.stdout.decode()
        for edition, expected in (OLDER, ["2 0 0"] * 2), (NEWER, ["0 0 0"] * 2):
            yield f"plain answer {edition} -s", mutants.answers(program, edition, [branch] * 2) == expected, ""
        held = [mutants.Record(edition, branch, "2 0 0") for edition in (OLDER, NEWER, OLDER)]
        yield "a record with the answer of the other terminal", mutants.wrong(read(mutants.SOURCE).decode(), held, folder) == [1], ""


# The caller's registers

def keeping_in(register):
    """The words of example `name` with its byte in another register than r2, and the rows that say so."""
    words = list(WORDS)
    for k in 1, 6:
        words[k] = words[k] & ~(31 << 25) | register << 25
    return object_file(words, [("next", 1)]), TEXTS[ROWS].replace(b"r2 ", b"r%d " % register)


def kept_in(register):
    """The bundle of these."""
    data, rows = keeping_in(register)
    return made({ROWS: rows}, data)


KEPT = [(register, b"0 0 0\n" if register in (3, 13) else b"25 1 %d\n" % register) for register in (3, 13, 14, 16, 23, 24, 31)]


@cases("gcc")
def registers_of_the_caller_in_the_plain_program():
    with tempfile.TemporaryDirectory() as folder:
        program = mutants.compiled(read(mutants.SOURCE).decode(), folder)
        for register, expected in KEPT:
            for edition in OLDER, NEWER:
                given = mutants.answer(program, edition, kept_in(register))
                yield f"plain answer {edition}: a byte in r{register}", given == expected.decode().strip(), given


@cases(ANSWER)
def registers_of_the_caller():
    for register, expected in KEPT:
        out = subprocess.run([ANSWER], input=kept_in(register), capture_output=True).stdout
        yield f"the bundle program: a byte in r{register}", out == expected, out.decode()


@cases(ANSWER_9)
def registers_of_the_caller_on_the_newer():
    for register, expected in KEPT:
        out = subprocess.run([ANSWER_9], input=kept_in(register), capture_output=True).stdout
        yield f"the newer terminal's bundle program: a byte in r{register}", out == expected, out.decode()


@cases(AS, ANSWER)
def a_routine_with_locals():
    for name, expected in ("%g3", b"0 0 0\n"), ("%o5", b"0 0 0\n"), ("%o6", b"25 1 14\n"), ("%l0", b"25 1 16\n"), ("%i7", b"25 1 31\n"):
        with routine() as folder:
            write(TEXTS[ROUTINE].replace(b"%g2", name.encode()), folder, ROUTINE)
            write(TEXTS[ROWS].replace(b"r2 ", b"r%d " % bundle.REGISTERS.index(name)), folder, ROWS)
            said = problem_of(folder)
            out = b"" if said else subprocess.run([ANSWER], input=read(folder, "bundle.bin"), capture_output=True).stdout
        yield f"a routine that keeps a byte in {name}", out == expected, said + out.decode()


@cases(KINDS)
def registers_of_the_caller_before_rows():
    for register, expected in KEPT:
        data, _ = keeping_in(register)
        status, out, said = kinds_of({ROWS: ENTRY}, data)
        right = out.startswith(expected.decode()) if expected[:1] != b"0" else out.count("\n") == len(WORDS)
        yield f"kinds.py with a byte in r{register}", status == 0 and right and not said, out + said


@cases(EXPLAIN)
def registers_of_the_caller_explained():
    for register, expected in KEPT:
        status, out, said = explained_bundle(kept_in(register), "--edition", "8")
        right = expected[:1] == b"0" or f"wrong: it would write r{register}, " in out
        yield f"explain.py with a byte in r{register}", status == 0 and out.startswith(expected.decode()) and right and not said, out + said


@cases()
def sorts_of_refusals():
    take, pointer, back = bundles.TAKES, bundles.TAKES_POINTER, parts.RETURN
    for what, word, expected in [
            ("sethi to r16", take, True), ("sethi to r14", pointer, True), ("sethi to r15", bundles.sethi(15, 0), False), ("a nop", parts.NOP, False),
            ("add to r31", bundles.word("add", 31, 1, 1), True), ("subcc to r0", bundles.word("subcc", 0, 16, 1), False),
            ("srl to r17", bundles.word("srl", 17, 1, 1), True), ("ldsh to r30", bundles.word("ldsh", 30, 1, 0), True),
            ("a store of r16", bundles.word("stb", 16, 1, 0), False), ("an annulled branch", bundles.branch(15, 2, True), False),
            ("an annulled predicted branch", predicted(15, 2, True), False), ("the return", back, False), ("a call", 0x7FFFFFFF, False)]:
        yield f"a word that takes a register of the caller: {what}", corpus.takes(word) == expected, ""
    into = [bundles.branch(bundles.ALWAYS, 3), parts.NOP, back, take, back, parts.NOP]
    for edition, words, answer, expected in [
            (8, [take, back, parts.NOP], "25 0 16", ("edition 8, number 25", corpus.EACH)),
            (8, [back, take], "25 1 16", ("edition 8, number 25 in a slot", corpus.EACH)),
            (9, [predicted(8, 2, True), take, back, parts.NOP], "25 1 16", ("edition 9, predicted, number 25 in a slot, annulled", corpus.EACH)),
            (8, into, "25 3 16", ("edition 8, slot, number 25", 1)), (8, [parts.NOP, take], "3 1 0", ("edition 8, number 3 before 25", corpus.EACH)),
            (8, [back, back, take, back, parts.NOP], "3 1 0", ("edition 8, number 3 before 25", corpus.EACH)),
            (8, [parts.NOP], "3 0 0", ("edition 8, number 3", corpus.EACH)), (8, [take, 0], "2 1 0", ("edition 8, number 2", corpus.EACH))]:
        given = corpus.sort_of(edition, words, answer, 7, 1)
        yield f"the sort of {answer} with {len(words)} words on {edition}", given == expected, repr(given)


@cases()
def registers_of_the_caller_in_the_data():
    held = [(one.edition, corpus.words_in(one.bundle), one.answer) for one in mutants.records(read(ROOT, "crates", "corpus", "stdin"))]
    listed = [(*tables.words_of(one), tables.expected(one)[0]) for one in tables.records(read(ROOT, "crates", "tables", "stdin"))]
    for name, records in ("corpus", held), ("tables", listed):
        given = {(edition, int(answer.split()[2])) for edition, _, answer in records if answer.startswith("25 ")}
        wanted = {(edition, register) for edition in (OLDER, NEWER) for register in (14, 16, 31)}
        yield f"crates/{name} has 25 with the first and the last register on both terminals", wanted <= given, repr(given)
        wrong = [answer for _, words, answer in records if answer.startswith("25 ") and not corpus.takes(words[int(answer.split()[1])])]
        yield f"crates/{name} has 25 only at words that take a register", wrong == [], repr(wrong)
        late = [answer for _, words, answer in records if int(answer.split()[0]) in (0, *range(4, 18)) and any(map(corpus.takes, words))]
        yield f"crates/{name} has no later number where a word takes a register", late == [], repr(late)


# Scratch words

SP, FRAME = layout.POINTER, layout.FRAME_ADDRESS
ENTRY_OF_AXLES = "entry: r8 = axles, r9 = tariff, r10 = ticket, r14 = frame, r15 = return"


def rows_made(rows, *options):
    """The entry row and the rows of the words of example `name`, with the texts and these rows, in a bundle."""
    with routine() as folder, assembler_giving(OBJECT):
        write(rows, folder, ROWS)
        bundle.main([*options, folder])
        data = read(folder, "bundle.bin")
    _, entry, _, _, rows = layout.open_bundle(data)
    return entry, rows


@cases()
def scratch_words_in_rows():
    kept = {96: "0..29", 100: "haulier+0..29", 104: "line or null", 108: "return", 112: "any number", 116: "-1"}
    for what, spelled in [("as in routine.s", "[%sp+{}]"), ("with spaces", "[ %sp + {} ]"), ("by %o6", "[%o6+{}]"), ("by r14", "[r14 + {}]"),
                          ("in hexadecimal", "[%sp+{:#x}]")]:
        parts_of_row = ", ".join(f"{spelled.format(offset)} = {entry}" for offset, entry in kept.items())
        _, rows = rows_made(TEXTS[ROWS].replace(b"1: as entry,", f"1: as entry, {parts_of_row},".encode()))
        shown = bundle.row_text(rows[1], ["haulier", "line"])
        right = shown.endswith(", ".join(f"[%sp+{offset}] = {entry}" for offset, entry in kept.items()))
        yield f"scratch words {what}", right and rows[1][0][32:] == [
            (1, 0, 1, 0, 29), (2, 0, 1, 0, 29), (3, 1, 0, 0, 0), (4, 0, 0, 0, 0), layout.FULL, (1, 0, 8, -1, -1)], shown
        yield f"scratch words {what}, in the rows below", rows[2][0][32:] == rows[1][0][32:] and rows[0][0][32:] == [layout.NOTHING] * 6, ""
    for spelled in "r14", "%o6", "%sp":
        entry, rows = rows_made(TEXTS[ROWS].replace(b"entry: ", f"entry: {spelled} = frame, ".encode()))
        yield f"the frame's address in {spelled}", entry[0][SP] == rows[0][0][SP] == FRAME and "r14 = frame" in bundle.row_text(entry, []), ""
    entry, _ = rows_made(TEXTS[ROWS].replace(b"entry: ", b"entry: [%sp+96] = unset, "))
    yield "an unset scratch word in the entry row", entry[0][32:] == [layout.NOTHING] * 6, ""
    with example("axles") as folder:
        status, out, said = called("bundle.py", "--list", folder)
        yield "bundle.py --list shows scratch words", ENTRY_OF_AXLES.replace("axles,", "axles+0,").replace("tariff,", "tariff+0,").replace(
            "ticket,", "ticket+0,") in out and "r15 = return, [%sp+96] = ticket+0\n" in out, out + said


@cases()
def versions_of_bundles():
    rows = TEXTS[ROWS]
    with_scratch = rows.replace(b"1: as entry,", b"1: as entry, [%sp+96] = 0,")
    for what, options, file, text, expected in [
            ("nothing told", [], None, rows, 2), ("--version 1", ["--version", "1"], None, rows, 1), ("--version 2", ["--version", "2"], b"1\n", rows, 2),
            ("a file version", [], b"1\n", rows, 1), ("a file version with 2", [], b"2\r\n", rows, 2), ("--version 2 and a scratch word", ["--version", "2"], None, with_scratch, 2),
            ("--version 1 and a scratch word", ["--version", "1"], None, with_scratch,
             "rows.txt, line 4: [%sp+96] is given, and a bundle of version 1 has no scratch words"),
            ("--version 3", ["--version", "3"], None, rows, "--version is 2, with scratch words in its rows, or 1, without"),
            ("--version alone", ["--version"], None, rows, "--version is 2"), ("an empty file version", [], b"", rows, "version is empty"),
            ("a file version with v2", [], b"v2\n", rows, "the line of the file version is 2, with scratch words"),
            ("--list and --version", ["--list", "--version", "1"], None, rows, "call it as `bundle.py FOLDER`")]:
        with routine() as folder, assembler_giving(OBJECT):
            write(text, folder, ROWS)
            if file is not None:
                write(file, folder, "version")
            said = problem_of(*options, folder)
            given = said or layout.version_of(read(folder, "bundle.bin"))
        yield f"the version of a bundle: {what}", given == expected or said and said.startswith(str(expected)), str(given)
    both = [made_in(version) for version in (1, 2)]
    yield "both versions open alike", layout.open_bundle(both[0]) == layout.open_bundle(both[1]), ""
    yield "72 bytes less a row in version 1", len(both[1]) - len(both[0]) == 72 * 10, ""
    _, out, _ = called("bundle.py", "--list", os.path.join(EXAMPLES, "sum"))
    yield "bundle.py --list says that a bundle is of version 1", "(a bundle of version 1: its rows have no scratch words)\nentry: " in out, out
    for version, data in zip((1, 2), both):
        less = kinds.without_rows(noisy(data))
        policy, entry, result, words, rows = layout.open_bundle(less)
        right = len(less) == len(data) and result == layout.NOTHING and rows == [bundle.SLOT] * 9 and (policy, entry, words) == (
            *layout.open_bundle(data)[:2], WORDS)
        yield f"a bundle of version {version} without its rows", right and layout.version_of(less) == version, ""


def made_in(version):
    """The bundle of example `name`, of a version."""
    return layout.bundle_bytes(*layout.open_bundle(read(EXAMPLES, "name", "bundle.bin")), version)


def axles(words={}, entries={}, entry={}, result=None, version=2):
    """The bundle of example `axles` with other words, by word; other entries of its rows, by word and name, or notes, by the name 32; other
    entries of the entry row, by name; another result entry; or of version 1, without what scratch words hold."""
    policy, start, wanted, code, rows = layout.open_bundle(read(EXAMPLES, "axles", "bundle.bin"))
    rows = [(list(held), note) for held, note in rows]
    for k, other in words.items():
        code[k] = other
    for (k, name), other in entries.items():
        if name == layout.NOTE_NAMED:
            rows[k] = rows[k][0], other
        else:
            rows[k][0][layout.NAMED.index(name)] = other
    for name, other in entry.items():
        start[0][layout.NAMED.index(name)] = other
    if version == 1:
        rows = [(held[:32] + [layout.NOTHING] * 6, note) for held, note in rows]
    return layout.bundle_bytes(policy, start, result or wanted, code, rows, version)


word = bundles.word
# What is changed in example `axles`, the answer, and what explain.py says of it.
USES = [
    ("a word below the scratch words", axles({0: word("st", 10, SP, 92)}), "7 0 14",
     ["reached in the frame (120 bytes): offset 92, width 4, so bytes 92 to 95", "wrong: a scratch word is at offset 96, 100, 104, 108, 112 or 116 of the frame, not at 92"]),
    ("a word above them", axles({0: word("st", 10, SP, 120)}), "7 0 14", ["not at 120;"]),
    ("a byte inside one", axles({13: word("ldub", 13, SP, 97)}), "7 13 14", ["offset 97, width 1, so byte 97\n", "not at 97;"]),
    ("the first byte of one", axles({13: word("ldub", 13, SP, 96)}), "8 13 14", ["offset 96, width 1, so byte 96\n", "wrong: ldub does not serve a scratch word: ld and st do"]),
    ("half of one", axles({0: word("sth", 10, SP, 116)}), "8 0 14", ["width 2, so bytes 116 to 117\n", "wrong: sth does not serve a scratch word"]),
    ("the frame's address stored in one", axles({0: word("st", SP, SP, 96)}), "6 0 14", ["rd, stored: r14 = frame", "wrong: the frame's address is stored"]),
    ("the frame's address stored in a field", axles({44: word("st", SP, 9, 4)}), "6 44 9", ["wrong: the frame's address is stored"]),
    ("the frame's address moved", axles({10: word("or", 9, 0, "r14")}), "6 10 0", ["wrong: or takes the frame's address, which is there for ld and st of scratch words alone"]),
    ("the frame's address compared", axles({37: word("subcc", 0, SP, 0)}), "6 37 14", ["wrong: subcc takes the frame's address"]),
    ("the frame's address shifted", axles({10: word("sll", 9, SP, 0)}), "6 10 14", ["wrong: sll takes the frame's address"]),
    ("an index", axles({13: word("ld", 13, SP, "r9")}), "6 13 14",
     ["wrong: to the frame's address a single number is added, 96, 100, 104, 108, 112 or 116, and not 0..36 step 4"]),
    ("the frame's address twice", axles({13: word("ld", 13, SP, "r14")}), "6 13 14", ["a single number is added, 96, 100, 104, 108, 112 or 116, and not the frame's address"]),
    ("the frame's address and another", axles({13: word("ld", 13, 8, "r14")}), "6 13 8", ["and not an address"]),
    ("a scratch word not stored to", axles({13: word("ld", 13, SP, 116)}), "4 13 38",
     ["scratch words: [%sp+96] = ticket+0; [%sp+100] = any number; [%sp+104] = 0..1000; the others are unset", "wrong: [%sp+116] is loaded, and it is unset in this row"]),
    ("the same in version 1", axles(version=1), "4 13 34", ["scratch words: all unset", "wrong: [%sp+100] is loaded, and it is unset in this row"]),
    ("a row that claims too much of one", axles({}, {(12, 37): layout.ZERO}), "12 11 37",
     ["row 11: [%sp+112] = unset", "next row, 12: [%sp+112] = 0", "wrong: unset does not fit 0"]),
    ("a row that claims too much of what is stored", axles({}, {(20, 35): layout.number(0, 999)}), "12 18 35", ["after the slot, word 19: [%sp+104] = 0..1000", "wrong: 1000 is not in 0..999"]),
    ("row 0 that claims something", axles({}, {(0, 33): layout.ZERO}), "15 0 33",
     ["entry row: [%sp+96] = unset", "row 0: [%sp+96] = 0", "wrong: unset does not fit 0: all six scratch words are unset at the start"]),
    ("the frame's address in another register", axles({}, {(5, 3): FRAME}), "1 5 3", ["row 5, r3: bytes 05", "has kind 5, the frame's address, which stands in r14 alone"]),
    ("the frame's address in a scratch word's entry", axles({}, {(5, 38): FRAME}), "1 5 38", ["row 5, [%sp+116]: bytes 05", "has kind 5, the frame's address, which stands in r14 alone"]),
    ("a note and a scratch word's entry badly formed", axles({}, {(5, 33): (9, 0, 0, 0, 0), (5, 32): (9, 0, 0)}), "1 5 32", ["row 5, note: bytes 09", "of the bundle breaks a rule above"]),
    ("a scratch word's entry badly formed", axles({}, {(5, 33): (1, 0, 3, 0, 3)}), "1 5 33", ["row 5, [%sp+96]: bytes 01", "of the bundle breaks a rule above"]),
    ("a frame's address with a step", axles({}, {(5, SP): (5, 0, 1, 0, 0)}), "1 5 14", ["row 5, r14: bytes 05", "of the bundle breaks a rule above"]),
    ("an entry row that has one", axles(entry={34: layout.ZERO}), "21 0 0", ["entry row, [%sp+100]: bytes 01", "is set: all six scratch words are unset at the start"]),
    ("the frame's address as the result", axles(result=FRAME), "21 0 0", ["result entry: bytes 05", "has kind 5, the frame's address, which stands in r14 alone"]),
    ("a bundle too long by its version", made_in(1) + bytes(53180), "23 0 0", ["wrong: it has ", "and a bundle of version 1 has at most 53,180"]),
    ("a bundle too long", read(EXAMPLES, "axles", "bundle.bin") + bytes(62468), "23 0 0", ["and a bundle has at most 62,468"]),
    ("version 3", made_in(2).replace(b"WTR\0\2", b"WTR\0\3"), "23 0 0", ["they do not begin with the mark WTR and version 1 or 2"]),
]


@cases("gcc")
def examples_in_the_plain_program():
    with tempfile.TemporaryDirectory() as folder:
        program = mutants.compiled(read(mutants.SOURCE).decode(), folder)
        for name in NAMES:
            given = mutants.answer(program, script.edition_of(os.path.join(EXAMPLES, name)), read(EXAMPLES, name, "bundle.bin"))
            yield f"the plain program answers {name}", given == read(EXAMPLES, name, "answer.txt").decode().strip(), given
        for what, data, answer, _ in USES:
            for edition in OLDER, NEWER:
                given = mutants.answer(program, edition, data)
                yield f"plain answer {edition}: {what}", given == answer, given


@cases(ANSWER)
def uses_of_the_frame():
    for what, data, answer, _ in USES:
        out = subprocess.run([ANSWER], input=data, capture_output=True).stdout.decode().strip()
        yield f"the bundle program: {what}", out == answer, out


@cases(ANSWER_9)
def uses_of_the_frame_on_the_newer():
    for what, data, answer, _ in USES:
        out = subprocess.run([ANSWER_9], input=data, capture_output=True).stdout.decode().strip()
        yield f"the newer terminal's bundle program: {what}", out == answer, out


@cases(EXPLAIN)
def uses_of_the_frame_explained():
    for what, data, answer, expected in USES:
        with example("axles") as folder, only_tool("other", ""):
            write(data, folder, "bundle.bin")
            status, out, said = called("explain.py", folder)
        right = status == 0 and out.startswith(answer + "\n") and all(text in out + "\n" for text in expected) and not said
        yield f"explain.py with {what}", right, out + said


# What the program explain says of such bundles: what is refused, its items but for `word` and the row's entries, and what is made of them.
THROUGH = "first 14 5 0 0 0 0"
SAID = [
    ("7 0 14", ["store 0 10 14 1 92", "row 0", THROUGH, "second 0 1 0 8 92 92", "stored 10 2 2 8 0 0"],
     ["  rs1: r14 = frame", "  number in the word: 92", "  rd, stored: r10 = ticket+0", "reached in the frame (120 bytes): offset 92, width 4, so bytes 92 to 95",
      "wrong: a scratch word is at offset 96, 100, 104, 108, 112 or 116 of the frame, not at 92; all else in the frame is the host's"]),
    ("8 13 14", ["load 3 13 14 1 96", "row 13", THROUGH, "second 0 1 0 8 96 96", "stored 13 0 0 0 0 0"],
     ["reached in the frame (120 bytes): offset 96, width 1, so byte 96", "wrong: ldsb does not serve a scratch word: ld and st do"]),
    ("8 13 9", ["store 2 13 9 0 14", "row 13", "first 9 1 0 8 96 96", "second 14 5 0 0 0 0", "stored 13 1 0 8 0 0"],
     ["  rs2: r14 = frame", "reached in the frame (120 bytes): offset 96, width 2, so bytes 96 to 97", "wrong: sth does not serve a scratch word: ld and st do"]),
    ("6 13 14", ["load 0 13 14 0 9", "row 13", THROUGH, "second 9 1 0 4 96 116", "stored 13 0 0 0 0 0"],
     ["wrong: to the frame's address a single number is added, 96, 100, 104, 108, 112 or 116, and not 96..116 step 4"]),
    ("6 13 8", ["load 0 13 8 0 14", "row 13", "first 8 2 0 8 0 0", "second 14 5 0 0 0 0", "stored 13 0 0 0 0 0"],
     ["wrong: to the frame's address a single number is added, 96, 100, 104, 108, 112 or 116, and not an address"]),
    ("6 44 9", ["store 0 14 9 1 4", "row 44", "first 9 2 2 8 0 0", "second 0 1 0 8 4 4", "stored 14 5 0 0 0 0", "reach 2 8 4 4 4", "region 2 16 0"],
     ["  rd, stored: r14 = frame", "wrong: the frame's address is stored, and it is kept in r14 alone: neither a field nor a scratch word holds it"]),
    ("6 10 0", ["alu 2 0 9 0 0 14", "row 10", "first 0 1 0 8 0 0", "second 14 5 0 0 0 0"],
     ["wrong: or takes the frame's address, which is there for ld and st of scratch words alone: it is not moved, added to or compared"]),
    ("6 10 14", ["alu 4 1 0 14 1 0", "row 10", THROUGH, "second 0 1 0 8 0 0"], ["wrong: subcc takes the frame's address"]),
    ("6 10 9", ["alu 0 0 9 9 0 8", "row 10", "first 9 2 1 8 0 0", "second 8 2 0 8 0 0"], ["wrong: there is no rule for add of an address and an address"]),
    ("4 13 34", ["load 0 13 14 1 100", "row 13", "entry 14 5 0 0 0 0", "entry 33 2 2 8 0 0", "entry 38 1 0 8 7 7", "note 0 0 0", THROUGH, "second 0 1 0 8 100 100",
                 "stored 13 0 0 0 0 0"],
     ["scratch words: [%sp+96] = ticket+0; [%sp+116] = 7; the others are unset", "wrong: [%sp+100] is loaded, and it is unset in this row"]),
    ("4 19 35", ["load 0 13 14 1 104", "slot 18", "row 18", "entry 35 1 0 8 7 7", "note 1 0 0", "edge 1 1 1", "to 20 1 0", "kept 1", "handed", "note 1 0 0", THROUGH,
                 "second 0 1 0 8 104 104", "stored 13 0 0 0 0 0"], ["scratch words: all unset", "wrong: [%sp+104] is loaded, and it is unset in this row"]),
    ("12 11 37", ["alu 2 0 10 0 0 0", "row 11", "entry 37 1 0 1 0 5", "note 0 0 0", "edge 0 1 0", "to 12 1 0", "kept 1", "handed", "entry 37 1 0 1 0 5", "note 0 0 0", "made",
                  "entry 37 1 0 1 0 5", "note 0 0 0", "misfit 37", "has 1 0 1 0 5", "asks 1 0 8 0 0"],
     ["row 11: [%sp+112] = 0..5", "after word 11: [%sp+112] = 0..5", "next row, 12: [%sp+112] = 0", "wrong: 5 is not 0"]),
    ("15 0 33", ["store 0 10 14 1 96", "misfit 33", "has 0 0 0 0 0", "asks 1 0 8 0 0"],
     ["entry row: [%sp+96] = unset", "row 0: [%sp+96] = 0", "wrong: unset does not fit 0: all six scratch words are unset at the start"]),
    ("15 0 14", ["store 0 10 14 1 96", "misfit 14", "has 0 0 0 0 0", "asks 5 0 0 0 0"], ["entry row: r14 = unset", "row 0: r14 = frame", "wrong: unset does not fit frame"]),
    ("1 5 38", ["misfit 38", "at 3000", "bytes 5 0 0 0 0 0 0 0 0 0 0 0"],
     ["row 5, [%sp+116]: bytes 05000000 00000000 00000000 (kind 5, region 0, step 0, zero 0, lo 0, hi 0)",
      "wrong: the entry at byte 3000 of the bundle has kind 5, the frame's address, which stands in r14 alone"]),
    ("1 5 14", ["misfit 14", "at 3000", "bytes 5 0 1 0 0 0 0 0 0 0 0 0"], ["row 5, r14: bytes 05000100", "wrong: the entry at byte 3000 of the bundle breaks a rule above"]),
    ("1 5 32", ["misfit 32", "at 3000", "bytes 5 0 0 0 0 0 0 0"], ["row 5, note: bytes 05000000", "wrong: the note at byte 3000 of the bundle breaks a rule above"]),
    ("21 0 0", ["part entry", "misfit 34", "at 500", "bytes 1 0 8 0 0 0 0 0 0 0 0 0"],
     ["entry row, [%sp+100]: bytes 01000800", "wrong: the entry at byte 500 of the bundle is set: all six scratch words are unset at the start"]),
    ("21 0 0", ["part entry", "misfit 34", "at 500", "bytes 0 0 8 0 0 0 0 0 0 0 0 0"], ["wrong: the entry at byte 500 of the bundle breaks a rule above"]),
    ("21 0 0", ["part result", "at 500", "bytes 5 0 0 0 0 0 0 0 0 0 0 0"],
     ["result entry: bytes 05000000", "wrong: the entry at byte 500 of the bundle has kind 5, the frame's address, which stands in r14 alone"]),
    ("23 0 0", ["length 62469", "part size"], ["wrong: it has 62469 bytes, and a bundle has at most 62,468"]),
    ("23 0 0", ["length 8", "part head", "at 0"], ["wrong: it has 8 bytes, and they do not begin with the mark WTR and version 1 or 2"]),
    ("25 0 14", ["alu 0 0 14 14 1 -96"], ["wrong: it would write r14, %o6, the stack pointer, which is the caller's"]),
]


@cases()
def items_of_the_frame():
    data = read(EXAMPLES, "axles", "bundle.bin")
    names, _ = bundle.names_of(os.path.join(EXAMPLES, "axles"), explain.policy_of(data))
    for answer, items, expected in SAID:
        number, at, _ = (int(part) for part in answer.split())
        named = [] if number in (1, 21, 23) else [f"word {at} {layout.open_bundle(data)[3][at]}"]
        lines = explain.detail_lines(data, names, explain.said_of([answer, *named, *items], OLDER))
        lost = [text for text in expected if not any(line.startswith(text) for line in lines)]
        yield f"what is said of {answer}: {expected[-1]}", lost == [], "\n".join(lines)
        yield f"the card has {number}", explain.card_entry(number).startswith(f"{number}:"), ""
    old = explain.form_lines(b"WTR\0\1" + bytes(60000), explain.said_of(["23 0 0", "length 60005", "part size"], OLDER))
    yield "the most bytes of version 1", old == ["wrong: it has 60005 bytes, and a bundle of version 1 has at most 53,180"], str(old)


@cases(KINDS)
def kinds_with_a_frame():
    status, out, said = called("kinds.py", "--table", os.path.join(EXAMPLES, "axles", "bundle.bin"))
    pointers = {line.split()[-3][6] for line in out.splitlines()[1:] if not line.endswith(")")}
    yield "kinds.py has the frame's address as unset", (status, said, pointers) == (0, "", {"-"}), out + said
    for version in 1, 2:
        with example() as folder:
            write(made_in(version), folder, "bundle.bin")
            given = called("kinds.py", os.path.join(folder, "bundle.bin"))
            write(noisy(made_in(version)), folder, "bundle.bin")
            yield f"kinds.py with a bundle of version {version}", given == called("kinds.py", os.path.join(folder, "bundle.bin")) and given[0] == 0, given[1] + given[2]


# The pace of a gate

GATE = """\
fn v8::read::read_word: proved
rt: v8 proved
pace: v8 proved in 21 s
pace: v8/short_range tried in 19 s
rt: rules: trying its must-fail edits (2)
pace: rules proved in 30 s
pace: rules proved in 3 s
rt: rules proved
rt: answer proved
pace: answer proved in 12 s
pace: rules/wide tried in 1190 s
pace: rules/no_bound tried in 25 s
rt: must-fail v8/short_range.edit: refused, as it must be: proofs/read/Answers.antt:3:5: error: no (2 s)
rt: must-fail rules/no_bound.edit: refused, as it must be
rt: must-fail rules/wide.edit: refused, as it must be (only by a limit of the prover): specs/Rules.antt:1:1: error: old; new
rt: answer ran, and wrote what its file stdout has
pace: answer ran in 1 s
rt: answer ran (built by Rattle's own compiler), and wrote what its file stdout has
pace: answer ran in 0 s
rt: ok; handles allowed: none; must-fail edits: 3 refused, 1 of them only by a limit; every proof and must-fail edit was done in this run
6 passed, 0 failed
pace: the gate took 660 s
"""
GATE_SHOWN = """\
crate   proved  edits  tried  longest  total
rules       33      2  1,215    1,190  1,248
v8          21      1     19       19     40
answer      12      0      0        0     12

crates: 3, 66 s
edits: 3, 1,234 s
programs run: 1, 1 s
sum: 1,301 s; shared by 2 jobs 10.8 minutes
the gate took 11.0 minutes
"""
# Later: results is new and has rules/wide, answer is gone, v8/short_range too
LATER = """\
rt: v8 proved
pace: v8 proved in 20 s
rt: rules proved
pace: rules proved in 11 s
pace: results proved in 41 s
rt: results proved
pace: rules/no_bound tried in 9 s
pace: results/wide tried in 20 s
rt: must-fail rules/no_bound.edit: refused, as it must be
rt: must-fail results/wide.edit: refused, as it must be
rt: ok; handles allowed: none; must-fail edits: 2 refused; every proof and must-fail edit was done in this run
5 passed, 0 failed
"""
LATER_SHOWN = """\
crate    proved  edits     tried   longest      total
results  41 +41   1 +1    20 +20    20 +20     61 +61
rules    11 -22   1 -1  9 -1,206  9 -1,181  20 -1,228
v8        20 -1   0 -1     0 -19     0 -19     20 -20
"""
# A gate of which an earlier run proved v8, and tried its edit
PARTLY = """\
rt: v8 is kept: an earlier run on this machine proved the same files over the same libraries
pace: rules proved in 12 s
rt: rules proved
pace: rules proved for its edits in 8 s
pace: rules/wide tried in 9 s
rt: v8: 1 of its 1 must-fail edits were tried by an earlier run on this machine, and nothing that they stand on has changed
rt: must-fail v8/short_range.edit: refused, as it must be
rt: must-fail rules/wide.edit: refused, as it must be
rt: rules and the crates below passed, and that is kept. This is not the gate: run rt ci with no names
4 passed, 0 failed (rules and the crates below alone: not the gate)
"""
PARTLY_SHOWN = """\
crate  proved  edits  tried  longest  total
rules      12      1     17        9     29

crates: 1, 12 s
edits: 2, 17 s
programs run: 0, 0 s
sum: 29 s; shared by 2 jobs 0.2 minutes
proved by an earlier run: 1 crates
"""


def paced(log, *options, old=None):
    """What pace.py prints of a log, or the problem that it has with it."""
    out = io.StringIO()
    with tempfile.TemporaryDirectory() as folder:
        for name, text in (("log", log), ("old", old or "")):
            write(text.encode() if isinstance(text, str) else text, folder, name)
        before = ["--before", os.path.join(folder, "old")] if old is not None else []
        try:
            with contextlib.redirect_stdout(out):
                pace.main([*before, *options, os.path.join(folder, "log")])
        except script.Problem as problem:
            return str(problem)
    return out.getvalue()


@cases()
def times_of_a_gate():
    given = paced(GATE)
    yield "the table of a gate", given == GATE_SHOWN, given
    yield "the same from lines with CR LF", paced(GATE.replace("\n", "\r\n")) == GATE_SHOWN, ""
    for jobs, expected in [("1", "21.7"), ("4", "5.4")]:
        given = paced(GATE, "--jobs", jobs)
        yield f"the estimate for {jobs} jobs", f"; shared by {jobs} jobs {expected} minutes\n" in given, given
    given = paced(GATE, "--bars")
    yield "what is over the bars", given == GATE_SHOWN + "gate over 40.0 minutes: none\ncrates over 40 s: none\nedits over 20 s: rules/wide 1190 s, rules/no_bound 25 s\n", given
    given = paced(LATER.replace(" in 20 s", " in 5000 s"), "--bars")
    yield "a gate that is over the bar", "gate over 40.0 minutes: 83.8 minutes\ncrates over 40 s: v8 5000 s, results 41 s\nedits over 20 s: results/wide 5000 s\n" in given, given
    for what, line, expected in [
            ("a crate that is not proved", "rt: policy NOT PROVED\npace: policy proved in 7 s\nrt: FAILED: policy", "crates: 4, 73 s"),
            ("a crate whose library failed", "rt: policy NOT PROVED: its library v8 failed\nrt: FAILED: policy", "crates: 4, 66 s"),
            ("an edit that is not refused", "pace: v8/x tried in 7 s\nrt: must-fail v8/x.edit: NOT REFUSED: the crate is still proved with this edit\nrt: FAILED: v8/x.edit", "edits: 4, 1,241 s"),
            ("an edit that is none", "rt: must-fail v8/x.edit: BAD EDIT: it has no 'old:' and 'new:' pair\nrt: FAILED: v8/y.edit", "edits: 4, 1,234 s"),
            ("a program that failed", "rt: rules: what the program wrote, out/stdout, is less than its file stdout\npace: rules ran in 7 s\nrt: FAILED: rules (run)", "programs run: 2, 8 s"),
            ("two that failed", "rt: rules ran, and wrote what its file stdout has\npace: rules ran in 7 s\nrt: FAILED: y (tests) z", "programs run: 2, 8 s")]:
        given = paced(re.sub("rt: ok.*", line, GATE))
        failed = line.rpartition("FAILED: ")[2].replace(" z", ", z")
        yield f"a log with {what}", f"\n{expected}\n" in given and given.endswith(f"\nfailed: {failed}\n"), given
    given = paced(GATE[:GATE.index("rt: answer ran")])
    yield "a log that is cut off", given.endswith("\nthe log has no end: what the gate did then is not counted\n"), given
    given = paced("rt: v8 proved\npace: v8 proved in 2 s\nrt: v8 and the crates below passed, and that is kept.\n1 passed, 0 failed (v8 and the crates below alone: not the gate)\n")
    yield "a log of some crates", "sum: 2 s; shared by 2 jobs 0.0 minutes\n" in given and "the log has no end" not in given, given
    given = paced(PARTLY)
    yield "a log of what an earlier run has not proved", given == PARTLY_SHOWN, given


@cases()
def times_of_two_gates():
    given = paced(LATER, old=GATE)
    yield "the table beside an old one", given.startswith(LATER_SHOWN), given
    yield "the totals beside old ones", """
crates: 3 (+0), 72 s (+6)
edits: 2 (-1), 29 s (-1,205)
programs run: 0 (-1), 0 s (-1)
sum: 101 s (-1,200); shared by 2 jobs 0.8 minutes, 10.8 minutes before
new crates: results
crates gone: answer
edits moved: rules/wide to results/wide
edits gone: v8/short_range
""" in given, given
    given = paced(GATE, old=GATE)
    yield "no difference", given.endswith("\nnew crates: none\ncrates gone: none\nedits moved: none\nedits gone: none\n"), given
    yield "the time that two gates took", "\nthe gate took 11.0 minutes, 11.0 minutes before\n" in given, given
    yield "bars after differences", paced(LATER, "--bars", old=GATE).endswith("short_range\ngate over 40.0 minutes: none\ncrates over 40 s: results 41 s\nedits over 20 s: none\n"), ""
    given = paced(GATE, old=PARTLY)
    right = "\nrules   33 +21   2 +1  1,215 +1,198  1,190 +1,181  1,248 +1,219\nv8          21      1            19            19            40\n" in given
    yield "a crate that the old gate did not prove", right and "new crates: answer\ncrates gone: none\n" in given, given
    for what, names, old, expected in [
            ("two of a label, one moved", ["c/x"], ["a/x", "b/x"], ({"a/x": "c/x"}, ["b/x"])), ("two of a label, one stays", ["a/x"], ["a/x", "b/x"], ({}, ["b/x"])),
            ("one that moved, and one more", ["b/x", "c/x"], ["a/x"], ({"a/x": "b/x"}, [])), ("another label in the crate", ["a/y"], ["a/x"], ({}, ["a/x"]))]:
        given = pace.moved(*(pace.Gate({}, dict.fromkeys(edits, 1), {}, {}, {}, {}, None, []) for edits in (names, old)))
        yield f"edits: {what}", given == expected, repr(given)


@cases()
def logs_that_are_none():
    for what, log, expected in [
            ("no bytes", b"", "log is empty"), ("no UTF-8", b"rt: v8 proved\n\xff", "log, line 2: byte FF "), ("no line of rt", "v8 proved\n", "log tells of no crate"),
            ("an end alone", "rt: ok; handles allowed: none\n", "log tells of no crate"),
            ("a form that is not known", GATE.replace("v8 proved in", "v8 is proved in"), "log, line 3: `pace: v8 is proved in 21 s` is no line of pace.py"),
            ("seconds that are none", GATE.replace(" 21 s", " 2,1 s"), "log, line 3: `pace: v8 proved in 2,1 s` is no line of pace.py"),
            ("no times", re.sub("pace: .*\n", "", GATE), "log tells no times: `pace.py --run LOG` writes a log that does"),
            ("no beginning", GATE[GATE.index("rt: must-fail"):], "log, line 9: the log's end tells 6 crates and edits, and its lines 3"), ("a gate twice", GATE * 2, "log, line 24: the log goes on after its end"),
            ("a crate twice", "rt: v8 proved\n" * 2, "log, line 2: v8 is told a second time"),
            ("an edit twice", GATE.replace("rules/no_bound.edit", "v8/short_range.edit"), "log, line 14: v8/short_range is told a second time"),
            ("a crate that is missing", GATE.replace("rt: answer proved\n", ""), "log, line 20: the log's end tells 6 crates and edits, and its lines 5"),
            ("an edit that is missing", re.sub("rt: must-fail v8.*\n", "", GATE), "log, line 20: the log's end tells 6 crates and edits, and its lines 5")]:
        given = paced(log)
        yield f"a log with {what}", given.startswith(expected), given
        if what != "no bytes":
            given = paced(GATE, old=log)
            yield f"an old log with {what}", given.startswith(expected.replace("log", "old", 1)), given
    for options in ["--bar"], ["--jobs", "x"], ["--jobs", "-1"], ["--jobs"]:
        yield f"pace.py {' '.join(options)} LOG", refused(pace.main, [*options, os.path.join(ROOT, "README.md")]), ""


@cases()
def processes_of_a_gate():
    check, labels = "/kit/rattle check --crate-name v8 src/lib.rt", ["no_bound", "wide"]
    for what, words, place, known, expected in [
            ("a crate", f"{check} --jobs 2", "/x/crates/v8", labels, ("crates", "v8")),
            ("a crate over what was kept", f"{check} --incremental out/incremental", "/x/crates/v8", labels, ("crates", "v8")),
            ("a library", "rattle build --crate-name v8 src/lib.rt -o out/rlib/v8.rlib", "/x/crates/v8", labels, ("crates", "v8")),
            ("an edit", f"{check} --incremental /x/rt-edits-7-x/1", "/x/rt-edit-7-y", labels, ("edits", "v8/wide")),
            ("an edit that is gone", f"{check} --incremental /x/rt-edits-7-x/2", "/x/rt-edit-7-y", labels, ("bases", "v8")),
            ("what edits begin with", f"{check} --incremental /x/rt-edits-7-x/seed", "/x/rt-edit-7-y", labels, ("bases", "v8")),
            ("the one edit, from nothing", check, "/x/rt-edit-7-y", labels[1:], ("edits", "v8/wide")),
            ("one of two edits, from nothing", check, "/x/rt-edit-7-y", labels, ("bases", "v8")),
            ("rt", "python3 rt check v8", "/x", labels, None), ("another program", check.replace("rattle", "rattling"), "/x", labels, None),
            ("a command without a crate", "rattle fmt src/lib.rt --check", "/x", labels, None), ("one that has ended", "", "", labels, None)]:
        given = pace.check_of(words.split(), place, lambda crate: known)
        yield f"a process that checks {what}", given == expected, repr(given)
    with tempfile.TemporaryDirectory() as folder:
        os.makedirs(os.path.join(folder, "v8", "must-fail"))
        for name in ("wide.edit", "no_bound.edit", "notes.md"):
            write(b"", folder, "v8", "must-fail", name)
        given = pace.edits_of("v8", folder), pace.edits_of("alu", folder)
        yield "the edits of a crate", given == (labels, []), repr(given)
    given = sorted(pace.below(1, {(2, "a"): 1, (3, "b"): 2, (4, "c"): 9, (5, "d"): 4}))
    yield "the processes below one", given == [(2, "a"), (3, "b")], repr(given)


@cases("sleep")
def gates_that_are_run():
    lines = "rt: v8 proved\nrt: ok; handles allowed: none\n1 passed, 0 failed\n"
    printed = "fn v8::read::read_word: proved\n" + lines
    with tempfile.TemporaryDirectory() as folder:
        log, rattle = os.path.join(folder, "log"), os.path.join(folder, "rattle")
        os.symlink(sys.executable, rattle)
        command = f"'{rattle}' check --crate-name v8; printf '%s' '{printed}'; exit 3"
        write(b"import time; time.sleep(2)\n", folder, "check")
        status, out, said = called("pace.py", "--run", log, "sh", "-c", f"cd '{folder}'; {command}")
        held = read(log).decode()
        yield "a gate's lines and its status", (status, out, said) == (3, printed, ""), f"{status} {out} {said}"
        told = re.sub(r"pace: v8 proved in [123] s\n", "", held, count=1)
        yield "a gate's log", told != held and re.fullmatch(rf"{re.escape(lines)}pace: the gate took [234] s\n", told), held
        given = paced(held)
        yield "the times of a gate that was run", re.match(r"crate  proved .*\nv8          [123] ", given), given
    status, out, said = called("pace.py", "--run", os.path.join(folder, "none", "log"))
    yield "a log in no folder", one_line("pace.py", status, out, said), said


# Names in the documents

# A product that is made here, with the names that its files declare.
SOURCES = {
    "crates/one/specs/Read.antt": {"reading_of", "format_of"}, "crates/one/specs/Laws.antt": {"ReadsSound"},
    "crates/one/src/lib.rt": {"read_word"}, "crates/two/specs/Step.antt": {"step_of"}, "crates/two/proofs/Steps.antt": {"step_sound"},
    "crates/two/src/step.rt": {"one_step"}, "tools/read.py": {"read_all"},
}
NAMED = naming.Product(["one", "two"], {"one/wide", "two/short"}, {"read-twice"}, {*SOURCES, "docs/PAGE.md", "examples/sum", "examples/sum/rows.txt"}, SOURCES)
# Text in which every name is right, and what is reported where a part of it is replaced by another, with the line in which that stands.
PAGE = """# A page

Reading is `one` Read: `reading_of`, `format_of`; Laws: `ReadsSound`, and a step is `two` Step, `step_of`. It rests
on `one`'s `read_word`, on `two`: `one_step` and on the law `ReadsSound`; see `step_sound` of `two`, `sum` and `cmp`.

    `nothing` is read here

1. In `one` is `specs/Read.antt` (`format_of`), in `two` is `one_step` of `src/step.rt`,
   and in `crates/two/specs/Step.antt`: `step_of`. `Read.antt`, `specs/`, `two/proofs/Steps.antt`, `tools/read.py`,
   `read.py`, `docs/PAGE.md` and `rows.txt` are files; `step_of (reading_of w)` and `read_all` are names.

| sentence | definition | wrong versions that are told apart |
|---|---|---|
| "Read" | `one` Read; Laws | read-twice, and so on |
| edit `one/wide` | `two` Step: `step_of`; `one` Read: `reading_of` | |
"""
WRONG_NAMES = [
    ("a crate", "`one` Read: `reading_of`, `f", "`ten` Read: `reading_of`, `f", 3, "`ten` is no crate of crates.txt"),
    ("a crate of a definition", "`two` Step: `step_of`; `one`", "`ten` Step: `step_of`; `one`", 15, "`ten` is no crate of crates.txt"),
    ("a module", "`one` Read: `reading_of`, `f", "`one` Reed: `reading_of`, `f", 3, "there is no crates/one/specs/Reed.antt"),
    ("a module of another crate", "; `one` Read: `reading_of` |", "; Read: `reading_of` |", 15, "there is no crates/two/specs/Read.antt"),
    ("a module after a semicolon", "; Laws: `ReadsSound`", "; Law: `ReadsSound`", 3, "there is no crates/one/specs/Law.antt"),
    ("a module without names", "`one` Read; Laws |", "`one` Read; Step |", 14, "there is no crates/one/specs/Step.antt"),
    ("a definition", "`reading_of`, `format_of`;", "`reading_of`, `form_of`;", 3, "`form_of` is not declared in crates/one/specs/Read.antt"),
    ("a definition of another module", "`reading_of`, `format_of`;", "`ReadsSound`, `format_of`;", 3, "`ReadsSound` is not declared in crates/one/specs/Read.antt"),
    ("a definition after a comma", "Step, `step_of`", "Step, `reading_of`", 3, "`reading_of` is not declared in crates/two/specs/Step.antt"),
    ("a definition in a table", "Step: `step_of`;", "Step: `one_step`;", 15, "`one_step` is not declared in crates/two/specs/Step.antt"),
    ("a name of another crate", "`one`'s `read_word`", "`two`'s `read_word`", 4, "`read_word` is not declared in two"),
    ("a name after a crate and a colon", "`two`: `one_step`", "`two`: `read_word`", 4, "`read_word` is not declared in two"),
    ("a name of a crate that is named after it", "`step_sound` of `two`", "`step_sound` of `one`", 4, "`step_sound` is not declared in one"),
    ("a law", "law `ReadsSound`", "law `reading_of`", 4, "`reading_of` is not declared in the specs/Laws.antt of any crate"),
    ("a name of a file", "(`format_of`)", "(`step_of`)", 8, "`step_of` is not declared in crates/one/specs/Read.antt"),
    ("a name before its file", "`one_step` of `src", "`step_of` of `src", 8, "`step_of` is not declared in crates/two/src/step.rt"),
    ("a name after its file", "antt`: `step_of`", "antt`: `one_step`", 9, "`one_step` is not declared in crates/two/specs/Step.antt"),
    ("a name of nothing", "`read_all`", "`read_none`", 10, "`read_none` is declared nowhere"),
    ("a word of nothing", "`sum`", "`total`", 4, "`total` is declared nowhere"),
    ("a name among others", "`step_of (reading_of w)`", "`step_of (read_of w)`", 10, "`read_of` is declared nowhere"),
    ("an edit", "`one/wide`", "`one/narrow`", 15, "there is no edit `one/narrow`"),
    ("an edit of another crate", "`one/wide`", "`two/wide`", 15, "there is no edit `two/wide`"),
    ("an edit of no crate", "`one/wide`", "`ten/wide`", 15, "`ten/wide`: `ten` is no crate of crates.txt"),
    ("a file of a crate", "`src/step.rt`", "`src/lib.rt`", 8, "there is no `src/lib.rt` in `two`, the crate named before it"),
    ("a path", "`crates/two/specs/Step.antt`", "`crates/one/specs/Step.antt`", 9, "there is no `crates/one/specs/Step.antt`"),
    ("a path in crates/", "`two/proofs/Steps.antt`", "`one/proofs/Steps.antt`", 9, "there is no `one/proofs/Steps.antt`"),
    ("a tool", "`tools/read.py`", "`tools/reed.py`", 9, "there is no `tools/reed.py`"),
    ("a file of tools/", "`read.py`", "`reed.py`", 10, "there is no `reed.py`"),
    ("a file of specs/", "`Read.antt`", "`Reed.antt`", 9, "there is no specs/Reed.antt in any crate"),
    ("a document", "`docs/PAGE.md`", "`docs/PAPER.md`", 10, "there is no `docs/PAPER.md`"),
    ("a file of an example", "`rows.txt`", "`row.txt`", 10, "there is no `row.txt`"),
    ("a wrong version", "| read-twice,", "| read-once,", 14, "read-once is no wrong version that tools/plain lists"),
]


@cases()
def names_in_documents():
    found, texts = naming.findings(), "\n".join(naming.documents().values())
    yield "the names in the documents", found == [], "\n".join(found)
    unused = [name for name in sorted(naming.OUTSIDE_NAMES) if not re.search(rf"`(?:[^`]* )?{re.escape(name)}(?: [^`]*)?`", texts)]
    yield "the names that are not the product's are used", unused == [], " ".join(unused)


@cases()
def names_that_are_wrong():
    given = naming.wrong_in(NAMED, "x.md", PAGE)
    yield "a page without a wrong name", given == [], "\n".join(given)
    for what, old, new, line, expected in WRONG_NAMES:
        given = naming.wrong_in(NAMED, "x.md", PAGE.replace(old, new, 1))
        yield f"a page with a wrong name: {what}", PAGE.count(old) and given == [f"x.md, line {line}: {expected}"], "\n".join(given)
    for what, trace, architecture, expected in [
            ("nothing", "`one/wide`, `two/short`", "`one`, `two`", []),
            ("an edit", "`one/wide`, `two/shorter`", "`one`, `two`", ["docs/TRACE.md does not name the edit two/short"]),
            ("a crate", "`one/wide`, `two/short`", "`one`", ["docs/ARCHITECTURE.md does not name the crate two"])]:
        given = naming.missing_in(NAMED, trace, architecture)
        yield f"pages that leave out {what}", given == expected, "\n".join(given)


@cases()
def names_that_are_declared():
    for what, reader, text, expected in [
            ("definitions", naming.names_of_antt, "-- a : b\npub mod Read\nuse Read.{x}\nabbrev pub is_r : ℕ → Bool\nis_r n = y\n  unfoldable pub at : ℕ\n"
             "pub record Row (n : ℕ) : Type 0 where\n  pub lo hi : ℕ\nstep_sound :\n    (a : ℕ) → b\n", "Read is_r at Row lo hi step_sound"),
            ("code", naming.names_of_rt, "// fn no\nuse a::b;\npub const MOST: u8 = 1;\npub struct Row {\n    pub at: u8,\n}\npub enum End {\n    Spent,\n    Fault(u8),\n}\n"
             "fn one_step(x: u8) -> u8 {\n    let y = x;\n}\nmod edges;\n", "MOST Row at End Spent Fault one_step edges"),
            ("a script", naming.names_of_py, "import os\nMOST = 1\nA, B = 1, 2\nclass Row:\n    def read(self):\n        x = 1\n", "MOST A Row read")]:
        given = reader(text)
        yield f"the names that are declared in {what}", given == set(expected.split()), " ".join(sorted(given))
    with tempfile.TemporaryDirectory() as root:
        for path, text in [("crates.txt", "# Words.\nv8:\nalu: v8\n"), ("README.md", "`v8` Read: `read_of`\n"), ("docs/TRACE.md", "`v8`\n"), ("docs/ARCHITECTURE.md", "`v8`\n"),
                           ("crates/v8/specs/Read.antt", "reading_of : ℕ\n"), ("crates/v8/must-fail/wide.edit", ""), ("tools/plain/mutants.txt", "The versions.\n\nread-twice\n- x\n"),
                           ("crates/v8/out/x.py", "def read(): 1\n"), ("crates/v8/proofs/read/Answers.antt", "read_lem : ℕ\n")]:
            os.makedirs(os.path.join(root, os.path.dirname(path)), exist_ok=True)
            write(text.encode(), root, path)
        product, given = naming.product_of(root), naming.findings(root)
    right = (product.crates, product.edits, product.versions, product.declared) == (["v8", "alu"], {"v8/wide"}, {"read-twice"}, {"crates/v8/specs/Read.antt": {"reading_of"}, "crates/v8/proofs/read/Answers.antt": {"read_lem"}})
    yield "a product that is read", right and "crates/v8/out/x.py" not in product.paths, str(product)
    yield "a product and its documents", given == [
        "README.md, line 1: `read_of` is not declared in crates/v8/specs/Read.antt", "docs/TRACE.md does not name the edit v8/wide",
        "docs/ARCHITECTURE.md does not name the crate alu"], "\n".join(given)


# How the tools are called, and where

@cases()
def wrong_calls():
    name = os.path.join(EXAMPLES, "name")
    for tool, arguments in [
            ("bundle.py", []), ("bundle.py", [name, name]), ("bundle.py", ["--lst", name]), ("bundle.py", [os.path.join(ROOT, "none")]),
            ("bundle.py", [os.path.join(ROOT, "README.md")]), ("bundle.py", ["--list", EXAMPLES]),
            ("explain.py", []), ("explain.py", [name, "7", "6", "10"]), ("explain.py", [os.path.join(ROOT, "none")]),
            ("explain.py", [EXAMPLES]), ("explain.py", ["--edition", "9"]), ("explain.py", ["--edition", "10", name]),
            ("bundle.py", ["--edition", name]), ("bundle.py", ["--version", name]), ("bundle.py", ["--version", "3", name]), ("kinds.py", ["--edition", "v9", name]), ("kinds.py", []), ("kinds.py", ["--table"]), ("kinds.py", [name, name]), ("kinds.py", ["--tabel", name]),
            ("kinds.py", [os.path.join(ROOT, "none")]), ("kinds.py", [EXAMPLES]), ("parts.py", ["x"]), ("listings.py", ["x"]), ("vectors.py", ["x"]),
            ("corpus.py", ["x"]), ("corpus.py", ["none", "none"]), ("corpus.py", ["9", "none", "none"]),
            ("corpus.py", ["7", os.path.join(name, "bundle.bin"), os.path.join(name, "answer.txt")]), ("mutants.py", ["x"]), ("runs.py", ["x", "y"]), ("runs.py", ["none"]), ("speed.py", ["x"]),
            ("tables.py", ["x", "y"]), ("tables.py", ["none"]), ("tables.py", [os.path.join(ROOT, "README.md")]),
            ("routines.py", ["x"]), ("routines.py", ["--answers"]), ("routines.py", ["--answers", "none"]), ("routines.py", ["--answers", os.path.join(ROOT, "none.py")]),
            ("found.py", []), ("found.py", ["8", "none"]), ("found.py", ["8", "none", "none"]), ("found.py", ["--every", "0", "8", "none", "none"]),
            ("found.py", ["7", os.path.join(name, "bundle.bin"), os.path.join(name, "answer.txt")]),
            ("bundle.py", ["--rows"]), ("bundle.py", ["--rows", EXAMPLES]), ("bundle.py", ["--rows", "--version", "1", name]),
            ("searches.py", ["x", "y"]), ("searches.py", ["none"]), ("searches.py", [os.path.join(ROOT, "README.md")]),
            ("pace.py", []), ("pace.py", ["none"]), ("pace.py", ["x", "y"]), ("pace.py", ["--bars"]), ("pace.py", ["--before", "none"]), ("pace.py", ["--jobs", "0", "none"]), ("pace.py", ["--run"]), ("pace.py", ["--run", "--bars"]),
            ("pace.py", [os.path.join(ROOT, "README.md")]), ("naming.py", ["x"])]:
        status, out, said = called(tool, *arguments)
        yield f"{tool} {' '.join(arguments)[:60]}", one_line(tool, status, out, said), f"{status} {out} {said}"


@cases(EXPLAIN)
def bundles_to_explain():
    plain = {"LC_ALL": "C", "PYTHONUTF8": "0", "PYTHONCOERCECLOCALE": "0", "PYTHONIOENCODING": "ascii"}
    with example("name-one-past") as folder:
        whole = read(folder, "bundle.bin")
        broken = whole[:-8] + b"\x09" + whole[-7:]
        less = struct.pack(">I", words_of("name-one-past")[5])
        carry = whole.replace(less, struct.pack(">I", 0x1A800000 | int.from_bytes(less, "big") & 0x3FFFFF), 1)
        privileged, unread = (whole.replace(less, struct.pack(">I", word), 1) for word in (0xC4820141, 0x40000000))
        for what, data, answer, expected in [
                ("an empty bundle", b"", "23 0 0", "wrong: it has 0 bytes, and they do not begin with the mark WTR"),
                ("a bundle cut off", whole[:-1], "23 0 0", f"wrong: it has {len(whole) - 1} bytes, and its counts give {len(whole)}"),
                ("a region of 41 bytes", whole[:9] + b"\x29" + whole[10:], "19 0 0", "wrong: region 0, at byte 8 of the bundle: size 41"),
                ("a call in the place of bl", unread, "2 5 0", "wrong: this is no instruction of the subset"),
                ("lda in the place of bl", privileged, "24 5 0", "wrong: this is lda, which only the supervisor may run"),
                ("bcc in the place of bl", carry, "7 6 10", "not narrowed: bcc never narrows: only be, bne, bl, bge, ble and bg do"),
                ("a note of kind 9", broken, "1 8 32", f"wrong: the note at byte {len(whole) - 8} of the bundle")]:
            write(data, folder, "bundle.bin")
            status, out, said = called("explain.py", folder)
            right = status == 0 and out.startswith(answer + "\n") and expected in out and not said
            yield f"explain.py with {what}", right and (answer[:2] != "23" or out.count("\n") <= 10), out + said
        status, out, said = called("explain.py", folder, env={**os.environ, **plain})
        yield "explain.py in a locale without UTF-8", status == 0 and "\u2212" in out, out + said
        write(whole, folder, "bundle.bin")
        write(read(EXAMPLES, "sum", POLICY), folder, POLICY)
        status, out, said = called("explain.py", folder)
        yield "explain.py with another policy.txt", status == 0 and "(policy.txt is not the policy of bundle.bin" in out, out + said
        write(b"region \xff\n", folder, POLICY)
        status, out, said = called("explain.py", folder)
        right = one_line("explain.py", status, out, said) and said.startswith("explain.py: policy.txt, line 1: byte FF ")
        yield "explain.py with a policy.txt that is no UTF-8", right, said
        status, out, said = called("explain.py", os.path.join(folder, "bundle.bin"))
        yield "explain.py with a bundle alone", status == 0 and "wrong: byte 30 is not in field 0 of region0" in out, out + said


@cases()
def bundles_to_list():
    with example() as folder:
        whole = read(folder, "bundle.bin")
        for what, data, expected in [("no bytes", b"", "bundle.bin is not a bundle: it has 0 bytes"),
                                     ("another mark", b"X" + whole[1:], "bundle.bin is not a bundle: it does not begin with WTR"),
                                     ("a byte too much", whole + b"\0", f"bundle.bin is not a bundle: it has {len(whole) + 1} bytes")]:
            write(data, folder, "bundle.bin")
            said = problem_of("--list", folder)
            yield f"bundle.py --list with {what}", said.startswith(expected), said
        write(whole, folder, "bundle.bin")
        os.remove(os.path.join(folder, POLICY))
        with only_tool("other", ""):
            status, out, said = called("bundle.py", "--list", folder)
        right = status == 0 and "r8 = region0+0" in out and "(no disassembly" in out
        yield "bundle.py --list without policy.txt and objdump", right, out + said


@cases()
def places_to_run():
    plain = {"LC_ALL": "C", "PYTHONUTF8": "0", "PYTHONCOERCECLOCALE": "0", "PYTHONIOENCODING": "ascii"}
    with example("name-one-past") as folder:
        write("region für\n".encode(), folder, POLICY)
        status, out, said = called("bundle.py", folder, env={**os.environ, **plain})
        yield "bundle.py in a locale without UTF-8", one_line("bundle.py", status, out, said) and "`region für`" in said, said
    for path, what in (("/dev/full", "full"), (None, "closed")):
        if path is None or os.path.exists(path):
            with open(path, "wb") if path else closed_pipe() as out:
                done = subprocess.run([sys.executable, os.path.join(TOOLS, "bundle.py"), "--list", os.path.join(EXAMPLES, "name")],
                                      stdout=out, stderr=subprocess.PIPE)
            yield f"standard output that is {what}", done.returncode == 1 and b"Traceback" not in done.stderr, done.stderr.decode()


def closed_pipe():
    """A pipe that nobody reads."""
    ours, theirs = os.pipe()
    os.close(ours)
    return open(theirs, "wb", buffering=0)


# Help

def data_of_crates():
    folder = os.path.join(ROOT, "crates")
    paths = [os.path.join(folder, crate, name) for crate in sorted(os.listdir(folder)) for name in ("stdin", "stdout")]
    return [(path, os.stat(path).st_mtime_ns, read(path)) for path in paths if os.path.exists(path)]


@cases()
def help_is_given():
    before = data_of_crates()
    for tool in sorted(name for name in os.listdir(TOOLS) if name.endswith(".py")):
        is_script, runs = read(TOOLS, tool).startswith(b"#!"), os.access(os.path.join(TOOLS, tool), os.X_OK)
        yield f"{tool} has its run bit or is no script", is_script == runs, ""
        if is_script:
            status, out, said = called(tool, "--help")
            yield f"{tool} --help", status == 0 and out.startswith(f"{tool}: ") and f"    tools/{tool}" in out and not said, out + said
    yield "no data is written when help is asked for", before == data_of_crates(), ""


def tried(function):
    """The cases of a function; that it breaks off is one that failed."""
    try:
        yield from function()
    except Exception as problem:
        yield function.__name__.replace("_", " "), False, repr(problem)


def main(arguments):
    if arguments:
        raise script.Problem("call it as `test.py`, with no arguments")
    passed, failed, left = 0, 0, 0
    for function, needs in CASES:
        missing = [os.path.basename(need) for need in needs if not shutil.which(need)]
        if missing:
            left += 1
            print(f"left out: {function.__name__.replace('_', ' ')} ({', '.join(missing)} is not here)")
            continue
        for name, right, shown in tried(function):
            passed, failed = passed + bool(right), failed + (not right)
            if not right:
                print(f"failed: {name}\n{script.shown(shown)}".rstrip())
    print(f"{passed} passed, {failed} failed" + (f", {left} left out" if left else ""))
    if failed:
        script.end("", 1)


if __name__ == "__main__":
    script.run(main, __doc__)
