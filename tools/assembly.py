"""assembly.py: a routine's words and labels from GNU as for SPARC, and their text from objdump.

Debian: binutils-sparc64-linux-gnu. The object file is read here: what it has besides the words of .text would not be
in a bundle, and is a problem.
"""
import os
import re
import struct
import subprocess
import tempfile

import script
from script import Problem

BINUTILS = "sparc64-linux-gnu-"
SECONDS = 30  # for a tool to end
SOURCE = "routine.s"
# The processor by the edition, as the assembler and the disassembler call it.
PROCESSORS = {script.OLDER: ("-Av8", "sparc"), script.NEWER: ("-Av8plus", "sparc:v8plus")}
# Of an object file: 32-bit, most significant byte first, version 1; relocatable; SPARC, and the newer one with 32-bit addresses.
IDENT, RELOCATABLE, SPARC = b"\x7fELF\1\2\1", 1, (2, 18)
HEADER = struct.Struct(">16sHHIIIIIHHHHHH")
SECTION = struct.Struct(">10I")
SYMBOL = struct.Struct(">IIIBBH")
RELOCATION = struct.Struct(">IIi")
SYMBOLS, RELOCATIONS, EMPTY = 2, 4, 8   # types of sections; an empty one has no bytes in the file
LOADED = 2                              # a flag of sections
LABEL_TYPES = (0, 2)                    # types of symbols: none, function
COMMON = 0xFFF2                         # the section of a symbol that .comm makes
RETURN, NEVER = 0x81C3E008, 0           # retl; the condition of bn
# In a predicted branch, its codes: the 32-bit ones and the 64-bit ones.
ICC, XCC = 0, 2
# V8's privileged instructions: their names, by format and opcode.
PRIVILEGED = {
    (2, 0x29): "rd %psr", (2, 0x2A): "rd %wim", (2, 0x2B): "rd %tbr",
    (2, 0x31): "wr %psr", (2, 0x32): "wr %wim", (2, 0x33): "wr %tbr", (2, 0x39): "rett",
    (3, 0x10): "lda", (3, 0x11): "lduba", (3, 0x12): "lduha", (3, 0x13): "ldda",
    (3, 0x14): "sta", (3, 0x15): "stba", (3, 0x16): "stha", (3, 0x17): "stda",
    (3, 0x19): "ldsba", (3, 0x1A): "ldsha", (3, 0x1D): "ldstuba", (3, 0x1F): "swapa",
    (3, 0x26): "std %fq", (3, 0x36): "std %cq",
}
# The opcodes beside theirs that are not privileged.
BESIDE_PRIVILEGED = sorted({(form, opcode + k) for form, opcode in PRIVILEGED for k in (-1, 1)} - set(PRIVILEGED))


# Words

def opcode_of(word):
    """The format of a word and its opcode; formats 00 and 01 have none there."""
    return word >> 30, word >> 19 & 0x3F


def opcode_words(opcode):
    """The words of an opcode with every other bit 0, and with every other bit 1."""
    form, code = opcode
    least = form << 30 | code << 19
    return least, least | 31 << 25 | 0x7FFFF


# The tools

def run(tool, *arguments, **more):
    """Runs a tool of binutils, with its messages in English."""
    try:
        return subprocess.run([BINUTILS + tool, *arguments], capture_output=True, timeout=SECONDS,
                              env={**os.environ, "LC_ALL": "C"}, **more)
    except subprocess.TimeoutExpired:
        raise Problem(f"{BINUTILS}{tool} does not end within {SECONDS} seconds") from None
    except OSError:
        raise Problem(f"{BINUTILS}{tool} is not here or cannot be run: install GNU binutils for SPARC "
                      "(Debian: binutils-sparc64-linux-gnu)") from None


def assemble(folder, edition=script.OLDER):
    """The words of the folder's routine, and the word of each label."""
    source = script.read_lines(os.path.join(folder, SOURCE))
    with tempfile.TemporaryDirectory() as scratch:
        built = os.path.join(scratch, "routine.o")
        done = run("as", "-32", PROCESSORS[edition][0], "-o", built, input="\n".join(source).encode(), cwd=folder)
        said = done.stderr.decode("utf-8", "backslashreplace")
        if done.returncode != 0 or said.strip():
            raise Problem(as_messages(said, done.returncode) + edition_hint(said, edition))
        try:
            data = script.read_bytes(built)
        except Problem as problem:
            raise Problem(f"{BINUTILS}as gives no object file: {problem}") from None
    words, labels = words_in(data, source)
    if not words:
        raise Problem(f"{SOURCE} has no words: its .text is empty")
    return words, labels


def as_messages(said, status):
    """What the assembler says, each message with its file and line."""
    messages = []
    for line in said.splitlines():
        match = re.fullmatch(r"(.+?):(\d+): (?:Error: )?(.*)", line)
        if match:
            file = SOURCE if match[1] == "{standard input}" else os.path.basename(match[1])
            messages.append(f"{file}, line {match[2]}: {match[3]}")
        elif line.strip() and not line.endswith("Assembler messages:"):
            messages.append(f"{SOURCE}: {line.strip()}")
    return "\n".join(messages) or f"{BINUTILS}as ends with status {status} and says nothing"


def edition_hint(said, edition):
    """What to do where the assembler asks for a newer processor than the one that it was told."""
    asked = edition == script.OLDER and "requested architecture is v8" in said
    return "\n(the older terminal has no such instruction; `--edition 9` is for the newer one)" if asked else ""


def disassemble(words, edition=script.OLDER):
    """The text of each word; branch targets as word numbers. None without objdump."""
    with tempfile.NamedTemporaryFile(suffix=".bin") as raw:
        raw.write(b"".join(struct.pack(">I", word) for word in words))
        raw.flush()
        try:
            done = run("objdump", "-b", "binary", "-m", PROCESSORS[edition][1], "-EB", "-D", "-z", raw.name)
        except Problem:
            return None
    lines = re.findall(r"^ *[0-9a-f]+:\t(?:[0-9a-f]{2} ){4}\t(.*)$", done.stdout.decode("utf-8", "replace"), re.M)
    texts = [" ".join(text.split("!")[0].split()) for text in lines]
    if done.returncode != 0 or len(texts) != len(words):
        return None
    return [with_target(index, word, text, edition) for index, (word, text) in enumerate(zip(words, texts))]


def predicted_codes(word):
    """The codes of a predicted branch on integer codes, bits 21 and 20; None for other words."""
    return word >> 20 & 3 if word >> 30 == 0 and word >> 22 & 7 == 1 else None


def is_predicted(word, edition):
    """Whether a word is read as a predicted branch."""
    return edition == script.NEWER and predicted_codes(word) == ICC


def target_of(index, word, edition=script.OLDER):
    """The word that a branch at index may go to; None for other words."""
    if is_predicted(word, edition):
        distance = word & 0x7FFFF
        return index + distance - (distance >> 18 << 19)
    if word >> 30 != 0 or word >> 22 & 7 != 2:
        return None
    distance = word & 0x3FFFFF
    return index + distance - (distance >> 21 << 22)


def is_transfer(word, edition=script.OLDER):
    """Whether a word is a branch or the return, so that the word after it is its slot."""
    return word == RETURN or target_of(0, word, edition) is not None


def landings(words, edition=script.OLDER):
    """The slots that branches land on, each with the words of these branches. (A slot that is a branch or return is
    refused, and has none here.)"""
    found = {}
    for index, word in enumerate(words):
        target = target_of(index, word, edition)
        inside = target is not None and 0 < target < len(words) and word >> 25 & 15 != NEVER
        if inside and is_transfer(words[target - 1], edition) and not is_transfer(words[target], edition):
            found.setdefault(target, []).append(index)
    return found


def plain_slots(words, edition=script.OLDER):
    """The slots that no branch lands on: their rows are not read."""
    landed = landings(words, edition)
    return {k for k in range(1, len(words)) if is_transfer(words[k - 1], edition) and k not in landed}


def branches_text(branches):
    """That these words branch to a word: `word 3 branches`, `words 3 and 9 branch`."""
    *first, last = branches
    return f"words {', '.join(map(str, first))} and {last} branch" if first else f"word {last} branches"


def with_target(index, word, text, edition):
    """The text of a branch with the word that it may go to. (The disassembler leaves out the hint `,pt`.)"""
    target = target_of(index, word, edition)
    if target is None:
        return text
    name = text.split()[0]
    if is_predicted(word, edition):
        name = name.removesuffix(",pn").removesuffix(",pt") + (",pt" if word >> 19 & 1 else ",pn") + " %icc"
    return f"{name} to word {target}"


# The object file. A section is (name, type, flags, data, size, link, info), a symbol (name, value, type, section).

def words_in(data, source):
    """The words of an object file and the word of each label; source has the lines that it was made from."""
    try:
        sections = sections_in(data)
        symbols = [symbol for section in sections if section[1] == SYMBOLS for symbol in symbols_in(section, sections)]
        relocated = [(section[6], *each) for section in sections if section[1] == RELOCATIONS for each in relocations_in(section)]
        refuse_contents(sections, symbols, source)
        text = next((k for k, section in enumerate(sections) if section[0] == ".text"), None)
        refuse_relocations([each[1:] for each in relocated if each[0] == text], sections, symbols, source)
    except (struct.error, IndexError, UnicodeDecodeError):
        raise Problem(f"what {BINUTILS}as gives is no object file for SPARC") from None
    code = b"" if text is None else sections[text][3]
    if len(code) % 4:
        raise Problem(f"{SOURCE} gives {len(code)} bytes, which are no whole words")
    words = [word for word, in struct.iter_unpack(">I", code)]
    return words, {name: value // 4 for name, value, kind, section in symbols
                   if section == text and kind in LABEL_TYPES and name and value % 4 == 0 and value < len(code)}


def part(data, at, size):
    """So many bytes of data; struct.error if there are less."""
    return struct.unpack_from(f"{size}s", data, at)[0]


def name_at(names, at):
    """The name that begins there in a table of names."""
    end = names.find(b"\0", at)
    if end < 0:
        raise struct.error("name")
    return names[at:end].decode()


def sections_in(data):
    ident, kind, machine, _, _, _, at, _, _, _, _, _, count, names = HEADER.unpack_from(data)
    if (ident[:7], kind) != (IDENT, RELOCATABLE) or machine not in SPARC:
        raise struct.error("header")
    heads = [SECTION.unpack_from(data, at + SECTION.size * k) for k in range(count)]
    held = [b"" if kind == EMPTY else part(data, start, size) for _, kind, _, _, start, size, *_ in heads]
    return [(name_at(held[names], name), kind, flags, inside, size, link, info)
            for inside, (name, kind, flags, _, _, size, link, info, _, _) in zip(held, heads)]


def symbols_in(table, sections):
    names = sections[table[5]][3]
    return [(name_at(names, name), value, info & 15, section)
            for name, value, _, info, _, section in SYMBOL.iter_unpack(table[3])]


def relocations_in(table):
    """(offset, number of the symbol) of each."""
    return [(offset, info >> 8) for offset, info, _ in RELOCATION.iter_unpack(table[3])]


def refuse_contents(sections, symbols, source):
    """A bundle has the words of .text and nothing else."""
    others = [(name, f"{size} bytes in {name}") for name, _, flags, _, size, _, _ in sections
              if flags & LOADED and size and name != ".text"]
    others += [(name, f"common storage `{name}`") for name, _, _, section in symbols if section == COMMON]
    for name, what in others:
        raise Problem(f"{place(source, name.lstrip('.'), '[.]')}: {what}: a bundle has room for the words of .text alone")


def refuse_relocations(relocated, sections, symbols, source):
    """All words are as they will run: none waits for a linker."""
    for offset, number in relocated:
        name, _, _, section = symbols[number]
        what = f"{place(source, name, '(?![.]glob)')}: word {offset // 4}"
        if name and section == 0:
            raise Problem(f"{what} uses `{name}`, which is not defined")
        if not name and 0 < section < len(sections):
            name = sections[section][0]
        raise Problem(f"{what} needs the address{f' of `{name}`' if name else ''} that a linker would give; a routine has "
                      "none, and a label that it branches to is not .global")


def place(source, name, begin):
    """The file, and the first line with the name whose code has the beginning; the file alone if there is none."""
    for number, line in enumerate(source, 1):
        code = re.sub(r"^\s*[\w.$]+:", "", line.split("!")[0]).strip()
        if name and re.match(begin, code) and re.search(rf"(?<![\w$]){re.escape(name)}(?![\w.$])", code):
            return f"{SOURCE}, line {number}"
    return SOURCE
