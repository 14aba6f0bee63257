#!/usr/bin/env python3
"""spelling.py: respells the names of definitions and lemmas as today's Rattle does: words in snake case.

    tools/spelling.py FOLDER    respells the repository in FOLDER (the current one if left out), once: here it is done

`registerWritten` becomes `register_written`, and a lemma, a record's field or a constructor `by-least` becomes `by_least`.
Names of types, modules and facts, names of the library, names that Rattle makes, and all that is Rattle code, strings or
data stay. The script stops before it writes if two names would fall together.
"""
import os
import re
import sys

sys.dont_write_bytecode = True
import script

NAME = r"[^\s(){}\[\];,.:`\"|\\]+"
CAMEL = re.compile(r"(?<![\w'])[a-z][a-z0-9]*(?:[A-Z][a-z0-9]*)+'*(?![\w'])")
KEBAB = re.compile(r"(?<![\w'’-])[a-z0-9_]+(?:-[a-z0-9_]+)+'*(?![\w'-])")
DECLARED = re.compile(r"^((?:(?:abbrev|unfoldable|pub)\s+)*)([^\s(){}:;]+)((?:\s+[({][^)}]*[)}])*)\s+:(?=\s|$)")
FIELD = re.compile(r"^\s+(?:pub )?([a-z0-9_]+(?:-[a-z0-9_]+)+) :")

# Lemmas that would have their word's name, and a field that would hide a word in its record.
LEMMAS = re.compile(
    r"(?<![\w'.-])(entry_read|holds_as|in_field|in_frame|is_member|listed_by|most_bytes|only_zero|plain_step|read_number|size_in|walked_step)(?![\w'-])"
)
FIELDS = {
    "size_ok": ("size_passes", ("policy/specs/Laws.antt", "policy/proofs/Accepted.antt", "policy/proofs/RegionKept.antt")),
}


def snake(name):
    return re.sub(r"(?<=[a-z0-9])([A-Z])", lambda m: "_" + m.group(1), name).lower()


def files(root, ends):
    for top in ("crates", "docs", "README.md", "examples"):
        path = os.path.join(root, top)
        if os.path.isfile(path):
            yield path
        for folder, dirs, names in os.walk(path):
            dirs[:] = sorted(d for d in dirs if d not in ("out", "target"))
            yield from (os.path.join(folder, n) for n in sorted(names) if n.endswith(ends))


def read(path):
    with open(path, encoding="utf-8") as file:
        return file.read()


def is_proof(path):
    return path.endswith(("Proof.antt", "Answers.antt", "Invariants.antt"))


def declared(root):
    """The names with a dash that the repository itself declares for lemmas, fields and constructors."""
    names, library = set(), set()
    for path in files(root, (".antt", ".rt")):
        for line in read(path).split("\n"):
            use = re.match(r"\s*(?:pub |ghost )?use ([^{]*)\{(.*)\}", line)
            if use and not re.match(r"Rattle\.(?!std)", use.group(1)):
                library |= set(re.findall(NAME, use.group(2)))
            if path.endswith(".antt") and not is_proof(path):
                found = DECLARED.match(line) or FIELD.match(line)
                name = found and (found.group(2) if found.re is DECLARED else found.group(1))
                if name and KEBAB.fullmatch(name):
                    names.add(name)
    return names - library, library


def respell(text, dashed, library):
    text = CAMEL.sub(lambda m: m.group(0) if m.group(0) in library else snake(m.group(0)), text)
    return KEBAB.sub(lambda m: m.group(0).replace("-", "_") if m.group(0) in dashed else m.group(0), text)


def in_clauses(text, dashed, library):
    """Of a source file: its clauses, ghost items and comments, line by line; code and strings stay."""
    lines, depth = [], 0
    for line in text.split("\n"):
        starts = re.match(r"\s*(ghost|requires|ensures|decreases|//)", line)
        if starts or depth > 0:
            at = 0 if depth > 0 or starts else len(line)
            head, tail = line[:at], line[at:]
            line = head + respell(tail, dashed, library)
            if not line.lstrip().startswith("//"):
                depth = max(0, depth + line.count("{") - line.count("}"))
        else:
            code, slashes, comment = line.partition("// ")
            line = code + slashes + respell(comment, dashed, library)
        lines.append(line)
    return "\n".join(lines)


def moved(path, text):
    """The text with the lemmas and fields above under their new names."""
    if path.endswith(".antt") and not is_proof(path):
        text = LEMMAS.sub(r"\1_lem", text)
    elif path.endswith(".antt"):
        # In a proof a lemma stands behind its import alone: goals and steps there bear functions' names.
        named = {n for use in re.findall(r"^use Rattle\.\w+\.proofs\.[^\n]*\{([^}\n]*)\}", text, re.M) for n in LEMMAS.findall(use)}
        text = LEMMAS.sub(lambda m: m.group(1) + "_lem" if m.group(1) in named else m.group(1), text)
    for name, (new, paths) in FIELDS.items():
        if path.endswith(paths):
            text = re.sub(rf"\b{name}\b", new, text)
    return text


def clashes(root, dashed, library):
    """The names that would fall together with another that stands in a file of specs/ or of lemmas."""
    seen = set()
    for path in files(root, (".antt",)):
        if not is_proof(path):
            text = re.sub(r"--.*|Rattle\.[^\s{]*", "", moved(path, read(path)))
            seen |= set(re.findall(r"(?<!\.)(?<![\w'-])[A-Za-z0-9_'-]+", text))
    turned = {}
    for name in sorted(seen):
        new = respell(name, dashed, library)
        if new != name:
            turned.setdefault(new, []).append(name)
    return {name: new for new, names in turned.items() for name in names if new in seen or len(names) > 1}


def main(arguments):
    root = arguments[0] if arguments else "."
    dashed, library = declared(root)
    # A lemma whose name would be that of another word keeps its dash.
    dashed -= clashes(root, dashed, library).keys()
    left = clashes(root, dashed, library)
    if left:
        sys.exit("\n".join(f"spelling.py: {name} and {new} would fall together" for name, new in sorted(left.items())))
    for path in files(root, (".antt", ".rt", ".edit", ".md")):
        old = read(path)
        new = moved(path, old)
        new = in_clauses(new, dashed, library) if path.endswith(".rt") else respell(new, dashed, library)
        if new != old:
            with open(path, "w", encoding="utf-8") as file:
                file.write(new)


if __name__ == "__main__":
    script.run(main, __doc__)
