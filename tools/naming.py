#!/usr/bin/env python3
"""naming.py: holds the names in the documents against the sources.

    tools/naming.py

Reads README.md and the pages of docs/; the landing notes, PORT.md, DESIGN-PASS.md and LOOK-BACK.md, which tell of the past, are not read. What stands in backticks is
taken so, with a and b for names, x and X for parts of a path:

    `crate` Module: `a`, `b`       a and b are declared in the crate's specs/Module.antt; so with a comma for the colon, and of
                                   another Module after a semicolon or in parentheses, which is the same crate's
    `crate`: `a`, `crate`'s `a`,   a is declared in the crate
    `a` of `crate`
    `a` of `X.antt`, `X.antt`: `a` a is declared in that file; so with `in` for `of`, and a parenthesis for the colon
    law `a`, laws `a`, `b`         they are declared in the specs/Laws.antt of some crate
    `specs/X.antt`, `src/x.rt`     a file of the crate that was named last before it, in the same paragraph or cell
    `crate/label`                  a must-fail edit
    `crates/x/..`, `x/src/..`,     a path of the product, of crates/ or of tools/, or a file of an example
    `x.py`
    any other name                 a crate or an example, or declared somewhere in crates/ or tools/, or one of OUTSIDE below

In a column with the head `definition` a Module stands without names too, and in one with the head `wrong versions that are told
apart` a word with hyphens is a version that tools/plain lists. Every edit is named in docs/TRACE.md, and every crate in
docs/ARCHITECTURE.md. What is wrong is printed with its file and line; the status is 0 if nothing is.
"""
import os
import re
import sys
from collections import namedtuple

sys.dont_write_bytecode = True
import script
from script import Problem

ROOT = os.path.dirname(os.path.dirname(os.path.abspath(__file__)))
TRACE, ARCHITECTURE = "docs/TRACE.md", "docs/ARCHITECTURE.md"
PAST = "PORT.md", "DESIGN-PASS.md", "LOOK-BACK.md"  # pages that tell of the past
DEFINED, TRIED = "definition", "wrong versions that are told apart"  # heads of columns
# Names that are not the product's, by the reason.
OUTSIDE = {
    "instructions of SPARC, and a part of one": "be bg bge bl ble bn bne brz cmp imm22 lda ldda ldsba ldsha ldstuba lduba lduha mov "
                                                "restore ret retl rett save sta stba stda stha swapa wr",
    "commands": "qemu-sparc qemu-sparc32plus rt time",
    "of the prover, its library and its stages": "cc get_or refl rw session simp",
    "a type and a crate of the toolchain": "i32 libc",
    "what a program prints, in a file of its crate": "stdout",
    "files of a function's proof": "Answers.antt Invariants.antt",
}
OUTSIDE_NAMES = set(" ".join(OUTSIDE.values()).split())

# The crates of crates.txt, the edits, the wrong versions that tools/plain lists, all paths, and by a file's path the names that
# it declares.
Product = namedtuple("Product", "crates edits versions paths declared")
Unit = namedtuple("Unit", "at text head")  # a paragraph, or a table's cell with the head of its column; at its place in the document

NAME = re.compile(r"[A-Za-z_][\w'-]*")
CASED = re.compile(r"\b[a-z]+(?:[A-Z_]\w*)+\b")  # camelCase or snake_case
VERSION = re.compile(r"[a-z0-9]+(?:-[a-z0-9]+)+")
EDIT = re.compile(r"(\w+)/\w+")
IN_SOME_CRATE = re.compile(r"(?:specs|src|proofs|must-fail)/(.*)")
BARE = re.compile(r"[A-Z]\w*\.antt")  # a file of some specs/
PATH = re.compile(r"[\w.-]*(?:/[\w.-]*)+|[\w-]+\.(?:py|md|txt|bin|s|c|rt)")
SPAN = re.compile(r"`([^`]+)`")
SPANS = r"`[^`]+`(?:(?:,? and|,| \.\.|, \.\.)\s`[^`]+`)*"  # a list of them
MODULES = r"[A-Z][a-z]\w*(?:,\s[A-Z][a-z]\w*)*"
# The forms. Those of modules have a crate or none, modules, and names or none.
MODULE = re.compile(rf"`([a-z]\w*)`\s({MODULES})(?:[:,]\s({SPANS}))?")
MODULE_MORE = re.compile(rf"(?:;\s|\()()({MODULES})[:,]\s({SPANS})")
MODULE_ALONE = re.compile(rf";\s()({MODULES})()(?=;|$)")
IN_CRATES = re.compile(rf"(`\w+`(?:,\s`\w+`)*)(?::|'s?)\s(?:laws?\s)?({SPANS})")
OF_CRATE = re.compile(rf"({SPANS})\sof\s`(\w+)`")
IN_FILE = re.compile(rf"`([^`]+\.(?:antt|rt))`(?::\s|\s\()({SPANS})")
OF_FILE = re.compile(rf"({SPANS})\s(?:of|in)\s`([^`]+\.(?:antt|rt))`")
LAWS = re.compile(rf"\b[Ll]aws?\s({SPANS})")


# The sources

def names_of_antt(text):
    text = re.sub(r"--.*", "", text)
    named = re.findall(r"^[ \t]*(?:(?:pub|abbrev|unfoldable) )*(?:record|data|mod) (\S+)", text, re.M)
    typed = re.findall(r"^[ \t]*(?:(?:pub|abbrev|unfoldable) )*([^\s(){}:;=]+(?: [^\s(){}:;=]+)*) :(?:\s|$)", text, re.M)
    return set(named).union(*(names.split() for names in typed))


def names_of_rt(text):
    text = re.sub(r"//.*", "", text)
    names = set(re.findall(r"\b(?:fn|struct|enum|const|mod) (\w+)", text))
    for body in re.findall(r"^(?:pub )?(?:struct|enum) \w+ \{\n(.*?)^\}", text, re.M | re.S):
        names |= set(re.findall(r"^    (?:pub )?(\w+)", body, re.M))
    return names


def names_of_py(text):
    return set(re.findall(r"^[ \t]*(?:def|class) (\w+)", text, re.M)) | set(re.findall(r"^([A-Z_]+)\b.* = ", text, re.M))


READERS = {".antt": names_of_antt, ".rt": names_of_rt, ".py": names_of_py}


def read_text(*path):
    return script.read_bytes(os.path.join(*path)).decode()


def paths_in(root):
    """The files and folders in a folder, but for what is built there."""
    for place, folders, files in os.walk(root):
        folders[:] = [folder for folder in folders if folder not in (".git", "out", "__pycache__")]
        for name in folders + files:
            yield os.path.relpath(os.path.join(place, name), root).replace(os.sep, "/")


def product_of(root=ROOT):
    """The product in a folder."""
    paths = set(paths_in(root))
    crates = re.findall(r"^(\w+):", read_text(root, "crates.txt"), re.M)
    edits = {f"{match[1]}/{match[2]}" for match in (re.fullmatch(r"crates/(\w+)/must-fail/(.+)\.edit", path) for path in paths) if match}
    lists = [read_text(root, path) for path in paths if re.fullmatch(r"tools/plain/(\w+-)?mutants\.txt", path)]
    versions = {line for text in lists for line in text.split("\n") if VERSION.fullmatch(line)}
    declared = {path: READERS[kind](read_text(root, path)) for path in paths
                for kind in [os.path.splitext(path)[1]] if kind in READERS and path.startswith(("crates/", "tools/"))}
    return Product(crates, edits, versions, paths, declared)


# The documents

def units_of(text):
    """The paragraphs and cells of a document, without what is indented after an empty line."""
    at, units, heads, within = 0, [], None, False
    for line in text.split("\n"):
        if line.startswith("|"):
            cells, within = [cell.strip() for cell in line.split("|")[1:-1]], False
            heads = heads or cells
            units += [Unit(at, cell, head) for cell, head in zip(cells, heads)]
        else:
            heads = None
            if within and line.strip() and not re.match(r"\s*(?:[-*]|\d+\.|#+) ", line):
                units[-1] = units[-1]._replace(text=units[-1].text + "\n" + line)
            elif not line.startswith("    "):
                units.append(Unit(at, line, None))
            within = bool(line.strip()) and bool(units) and (within or not line.startswith("    "))
        at += len(line) + 1
    return units


def spans_of(text):
    return SPAN.findall(text or "")


class Document:
    """A document whose names are held against the product; `wrong` has what is wrong, by line and name."""

    def __init__(self, product, text):
        self.product, self.text, self.wrong = product, text, {}
        self.known = set().union(*product.declared.values())
        for unit in units_of(text):
            self.read_modules(unit)
            self.read_places(unit)
            for match in SPAN.finditer(unit.text):
                self.read_span(unit, match.start(), match[1])
            for name in unit.text.split(", ") if unit.head == TRIED else []:
                if VERSION.fullmatch(name) and name not in product.versions:
                    self.say(unit, 0, name, f"{name} is no wrong version that tools/plain lists")

    def say(self, unit, at, name, words):
        """Notes what is wrong with a name, unless something was noted of it in its line."""
        self.wrong.setdefault((self.text.count("\n", 0, unit.at + at) + 1, name), words)

    def need(self, unit, at, listed, place, paths):
        """The names that are listed from a place of the unit on, those of crates apart, are declared in the files."""
        declared = set(self.product.crates).union(*(self.product.declared[path] for path in paths))
        for match in SPAN.finditer(listed or ""):
            if NAME.fullmatch(match[1]) and match[1] not in declared:
                self.say(unit, at + match.start(), match[1], f"`{match[1]}` is not declared in {place}")

    def read_modules(self, unit):
        """Modules of crates, with the names that they declare."""
        forms = [MODULE, MODULE_MORE] + [MODULE_ALONE] * (unit.head == DEFINED)
        matches = [match for form in forms for match in form.finditer(unit.text)]
        crate = None
        for match in sorted(matches, key=lambda match: match.start()):
            crate = match[1] or crate or self.crate_before(unit, match.start())
            paths = [f"crates/{crate}/specs/{module}.antt" for module in re.split(r",\s", match[2])]
            if match[1] and crate not in self.product.crates:
                self.say(unit, match.start(), crate, f"`{crate}` is no crate of crates.txt")
            if crate not in self.product.crates:
                continue
            for path in paths:
                if path not in self.product.paths:
                    self.say(unit, match.start(2), path, f"there is no {path}")
            if self.product.paths.issuperset(paths):
                self.need(unit, match.start(3), match[3], " or ".join(paths), paths)

    def read_places(self, unit):
        """Names that are said to be in a crate or in a file, and laws."""
        for match in IN_CRATES.finditer(unit.text):
            self.need_in_crates(unit, match.start(2), match[2], spans_of(match[1]))
        for match in OF_CRATE.finditer(unit.text):
            self.need_in_crates(unit, match.start(1), match[1], [match[2]])
        for form, file, names in (IN_FILE, 1, 2), (OF_FILE, 2, 1):
            for match in form.finditer(unit.text):
                path = self.path_of(unit, match.start(file), match[file])
                if path in self.product.declared:
                    self.need(unit, match.start(names), match[names], path, [path])
        laws = [path for path in self.product.declared if path.endswith("/specs/Laws.antt")]
        for match in LAWS.finditer(unit.text):
            self.need(unit, match.start(1), match[1], "the specs/Laws.antt of any crate", laws)

    def need_in_crates(self, unit, at, listed, crates):
        """What is listed is declared in one of these, or is a file of specs/ there, if they are crates."""
        if not set(self.product.crates).issuperset(crates):
            return
        place, folders = " or ".join(crates), tuple(f"crates/{crate}/" for crate in crates)
        self.need(unit, at, listed, place, [path for path in self.product.declared if path.startswith(folders)])
        for file in filter(BARE.fullmatch, spans_of(listed)):
            if not any(f"{folder}specs/{file}" in self.product.paths for folder in folders):
                self.say(unit, at + listed.index(f"`{file}`"), file, f"there is no specs/{file} in {place}")

    def crate_before(self, unit, at):
        """The crate that is named last before a place of the unit, None if there is none."""
        return next((name for name in reversed(spans_of(unit.text[:at])) if name in self.product.crates), None)

    def path_of(self, unit, at, word):
        """The path that a word at a place of the unit means; None if there is none."""
        crate = self.crate_before(unit, at)
        places = [f"crates/{crate}/"] if IN_SOME_CRATE.fullmatch(word) else ["", "crates/", "tools/"]
        return next((place + word.rstrip("/") for place in places if place + word.rstrip("/") in self.product.paths), None)

    def is_of_example(self, name):
        """Whether this is an example, or a file of one."""
        return any(path.startswith("examples/") and path.endswith("/" + name) for path in self.product.paths)

    def read_span(self, unit, at, span):
        """A span by itself: a name, an edit, a path, or a piece of text with names in it."""
        product, word, edit = self.product, "".join(span.split()[:1]), EDIT.fullmatch(span)
        folder = IN_SOME_CRATE.fullmatch(word)
        if span in product.crates or span in OUTSIDE_NAMES or self.is_of_example(span) or folder and not folder[1]:
            return
        if NAME.fullmatch(span):
            if span not in self.known:
                self.say(unit, at, span, f"`{span}` is declared nowhere")
        elif edit and span not in product.paths:
            if edit[1] not in product.crates:
                self.say(unit, at, span, f"`{span}`: `{edit[1]}` is no crate of crates.txt")
            elif span not in product.edits:
                self.say(unit, at, span, f"there is no edit `{span}`")
        elif BARE.fullmatch(span):
            if not any(path.endswith(f"/specs/{span}") for path in product.paths):
                self.say(unit, at, span, f"there is no specs/{span} in any crate")
        elif PATH.fullmatch(word):
            if "/out/" not in word and self.path_of(unit, at, word) is None:
                place = f" in `{self.crate_before(unit, at)}`, the crate named before it" if folder else ""
                self.say(unit, at, word, f"there is no `{word}`{place}")
        else:
            for name in CASED.findall(span):
                if name not in self.known | OUTSIDE_NAMES:
                    self.say(unit, at, name, f"`{name}` is declared nowhere")


def wrong_in(product, name, text):
    """What is wrong with the names in a document, a line each."""
    return [f"{name}, line {line}: {words}" for (line, _), words in sorted(Document(product, text).wrong.items())]


def missing_in(product, trace, architecture):
    """The edits and the crates that are not named where they must be."""
    edits, crates = product.edits.difference(spans_of(trace)), set(product.crates).difference(spans_of(architecture))
    return ([f"{TRACE} does not name the edit {edit}" for edit in sorted(edits)]
            + [f"{ARCHITECTURE} does not name the crate {crate}" for crate in sorted(crates)])


def documents(root=ROOT):
    """The documents, by name."""
    pages = sorted(name for name in os.listdir(os.path.join(root, "docs")) if name.endswith(".md") and name not in PAST)
    return {name: read_text(root, name) for name in ["README.md", *(f"docs/{page}" for page in pages)]}


def findings(root=ROOT):
    """All that is wrong with the names in the documents."""
    product, texts = product_of(root), documents(root)
    wrong = [line for name, text in texts.items() for line in wrong_in(product, name, text)]
    return wrong + missing_in(product, texts[TRACE], texts[ARCHITECTURE])


def main(arguments):
    if arguments:
        raise Problem("call it as `naming.py`, with no arguments")
    found = findings()
    print("\n".join([*found, f"{len(found)} wrong"]))
    if found:
        script.end("", 1)


if __name__ == "__main__":
    script.run(main, __doc__)
