#!/usr/bin/env python3
"""Looks whether what the documents and the heads of sources cite is there.

- A clause: `crates/desk_core/src/shop.rt` `accepts` of `accept` is a clause of that function in that file.
- A function or a type, `crates/desk_core/src/shop.rt` `accept`, or a definition, `crates/desk_core/specs/Key.antt`
  `is_key`, one of its fields or constructors too, is declared in that file. `is_visible`..`is_key` are those from the
  one to the other, in the file's order; a file alone is all of it. Where a section says how many lines its files and
  definitions are, '1,200 lines in all', they are so many.
- So are several of one file, with commas between: `crates/desk_core/src/shop.rt` `drawn`, `written` of `run_list`,
  `accepts` of `accept`. Further on in that line `acts` of `act` is a clause of the file that was told last.
- A definition: `Tables.forest_of` stands in specs/Tables.antt of the crate that is told before it (`forest`
  `Tables.forest_of`), or else of the crate that its table's header or row, the begin of its item of a list, its section
  or its heading names, or else of some crate. In a column of definitions a bare name stands in the module or the crate that was named last.
- A path: `src/run.rt` is a file of such a crate, `docs/HTTP.md` or `contrib/views.sql` one of the repository.
- A call: `Shop::accept` is a function of that crate, or of some.
- Any other name of two words or more, as `is_visible` or `IsDesk`, stands in some source.

A head is the lines `//!` of a source, and is read as a document is, of its own crate. In it:

- An item of a list `- `Desk::run`, `send`: ..` is of these calls, which are there; a trait may stand in the place of a call.
  Names alone in brackets, as (`tells`, `crash`), are clauses of one of them, or members of the trait.
- A numbered item `1. `tells`: ..` is of an invariant, which clauses of functions of that source have as their name, and so
  have the names in brackets.
- `exact` of `keep` is a clause of a function of that name.

usage: tools/check_names.py"""
import difflib
import functools
import itertools
import pathlib
import re
import shutil
import sys

TOP = pathlib.Path(__file__).resolve().parent.parent
DOCUMENTS = [TOP / "README.md", *sorted((TOP / "docs").glob("**/*.md"))]
CRATES = {path.name for path in (TOP / "crates").iterdir()}
# The libraries of the kit that crates stand on, whose sources lie beside `rt`, if it is here.
KIT_CRATES = set(re.findall(r"\w+", re.sub(r"(?m)^\w+:", "", (TOP / "crates.txt").read_text()))) - CRATES
RT = shutil.which("rt")
KIT = pathlib.Path(RT).resolve().parent.parent / "rattle" if RT else None

TOKEN = re.compile(r"`([^`]+)`")
# A file of a crate with the names that it is to have, and each of these: with the last of those that begin with it, or
# the function of the clauses that are named before it.
PLACE = re.compile(r"`(crates/[\w./-]+\.(?:rt|antt))`((?: `[^`/\s]+`(?:\.\.`[^`/\s]+`)?"
                   r"(?:, `[^`/\s]+`(?:\.\.`[^`/\s]+`)?| of `\w+`)*)?)")
PART = re.compile(r"( of )?`([^`]+)`(?:\.\.`([^`]+)`)?")
CLAUSE = re.compile(r"`([a-z]\w*)` of `([a-z]\w*)`")
# A line number behind a name of a file: nothing that the documents say, as it is another one with the next change.
NUMBERED = re.compile(r"`[\w./-]+\.(?:rt|antt|py):[\d-]+`")
IN_ALL = re.compile(r"([\d,]+) lines in all")
DEFINITION = re.compile(r"[A-Z]+[a-z]\w*\.[\w-]+")
BARE = re.compile(r"[A-Za-z][\w-]*")
PATH = re.compile(
    r"(?:src|specs|proofs|docs|tools|crates|contrib)/[\w/.-]+\.(?:rt|antt|py|md|jsonl|sql|service)|[A-Z]\w*\.antt")
NAME = re.compile(r"[a-z]\w*_\w+|[A-Z][a-z]\w*[A-Z]\w*")
CALL = re.compile(r"([A-Z]\w*)::([a-z]\w*)")
# What may stand between two names, of which the later is told of the crate before the earlier.
BETWEEN = re.compile(r"[\s,(]*(?:and|or|types?)?[\s,(]*")
# An item of a head: what begins it, and the names before its colon.
ITEM = re.compile(r"(- |\d+\. )((?:`[^`]+`(?:, | and )?)+)[^`:]*: ")
# Names in brackets, with nothing but names.
ASIDE = re.compile(r"\(((?:`[^`]+`(?:, |: | )?)+)\)")
# Files of the example of a command that isn't there yet.
EXAMPLES = {"specs/Scrap.antt", "src/commands/scrap.rt", "proofs/ScrapSound.antt", "specs/MODULE.antt"}


@functools.cache
def lines_of(path):
    return path.read_text().split("\n")


@functools.cache
def folder_of(crate):
    return KIT / crate if crate in KIT_CRATES else TOP / "crates" / crate


@functools.cache
def text_of(crate, pattern):
    return "\n".join(path.read_text() for path in sorted(folder_of(crate).glob(pattern)))


@functools.cache
def words():
    """All words of the crates' sources, of what is made of tables, and of the unit of the service."""
    beside = [path for kind in ("sql", "service") for path in (TOP / "contrib").glob(f"*.{kind}")]
    others = set().union(*(re.findall(r"\w+", path.read_text()) for path in beside))
    texts = (re.sub(r"(?m)^//!.*$", "", text_of(crate, f"{folder}/**/*.{suffix}")) for crate in CRATES
             for folder, suffix in [("src", "rt"), ("specs", "antt"), ("proofs", "antt")])
    return others.union(*(re.findall(r"\w+", text) for text in texts))


def declares(text, name):
    """Whether definitions declare the name, as one of their own, as a field or a constructor, or hand it on."""
    name = re.escape(name)
    return any(re.search(rf"(?m)^{head}", text) for head in (
        rf" *(?:abbrev |unfoldable )?(?:pub )?(?:record |data )?(?:[\w-]+ )*{name}(?: [^:=\n]*)? :",
        rf" *(?:pub )?(?:record|data) {name} ", rf"pub use .*[{{ ]{name}[,}}]"))


def is_of_kit(name):
    """Whether a folder of the kit has the name, where the kit is here."""
    return KIT is None or (KIT / name).is_dir()


def has_definition(crate, module, name):
    if crate in KIT_CRATES and KIT is None:
        return True
    return declares(text_of(crate, f"specs/{module}.antt"), name)


def has_type(crate, name):
    head = rf"(?m)^ *(?:pub(?:\(crate\))? )?(?:struct|enum|trait) {re.escape(name)}\b"
    return bool(re.search(head, text_of(crate, "src/**/*.rt")))


def has_function(crate, name):
    return bool(re.search(rf"\bfn {re.escape(name)}\b", text_of(crate, "src/**/*.rt")))


def is_head(line, name):
    """Whether the line declares the name: a function, a type or a definition, with what is a part of it."""
    kinds = "fn|struct|enum|trait|ghost"
    return re.match(rf"\s*(?:pub(?:\(crate\))? )?(?:{kinds}) {re.escape(name)}\b", line) or declares(line, name)


def heads(lines, name):
    """The lines that declare a name, the first line of all being 0."""
    return [at for at, line in enumerate(lines) if is_head(line, name)]


def end_of(lines, at):
    """Where the definition ends that begins on that line: behind it stands an empty line, or none."""
    return next((below for below in range(at, len(lines)) if not lines[below].strip()), len(lines))


def clauses(lines, function):
    """The clauses of the functions of that name, or None where there is none."""
    found, within = None, False
    for line in lines:
        head = re.match(r"\s*(?:pub(?:\(crate\))? )?(?:ghost )?fn (\w+)", line)
        if head:
            within = head[1] == function
            found = (found or []) if within else found
        clause = re.match(r"\s*(?:ensures|requires|ghost) (\w+)", line)
        if within and clause:
            found.append(clause[1])
    return found


def others_with(path, name):
    """The files of crates that declare a name, those of one name with that one before others."""
    kind = "specs/**/*.antt" if path.endswith(".antt") else "src/**/*.rt"
    there = [it for crate in sorted(CRATES) for it in sorted(folder_of(crate).glob(kind)) if heads(lines_of(it), name)]
    there.sort(key=lambda it: it.name != pathlib.Path(path).name)
    return [str(it.relative_to(TOP)) for it in there]


def elsewhere(path, name):
    found = others_with(path, name)[:3]
    return f", but in {', '.join(found)}" if found else ""


def place_fault(path, name, last, function):
    """What is wrong with what is said to stand in a file, or None."""
    if not (TOP / path).is_file():
        return f"there is no such file{elsewhere(path, name)}" if name else "there is no such file"
    lines = lines_of(TOP / path)
    if name is None:
        return None
    if function:
        there = clauses(lines, function)
        if there is None:
            return f"no function {function} is there{elsewhere(path, function)}"
        return None if name in there else f"{name} is no clause of {function}, which has {', '.join(there) or 'none'}"
    for it in filter(None, (name, last)):
        if not heads(lines, it):
            near = difflib.get_close_matches(it, re.findall(r"\w+", "\n".join(lines)), 1)
            hint = elsewhere(path, it) or "".join(f", but {word} stands there" for word in near)
            return f"{it} isn't declared there{hint}"
    return f"{last} stands before {name}" if last and heads(lines, last)[-1] < heads(lines, name)[0] else None


def count_lines(path, name, last):
    """How many lines a file has of the definitions from the one to the other, or without names of all."""
    lines = lines_of(TOP / path)
    if name is None:
        first = next(at for at, line in enumerate(lines) if line.strip() and not re.match("--|use |pub use ", line))
        return max(at for at, line in enumerate(lines) if line.strip()) + 1 - first
    first = heads(lines, name)[0]
    return end_of(lines, next(at for at in heads(lines, last or name) if at >= first)) - first


def places(text):
    """Each place that a text cites: a file, and a name, the last name and the function where these are told."""
    for path, names in PLACE.findall(text):
        found = []
        for is_function, name, last in PART.findall(names):
            if is_function:
                yield from ((path, clause, None, name) for clause, _ in found)
                found = []
            else:
                found.append((name, last or None))
        yield from ((path, name, last, None) for name, last in found)
        if not names:
            yield path, None, None, None


def clauses_behind(text):
    """Each clause that a text names further on in the line of the file of code that it is of: as a place."""
    for line in text.split("\n"):
        found = list(PLACE.finditer(line))
        for place, end in zip(found, [*(it.start() for it in found[1:]), len(line)]):
            if place[1].endswith(".rt"):
                yield from ((place[1], clause, None, name) for clause, name in CLAUSE.findall(line[place.end():end]))


def check_places(document, faults):
    text = document.read_text()
    for found in NUMBERED.findall(text):
        faults.append(f"{document.relative_to(TOP)}: {found}: a name says where, and no number")
    right = set()
    for place in itertools.chain(places(text), clauses_behind(text)):
        fault = place_fault(*place)
        if fault:
            faults.append(f"{document.relative_to(TOP)}: {place[0]}: {fault}")
        else:
            right.add(place)
    for section in re.split(r"(?m)^#", text):
        lines = sum(count_lines(*it[:3]) for it in places(section) if it in right and not it[3])
        for told in IN_ALL.findall(section):
            if int(told.replace(",", "")) != lines:
                title = section.split("\n")[0].strip("# ")
                where = f"{document.relative_to(TOP)}: under {title!r}"
                faults.append(f"{where} {lines:,} lines in all are cited, and not {told}")


class Checker:
    """Goes over one document, block by block, and keeps what the names of a block are told of."""

    def __init__(self, document, faults):
        self.document, self.faults = document, faults
        self.section, self.header, self.columns = None, None, []

    def fault(self, number, what):
        self.faults.append(f"{self.document.relative_to(TOP)}:{number}: {what}")

    def check(self):
        fenced = False
        for number, line in enumerate(self.document.read_text().split("\n"), 1):
            if line.startswith("```"):
                fenced = not fenced
            if fenced:
                continue
            if line.startswith("#"):
                named = line.strip("# `")
                self.section = named if named in CRATES else None
            elif line.startswith("|"):
                self.row(number, line)
                continue
            else:
                told = re.search(r"[Dd]efinitions(?: and the calls)? stand in `(\w+)`", line)
                if told and told[1] in CRATES:
                    self.section = told[1]
                item = re.match(r"- `(\w+)`:", line)
                crate = item[1] if item and item[1] in CRATES else self.section
                self.names(number, line, crate, None, False)
            self.columns = []

    def row(self, number, line):
        cells = [cell.strip() for cell in re.split(r"(?<!\\)\|", line.strip().strip("|"))]
        if not self.columns:
            self.columns = cells
            return
        first = TOKEN.fullmatch(cells[0])
        own = first[1] if first and first[1] in CRATES else None
        for cell, head in zip(cells, self.columns):
            crate, module = own or self.section, None
            for name in TOKEN.findall(head):
                crate, module = (name, module) if name in CRATES else (crate, name)
            self.names(number, cell, crate, module, head.startswith("Definition"))

    def names(self, number, text, crate, module, defines):
        """Checks each name of a text. A crate that is told just before a name goes before the one of the block."""
        text = PLACE.sub("", text)
        told, told_module, end = crate, module, 0
        for found in TOKEN.finditer(text):
            if not defines and not BETWEEN.fullmatch(text[end:found.start()]):
                told, told_module = crate, module
            name, end = found[1], found.end()
            if name in CRATES or name in KIT_CRATES:
                told, told_module = name, None
            elif PATH.fullmatch(name):
                if name not in EXAMPLES:
                    self.path(number, told, name)
            elif DEFINITION.fullmatch(name):
                told_module, what = name.split(".")
                self.definition(number, told, told_module, what)
            elif CALL.match(name):
                self.call(number, told, CALL.match(name)[2], name)
            elif defines and BARE.fullmatch(name):
                told_module = self.bare(number, told, told_module, name)
            elif NAME.fullmatch(name) and name not in words() and not is_of_kit(name):
                self.fault(number, f"{name} stands in no source")

    def definition(self, number, crate, module, name):
        if crate and has_definition(crate, module, name):
            return
        others = [other for other in sorted(CRATES) if has_definition(other, module, name)]
        if others and not crate:
            return
        where = f"in {crate}" if crate else "in any crate"
        self.fault(number, f"{module}.{name} isn't {where}" + (f", but in {', '.join(others)}" if others else ""))

    def path(self, number, crate, path):
        if path.startswith(("docs/", "tools/", "crates/", "contrib/")):
            if not (TOP / path).exists():
                self.fault(number, f"there is no {path}")
            return
        pattern = path if "/" in path else f"*/{path}"
        if not any(any(folder_of(other).glob(pattern)) for other in ([crate] if crate in CRATES else CRATES)):
            self.fault(number, f"there is no {path} in {crate or 'any crate'}")

    def call(self, number, crate, function, name):
        if crate in KIT_CRATES and KIT is None:
            return
        if not any(has_function(other, function) for other in ([crate] if crate else CRATES)):
            others = [other for other in sorted(CRATES) if has_function(other, function)]
            elsewhere = f", but in {', '.join(others)}" if others else ""
            self.fault(number, f"{name} isn't in {crate or 'any crate'}{elsewhere}")

    def bare(self, number, crate, module, name):
        """A name in a column of definitions: a module, or what the last module or the crate has. Gives the module."""
        crates = [crate] if crate else sorted(CRATES)
        if any((folder_of(other) / "specs" / f"{name}.antt").is_file() for other in crates):
            return name
        if not any((module and has_definition(other, module, name)) or has_type(other, name) for other in crates):
            self.fault(number, f"{name} isn't in {crate or 'any crate'}" + (f" {module}" if module else ""))
        return module


class HeadChecker(Checker):
    """Goes over the head of a source, block by block: its paragraphs, and the items of its lists."""

    def __init__(self, source, faults):
        super().__init__(source, faults)
        self.crate = source.relative_to(TOP / "crates").parts[0]

    def check(self):
        for number, text in self.blocks():
            self.names(number, text, self.crate, None, False)
            for clause, function in CLAUSE.findall(text):
                if not any(clause in found for found in self.clauses_of(function)):
                    self.fault(number, f"{clause} is no clause of a function {function} of {self.crate}")
            item = ITEM.match(text)
            if item:
                self.item(number, item, [name for told in ASIDE.findall(text) for name in TOKEN.findall(told)])

    def blocks(self):
        """Each paragraph and each item, in one line, with the number of its first."""
        number, block = 0, ""
        for at, line in enumerate(lines_of(self.document), 1):
            if not line.startswith("//!"):
                break
            line = line[3:].strip()
            if not line or re.match(r"- |\d+\. ", line):
                if block:
                    yield number, block
                number, block = at, line
            else:
                number, block = (number, f"{block} {line}") if block else (at, line)
        if block:
            yield number, block

    def item(self, number, item, aside):
        """Checks the names that begin an item, and those in brackets in it."""
        subjects = TOKEN.findall(item[2])
        if item[1] == "- ":
            found = {name: self.clauses_of(name) for name in subjects}
            for name in [name for name in subjects if not found[name] and not has_type(self.crate, name)]:
                self.fault(number, f"no function {name} is in {self.crate}")
            there = {clause for clauses in found.values() for names in clauses for clause in names}
            there.update(*(self.members_of(name) for name in subjects))
            told = [name for name in aside if re.fullmatch(r"[a-z]\w*", name) and name not in CRATES | KIT_CRATES]
        elif re.fullmatch(r"[a-z]\w*", subjects[0]):
            there = set(re.findall(r"(?m)^\s*(?:ensures|requires|ghost) (\w+)", self.document.read_text()))
            told = [name for name in subjects + aside if re.fullmatch(r"[a-z]\w*", name)]
        else:
            return
        for name in told:
            if name not in there:
                self.fault(number, f"{name} is no clause of {', '.join(subjects)}" if item[1] == "- " else
                           f"{name} is no clause of a function here")

    def clauses_of(self, call):
        """The clauses of each function that is called so: of a type, or of a file, where these are told before `::`."""
        owner, _, function = call.rpartition("::")
        found = []
        for path in sorted(folder_of(self.crate).glob("src/**/*.rt")):
            of_type = re.search(rf"(?m)^(?:impl|pub trait)\b.*\b{owner}\b", path.read_text()) if owner else True
            if of_type or path.stem == owner:
                found.append(clauses(lines_of(path), function))
        return [it for it in found if it is not None]

    def members_of(self, name):
        """The ghost members of a trait."""
        text = text_of(self.crate, "src/**/*.rt")
        trait = re.search(rf"(?ms)^pub trait {re.escape(name)}\b.*?^}}", text)
        return re.findall(r"(?m)^    ghost (\w+):", trait[0]) if trait else []


def heads_of_sources():
    sources = (path for crate in sorted(CRATES) for path in sorted(folder_of(crate).glob("src/**/*.rt")))
    return [path for path in sources if lines_of(path)[0].startswith("//!")]


def main():
    faults = []
    for document in DOCUMENTS:
        check_places(document, faults)
        Checker(document, faults).check()
    heads_told = heads_of_sources()
    for source in heads_told:
        HeadChecker(source, faults).check()
    looked_at = f"{len(DOCUMENTS)} documents, {len(heads_told)} heads"
    print("\n".join([*faults, f"{looked_at}: {len(faults)} names don't stand where they are said to"]))
    sys.exit(1 if faults else 0)


if __name__ == "__main__":
    main()
