#!/usr/bin/env python3
"""Writes worked examples once more, with rows said by what they are called in the place of their numbers: a part by its
name, a category or a location by its name or by the way to it from the top, an item by its part and its serial, and any
other row, or an item that has no serial, by the key of the request that made it. A request that makes one row and has
no key gets one. A number stays where the row has no such name, or none that is its alone. The answers are the same, so
each `data/names/NAME.in` of the crate `worked_examples` has the answers of `data/NAME.out`.

What stands in `data/names` alone is written by hand and has its answers beside it. All examples with names together say
each field that says a row, of each command and of each report, in each form that such a row has, with the request done;
and each with a name that is no row's, and with a key that is several rows'.

A line that is answered otherwise than its example says, with numbers or with names, ends the script.

usage: tools/name_lines.py [--check]     --check writes nothing, and tells which file isn't as it would be written, and
                                         which field no example says in one of its forms or with one of its faults"""
import argparse
import collections
import json
import pathlib
import sys

from machine.lines import FIELDS, REPORTS, ROWS, Fault, Whole, json_of, wish_of
from machine.machine import Machine
from machine.names import TREES, Names
from machine.reports import answer, answer_line

EXAMPLES = pathlib.Path(__file__).resolve().parent.parent / "crates" / "worked_examples"
DATA = EXAMPLES / "data"
NAMED = DATA / "names"
# The forms in which rows of a table are said, besides those of each: by number, and by key.
FORMS = {"parts": {"name"}, "categories": {"name", "way"}, "locations": {"name", "way"}, "items": {"serial"}}
# Fields that take no item with a serial: where one is said, the request is refused as Serialised.
WITHOUT_SERIAL = {
    ("add", "item"), ("split", "item"), ("merge", "into"), ("merge", "items"), ("serialise", "item")}


def examples():
    """The name of each example in the list, with the limits of its books, if it has some."""
    for line in (EXAMPLES / "stdin").read_text().splitlines():
        name, *limits = line.split(":")[0].split()
        yield name, [int(it) for it in limits]


def named_examples():
    """The name of each example with names, the file of its answers, and the limits of its books, if it has some."""
    listed = dict(examples())
    yield from ((name, DATA / f"{name}.out", limits) for name, limits in listed.items())
    own = sorted(path.stem for path in NAMED.glob("*.in") if path.stem not in listed)
    yield from ((name, NAMED / f"{name}.out", []) for name in own)


def members_of(line):
    """The members of a line: none where it is no object."""
    try:
        held = json_of(line)
    except Fault:
        return {}
    return held if isinstance(held, dict) else {}


def tables_of(members):
    """The fields of a line that may say rows, with the table of each, if it is known."""
    do, report = members.get("do"), members.get("report")
    tables = {"of": REPORTS.get(report)} if isinstance(report, str) else {}
    return ROWS.get(do, {}) if isinstance(do, str) else tables


class Writer:
    """Says the rows of a machine by what they are called."""

    def __init__(self, m):
        self.m, self.names = m, Names(m)

    def way(self, table, number):
        it = getattr(self.m, table)[number]
        return [*([] if it.parent is None else self.way(table, it.parent)), it.name]

    def calls(self, table, number):
        """What the row may be called by, the best first, whether or not another is called so too."""
        it = getattr(self.m, table)[number]
        if table == "parts":
            yield it.name
        if table in TREES:
            yield it.name if it.parent is None else self.way(table, number)
        if table == "items" and it.serial is not None:
            yield {"part": self.m.parts[it.part].name, "serial": it.serial}
        yield from ({"key": key} for key, kept in self.m.kept.items() if number in kept.answer["ids"])

    def value(self, table, held):
        """A value of a row in other words, or as it is."""
        if isinstance(held, list):
            return [self.value(table, it) for it in held]
        if not isinstance(held, int) or held not in getattr(self.m, table):
            return held
        return next((it for it in self.calls(table, held) if self.names.found(table, it) == [held]), held)

    def line(self, line):
        """The line with names, or as it is where it has none, or would ask for something else."""
        members = members_of(line)
        tables = tables_of(members)
        said = {name: self.value(tables[name], held) if tables.get(name) else held for name, held in members.items()}
        if said == members:
            return line
        written = json.dumps(said, ensure_ascii=False, separators=(",", ":")).encode()
        return written if asked(written, self.names) == asked(line, None) else line


def asked(line, names):
    """What a line asks for, or its fault."""
    try:
        return wish_of(line, names)
    except Fault as fault:
        return fault.answer(0)


def keyed(line, key):
    """The line under that key, or None where it is no request or has a key of its own."""
    members = members_of(line)
    if not isinstance(members.get("do"), str) or "key" in members:
        return None
    said = {**members, "key": key}
    said = dict(sorted(said.items())) if list(members) == sorted(members) else said
    return json.dumps(said, ensure_ascii=False, separators=(",", ":")).encode()


def done(m, line, key, at):
    """Does the line, under the key where it makes one row: whether it is so, and what it is answered."""
    under = keyed(line, key)
    answered = answer(m, under, at) if under else None
    if answered is None or "ids" not in answered:
        return False, answer(m, line, at)
    if len(answered["ids"]) != 1:
        del m.kept[key]
        return False, answered
    return True, answered


def with_names(lines, answers, limits):
    """The lines of an example with names. What makes one row has a key, and so has the row."""
    m, found, told = Machine(*limits), [], []
    for at, line in enumerate(lines.splitlines(), 1):
        named, key = Writer(m).line(line), f"line-{at}"
        if asked(named, Names(m)) != asked(line, None):
            sys.exit(f"name_lines: with names this line asks for something else: {line.decode()}")
        has_key, answered = done(m, line, key, at)
        found.append(keyed(named, key) if has_key else named)
        told += [answer_line(answered) + "\n"] if answered is not None else []
    if "".join(told).encode() != answers:
        sys.exit("name_lines: an example is answered otherwise than it says")
    return b"".join(it + b"\n" for it in found)


def form_of(held):
    """The form in which a value says a row, or None where it says none."""
    if isinstance(held, dict):
        return "key" if "key" in held else "serial"
    return {Whole: "number", str: "name", list: "way"}.get(type(held))


class Said:
    """How examples say the rows of each field of a command and of a report: in which forms, and with which faults."""

    def __init__(self):
        self.found = collections.defaultdict(set)

    def play(self, lines, answers, limits):
        """Whether the lines of an example with names are answered so. What they say is noted."""
        m, told = Machine(*limits), []
        for at, line in enumerate(lines.splitlines(), 1):
            answered = answer(m, line, at, with_names=True)
            if answered is not None:
                self.note(members_of(line), answered)
                told.append(answer_line(answered) + "\n")
        return "".join(told).encode() == answers

    def note(self, members, answered):
        """Notes what a line says of its fields: the one with a fault or, where the line is done, the form of each."""
        word = members.get("do", members.get("report"))
        if "field" in answered:
            self.found[word, answered["field"]].add(answered["fault"])
        is_done, is_serialised = answered.keys() & {"ids", "report"}, answered.get("refused") == "Serialised"
        if not is_done and not is_serialised:
            return
        for name in tables_of(members).keys() & members.keys():
            has_list = (name, "rows", False) in FIELDS.get(word, ())
            for form in map(form_of, members[name] if has_list else [members[name]]):
                if is_done or form == "serial" and (word, name) in WITHOUT_SERIAL:
                    self.found[word, name].add(form)

    def gaps(self):
        """What no example says of a field, each in a few words."""
        reports = {report: {"of": table} for report, table in REPORTS.items()}
        for word, tables in {**ROWS, **reports}.items():
            for name, table in tables.items():
                forms = {"number", "key"} | FORMS.get(table, set())
                faults = {"NoName", "Ambiguous"}
                said = self.found[word, name]
                yield from (f"{word}: no example says '{name}' by {it}" for it in sorted(forms - said))
                yield from (f"{word}: no example has {it} for '{name}'" for it in sorted(faults - said))


def gaps_in_examples():
    """What no example with names says of a field. Each is played, and has to be answered as it says."""
    said = Said()
    for name, answers, limits in named_examples():
        if not said.play((NAMED / f"{name}.in").read_bytes(), answers.read_bytes(), limits):
            sys.exit(f"name_lines: with names {name} is answered otherwise than it says")
    return list(said.gaps())


def main():
    words = argparse.ArgumentParser(description=__doc__, formatter_class=argparse.RawDescriptionHelpFormatter)
    words.add_argument("--check", action="store_true")
    is_check, others = words.parse_args().check, []
    NAMED.mkdir(exist_ok=True)
    for name, limits in examples():
        lines, answers = ((DATA / f"{name}.{end}").read_bytes() for end in ("in", "out"))
        written, path = with_names(lines, answers, limits), NAMED / f"{name}.in"
        if is_check:
            others += [] if path.exists() and path.read_bytes() == written else [name]
        else:
            path.write_bytes(written)
    if others:
        sys.exit(f"name_lines: not as they would be written: {', '.join(others)}")
    gaps = gaps_in_examples() if is_check else []
    if gaps:
        sys.exit("\n".join(f"name_lines: {it}" for it in gaps))
    print("name_lines: all as they should be" if is_check else "name_lines: written")


if __name__ == "__main__":
    main()
