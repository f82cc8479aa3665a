#!/usr/bin/env python3
"""Writes what `help` tells into the program: each command of `docs/MACHINE.md` with its fields, its refusals, what it
does and a line of it, the flags of a part, each refusal and each fault of `docs/REFUSALS.md`, and what mends what by
`docs/MISTAKES.md`. It is one text in `crates/desk_app/src/guide_text.rt`, in which an empty line stands between two
entries, and each entry begins with a line of its name. Beside it stand the words that a line may have, for whoever
misspells one. The word `help` of the program takes these names and no others: it is looked that its source and the
definitions of its clauses list them so.

usage: tools/make_guide.py [--check]     --check writes nothing, and tells whether the source is as it would write it"""
import argparse
import json
import re
import textwrap

from machine.lines import FIELDS, FLAGS, REPORTS, SIDES, STATUSES
from make_page import section
from shared import TOP, expect

SOURCE = TOP / "crates" / "desk_app" / "src" / "guide_text.rt"
WORDS, DEFINITIONS = (TOP / "crates" / "desk_cli" / it for it in ("src/words.rt", "specs/Words.antt"))
HEAD = """\
//! What `help` tells. This file is written by `tools/make_guide.py` from `docs/MACHINE.md`, `docs/REFUSALS.md` and
//! `docs/MISTAKES.md`.

"""
EXAMPLES = {
    "number": 1, "text": "A", "flags": ["component"], "serials": "1-3", "rows": [1, 2], "yes": True,
    "status": "Damaged", "side": "sale"}


def wrapped(text, indent=2):
    return textwrap.fill(text, 100, initial_indent=" " * indent, subsequent_indent=" " * (indent + 2))


def plain(text):
    return text.replace("`", "").replace("\\|", "|").strip()


def example(do):
    """A line of the command, with the fields that it can't lack."""
    members = {"do": do, "day": "2030-01-02"}
    for name, kind, is_optional in FIELDS[do]:
        if not is_optional and kind != "yes":
            members[name] = EXAMPLES.get(kind, 1)
    return json.dumps(members, separators=(",", ":"))


def entries():
    rows = re.findall(r"^\| `(\w+)` (.*?) \| (.*?) \| (.*) \|$", section("MACHINE.md", "Commands"), re.M)
    expect({row[0] for row in rows} == set(FIELDS), "docs/MACHINE.md has other commands than tools/machine")
    names = " ".join(row[0] for row in rows)
    yield "\n".join([
        "help", "  A line of JSON is a request. These are the commands; help and a name says more of each:",
        wrapped(names, 4), "  help commands says of each what it does, help flags what the flags of a part are for.",
        "  help refusals lists the words by which a request is refused, help faults those of a line",
        "  that can't be read, and help mistakes what mends what. quit or Ctrl-D ends the run."])
    yield "\n".join(["commands", *(wrapped(f"{do}: {plain(effect)}") for do, _, _, effect in rows)])
    for do, fields, refusals, effect in rows:
        lines = [do, "  Fields:"]
        for name, optional, kind in re.findall(r"`(\w+)`(\??)([^,`]*)", fields):
            lines.append(f"    {name}{optional}: {plain(kind) or 'a ' + name}")
        lines += [wrapped("Refused as " + plain(refusals) + "."), wrapped("Does: " + plain(effect) + ".")]
        yield "\n".join([*lines, "  Example: " + example(do)])
    flags = re.findall(r"^\| `(\w+)` \| (.*) \|$", section("MACHINE.md", "Flags"), re.M)
    expect([flag for flag, _ in flags] == [*FLAGS], "docs/MACHINE.md has other flags than tools/machine")
    yield "\n".join(["flags", *(wrapped(f"{flag}: {plain(what)}") for flag, what in flags)])
    for name, title in ("refusals", "Refusals"), ("faults", "Faults of lines and of files that are imported"):
        words = re.findall(r"^\| `(\w+)` \| (.*) \| (.*) \|$", section("REFUSALS.md", title), re.M)
        yield "\n".join([name, *(wrapped(f"{word}: {plain(wrong)} {plain(mend)}") for word, wrong, mend in words)])
        for word, wrong, mend in words:
            yield "\n".join([word, wrapped(plain(wrong)), wrapped(plain(mend))])
    mends = re.findall(r"^\| `(\w+)` \| (.*) \| (.*) \| .* \|$", (TOP / "docs" / "MISTAKES.md").read_text(), re.M)
    yield "\n".join([
        "mistakes", "  What is put right by which request. docs/MISTAKES.md says what stays then, with examples.",
        *(wrapped(f"{do}: {plain(wrong)} {plain(mend)}") for do, wrong, mend in mends)])


def words_of(name, what, words):
    """A list of words as the source has it."""
    lines = "".join(f'    "{word}",\n' for word in words)
    return f"/// {what}\npub const {name}: [&str; {len(words)}] = [\n{lines}];\n"


def source():
    text = "\n\n".join(entries())
    expect('"#' not in text and "\n\n\n" not in text, "an entry has a quote with a number sign, or an empty line")
    fields = dict.fromkeys(["do", "key", "day", "report", "of", *(name for it in FIELDS.values() for name, _, _ in it)])
    return "\n".join([
        f'{HEAD}/// The entries, an empty line between two.\npub const GUIDE: &str = r#"{text}"#;\n',
        words_of("COMMANDS", "The names of the commands.", [*FIELDS]),
        words_of("FIELDS", "The names of the fields of commands and reports.", [*fields]),
        words_of("WORDS", "The words that may stand in a field: flags, statuses, sides and reports.",
                 [*FLAGS, *STATUSES, *SIDES, *REPORTS])])


def expect_topics():
    """Looks that the word `help` takes the names of the entries, by its source and by the definitions."""
    names = [entry.split("\n")[0] for entry in entries()]
    listed = re.search(r"const TOPICS: [^=]*= \[(.*?)\];", WORDS.read_text(), re.S)[1]
    expect(re.findall(r'"(\w+)"', listed) == names, f"{WORDS.name} lists other topics of help than there are")
    defined = re.search(r"^topic_names =(.*?)\[\]$", DEFINITIONS.read_text(), re.M | re.S)[1]
    expect(re.findall(r'codes "(\w+)"', defined) == names, f"{DEFINITIONS.name} has other topics of help than there are")


def main():
    words = argparse.ArgumentParser(description=__doc__, formatter_class=argparse.RawDescriptionHelpFormatter)
    words.add_argument("--check", action="store_true")
    if words.parse_args().check:
        expect_topics()
        expect(SOURCE.read_text() == source(), f"{SOURCE.relative_to(TOP)} isn't as tools/make_guide.py would write it")
    else:
        SOURCE.write_text(source())
    print(f"make_guide: {len(source().encode()):,} bytes")


if __name__ == "__main__":
    main()
