#!/usr/bin/env python3
"""Looks whether each wrong body still applies: those that the gate tries (must-fail/ of the crates) and those that it
leaves out (tools/wrong_bodies). An edit is lines 'file: PATH', 'old: TEXT' and 'new: TEXT'; the old text has to stand
exactly once in the crate's file, as the pairs before it left that. Before them stands the rule that the body breaks,
as a sentence: '# A refused request changes nothing.' Tells each edit that doesn't apply, lacks its rule, changes
nothing or has a line that isn't read.

usage: tools/check_edits.py [CRATE..]"""
import pathlib
import re
import sys

TOP = pathlib.Path(__file__).resolve().parent.parent
RULE = re.compile(r"# [A-Z`].*\.")


class Wrong(Exception):
    """Why an edit doesn't apply."""


def text_of(crate, path):
    try:
        return (TOP / "crates" / crate / path).read_text()
    except FileNotFoundError:
        raise Wrong(f"{path} isn't there") from None


def applied(crate, lines):
    """The texts of the files that an edit changes: as they are, and as it leaves them."""
    were, texts, path, old = {}, {}, None, None
    for line in lines:
        word, _, text = line.partition(": ")
        if word == "file":
            path = text
            were.setdefault(path, text_of(crate, path))
            texts.setdefault(path, were[path])
        elif word == "old":
            old = text
        elif word == "new" or line == "new:":
            if path is None or old is None:
                raise Wrong("a new text stands before any file or old text")
            if texts[path].count(old) != 1:
                raise Wrong(f"{old.strip()!r} stands {texts[path].count(old)} times in {path}")
            texts[path], old = texts[path].replace(old, text), None
        elif line.strip():
            raise Wrong(f"{line.strip()!r} isn't read")
    return were, texts


def fault_of(edit):
    """Why an edit doesn't apply, or an empty text."""
    # In must-fail/ the crate's folder is the one above, in tools/wrong_bodies the folder has its name.
    crate = edit.parent.parent.name if edit.parent.name == "must-fail" else edit.parent.name
    rule, *lines = edit.read_text().split("\n")
    if not RULE.fullmatch(rule):
        return "its first line isn't the rule that it breaks, as '# A refused request changes nothing.'"
    try:
        were, texts = applied(crate, lines)
    except Wrong as wrong:
        return str(wrong)
    return "it changes nothing" if were == texts else ""


def main():
    edits = sorted([*TOP.glob("crates/*/must-fail/*.edit"), *TOP.glob("tools/wrong_bodies/*/*.edit")])
    faults = 0
    for edit in edits:
        named = edit.relative_to(TOP)
        if sys.argv[1:] and not set(sys.argv[1:]) & set(named.parts):
            continue
        fault = fault_of(edit)
        if fault:
            faults += 1
            print(f"{named}: {fault}")
    print(f"{len(edits)} wrong bodies: {faults} of those looked at don't apply, or lack their rule")
    sys.exit(1 if faults else 0)


if __name__ == "__main__":
    main()
