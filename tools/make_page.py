#!/usr/bin/env python3
"""Joins the files of `page/` into one page, and writes it into the program.

`frame.html` has a line where `style.css` goes, and one where the script does: first the commands with their fields,
refusals and effects, as `docs/MACHINE.md` has them, what each refusal means, as `docs/REFUSALS.md` says it, and the
columns and words of the tables, as `tools/machine` has them; then the files of the script, in the order of their
numbers: what runs as the page is loaded names only what stands before it, and a function may name what stands behind
it, too. Lines that are comments alone stay in the files. The page and the policy that names the hashes of its script
and its style are written as two constants into `crates/invdesk/src/page.rt`, the page in parts, since the prover
follows a text byte by byte and one of 157 KB is too deep for it. It may have 163,840 bytes, all of them ASCII.

usage: tools/make_page.py [--check]     --check writes nothing, and tells what isn't as it would be written"""
import argparse
import base64
import hashlib
import re

from machine.checks import BUILD_STATES
from machine.lines import FLAGS, SIDES, STATUSES
from machine.reports import HEADERS, KINDS, LINE_FLAGS, ORDER_STATES, PLACES, REASONS
from shared import TOP, expect

PAGE, SOURCE = TOP / "page", TOP / "crates" / "invdesk" / "src" / "page.rt"
MOST = 160 * 1024
# How many bytes a part of the page in the program's source may have.
PART = 48 * 1024
# The lines of the frame in whose place the style and the script go.
STYLE, SCRIPT = "/* page/style.css */\n", "// page/*.js, in the order of their numbers\n"
# The faults that a line can have that the page sends.
FAULTS = ["BadText", "BadSerials"]
# The words of the tables' numbers, each from 0 on, or from the bit 1.
NUMBERED = {"FLAGS": FLAGS, "LINE_FLAGS": LINE_FLAGS, "STATUSES": STATUSES, "SIDES": SIDES, "PLACES": PLACES,
            "REASONS": REASONS, "KINDS": KINDS, "ORDER_STATES": [it.lower() for it in ORDER_STATES],
            "BUILD_STATES": [it.lower() for it in BUILD_STATES]}
# The tables whose rows GET /books doesn't have.
LEFT_OUT = ["history", "kept"]
HEAD = """\
//! The page that a browser is given, and what it may do with it. This file is written by `tools/make_page.py` from
//! the files of `page/`.

"""
POLICY = ("default-src 'none'; script-src {script}; style-src {style}; connect-src 'self'; img-src data:; "
          "base-uri 'none'; form-action 'none'; frame-ancestors 'none'; require-trusted-types-for 'script'; "
          "trusted-types 'none'")


def section(document, title):
    """A section of a document, by the words of its heading."""
    text = (TOP / "docs" / document).read_text()
    return text.split(f"\n## {title}\n")[1].split("\n## ")[0]


def commands():
    """Each command of docs/MACHINE.md: its name, its fields with their kinds, the words of its refusals, and what it
    does. A field whose kind isn't told says a row of the table that it is called by."""
    found = []
    rows = re.findall(r"^\| `(\w+)` (.*?) \| (.*?) \| (.*) \|$", section("MACHINE.md", "Commands"), re.M)
    for command, said, refusals, effect in rows:
        fields = [(name, kind.strip().replace("order's line", "order_line") or name, bool(optional))
                  for name, optional, kind in re.findall(r"`(\w+)`(\??)([^,`]*)", said)]
        found.append((command, fields, re.findall(r"\w+", re.sub(r"\([^()]*\)", "", refusals)), plain_effect(effect)))
    return found


def plain_effect(effect):
    """An effect in the words of who fills in a form. Which entries it writes is left out where that stands at the end;
    elsewhere a kind of entry is told in small letters."""
    entry = r"(?:a|one|and a) `[A-Z]\w+`"
    alone = rf"(?:; |\. |, and )?{entry}(?: for (?:each|each node|each of them))?(?: where it was cut)?"
    while (shorter := re.sub(rf"(?:(?:^|; |\. |, |, and |, and then for each of them ){alone}|; no entry"
                             r"|\. `Built`, .*|; `Cut` where it was cut, `\w+`)$", "", effect, flags=re.I)) != effect:
        effect = shorter
    # one sentence, or as many as tell something: until 60 characters are there
    told, *rest = effect.split(". ")
    while rest and len(told) < 60:
        told += ". " + rest.pop(0)
    return re.sub(r"`([A-Z]\w*)`", lambda it: f"'{it[1].lower()}' entry", told).replace("`", "'")


def meanings(title):
    """What is wrong, by each word of a table of docs/REFUSALS.md."""
    rows = re.findall(r"^\| `(\w+)` \| (.*) \| .* \|$", section("REFUSALS.md", title), re.M)
    return {word: wrong.replace("`", "'") for word, wrong in rows}


def lines_of_columns():
    """The tables of GET /books with their columns, and then that of GET /history."""
    for table in [*(it for it in HEADERS if it not in [*LEFT_OUT, "meta"]), "history"]:
        yield f"{table} {HEADERS[table]}"


def written_part():
    """What stands in the page's script before its own files."""
    refusals = meanings("Refusals")
    letters = {word: chr(ord("a") + at) for at, word in enumerate(refusals)}
    faults = meanings("Faults of lines and of files that are imported")
    lines = ["// The commands of docs/MACHINE.md: fields with kinds, letters for refusals, rows of WORDS, and effects."]
    lines.append("const COMMANDS = `")
    for command, fields, words, effect in commands():
        said = " ".join(name + f":{kind}" * (kind != name) + "?" * optional for name, kind, optional in fields)
        lines.append(f"{command} {said} | {''.join(letters[word] for word in words)} | {effect}")
    lines += ["`;", "// The refusals and some faults of docs/REFUSALS.md: what is wrong.", "const WORDS = `"]
    lines += [f"{word} | {wrong}" for word, wrong in [*refusals.items(), *((it, faults[it]) for it in FAULTS)]]
    lines += ["`;", "// The columns of the tables, and the words of their numbers.", "const COLUMNS = `"]
    lines += [*lines_of_columns(), "`;", f"const [{', '.join(NUMBERED)}] = `"]
    lines += [*(",".join(words) for words in NUMBERED.values()), r"`.trim().split('\n').map(row => row.split(','));"]
    return "".join(line + "\n" for line in lines)


def hash_of(text, tag):
    """The hash of what stands in the page's one element of that name, as a policy has it."""
    bodies = re.findall(f"<{tag}>(.*?)</{tag}>", text, re.S)
    expect(len(bodies) == 1, f"the page has {len(bodies)} elements {tag}")
    return "'sha256-" + base64.b64encode(hashlib.sha256(bodies[0].encode()).digest()).decode() + "'"


def policy_of(text):
    """The policy of the page that has this text."""
    return POLICY.format(script=hash_of(text, "script"), style=hash_of(text, "style"))


def parts_of(text):
    """The text in parts that end with lines."""
    while len(text) > PART:
        end = text.rindex("\n", 0, PART) + 1
        yield text[:end]
        text = text[end:]
    yield text


def source_of(text):
    """The source of the program that has the page."""
    parts = [f'    r#"{part}"#,\n' for part in parts_of(text)]
    return f"""\
{HEAD}/// The page, in parts that follow one another.
pub const PAGE: [&str; {len(parts)}] = [
{"".join(parts)}];

/// What a browser may do for the page: run its one script, use its one style, and ask this service.
pub const POLICY: &str =
    "{policy_of(text)}";
"""


def without_comments(script):
    """A script without the lines that are comments alone."""
    return re.sub(r"^ *//.*\n", "", script, flags=re.M)


def page():
    """The page, of the files that it stands in."""
    frame = (PAGE / "frame.html").read_text()
    expect(frame.count(STYLE) == frame.count(SCRIPT) == 1, "the frame lacks the line of the style or of the script")
    parts = [written_part(), *(it.read_text() for it in sorted(PAGE.glob("*.js")))]
    script = "\n".join(["'use strict';\n", *map(without_comments, parts)])
    return frame.replace(STYLE, (PAGE / "style.css").read_text()).replace(SCRIPT, script)


def faults_of(text):
    """What a page may not have: it has to be short, and to stand in a source as it is."""
    size = len(text.encode())
    if size > MOST:
        yield f"the page has {size:,} bytes, and may have {MOST:,}"
    if not text.isascii() or "\r" in text:
        yield "the page has a character that isn't ASCII, or a carriage return"
    if '"#' in text:
        yield "the page has a quote with a number sign behind it, which would end the text in the source"
    for number, line in enumerate(text.split("\n"), 1):
        if len(line) > 120 and "|" not in line:
            yield f"line {number} of the page has more than 120 columns"


def main():
    does, called = __doc__.split("\nusage: ")
    plain = argparse.RawDescriptionHelpFormatter
    reader = argparse.ArgumentParser(usage=called, description=does, formatter_class=plain)
    reader.add_argument("--check", action="store_true")
    is_check = reader.parse_args().check
    wanted = page()
    faults = list(faults_of(wanted))
    if is_check:
        was = SOURCE.read_bytes().decode() if SOURCE.exists() else ""
        faults += [f"{SOURCE.relative_to(TOP)} isn't as it would be written"] * (was != source_of(wanted))
    else:
        SOURCE.write_text(source_of(wanted))
    expect(not faults, "; ".join(faults))
    print(f"make_page: {len(wanted.encode()):,} bytes, {len(commands())} commands")


if __name__ == "__main__":
    main()
