#!/usr/bin/env python3
"""Does what the README, `docs/TUTORIAL.md`, `docs/MOVING-IN.md`, `docs/RECALL.md` and `docs/MISTAKES.md` say, on the
built program. The commands of the blocks of each are run in their order, each by a shell, in one temporary folder, and
what comes back is compared byte for byte with what stands there. What lies in `docs` in a folder of the document's
name, in small letters, is in it at first. The README has the commands of `make` besides, in a block that isn't run.
Then it looks whether the tables of `docs/REFUSALS.md` have one row for each word that the program says: each refusal,
each fault, what is told of a file or a token, and each status, as the sources have them; and whether those of
`docs/MISTAKES.md` have a row for each command, and its blocks a line for each that mends one.

usage: tools/check_tutorial.py PROGRAM"""
import os
import pathlib
import re
import shutil
import subprocess
import sys
import tempfile

from machine.lines import FIELDS
from shared import TOP, expect, reader_of_words

README = "README.md"
DOCUMENTS = [README, *(f"docs/{name}.md" for name in ("TUTORIAL", "MOVING-IN", "RECALL", "MISTAKES"))]
REFUSALS, MISTAKES = TOP / "docs" / "REFUSALS.md", TOP / "docs" / "MISTAKES.md"
# What is told of a variant, behind its name: a text, a text that is written, or one that is written with values in it.
ARM = r'::(\w+)(?:\([\w()]*\))? =>\s*\{?\s*(?:f\.write_str\(|write!\(f,)?\s*"([^"]*)"'
# Another fault, which has texts of its own.
OTHER = ["{fault}", "{failed}"]
# Variants that are told as another one, whose text it is.
HIDDEN = ["OpenFault::Memory", "OpenFault::Foreign", "OpenFault::Old", "Cause::NoTable"]


def commands(document):
    """Each command of a document: the number of its line, its text, and the output that stands behind it."""
    found, end, is_inside, is_run = [], None, False, False
    for number, line in enumerate((TOP / document).read_text().splitlines(), 1):
        where = f"{document}:{number}"
        if line.startswith("```"):
            is_inside = not is_inside
            is_run = is_inside and line == "```console"
            expect(is_run or not is_inside or document == README, f"{where}: a block isn't one of commands")
            expect(end is None, f"{where}: a block ends amid what a command reads")
        elif not is_run:
            continue
        elif end:
            found[-1][1] += line + "\n"
            end = None if line == end else end
        elif line.startswith("$ "):
            found.append([number, line[2:] + "\n", ""])
            here = re.search(r"<<'(\w+)'", line)
            end = here and here[1]
        else:
            expect(found, f"{where}: an output stands before any command")
            found[-1][2] += line + "\n"
    return found


def outputs(program, steps, *beside, **more):
    """What each command writes, to the standard error too, in a folder that has what lies in these beside the document,
    where there are more programs of these names."""
    with tempfile.TemporaryDirectory() as top:
        for name in ("bin", "workshop"):
            pathlib.Path(top, name).mkdir()
        for folder in filter(pathlib.Path.is_dir, beside):
            shutil.copytree(folder, f"{top}/workshop", dirs_exist_ok=True)
        for name, path in {"invdesk": program, **more}.items():
            pathlib.Path(top, "bin", name).symlink_to(path)
        words = {**os.environ, "PATH": f"{top}/bin:{os.environ['PATH']}"}
        how = {"cwd": f"{top}/workshop", "env": words, "stdin": subprocess.DEVNULL, "stdout": subprocess.PIPE}
        for _, command, _ in steps:
            done = subprocess.run(["sh", "-c", command], stderr=subprocess.STDOUT, check=False, **how)
            yield done.stdout.decode(errors="replace")


def difference(wanted, told):
    """The first line that a command writes otherwise, or how many it writes, or None."""
    if wanted == told:
        return None
    wanted, told = wanted.split("\n"), told.split("\n")
    pairs = (f"{ours!r} and not {theirs!r}" for ours, theirs in zip(told, wanted) if ours != theirs)
    return next(pairs, f"{len(told)} lines and not {len(wanted)}")


def differing(program, document):
    """What comes back otherwise than a document says, and how many commands it has."""
    steps = commands(document)
    told = outputs(program, steps, TOP / "docs" / pathlib.Path(document).stem.lower())
    differences = [(number, difference(wanted, it)) for (number, _, wanted), it in zip(steps, told)]
    return [f"{document}:{at}: the command answers {it}" for at, it in differences if it], len(steps)


def source(path):
    return (TOP / "crates" / path).read_text()


def texts(path, enum):
    """What is told of the variants of an enum. What is filled in is told as `..`."""
    text = source(path)
    body = re.search(rf"(?ms)^(?:pub )?enum {enum} \{{$(.*?)^\}}$", text)[1]
    arms = re.findall(rf"\b{enum}{ARM}", text)
    expect(set(re.findall(r"(?m)^    (\w+)", body)) == {name for name, _ in arms}, f"{path}: {enum} has no texts")
    shown = {it for name, it in arms if f"{enum}::{name}" not in HIDDEN and it not in OTHER}
    return {re.sub(r"\{\w*\}", "..", it) for it in shown}


def words_of_sections():
    """Under each heading of the list the words that its table has to have."""
    statuses = source("desk_http/src/rejection.rt") + source("desk_http/src/service.rt")
    files = [("desk_cli/src/database.rt", "FileFault"), ("desk_store/src/fault.rt", "OpenFault")]
    files += [("table_store/src/fault.rt", "Cause")]
    return {
        "Refusals": texts("word_core/src/refusal.rt", "Refusal"),
        "Faults of lines and of files that are imported": texts("desk_wire/src/fault.rt", "What"),
        "Words of a report": set(re.findall(r'=> "([^"]*)"', source("desk_cli/src/subject.rt"))),
        "Workshop files": set().union(*(texts(path, enum) for path, enum in files)),
        "Tokens": texts("invdesk/src/token.rt", "TokenFault"),
        "Services": {"..", "it says no row, or several",
                     *re.findall(r'=> Some\(\s*"([^"]*)",?\s*\)', source("invdesk/src/at.rt"))},
        "Statuses of HTTP": set(re.findall(r"///.*: (\d{3})[.,]", statuses)),
        "Statuses that the program ends with": set(re.findall(r": u8 = (\d);", source("desk_cli/src/status.rt"))),
    }


def rows_of_sections():
    """Under each heading of the list that has a table the first field of each of its rows."""
    found = {}
    for section in re.split(r"(?m)^## ", REFUSALS.read_text())[1:]:
        title, *lines = section.split("\n")
        rows = [line.split("|")[1].strip(" `") for line in lines if line.startswith("|")]
        if rows:
            found[title] = rows[2:]
    return found


def wrong_rows(wanted, found):
    """Tells each word that no row has or several have, and each row that has none."""
    for title in sorted(wanted.keys() | found.keys()):
        words, rows = wanted.get(title, set()), found.get(title, [])
        for word in sorted(words | set(rows)):
            if word not in words:
                yield f"{title}: a row has {word!r}, which the program doesn't say"
            elif rows.count(word) != 1:
                yield f"{title}: {rows.count(word)} rows have {word!r}"


def unmended():
    """Each command that no row of the mistakes has, and each that mends one and stands in no line there."""
    text = MISTAKES.read_text()
    rows = [line.split(" | ") for line in text.split("\n") if line.startswith("| `")]
    told = {row[0].strip("|` ") for row in rows}
    mending = {word for row in rows for word in re.findall(r"`(\w+)`", row[2])}
    for words, what in (FIELDS.keys() - told, "no row"), (told - FIELDS.keys(), "a row, and is none"):
        yield from (f"the command {it} has {what}" for it in sorted(words))
    yield from (f"{it} mends something, and no line has it" for it in sorted(mending) if f'"do":"{it}"' not in text)


def main():
    program = reader_of_words(__doc__).parse_args().program
    words, counts = words_of_sections(), []
    faults = [f"docs/REFUSALS.md: {fault}" for fault in wrong_rows(words, rows_of_sections())]
    faults += [f"docs/MISTAKES.md: {fault}" for fault in unmended()]
    for document in DOCUMENTS:
        found, count = differing(program, document)
        faults += found
        counts.append(f"{count} commands of {document}")
    for fault in faults:
        print(f"check_tutorial: {fault}")
    told = ", ".join([*counts, f"{sum(map(len, words.values()))} words"])
    print(f"check_tutorial: {told}, {len(faults)} differ")
    sys.exit(1 if faults else 0)


if __name__ == "__main__":
    main()
