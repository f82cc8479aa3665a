#!/usr/bin/env python3
"""Plays the worked examples in which rows are said by what they are called, on the built program. Those of
`crates/worked_examples/data/names` that `tools/name_lines.py` wrote are answered as their examples with numbers are;
the others have their answers beside them. Books with small limits are a file whose limits are changed before it is
opened. Then `docs/robot.jsonl`, of which each line is done.

usage: tools/check_examples.py PROGRAM"""
import contextlib
import os
import sqlite3
import sys
import tempfile

from name_lines import NAMED, named_examples
from shared import TOP, expect, reader_of_words, run


def with_limits(program, path, limits):
    """Makes a file of books with these limits, if there are some, and gives the words for it."""
    if not limits:
        return []
    expect(run(program, "run", "--db", path).returncode == 0, "no file is made")
    with contextlib.closing(sqlite3.connect(path)) as file, file:
        file.execute("UPDATE meta SET max_numbers = ?, max_entries = ?", limits)
    return ["--db", path]


def difference(program, lines, wanted, limits):
    """What the program answers otherwise, with the number of that answer, or None."""
    with tempfile.TemporaryDirectory() as folder:
        words = with_limits(program, os.path.join(folder, "x.db"), limits)
        done = run(program, "run", "--names", *words, lines=lines)
    told, wanted = done.stdout.split(b"\n"), wanted.split(b"\n")
    for at, (ours, theirs) in enumerate(zip(told, wanted), 1):
        if ours != theirs:
            return f"answer {at} is {ours!r} and not {theirs!r}"
    is_fine = not any(it.startswith((b'{"refused', b'{"fault')) for it in wanted)
    if len(told) != len(wanted) or done.returncode != (not is_fine) or done.stderr:
        return f"{len(told)} answers and not {len(wanted)}; status {done.returncode}; {done.stderr!r}"
    return None


def main():
    program = reader_of_words(__doc__).parse_args().program
    played = list(named_examples())
    differ = 0
    for name, wanted, limits in played:
        found = difference(program, (NAMED / f"{name}.in").read_bytes(), wanted.read_bytes(), limits)
        if found:
            differ += 1
            print(f"check_examples: {name}: {found}")
    robot = run(program, "run", "--names", lines=(TOP / "docs" / "robot.jsonl").read_bytes())
    if robot.returncode:
        differ += 1
        print(f"check_examples: docs/robot.jsonl: status {robot.returncode}: {robot.stdout.decode()}")
    print(f"check_examples: {len(played)} examples, {differ} differ")
    sys.exit(1 if differ else 0)


if __name__ == "__main__":
    main()
