#!/usr/bin/env python3
"""Changes files that the program made, a value or a row at a time, and looks whether the program opens exactly those
whose tables are still those of a sound state, by the rules written once more in Python. Some changes are aimed: at what
was spent on lines of builds, and at chains of templates.

usage: tools/check_opening.py PROGRAM [--runs N] [--lines N] [--changes N] [--seed N]"""
import contextlib
import os
import random
import shutil
import sqlite3
import sys
import tempfile

from check_machine import told_by, workshop
from machine.checks import BUILD_STATES
from machine.sound import is_sound
from shared import COLUMNS, reader_of_words, rows_of, run

# Tables of which little is summed are changed more often: most changes of items and entries break a sum.
TABLES = (["allocations"] * 6 + ["spent", "builds", "order_lines", "lines", "parts"] * 4 + ["items"] * 4
          + list(COLUMNS) * 2)
TEXTS = ["", "A", "x" * 200, "x" * 201, "a\tb", "é", "1", "2030-02-30", '{"entries":0,"ids":[]}',
         '{"entries":00,"ids":[]}']


def other_value(r, rows, at, value, most):
    """Another value for a column: one of another row, or one near by, or any."""
    others = [row[at] for row in rows]
    if isinstance(value, str):
        return r.choice(others + [r.choice(TEXTS), None])
    number = value or 0
    strange = r.choice([None, 0, -1, 10**9, 10**9 + 1, 2**63 - 1])
    return r.choice([r.choice(others), number + 1, number - 1, r.randint(0, 8), r.randint(1, most), strange])


def change(r, file, most):
    """Makes one change to a file, and tells which. (The text of a command isn't read, so it is left as it is.)"""
    name = r.choice(TABLES)
    key, *columns = COLUMNS[name]
    rows = file.execute(f"select {', '.join([key, *columns])} from {name}").fetchall()
    if not rows:
        return None
    row, way = r.choice(rows), r.random()
    if way < 0.06:
        file.execute(f"delete from {name} where {key} = ?", row[:1])
        return f"{name} without {row}"
    if way < 0.12:
        new = (r.randint(1, most), *row[1:])
        file.execute(f"insert into {name} values ({', '.join('?' * len(new))})", new)
        return f"{name} with {new}"
    column = r.choice([it for it in [key, *columns] if it != "command"])
    at = [key, *columns].index(column)
    if way < 0.3 and at:
        other = r.choice(rows)
        for it, value in (row, other[at]), (other, row[at]):
            file.execute(f"update {name} set {column} = ? where {key} = ?", (value, it[0]))
        return f"{name}: {column} of {row} and {other} exchanged"
    value = other_value(r, rows, at, row[at], most)
    file.execute(f"update {name} set {column} = ? where {key} = ?", (value, row[0]))
    return f"{name}: {column} of {row} is {value!r}"


def lines_of(m, builds, holds):
    """The pairs of one of these builds and an effective line of its part of which that holds."""
    return [(build, line) for build in builds for line in m.effective(m.builds[build].part) if holds(line)]


def pair_of(r, m):
    """A build and a line on which something may be spent, or that one clause forbids; with the name of that clause."""
    still_open = [n for n, it in m.builds.items() if it.state in BUILD_STATES[:3]]
    closed = [n for n in m.builds if n not in still_open]
    untracked = lines_of(m, still_open, m.is_untracked)
    build, line = r.choice(untracked or [(0, 0)])
    spent = [(it.build, it.line) for it in m.spent.values()]
    ways = {
        "an untracked line": untracked,
        "a line on which nothing was spent": [it for it in untracked if it not in spent],
        "a line twice": spent,
        "a tracked line": lines_of(m, still_open, m.is_tracked),
        "a consumable line": lines_of(m, still_open, lambda it: m.lines[it].consumable),
        "a line of a closed build": lines_of(m, closed, m.is_untracked),
        "another part's line": [(build, it) for it in m.lines if build and it not in m.effective(m.builds[build].part)],
        "a line of no build": [(m.next, line)],
        "no line": [(build, m.next)],
    }
    name = r.choice([it for it, pairs in ways.items() if pairs])
    return name, r.choice(ways[name])


def spend(r, file, m):
    """Spends something on a line of a build, or changes what was spent there, and tells so."""
    name, (build, line) = pair_of(r, m)
    wanted, allocated = 0, 0
    if build in m.builds and line in m.lines:
        wanted, allocated = m.lines[line].quantity * m.builds[build].quantity, m.for_line("build", build, line)
    quantity = r.choice([0, 1, 1, wanted, wanted + 1, max(wanted - allocated, 1), wanted - allocated + 1])
    if name != "a line twice" and any((it.build, it.line) == (build, line) for it in m.spent.values()):
        file.execute("update spent set quantity = ? where build = ? and line = ?", (quantity, build, line))
    else:
        number = r.choice([r.randint(1, m.next - 1)] * 9 + [m.next])
        file.execute("insert into spent values (?, ?, ?, ?)", (number, build, line, quantity))
    return f"{quantity} spent on {name}: {line} of {build}, where {wanted} are wanted and {allocated} allocated"


def link(r, file, m):
    """Makes templates of parts, each a variant of the next, now and then in a loop, and tells so."""
    parts = r.sample(list(m.parts), min(len(m.parts), r.choice([1, 2, 3, 4, 4, 5, 5, 6])))
    others = parts[1:] + r.choice([[], [], [parts[0]]])
    for part, template in zip(parts, others):
        file.execute("update parts set template = ? where id = ?", (template, part))
        file.execute("update parts set flags = flags | 1 where id = ?", (template,))
    if len(others) < len(parts) and r.random() < 0.5:
        file.execute("update parts set template = null where id = ?", (parts[-1],))
    return f"a chain of {parts}, {'in a loop' if len(others) == len(parts) else 'with an end'}"


def changed(r, path, m):
    """What was changed in a copy of a file, or None where the file takes no such change."""
    with contextlib.closing(sqlite3.connect(path)) as file:
        try:
            if r.random() < 0.3 and m.builds:
                told = [r.choice([spend, link])(r, file, m)]
            else:
                told = [change(r, file, m.next) for _ in range(r.choice([1, 1, 1, 2]))]
            file.commit()
        except (sqlite3.IntegrityError, OverflowError):
            return None, None
        return told if all(told) else None, rows_of(file)


def status_of(program, path):
    """The status with which the program opens a file and ends at once."""
    status = run(program, "run", "--db", path).returncode
    with contextlib.suppress(FileNotFoundError):
        os.unlink(path + "-wal")
    return status


def main():
    words = reader_of_words(__doc__)
    words.add_argument("--runs", type=int, default=20)
    words.add_argument("--lines", type=int, default=700)
    words.add_argument("--changes", type=int, default=150)
    words.add_argument("--seed", type=int, default=1)
    said = words.parse_args()
    told, wrong = {True: 0, False: 0}, 0
    for seed in range(said.seed, said.seed + said.runs):
        made, r = workshop(2 * seed + 1, said.lines), random.Random(seed)
        with tempfile.TemporaryDirectory() as folder:
            path, copy = os.path.join(folder, "workshop.db"), os.path.join(folder, "copy.db")
            told_by(said.program, made, path)
            for _ in range(said.changes):
                shutil.copyfile(path, copy)
                what, tables = changed(r, copy, made.m)
                if not what:
                    continue
                expected, status = is_sound(tables), status_of(said.program, copy)
                told[expected] += 1
                if status != (0 if expected else 3):
                    wrong += 1
                    print(f"run {seed}: {'; '.join(what)}: status {status}; sound: {expected}")
    print(f"{told[True]:,} changed files of sound states and {told[False]:,} others: {wrong} told otherwise")
    sys.exit(1 if wrong else 0)


if __name__ == "__main__":
    main()
