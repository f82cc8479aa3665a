#!/usr/bin/env python3
"""Answers as the shell `sqlite3` does, by Python's module, so that `docs/TABLES.md` can be tried where that isn't: runs
the file, and then what stands on the standard input, and prints the names of the columns and the rows, with a bar
between two fields.

usage: tools/sqlite_shell.py -header -init FILE DATABASE"""
import contextlib
import pathlib
import sqlite3
import sys

header, init, file, path = sys.argv[1:]
if (header, init) != ("-header", "-init"):
    sys.exit(__doc__)
with contextlib.closing(sqlite3.connect(path)) as conn:
    conn.executescript(pathlib.Path(file).read_text(encoding="utf-8"))
    asked = conn.execute(sys.stdin.read())
    print("|".join(name for name, *_ in asked.description))
    for row in asked:
        print("|".join("" if it is None else str(it) for it in row))
