#!/usr/bin/env python3
"""Dumps workshops as SQL, and makes files of the text by Python's sqlite3, and by the command sqlite3 where that is
there. The text is what Python's own dump of the file tells, a statement a line. A file that was made of it is opened as
the same books: all exports, reports and lists are the same, byte for byte, and so are the answers of a further run,
the kept answers of old requests, and the next dump. So it is where names and batches have quotes, semicolons and signs
beyond ASCII, and where another program left control characters. A dump is cut short at each byte: what is made of the
front has nothing, until the last line ends the transaction. A dump changes nothing, makes nothing where there is no
file, and tells of a disk that is full.

usage: tools/check_dump.py PROGRAM [--items N]
  --items N  the items of the larger workshop; else 2000"""
import contextlib
import json
import os
import pathlib
import shutil
import sqlite3
import subprocess
import tempfile

from check_file import LINES
from made_workshop import workshop
from shared import COLUMNS, expect, expect_whole, reader_of_words, rows_of, run

# What a text may have that SQL, a shell or a reader of lines could take for something else.
NAMES = [
    "O'Brien's", "'", "''", "a'); DROP TABLE items; --", "COMMIT;", "'; COMMIT; --", "/* x", "x */ --", "\\'",
    'the "best"', "Büro – Größe 7½", "日本語 🔩", "\u202egnirts", "\u00a0\u2028", "NULL", "0x41", "1e5", ".quit",
    "%s ?1 :a @b $c", "x" * 200,
]
# What another program may have left in a text that this one compares alone.
WILD = ["a\0b", "a\r\nb", "\n.quit\n", "\x7f", "'\0'", "".join(map(chr, range(1, 32))), "\0" * 3000]
SHELL = shutil.which("sqlite3")


def beside(path):
    """What each file in a file's folder has, and of each log that it is there."""
    files = [it for it in pathlib.Path(path).parent.iterdir() if it.is_file()]
    return {it: it.name.endswith("-wal") or it.read_bytes() for it in files}


def dumped(program, path):
    """The dump of a file, which it leaves as it is, and with nothing beside it that wasn't there. Of a log that is there
    it may write the header anew."""
    before = beside(path)
    told = run(program, "dump", "--db", path, lines=b"")
    expect((told.returncode, told.stderr) == (0, b""), f"a dump ends with {told.returncode}: {told.stderr!r}")
    expect(beside(path) == before, "a dump changes what lies there")
    return told.stdout


def made(text, path):
    """A file that Python's sqlite3 makes of a dump."""
    with contextlib.closing(sqlite3.connect(path)) as conn:
        conn.executescript(text.decode())
    return path


def made_by_shell(text, path):
    """The same by the command sqlite3."""
    done = subprocess.run([SHELL, path], input=text, capture_output=True, check=False)
    expect((done.returncode, done.stderr) == (0, b""), f"sqlite3 ends with {done.returncode}: {done.stderr!r}")
    return path


def tables_of(path):
    """The tables of a file: their texts, their rows, and what marks the file."""
    with contextlib.closing(sqlite3.connect(path)) as conn:
        expect_whole(conn)
        made_by = conn.execute("SELECT type, name, tbl_name, sql FROM sqlite_master").fetchall()
        names = ("application_id", "user_version", "encoding")
        marks = [conn.execute(f"PRAGMA {name}").fetchone()[0] for name in names]
        return made_by, marks, rows_of(conn)


def as_python_tells(text, path):
    """The text is Python's own dump of the file, but for the order of rows and of tables and for control characters."""
    with contextlib.closing(sqlite3.connect(path)) as conn:
        told = [it.replace('INSERT INTO "', "INSERT INTO ").replace('" VALUES(', " VALUES(") for it in conn.iterdump()]
    expect(text.endswith(b"COMMIT;\n"), "a dump doesn't end with its COMMIT")
    lines = text.decode().removesuffix("\n").split("\n")
    expect((lines[0], lines[-1]) == ("BEGIN;", "COMMIT;"), "a dump isn't one transaction")
    expect(sorted(lines[1:-1]) == sorted(told[1:-1]), "a dump isn't what Python's sqlite3 tells of the file")
    for line in lines:
        expect(sqlite3.complete_statement(line), f"this is no statement: {line!r}")
    places = {name: place for place, name in enumerate(COLUMNS)}
    tables = [it.split()[2] for it in lines[1:-1]]
    expect([places[it] for it in tables] == sorted(map(places.get, tables)), "the tables have another order")


def asked(program, path):
    """What the program tells of a file: all exports, some reports and all lists."""
    words = [("export", table) for table in COLUMNS]
    names = ("ledger", "stock", "where_used", "history", "content", "shortage")
    words += [("report", name, str(number)) for name in names for number in range(1, 41, 2)]
    words += [("show", name) for name in ("stock", "orders", "builds", "shortages", "count-sheet", "history")]
    return {it: outcome(run(program, it[0], "--db", path, *it[1:], lines=b"")) for it in words}


def outcome(ended):
    return ended.returncode, ended.stdout, ended.stderr.split(b": ")[-1]


def goes_on(program, path, lines):
    """The answers of a further run, and the dump behind it."""
    ended = run(program, "run", "--db", path, lines=lines)
    return ended.returncode, ended.stdout, dumped(program, path)


def alike(program, folder, path, name, more):
    """The file, and those that are made of its dump, are the same books, and go on alike."""
    text = dumped(program, path)
    wanted, tables = asked(program, path), tables_of(path)
    ways = [made, *([made_by_shell] if SHELL else [])]
    files = []
    for number, way in enumerate(ways):
        room = folder / f"{name}-{number}"
        room.mkdir()
        again = way(text, str(room / "again.db"))
        made_again = tables_of(again)
        expect(made_again[:2] == tables[:2], f"{name}: the file is made as {made_again[:2]}")
        expect(made_again[2] == tables[2], f"{name}: a restored file has other rows")
        told = asked(program, again)
        for words, it in wanted.items():
            expect(told[words] == it, f"{name}: after a dump {' '.join(words)} tells {str(told[words])[:300]}")
        expect(dumped(program, again) == text, f"{name}: a dump of what was restored is another text")
        files.append(again)
    ends = {goes_on(program, it, more) for it in [path, *files]}
    expect(len(ends) == 1, f"{name}: a further run has other ends: {[it[:2] for it in ends]}")
    print(f"{name}: {text.count(10)} statements, {len(text):,} bytes; made again in {len(files)} ways, and gone on with")
    return text


def has_nothing(front, path):
    """Whether a file has no table that is made of a front of a dump."""
    with contextlib.closing(sqlite3.connect(path)) as conn:
        with contextlib.suppress(sqlite3.OperationalError, sqlite3.Warning):
            conn.executescript(front)
    with contextlib.closing(sqlite3.connect(path)) as conn:
        return not conn.execute("SELECT name FROM sqlite_master").fetchall()


def cut(folder, text):
    """A dump that is cut short makes nothing, wherever it is cut; but for the end of its last line."""
    path = str(folder / "cut.db")
    letters = text.decode()
    end = len(letters) - len(";\n")
    for length in range(end):
        expect(has_nothing(letters[:length], path), f"a dump of {length} of {len(letters)} characters makes something")
    for length in (end, end + 1):
        os.remove(path)
        expect(not has_nothing(letters[:length], path), "a dump that lacks the end of its last line makes nothing")
    tables = tables_of(made(text, str(folder / "whole.db")))
    expect(tables_of(path) == tables, "a dump that lacks the end of its last line makes other tables")
    print(f"cut short at each of {end} characters, a dump makes nothing")


def cut_for_shell(folder, text):
    """So it is for the command sqlite3, at the end of each line and within the last."""
    path = str(folder / "shell.db")
    ends = [place + 1 for place, byte in enumerate(text) if byte == 10][:-1]
    for length in [*ends[:: max(1, len(ends) // 200)], ends[-1], *range(ends[-1] + 1, len(text) - 2)]:
        subprocess.run([SHELL, path], input=text[:length], capture_output=True, check=False)
        with contextlib.closing(sqlite3.connect(path)) as conn:
            found = conn.execute("SELECT name FROM sqlite_master").fetchall()
        expect(not found, f"sqlite3 makes something of {length} of {len(text)} bytes")


def hostile():
    """Lines that name things so that a text could end early, or look like another statement."""
    day = {"day": "2030-01-02"}
    for number, name in enumerate(NAMES):
        yield {"do": "add_location", "name": name, "key": f"k'{number};--", **day}
        yield {"do": "add_part", "name": name, "flags": ["component", "purchaseable"], **day}
        yield {"do": "found", "part": 3 * number + 2, "location": 3 * number + 1, "quantity": 7, "batch": name, **day}
    for name in NAMES:
        yield {"do": "order", "side": "purchase", "partner": name, **day}


def wild(program, path):
    """Texts of control characters, which another program left in the file."""
    with contextlib.closing(sqlite3.connect(path)) as conn:
        for number, text in enumerate(WILD):
            row = (f"wild-{number}", text, '{"entries":0,"ids":[1]}')
            conn.execute("INSERT INTO kept (word, command, answer) VALUES (?, ?, ?)", row)
        conn.commit()
    opened = run(program, "report", "--db", path, "ledger", "2")
    expect(opened.returncode == 0, f"a file with control characters isn't opened: {opened.stderr!r}")


def refused(program, folder):
    """No dump of no file; that of a file that has nothing; a full disk; and a file of another program."""
    absent = folder / "absent.db"
    ended = run(program, "dump", "--db", str(absent))
    expect((ended.returncode, ended.stdout) == (3, ""), f"a file that isn't there is dumped: {ended}")
    expect("there is no such file" in ended.stderr and not absent.exists(), f"it is told as {ended.stderr!r}")
    room = folder / "empty"
    room.mkdir()
    (room / "w.db").write_bytes(b"")
    text = dumped(program, str(room / "w.db"))
    new = str(folder / "new.db")
    expect(run(program, "run", "--db", new).returncode == 0, "a new file")
    expect(text == dumped(program, new), "a file that has nothing is dumped as other books than empty ones")
    if os.path.exists("/dev/full"):
        with open("/dev/full", "wb") as full:
            ended = subprocess.run([program, "dump", "--db", new], stdout=full, stderr=subprocess.PIPE, check=False)
        expect(ended.returncode == 3, f"a dump on a full disk ends with {ended.returncode}: {ended.stderr!r}")


def main():
    words = reader_of_words(__doc__)
    words.add_argument("--items", type=int, default=2000)
    given = words.parse_args()
    more = '{"day":"2030-06-01","do":"add_location","key":"more","name":"more"}\n'
    with tempfile.TemporaryDirectory() as name:
        folder = pathlib.Path(name)
        lines = {
            "small": LINES,
            "hostile": "".join(json.dumps(it) + "\n" for it in hostile()),
            "large": "\n".join(workshop(given.items)[0]) + "\n",
        }
        texts = {}
        for kind, said in lines.items():
            room = folder / kind
            room.mkdir()
            path = str(room / "w.db")
            ended = run(program := given.program, "run", "--db", path, "--journal", lines=said)
            expect(ended.returncode == 0, f"the {kind} workshop isn't made: {ended.stdout[-300:]}{ended.stderr}")
            as_python_tells(dumped(program, path), path)
            again = "".join(it + "\n" for it in said.splitlines()[:1]) if kind == "hostile" else ""
            texts[kind] = alike(program, folder, path, kind, again + more)
            if kind == "hostile":
                wild(program, path)
                alike(program, folder, path, "wild", more.replace("more", "wild"))
        cut(folder, texts["small"])
        if SHELL:
            cut_for_shell(folder, texts["hostile"])
        refused(program, folder)
    print("check_dump: all as it should be")


if __name__ == "__main__":
    main()
