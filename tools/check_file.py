#!/usr/bin/env python3
"""Runs the program on files and looks at them with Python's sqlite3: that after each word the named file alone,
copied away from its log, has the books; that the tables are STRICT and have their columns; that a file is kept
between two runs, and not changed by a report or an export; that exports and reports are what the tables have, and
after the first example byte for byte what they should be; that a first start that was killed, or met a full disk,
starts again; that a file is refused, with its name and the reason, that isn't a workshop's, or whose rows were
changed, one change for each clause of what a sound state is; and that files of an earlier version of the program are
recognised, and brought along with all that they have. That a look at a file that can't be opened makes nothing, and
says what lies there; that a new file and its log are their owner's alone, and a log of another user is left alone;
that words that only look, or bring along, leave no file, an empty file and a text as they find them; that a fault of
the disk is reported once, with the file and the reason, and nothing is told of a line that it undid; that of a file
that is replaced, removed or moved while it is open nothing more is answered, and what was answered is in it; that
control characters are escaped; and what is said of wrong words.

usage: tools/check_file.py PROGRAM"""
import contextlib
import csv
import io
import json
import os
import pathlib
import random
import resource
import shutil
import signal
import socket
import sqlite3
import subprocess
import tempfile
import time

from shared import COLUMNS, TOP, ask, expect, expect_whole, reader_of_words, rows_of, run, serve

# Files that the program as it was before version 2 made: one with nothing, one of a workshop that keeps the answer of
# each request, and one with rows in each table.
OLD = TOP / "tools" / "data" / "old"
OLD_TABLES = [table for table in COLUMNS if table != "spent"]
LINES = """\
{"day":"2030-01-02","do":"add_location","name":"A"}
{"day":"2030-01-02","do":"add_category","name":"Bought"}
{"category":2,"day":"2030-01-02","do":"add_part","flags":["component","purchaseable"],"name":"Screw"}
{"day":"2030-01-02","do":"add_part","flags":["component","trackable"],"name":"Motor"}
{"day":"2030-01-02","do":"add_part","flags":["assembly","trackable"],"name":"Robot"}
{"assembly":5,"component":3,"day":"2030-01-02","do":"add_line","quantity":4}
{"assembly":5,"component":4,"day":"2030-01-02","do":"add_line","quantity":2}
{"day":"2030-01-02","do":"add_part","flags":["component"],"name":"Bolt, \\"long\\""}
{"day":"2030-01-02","do":"add_substitute","line":6,"part":8}
{"day":"2030-01-02","do":"found","key":"k","location":1,"part":3,"quantity":100}
{"day":"2030-01-02","do":"found","location":1,"part":5,"quantity":1,"serials":"R1"}
{"day":"2030-01-02","do":"found","location":1,"part":4,"quantity":2,"serials":"S1,S2"}
{"day":"2030-01-02","do":"install","item":12,"parent":11,"quantity":1}
{"day":"2030-01-02","do":"add_part","flags":["purchaseable","salable"],"name":"Lamp"}
{"day":"2030-01-02","do":"order","partner":"Acme, \\"A\\"","side":"purchase"}
{"day":"2030-01-02","do":"order_line","order":15,"part":14,"quantity":20}
{"day":"2030-01-02","do":"issue_order","order":15}
{"day":"2030-01-02","do":"receive","line":16,"location":1,"quantity":12}
{"day":"2030-01-02","do":"order","partner":"Best","side":"sale"}
{"day":"2030-01-02","do":"order_line","order":18,"part":14,"quantity":20}
{"day":"2030-01-02","do":"issue_order","order":18}
{"day":"2030-01-02","do":"allocate_sale","item":17,"line":19,"quantity":1}
{"day":"2030-01-02","do":"ship","order":18}
{"day":"2030-01-02","do":"allocate_sale","item":17,"line":19,"quantity":4}
{"day":"2030-01-02","do":"order","partner":"Best","side":"sale"}
{"day":"2030-01-02","do":"order_line","order":23,"part":14,"quantity":20}
{"day":"2030-01-02","do":"issue_order","order":23}
{"assembly":5,"component":8,"consumable":true,"day":"2030-01-02","do":"add_line","quantity":1}
{"day":"2030-01-02","do":"add_part","flags":["assembly"],"name":"Frame"}
{"assembly":26,"component":3,"day":"2030-01-02","do":"add_line","quantity":2}
{"day":"2030-01-02","do":"found","location":1,"part":8,"quantity":50}
{"day":"2030-01-02","do":"found","location":1,"part":4,"quantity":2,"serials":"S3,S4"}
{"day":"2030-01-02","do":"build","part":5,"quantity":3}
{"build":31,"day":"2030-01-02","do":"issue_build"}
{"build":31,"day":"2030-01-02","do":"outputs","quantity":1,"serials":"R2"}
{"build":31,"day":"2030-01-02","do":"allocate_build","item":13,"line":7,"output":32,"quantity":1}
{"build":31,"day":"2030-01-02","do":"allocate_build","item":29,"line":7,"output":32,"quantity":1}
{"build":31,"day":"2030-01-02","do":"allocate_build","item":10,"line":6,"quantity":6}
{"day":"2030-01-02","do":"build","part":26,"quantity":5}
{"build":36,"day":"2030-01-02","do":"issue_build"}
{"build":36,"day":"2030-01-02","do":"outputs","quantity":2}
{"day":"2030-01-02","do":"build","part":26,"quantity":1}
{"build":38,"day":"2030-01-02","do":"issue_build"}
{"build":38,"day":"2030-01-02","do":"outputs","quantity":1}
{"build":38,"day":"2030-01-02","do":"allocate_build","item":10,"line":27,"quantity":2}
{"day":"2030-01-02","do":"complete_output","location":1,"output":39}
{"build":38,"day":"2030-01-02","do":"complete_build"}
{"build":36,"day":"2030-01-02","do":"allocate_build","item":10,"line":27,"quantity":3}
{"allocation":42,"day":"2030-01-02","do":"consume"}
"""
# Changes of an old file after which it isn't brought along.
UNMOVED = [
    ("UPDATE items SET serial = 'M1' WHERE id = 12", "do not fit one another", "an old file with a serial twice"),
    ("INSERT INTO meta VALUES (2, 1, 1, 0, 10, 10)", "do not fit one another", "an old file with two counters"),
    ("UPDATE meta SET version = 3", "another version", "an old file of another version"),
    ("DELETE FROM meta", "another version", "an old file without its counter"),
    ("UPDATE meta SET next = -1", "another version", "an old file whose counter can't be read"),
    ("CREATE TABLE more (id INTEGER PRIMARY KEY) STRICT", "no workshop's", "an old file with a table more"),
]
AGAIN = '{"day":"2030-01-03","do":"found","key":"k","location":1,"part":3,"quantity":100}\n'
# A change of the rows, and the clause that it breaks.
DAMAGES = [
    ("UPDATE parts SET template = 99 WHERE id = 3", "a template that isn't there"),
    ("UPDATE parts SET template = 4 WHERE id = 3", "a template that isn't flagged so"),
    ("UPDATE parts SET template = 3, flags = flags | 1 WHERE id = 3", "a part that is its own template"),
    ("UPDATE parts SET flags = flags | 1,"
     " template = CASE id WHEN 4 THEN 3 WHEN 8 THEN 4 WHEN 14 THEN 8 WHEN 26 THEN 14 END", "a chain of five parts"),
    ("UPDATE parts SET category = 99 WHERE id = 3", "a category that isn't there"),
    ("UPDATE categories SET parent = 2 WHERE id = 2", "a category in itself"),
    ("UPDATE locations SET parent = 1 WHERE id = 1", "a location in itself"),
    ("UPDATE parts SET flags = 999 WHERE id = 3", "flags that are none"),
    ("UPDATE parts SET name = '' WHERE id = 3", "a name that is none"),
    ("UPDATE lines SET component = 99 WHERE id = 6", "a component that isn't there"),
    ("UPDATE lines SET component = 5 WHERE id = 6", "a part in itself"),
    ("UPDATE lines SET quantity = 0 WHERE id = 6", "a line of nothing"),
    ("INSERT INTO substitutes VALUES (1, 6, 8)", "one substitute twice"),
    ("UPDATE substitutes SET line = 99", "a substitute on no line"),
    ("UPDATE items SET ref = 12 WHERE id = 12", "an item in itself"),
    ("UPDATE items SET place = 1, ref = 10 WHERE id = 12", "an item in one without a serial"),
    ("UPDATE items SET serial = 'S2' WHERE id = 12", "one serial twice"),
    ("UPDATE items SET quantity = 97 WHERE id = 10", "more found than is there"),
    ("UPDATE items SET part = 99 WHERE id = 10", "an item of no part"),
    ("UPDATE items SET place = 9 WHERE id = 10", "a place that is none"),
    ("UPDATE items SET ref = 99 WHERE id = 10", "a location that isn't there"),
    ("DELETE FROM history WHERE n = 2", "a gap in the history"),
    ("UPDATE history SET day = '2030-02-30' WHERE n = 1", "a day that is none"),
    ("UPDATE history SET item = 99 WHERE n = 1", "an entry of no item"),
    ("UPDATE kept SET answer = 'x'", "a kept answer that is none"),
    ("UPDATE kept SET word = ' '", "a word that is no key"),
    ("UPDATE meta SET next = 5", "numbers that are to come"),
    ("UPDATE meta SET entries = 1", "another count of entries"),
    ("UPDATE meta SET max_numbers = 0", "a limit that is none"),
    ("DELETE FROM meta", "no row of the counter"),
    ("INSERT INTO meta VALUES (2, 2, 14, 5, 9, 9)", "two rows of the counter"),
    ("INSERT INTO orders VALUES (99, 0, 'x', 0)", "an order that is to come"),
    ("UPDATE orders SET partner = '' WHERE id = 15", "a partner that is none"),
    ("UPDATE orders SET side = 2 WHERE id = 15", "a side that is none"),
    ("UPDATE orders SET state = 4 WHERE id = 15", "a state that is none"),
    ("INSERT INTO order_lines VALUES (99, 15, 14, 1, 0)", "a line of an order that is to come"),
    ("UPDATE order_lines SET owner = 99 WHERE id = 16", "a line of no order"),
    ("UPDATE order_lines SET part = 99 WHERE id = 16", "a line of no part"),
    ("INSERT INTO order_lines VALUES (1, 15, 14, 0, 0)", "a line of an order for nothing"),
    ("UPDATE order_lines SET quantity = 1000000001 WHERE id = 16", "a line for too many"),
    ("UPDATE order_lines SET done = 21 WHERE id = 16", "more done than ordered"),
    ("UPDATE order_lines SET done = 17 WHERE id = 19", "more done and allocated than ordered"),
    ("INSERT INTO allocations VALUES (99, 17, 1, 0, 18, 19, 0)", "an allocation that is to come"),
    ("UPDATE allocations SET quantity = 0 WHERE id = 22", "an allocation of nothing"),
    ("UPDATE allocations SET quantity = 12 WHERE id = 22", "more allocated than the item has"),
    ("UPDATE allocations SET item = 99 WHERE id = 22", "an allocation of no item"),
    ("UPDATE allocations SET item = 21, quantity = 1 WHERE id = 22", "an allocation of what was sent"),
    ("UPDATE allocations SET item = 10 WHERE id = 22", "an allocation of another part than the line's"),
    ("UPDATE allocations SET owner = 99 WHERE id = 22", "an allocation for no order"),
    ("UPDATE allocations SET line = 99 WHERE id = 22", "an allocation for no line"),
    ("UPDATE allocations SET line = 24 WHERE id = 22", "an allocation for another order's line"),
    ("UPDATE allocations SET output = 17 WHERE id = 22", "an allocation for an order with an output"),
    ("UPDATE allocations SET side = 1 WHERE id = 22", "an allocation for no build"),
    ("UPDATE orders SET side = 0 WHERE id = 18", "an allocation for a purchase"),
    ("UPDATE orders SET state = 0 WHERE id = 18", "an allocation for an order that isn't issued"),
    ("UPDATE orders SET state = 3 WHERE id = 18", "an allocation for a cancelled order"),
    ("UPDATE items SET ref = 99 WHERE id = 21", "an item that was sent for no order"),
    ("UPDATE history SET ref = 99 WHERE place = 3", "an entry that tells of no order"),
    ("INSERT INTO builds VALUES (0, 26, 1, 0, 0)", "a build of the number 0"),
    ("INSERT INTO builds VALUES (99, 26, 1, 0, 0)", "a build that is to come"),
    ("UPDATE builds SET part = 99 WHERE id = 38", "a build of no part"),
    ("UPDATE builds SET quantity = 0, done = 0 WHERE id = 38", "a build of nothing"),
    ("UPDATE builds SET quantity = 1000000001 WHERE id = 38", "a build of too many"),
    ("UPDATE builds SET state = 5 WHERE id = 38", "a state of a build that is none"),
    ("UPDATE builds SET done = 2 WHERE id = 38", "more built than wanted"),
    ("UPDATE builds SET done = 4 WHERE id = 36", "more built and begun than wanted"),
    ("UPDATE builds SET state = 3 WHERE id = 36", "an output of a cancelled build"),
    ("UPDATE builds SET state = 4 WHERE id = 36", "an output of a complete build"),
    ("UPDATE items SET ref = 99 WHERE id = 37", "an output of no build"),
    ("UPDATE items SET part = 26 WHERE id = 32", "an output of another part than the build's"),
    ("UPDATE items SET serial = NULL WHERE id = 32", "an output without a serial where a line is tracked"),
    ("INSERT INTO items VALUES (1, 4, NULL, 'S9', 0, 1, 1, 32)", "an output with content"),
    ("UPDATE allocations SET owner = 38, line = 27, quantity = 2 WHERE id = 35", "an allocation for a complete build"),
    ("UPDATE allocations SET owner = 99 WHERE id = 35", "an allocation for a build that isn't there"),
    ("UPDATE allocations SET line = 99 WHERE id = 35", "an allocation for no line of a bill"),
    ("UPDATE allocations SET line = 27 WHERE id = 35", "an allocation for another part's line"),
    ("UPDATE allocations SET line = 25, item = 28, quantity = 1 WHERE id = 35", "an allocation for a consumable line"),
    ("UPDATE allocations SET item = 39, quantity = 1 WHERE id = 35", "an allocation of what doesn't fit the line"),
    ("UPDATE allocations SET output = 0 WHERE id = 33", "a tracked line's allocation without an output"),
    ("UPDATE allocations SET output = 32, quantity = 4 WHERE id = 35", "an untracked line's allocation with an output"),
    ("UPDATE allocations SET output = 11 WHERE id = 33", "an allocation that names what is no output"),
    ("UPDATE allocations SET output = 37 WHERE id = 33", "an allocation that names another build's output"),
    ("UPDATE allocations SET quantity = 13 WHERE id = 35", "more allocated than a line needs for the build"),
    ("INSERT INTO allocations VALUES (1, 30, 1, 1, 31, 7, 32)", "more allocated than a line needs for an output"),
    ("UPDATE items SET ref = 99 WHERE id = 41", "an item that was used by no build"),
    ("UPDATE history SET ref = 99 WHERE place = 4", "an entry that tells of no build"),
    ("UPDATE spent SET id = 99", "what was spent under a number that is to come"),
    ("UPDATE spent SET build = 99", "what was spent on no build"),
    ("UPDATE spent SET build = 38", "what was spent on a complete build"),
    ("UPDATE spent SET line = 99", "what was spent on no line of a bill"),
    ("UPDATE spent SET line = 6", "what was spent on another part's line"),
    ("UPDATE spent SET build = 31, line = 7", "what was spent on a tracked line"),
    ("UPDATE spent SET build = 31, line = 25", "what was spent on a consumable line"),
    ("UPDATE spent SET quantity = 0", "nothing that was spent"),
    ("UPDATE spent SET quantity = 11", "more spent than a line wants of the build"),
    ("UPDATE spent SET build = 31, line = 6, quantity = 7", "more spent and allocated than a line wants of the build"),
    ("INSERT INTO spent VALUES (1, 36, 27, 1)", "what was spent on one line in two rows"),
    ("UPDATE meta SET version = 3", "another version"),
    ("DROP TABLE builds", "a table that is missing"),
    ("CREATE TABLE more (id INTEGER PRIMARY KEY) STRICT", "a table more"),
]
STARTS = 200
# Sizes of a full disk, in bytes.
SIZES = (1, 41, 4096, 8192, 65536, 131072)
NOBODY = 65534


def made(program, path):
    """A file of a small workshop, which is gone on with in a second run."""
    first = run(program, "run", "--db", path, lines=LINES)
    expect(first.returncode == 0, f"the first run ends with {first.returncode}: {first.stderr}")
    again = run(program, "run", f"--db={path}", lines=AGAIN)
    expect(again.stdout == '{"entries":1,"ids":[10]}\n', f"a repeat is answered {again.stdout!r}")


def look(path):
    """The tables of a copy of the file alone, as Python's sqlite3 finds them."""
    with tempfile.TemporaryDirectory() as name:
        copy = shutil.copy(path, name)
        with contextlib.closing(sqlite3.connect(copy)) as conn:
            strict = {row[1] for row in conn.execute("PRAGMA table_list") if row[5]}
            expect(strict == set(COLUMNS), f"the strict tables are {sorted(strict)}")
            for table, columns in COLUMNS.items():
                found = [row[1] for row in conn.execute(f"PRAGMA table_info({table})")]
                expect(found == columns, f"{table} has the columns {found}")
            expect_whole(conn)
            return rows_of(conn)


def kept(program, path):
    """The file after each word: what was answered is in the file alone, and what only reads leaves it byte for byte."""
    tables = look(path)
    expect(len(tables["items"]) == 14, f"the file alone has the items {tables['items']}")
    before = pathlib.Path(path).read_bytes()
    for words in (("report", "ledger", "3"), ("report", "ledger", "99"), ("export", "items"), ("run",)):
        run(program, words[0], "--db", path, *words[1:])
        expect(pathlib.Path(path).read_bytes() == before, f"{' '.join(words)} changes the file")
        expect(look(path) == tables, f"after {' '.join(words)} the file alone isn't the books")
    run(program, "run", "--db", path, lines='{"day":"2030-01-03","do":"add_location","name":"B"}\n')
    expect(len(look(path)["locations"]) == 2, "what a later run added isn't in the file alone")


# What is printed after the first example.
PRINTED = {
    ("report", "stock", "2"): "3\t70\tOK\tat 1\t\t\n",
    ("report", "history", "3"): "1\t2030-01-02\tfound\t100\tat 1\n2\t2030-01-03\twritten\t30\toff removed\n",
    ("export", "parts"): "id,name,category,template,flags,retired\n2,Screw,,,20,0\n",
    ("export", "items"): "id,part,batch,serial,status,quantity,place,ref\n3,2,,,0,70,0,1\n",
    ("export", "history"): "n,day,kind,item,part,quantity,place,ref\n"
                           "1,2030-01-02,1,3,2,100,0,1\n2,2030-01-03,6,3,2,30,5,0\n",
}


def printed(program, path):
    """Reports and exports after the first example, byte for byte."""
    run(program, "run", "--db", path, lines=(TOP / "crates/invdesk/stdin").read_text())
    for (word, *what), wanted in PRINTED.items():
        told = run(program, word, "--db", path, *what).stdout
        expect(told == wanted, f"{word} {' '.join(what)} prints {told!r}")


def exported(program, path, tables):
    for table, rows in tables.items():
        told = run(program, "export", "--db", path, table)
        expect(told.returncode == 0, f"the export of {table} ends with {told.returncode}")
        records = list(csv.reader(io.StringIO(told.stdout)))
        wanted = [["" if value is None else str(value) for value in row] for row in rows]
        expect(records == [COLUMNS[table], *wanted], f"the export of {table} is {told.stdout!r}")


def damaged(program, folder, path):
    for number, (change, what) in enumerate(DAMAGES):
        told(program, changed(path, str(folder / f"{number}.db"), change), "", what)


def killed(program, path, wait):
    """A first start that is killed after a while."""
    start = subprocess.Popen([program, "run", "--db", path], stdin=subprocess.PIPE, stdout=subprocess.DEVNULL)
    time.sleep(wait)
    start.send_signal(signal.SIGKILL)
    start.wait()
    with contextlib.suppress(BrokenPipeError):
        start.stdin.close()


def few_bytes(size):
    """What lets a program write files of that size alone, as on a full disk."""

    def limit():
        resource.setrlimit(resource.RLIMIT_FSIZE, (size, size))
        signal.signal(signal.SIGXFSZ, signal.SIG_IGN)

    return limit


def started_again(program, folder):
    """First starts that were stopped: the next start goes on, and gives the answers of an unbroken one."""
    chance = random.Random(1)
    wanted = run(program, "run", lines=LINES).stdout
    for number in range(STARTS):
        path = str(folder / f"start{number}.db")
        if number % 2:
            killed(program, path, chance.random() * 0.015)
            again = run(program, "run", "--db", path, lines=LINES)
            expect(again.returncode == 0, f"a killed first start is refused: {again.stderr}")
            expect(again.stdout == wanted, f"after a killed first start other answers: {again.stdout!r}")
        else:
            run(program, "run", "--db", path, lines=LINES, preexec_fn=few_bytes(SIZES[number // 2 % len(SIZES)]))
            again = run(program, "run", "--db", path)
            expect(again.returncode == 0, f"a first start on a full disk is refused ever after: {again.stderr}")
        look(path)


def told(program, path, reason, what, word="report", **more):
    """A file that is refused: the standard error names it, and why."""
    ended = run(program, word, "--db", path, *(("ledger", "3") if word == "report" else ()), **more)
    first = (ended.stderr.splitlines() or [""])[0]
    expect(ended.returncode == 3 and ended.stdout == "", f"{what} is taken: {ended.stdout!r}")
    expect(first.startswith(f"invdesk: {path}: ") and reason in first, f"{what} is told as {first!r}")
    print(f"{what}: {first}")


def changed(path, copy, change):
    with contextlib.closing(sqlite3.connect(path)) as source, contextlib.closing(sqlite3.connect(copy)) as target:
        source.backup(target)
        target.execute(change)
        target.commit()
    return copy


def refused(program, folder, path):
    """Each reason why a file has no desk."""
    told(program, str(folder), "a folder", "a folder")
    told(program, str(folder / "no" / "w.db"), "folder isn't there", "a file in no folder")
    told(program, f"{path}/w.db", "folder isn't there", "a file below a file")
    text = folder / "text.db"
    text.write_text("not a database, and long enough to be looked at as one\n" * 100)
    told(program, str(text), "no database", "a text")
    other = str(folder / "other.db")
    with contextlib.closing(sqlite3.connect(other)) as conn:
        conn.execute("CREATE TABLE note (id INTEGER PRIMARY KEY) STRICT")
        conn.commit()
    told(program, other, "no workshop's", "a database of others")
    version = changed(path, str(folder / "version.db"), "UPDATE meta SET version = 3")
    told(program, version, "another version", "a workshop's of another version")
    flags = changed(path, str(folder / "flags.db"), "UPDATE parts SET flags = 999 WHERE id = 3")
    told(program, flags, "the table parts", "a bad row")
    sums = changed(path, str(folder / "sums.db"), "UPDATE items SET quantity = 97 WHERE id = 10")
    told(program, sums, "do not fit one another", "rows that don't fit")
    held = subprocess.Popen([program, "run", "--db", path], stdin=subprocess.PIPE, stdout=subprocess.PIPE)
    held.stdin.write(AGAIN.encode())
    held.stdin.flush()
    held.stdout.readline()
    told(program, path,
         "another program has it open; where that serves it, say --at PORT in the place of --db", "a file in use")
    held.communicate()
    if os.geteuid() == 0:
        locked = shutil.copy(path, folder / "locked.db")
        os.chmod(locked, 0o600)
        os.chmod(folder, 0o755)
        told(program, str(locked), "may not be read and written", "a file of another user", user=NOBODY)


def rows_of_old(path):
    """The rows of an old file, which nothing changes meanwhile."""
    with contextlib.closing(sqlite3.connect(f"file:{path}?mode=ro&immutable=1", uri=True)) as conn:
        return rows_of(conn, OLD_TABLES)


def as_old(path, tables):
    """Whether the file has the tables of the old one: the counter's row but for the version, and nothing spent."""
    now = look(path)
    version = {row[1] for row in now["meta"]}
    same = all(now[table] == tables[table] for table in OLD_TABLES if table != "meta")
    counter = [row[:1] + row[2:] for row in now["meta"]] == [row[:1] + row[2:] for row in tables["meta"]]
    return same and counter and version == {2} and now["spent"] == []


def brought(program, folder, old):
    """An old file is refused as one, and stays as it is; brought along it has its rows, and its keys their answers."""
    path = shutil.copy(old, folder / old.name)
    tables = rows_of_old(path)
    before = pathlib.Path(path).read_bytes()
    told(program, str(path), "invdesk migrate --db FILE", f"the old file {old.name}")
    expect(pathlib.Path(path).read_bytes() == before, f"{old.name} is changed by a report")
    moved = run(program, "migrate", "--db", str(path))
    is_moved = (moved.returncode, moved.stdout) == (0, "migrated\n")
    expect(is_moved, f"{old.name} is told as {moved.stdout!r}{moved.stderr}")
    expect(as_old(path, tables), f"{old.name} has other rows once it is brought along")
    exported(program, str(path), look(path))
    after = pathlib.Path(path).read_bytes()
    again = run(program, "migrate", "--db", str(path))
    expect((again.returncode, again.stdout) == (0, "migrated\n"), f"{old.name} isn't opened once more")
    expect(pathlib.Path(path).read_bytes() == after, f"{old.name} is changed once more")
    for word, command, answer in tables["kept"]:
        fields = {name: value for name, value in json.loads(command).items() if value is not None}
        if "serials" in fields:
            fields["serials"] = ",".join(fields["serials"])
        line = json.dumps({**fields, "day": "2030-02-01", "key": word}, sort_keys=True)
        repeat = run(program, "run", "--db", str(path), lines=line + "\n").stdout
        expect(repeat == answer + "\n", f"the key {word} of {old.name} is answered {repeat!r}")
    expect(as_old(path, tables), f"{old.name} is changed by repeats")


def not_brought(program, folder):
    """What no run of the old program left isn't brought along, and stays as it is."""
    for number, (change, reason, what) in enumerate(UNMOVED):
        path = changed(OLD / "cell-shipped.db", str(folder / f"old-{number}.db"), change)
        before = pathlib.Path(path).read_bytes()
        moved = run(program, "migrate", "--db", path)
        expect(moved.returncode == 3 and moved.stdout == "", f"{what} is brought along")
        expect(moved.stderr.startswith(f"invdesk: {path}: ") and reason in moved.stderr, f"{what}: {moved.stderr!r}")
        expect(pathlib.Path(path).read_bytes() == before, f"{what} is changed")
        print(f"{what}: {moved.stderr.splitlines()[0]}")
    absent = folder / "absent.db"
    nothing = run(program, "migrate", "--db", str(absent))
    expect(nothing.returncode == 3 and not absent.exists(), f"a file is made: {nothing.stderr!r}")
    empty = folder / "nothing.db"
    empty.write_bytes(b"")
    nothing = run(program, "migrate", "--db", str(empty))
    expect(nothing.returncode == 3 and "no workshop's" in nothing.stderr, f"an empty file is taken: {nothing.stderr!r}")
    expect(run(program, "migrate", "--db", str(empty)).returncode == 3, "an empty file is made a workshop's")


def listing(room):
    """What lies in a folder: names, kinds, modes, links and contents."""
    found = {}
    for path in sorted(room.iterdir()):
        kind = path.lstat()
        what = os.readlink(path) if path.is_symlink() else path.read_bytes() if path.is_file() else None
        found[path.name] = (kind.st_mode, kind.st_nlink, what)
    return found


def link(room):
    (room / "w.db").symlink_to("nowhere")


def second(room):
    os.link(room / "w.db", room / "other")


def journal(room):
    (room / "w.db-journal").write_bytes(b"a change that didn't end")


def linked_log(room):
    (room / "w.db-wal").unlink(missing_ok=True)
    (room / "w.db-wal").symlink_to("elsewhere")


def log_folder(room):
    (room / "w.db-wal").unlink(missing_ok=True)
    (room / "w.db-wal").mkdir()


def second_log(room):
    (room / "w.db-wal").touch()
    os.link(room / "w.db-wal", room / "other")


def pipe(room):
    os.mkfifo(room / "w.db")


def nothing(room):
    pass


# What lies at a file's name and beside it, whether the file is there, its name, and what is told.
NAMES = [
    (nothing, False, ":memory:", "keeps such a name for itself"),
    (nothing, False, "file:w.db", "keeps such a name for itself"),
    (nothing, False, "no/w.db", "folder isn't there"),
    (nothing, False, "", "folder isn't there"),
    (link, False, "w.db", "a link to a file that isn't there"),
    (second, True, "w.db", "has a second name"),
    (second, True, "other", "has a second name"),
    (journal, True, "w.db", "the journal of a change"),
    (journal, False, "w.db", "the journal of a change"),
    (linked_log, True, "w.db", "a link lies where its log is to be"),
    (linked_log, False, "w.db", "a link lies where its log is to be"),
    (log_folder, True, "w.db", "a folder or a device lies where its log is to be"),
    (log_folder, False, "w.db", "a folder or a device lies where its log is to be"),
    (second_log, True, "w.db", "log has a second name"),
    (pipe, False, "w.db", "a folder or a device"),
    (nothing, True, "w.db/", "folder"),
]


def looked_at(program, folder, path):
    """A file that can't be opened: what lies there is told, and nothing is made."""
    for number, (make, there, name, reason) in enumerate(NAMES):
        room = folder / f"room{number}"
        room.mkdir()
        if there:
            shutil.copy(path, room / "w.db")
        make(room)
        before = listing(room)
        told(program, name, reason, f"{make.__name__} at {name!r}", cwd=room)
        expect(listing(room) == before, f"{make.__name__} at {name!r} makes {listing(room).keys() ^ before.keys()}")
    room = folder / "linked"
    room.mkdir()
    (room / "way").symlink_to(path)
    expect(run(program, "report", "--db", str(room / "way"), "ledger", "3").returncode == 0, "a link to a workshop")
    expect(list(listing(room)) == ["way"], "a log beside a link")
    private = str(room / "private.db")
    shutil.copy(path, private)
    os.chmod(private, 0o600)
    run(program, "run", "--db", private)
    expect(os.stat(private + "-wal").st_mode & 0o777 == 0o600, "a log that others may read")
    pathlib.Path(private + "-journal").write_bytes(bytes(512))
    expect(run(program, "report", "--db", private, "ledger", "3").returncode == 0, "an ended journal")
    if os.geteuid() == 0:
        os.chmod(room, 0o755)
        shutil.copy(path, room / "open.db")
        os.chmod(room / "open.db", 0o666)
        new = str(room / "new.db")
        told(program, new, "can't be made in its folder", "a folder of another user", "run", user=NOBODY)
        told(program, str(room / "open.db"), "can't be made in its folder", "a log in that folder", user=NOBODY)
        expect(not (room / "new.db").exists(), "a file of another user's folder")


def mode_of(path):
    return os.stat(path).st_mode & 0o777


def private(program, folder, path):
    """A new file and its log are their owner's alone, whatever the umask leaves. A file that is there keeps its mode, and
    its log gets it."""
    room = folder / "private"
    room.mkdir()
    new, shared = str(room / "new.db"), str(room / "shared.db")
    shutil.copy(path, shared)
    os.chmod(shared, 0o664)
    for file, wanted in ((new, 0o600), (shared, 0o664)):
        ended = run(program, "run", "--db", file, umask=0)
        expect(ended.returncode == 0, f"{file} isn't opened: {ended.stderr!r}")
        for it in (file, f"{file}-wal"):
            expect(mode_of(it) == wanted, f"{it} has the mode {mode_of(it):o} and not {wanted:o}")


def foreign_logs(program, folder, path):
    """A log that belongs neither to the owner of its file nor to the user is left alone, where the file is there and
    where it isn't."""
    if os.geteuid() != 0:
        return
    reason = "another user owns its log"
    for there in (True, False):
        room = folder / f"foreign-{there}"
        room.mkdir()
        file, log = room / "w.db", room / "w.db-wal"
        if there:
            shutil.copy(path, file)
            (room / "way").symlink_to("w.db")
        log.touch()
        os.chown(log, NOBODY, NOBODY)
        before = listing(room)
        for name in ("w.db", "way")[:1 + there]:
            for word in ("report", "run", "migrate"):
                told(program, str(room / name), reason, f"{word} of {name} beside another's log", word)
                expect(listing(room) == before, f"{word} of {name} changes what lies beside another's log")
                expect(log.stat().st_uid == NOBODY, f"{word} of {name} takes another's log")
    file, log = folder / "foreign-True" / "w.db", folder / "foreign-True" / "w.db-wal"
    for owner, of_log in ((NOBODY, NOBODY), (NOBODY, 0)):
        os.chown(file, owner, owner)
        os.chown(log, of_log, of_log)
        ended = run(program, "run", "--db", str(file))
        expect(ended.returncode == 0, f"a file of {owner} with a log of {of_log} isn't opened: {ended.stderr!r}")
    os.chmod(folder, 0o755)
    told(program, str(file), reason, "a log of root's beside one's file", user=NOBODY)


def absent(_path):
    """No file."""


def emptied(path):
    path.write_bytes(b"")


def text(path):
    path.write_text("not a database, and long enough to be looked at as one\n" * 100)


def headed(path):
    """What begins as a database does, and is none."""
    path.write_bytes(b"SQLite format 3\0" + b"not a database\n" * 600)


def strange(path):
    """A database of others."""
    with contextlib.closing(sqlite3.connect(path)) as conn:
        conn.execute("CREATE TABLE note (id INTEGER PRIMARY KEY) STRICT")
        conn.commit()


# Words that only look, or bring along; and those with one that makes a workshop where there is nothing.
LOOKS = [("show", "stock"), ("report", "ledger", "1"), ("export", "items"), ("dump",), ("migrate",)]
WORDS = [*LOOKS, ("run",)]
# What lies at a file's name, the words that leave it so, and why a word is refused there; where none stands here, what
# it prints is that of a workshop that has nothing.
LEFT = [
    (absent, LOOKS, dict.fromkeys(("show", "dump", "migrate"), "there is no such file")),
    (emptied, LOOKS, {"migrate": "no workshop's"}),
    (text, WORDS, {word: "no database" for word, *_ in WORDS}),
    (headed, WORDS, {word: "no database" for word, *_ in WORDS}),
    (strange, WORDS, {word: "no workshop's" for word, *_ in WORDS}),
]


def left_alone(program, folder):
    """What only looks, or brings along, leaves what lies there as it is, and makes nothing beside it; and so does what
    is refused."""
    bare = str(folder / "bare.db")
    expect(run(program, "run", "--db", bare).returncode == 0, "a workshop that has nothing")
    room = folder / "alone"
    room.mkdir()
    shutil.copy(bare, room / "w.db")
    before = listing(room)
    for word, *more in LOOKS[:-1]:
        run(program, word, "--db", str(room / "w.db"), *more)
        expect(listing(room) == before, f"{word} of a copy leaves {sorted(listing(room))}")
    for number, (make, tried, reasons) in enumerate(LEFT):
        for word, *more in tried:
            room = folder / f"left{number}-{word}"
            room.mkdir()
            path = room / "w.db"
            make(path)
            before = listing(room)
            ended = run(program, word, "--db", str(path), *more)
            what = f"{word} of {make.__name__}"
            expect(listing(room) == before, f"{what} leaves {sorted(listing(room))}")
            if word in reasons:
                is_told = ended.stderr.startswith(f"invdesk: {path}: ") and reasons[word] in ended.stderr
                expect(is_told and (ended.returncode, ended.stdout) == (3, ""), f"{what} ends so: {ended}")
            else:
                wanted = run(program, word, "--db", bare, *more)
                same = (ended.returncode, ended.stdout, ended.stderr) == (wanted.returncode, wanted.stdout, "")
                expect(same, f"{what} ends so: {ended}, and not {wanted}")


def is_plain(text):
    """No control character but the ends of lines."""
    return all(c == "\n" or (ord(c) >= 32 and not 127 <= ord(c) < 160) for c in text)


def escaped(program, folder):
    """Control characters in what is told to a person."""
    wild = "\x1b[31m\x7f\x9b\r\n\t"
    wild_import = ("import", "--db", f"{folder}/wild.db", "--document", "D", "--day", "2030-01-02", "--kind")
    cases = [
        ("report", "--db", f"{folder}/{wild}/w.db", "ledger", "1"),
        ("report", "--db", f"{folder}/w.db", wild, "1"),
        ("run", wild),
        (wild,),
        ("run", f"--{wild}"),
        (*wild_import, "counts", f"{folder}/{wild}"),
        (*wild_import, wild, "x"),
    ]
    for words in cases:
        ended = run(program, *words)
        expect(ended.returncode in (2, 3) and is_plain(ended.stderr), f"{words} is told as {ended.stderr!r}")
    umlaut = run(program, "report", "--db", f"{folder}/no/Ärger.db", "ledger", "1")
    expect("no/Ärger.db: " in umlaut.stderr, f"a name is told as {umlaut.stderr!r}")
    first = run(program, *cases[0]).stderr.splitlines()[0]
    shown = r"\u{1b}[31m\u{7f}\u{9b}\u{0d}\u{0a}\u{09}"
    wanted = f"invdesk: {folder}/{shown}/w.db: its folder isn't there"
    expect(first == wanted, f"a path is told as {first!r}")


def words(program, folder):
    """Words that begin with a hyphen, and the usage beside a wrong value."""
    room = folder / "words"
    room.mkdir()
    (room / "-x.csv").write_text("number,item,quantity\n")
    expect(run(program, "run", "--db=-x", cwd=room).returncode == 0 and (room / "-x").exists(), "--db=-x")
    expect(run(program, "run", "--db", "-y", cwd=room).returncode == 2, "--db -y")
    expect(run(program, "run", "--", "-y", cwd=room).returncode == 2, "-- -y")
    given = ("import", "--db", "w.db", "--kind", "counts", "--document", "D", "--day", "2030-01-02")
    expect(run(program, *given, "--", "-x.csv", cwd=room).returncode == 0, "import -- -x.csv")
    expect(run(program, *given, "-x.csv", cwd=room).returncode == 2, "import -x.csv")
    wrong = {
        "serve": ("--port", "0", "--count", "1"),
        "report": ("--db", "w.db", "ledger", "one"),
        "import": (*given[1:-1], "2030-02-30", "x"),
    }
    for word, values in wrong.items():
        ended = run(program, word, *values, cwd=room)
        expect(ended.returncode == 2, f"{word} with a wrong value ends with {ended.returncode}")
        expect(f"Usage: invdesk {word} " in ended.stderr, f"{word} is told as {ended.stderr!r}")


def undone(program, path, size, line):
    """Lines that come together as the disk gets full: what was undone has no answer, and no reason is told of it."""
    wrong = '{"day":"2030-01-03","do":"remove","item":10,"quantity":1000000}\n'
    lines = "".join(line % ("L" * 40 + str(number)) + wrong for number in range(2000))
    ended = run(program, "run", "--explain", "--db", str(path), lines=lines, preexec_fn=few_bytes(size))
    told = sum(reason.startswith("line ") for reason in ended.stderr.splitlines())
    answered = ended.stdout.count('"refused"')
    expect(ended.returncode == 3, f"run --explain on a full disk ends with {ended.returncode}")
    expect(told == answered, f"{answered} lines are answered as refused, and the reasons of {told} are told")


def faults(program, folder, path):
    """The disk is full as the program writes: the fault is told once, with the file and the reason."""
    line = '{"day":"2030-01-03","do":"add_location","name":"%s"}\n'
    lines = "".join(line % ("L" * 40 + str(number)) for number in range(2000))
    size = os.path.getsize(path) + 8192
    rows = "number,item,quantity\n" + "".join(f"{number},10,{100 + number}\n" for number in range(1, 2001))
    (folder / "counts.csv").write_text(rows)
    imported = ("--kind", "counts", "--document", "D", "--day", "2030-01-03", str(folder / "counts.csv"))
    for number, (word, *more) in enumerate((("run",), ("import", *imported))):
        copy = shutil.copy(path, folder / f"full{number}.db")
        ended = run(program, word, "--db", str(copy), *more, lines=lines, preexec_fn=few_bytes(size))
        first, *rest = ended.stderr.splitlines()
        expect(ended.returncode == 3, f"{word} on a full disk ends with {ended.returncode}")
        expect(first.startswith(f"invdesk: {copy}: the database answered: "), f"{word} tells {first!r}")
        expect(rest == ["invdesk: store or device failed"], f"{word} tells {rest!r} besides")
        print(f"{word} on a full disk: {first}")
    undone(program, shutil.copy(path, folder / "undone.db"), size, line)
    copy = shutil.copy(path, folder / "served.db")
    limit = few_bytes(4 * size)
    served, port = serve(program, "--db", str(copy), "--count", "60", preexec_fn=limit)
    statuses = []
    for number in range(60):
        body = (line % ("L" * 40 + str(number))).strip().encode()
        head = b"POST /run HTTP/1.1\r\nHost: 127.0.0.1:%d\r\nContent-Length: %d\r\n\r\n" % (port, len(body))
        with contextlib.closing(socket.create_connection(("127.0.0.1", port))) as client:
            client.sendall(head + body)
            statuses.append(client.recv(64).split()[1])
        if statuses[-1] == b"500" and statuses.count(b"500") == 1:
            first = served.stderr.readline().decode()
            expect(first.startswith(f"invdesk: {copy}: the database answered: "), f"serve tells {first!r}")
            expect("started again" in first, f"serve tells {first!r}")
            print(f"serve on a full disk: {first.strip()}")
    rest = served.communicate(timeout=60)[1]
    expect(b"200" in statuses and statuses[-1] == b"500", f"serve answers {statuses}")
    expect(b"the database answered" not in rest, f"serve tells it again: {rest!r}")


# What becomes of a file at its path while it is open.
TAKEN = {
    "replaced": lambda path, other: os.replace(other, path),
    "removed": lambda path, _other: os.remove(path),
    "moved": lambda path, _other: os.rename(path, f"{path}.aside"),
}
GONE = "another file lies at its path now, or none, so nothing more is kept in the one that lay there"


def located(name, key=""):
    """A line that adds a location, under a key where one is given."""
    return json.dumps({"day": "2030-01-03", "do": "add_location", "name": name} | ({"key": key} if key else {})) + "\n"


def room_to_take(program, folder, path, name):
    """A copy of the file in a folder of its own, and another workshop's file beside it."""
    room = folder / name
    room.mkdir()
    other = str(room / "other.db")
    run(program, "run", "--db", other, lines=located("Elsewhere"))
    for rest in room.glob("other.db-*"):
        rest.unlink()
    return shutil.copy(path, room / "w.db"), other


def expect_apart(program, path, way, kept, was):
    """What was answered is in the file that was open, and nothing else. What was put in its place is as it was."""
    names = [row[1] for row in look(kept)["locations"]]
    expect("Answered" in names and "Lost" not in names, f"the file that was {way} has the locations {names}")
    if way == "replaced":
        expect(pathlib.Path(path).read_bytes() == was, "the file that was put in its place is changed")
        again = run(program, "export", "--db", path, "locations").stdout
        expect("Elsewhere" in again and "Answered" not in again, f"the file in its place has {again!r}")
    else:
        expect(not pathlib.Path(path).exists(), f"where a file was {way} there is one again")


def taken_from_run(program, folder, path, way):
    """A file that is taken away amid a run, which waits for its next line."""
    at, other = room_to_take(program, folder, path, f"run-{way}")
    words = [program, "run", "--db", at]
    child = subprocess.Popen(words, stdin=subprocess.PIPE, stdout=subprocess.PIPE, stderr=subprocess.PIPE, text=True)
    child.stdin.write(located("Answered"))
    child.stdin.flush()
    answer = child.stdout.readline()
    expect(answer.startswith('{"entries":0,"ids":['), f"a line is answered {answer!r}")
    kept, was = f"{at}.kept", pathlib.Path(other).read_bytes()
    os.link(at, kept)
    TAKEN[way](at, other)
    out, told = child.communicate(located("Lost") + located("Later"), timeout=60)
    expect((child.returncode, out) == (3, ""), f"where its file was {way} a run ends {child.returncode} with {out!r}")
    expect(told == f"invdesk: {at}: {GONE}\ninvdesk: store or device failed\n", f"it is told {told!r}")
    expect_apart(program, at, way, kept, was)


def taken_from_service(program, folder, path, way):
    """The same amid a service, which still tells what changes nothing, and ends by the first request that would."""
    at, other = room_to_take(program, folder, path, f"served-{way}")
    served, port = serve(program, "--db", at, "--page")
    first = located("Answered", "k/1")
    status, _, answer = ask(port, "POST", "/run", first)
    expect(status == 200, f"a line is answered {status}")
    kept, was = f"{at}.kept", pathlib.Path(other).read_bytes()
    os.link(at, kept)
    TAKEN[way](at, other)
    status, _, again = ask(port, "POST", "/run", first)
    expect((status, again) == (200, answer), f"where its file was {way} a repeat is answered {status} {again!r}")
    status, _, lost = ask(port, "POST", "/run", located("Lost"))
    expect(status == 500, f"where its file was {way} a line is answered {status} {lost!r}")
    told = served.communicate(timeout=60)[1].decode()
    expect(served.returncode == 3, f"where its file was {way} a service ends with {served.returncode}")
    first, *rest = told.splitlines()
    expect(first.startswith(f"invdesk: {at}: {GONE}; the service ends"), f"it is told {first!r}")
    expect(not any(GONE in line for line in rest), f"it is told again: {rest!r}")
    expect_apart(program, at, way, kept, was)


def written_over(program, folder, path):
    """What is copied onto the file goes into the very file that is open: it is no other, so that isn't told."""
    at, other = room_to_take(program, folder, path, "over")
    words = [program, "run", "--db", at]
    child = subprocess.Popen(words, stdin=subprocess.PIPE, stdout=subprocess.PIPE, stderr=subprocess.PIPE, text=True)
    child.stdin.write(located("Answered"))
    child.stdin.flush()
    child.stdout.readline()
    shutil.copyfile(other, at)
    _, told = child.communicate(located("Later"), timeout=60)
    expect(child.returncode in (0, 3) and GONE not in told, f"a run over which is copied is told {told!r}")


def taken(program, folder, path):
    """Files that don't lie any more where they were opened."""
    for way in TAKEN:
        taken_from_run(program, folder, path, way)
        taken_from_service(program, folder, path, way)
    written_over(program, folder, path)


def main():
    program = reader_of_words(__doc__).parse_args().program
    with tempfile.TemporaryDirectory() as name:
        folder = pathlib.Path(name)
        path = str(folder / "workshop.db")
        made(program, path)
        exported(program, path, look(path))
        printed(program, str(folder / "first.db"))
        kept(program, path)
        ledger = run(program, "report", "--db", path, "ledger", "3")
        expect(ledger.stdout.startswith("ledger\t3\tScrew\n") and ledger.returncode == 0, "no ledger")
        none = run(program, "report", "--db", path, "ledger", "99")
        expect(none.stdout == '{"refused":"NoSuch"}\n' and none.returncode == 1, "a ledger of nothing")
        new = run(program, "report", "--db", str(folder / "new.db"), "ledger", "1")
        expect(new.returncode == 1, "a new file has a ledger")
        damaged(program, folder, path)
        refused(program, folder, path)
        for old in sorted(OLD.glob("*.db")):
            brought(program, folder, old)
        not_brought(program, folder)
        looked_at(program, folder, path)
        private(program, folder, path)
        foreign_logs(program, folder, path)
        left_alone(program, folder)
        escaped(program, folder)
        words(program, folder)
        faults(program, folder, path)
        taken(program, folder, path)
        started_again(program, folder)
    print("check_file: all as it should be")


if __name__ == "__main__":
    main()
