#!/usr/bin/env python3
"""Runs the program's words `lines` and `import --kind COMMAND`, by which a file of comma-separated values of any
command is a text of lines, beside what `tools/machine` says of the file. First made-up files of every command, with
whatever a spreadsheet may have in them: what is printed, and the status. Then made-up workshops and files that fit
them: what the import answers, what `run --names --check` answers to the printed lines on a copy of the books, the
tables after both, and all of it once more, as a file is sent again. Then files that are wrong, each with the fault that
is told of it, of which nothing may be done, and which are done once they are mended; what a person is told beside the
answers; and wrong words.

usage: tools/check_sheets.py PROGRAM [--files N] [--workshops N] [--seed N]"""
import contextlib
import os
import pathlib
import pty
import random
import shutil
import sqlite3
import subprocess
import sys
import tempfile

from machine import sheets
from machine.lines import COMMANDS
from machine.made_sheets import any_file, fitting_file
from machine.reports import HEADERS, answer_line, table
from check_machine import Run
from shared import reader_of_words, rows_of, run

DAY = "2030-01-02"
DOCUMENT = "S-1"
KINDS = [do for do in COMMANDS if do not in sheets.OTHER_KINDS]
# What was not as it has to be.
differences = []


def compare(what, told, wanted):
    """Reports a difference, and goes on."""
    if told != wanted:
        differences.append(what)
        print(f"check_sheets: {what}:\n  {str(told)[:600]}, and not\n  {str(wanted)[:600]}")
    return told == wanted


def words_of(said):
    return [f"--{how}={member}={what}" for member, (how, what) in said.items()]


class Shop:
    """The program, and a folder with books and the file that is sent."""

    def __init__(self, program, folder):
        self.program, self.folder, self.path = program, pathlib.Path(folder), f"{folder}/w.db"

    def run(self, *words, path=None, lines=b""):
        done = run(self.program, "run", "--db", path or self.path, *words, lines=lines)
        return done.stdout, done.returncode

    def sent(self, word, kind, held, *words):
        """What a word says of a file of that kind."""
        path = self.folder / "sent.csv"
        path.write_bytes(held)
        asked = ["--kind", kind, "--document", DOCUMENT, "--day", DAY, *words]
        return run(self.program, word, *asked, str(path), lines=b"")

    def lines(self, kind, held, *words):
        done = self.sent("lines", kind, held, *words)
        return done.stdout, done.returncode

    def imported(self, kind, held, *words):
        done = self.sent("import", kind, held, "--db", self.path, *words)
        return done.stdout, done.returncode

    def rows(self, path=None):
        with contextlib.closing(sqlite3.connect(path or self.path)) as conn:
            return rows_of(conn)


@contextlib.contextmanager
def shop(program):
    with tempfile.TemporaryDirectory() as folder:
        yield Shop(program, folder)


def made_up_files(program, count, seed):
    """Files of each command by turns: what is printed of them. How many are texts is told."""
    r, are_texts = random.Random(seed), 0
    with shop(program) as books:
        for at in range(count):
            do = KINDS[at % len(KINDS)]
            said, held = any_file(r, do)
            wanted = sheets.printed(do, said, DOCUMENT, DAY, held)
            are_texts += wanted[1] == 0
            compare(f"file {at} of {do}, {said}, {held}", books.lines(do, held, *words_of(said)), wanted)
    print(f"check_sheets: {count} files, of which {are_texts} are texts of lines")


def long_cells(program):
    """What is read as JSON is as long as a line at most."""
    with shop(program) as books:
        for more in (0, 1):
            way = f'["{"A" * (sheets.MOST_JSON - 4 + more)}"]'
            held = f'part,location,quantity\nBolt,"{way.replace(chr(34), 2 * chr(34))}",1\n'.encode()
            wanted = sheets.printed("found", {}, DOCUMENT, DAY, held)
            compare(f"a way of {len(way)} bytes", books.lines("found", held), wanted)


def row_texts(rows):
    return [["" if it is None else str(it) for it in row] for row in rows]


def fit(books, m, made, do, counts):
    """A file that fits: the printed lines, the import and the run of these lines, twice."""
    said, held = fitting_file(made.r, made.maker, made.caller, do)
    words, stop = words_of(said), ["--stop"] if made.r.random() < 0.2 else []
    text, status = sheets.printed(do, said, DOCUMENT, DAY, held)
    what = f"{do}, {said}, {held}"
    if not compare(f"the lines of {what}", books.lines(do, held, *words), (text, status)) or status:
        return
    other = f"{books.folder}/other.db"
    for _ in range(2):
        shutil.copy(books.path, other)
        told, status = sheets.imported(m, text, bool(stop))
        wanted = told.encode(), status
        counts[status] += 1
        compare(f"the import of {what}", books.imported(do, held, *words, *stop), wanted)
        compare(f"the run of {what}", books.run("--names", "--check", *stop, path=other, lines=text), wanted)
        compare(f"the tables after {what}", books.rows() == books.rows(other), True)


def made_up_workshops(program, count, seed):
    """Workshops of some requests each, and a dozen files of commands by turns."""
    r, counts, at = random.Random(seed), [0, 0], 0
    kinds = r.sample(KINDS, len(KINDS))
    for number in range(count):
        made = Run(seed * 1_000 + number, with_names=True)
        m = made.m
        for _ in range(made.r.choice([60, 120, 200])):
            made.request()
        with shop(program) as books:
            lines = b"".join(line + b"\n" for line in made.lines)
            answers = "".join(answer_line(it) + "\n" for it in made.wanted if it is not None).encode()
            compare(f"workshop {number}", books.run("--names", lines=lines)[0], answers)
            for _ in range(12):
                fit(books, m, made, kinds[at % len(kinds)], counts)
                at += 1
            found = books.rows()
            for name in HEADERS:
                compare(f"workshop {number}, {name}", row_texts(found[name]), table(m, name)[1:])
    print(f"check_sheets: {count} workshops; {counts[0]} imports of all rows, {counts[1]} of some or none")


BEGUN = b"""{"day":"2030-01-02","do":"add_location","name":"Store"}
{"day":"2030-01-02","do":"add_part","flags":["component"],"name":"Bolt"}
{"day":"2030-01-02","do":"add_part","flags":["assembly"],"name":"Board"}
"""
GOOD = b"name,flags,notes\nNut,component,\nWasher,component;salable,cheap\n"
DONE = b'{"entries":0,"ids":[4]}\n{"entries":0,"ids":[5]}\n'
# Files of parts that are wrong, each with the fault that is told of it.
WRONG = {
    "a column twice": (GOOD.replace(b"notes", b"name"), "Header", 1),
    "no header": (GOOD.partition(b"\n")[2], "Header", 1),
    "nothing in it": (b"", "Header", 1),
    "another separator than a header has": (GOOD.replace(b",", b"|"), "Header", 1),
    "Latin 1": (GOOD.replace(b"Nut", b"M\xfctter"), "Csv", 2),
    "Latin 1 in its header": (GOOD.replace(b"notes", b"Pr\xe4fix"), "Header", 1),
    "16 MiB and one byte": (GOOD + b"\n" * (sheets.MOST_BYTES + 1 - len(GOOD)), "TooLong", 0),
    "a field too many": (GOOD.replace(b"cheap", b"cheap,5"), "Csv", 3),
    "a quote that nothing ends": (GOOD.replace(b"cheap", b'"cheap'), "Csv", 3),
    "a quote that swallows a row": (GOOD.replace(b"component,", b'component,"'), "Csv", 2),
    "a quote that nothing ends in its header": (GOOD.replace(b"notes", b'"notes'), "Csv", 1),
    "a NUL": (GOOD.replace(b"Nut", b"Nut\0"), "BadText", 2),
    "a cell of 70,000 bytes": (GOOD.replace(b"Nut", b"N" * 70_000), "TooLong", 2),
    "a flag that there isn't": (GOOD.replace(b"component,", b"Component,"), "BadWord", 2),
    "a cell that no name is in": (GOOD.replace(b"Nut", b""), "NoField", 2),
}


def wrong_files(program):
    """Of each nothing is done, and the fault is told alike by both words; and once it is mended all of it is done."""
    for what, (held, name, line) in WRONG.items():
        told = f'{{"fault":"{name}","line":{line}}}\n'.encode()
        with shop(program) as books:
            books.run(lines=BEGUN)
            before = books.rows()
            compare(what, books.imported("add_part", held), (told, 1))
            compare(f"{what}: its rows", books.rows() == before, True)
            text, status = sheets.printed("add_part", {}, DOCUMENT, DAY, held)
            compare(f"{what}: its lines", books.lines("add_part", held), (text, status))
            for _ in range(2):
                compare(f"{what}, mended", books.imported("add_part", GOOD), (DONE, 0))
    with shop(program) as books:
        books.run(lines=BEGUN)
        held = GOOD + b"\n" * (sheets.MOST_BYTES - len(GOOD))
        compare("16 MiB", books.imported("add_part", held), (DONE, 0))


def several_faults(program):
    """Each fault of a line is told, and nothing is done; a row that is refused leaves the others done."""
    stock = b"part,location,quantity\nBolt,Store,10\nBolt,Store,ten\nNut,Store,5\nBolt,Store,\n"
    with shop(program) as books:
        books.run(lines=BEGUN)
        before = books.rows()
        told = b'{"fault":"WrongType","line":3}\n{"fault":"NoField","line":5}\n'
        compare("two faults", books.imported("found", stock), (told, 1))
        compare("two faults: the rows", books.rows() == before, True)
        mended = stock.replace(b"ten", b"20").replace(b"Store,\n", b"Store,30\n")
        told = b'{"entries":1,"ids":[4]}\n{"entries":1,"ids":[5]}\n{"fault":"NoName","field":"part","line":4}\n'
        compare("no such part", books.imported("found", mended, "--stop"), (told, 1))
        told += b'{"entries":1,"ids":[6]}\n'
        compare("no such part", books.imported("found", mended), (told, 1))
        told = b"".join(f'{{"entries":1,"ids":[{it}]}}\n'.encode() for it in (4, 5, 7, 6))
        compare("all of it", books.imported("found", mended.replace(b"Nut", b"Bolt")), (told, 0))


# Files of stock, each with how each line begins that says why something isn't done.
REASONS = {
    b"part,location,quantity\nBolt,Store,ten\n\n,,\nBolt,Store,\n":
        ['line 2: quantity: WrongType: "ten". ', "line 4: quantity: NoField. "],
    b"part,location,quantity\nBolt,Store,1\nNut,Store,1\nBolt,Store,0\n":
        ['line 3: part: NoName: "Nut". ', "line 4: BadNumber: part 2 (Bolt, component), location 1 (Store), "],
    b"part,location,quantity\nBolt,Store,1,\n": ["record 2: Csv. "],
    b"part,place,quantity\nBolt,Store,1\n": ["record 1: Header: "]}


def reasons(program):
    """What is told with `--explain`."""
    for held, wanted in REASONS.items():
        with shop(program) as books:
            books.run(lines=BEGUN)
            done = books.sent("import", "found", held, "--db", books.path, "--explain")
            told = done.stderr.decode().splitlines()
            fits = len(told) == len(wanted) and all(map(str.startswith, told, wanted))
            compare(f"what is told of {held}: {told}", fits, True)


def progress(program):
    """At a terminal it is told how many rows are done."""
    with shop(program) as books:
        books.run(lines=BEGUN)
        path = books.folder / "long.csv"
        path.write_text("part,location,quantity\n" + "Bolt,Store,1\n" * 2_500)
        words = ["--kind", "found", "--document", DOCUMENT, "--day", DAY, "--db", books.path, str(path)]
        ours, theirs = pty.openpty()
        done = subprocess.run([program, "import", *words], stdout=subprocess.DEVNULL, stderr=theirs, check=False)
        os.close(theirs)
        shown = os.read(ours, 65_536)
        os.close(ours)
        compare("2,500 rows at a terminal", (shown, done.returncode), (b"1000 rows done\r\n2000 rows done\r\n", 0))


def utf_16(program):
    """It is told as what it is, in whichever order its bytes are."""
    for name in ("utf-16", "utf-16-be", "utf-16-le"):
        mark = b"\xfe\xff" if name == "utf-16-be" else b""
        held = mark + GOOD.decode().encode(name)
        with shop(program) as books:
            books.run(lines=BEGUN)
            done = books.sent("import", "add_part", held, "--db", books.path, "--explain")
            compare(name, (done.stdout, done.returncode), (b'{"fault":"Header","line":1}\n', 1))
            if name != "utf-16-le":
                said = b"it looks like UTF-16; save it as UTF-8" in done.stderr
                compare(f"what is told of {name}: {done.stderr}", said, True)
            compare(f"{name}, mended", books.imported("add_part", GOOD), (DONE, 0))


# What may not be said of the members of a part's line.
WORDS = [
    ["--set", "quantity=5"], ["--column", "colour=notes"], ["--set", "name=A", "--set", "name=B"],
    ["--set", "name=A", "--column", "name=notes"], ["--column", "name=notes", "--column", "name=notes"],
    ["--set", "name"], ["--set", "=A"], ["--set", ""], ["--column", "do=notes"]]
COUNTED = b"number,item,quantity\n1,1,1\n"


def wrong_words(program):
    with shop(program) as books:
        books.run(lines=BEGUN)
        before = books.rows()

        def refused(kind, held, *words):
            for word, sent in ("import", books.imported), ("lines", books.lines):
                compare(f"{word} --kind {kind} {words}", sent(kind, held, *words), (b"", 2))

        for words in WORDS:
            refused("add_part", GOOD, *words)
        for kind in ("receive", "count", "parts", "", "add_part "):
            refused(kind, COUNTED)
        for kind in ("receipts", "counts"):
            refused(kind, COUNTED, "--set", "quantity=1")
            refused(kind, COUNTED, "--column", "quantity=Qty")
            compare(f"lines of {kind}", books.lines(kind, COUNTED), (b"", 2))
            compare(f"--stop of {kind}", books.imported(kind, COUNTED, "--stop"), (b"", 2))
        compare("lines and a file", books.lines("add_part", GOOD, "--db", books.path), (b"", 2))
        compare("after wrong words", books.rows() == before, True)


def words(program):
    """A path of no file, and words that change nothing."""
    with shop(program) as books:
        books.run(lines=BEGUN)
        path = str(books.folder / "none.csv")
        asked = ["--kind", "add_part", "--document", DOCUMENT, "--day", DAY, path]
        compare("no such file", run(program, "import", "--db", books.path, *asked).returncode, 3)
        compare("no such file, by lines", run(program, "lines", *asked).returncode, 3)
        for more in ([], ["--names"], ["--loose"], ["--names", "--loose"]):
            compare(f"with {more}", books.imported("add_part", GOOD, *more), (DONE, 0))


def main():
    reader = reader_of_words(__doc__)
    reader.add_argument("--files", type=int, default=2_000)
    reader.add_argument("--workshops", type=int, default=20)
    reader.add_argument("--seed", type=int, default=1)
    said = reader.parse_args()
    made_up_files(said.program, said.files, said.seed)
    made_up_workshops(said.program, said.workshops, said.seed)
    for check in (long_cells, wrong_files, several_faults, reasons, progress, utf_16, wrong_words, words):
        check(said.program)
    print(f"check_sheets: {len(differences)} differ" if differences else "check_sheets: all as it should be")
    sys.exit(1 if differences else 0)


if __name__ == "__main__":
    main()
