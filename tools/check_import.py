#!/usr/bin/env python3
"""Runs the program's word `import` on files that Python's csv module wrote: each with other line ends, with all fields
in quotes or only those that need it, with a byte order mark and without; with batches that have quotes, commas and line
ends in them. Then on files that LibreOffice saved of a spreadsheet, where its `soffice` is found. Looks at what the
program answers, and with sqlite3 at what is kept: that a file sent again, on another day too, is answered alike and
changes nothing; that a row with another quantity is KeyTaken in its line alone; that of a faulty file nothing is run;
that rows are found by what they are called, or told not to be; which status a missing path, a folder and wrong words
end with; that a file which is read loosely loses no row in silence, and is read as the rules written once more read it, also
where it is run only if the books have what it says that they had;
what a terminal shows of the rows that are done; and that a file of a MiB takes little memory, whatever serials its rows
list. It prints the seconds that this takes. Where something differs it goes on, and counts what does.

usage: tools/check_import.py PROGRAM"""
import codecs
import collections
import contextlib
import csv
import io
import itertools
import os
import pathlib
import pty
import random
import shutil
import sqlite3
import subprocess
import sys
import tempfile
from xml.sax.saxutils import escape

import shared
from machine import imports
from machine.imports import HEADERS
from machine.machine import Machine
from machine.reports import answer, answer_line

DAY = '"day":"2030-01-02"'
ORDERED = f"""{{{DAY},"do":"add_location","name":"A"}}
{{{DAY},"do":"add_part","flags":["component","purchaseable"],"name":"Screw"}}
{{{DAY},"do":"add_part","flags":["component","purchaseable","trackable"],"name":"Motor"}}
{{{DAY},"do":"order","partner":"Acme","side":"purchase"}}
{{{DAY},"do":"order_line","order":4,"part":2,"quantity":500}}
{{{DAY},"do":"order_line","order":4,"part":3,"quantity":2}}
{{{DAY},"do":"issue_order","order":4}}
"""
TABLES = "meta items history orders order_lines kept".split()
RECEIPTS, COUNTS = HEADERS["receipts"], HEADERS["counts"]
BATCH = 'L "1", left'
DELIVERY = [[1, 5, 1, 100, BATCH, ""], [2, 5, 1, 50, "", ""], [3, 6, 1, 2, "", "M1,M2"]]
DELIVERED = (
    b'1\t{"entries":1,"ids":[7]}\n2\t{"entries":1,"ids":[8]}\n3\t{"entries":2,"ids":[9,10]}\n'
)
# What was not as it has to be.
differences = []


def compare(what, told, wanted):
    """Reports a difference, and goes on."""
    if told != wanted:
        differences.append(what)
        print(f"check_import: {what}: {told!r}, and not {wanted!r}")


def written(header, rows, ends="\n", quoting=csv.QUOTE_MINIMAL, mark=False):
    text = io.StringIO()
    csv.writer(text, lineterminator=ends, quoting=quoting).writerows([header, *rows])
    return (codecs.BOM_UTF8 if mark else b"") + text.getvalue().encode()


class Workshop:
    """The program, and a folder with its file of a workshop that has ordered screws and motors."""

    def __init__(self, program, folder):
        self.program, self.folder, self.path = program, folder, str(folder / "w.db")
        compare("the order", self.run("run", lines=ORDERED.encode())[0], 0)

    def run(self, word, *words, lines=b""):
        """The status of a word on the file, and what it writes."""
        done = shared.run(self.program, word, "--db", self.path, *words, lines=lines)
        return done.returncode, done.stdout

    def imported(self, kind, file, document="D7", day="2030-03-01", words=()):
        path = self.folder / "sent.csv"
        path.write_bytes(file)
        return self.run("import", *words, "--kind", kind, "--document", document, "--day", day, str(path))

    def words_of_import(self, kind, document):
        """The words of an import, but for the path."""
        words = ("--kind", kind, "--document", document, "--day", "2030-03-01")
        return self.program, "import", "--db", self.path, *words

    def selected(self, what):
        with contextlib.closing(sqlite3.connect(self.path)) as conn:
            return conn.execute(what).fetchall()

    def rows(self):
        with contextlib.closing(sqlite3.connect(self.path)) as conn:
            return shared.rows_of(conn, TABLES)


@contextlib.contextmanager
def workshop(program):
    with tempfile.TemporaryDirectory() as name:
        yield Workshop(program, pathlib.Path(name))


def delivered(program, what, file):
    """The file is the delivery: it is told so and kept so, and sent again it is told the same and changes nothing."""
    with workshop(program) as shop:
        compare(what, shop.imported("receipts", file), (0, DELIVERED))
        batches = shop.selected("SELECT batch, serial, quantity FROM items ORDER BY id")
        compare(what, batches, [(BATCH, None, 100), (None, None, 50), (None, "M1", 1), (None, "M2", 1)])
        before = shop.rows()
        for day in ("2030-03-01", "2031-12-31"):
            compare(f"{what}, again", shop.imported("receipts", file, day=day), (0, DELIVERED))
            compare(f"{what}, again", shop.rows() == before, True)


def forms(program):
    for ends, quoting, mark in itertools.product(
        ("\n", "\r\n", "\r"), (csv.QUOTE_MINIMAL, csv.QUOTE_ALL, csv.QUOTE_NONNUMERIC), (False, True)
    ):
        file = written(RECEIPTS, DELIVERY, ends, quoting, mark)
        delivered(program, f"a delivery with {ends!r}, quoting {quoting}, mark {mark}", file)


def cell(value):
    if value == "":
        return "<table:table-cell/>"
    kind = "float" if isinstance(value, int) else "string"
    number = f' office:value="{value}"' if isinstance(value, int) else ""
    text = f"<text:p>{escape(str(value))}</text:p>"
    return f'<table:table-cell office:value-type="{kind}"{number}>{text}</table:table-cell>'


def spreadsheet(rows):
    """A spreadsheet of one sheet, as a text: numbers as numbers, the rest as texts."""
    space = "urn:oasis:names:tc:opendocument:xmlns"
    names = "".join(f' xmlns:{name}="{space}:{name}:1.0"' for name in ("office", "table", "text"))
    lines = "".join(f"<table:table-row>{''.join(map(cell, row))}</table:table-row>" for row in rows)
    return (
        f'<?xml version="1.0" encoding="UTF-8"?><office:document{names} office:version="1.2"'
        ' office:mimetype="application/vnd.oasis.opendocument.spreadsheet"><office:body><office:spreadsheet>'
        f'<table:table table:name="Delivery">{lines}</table:table></office:spreadsheet></office:body></office:document>'
    )


def saved(folder, tokens):
    """The delivery as LibreOffice saves it, by its filter's tokens: separator, quote, character set, first line,
    formats of columns, language, and whether every text is quoted."""
    path = folder / "delivery.fods"
    path.write_text(spreadsheet([RECEIPTS, *DELIVERY]))
    profile = f"-env:UserInstallation={(folder / 'profile').as_uri()}"
    kind = f"csv:Text - txt - csv (StarCalc):{tokens}"
    words = ("soffice", profile, "--headless", "--convert-to", kind, "--outdir", str(folder), str(path))
    subprocess.run(words, capture_output=True, timeout=120, check=True)
    return path.with_suffix(".csv").read_bytes()


def by_office(program):
    if not shutil.which("soffice"):
        print("check_import: there is no LibreOffice here, so its files were not tried")
        return
    with tempfile.TemporaryDirectory() as name:
        for what, is_quoted in (("with few quotes", "false"), ("with every text in quotes", "true")):
            file = saved(pathlib.Path(name), f"44,34,76,1,,0,{is_quoted}")
            delivered(program, f"a delivery that LibreOffice saved {what}", file)


def corrections(program):
    with workshop(program) as shop:
        shop.imported("receipts", written(RECEIPTS, DELIVERY))
        before = shop.rows()
        other = written(RECEIPTS, [[1, 5, 1, 101, BATCH, ""], *DELIVERY[1:]])
        lines = DELIVERED.split(b"\n")
        taken = b"\n".join([b'1\t{"refused":"KeyTaken"}', *lines[1:]])
        compare("another quantity", shop.imported("receipts", other), (1, taken))
        compare("another quantity", shop.rows() == before, True)
        compare("another document", shop.imported("receipts", written(RECEIPTS, DELIVERY[:1]), "D8")[0], 0)
        counted = written(COUNTS, [[1, 7, 97], [2, 99, 1], [3, 8, 0]])
        report = b'1\t{"entries":1,"ids":[]}\n2\t{"refused":"NoSuch"}\n3\t{"entries":1,"ids":[]}\n'
        for _ in range(2):
            compare("a stocktake", shop.imported("counts", counted, "C3"), (1, report))
        compare("a stocktake", shop.selected("SELECT quantity FROM items WHERE id = 7"), [(97,)])


def faults(program):
    line = [9, 5, 1, 1, "", ""]
    ends = "a\nb"
    cases = [
        (b"", "Header", 1),
        (b"\n\r\n", "Header", 1),
        (written(COUNTS, []), "Header", 1),
        (codecs.BOM_UTF8 * 2 + written(RECEIPTS, [line]), "Header", 1),
        (written(RECEIPTS, [line, line[:-1]]), "Csv", 3),
        (written(RECEIPTS, [line, [*line, ""]]), "Csv", 3),
        (written(RECEIPTS, [line]) + b"8,5,1,1,\xff,\n", "Csv", 3),
        (written(RECEIPTS, [line, ["0", *line[1:]]]), "WrongType", 3),
        (written(RECEIPTS, [line, ["08", *line[1:]]]), "WrongType", 3),
        (written(RECEIPTS, [line, [8, 5, 1, "-1", "", ""]]), "WrongType", 3),
        (written(RECEIPTS, [line, [8, 5, 1, 1, ends, ""]]), "BadText", 3),
        (written(RECEIPTS, [line, [8, 5, 1, 1, "", "1 2"]]), "BadSerials", 3),
        (written(RECEIPTS, [line]) + b"\n" * 16_777_216, "TooLong", 0),
    ]
    for file, name, number in cases:
        with workshop(program) as shop:
            before = shop.rows()
            told = f'{{"fault":"{name}","line":{number}}}\n'.encode()
            compare(f"a file that begins {file[:60]!r}", shop.imported("receipts", file), (1, told))
            compare(f"a file that begins {file[:60]!r}", shop.rows() == before, True)


def names(program):
    """Rows that are said by what they are called: each way to say them, the same file with numbers, and faults."""
    rows = [[1, 5, "A", 100, BATCH, ""], [2, "05", '["A"]', 50, "", ""], [3, 6, "1", 2, "", "M1,M2"]]
    other = f"""{{{DAY},"do":"add_location","name":"7"}}
{{{DAY},"do":"order_line","key":"L","order":4,"part":2,"quantity":1}}
{{{DAY},"do":"add_location","name":"B","parent":1}}
"""
    with workshop(program) as shop:
        def imported(kind, rows, document="D7"):
            header = RECEIPTS if kind == "receipts" else COUNTS
            return shop.imported(kind, written(header, rows), document, words=["--names"])

        compare("a delivery with names", imported("receipts", rows), (0, DELIVERED))
        before = shop.rows()
        compare("a delivery with names, again", imported("receipts", rows), (0, DELIVERED))
        compare("the same with numbers", shop.imported("receipts", written(RECEIPTS, DELIVERY)), (0, DELIVERED))
        compare("the same with numbers", shop.rows() == before, True)
        counted = [[1, '{"part":"Motor","serial":"M1"}', 1], [2, '{"key":"receipts/D7/1"}', 97]]
        report = b'1\t{"entries":0,"ids":[]}\n2\t{"entries":1,"ids":[]}\n'
        compare("a stocktake with names", imported("counts", counted, "C3"), (0, report))
        compare("more rows", shop.run("run", lines=other.encode())[0], 0)
        told = b'1\t{"entries":1,"ids":[14]}\n'
        compare("a name of digits", imported("receipts", [[1, '{"key":"L"}', '["7"]', 1, "", ""]], "D8"), (0, told))
        before = shop.rows()
        for line, location, told in (
            (5, "C", '"NoName","field":"location"'), (5, "B", '"NoName","field":"location"'), (5, "[]", '"WrongType"'),
            (5, "[", '"WrongType"'), (5, '["A","B","B"]', '"NoName","field":"location"'), ("A", "A", '"WrongType"'),
            ('{"key":"receipts/D7/3"}', "A", '"Ambiguous","field":"line"'),
            ('{"key":"L","x":1}', "A", '"UnknownField"'), ("", "A", '"WrongType"'),
            (5, "", '"NoName","field":"location"'), ('{"key":"a b"}', "A", '"BadKey"'),
        ):
            faulty = [[1, 5, "A", 1, "", ""], [2, line, location, 1, "", ""]]
            wanted = f'{{"fault":{told},"line":3}}\n'.encode()
            compare(f"{line}, {location}", imported("receipts", faulty, "D9"), (1, wanted))
        compare("after faults", shop.rows() == before, True)


def statuses(program):
    with workshop(program) as shop:
        there = shop.folder / "sent.csv"
        there.write_bytes(written(RECEIPTS, DELIVERY))

        def status(path, kind="receipts", document="D7", day="2030-03-01"):
            return shop.run("import", "--kind", kind, "--document", document, "--day", day, str(path))[0]

        before = shop.rows()
        compare("no such path", status(shop.folder / "none.csv"), 3)
        compare("a folder", status(shop.folder), 3)
        for words in (("sales",), ("receipts", "a/b"), ("receipts", "D7", "2030-02-30"), ("receipts", "D" * 33)):
            compare(f"wrong words {words}", status(there, *words), 2)
        compare("no document", shop.run("import", "--kind", "counts", "--day", "2030-03-01", str(there))[0], 2)
        compare("after wrong words", shop.rows() == before, True)
        compare("a path beside the folder's", status(os.path.relpath(there)), 0)


def counted(shop, rows):
    """What is shown of the rows that are done, on a terminal and elsewhere."""
    path = shop.folder / "counts.csv"
    path.write_bytes(written(COUNTS, [[number, 7, 100] for number in range(1, rows + 1)]))
    words = (*shop.words_of_import("counts", f"T{rows}"), str(path))
    ours, theirs = pty.openpty()
    done = subprocess.run(words, stdout=subprocess.DEVNULL, stderr=theirs, check=False)
    os.close(theirs)
    compare(f"{rows} rows on a terminal", done.returncode, 0)
    shown = b""
    with contextlib.suppress(OSError):
        while piece := os.read(ours, 4096):
            shown += piece
    os.close(ours)
    done = subprocess.run((*shop.words_of_import("counts", f"P{rows}"), str(path)), capture_output=True, check=False)
    return shown.replace(b"\r\n", b"\n"), done.stderr


# Files that were read loosely without a word of what was lost, each with what is told now.
LOST = [
    ("counts", b'number,item,quantity,note\n1,7,5,\n2,4,20,"open\n3,8,9,\n', '"Csv","line":3'),
    ("counts", b'number,item,quantity,"note\n1,7,5,\n2,8,6,\n', '"Csv","line":1'),
    ("counts", b'number;item;quantity\n1;7;5\n2;8;"6', '"Csv","line":3'),
    ("counts", b'number,item,quantity,note\n1,7,x,\n2,4,20,"open\n', '"WrongType","line":2'),
    ("counts", b'number,item,part,note,quantity\n2,4,Screw, M3, long,,20\n', '"Csv","line":2'),
    ("receipts", b"number,line,part,location,batch,serials,note,quantity\n2,4,Screw, M3, long,A,L22,,1,20\n",
     '"Csv","line":2'),
    ("counts", b"number,item,quantity\n,,,\n1,7,5\n", '"Csv","line":2'),
    ("counts", b"number,item,quantity\n1;7;5\n2;8;6\n", '"Csv","line":2'),
    ("counts", b"number;item;note;quantity\n1\t7\tred, blue; green\t5\n", '"Csv","line":2'),
    ("counts", b"number\titem\tquantity\n1,7,5\n", '"Csv","line":2'),
]
# Files whose rows have no quantity, of which the standard error tells.
EMPTY = [
    b"number,item,quantity\n", b"number,item,quantity\n1,7,\n2,8\n\n,,\n", b'number;item;quantity\n"1;7;5";\n',
    b"number,item,quantity\nStock; March\n1,7,\n", b'number,item,quantity,"note"\n1,7,,"a ""b"""',
]


def lost(program):
    with workshop(program) as shop:
        before = shop.rows()
        for kind, file, told in LOST:
            wanted = f'{{"fault":{told}}}\n'.encode()
            compare(f"{file!r} loosely", shop.imported(kind, file, words=["--loose"]), (1, wanted))
        path = shop.folder / "empty.csv"
        for file in EMPTY:
            path.write_bytes(file)
            words = (*shop.words_of_import("counts", "E"), "--loose", str(path))
            done = subprocess.run(words, capture_output=True, check=False)
            told = f"invdesk: {path}: no row has a quantity\n".encode()
            compare(f"{file!r} loosely", (done.returncode, done.stdout, done.stderr), (0, b"", told))
        compare("after files that lost rows", shop.rows() == before, True)
        path.write_bytes(written(COUNTS, []))
        done = subprocess.run((*shop.words_of_import("counts", "E"), str(path)), capture_output=True, check=False)
        compare("a header alone, strictly", (done.returncode, done.stdout, done.stderr), (0, b"", b""))


def kept_by_hand(r):
    """A file as people keep one: its columns in any order, beside others, some short, now and then damaged."""
    kind = r.choice(["receipts", "counts"])
    columns = [it for it in HEADERS[kind] if it not in imports.MAY_LACK or r.random() < 0.7]
    columns += r.sample(["note", "part", "way", ""], r.randint(0, 2))
    r.shuffle(columns)
    rows = [columns]
    for number in range(1, r.choice([1, 2, 3, 10])):
        said = {"number": number, "quantity": r.choice(["", "", 5, "5.0"]), "batch": r.choice(["", "L1"])}
        said["serials"], said["note"] = "", r.choice([1, 7, "a;b", "c, d", 'x"', "e\nf"])
        row = [said.get(it, 7) for it in columns]
        rows.append(row[: r.choice([len(row), len(row), r.randint(0, len(row))])])
    text, ends = io.StringIO(), r.choice(["\n", "\r\n", "\r"])
    for begin, end in (0, 1), (1, len(rows)):
        if begin == 0 or r.random() < 0.2:
            separator = r.choice(imports.SEPARATORS)
        csv.writer(text, delimiter=separator, lineterminator=ends).writerows(rows[begin:end])
    held = bytearray(r.choice([b"", codecs.BOM_UTF8]) + text.getvalue().encode())
    for _ in range(r.choice([0, 0, 1, 2])):
        at = r.randint(0, len(held))
        held[at:at + r.choice([0, 1])] = r.choice([b'"', b'""', b",", b";", b"\t", b"\n", b"\r", b"\xff", b"1"])
    return kind, bytes(held)


def loosely(program):
    """Files as people keep them, beside the rules written once more. No item and no line of an order is there."""
    r, counts = random.Random(64), collections.Counter()
    with tempfile.TemporaryDirectory() as name:
        shop = Workshop(program, pathlib.Path(name))
        for number in range(400):
            kind, file = kept_by_hand(r)
            try:
                found = imports.rows(kind, file, loose=True)
                told = "".join(f'{it.number}\t{{"refused":"NoSuch"}}\n' for it in found)
                wanted = (1 if told else 0), told.encode()
                counts["rows" if told else "none"] += 1
            except imports.FileFault as fault:
                wanted = 1, (answer_line(fault.answer) + "\n").encode()
                counts[fault.answer["fault"]] += 1
            told = shop.imported(kind, file, f"F{number}", words=["--loose"])
            compare(f"file {number}, {file!r}, loosely", told, wanted)
    print(f"check_import: 400 files as people keep them: {dict(counts)}")


def sheet_of(r, m):
    """A sheet that says what the books have, now and then another number, filled in by a clerk."""
    kind = r.choice(["receipts", "counts"])
    columns = r.sample([*HEADERS[kind], imports.EXPECTED[kind]], len(HEADERS[kind]) + 1)
    rows = []
    for number in range(1, r.choice([2, 3, 6])):
        said = {"number": number, "location": 1, "batch": r.choice(["", "L1"]), "serials": ""}
        said["item"], said["line"] = r.choice([*m.items, 99]), r.choice([5, 6, 99])
        has = imports.booked(m, kind, said) or 0
        said[imports.EXPECTED[kind]] = r.choice([has] * 8 + [f"0{has}", "", has + 1, f"{has}.0"])
        said["quantity"] = r.choice(["", r.randint(1, 9)] if kind == "receipts" else ["", has, r.randint(0, 200)])
        rows.append([said[it] for it in columns])
    return kind, written(columns, rows)


def unchanged(program):
    """Sheets that are run only where the books have what they say, beside the rules written once more. Some come twice,
    and some have the document of others."""
    r, counts, sent = random.Random(71), collections.Counter(), []
    with workshop(program) as shop:
        m = Machine()
        for at, line in enumerate(ORDERED.encode().splitlines(), 1):
            answer(m, line, at)
        for number in range(200):
            again = sent and r.random() < 0.2
            kind, file, document = r.choice(sent) if again else (*sheet_of(r, m), f"U{r.randint(1, number + 1)}")
            sent.append((kind, file, document))
            told, status = imports.imported(m, kind, document, "2030-03-01", file, unchanged=True)
            done = shop.imported(kind, file, document, words=["--loose", "--unchanged"])
            compare(f"{document}, {file!r}, unless changed", done, (status, told.encode()))
            counts["Changed" if "Changed" in told else "run" if "entries" in told else "others"] += 1
    print(f"check_import: 200 sheets that say what the books had: {dict(counts)}")


def terminals(program):
    with workshop(program) as shop:
        shop.imported("receipts", written(RECEIPTS, DELIVERY))
        compare("1000 rows", counted(shop, 1_000), (b"", b""))
        compare("1001 rows", counted(shop, 1_001), (b"1000 rows done\n", b""))
        compare("2500 rows", counted(shop, 2_500), (b"1000 rows done\n2000 rows done\n", b""))


def small(program):
    """A file of a MiB, whose rows would take gigabytes with their serials made out. No row has a line of an order."""
    with workshop(program) as shop:
        rows = ([number, 99, 1, 1, "", "1-1000"] for number in range(1, -(-1_048_576 // 18)))
        path = shop.folder / "small.csv"
        path.write_bytes(written(RECEIPTS, rows))
        words = (*shop.words_of_import("receipts", "S"), str(path))
        with subprocess.Popen(words, stdout=subprocess.PIPE) as sent:
            told = sent.stdout.read()
            usage = os.wait4(sent.pid, 0)[2]
            sent.returncode = 1
        lines = told.splitlines()
        refused = [line for line in lines if line.endswith(b'\t{"refused":"NoSuch"}')]
        compare("a small file", len(lines) > 50_000 and len(refused) == len(lines), True)
        compare("less than 200 MB of a small file", usage.ru_maxrss < 200_000, True)
        took = f"{usage.ru_utime:.1f} s and {usage.ru_maxrss // 1000} MB"
        print(f"check_import: {len(lines)} rows of 1,000 serials took {took}")


def main():
    program = shared.reader_of_words(__doc__).parse_args().program
    for check in (forms, by_office, corrections, faults, names, statuses, lost, loosely, unchanged, terminals, small):
        check(program)
    print(f"check_import: {len(differences)} differ" if differences else "check_import: all as it should be")
    sys.exit(1 if differences else 0)


if __name__ == "__main__":
    main()
