#!/usr/bin/env python3
"""Tries `show` on the built program: each list of a small workshop, in columns and as comma-separated values, beside
rows that were worked out by hand, and so each report for a spreadsheet; locations, parts and items by number and by
name; what has less free than an owner's sheet says, and sheets that are faulty; words that go with no list; rows that
aren't there; and that no list changes the file. Then books in which it is recalled where things came from and
where they went: those that were worked out by hand, and made-up ones of 2,000 requests, with a journal and without,
whose lists are compared with the rules written once more, also once what the file keeps was changed; and a chain of
30,000 pieces, each cut off the one before. Then it types at a terminal: a greeting, a prompt, `help`, and the same
answers as from a pipe, with a journal; help by the word as at the prompt; `quit` and `exit`; which file was made;
before a long file is read, it is said so; lists are cut; and in a list no character stands on which the terminal acts.
Whoever reads may go, too, before all is printed.

usage: tools/check_lists.py PROGRAM [--few]
  --few   made-up books of 200 requests and a chain of 300 pieces, for a program that isn't optimised"""
import contextlib
import csv
import io
import json
import os
import pty
import subprocess
import tempfile

import recalled
from machine import lists
from machine.lines import FIELDS
from shared import expect, reader_of_words, run

DAY = "2030-01-02"
# How many seconds a run may take that reads a few lines, or fails at once.
MOST = 60
LINES = [
    {"do": "add_location", "name": "Store"},
    {"do": "add_location", "name": "Shelf A", "parent": "Store"},
    {"do": "add_category", "name": "Fixings"},
    {"do": "add_part", "name": "Screw", "category": "Fixings", "flags": ["component", "purchaseable"]},
    {"do": "add_part", "name": "Motor", "flags": ["component", "trackable"]},
    {"do": "add_part", "name": "Robot", "flags": ["assembly", "trackable", "salable"]},
    {"do": "add_part", "name": "Bölt", "flags": ["component"]},
    {"do": "add_line", "assembly": "Robot", "component": "Screw", "quantity": 4},
    {"do": "add_line", "assembly": "Robot", "component": "Motor", "quantity": 1, "variants": True},
    {"do": "add_substitute", "line": 8, "part": "Bölt"},
    {"do": "found", "part": "Screw", "location": ["Store", "Shelf A"], "quantity": 100, "batch": "L1", "key": "s1"},
    {"do": "found", "part": "Motor", "location": "Store", "quantity": 2, "serials": "M1,M2"},
    {"do": "order", "side": "purchase", "partner": "Acme", "key": "PO-1"},
    {"do": "order_line", "order": 14, "part": "Screw", "quantity": 50},
    {"do": "issue_order", "order": 14},
    {"do": "receive", "line": 15, "location": "Store", "quantity": 20},
    {"do": "build", "part": "Robot", "quantity": 2},
    {"do": "issue_build", "build": 17},
    {"do": "allocate_build", "build": 17, "line": 8, "item": 11, "quantity": 3},
    {"do": "outputs", "build": 17, "quantity": 1, "serials": "R1"},
    {"do": "allocate_build", "build": 17, "line": 9, "item": 12, "output": 19, "quantity": 1},
    {"do": "set_status", "item": 13, "status": "Quarantined"},
    {"do": "order", "side": "sale", "partner": "Bo, Ltd", "key": "SO-1"},
]
STOCK = [
    "number name category present free allocated items where".split(),
    ["4", "Screw", "Fixings", "120", "117", "3", "2", "Store / Shelf A; Store"],
    ["5", "Motor", "", "2", "0", "1", "2", "Store"],
    ["6", "Robot", "", "0", "0", "0", "1", ""],
    ["7", "Bölt", "", "0", "0", "0", "0", ""],
]
STORE = [
    "way depth item part name quantity free batch serial status".split(),
    ["Store / Shelf A", "1", "11", "4", "Screw", "100", "97", "L1", "", "OK"],
    ["Store", "1", "12", "5", "Motor", "1", "0", "", "M1", "OK"],
    ["Store", "1", "13", "5", "Motor", "1", "0", "", "M2", "Quarantined"],
    ["Store", "1", "16", "4", "Screw", "20", "20", "", "", "OK"],
]
ORDERS = [
    "order side state partner line part name wanted done allocated outstanding key day last".split(),
    ["14", "purchase", "in progress", "Acme", "15", "4", "Screw", "50", "20", "0", "30", "PO-1", "", ""],
    ["21", "sale", "pending", "Bo, Ltd", "", "", "", "", "", "", "", "SO-1", "", ""],
]
BUILDS = [
    [*"build part name state wanted done line component".split(), "component name",
     *"required allocated missing free key day last".split()],
    ["17", "6", "Robot", "in production", "2", "0", "8", "4", "Screw", "8", "3", "5", "117", "", "", ""],
    ["17", "6", "Robot", "in production", "2", "0", "9", "5", "Motor", "2", "1", "1", "0", "", "", ""],
]
SHORTAGES = [
    "part name required allocated missing free buy".split(),
    ["4", "Screw", "8", "3", "5", "117", "0"],
    ["5", "Motor", "2", "1", "1", "0", "1"],
]
SHEET = [
    "number item part way batch serial expected quantity".split(),
    ["1", "11", "Screw", "Store / Shelf A", "L1", "", "100", ""],
    ["2", "12", "Motor", "Store", "", "M1", "1", ""],
    ["3", "13", "Motor", "Store", "", "M2", "1", ""],
    ["4", "16", "Screw", "Store", "", "", "20", ""],
]
DELIVERY = [
    "number line order partner part outstanding location quantity batch serials".split(),
    ["1", "15", "14", "Acme", "Screw", "30", "", "", "", ""],
]
HISTORY = [
    [*"entry day what quantity part item batch serial where order partner".split(), "order key", "key"],
    ["1", DAY, "found", "100", "Screw", "11", "L1", "", "Store / Shelf A", "", "", "", "s1"],
    ["2", DAY, "found", "1", "Motor", "12", "", "M1", "Store", "", "", "", ""],
]
FOUND = ["kind", "number", "name", "where"]
MOTOR = [
    "kind number part name quantity batch serial status where day key".split(),
    ["item", "12", "5", "Motor", "1", "", "M1", "OK", "Store", "", ""],
    ["history", "2", "", "found", "1", "", "", "", "Store", DAY, ""],
]
SCREWS = [
    MOTOR[0],
    ["item", "11", "4", "Screw", "100", "L1", "", "OK", "Store / Shelf A", "", ""],
    ["made", "", "", "found", "", "", "", "", "", "", "s1"],
    ["history", "1", "", "found", "100", "", "", "", "Store / Shelf A", DAY, ""],
]
ROBOT = [
    "kind number part name quantity more batch serial key".split(),
    ["part", "6", "", "Robot", "", "assembly trackable salable", "", "", ""],
    ["sums", "", "", "", "0", "received 0 + found 0 + built 0 + returned 0"
                          " = present 0 + consumed 0 + shipped 0 + written off 0", "", "", ""],
    ["line", "8", "4", "Screw", "4", "", "", "", ""],
    ["substitute", "10", "7", "Bölt", "", "", "", "", ""],
    ["line", "9", "5", "Motor", "1", "variants", "", "", ""],
    ["item", "19", "", "OK", "1", "output 17", "", "R1", ""],
]
WANTED = [
    (["stock"], STOCK),
    (["stock", "--low", "1"], [STOCK[0], *STOCK[2:]]),
    (["at", "Store"], STORE),
    (["at", "1"], STORE),
    (["at", '["Store","Shelf A"]'], STORE[:2]),
    (["at", "Store / Shelf A"], STORE[:2]),
    (["orders"], ORDERS),
    (["--open", "orders"], ORDERS),
    (["builds", "--open"], BUILDS),
    (["shortages"], SHORTAGES),
    (["count-sheet"], SHEET),
    (["count-sheet", "2"], SHEET[:2]),
    (["receipt-sheet"], DELIVERY),
    (["receipt-sheet", '{"key":"PO-1"}'], DELIVERY),
    (["receipt-sheet", "21"], DELIVERY[:1]),
    (["history", "11"], HISTORY[:2]),
    (["history", "M1"], HISTORY[::2]),
    (["history", "Motor", "--to", "2030-01-01"], HISTORY[:1]),
    (["history", "M1", "--from", DAY, "--to", DAY], HISTORY[::2]),
    (["history", '{"key":"PO-1"}'], HISTORY[:1]),
    (["find", "ob"], [FOUND, ["part", "6", "Robot", ""]]),
    (["find", "t"], [FOUND, ["part", "5", "Motor", ""], ["part", "6", "Robot", ""], ["part", "7", "Bölt", ""],
                     ["location", "1", "Store", "Store"]]),
    (["find", "l1"], [FOUND, ["item", "11", "Screw", "Store / Shelf A"]]),
    (["find", "m"], [FOUND, ["part", "5", "Motor", ""], ["item", "12", "Motor", "Store"],
                     ["item", "13", "Motor", "Store"]]),
    (["find", "S"], [FOUND, ["part", "4", "Screw", "Fixings"], ["location", "1", "Store", "Store"],
                     ["location", "2", "Shelf A", "Store / Shelf A"], ["key", "21", "SO-1", ""],
                     ["key", "11", "s1", ""]]),
    (["find", "o-1"], [FOUND, ["key", "14", "PO-1", ""], ["key", "21", "SO-1", ""]]),
    (["item", "11"], SCREWS),
    (["item", '{"part":"Motor","serial":"M1"}'], MOTOR),
    (["item", "12"], MOTOR),
    (["item", "M1"], MOTOR),
    (["part", "Robot"], ROBOT),
]
# Reports in their second form.
NAMED = [
    (["ledger", "Motor"], [
        ["part", "what", "amount"],
        *(["Motor", what, "2" if what in ("found", "present") else "0"] for what in [
            "received", "found", "built", "returned", "consumed", "shipped", "written", "present", "sent", "used"])]),
    (["stock", "Screw"], [
        "part item quantity status where batch serial".split(),
        ["Screw", "11", "100", "OK", "Store / Shelf A", "L1", ""],
        ["Screw", "16", "20", "OK", "Store", "", ""]]),
    (["stock", "Bölt"], ["part item quantity status where batch serial".split()]),
    (["where_used", "Bölt"], [["number", "part"], ["6", "Robot"]]),
    (["history", "M1"], HISTORY[::2]),
    (["content", "M1"], ["depth item part quantity serial".split(), ["1", "12", "Motor", "1", "M1"]]),
    (["shortage", "17"], [
        "line component required allocated missing".split(),
        ["8", "Screw", "8", "3", "5"], ["9", "Motor", "2", "1", "1"]]),
]
COLUMNS = "".join(line + "\n" for line in [
    "number  name   category  present  free  allocated  items  where",
    "4       Screw  Fixings   120      117   3          2      Store / Shelf A; Store",
    "5       Motor            2        0     1          2      Store",
    "6       Robot            0        0     0          1      ",
    "7       Bölt             0        0     0          0      "])
# Made-up books: a seed, whether there is a journal, and the share of requests with own keys.
MADE_UP = [(1, True, 0.1), (2, False, 0.5), (3, False, 0)]
# How many requests these have, and how many pieces the chain; and how many where few are asked for.
MANY, FEW = (2_000, 30_000), (200, 300)
# Words that go with no list, and rows that there aren't: what is printed, and the status.
WRONG = [
    ["stock", "Store"], ["stock", "--open"], ["stock", "--low", "few"], ["at"], ["at", "Store", "--open"],
    ["orders", "14"], ["builds", "--low", "3"], ["find"], ["shortages", "x"], ["shortages", "--open"],
    ["count-sheet", "--low", "1"], ["parts"], ["receipt-sheet", "--open"], ["history", "--from", "2030-2-1"],
    ["history", "--open"], ["stock", "--to", DAY], ["low"], ["low", "--low", "3"], ["stock", "--levels", "x.csv"],
    ["low", "Screw", "--levels", "x.csv"], ["low", "--levels", "x.csv", "--low", "3"],
    ["low", "--levels", "x.csv", "--open"], ["low", "--levels", "x.csv", "--from", DAY],
    []]
NONE = [(["at", "99"], '{"refused":"NoSuch"}\n'), (["item", "99"], '{"refused":"NoSuch"}\n'), (["part", "Nut"], ""),
        (["history", "99"], '{"refused":"NoSuch"}\n'), (["receipt-sheet", "99"], '{"refused":"NoSuch"}\n'),
        (["item", "M9"], ""), (["history", "M9"], ""), (["at", "Store / Shelf B"], ""),
        (["at", "Nowhere"], ""), (["count-sheet", "99"], '{"refused":"NoSuch"}\n'), (["count-sheet", "[7]"], "")]

# Sheets of levels, and what is below. 117 screws are free, and 30 are to come.
LOW = "part name category level free coming buy".split()
LEVELS = [
    ("part,level\nScrew,150\nMotor,2\n6,1\nBölt,0\n", [
        ["4", "Screw", "Fixings", "150", "117", "30", "3"], ["5", "Motor", "", "2", "0", "0", "2"],
        ["6", "Robot", "", "1", "0", "0", "1"]]),
    ("level;remark;part\r\n118;cheap;Screw\r\n;none;Motor\r\n117;;4\r\n\r\n", [
        ["4", "Screw", "Fixings", "118", "117", "30", "0"]]),
    ('\ufeffpart\tlevel\tplace\n5\t1\n"Bölt"\t12\tbox\n5\t3\n', [
        ["5", "Motor", "", "1", "0", "0", "1"], ["7", "Bölt", "", "12", "0", "0", "12"],
        ["5", "Motor", "", "3", "0", "0", "3"]]),
    (f"part,level\nMotor,{'9' * 19}\n", [["5", "Motor", "", "9" * 19, "0", "0", "9" * 19]]),
    ("part,level\n", []),
]
# Sheets with a fault: what is told of it, with its record, and what of the field that is wrong.
FAULTY_LEVELS = [
    (b"part,level\nScrew,1\nNut,2\n", {"fault": "NoName", "field": "part", "line": 3}, "part: NoName: Nut"),
    (b"part,level\nScrew,few\nNut,2\n", {"fault": "WrongType", "line": 2}, "level: WrongType: few"),
    (b"part,level\nScrew,99999999999999999999\n", {"fault": "WrongType", "line": 2}, "level: WrongType: 9999"),
    (b"name,level\nScrew,1\n", {"fault": "Header", "line": 1}, "part and level are wanted"),
    (b"part,level,level\nScrew,1,2\n", {"fault": "Header", "line": 1}, "part and level are wanted"),
    (b"", {"fault": "Header", "line": 1}, "part and level are wanted"),
    (b"part,level\nScr\0ew,1\n", {"fault": "NoName", "field": "part", "line": 2}, "part: NoName: Scr"),
    (b"part,level\nB\xf6lt,1\n", {"fault": "Csv", "line": 2}, "record 2: Csv"),
    (b"part,level\n4,1,1\n", {"fault": "Csv", "line": 2}, "record 2: Csv"),
    (b'part,level\n4,1\n"5,1\n', {"fault": "Csv", "line": 3}, "record 3: Csv"),
    (b"part,level\n4;1\n", {"fault": "Csv", "line": 2}, "record 2: Csv"),
    (b"part,level\n" + b"4,1\n" * 4_194_304, {"fault": "TooLong", "line": 0}, "record 0: TooLong"),
]


def show(program, path, *words):
    return run(program, "show", "--db", path, *words)


def try_lists(program, path):
    for words, wanted in WANTED:
        told = show(program, path, "--csv", *words)
        rows = list(csv.reader(io.StringIO(told.stdout, newline="")))
        expect(rows == wanted and told.returncode == 0, f"{words}: {rows}, and not {wanted}; {told.stderr}")
        told = show(program, path, *words)
        expect(told.stdout == lists.columns(wanted), f"{words} in columns:\n{told.stdout}")
    expect(show(program, path, "stock").stdout == COLUMNS, "stock stands otherwise in its columns")


def try_named(program, path):
    """Reports for a spreadsheet; of what isn't there, and without their words as ever."""
    for words, wanted in NAMED:
        told = run(program, "report", "--db", path, "--names", "--csv", *words)
        rows = list(csv.reader(io.StringIO(told.stdout, newline="")))
        expect(rows == wanted and told.returncode == 0, f"report {words}: {rows}, and not {wanted}; {told.stderr}")
    told = run(program, "report", "--db", path, "--csv", "where_used", "7")
    expect(told.stdout == "number,part\n6,Robot\n", f"report --csv: {told}")
    for words, answer, status in [
            (["--csv", "stock", "99"], '{"refused":"NoSuch"}\n', 1), (["--csv", "stock", "Screw"], "", 2),
            (["--csv", "--names", "stock", "Nut"], "", 1), (["stock", "7"], "", 0),
            (["where_used", "7"], "6\tRobot\n", 0)]:
        told = run(program, "report", "--db", path, *words)
        expect((told.stdout, told.returncode) == (answer, status), f"report {words}: {told}")


def try_low(program, path, top):
    """What has less free than a sheet says, and sheets that say nothing."""
    sheet = os.path.join(top, "levels.csv")
    words = ["low", "--levels", sheet]
    for text, wanted in LEVELS:
        with open(sheet, "wb") as file:
            file.write(text.encode())
        told = show(program, path, "--csv", *words)
        rows = list(csv.reader(io.StringIO(told.stdout, newline="")))
        expect(rows == [LOW, *wanted] and told.returncode == 0, f"by {text!r}: {rows}, and not {wanted}; {told.stderr}")
        told = show(program, path, *words)
        expect(told.stdout == lists.columns([LOW, *wanted]), f"by {text!r} in columns:\n{told.stdout}")
    for text, fault, said in FAULTY_LEVELS:
        with open(sheet, "wb") as file:
            file.write(text)
        told = show(program, path, *words)
        expect(json.loads(told.stdout) == fault and told.returncode == 1, f"by {text[:40]!r}: {told}")
        expect(said in told.stderr and "\0" not in told.stderr, f"by {text[:40]!r} is told {told.stderr!r}")
    with open(sheet, "w") as file:
        file.write("part,level\n4,1\n99,1\n")
    told = show(program, path, *words)
    expect((told.stdout, told.returncode) == ('{"refused":"NoSuch"}\n', 1), f"of a part that isn't there: {told}")
    os.remove(sheet)
    told = show(program, path, *words)
    expect((told.stdout, told.returncode) == ("", 3) and sheet in told.stderr, f"without its sheet: {told}")
    told = run(program, "show", "--at", "1", *words)
    expect(told.returncode == 2 and "show low" in told.stderr, f"of a service: {told}")


def try_low_at_terminal(program, path, top):
    """At a terminal that list is cut as others are."""
    sheet = os.path.join(top, "levels.csv")
    with open(sheet, "w") as file:
        file.write("part,level\nScrew,9999999999999999999\n")
    words = ["low", "--levels", sheet]
    whole = show(program, path, *words).stdout.split("\n")[:-1]
    for columns in "20", "80":
        shown = shown_at_terminal(program, columns, "--db", path, *words)
        expect(shown == [cut(line, int(columns)) for line in whole], f"low at {columns} columns: {shown}")


def try_wrong(program, path):
    for words in WRONG:
        told = show(program, path, *words)
        expect(told.returncode == 2 and not told.stdout and told.stderr, f"{words}: {told}")
    for words, wanted in NONE:
        told = show(program, path, *words)
        expect((told.stdout, told.returncode, bool(told.stderr)) == (wanted, 1, not wanted), f"{words}: {told}")


def terminal():
    """The two ends of a terminal, or none where the system has none to give."""
    try:
        return pty.openpty()
    except OSError:
        return None


def typed(program, path, lines, ends, *words):
    """What the program writes to its output and to its screen where these lines are typed at a terminal."""
    hand, seat = ends
    how = {"stdout": subprocess.PIPE, "stderr": subprocess.PIPE, "stdin": seat}
    with subprocess.Popen([program, "run", "--names", *words, "--db", path], **how) as process:
        os.close(seat)
        os.write(hand, "".join(line + "\n" for line in lines).encode() + b"\x04")
        out, screen = process.communicate(timeout=MOST)
        os.close(hand)
    return out.decode(), screen.decode(), process.returncode


def try_terminal(program, path, ends, *words):
    report = '{"report":"stock","of":"Screw"}'
    wanted = run(program, "run", "--names", "--db", path, lines=report + "\n").stdout
    lines = ["help", report, "help found", "help Short", "help me", "help refusals"]
    out, screen, status = typed(program, path, lines, ends, *words)
    expect((out, status) == (wanted, 0), f"a typed line is answered {out!r}")
    begins = [f"invdesk: {path} has 4 parts and 5 items. One request a line;", "> help\n",
              "> found\n  Fields:", "> Short\n", "> refusals\n",
              "> There is no help on that"]
    for begin in begins:
        expect(begin in screen, f"{begin!r} isn't on the screen:\n{screen}")
    piped = run(program, "run", "--db", path, lines="help\n")
    expect(piped.stdout == '{"fault":"NotJson","line":1}\n' and not piped.stderr, f"help from a pipe: {piped}")


def try_journal(program, top, ends):
    """A request that is typed has a key from the journal, without a word for it."""
    path = os.path.join(top, "typed.db")
    line = f'{{"day":"{DAY}","do":"add_location","name":"Typed"}}'
    out, screen, status = typed(program, path, [line], ends)
    expect((out, status) == ('{"entries":0,"ids":[1]}\n', 0), f"a typed request is answered {out!r}: {screen}")
    kept = run(program, "export", "--db", path, "kept").stdout
    expect(f"{DAY}/1," in kept, f"of a typed request is kept {kept!r}")


def try_help(program, top):
    """The word `help` prints what is told at the prompt, and of no topic what `help` alone tells. The line that it shows
    of a command can be read."""
    topics = ["", "found", "Short", "flags", "mistakes", "refusals", "faults", "commands"]
    texts = [run(program, "help", *topic.split()).stdout for topic in topics]
    lines = [f"help {topic}".rstrip() for topic in topics]
    screen = typed(program, os.path.join(top, "helped.db"), lines, terminal())[1]
    expect("".join(f"> {text}" for text in texts) in screen, f"help tells otherwise at the prompt:\n{screen}")
    expect("docs/MISTAKES.md" in texts[4], f"help mistakes names no document: {texts[4]!r}")
    for command in FIELDS:
        line = run(program, "help", command).stdout.rpartition("Example: ")[2]
        answer = run(program, "run", lines=line).stdout
        expect(line.startswith("{") and answer and "fault" not in answer, f"{command}: {line!r}: {answer!r}")


def try_end(program, top):
    """`quit` and `exit` end what is typed, and from a pipe are no lines."""
    line = f'{{"day":"{DAY}","do":"add_location","name":"Typed"}}'
    for word in "quit", "exit":
        out, screen, status = typed(program, os.path.join(top, f"{word}.db"), [word, line], terminal())
        expect((out, status) == ("", 0), f"behind {word} {out!r} is answered: {screen}")
        piped = run(program, "run", lines=word + "\n")
        expect(piped.stdout == '{"fault":"NotJson","line":1}\n', f"{word} from a pipe: {piped}")


def told_at_terminal(program, ends, *words):
    """What the program tells on a standard error that is a terminal."""
    hand, seat = ends
    done = subprocess.run([program, *words], input=b"", stdout=subprocess.PIPE, stderr=seat, timeout=MOST, check=False)
    expect(done.returncode == 0, f"{words}: {done}")
    os.write(seat, b".")
    os.close(seat)
    screen = os.read(hand, 65_536).decode()
    os.close(hand)
    return screen


def try_made(program, top):
    """At a terminal it is told that a file was made, or that there is none to look at."""
    header = os.path.join(top, "none.csv")
    with open(header, "w") as file:
        file.write("number,item,quantity\n")
    imported = ["--kind", "counts", "--document", "C1", "--day", DAY, header]
    for name, words, told in [
            ("run.db", [], "there was no such file, so it was made"),
            ("import.db", imported, "there was no such file, so it was made"),
            ("export.db", ["items"], "there is no such file, and none was made; this is of an empty workshop")]:
        path, word = os.path.join(top, f"made-{name}"), name.partition(".")[0]
        screen = told_at_terminal(program, terminal(), word, "--db", path, *words)
        expect(screen.startswith(f"invdesk: {path}: {told}\r\n"), f"{word}: {screen!r}")
        expect(os.path.exists(path) == (word in ("run", "import")), f"{word} makes a file, or none")
        if os.path.exists(path):
            again = told_at_terminal(program, terminal(), "run", "--db", path)
            expect(again == ".", f"a file that is there: {again!r}")


def shown_at_terminal(program, columns, *words):
    """What `show` prints on a terminal, of which the environment tells how many columns it has, or nothing."""
    hand, seat = terminal()
    told = {name: value for name, value in os.environ.items() if name != "COLUMNS"}
    if columns:
        told["COLUMNS"] = columns
    subprocess.run([program, "show", *words], stdout=seat, stderr=subprocess.PIPE, timeout=MOST, check=True, env=told)
    os.close(seat)
    screen = os.read(hand, 65_536).decode().replace("\r\n", "\n")
    os.close(hand)
    return screen.split("\n")[:-1]


def cut(text, most):
    return text if len(text) < most else text[:most - 1] + "\u2026"


def try_cut(program, top):
    """At a terminal of a known width no line of a list is longer, else no name is long; nothing is cut elsewhere."""
    path = os.path.join(top, "cut.db")
    names = ["B" * 32, "C" * 33, "\u00e9" * 100]
    lines = [json.dumps({"day": DAY, "do": "add_part", "name": name, "flags": []}) + "\n" for name in names]
    run(program, "run", "--db", path, lines="".join(lines))
    words = ["--db", path, "stock"]
    whole = show(program, path, "stock").stdout.split("\n")[:-1]
    expect(all(name in "\n".join(whole) for name in names), f"a pipe has cut names: {whole}")
    for columns in "20", "80", "133":
        shown = shown_at_terminal(program, columns, *words)
        expect(shown == [cut(line, int(columns)) for line in whole], f"at {columns} columns: {shown}")
    for columns in None, "19", "wide":
        shown = shown_at_terminal(program, columns, *words)
        found = [line.split()[1] for line in shown[1:]]
        expect(found == [cut(name, 33) for name in names], f"with COLUMNS={columns}: {shown}")
    shown = shown_at_terminal(program, "20", *words, "--csv")
    expect("\n".join(shown) + "\n" == show(program, path, "stock", "--csv").stdout, f"cut as --csv: {shown}")


def try_left(program, path):
    """Whoever reads may go before the end: what only prints ends well then, and says nothing; a run and an import tell
    it, and what they have done stays."""
    for words in ("show", "stock"), ("report", "ledger", "2"), ("export", "items"), ("dump",), ("help",):
        of = [] if words == ("help",) else ["--db", path]
        hand, end = os.pipe()
        os.close(hand)
        done = subprocess.run([program, words[0], *of, *words[1:]], stdout=end, stderr=subprocess.PIPE, timeout=MOST,
                              check=False)
        os.close(end)
        expect((done.returncode, done.stderr) == (0, b""), f"{words} that nobody reads: {done}")
    line = f'{{"day":"{DAY}","do":"add_location","key":"left","name":"Left"}}\n'
    hand, end = os.pipe()
    os.close(hand)
    done = subprocess.run([program, "run", "--db", path], input=line.encode(), stdout=end, stderr=subprocess.PIPE,
                          timeout=MOST, check=False)
    os.close(end)
    expect(done.returncode == 3 and done.stderr, f"a run whose answers nobody reads: {done}")
    again = run(program, "run", "--db", path, lines=line)
    expect('"ids":' in again.stdout, f"what was done before nobody read: {again}")


def try_long(program, top, ends):
    """What is said at a terminal before a long file is read: the file is no workshop's, so that is the end of it."""
    hand, seat = ends
    path = os.path.join(top, "long.db")
    with open(path, "wb") as file:
        file.truncate(33 * 1024 * 1024)
    words = [program, "show", "--db", path, "stock"]
    done = subprocess.run(words, stdout=subprocess.PIPE, stderr=seat, timeout=MOST, check=False)
    os.close(seat)
    screen = os.read(hand, 65_536).decode()
    os.close(hand)
    expect(done.returncode == 3 and not done.stdout, f"a file of zeros is shown: {done}")
    told = f"invdesk: {path} has 34 MB; reading it takes a moment\r\n"
    expect(screen.startswith(told), f"of a long file: {screen!r}")
    piped = show(program, path, "stock")
    expect("moment" not in piped.stderr, f"away from a terminal: {piped}")


def try_hidden(program, top, ends):
    """A name that a terminal acts on, or that turns text, is escaped in a list at a terminal, and nowhere else."""
    hand, seat = ends
    path = os.path.join(top, "hidden.db")
    name = "A\x9b2J\u202e\u061c"
    line = json.dumps({"day": DAY, "do": "add_part", "name": name, "flags": []}) + "\n"
    run(program, "run", "--db", path, lines=line)
    words = [program, "show", "--db", path, "stock"]
    done = subprocess.run(words, stdout=seat, stderr=subprocess.PIPE, timeout=MOST, check=False)
    os.close(seat)
    screen = os.read(hand, 65_536).decode().replace("\r\n", "\n")
    os.close(hand)
    piped = show(program, path, "stock").stdout
    seen = name.replace("\x9b", "\\u{9b}").replace("\u202e", "\\u{202e}").replace("\u061c", "\\u{061c}")
    rows = [line.split() for line in screen.split("\n")]
    expect(done.returncode == 0 and rows[1][1] == seen, f"at a terminal: {screen!r}")
    expect(piped.split("\n")[1].split()[1] == name, f"in a pipe: {piped!r}")


def main():
    words = reader_of_words(__doc__)
    words.add_argument("--few", action="store_true")
    given = words.parse_args()
    program, (requests, pieces) = given.program, FEW if given.few else MANY
    with tempfile.TemporaryDirectory() as top:
        path = os.path.join(top, "workshop.db")
        lines = "".join(json.dumps({"day": DAY, **line}) + "\n" for line in LINES)
        done = run(program, "run", "--names", "--db", path, lines=lines)
        expect(done.returncode == 0, f"the workshop: {done.stdout}")
        with contextlib.closing(open(path, "rb")) as file:
            before = file.read()
        try_lists(program, path)
        try_named(program, path)
        try_low(program, path, top)
        try_wrong(program, path)
        with contextlib.closing(open(path, "rb")) as file:
            expect(file.read() == before, "a list changed the file")
        compared = recalled.try_by_hand(program, top)
        compared += sum(recalled.try_made_up(program, top, requests, *books) for books in MADE_UP)
        recalled.try_chain(program, top, pieces)
        try_left(program, path)
        ends = terminal()
        if ends:
            try_terminal(program, path, ends)
            try_terminal(program, path, terminal(), "--check")
            try_journal(program, top, terminal())
            try_help(program, top)
            try_end(program, top)
            try_made(program, top)
            try_cut(program, top)
            try_low_at_terminal(program, path, top)
            try_long(program, top, terminal())
            try_hidden(program, top, terminal())
    seen = "a terminal" if ends else "no terminal, as there is none here"
    absent = len(WRONG) + len(NONE) + len(FAULTY_LEVELS)
    shown = f"{len(WANTED) + len(LEVELS)} lists, {compared} of what is recalled, {absent} that aren't there"
    print(f"check_lists: {shown}, {seen}: all as they should be")


if __name__ == "__main__":
    main()
