"""Books in which it is recalled where things came from and where they went: a workshop whose lists were worked out by
hand, one whose lists are compared with the rules written once more, and a long chain of pieces."""
import contextlib
import csv
import io
import json
import os
import random
import sqlite3

from machine import lists, traces
from machine.lines import FIELDS, Fault
from machine.machine import Machine
from machine.made_recall import PARTS, RecallMaker
from machine.names import Names, said
from machine.reports import answer, answer_line, table
from shared import expect, run

# Each line's day, and its members. Those of JOURNALLED are sent with a journal, those of PLAIN without one.
JOURNALLED = [
    ("04", {"do": "add_location", "name": "Store"}),
    ("04", {"do": "add_part", "name": "Regulator", "flags": ["component", "purchaseable"]}),
    ("04", {"do": "add_part", "name": "Driver", "flags": ["assembly", "component", "trackable"]}),
    ("04", {"do": "add_part", "name": "Lamp", "flags": ["assembly", "trackable", "salable"]}),
    ("04", {"do": "add_line", "assembly": "Driver", "component": "Regulator", "quantity": 2}),
    ("04", {"do": "add_line", "assembly": "Lamp", "component": "Driver", "quantity": 1}),
    # 7 and 8: a delivery of two batches
    ("04", {"do": "order", "side": "purchase", "partner": "Miller", "key": "2030-03-04/PO-1"}),
    ("04", {"do": "order_line", "order": 7, "part": "Regulator", "quantity": 20, "key": "2030-03-05/10"}),
    ("04", {"do": "issue_order", "order": 7}),
    ("05", {"do": "receive", "line": 8, "location": "Store", "quantity": 3, "batch": "L22"}),
    ("05", {"do": "receive", "line": 8, "location": "Store", "quantity": 17, "batch": "L23"}),
    # 11: three outputs, of which one is scrapped
    ("06", {"do": "build", "part": "Driver", "quantity": 2, "key": "B-1"}),
    ("06", {"do": "issue_build", "build": 11}),
    ("06", {"do": "auto_allocate", "build": 11}),
    ("06", {"do": "outputs", "build": 11, "quantity": 2, "serials": "D1,D2"}),
    ("06", {"do": "scrap_output", "output": 15}),
    ("06", {"do": "outputs", "build": 11, "quantity": 1, "serials": "D3"}),
    ("07", {"do": "complete_output", "output": 14, "location": "Store"}),
    ("07", {"do": "complete_output", "output": 16, "location": "Store"}),
    ("07", {"do": "complete_build", "build": 11}),
    # 18: the drivers go into lamps
    ("08", {"do": "build", "part": "Lamp", "quantity": 2}),
    ("08", {"do": "issue_build", "build": 18}),
    ("08", {"do": "outputs", "build": 18, "quantity": 2, "serials": "A1,A2"}),
    ("08", {"do": "allocate_build", "build": 18, "line": 6, "item": 14, "output": 19, "quantity": 1}),
    ("08", {"do": "allocate_build", "build": 18, "line": 6, "item": 16, "output": 20, "quantity": 1}),
    ("08", {"do": "complete_output", "output": 19, "location": "Store"}),
    ("08", {"do": "complete_output", "output": 20, "location": "Store"}),
    ("08", {"do": "complete_build", "build": 18}),
    # 23 and 26: two sales, and one of the lamps comes back
    ("09", {"do": "order", "side": "sale", "partner": "Acme", "key": "SO-1"}),
    ("09", {"do": "order_line", "order": 23, "part": "Lamp", "quantity": 1}),
    ("09", {"do": "issue_order", "order": 23}),
    ("09", {"do": "allocate_sale", "line": 24, "item": 19, "quantity": 1}),
    ("09", {"do": "ship", "order": 23}),
    ("10", {"do": "order", "side": "sale", "partner": "Bo, Ltd"}),
    ("10", {"do": "order_line", "order": 26, "part": "Lamp", "quantity": 1}),
    ("10", {"do": "issue_order", "order": 26}),
    ("10", {"do": "allocate_sale", "line": 27, "item": 20, "quantity": 1}),
    ("10", {"do": "ship", "order": 26}),
    ("20", {"do": "return_item", "item": 20, "location": "Store"}),
]
PLAIN = [
    # 29: a build some of whose outputs nobody knows
    ("21", {"do": "build", "part": "Driver", "quantity": 4}),
    ("21", {"do": "issue_build", "build": 29}),
    ("21", {"do": "outputs", "build": 29, "quantity": 1, "serials": "D4", "key": "2030-03-21/d4"}),
    ("21", {"do": "outputs", "build": 29, "quantity": 1, "serials": "D5"}),
    ("21", {"do": "outputs", "build": 29, "quantity": 1, "serials": "D6", "key": "2030-03-21/d6"}),
    ("22", {"do": "auto_allocate", "build": 29}),
    ("22", {"do": "consume", "allocation": 33}),
    ("22", {"do": "complete_output", "output": 30, "location": "Store"}),
    ("22", {"do": "complete_output", "output": 31, "location": "Store"}),
    ("22", {"do": "cancel_output", "output": 32}),
    ("22", {"do": "outputs", "build": 29, "quantity": 1, "serials": "D7"}),
    # 37 is cut off a batch, 38 off that; 39 is of a batch whose name is the number of an item, and 40 of one whose name
    # would be
    ("23", {"do": "transfer", "item": 10, "location": "Store", "quantity": 5, "key": "moved"}),
    ("23", {"do": "split", "item": 37, "quantity": 2, "key": "2030-03-23"}),
    ("24", {"do": "found", "part": "Regulator", "location": "Store", "quantity": 1, "batch": "20"}),
    ("24", {"do": "found", "part": "Regulator", "location": "Store", "quantity": 1, "batch": "99"}),
]
COLUMNS = traces.COLUMNS
FORWARD = [
    COLUMNS,
    ["0", "item", "9", "2", "Regulator", "3", "L22", "", "used 11", "", "2030-03-05", "2030-03-05/11"],
    ["1", "build", "11", "3", "Driver", "2", "", "", "complete", "used it", "", "B-1"],
    ["2", "item", "14", "3", "Driver", "1", "", "D1", "in 19", "begun for it", "2030-03-07", "2030-03-06/15"],
    ["3", "item", "19", "4", "Lamp", "1", "", "A1", "sent 23 to Acme", "holds it", "2030-03-08", "2030-03-08/23"],
    ["2", "item", "15", "3", "Driver", "1", "", "D2", "off scrapped", "begun for it", "2030-03-06", "2030-03-06/15"],
    ["2", "item", "16", "3", "Driver", "1", "", "D3", "in 20", "begun for it", "2030-03-07", "2030-03-06/17"],
    ["3", "item", "20", "4", "Lamp", "1", "", "A2", "Store", "holds it", "2030-03-08", "2030-03-08/23"],
]
LATER = [
    COLUMNS,
    ["0", "item", "10", "2", "Regulator", "3", "L23", "", "Store", "", "2030-03-05", "2030-03-05/12"],
    ["1", "item", "37", "2", "Regulator", "3", "L23", "", "Store", "cut off it", "2030-03-23", "moved"],
    ["2", "item", "38", "2", "Regulator", "2", "L23", "", "Store", "cut off it", "2030-03-23", "2030-03-23"],
    ["0", "item", "17", "2", "Regulator", "1", "L23", "", "used 11", "", "2030-03-07", "2030-03-07/20"],
    *FORWARD[2:],
    ["0", "item", "34", "2", "Regulator", "8", "L23", "", "used 29", "", "2030-03-22", ""],
    ["1", "build", "29", "3", "Driver", "4", "", "", "in production", "used it", "", ""],
    ["2", "item", "30", "3", "Driver", "1", "", "D4", "Store", "begun for it", "2030-03-22", "2030-03-21/d4"],
    ["2", "item", "32", "3", "Driver", "0", "", "D6", "gone", "begun for it", "2030-03-21", "2030-03-21/d6"],
    ["2", "item", "", "3", "Driver", "2", "", "", "", "not known", "", ""],
    ["0", "item", "37", *[""] * 6, "above", "", ""],
    ["0", "item", "38", *[""] * 6, "above", "", ""],
]
BACK = [
    COLUMNS,
    ["0", "item", "19", "4", "Lamp", "1", "", "A1", "sent 23 to Acme", "", "2030-03-08", "2030-03-08/23"],
    ["1", "item", "14", "3", "Driver", "1", "", "D1", "in 19", "inside it", "2030-03-07", "2030-03-06/15"],
    ["2", "build", "11", "3", "Driver", "2", "", "", "complete", "made it", "", "B-1"],
    ["3", "item", "9", "2", "Regulator", "3", "L22", "", "used 11", "used for it", "2030-03-05", "2030-03-05/11"],
    ["4", "order", "7", "2", "Regulator", "20", "", "", "line 8 from Miller", "delivered it", "2030-03-05",
     "2030-03-05/11"],
    ["3", "item", "17", "2", "Regulator", "1", "L23", "", "used 11", "used for it", "2030-03-07", "2030-03-07/20"],
    ["1", "build", "18", "4", "Lamp", "2", "", "", "complete", "made it", "2030-03-08", "2030-03-08/21"],
]
PIECE = [
    COLUMNS,
    ["0", "item", "38", "2", "Regulator", "2", "L23", "", "Store", "", "2030-03-23", "2030-03-23"],
    ["1", "item", "37", "2", "Regulator", "3", "L23", "", "Store", "it was cut off this", "2030-03-23", "moved"],
    ["2", "item", "10", "2", "Regulator", "3", "L23", "", "Store", "it was cut off this", "2030-03-05",
     "2030-03-05/12"],
    ["3", "order", "7", "2", "Regulator", "20", "", "", "line 8 from Miller", "delivered it", "2030-03-05",
     "2030-03-05/12"],
]
UNKNOWN = [COLUMNS, ["0", "item", "31", "3", "Driver", "1", "", "D5", "Store", "", "2030-03-22", ""]]
TWENTY = [COLUMNS, ["0", "item", "39", "2", "Regulator", "1", "20", "", "Store", "", "2030-03-24", ""]]
NINETY_NINE = [COLUMNS, ["0", "item", "40", "2", "Regulator", "1", "99", "", "Store", "", "2030-03-24", ""]]
ORDERS = [
    "order side state partner line part name wanted done allocated outstanding key day last".split(),
    ["7", "purchase", "in progress", "Miller", "8", "2", "Regulator", "20", "20", "0", "0", "2030-03-04/PO-1",
     "2030-03-04", "2030-03-05"],
    ["23", "sale", "in progress", "Acme", "24", "4", "Lamp", "1", "1", "0", "0", "SO-1", "", "2030-03-09"],
    ["26", "sale", "in progress", "Bo, Ltd", "27", "4", "Lamp", "1", "1", "0", "0", "2030-03-10/34", "2030-03-10",
     "2030-03-10"],
]
BUILDS = [
    [*"build part name state wanted done line component".split(), "component name",
     *"required allocated missing free key day last".split()],
    ["11", "3", "Driver", "complete", "2", "2", *[""] * 7, "B-1", "", "2030-03-07"],
    ["18", "4", "Lamp", "complete", "2", "2", *[""] * 7, "2030-03-08/21", "2030-03-08", "2030-03-08"],
    ["29", "3", "Driver", "in production", "4", "2", "5", "2", "Regulator", "0", "0", "0", "10", "", "", "2030-03-22"],
]
ITEM = [
    "kind number part name quantity batch serial status where day key".split(),
    ["item", "37", "2", "Regulator", "3", "L23", "", "OK", "Store", "", ""],
    ["made", "10", "", "transfer", "", "", "", "", "", "", "moved"],
    ["history", "25", "", "cut", "5", "", "", "", "Store", "2030-03-23", ""],
    ["history", "26", "", "moved", "5", "", "", "", "Store", "2030-03-23", ""],
]
DELIVERED = [
    ITEM[0],
    ["item", "9", "2", "Regulator", "3", "L22", "", "OK", "used 11", "", ""],
    ["made", "8", "", "receive", "", "", "", "", "order 7 from Miller", "2030-03-05", "2030-03-05/11"],
    ["history", "1", "", "received", "3", "", "", "", "Store", "2030-03-05", ""],
    ["history", "7", "", "consumed", "3", "", "", "", "used 11", "2030-03-07", ""],
]
OF_LAMP = [
    "kind number part name quantity more batch serial key".split(),
    ["part", "4", "", "Lamp", "", "assembly trackable salable", "", "", ""],
    ["sums", "", "", "", "1", "received 0 + found 0 + built 2 + returned 1 = present 1 + consumed 0 + shipped 2"
                              " + written off 0", "", "", ""],
    ["line", "6", "3", "Driver", "1", "", "", "", ""],
    ["line", "5", "2", "  Regulator", "2", "", "", "", ""],
    ["item", "19", "", "OK", "1", "sent 23", "", "A1", "2030-03-08/23"],
    ["item", "20", "", "Returned", "1", "Store", "", "A2", "2030-03-08/23"],
]
FOUND = ["kind", "number", "name", "where"]
WANTED = [
    (["trace-forward", "L22"], FORWARD),
    (["trace-forward", "9"], FORWARD),
    (["trace-forward", "L23"], LATER),
    (["trace-forward", "31"], UNKNOWN),
    (["trace-forward", "20"], TWENTY),
    (["trace-forward", "99"], NINETY_NINE),
    (["trace-back", '{"part":"Lamp","serial":"A1"}'], BACK),
    (["trace-back", '{"key":"2030-03-23"}'], PIECE),
    (["trace-back", "31"], UNKNOWN),
    (["orders"], ORDERS),
    (["builds"], BUILDS),
    (["item", "37"], ITEM),
    (["item", "9"], DELIVERED),
    (["part", "Lamp"], OF_LAMP),
    (["find", "LAM"], [FOUND, ["part", "4", "Lamp", ""]]),
    (["find", "l22"], [FOUND, ["item", "9", "Regulator", "used 11"]]),
    (["find", "a"], [FOUND, ["part", "2", "Regulator", ""], ["part", "4", "Lamp", ""],
                     ["item", "19", "Lamp", "sent 23"], ["item", "20", "Lamp", "Store"]]),
    (["find", "so-"], [FOUND, ["key", "23", "SO-1", ""]]),
    (["find", "23/"], [FOUND]),
    (["find", "03-23"], [FOUND, ["key", "38", "2030-03-23", ""]]),
]
# Keys that the journal gives: 2030-03-05/10 was said before, so the tenth line and the one behind it have others.
JOURNAL_KEYS = ["2030-03-04/9", "2030-03-05/11", "2030-03-05/12", "2030-03-06/13", "2030-03-20/39"]
NONE = ["L9", "98", '{"part":"Lamp","serial":"A3"}', '{"part":"Lamp"', "[1]", '{"key":"SO-9"}']
DAY = "2030-03-25"


def lines_of(said_lines):
    return [json.dumps({"day": f"2030-03-{day}", **members}).encode() for day, members in said_lines]


def show(program, path, *words):
    return run(program, "show", "--db", path, *words, lines=b"")


def rows_shown(program, path, words, in_columns=True):
    """The rows of a list, which in columns has to be shown alike, and what is told beside it."""
    told = show(program, path, "--csv", *words)
    rows = list(csv.reader(io.StringIO(told.stdout.decode(), newline="")))
    expect(told.returncode == 0, f"{words} end with {told.returncode}: {told.stderr.decode()}")
    if in_columns:
        text = show(program, path, *words)
        is_same = (text.returncode, text.stdout.decode()) == (0, lists.columns(rows))
        expect(is_same, f"{words} in columns: {text.stdout.decode()}")
    return rows, told.stderr


def rows_of(m, words):
    """The rows of a list by the rules in Python."""
    name, *word = words
    if name == "find":
        return lists.texts(lists.find(m, *word))
    if not word:
        return lists.texts(getattr(lists, name)(m))
    of = Names(m).row("parts" if name == "part" else "items", said(*word), "of") if name != "trace-forward" else None
    if name == "trace-forward":
        return lists.texts(traces.forward(m, traces.roots_forward(m, *word, item_said(m, *word))))
    return lists.texts(traces.back(m, [of]) if name == "trace-back" else getattr(lists, name)(m, of))


def item_said(m, word):
    """The item that a word says, or none."""
    try:
        number = Names(m).row("items", said(word), "of")
    except Fault:
        return None
    return number if number in m.items else None


def run_lines(program, path, lines, *words):
    done = run(program, "run", *words, "--db", path, lines=b"".join(it + b"\n" for it in lines))
    return done.stdout.decode().split("\n")[:-1], done.returncode


def try_by_hand(program, top):
    """The workshop whose lists were worked out by hand, which the rules in Python show alike."""
    m, path = Machine(), os.path.join(top, "recalled.db")
    for words, said_lines in (["--journal"], JOURNALLED), ([], PLAIN):
        lines = lines_of(said_lines)
        wanted = [answer_line(answer(m, it, at, True, bool(words))) for at, it in enumerate(lines, 1)]
        told = run_lines(program, path, lines, "--names", *words)
        expect(told == (wanted, 0), f"{words}: the lines of the workshop are answered {told}, and not {wanted}")
    expect(set(JOURNAL_KEYS) <= m.kept.keys() and len(m.kept) == len(JOURNALLED) + 4, f"keys are {sorted(m.kept)}")
    for words, wanted in WANTED:
        expect(rows_of(m, words) == wanted, f"{words} by the rules in Python: {rows_of(m, words)}, and not {wanted}")
        rows, noise = rows_shown(program, path, words)
        expect(rows == wanted, f"{words}: {rows}, and not {wanted}")
        expect(bool(noise) == (words == ["trace-forward", "20"]), f"{words} tell {noise!r}")
    for word in NONE:
        for name in "trace-forward", "trace-back":
            told = show(program, path, name, word)
            is_said = told.stdout == b'{"refused":"NoSuch"}\n' or not told.stdout and told.stderr
            expect(told.returncode == 1 and is_said, f"{name} of {word!r}: {told}")
    for words in ["trace-forward"], ["trace-back"], ["trace-back", "9", "--open"], ["trace-forward", "9", "--low", "1"]:
        told = show(program, path, *words)
        expect(told.returncode == 2 and not told.stdout and told.stderr, f"{words}: {told}")
    return len(WANTED)


class Books:
    """Books of made-up requests, with a journal or without, of which such a share has keys of its own."""

    def __init__(self, seed, count, journal, share):
        self.r, self.m, self.journal, self.share = random.Random(seed), Machine(), journal, share
        maker = RecallMaker(self.r, self.m)
        self.lines, self.wanted = [], []
        for at in range(count):
            self.lines.append(self.line_of(*maker.request(), f"2030-{1 + at // 200:02}-{1 + at % 200 // 8:02}"))
            told = answer(self.m, self.lines[-1], at + 1, journal=journal)
            self.wanted.append(answer_line(told))

    def line_of(self, do, made, day):
        members = {"do": do, "day": day, **{name: made[name] for name, _, _ in FIELDS[do] if made[name] is not None}}
        if self.r.random() < self.share:
            # Now and then a key that the journal would give soon.
            soon = f"{day}/{len(self.m.kept) + self.r.randint(1, 6)}"
            members["key"] = self.r.choice([soon, f"own-{len(self.lines)}", f"{day}/own-{len(self.lines)}"])
        return json.dumps(members, ensure_ascii=False).encode()

    def lists(self):
        """The words of lists: of each batch, of each part, of some items, and of some words that are found."""
        m, one = self.m, self.r.sample
        batches = sorted({it.batch for it in m.items.values() if it.batch})
        yield from ([it] for it in ("orders", "builds"))
        yield from (["trace-forward", it] for it in batches)
        yield from (["part", str(n)] for n in m.parts)
        outs = [n for n, it in m.items.items() if it.place[0] in ("in", "sent", "used", "off")]
        for items in sorted(m.items), outs:
            for n in one(items, min(len(items), 12)):
                yield from ([name, str(n)] for name in ("trace-forward", "trace-back", "item"))
        for word in [*batches, "2030-03", "OWN-1", "a", "S/", "1", "É", "/1", "bOARD"]:
            yield ["find", word]


def try_lists(program, path, books):
    asked = list(books.lists())
    for at, words in enumerate(asked):
        wanted, (rows, _) = rows_of(books.m, words), rows_shown(program, path, words, at % 5 == 0)
        other = next((pair for pair in zip(rows, wanted) if pair[0] != pair[1]), (len(rows), len(wanted)))
        expect(rows == wanted, f"{words}: {other[0]}, and not {other[1]}")
    return len(asked)


def changed_text(books):
    """What may stand in a file in the place of a kept text: other rows, others' rows, and what is no command."""
    r, m = books.r, books.m
    item, build, line = (r.choice([*rows]) for rows in (m.items, m.builds, m.order_lines))
    number = r.choice([item, item, build, line, 0, m.next, 2**64 - 1, 2**64, -1, 1.5, "7", None, [item], True])
    do, member = r.choice([
        ("outputs", "build"), ("receive", "line"), ("transfer", "item"), ("split", "item"), ("serialise", "item"),
        ("install", "item"), ("outputs", "item"), ("found", "item"), (7, "item"), ("Outputs", "build"),
        ("add_part", "name"), ("é\t", "build")])
    right = {"build": build, "line": line, "item": item}.get(member, number)
    told = json.dumps({"do": do, member: r.choice([right, right, number])})
    return r.choice([
        told, told, told, told, told[:-1] + ',"do":"split"}', told[:-1], f" {told}\n", f"[{told}]", "", "7", "null",
        "no JSON", '{"build":7}', "[" * 200, '{"do":"outp\\u0075ts","build":%d}' % build,
        '{"do":"outputs","build":%d.0}' % build, '{"do":"split","item":%de0}' % item])


def change_kept(path, books):
    """Changes some of what is kept, in the file and in Python's copy: texts, and the numbers that requests drew."""
    m, r = books.m, books.r
    with contextlib.closing(sqlite3.connect(path)) as file, file:
        for key in r.sample(sorted(m.kept), len(m.kept) // 5):
            m.kept[key].command = changed_text(books)
            file.execute("update kept set command = ? where word = ?", (m.kept[key].command, key))
        for key in r.sample(sorted(m.kept), len(m.kept) // 20):
            ids = r.sample(sorted(m.items), r.randint(0, 3)) + r.choice([[], [m.next + 5], [2**64 - 1]])
            m.kept[key].answer = {"entries": 1, "ids": ids}
            file.execute("update kept set answer = ? where word = ?", (answer_line(m.kept[key].answer), key))


def try_made_up(program, top, count, seed, journal, share):
    """Made-up books: answers, what is kept, and lists; and lists of the file once what is kept was changed in it."""
    books, path = Books(seed, count, journal, share), os.path.join(top, f"made-{seed}.db")
    answers, _ = run_lines(program, path, books.lines, *["--journal"] * journal)
    other = next((it for it in zip(books.lines, answers, books.wanted) if it[1] != it[2]), None)
    expect(other is None and len(answers) == count, f"of made-up books {seed}: {other}, {len(answers)} answers")
    kept = run(program, "export", "--db", path, "kept").stdout
    expect(list(csv.reader(io.StringIO(kept, newline=""))) == table(books.m, "kept"), f"of {seed} other keys are kept")
    shown = try_lists(program, path, books)
    if books.m.kept:
        change_kept(path, books)
        shown += try_lists(program, path, books)
    return shown


def try_chain(program, top, pieces):
    """A piece that was cut off a piece, and so on: no list of them ends otherwise than well."""
    path, begin = os.path.join(top, "chain.db"), f'{{"day":"{DAY}","do":'
    lines = [f'{begin}"add_location","name":"A"}}', f'{begin}"add_part","name":"P","flags":["component"]}}',
             f'{begin}"found","location":1,"part":2,"quantity":{pieces + 9},"batch":"B"}}',
             *(f'{begin}"split","item":{3 + at},"quantity":{pieces + 8 - at}}}' for at in range(pieces))]
    _, status = run_lines(program, path, [it.encode() for it in lines], "--journal")
    expect(status == 0, f"a chain of pieces ends with {status}")
    first, last = "3", str(3 + pieces)
    for name, root, how, end in ("back", last, "it was cut off this", first), ("forward", first, "cut off it", last):
        rows, _ = rows_shown(program, path, [f"trace-{name}", root])
        is_whole = len(rows) == pieces + 2 and (rows[-1][0], rows[-1][2], rows[-1][9]) == (str(pieces), end, how)
        expect(is_whole, f"trace-{name} of a chain: {len(rows)} rows, the last {rows[-1]}")
    rows, _ = rows_shown(program, path, ["trace-forward", "B"])
    expect(len(rows) == 2 * pieces + 2 and rows[-1][9] == "above", f"of the batch of a chain: {len(rows)} rows")
