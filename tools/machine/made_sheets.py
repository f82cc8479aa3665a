"""Makes up files of comma-separated values of any command: some for no books, with whatever a spreadsheet may have in
them, and some that fit the state of a machine."""
import csv
import io
import json

from machine.lines import FIELDS, FLAGS, ROWS
from machine.made_names import word_of
from machine.made_up import DAMAGE
from machine.sheets import OTHERS, SEPARATORS

NUMBERS = ["1", "5", "007", "0", "9" * 19, "1" * 20, "1.0", "-1", " 5", "5 ", "1,000", "1e3", "\uff11", "x"]
JSON = [
    '["A"]', '["A","B"]', '[ "A" , "B" ]', '{"key":"k"}', '{"serial":"S1","part":"Bolt"}', '{"a":1,"a":2}', "[1,2]",
    "[-1]", "[-0]", "[0]", "[1.5]", "[1e2]", "[1E400]", "[18446744073709551615]", "[18446744073709551616]",
    "[-9223372036854775808]", "[-9223372036854775809]", "[01]", "[", "[]", "{}", "[1]x", ' ["A"]', '["A"] ', "[1]\n",
    '["\\u00e9"]', '["\\ud800"]', '["\\ud83d\\udd29"]', '["\\/\\b\\u001f"]', '["a\nb"]', '{"\u00e9":1,"z":2,"a":[]}',
    "[null,true]", "[nul]", "[NaN]", "[" * 127 + "]" * 127, "[" * 128 + "]" * 128]
TEXTS = [
    "A", "Bolt", "Bolt 1", " Bolt", '"quoted"', 'a"b', "a,b", "a;b", "a\tb", "a\nb", "a\r\nb", "\u00e9", "\u6f22",
    "\U0001f529", "\\", "/", "\x7f", "\x00", "\x1f", "\u2028", "x" * 201, "=1+1", "null", "'"]
VALUES = {
    "number": NUMBERS,
    "row": NUMBERS + JSON + TEXTS,
    "rows": JSON + NUMBERS[:3] + TEXTS[:3],
    "yes": ["yes", "no", "true", "false", "TRUE", "Yes", "1", " yes", "x"],
    "flags": [
        "component", "component, trackable", "assembly;salable", "component component", " ", ",;", "a\tb", "x\ny"],
    "serials": ["1-3", "M1,M2", "M1", "a b", "1-", ","],
    "status": ["OK", "ok", "Lost", ""],
    "side": ["sale", "purchase", "x"]}
DAYS = ["2030-01-03", "2030-02-30", "3.1.2030", "x"]
KEYS = ["k", "PO-1", "a b", "\u00e9", "x" * 81]
HEADS = ["Part", "Qty", "name ", "Name", "#", "", "notes", "\u00e9", 'a"b', "a,b", "a;b"]


def spelled(r, header, rows, separator=None):
    """A file of these rows, as one of many programs writes it."""
    text = io.StringIO()
    quoting = r.choice([csv.QUOTE_MINIMAL, csv.QUOTE_MINIMAL, csv.QUOTE_ALL])
    how = {"lineterminator": r.choice(["\n", "\r\n", "\r"]), "quoting": quoting}
    csv.writer(text, delimiter=separator or r.choice(SEPARATORS), **how).writerows([header, *rows])
    return r.choice([b"", b"", b"\xef\xbb\xbf"]) + text.getvalue().encode()


def cell(r, kind):
    if kind == "text" or r.random() < 0.05:
        return r.choice(TEXTS)
    return r.choice(VALUES[kind])


def saying(r, kind):
    """What may be said of a member."""
    return ("column", r.choice(HEADS)) if r.random() < 0.6 else ("set", r.choice(["", cell(r, kind)]).replace("\0", ""))


def any_file(r, do):
    """What is said of its members, and a file of the command, with whatever may stand in it."""
    kinds = {name: kind for name, kind, _ in FIELDS[do]}
    lacking = [name for name, kind, is_optional in FIELDS[do] if is_optional or kind in ("yes", "flags")]
    kinds.update({"number": "number", "key": "key", "day": "day"})
    said = {name: saying(r, "text" if name in OTHERS else kinds[name]) for name in kinds if r.random() < 0.12}
    may_lack = {name for name in (*lacking, *OTHERS) if name not in said}
    left_out = {name for name in kinds if r.random() < (0.5 if name in may_lack else 0.01)}
    heads = {said.get(name, ("column", name))[1] if said.get(name, "c")[0] == "column" else name: name
             for name in kinds if name not in left_out and (said.get(name, "c")[0] != "set" or r.random() < 0.3)}
    columns = [*heads, *(r.choice(HEADS) for _ in range(r.choice([0, 0, 1, 2])))]
    if r.random() < 0.03:
        columns.append(r.choice(columns or ["x"]))
    r.shuffle(columns)
    rows = [[row_cell(r, kinds.get(heads.get(name))) for name in columns] for _ in range(r.choice([0, 1, 3, 12]))]
    for row in rows:
        if r.random() < 0.1:
            row[:] = row[:r.randint(0, len(row))] if r.random() < 0.9 else [*row, ""]
        elif r.random() < 0.05:
            row[:] = [""] * len(row)
    return said, damaged(r, spelled(r, columns, rows))


def row_cell(r, kind):
    """What may stand in a row, in a column of that kind or in one that nothing is read from."""
    if r.random() < 0.15:
        return ""
    return r.choice({"key": KEYS, "day": DAYS, None: TEXTS}.get(kind) or [cell(r, kind)])


def damaged(r, held):
    held = bytearray(held)
    for _ in range(r.choice([0, 0, 0, 1, 2])):
        at = r.randint(0, len(held))
        held[at:at + r.choice([0, 0, 1])] = r.choice(DAMAGE)
    return bytes(held)


def word_in(held):
    """A member of a line as its cell has it."""
    if isinstance(held, bool):
        return "yes" if held else ""
    if isinstance(held, list) and all(type(it) is str and it in FLAGS for it in held):
        return " ".join(held)
    return "" if held is None else held if isinstance(held, str) else json.dumps(held, ensure_ascii=False)


def fitting_file(r, maker, caller, do):
    """What is said, and a file of requests of the command that fit the state, each by itself."""
    names = [name for name, _, _ in FIELDS[do]]
    rows = []
    for number in range(1, r.choice([2, 4, 8, 16])):
        made = maker.fields(do)
        for name, table in ROWS[do].items():
            if r.random() < 0.5 and made.get(name) is not None:
                made[name] = called(caller, table, made[name])
        rows.append([number, *(word_in(made[name]) for name in names)])
    said, header = {}, ["number", *names]
    if r.random() < 0.3:
        column = r.randrange(1, len(header))
        said[header[column]], header[column] = ("column", "Column"), "Column"
    if r.random() < 0.5:
        header, rows = header[1:], [row[1:] for row in rows]
    if r.random() < 0.1 and rows:
        rows.append(rows[0])
    held = spelled(r, header, rows)
    return said, damaged(r, held) if r.random() < 0.1 else held


def called(caller, table, held):
    if isinstance(held, list):
        return [called(caller, table, it) for it in held]
    said = caller.call(table, held, wild=0.005)
    return said if isinstance(said, (int, str, list, dict)) else word_of(said)
