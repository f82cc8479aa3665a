"""How a line is read: its command with the fields, its report, or its first fault."""
import datetime
import json
import re

STATUSES = "OK Attention Damaged Destroyed Rejected Lost Quarantined Returned".split()
SIDES = "purchase sale".split()
FLAGS = "template assembly component trackable purchaseable salable virtual".split()

# A command's fields in order, each with its kind: a number is a quantity, and a row stands in one of the tables below.
COMMANDS = {
    "add_category": "name:text parent:row?",
    "add_location": "name:text parent:row?",
    "add_part": "name:text category:row? template:row? flags:flags",
    "retire_part": "part:row",
    "add_line": "assembly:row component:row quantity:number optional:yes consumable:yes inherited:yes variants:yes",
    "drop_line": "line:row",
    "add_substitute": "line:row part:row",
    "drop_substitute": "substitute:row",
    "found": "part:row location:row quantity:number batch:text? serials:serials?",
    "add": "item:row quantity:number",
    "remove": "item:row quantity:number",
    "count": "item:row quantity:number",
    "transfer": "item:row location:row quantity:number",
    "split": "item:row quantity:number",
    "merge": "into:row items:rows",
    "serialise": "item:row quantity:number serials:serials",
    "set_status": "item:row status:status",
    "install": "item:row parent:row quantity:number",
    "uninstall": "item:row location:row",
    "disassemble": "item:row location:row",
    "reinstate": "item:row location:row",
    "order": "side:side partner:text",
    "order_line": "order:row part:row quantity:number",
    "issue_order": "order:row",
    "receive": "line:row location:row quantity:number batch:text? serials:serials?",
    "allocate_sale": "line:row item:row quantity:number",
    "ship": "order:row",
    "return_item": "item:row location:row",
    "close_order": "order:row",
    "cancel_order": "order:row",
    "build": "part:row quantity:number",
    "issue_build": "build:row",
    "hold_build": "build:row",
    "cancel_build": "build:row",
    "outputs": "build:row quantity:number batch:text? serials:serials?",
    "complete_output": "output:row location:row",
    "cancel_output": "output:row",
    "scrap_output": "output:row",
    "allocate_build": "build:row line:row item:row quantity:number output:row?",
    "auto_allocate": "build:row substitutes:yes optional:yes",
    "release": "allocation:row",
    "complete_build": "build:row",
    "consume": "allocation:row",
}
# Each field as its name, its kind, and whether it may be left out.
FIELDS = {do: [(*it.rstrip("?").split(":"), it.endswith("?")) for it in said.split()] for do, said in COMMANDS.items()}
# The table that has the rows of a field. (A parent is an item where nothing else is said, a line a bill's.)
TABLES = {
    "category": "categories", "template": "parts", "part": "parts", "assembly": "parts", "component": "parts",
    "location": "locations", "item": "items", "into": "items", "items": "items", "output": "items", "parent": "items",
    "line": "lines", "substitute": "substitutes", "order": "orders", "build": "builds", "allocation": "allocations"}
OTHER_TABLES = {
    ("add_category", "parent"): "categories", ("add_location", "parent"): "locations",
    ("receive", "line"): "order_lines", ("allocate_sale", "line"): "order_lines"}
# Each command's fields that say rows, with the table of each.
ROWS = {
    do: {name: OTHER_TABLES.get((do, name)) or TABLES[name] for name, kind, _ in fields if kind in ("row", "rows")}
    for do, fields in FIELDS.items()}
# Each report with the table that has what it is of.
REPORTS = {
    "ledger": "parts", "stock": "parts", "where_used": "parts", "history": "items", "content": "items",
    "shortage": "builds"}


class Row(dict):
    """A record whose fields are read and written as attributes."""

    def __getattr__(self, name):
        try:
            return self[name]
        except KeyError:
            raise AttributeError(name) from None

    __setattr__ = dict.__setitem__


class Fault(Exception):
    """Why a line isn't read, and where a name is not one row's, which field has it."""

    def __init__(self, what, named_in=None):
        super().__init__(what)
        self.named_in = named_in

    def answer(self, line):
        told = {"field": self.named_in} if self.named_in else {}
        return {"fault": str(self), **told, "line": line}


class Whole(int):
    """A JSON number that is spelled with digits alone."""


def number_of(said):
    """A number that is spelled without fraction and exponent: whole where it has no sign and fits 64 bits."""
    if said.startswith("-") or int(said) >= 2**64:
        return float(said)
    return Whole(said)


def real_of(said):
    if float(said) in (float("inf"), float("-inf")):
        raise Fault("NotJson")
    return float(said)


def never(said):
    raise Fault("NotJson")


def json_of(line):
    """What a line holds as JSON: no lone surrogates, no number beyond a float, at most 127 levels."""
    try:
        held = json.loads(line.decode("utf-8"), parse_int=number_of, parse_float=real_of, parse_constant=never)
        for text in texts_in(held, 127):
            text.encode()
    except (ValueError, RecursionError):
        raise Fault("NotJson") from None
    return held


def texts_in(held, levels):
    """Every text in a JSON value; ValueError where it has more levels."""
    if isinstance(held, str):
        yield held
    elif isinstance(held, (list, dict)):
        if not levels:
            raise ValueError
        for it in held:
            yield from texts_in(it, levels - 1)
            if isinstance(held, dict):
                yield from texts_in(held[it], levels - 1)


def is_text(held):
    return 1 <= len(held.encode()) <= 200 and not any(ord(it) < 0x20 or ord(it) == 0x7F for it in held)


def is_day(held):
    if not re.fullmatch(r"\d{4}-\d\d-\d\d", held, re.ASCII):
        return False
    try:
        return 2000 <= datetime.date.fromisoformat(held).year <= 2099
    except ValueError:
        return False


def serials_of(text):
    found = []
    for part in text.split(","):
        if not part:
            raise Fault("Empty")
        if not re.fullmatch(r"[A-Za-z0-9._/-]+", part, re.ASCII):
            raise Fault("BadChar")
        span = re.fullmatch(r"(0|[1-9]\d{0,17})-(0|[1-9]\d{0,17})", part, re.ASCII)
        if span:
            first, last = int(span[1]), int(span[2])
            if last <= first:
                raise Fault("Falling")
            if last - first + 1 > 1000:
                raise Fault("TooMany")
            found += [str(it) for it in range(first, last + 1)]
        else:
            if len(part) > 24:
                raise Fault("TooLong")
            found.append(part)
        if len(found) > 1000:
            raise Fault("TooMany")
    return found


def is_of_type(kind, held):
    if kind in ("row", "number", "yes"):
        return type(held) is (bool if kind == "yes" else Whole)
    if kind in ("rows", "flags"):
        return type(held) is list and all(type(it) is {"rows": Whole, "flags": str}[kind] for it in held)
    return type(held) is str


def serials_or_fault(text):
    try:
        return tuple(serials_of(text))
    except Fault:
        raise Fault("BadSerials") from None


def content_fault(kind, held):
    """What is wrong with the content of a member that is of its type, or None."""
    is_bad, fault = {
        "text": lambda: (not is_text(held), "BadText"),
        "serial": lambda: (not re.fullmatch(r"[A-Za-z0-9._/-]{1,24}", held, re.ASCII), "BadSerials"),
        "key": lambda: (not re.fullmatch(r"[\x21-\x7e]{1,80}", held), "BadKey"),
        "day": lambda: (not is_day(held), "BadDay"),
        "flags": lambda: (len(set(held)) < len(held) or set(held) - set(FLAGS), "BadWord"),
        "status": lambda: (held not in STATUSES, "BadWord"),
        "side": lambda: (held not in SIDES, "BadWord"),
        "report": lambda: (held not in REPORTS, "BadWord"),
    }.get(kind, lambda: (False, None))()
    return fault if is_bad else None


def field(kind, is_optional, members, name, row=None):
    """A member of a line, as its kind is read; each row in it by that function, where there is one."""
    held = members.get(name)
    if name not in members and kind == "yes":
        return False
    if held is None and is_optional:
        return None
    if name not in members:
        raise Fault("NoField")
    if row and kind == "row":
        return row(held)
    if row and kind == "rows" and type(held) is list:
        return [row(it) for it in held]
    if not is_of_type(kind, held):
        raise Fault("WrongType")
    fault = content_fault(kind, held)
    if fault:
        raise Fault(fault)
    made = {"row": int, "number": int, "rows": lambda it: [int(n) for n in it], "flags": frozenset,
            "serials": serials_or_fault}
    return made.get(kind, lambda it: it)(held)


def wish_of(line, names=None):
    """A line's request as (do, fields, day, key), or its report as (None, number, name). With names a row may be said
    by what it is called."""
    def rows_in(table, name):
        return names and table and (lambda held: names.row(table, held, name))

    if len(line) > 65_536:
        raise Fault("TooLong")
    held = json_of(line)
    if type(held) is not dict:
        raise Fault("NotObject")
    if "do" not in held and "report" in held:
        if set(held) - {"of", "report"}:
            raise Fault("UnknownField")
        # Where there is no such report, nobody knows what it is of.
        table = REPORTS.get(held["report"]) if type(held["report"]) is str else None
        return None, field("row", False, held, "of", rows_in(table, "of")), field("report", False, held, "report")
    do = field("word", False, held, "do")
    if do not in FIELDS:
        raise Fault("UnknownCommand")
    if set(held) - {"do", "key", "day"} - {it[0] for it in FIELDS[do]}:
        raise Fault("UnknownField")
    key = field("key", False, held, "key") if "key" in held else None
    day = field("day", False, held, "day")
    fields = Row({name: field(kind, is_optional, held, name, rows_in(ROWS[do].get(name), name))
                  for name, kind, is_optional in FIELDS[do]})
    return do, fields, day, key
