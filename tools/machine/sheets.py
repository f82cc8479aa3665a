"""How a file of comma-separated values of any command is a text of lines, and what its import tells.

What is said of a member of a line is its column's name, as ("column", name), or its text, as ("set", text)."""
import csv
import json
import re
import sys

from machine.imports import MOST_BYTES, FileFault, records
from machine.lines import FIELDS, Fault, texts_in, wish_of
from machine.names import Ahead
from machine.reports import answer, answer_line

SEPARATORS = ",;\t"
# As long as a line may be.
MOST_JSON = 65_536
# The members of a line that are no fields of its command, and may have a column.
OTHERS = ("number", "key", "day")
# Commands whose files are other kinds: deliveries and stocktakes.
OTHER_KINDS = ("receive", "count")

csv.field_size_limit(sys.maxsize)


class NoLayout(Exception):
    """The first record doesn't name the columns that it has to."""


def ends_within_quotes(held, separator):
    """Whether what came behind the file would still be of its last record."""
    count = sum(1 for _ in records(held, separator))
    return count > 0 and sum(1 for _ in records(held + b"\n.", separator)) == count


def texts_of(record):
    try:
        return [it.decode() for it in record]
    except UnicodeDecodeError:
        raise Fault("Csv") from None


def place(member, may_lack, said, header):
    """The number of a member's column, or its text in each record, or None where it has neither."""
    how, what = said.get(member, ("column", member))
    name = what if how == "column" else member
    columns = [at for at, it in enumerate(header) if it == name]
    if len(columns) > 1 or not columns and how == "column" and (member in said or not may_lack):
        raise NoLayout
    return what if how == "set" else columns[0] if columns else None


def layout(do, said, header):
    """Where each member of a line stands."""
    places = {name: place(name, is_optional or kind in ("yes", "flags"), said, header)
              for name, kind, is_optional in FIELDS[do]}
    if not any(type(it) is int for it in places.values()):
        raise NoLayout
    return {**places, **{name: place(name, True, said, header) for name in OTHERS}}


def laid_out(do, said, held):
    """The separator of a file, and where each member stands."""
    for separator in SEPARATORS:
        try:
            return separator, layout(do, said, texts_of(next(records(held, separator))))
        except (NoLayout, Fault, StopIteration):
            pass
    raise FileFault(Fault("Header"), 1)


def whole(spelled):
    """A number without fraction and exponent. One that fits no 64 bits is read as if it had them, and so is -0."""
    if spelled == "-0" or not -(2**63) <= int(spelled) < 2**64:
        raise ValueError
    return int(spelled)


def refuse(spelled):
    raise ValueError


def json_or_text(text):
    if not text.startswith(("[", "{")) or len(text.encode()) > MOST_JSON:
        return text
    try:
        held = json.loads(text, parse_int=whole, parse_float=refuse, parse_constant=refuse)
        for it in texts_in(held, 127):
            it.encode()
        return held
    except (ValueError, RecursionError):
        return text


def value(kind, text):
    """What a cell says, by the kind of its field. Whatever is wrong with it is the line's fault."""
    if kind in ("number", "row") and re.fullmatch(r"[0-9]{1,19}", text):
        return int(text)
    if kind in ("row", "rows"):
        return json_or_text(text)
    if kind == "yes":
        return {"yes": True, "true": True, "no": False, "false": False}.get(text, text)
    return re.findall(r"[^ ,;]+", text) if kind == "flags" else text


def line_of(do, places, document, day, at, record):
    """The line that a record is; an empty one where nothing is filled in."""
    def cell(name):
        where = places[name]
        return where or "" if type(where) is not int else record[where] if where < len(record) else ""

    if not any(type(where) is int and cell(name) for name, where in places.items() if name != "number"):
        return ""
    key = cell("key") or f"{do}/{document}/{cell('number') or f'@{at}'}"
    members = {"do": do, "day": cell("day") or day, "key": key}
    members.update({name: value(kind, cell(name)) for name, kind, _ in FIELDS[do] if cell(name) or kind == "flags"})
    return json.dumps(members, ensure_ascii=False, sort_keys=True, separators=(",", ":"))


def lines_of(do, said, document, day, held):
    """The lines of a file: line n is record n, an empty one for the header."""
    if len(held) > MOST_BYTES:
        raise FileFault(Fault("TooLong"), 0)
    separator, places = laid_out(do, said, held)
    found, is_open = list(records(held, separator)), ends_within_quotes(held, separator)
    for at, record in enumerate(found, 1):
        if len(record) > len(found[0]) or is_open and at == len(found):
            raise FileFault(Fault("Csv"), at)
        try:
            texts = texts_of(record)
        except Fault as fault:
            raise FileFault(fault, at) from None
        yield line_of(do, places, document, day, at, texts) if at > 1 else ""


def sheet_text(do, said, document, day, held):
    """The text of a file, as bytes."""
    return "".join(line + "\n" for line in lines_of(do, said, document, day, held)).encode()


def printed(do, said, document, day, held):
    """What the word `lines` prints of a file, and the status."""
    try:
        return sheet_text(do, said, document, day, held), 0
    except FileFault as fault:
        return answer_line(fault.answer).encode() + b"\n", 1


def faults_of(lines):
    """The faults of lines that show before any is run."""
    for at, line in enumerate(lines, 1):
        try:
            if line not in (b"", b"\r"):
                wish_of(line, Ahead())
        except Fault as fault:
            yield fault.answer(at)


def imported(m, text, stop=False):
    """What is told of the lines of a file, and the status: the faults, where some show before any is run."""
    lines = text.split(b"\n")[:-1]
    answers = list(faults_of(lines))
    for at, line in enumerate([] if answers else lines, 1):
        told = answer(m, line, at, with_names=True)
        answers += [] if told is None else [told]
        if stop and told and told.keys() & {"refused", "fault"}:
            break
    is_fine = not any(it.keys() & {"refused", "fault"} for it in answers)
    return "".join(answer_line(it) + "\n" for it in answers), 0 if is_fine else 1
