"""How a delivery or a stocktake is read from comma-separated values, and what an import tells."""
import csv
import io
import itertools
import re

from machine.checks import Refused
from machine.lines import ROWS, Fault, Row, is_text, serials_or_fault
from machine.names import Names, said
from machine.reports import answer_line

HEADERS = {"receipts": "number line location quantity batch serials".split(), "counts": "number item quantity".split()}
COMMAND_OF = {"receipts": "receive", "counts": "count"}
MOST_BYTES = 16_777_216
# What a sheet calls what the books had: of an item how many there were, of a line how many were still to come.
EXPECTED = {"receipts": "outstanding", "counts": "expected"}
# What may stand between two fields of a file that is read loosely, in the order in which they are tried; and the fields
# that need no column there.
SEPARATORS = ",;\t"
MAY_LACK = ("batch", "serials")


class FileFault(Exception):
    """What is wrong with a file, and in which record."""

    def __init__(self, fault, record):
        super().__init__(fault)
        self.answer = fault.answer(record)


def records(held, separator=","):
    """The records of a file, each the bytes of its fields. (Latin 1 takes each byte as it is.)"""
    text = held.removeprefix(b"\xef\xbb\xbf").decode("latin-1")
    for record in csv.reader(io.StringIO(text, newline=""), delimiter=separator):
        if record:
            yield [it.encode("latin-1") for it in record]


def whole(text, form=r"[0-9]{1,19}"):
    if not re.fullmatch(form, text):
        raise Fault("WrongType")
    return int(text)


def field(kind, name, text, names):
    table = ROWS[COMMAND_OF[kind]].get(name)
    if names and table:
        return names.row(table, said(text), name)
    if name == "number":
        return whole(text, r"[1-9][0-9]{0,8}")
    if name in ("batch", "serials") and not text:
        return None
    if name == "batch":
        if not is_text(text):
            raise Fault("BadText")
        return text
    return serials_or_fault(text) if name == "serials" else whole(text)


def texts_of(record, most, least=0):
    """The fields of a record as texts: Csv where one isn't, or where there are more or fewer."""
    try:
        texts = [it.decode() for it in record]
    except UnicodeDecodeError:
        raise Fault("Csv") from None
    if not least <= len(texts) <= most:
        raise Fault("Csv")
    return texts


def row(kind, texts, names):
    return Row((name, field(kind, name, text, names)) for name, text in zip(HEADERS[kind], texts))


def strict_rows(kind, held, names):
    header, *others = list(records(held)) or [None]
    if header != [it.encode() for it in HEADERS[kind]]:
        raise FileFault(Fault("Header"), 1)
    for at, record in enumerate(others, 2):
        try:
            yield row(kind, texts_of(record, len(header), len(header)), names)
        except Fault as fault:
            raise FileFault(fault, at) from None


def places_in(kind, record):
    """Where each field of a row stands, None where it has no column; nothing where the record isn't such a header."""
    try:
        header = texts_of(record, len(record))
    except Fault:
        return None
    found = [[at for at, it in enumerate(header) if it == name] for name in HEADERS[kind]]
    if all(len(at) == 1 or not at and name in MAY_LACK for name, at in zip(HEADERS[kind], found)):
        return [at[0] if at else None for at in found]
    return None


def booked(m, kind, found):
    """What the books have now of what a row is of, or None where it isn't there."""
    if kind == "counts":
        return m.items[found["item"]].quantity if found["item"] in m.items else None
    line = m.order_lines.get(found["line"])
    return line and line.quantity - line.done


def loose_rows(kind, held, names, still=None):
    """The rows by the columns that the header names. In quotes that are open a line end more is a part of the field. With
    `still` it is asked of each row whether the books have what the text says that they had."""
    for separator in SEPARATORS:
        header, *others = list(records(held, separator)) or [[]]
        places = places_in(kind, header)
        if places:
            break
    else:
        raise FileFault(Fault("Header"), 1)
    is_open = list(records(held + b"\n", separator)) != [header, *others]
    if is_open and not others:
        raise FileFault(Fault("Csv"), 1)
    is_empty = True
    for at, record in enumerate(others, 2):
        try:
            if is_open and at == len(others) + 1:
                raise Fault("Csv")
            texts = texts_of(record, len(header))
            expected = next((it for name, it in zip(header, texts) if name.decode() == EXPECTED[kind]), "")
            texts = ["" if it is None or it >= len(texts) else texts[it] for it in places]
            if texts[HEADERS[kind].index("quantity")]:
                is_empty = False
                found = row(kind, texts, names)
                if still and expected and not still(found, expected):
                    raise Fault("Changed")
                yield found
        except Fault as fault:
            raise FileFault(fault, at) from None
    if is_empty and others and len(others[0]) != len(header):
        if any(len(header) == width_of(held, other) for other in SEPARATORS):
            raise FileFault(Fault("Csv"), 2)


def width_of(held, separator):
    """How many fields the first record under the header has by this separator."""
    try:
        _, first, *_ = (texts_of(it, len(it)) for it in itertools.islice(records(held, separator), 2))
    except (Fault, ValueError):
        return None
    return len(first)


def rows(kind, held, names=None, loose=False, still=None):
    """The rows of a file, each its fields by name. With names a row of the books may be said by what it is called."""
    if len(held) > MOST_BYTES:
        raise FileFault(Fault("TooLong"), 0)
    yield from loose_rows(kind, held, names, still) if loose else strict_rows(kind, held, names)


def is_booked(m, kind, document, found, expected):
    """Whether the books have that number of what a row is of. Of a row that was done before it isn't asked."""
    number = None if f"{kind}/{document}/{found['number']}" in m.kept else booked(m, kind, found)
    return number is None or re.fullmatch(r"[0-9]{1,19}", expected) and int(expected) == number


def imported(m, kind, document, day, held, with_names=False, unchanged=False):
    """What the import of a file prints, and its status. Names are looked up before anything is run. One that is read
    loosely may be asked whether the books are unchanged."""
    still = (lambda found, expected: is_booked(m, kind, document, found, expected)) if unchanged else None
    try:
        found = list(rows(kind, held, Names(m) if with_names else None, unchanged, still))
    except FileFault as fault:
        return answer_line(fault.answer) + "\n", 1
    told, status = "", 0
    for it in found:
        fields = Row((name, value) for name, value in it.items() if name != "number")
        try:
            answer = m.run(COMMAND_OF[kind], fields, day, f"{kind}/{document}/{it.number}")
        except Refused as refusal:
            answer, status = {"refused": str(refusal)}, 1
        told += f"{it.number}\t{answer_line(answer)}\n"
    return told, status
