"""The reports, the tables as exports have them, and the line that answers a line."""
import json

from machine.checks import BUILD_STATES, Refused
from machine.lines import FLAGS, Fault, REPORTS, SIDES, STATUSES, wish_of
from machine.names import Names, said

LINE_FLAGS = "optional consumable inherited variants".split()
PLACES = "at in output sent used off gone".split()
REASONS = "removed counted disassembled scrapped".split()
KINDS = "received found built consumed shipped returned written moved cut poured installed taken_out marked".split()
ORDER_STATES = ["Pending", "In progress", "Complete", "Cancelled"]
HEADERS = {
    "meta": "one version next entries max_numbers max_entries",
    "categories": "id name parent",
    "locations": "id name parent",
    "parts": "id name category template flags retired",
    "lines": "id assembly component quantity flags",
    "substitutes": "id line part",
    "items": "id part batch serial status quantity place ref",
    "history": "n day kind item part quantity place ref",
    "orders": "id side partner state",
    "order_lines": "id owner part quantity done",
    "builds": "id part quantity state done",
    "allocations": "id item quantity side owner line output",
    "kept": "word command answer",
    "spent": "id build line quantity",
}


def place_text(place):
    return "gone" if place[0] == "gone" else f"{place[0]} {place[1]}"


def ledger(m, part):
    yield "ledger", part, m.parts[part].name
    for kind in "received found built returned consumed shipped written".split():
        yield kind, sum(it.quantity for it in m.history if (it.kind, it.part) == (kind, part))
    for name, place in ("present", "at"), ("sent", "sent"), ("used", "used"):
        yield name, sum(it.quantity for n, it in m.items.items() if it.part == part and m.place_of_root(n) == place)


def stock(m, part):
    for n, it in sorted(m.items.items()):
        if it.part == part and it.place[0] != "gone":
            yield n, it.quantity, it.status, place_text(it.place), it.batch, it.serial


def content(m, item, depth=1):
    it = m.items[item]
    yield depth, item, m.parts[it.part].name, it.quantity, it.serial
    for child in m.children(item):
        yield from content(m, child, depth + 1)


def where_used(m, part):
    for n, it in sorted(m.parts.items()):
        if part in m.reached(n):
            yield n, it.name


def shortage(m, build):
    it = m.builds[build]
    if it.state in BUILD_STATES[:3]:
        for n in m.effective(it.part):
            line = m.lines[n]
            if not line.consumable:
                required = line.quantity * (it.quantity - it.done) if m.is_tracked(n) else m.need(build, n)
                allocated = m.for_line("build", build, n)
                yield n, m.parts[line.component].name, required, allocated, required - allocated


def history(m, item):
    for it in m.history:
        if it.item == item:
            yield it.n, it.day, it.kind, it.quantity, place_text(it.place)


def report(m, name, number):
    if number not in getattr(m, REPORTS[name]):
        raise Refused("NoSuch")
    return [["" if it is None else str(it) for it in line] for line in globals()[name](m, number)]


def bits(names, flags):
    return sum(1 << at for at, name in enumerate(names) if name in flags)


def line_bits(line):
    return bits(LINE_FLAGS, [name for name in LINE_FLAGS if line[name]])


def place_of(it):
    return PLACES.index(it.place[0]), REASONS.index(it.place[1]) if it.place[0] == "off" else it.place[1]


def table(m, name):
    """The rows of a table, its header first."""
    if name == "meta":
        rows = [(1, 2, m.next, len(m.history), m.most_numbers, m.most_entries)]
    elif name == "kept":
        rows = [(key, it.command, answer_line(it.answer)) for key, it in sorted(m.kept.items())]
    elif name == "history":
        rows = [(it.n, it.day, KINDS.index(it.kind), it.item, it.part, it.quantity, *place_of(it)) for it in m.history]
    else:
        of = {
            "categories": lambda it: (it.name, it.parent),
            "locations": lambda it: (it.name, it.parent),
            "parts": lambda it: (it.name, it.category, it.template, bits(FLAGS, it.flags), int(it.retired)),
            "lines": lambda it: (it.assembly, it.component, it.quantity, line_bits(it)),
            "substitutes": lambda it: (it.line, it.part),
            "items": lambda it: (it.part, it.batch, it.serial, STATUSES.index(it.status), it.quantity, *place_of(it)),
            "orders": lambda it: (SIDES.index(it.side), it.partner, ORDER_STATES.index(it.state)),
            "order_lines": lambda it: (it.order, it.part, it.quantity, it.done),
            "builds": lambda it: (it.part, it.quantity, BUILD_STATES.index(it.state), it.done),
            "allocations": lambda it: (it.item, it.quantity, int(it.side == "build"), it.owner, it.line, it.output),
            "spent": lambda it: (it.build, it.line, it.quantity),
        }[name]
        rows = [(n, *of(it)) for n, it in sorted(getattr(m, name).items())]
    return [HEADERS[name].split()] + [["" if it is None else str(it) for it in row] for row in rows]


def answer_line(answer):
    """An answer as JSON without spaces."""
    return json.dumps(answer, ensure_ascii=False, sort_keys=True, separators=(",", ":"))


def answer(m, line, at, with_names=False, journal=False):
    """What answers the line at that place, or None where nothing does. With a journal a request has a key in any
    case."""
    if line in (b"", b"\r"):
        return None
    try:
        do, *wish = wish_of(line, Names(m) if with_names else None)
        if do is None:
            return {"report": report(m, *reversed(wish))}
        fields, day, key = wish
        return m.run(do, fields, day, m.journal_key(day) if journal and key is None else key)
    except Fault as fault:
        return fault.answer(at)
    except Refused as refusal:
        return {"refused": str(refusal)}


def printed(m, name, word):
    """What the word `report` prints where names are allowed, whether a fault is told beside it, and the status."""
    try:
        number = Names(m).row(REPORTS[name], said(word), "of")
        return "".join("\t".join(line) + "\n" for line in report(m, name, number)), False, 0
    except Fault:
        return "", True, 1
    except Refused as refusal:
        return answer_line({"refused": str(refusal)}) + "\n", False, 1
