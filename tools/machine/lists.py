"""The lists that `show` prints: a line with the names of the columns, then the rows."""
from machine.checks import BUILD_STATES
from machine.lines import FLAGS
from machine.recall import Recall
from machine.reports import LINE_FLAGS, ledger, place_text, shortage, where_used

ALLOCATABLE = "OK Attention Damaged Returned".split()
STATE_WORDS = {"Pending": "pending", "In progress": "in progress", "Complete": "complete", "Cancelled": "cancelled"}
BUILD_WORDS = dict(zip(BUILD_STATES, ["pending", "in production", "on hold", "cancelled", "complete"]))


def way(rows, number):
    """The names from the top down to a row."""
    names = []
    while number is not None:
        names.insert(0, rows[number].name)
        number = rows[number].parent
    return " / ".join(names)


def is_under(rows, top, number):
    while number is not None and number != top:
        number = rows[number].parent
    return number == top


def allocated(m, item):
    return sum(it.quantity for it in m.allocations.values() if it.item == item)


def free(m, item):
    it = m.items[item]
    return it.quantity - allocated(m, item) if it.place[0] == "at" and it.status in ALLOCATABLE else 0


def items_of(m, part):
    return [n for n, it in sorted(m.items.items()) if it.part == part and it.place[0] != "gone"]


def free_of_part(m, part):
    return sum(free(m, n) for n in items_of(m, part))


def lies(m, part):
    """The ways of the locations at which items of the part lie, by themselves or in others, each once."""
    places = [m.items[m.root(n)].place for n, it in sorted(m.items.items()) if it.part == part]
    return "; ".join(way(m.locations, it) for it in dict.fromkeys(it[1] for it in places if it[0] == "at"))


def stock(m, low=None):
    yield "number name category present free allocated items where".split()
    for n, it in sorted(m.parts.items()):
        items = items_of(m, n)
        present = sum(m.items[i].quantity for i in items if m.place_of_root(i) == "at")
        if low is None or free_of_part(m, n) < low:
            meant = sum(allocated(m, i) for i in items)
            row = n, it.name, way(m.categories, it.category), present, free_of_part(m, n), meant, len(items)
            yield *row, lies(m, n)


def loose(m, top=None):
    """The items that lie at the location or below it, or anywhere."""
    for n, it in sorted(m.items.items()):
        if it.place[0] == "at" and (top is None or is_under(m.locations, top, it.place[1])):
            yield n, it


def at(m, location):
    yield "way depth item part name quantity free batch serial status".split()
    for n, it in loose(m, location):
        yield placed(m, n, 1, way(m.locations, it.place[1]))
        yield from inside(m, n, 2)


def inside(m, item, depth):
    for child in m.children(item):
        yield placed(m, child, depth, "")
        yield from inside(m, child, depth + 1)


def placed(m, n, depth, there):
    it = m.items[n]
    name = "  " * (depth - 1) + m.parts[it.part].name
    return there, depth, n, it.part, name, it.quantity, free(m, n), it.batch, it.serial, it.status


def orders(m, only_open=False):
    yield "order side state partner line part name wanted done allocated outstanding key day last".split()
    recall = Recall(m)
    for n, it in sorted(m.orders.items()):
        is_open = it.state in ("Pending", "In progress")
        head, made = (n, it.side, STATE_WORDS[it.state], it.partner), recall.origin(n)
        tail = made.key, made.day, recall.last_of_order(n)
        lines = [(line, of) for line, of in sorted(m.order_lines.items()) if of.order == n]
        if only_open and not is_open:
            continue
        if not lines:
            yield *head, *[""] * 7, *tail
        for line, of in lines:
            meant = sum(a.quantity for a in m.allocations.values() if a.side == "order" and a.line == line)
            left = of.quantity - of.done if is_open else 0
            yield *head, line, of.part, m.parts[of.part].name, of.quantity, of.done, meant, left, *tail


def builds(m, only_open=False):
    yield [*"build part name state wanted done line component".split(), "component name",
           *"required allocated missing free key day last".split()]
    recall = Recall(m)
    for n, it in sorted(m.builds.items()):
        if only_open and it.state not in BUILD_STATES[:3]:
            continue
        head = n, it.part, m.parts[it.part].name, BUILD_WORDS[it.state], it.quantity, it.done
        tail = recall.origin(n).key, recall.origin(n).day, recall.last_of_build(n)
        wants = list(shortage(m, n))
        if not wants:
            yield *head, *[""] * 7, *tail
        for line, name, required, meant, missing in wants:
            component = m.lines[line].component
            yield *head, line, component, name, required, meant, max(missing, 0), free_of_part(m, component), *tail


def shortages(m):
    yield "part name required allocated missing free buy".split()
    wanted = {}
    for build in sorted(m.builds):
        for line, _, required, meant, missing in shortage(m, build):
            sums = wanted.setdefault(m.lines[line].component, [0, 0, 0])
            for i, amount in enumerate((required, meant, max(missing, 0))):
                sums[i] += amount
    for n in sorted(wanted):
        if wanted[n][2] > 0:
            left = free_of_part(m, n)
            yield n, m.parts[n].name, *wanted[n], left, max(wanted[n][2] - left, 0)


def folded(text):
    """The text with letters of either case alike: each character by its simple case folding."""
    return "".join(next(it for it in (c.casefold(), c.lower(), c) if len(it) == 1) for c in text)


def find(m, word):
    yield "kind number name where".split()
    word = folded(word)
    for n, it in sorted(m.parts.items()):
        if word in folded(it.name):
            yield "part", n, it.name, way(m.categories, it.category)
    for n, it in sorted(m.locations.items()):
        if word in folded(it.name):
            yield "location", n, it.name, way(m.locations, n)
    for n, it in sorted(m.items.items()):
        if it.serial is not None and folded(it.serial).startswith(word) or word == (it.batch and folded(it.batch)):
            yield "item", n, m.parts[it.part].name, where(m, it.place)
    for key, it in sorted(m.kept.items(), key=lambda kept: kept[0].encode()):
        if word in folded(key):
            yield "key", it.answer["ids"][0] if it.answer["ids"] else "", key, ""


def count_sheet(m, top=None):
    yield "number item part way batch serial expected quantity".split()
    for row, (n, it) in enumerate(loose(m, top), 1):
        yield row, n, m.parts[it.part].name, way(m.locations, it.place[1]), it.batch, it.serial, it.quantity, ""


def receipt_sheet(m, order=None):
    yield "number line order partner part outstanding location quantity batch serials".split()
    awaited = [(n, it) for n, it in sorted(m.order_lines.items()) if order in (None, it.order) and it.done < it.quantity]
    awaited = [(n, it, m.orders[it.order]) for n, it in awaited]
    awaited = [row for row in awaited if (row[2].side, row[2].state) == ("purchase", "In progress")]
    for row, (n, it, of) in enumerate(awaited, 1):
        yield row, n, it.order, of.partner, m.parts[it.part].name, it.quantity - it.done, *[""] * 4


def in_words(m, place):
    """A place with the names of what it names."""
    if place[0] == "in":
        it = m.items[place[1]]
        return f"in {place[1]} {m.parts[it.part].name}" + (f" {it.serial}" if it.serial else "")
    if place[0] in ("output", "used"):
        return f"{place[0]} {place[1]} of {m.parts[m.builds[place[1]].part].name}"
    return f"sent {place[1]} to {m.orders[place[1]].partner}" if place[0] == "sent" else where(m, place)


def history(m, of=None, first="", last="9"):
    """The entries of these days, all or those of a part, an item or an order."""
    yield [*"entry day what quantity part item batch serial where order partner".split(), "order key", "key"]
    recall = Recall(m)
    for it in m.history:
        origin = recall.origin(it.item)
        order = it.place[1] if it.kind == "shipped" and it.place[0] == "sent" else None
        if it.kind == "received" and origin.kind == "received":
            order = recall.order_of(origin.number)
        if first <= it.day <= last and of in (None, it.part, it.item, order):
            x = m.items[it.item]
            row = it.n, it.day, it.kind, it.quantity, m.parts[it.part].name, it.item, x.batch, x.serial
            by = ("", "", "") if order is None else (order, m.orders[order].partner, recall.origin(order).key)
            yield *row, in_words(m, it.place), *by, origin.key


def where(m, place):
    return way(m.locations, place[1]) if place[0] == "at" else place_text(place)


def item(m, number):
    yield "kind number part name quantity batch serial status where day key".split()
    yield pieces(m, "item", number, 1)
    for n, depth in nested(m, number, 2):
        yield pieces(m, "inside", n, depth)
    recall = Recall(m)
    if number in recall.origins:
        made = recall.origin(number)
        order = recall.order_of(made.number) if made.kind == "received" else None
        there = "" if order is None else f"order {order} from {m.orders[order].partner}"
        yield "made", made.number, "", made.verb, *[""] * 4, there, made.day, made.key
    for it in m.history:
        if it.item == number:
            yield "history", it.n, "", it.kind, it.quantity, "", "", "", where(m, it.place), it.day, ""


def nested(m, number, depth):
    for child in m.children(number):
        yield child, depth
        yield from nested(m, child, depth + 1)


def pieces(m, heading, n, depth):
    it = m.items[n]
    name = "  " * (depth - 1) + m.parts[it.part].name
    return heading, n, it.part, name, it.quantity, it.batch, it.serial, it.status, where(m, it.place), "", ""


def part(m, number):
    it = m.parts[number]
    yield "kind number part name quantity more batch serial key".split()
    words = [flag for flag in FLAGS if flag in it.flags] + ["retired"] * it.retired
    yield "part", number, "", it.name, "", " ".join(words), "", "", ""
    _, *sums = ledger(m, number)
    sums = dict(sums)
    came = " + ".join(f"{name} {sums[name]}" for name in ("received", "found", "built", "returned"))
    went = " + ".join(f"{name} {sums[name]}" for name in ("present", "consumed", "shipped"))
    yield "sums", "", "", "", sums["present"], f"{came} = {went} + written off {sums['written']}", "", "", ""
    for row in bill(m, number, 1):
        yield *row, "", "", ""
    for n, name in where_used(m, number):
        yield "used in", n, "", name, "", "", "", "", ""
    recall = Recall(m)
    for n in items_of(m, number):
        it = m.items[n]
        yield "item", n, "", it.status, it.quantity, where(m, it.place), it.batch, it.serial, recall.origin(n).key


def bill(m, number, depth):
    """The bill of a part, with those of its components, 16 levels deep."""
    for n in m.effective(number) if depth <= 16 else ():
        line = m.lines[n]
        words = [name for name in LINE_FLAGS if line[name]]
        name = "  " * (depth - 1) + m.parts[line.component].name
        yield "line", n, line.component, name, line.quantity, " ".join(words)
        for other, it in sorted(m.substitutes.items()):
            if it.line == n:
                yield "substitute", other, it.part, "  " * (depth - 1) + m.parts[it.part].name, "", ""
        yield from bill(m, line.component, depth + 1)


def texts(rows):
    return [["" if it is None else str(it) for it in row] for row in rows]


def columns(rows):
    """The rows in columns, each as wide as its widest field and two more."""
    widths = {}
    for row in rows:
        for i, it in enumerate(row):
            widths[i] = max(widths.get(i, 0), len(it))
    padded = ([it.ljust(widths[i] + 2) for i, it in enumerate(row[:-1])] + row[-1:] for row in rows)
    return "".join("".join(row) + "\n" for row in padded)
