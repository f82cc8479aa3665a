"""What the kept answers say of the rows that their requests made, and what the history says of the lives of items."""
import functools

from machine.lines import Fault, Row, Whole, is_day, json_of

# What each of these commands says of a row that it makes: of which kind that comes, and the member that has its number.
SOURCES = {"outputs": ("begun", "build"), "receive": ("received", "line"),
           **dict.fromkeys("transfer split serialise install".split(), ("cut off", "item"))}


@functools.lru_cache(maxsize=10_000)
def source_of(command):
    """What a kept text says of the rows that its request made: its verb, and of which kind and of which number they
    come, or None twice. What is no JSON says nothing."""
    try:
        held = json_of(command if isinstance(command, bytes) else command.encode())
    except Fault:
        return "", None, None
    verb = held.get("do") if isinstance(held, dict) else None
    if not isinstance(verb, str):
        return "", None, None
    kind, member = SOURCES.get(verb, (None, None))
    number = held.get(member)
    return (verb, kind, int(number)) if type(number) is Whole else (verb, None, None)


def day_in(key):
    """The day with which a key begins, or an empty text."""
    return key[:10] if is_day(key[:10]) else ""


class Recall:
    """The origins of the rows of a machine, and the lives of its items."""

    def __init__(self, m):
        self.m, self.origins = m, {}
        for key in sorted(m.kept):
            verb, kind, number = source_of(m.kept[key].command)
            made = Row(key=key, day=day_in(key), verb=verb, kind=kind, number=number)
            self.origins.update((n, made) for n in m.kept[key].answer["ids"])
        self.came_from, self.lie_at = {}, {}
        for n in sorted(m.items):
            it = self.origin(n)
            self.came_from.setdefault((it.kind, it.number), []).append(n)
            self.lie_at.setdefault(m.items[n].place, []).append(n)
        self.first, self.built = {}, {}
        for it in m.history:
            self.first.setdefault(it.item, it.day)
            if it.kind == "built" and it.place[0] != "output":
                self.built[it.item] = self.built.get(it.item, 0) + it.quantity

    def origin(self, number):
        """The kept answer that drew the number, which says nothing where there is none."""
        return self.origins.get(number) or Row(key="", day="", verb="", kind=None, number=None)

    def items_from(self, kind, number):
        """The items that come of such a row, in order of number."""
        return self.came_from.get((kind, number), [])

    def items_at(self, *place):
        """The items at such a place itself, in order of number."""
        return self.lie_at.get(place, [])

    def order_of(self, line):
        """The order of an order's line, where both are there."""
        order = self.m.order_lines[line].order if line in self.m.order_lines else None
        return order if order in self.m.orders else None

    def day_of_item(self, item):
        return self.first.get(item) or self.origin(item).day

    def unknown(self, build):
        """How many of what a build made, and of what is at its output, come of no kept request."""
        m, begun = self.m, self.items_from("begun", build)
        known = sum(m.items[n].quantity if m.items[n].place == ("output", build) else self.built.get(n, 0)
                    for n in begun)
        out = sum(m.items[n].quantity for n in self.items_at("output", build))
        return max(m.builds[build].done + out - known, 0)

    def last_of_order(self, order):
        """The day on which something of an order was last delivered or sent."""
        lines = {line for line, it in self.m.order_lines.items() if it.order == order}
        items = {n for line in lines for n in self.items_from("received", line)}
        days = [it.day for it in self.m.history if it.kind == "shipped" and it.place == ("sent", order)
                or it.kind == "received" and it.item in items]
        return days[-1] if days else ""

    def last_of_build(self, build):
        """The day on which something that was begun for a build was last completed."""
        items = set(self.items_from("begun", build))
        days = [it.day for it in self.m.history
                if it.kind == "built" and it.place[0] != "output" and it.item in items]
        return days[-1] if days else ""
