"""The lists by which what is recalled is found: where items went, and where they came from."""
from machine.lists import BUILD_WORDS, where
from machine.recall import Recall

COLUMNS = "depth kind number part name quantity batch serial where how day key".split()


def roots_forward(m, word, item):
    """The items from which a way on is shown: those of the batch that the word is, or else the item that it says."""
    of_batch = [n for n, it in sorted(m.items.items()) if it.batch == word]
    return of_batch or ([] if item is None else [item])


def forward(m, roots):
    """The way of items on: what they lie in, what used them and what that made, and what was cut off them."""
    return rows(m, roots, Forward)


def back(m, roots):
    """The way of items back: what lies in them, the builds that made them with what these used, their deliveries, and
    what they were cut off."""
    return rows(m, roots, Back)


def rows(m, roots, direction):
    """The rows of a walk: each item and each build once, and those that were shown above by their numbers."""
    yield COLUMNS
    walk, shown = direction(m), set()
    left = [(0, ("item", n), "") for n in reversed(roots)]
    while left:
        depth, node, how = left.pop()
        if node in shown:
            yield depth, *node, *[""] * 6, "above", "", ""
            continue
        if node[0] in ("item", "build"):
            shown.add(node)
        yield depth, *getattr(walk, f"row_of_{node[0]}")(node[1], how)
        under = list(getattr(walk, f"under_{node[0]}")(node[1]))
        left += [(depth + 1, *it) for it in reversed(under)]


class Walk:
    def __init__(self, m):
        self.m, self.recall = m, Recall(m)

    def row_of_item(self, n, how):
        m, it, made = self.m, self.m.items[n], self.recall.origin(n)
        there = where(m, it.place)
        if it.place[0] == "sent":
            there += f" to {m.orders[it.place[1]].partner}"
        return ("item", n, it.part, m.parts[it.part].name, it.quantity, it.batch, it.serial, there, how,
                self.recall.day_of_item(n), made.key)

    def row_of_build(self, n, how):
        it, made = self.m.builds[n], self.recall.origin(n)
        return ("build", n, it.part, self.m.parts[it.part].name, it.quantity, "", "", BUILD_WORDS[it.state], how,
                made.day, made.key)


class Forward(Walk):
    def under_item(self, n):
        kind, owner = self.m.items[n].place
        if kind == "in":
            yield ("item", owner), "holds it"
        if kind == "used":
            yield ("build", owner), "used it"
        for piece in self.recall.items_from("cut off", n):
            yield ("item", piece), "cut off it"

    def under_build(self, n):
        for item in self.recall.items_from("begun", n):
            yield ("item", item), "begun for it"
        if self.recall.unknown(n):
            yield ("unknown", n), "not known"

    def row_of_unknown(self, n, how):
        part = self.m.builds[n].part
        return "item", "", part, self.m.parts[part].name, self.recall.unknown(n), "", "", "", how, "", ""

    def under_unknown(self, _):
        return []


class Back(Walk):
    def under_item(self, n):
        m, made = self.m, self.recall.origin(n)
        for child in self.recall.items_at("in", n):
            yield ("item", child), "inside it"
        if made.kind == "begun" and made.number in m.builds:
            yield ("build", made.number), "made it"
        if made.kind == "received" and self.recall.order_of(made.number) is not None:
            yield ("delivery", n), "delivered it"
        if made.kind == "cut off" and made.number in m.items:
            yield ("item", made.number), "it was cut off this"

    def under_build(self, n):
        for item in self.recall.items_at("used", n):
            yield ("item", item), "used for it"

    def row_of_delivery(self, item, how):
        """The delivery of the line for which an item was received."""
        m, made = self.m, self.recall.origin(item)
        it, order = m.order_lines[made.number], self.recall.order_of(made.number)
        there = f"line {made.number} from {m.orders[order].partner}"
        return ("order", order, it.part, m.parts[it.part].name, it.quantity, "", "", there, how, made.day, made.key)

    def under_delivery(self, _):
        return []
