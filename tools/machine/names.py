"""Which row a value calls where names are allowed: by its number, its name, the way to it from the top, its part and
its serial, or the key of the request that made it."""
import re

from machine.lines import Fault, Whole, field, json_of

# The tables whose rows have names under one another.
TREES = ("categories", "locations")


def said(word):
    """The value that a word says, or a field of a file."""
    if re.fullmatch(r"[0-9]{1,19}", word, re.ASCII):
        return Whole(word)
    if not word.startswith(("[", "{")):
        return word
    try:
        # As a line has at most so many bytes, so has JSON in a word.
        return json_of(word.encode()) if len(word.encode()) <= 65_536 else None
    except Fault:
        return None


class Names:
    """The rows of a machine by what a clerk calls them. Each method that finds some gives their numbers."""

    def __init__(self, m):
        self.m = m

    def row(self, table, held, name):
        """The number of the one row of a table that the value calls, in the field of that name."""
        found = self.found(table, held)
        if len(found) != 1:
            raise Fault("Ambiguous" if found else "NoName", name)
        return found[0]

    def found(self, table, held):
        # Whether the row of a number is there, and is of the table, isn't asked here.
        if type(held) is Whole:
            return [int(held)]
        if type(held) is str and table == "parts":
            return self.parts(held)
        if type(held) is str and table in TREES:
            return self.way(table, [held]) or self.way(table, held.split(" / "))
        if type(held) is list and held and table in TREES and all(type(it) is str for it in held):
            return self.way(table, held)
        if type(held) is dict and "key" in held:
            return self.made(held)
        if type(held) is dict and table == "items":
            return self.newest(held)
        raise Fault("WrongType")

    def parts(self, name):
        return [n for n, it in self.m.parts.items() if it.name == name]

    def way(self, table, names):
        """What stands at the end of a way from the top."""
        above = None
        for name in names:
            found = [n for n, it in getattr(self.m, table).items() if (it.name, it.parent) == (name, above)]
            if len(found) != 1:
                break
            above = found[0]
        return found

    def made(self, held):
        """What the request of a key made."""
        if len(held) > 1:
            raise Fault("UnknownField")
        return self.under(field("key", False, held, "key"))

    def under(self, key):
        return self.m.kept[key].answer["ids"] if key in self.m.kept else []

    def newest(self, held):
        """The newest item of a part with a serial. The part is said by its number or its name."""
        if held.keys() - {"part", "serial"}:
            raise Fault("UnknownField")
        is_name = type(held.get("part")) is str
        parts = self.parts(held["part"]) if is_name else [field("row", False, held, "part")]
        if len(parts) != 1:
            return parts
        return self.pieces(parts[0], field("serial", False, held, "serial"))

    def pieces(self, part, serial):
        """The newest item of those that aren't gone or, where all are, of all."""
        found = {n: it.place for n, it in self.m.items.items() if (it.part, it.serial) == (part, serial)}
        return sorted(n for n, place in found.items() if place[0] != "gone")[-1:] or sorted(found)[-1:]


class Ahead(Names):
    """Each name is taken to be one of a row: so lines are looked at before the first is run, as one may make a row."""

    def __init__(self):
        super().__init__(None)

    def parts(self, name):
        return [1]

    def way(self, table, names):
        return [1]

    def under(self, key):
        return [1]

    def pieces(self, part, serial):
        return [1]
