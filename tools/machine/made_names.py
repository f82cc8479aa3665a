"""Says rows by what they are called, as a clerk might, now and then wrongly."""
import json

from machine.lines import ROWS

# Names that a word, or a field of a file, would say otherwise than as a name.
STRANGE_NAMES = ["12", "0", "[x]", "[", "{", '["Bolt 1"]', "1" * 20, " 7", "null", "é"]


def word_of(held):
    """A value as a word may say it."""
    return held if isinstance(held, str) else json.dumps(held, ensure_ascii=False)


class Caller:
    """Says the rows of one machine."""

    def __init__(self, r, machine):
        self.r, self.m = r, machine

    def members(self, members):
        """The members of a line, their rows said by what they are called; and often the line has a key, by which the
        rows that it makes may be called."""
        tables = ROWS.get(members["do"], {}) if isinstance(members.get("do"), str) else {}
        called = {name: self.value(tables[name], held) if name in tables else held for name, held in members.items()}
        if "key" not in members and self.r.random() < 0.4:
            called["key"] = f"made/{self.m.next}/{self.r.randint(1, 99)}"
        return called

    def value(self, table, held):
        if isinstance(held, list):
            return [self.value(table, it) for it in held]
        return self.call(table, held) if type(held) is int else held

    def call(self, table, number, wild=0.05):
        """What may stand for the row of that number; so often it is something wrong."""
        if self.r.random() < wild:
            return self.wrong(table)
        return self.r.choice([number, *2 * self.calls(table, number)])

    def calls(self, table, number):
        """All that the row is called by, or was."""
        m = self.m
        called = [{"key": key} for key, kept in m.kept.items() if number in kept.answer["ids"]]
        it = getattr(m, table).get(number)
        if it and table == "parts":
            called.append(it.name)
        if it and table in ("categories", "locations"):
            called.append(self.way(table, number))
            called += [it.name] if it.parent is None else []
        if it and table == "items" and it.serial:
            called += [{"part": part, "serial": it.serial} for part in (it.part, m.parts[it.part].name)]
        return called

    def way(self, table, number):
        it = getattr(self.m, table)[number]
        return [*([] if it.parent is None else self.way(table, it.parent)), it.name]

    def wrong(self, table):
        """What calls another row than one of the table, several rows, none, or nothing at all."""
        m, one = self.m, self.r.choice
        rows = one([m.parts, m.categories, m.locations])
        name = one([it.name for it in rows.values()] + ["none", "bolt 1", "Bolt 1 "])
        key = one([*m.kept, "none"])
        part = one([*m.parts, name, "", 0, None, True, 1.5, [name], {"key": key}])
        serial = one([it.serial for it in m.items.values()] + ["none", "", "a b", "1,2", "1-2", "x" * 25, "é", 5])
        ways = [self.way(it, n) for it in ("categories", "locations") for n in getattr(m, it)] or [[name]]
        way = one(ways)
        return one([
            name, name, f"{name}s", "", "7", one(ways), one(ways), way[:-1], [*way, name], [*way, 1], [1, *way], [way],
            [], [name], {}, {"key": key}, {"key": key}, {"key": key},
            {"key": one(["", "a b", "k" * 81, "é", 5, None])},
            {"key": key, "part": part}, {"key": key, "x": None}, {"part": part}, {"serial": serial}, {"name": name},
            {"part": part, "serial": serial}, {"serial": serial, "part": part},
            {"part": part, "serial": serial, "x": 1}, {"part": one([*m.parts, name]), "serial": serial},
            self.call_other(table)])

    def call_other(self, table):
        """What a row of another table is called by."""
        others = "items builds orders order_lines allocations".split()
        other = self.r.choice([it for it in others if it != table])
        called = [it for n in list(getattr(self.m, other))[-5:] for it in self.calls(other, n)]
        return self.r.choice(called or [None])
