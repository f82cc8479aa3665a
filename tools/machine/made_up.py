"""Makes requests up that fit the state of a machine, most of them so that it accepts them."""
import collections
import csv
import io

from machine.checks import ALLOCATABLE, Checks, Refused
from machine.imports import COMMAND_OF, HEADERS
from machine.lines import COMMANDS, FIELDS, FLAGS, ROWS, Fault, Row, SIDES, STATUSES, Whole, field
from machine.made_names import word_of
from machine.reports import LINE_FLAGS

# How often a command is tried for, beside 4 where nothing is said.
OFTEN = {
    "add_category": 1, "add_location": 1, "retire_part": 1, "drop_line": 1, "drop_substitute": 1, "hold_build": 1,
    "cancel_build": 1, "cancel_order": 1, "set_status": 3, "add_line": 5, "build": 5, "order_line": 5, "issue_order": 5,
    "ship": 5, "auto_allocate": 5, "receive": 6, "complete_build": 6, "allocate_sale": 8, "outputs": 8,
    "complete_output": 8, "install": 8, "issue_build": 8, "consume": 8, "found": 12, "allocate_build": 14}
WORDS = ["Bolt", "Motor", "Größe", "漢", "🔩"]
NAMES = [f"{word} {n}" for word in WORDS for n in range(40)]
NAMES += ['"quoted"', "back\\slash", "a/b", "=1", "a,b", "x" * 200]
DAMAGE = [b",", b'"', b"\n", b"\r", b"0", b"7", b"-", b"x", b" ", b"\xff", b"\xc3\xa9", b"\x00", b"\n\n", b""]
BATCHES = [None, "L1", "L2", "b,c", 'q"q', "é"]


def style_of(r):
    """What one workshop is like: which parts and lines it has, and what it does most."""
    style = {flag: r.choice([0.2, 0.5, 0.8]) for flag in FLAGS[1:6]}
    style.update({flag: r.choice([0.05, 0.2, 0.4]) for flag in LINE_FLAGS})
    often = {do: OFTEN.get(do, 4) * r.choice([0.3, 1, 1, 3]) for do in COMMANDS}
    chain = 0
    if r.random() < 0.25:
        chain, often["install"], often["uninstall"], often["disassemble"] = r.randint(17, 22), 300, 2, 1
    is_builder = not chain and r.random() < 0.4
    if is_builder:
        often.update(allocate_build=60, auto_allocate=20, consume=60, build=15, issue_build=20, cancel_build=1)
        often.update(found=30)
    return {**style, "newest": r.choice([3, 8, 30]), "parts": r.choice([8, 20, 40]), "chain": chain, "often": often,
            "builder": is_builder}


def typed(do, made):
    """The fields as they are once their line was read."""
    def spelled(held):
        return Whole(held) if type(held) is int else [spelled(it) for it in held] if isinstance(held, list) else held

    members = {name: spelled(held) for name, held in made.items()}
    return Row({name: field(kind, is_optional, members, name) for name, kind, is_optional in FIELDS[do]})


class Maker:
    """Makes requests up for one machine."""

    def __init__(self, r, machine, names=()):
        self.r, self.m, self.style, self.serials_made = r, machine, style_of(r), 0
        self.names = [*NAMES, *names]
        self.first = self.builder() if self.style["builder"] else self.chain(self.style["chain"])
        # How often what fits is not looked for, and how often each command came to each end.
        self.wild, self.ends = 0.05, collections.Counter()

    def request(self):
        """A command and its fields, as JSON has them."""
        m, r, style = self.m, self.r, self.style
        if len(m.locations) < 2:
            return "add_location", self.add_location()
        for do, made in self.first:
            return do, made()
        if len(m.parts) < style["parts"] and r.random() < 0.5:
            do = r.choice(["add_part", "add_part", "add_line"])
            return do, self.fields(do)
        if self.to_consume() and r.random() < 0.2:
            do, made = "consume", self.consume()
        else:
            do, made = self.rarest() if r.random() < 0.4 else self.likely()
        self.ends[do, self.end_of(do, made)] += 1
        return do, made

    def command(self):
        return self.r.choices(list(COMMANDS), list(self.style["often"].values()))[0]

    def likely(self):
        """A request that is accepted, most often."""
        for _ in range(self.r.choice([1, 2, 4])):
            do = self.command()
            for _ in range(self.r.choice([1, 3, 6])):
                made = self.fields(do)
                if self.end_of(do, made) == "done":
                    return do, made
        return do, made

    def rarest(self):
        """Of several requests the one whose end came least often."""
        do, self.wild = self.r.choice(list(COMMANDS)), 0.4
        tried = [self.spoiled(self.fields(do)) for _ in range(10)]
        self.wild = 0.05
        return do, min(tried, key=lambda made: self.ends[do, self.end_of(do, made)])

    def spoiled(self, made):
        """The fields, now and then with a quantity that is none."""
        is_spoiled = "quantity" in made and self.r.random() < 0.1
        return {**made, "quantity": self.r.choice([0, 10**9 + 1])} if is_spoiled else made

    def end_of(self, do, made):
        """The refusal of a request, or that it is done."""
        try:
            Checks(self.m, do, typed(do, made)).pass_or_refuse()
        except (Refused, Fault) as end:
            return str(end)
        return "done"

    def named(self, name):
        """The part of that name; now and then another."""
        return self.one([n for n, it in self.m.parts.items() if it.name == name], self.m.parts)

    def builder(self):
        """Requests for assemblies in a chain of templates that are made of what stands in another, and for builds of
        them and stock."""
        chains = {"Table": ["template", "assembly"], "Nail": ["template", "component"]}
        for name, flags in chains.items():
            for at, its in enumerate([flags, flags, flags, flags[1:]][:self.r.randint(2, 4)]):
                yield "add_part", lambda name=name, at=at, its=its: {
                    "name": f"{name} {at}", "category": None, "flags": its,
                    "template": self.named(f"{name} {at - 1}") if at else None}
        yield "add_part", lambda: {"name": "Glue", "category": None, "template": None, "flags": ["component"]}
        for at, component in (0, "Nail 0"), (1, "Nail 1"), (1, "Glue"):
            yield "add_line", lambda at=at, component=component: {
                "assembly": self.named(f"Table {at}"), "component": self.named(component),
                "quantity": self.r.randint(1, 9), "optional": self.r.random() < 0.2, "consumable": False,
                "inherited": True, "variants": component != "Glue"}
        yield "add_substitute", lambda: {"line": self.row("line"), "part": self.named("Glue")}
        for _ in range(12):
            yield "found", self.found_wanted
            yield "build", lambda: {
                "part": self.named(f"Table {self.r.randint(0, 3)}"), "quantity": self.r.randint(1, 5)}
            yield "issue_build", self.issue_build

    def chain(self, count):
        """Requests for so many parts of which each goes into the one before, and for items of each."""
        def part(at):
            return self.named(f"Link {at}")

        for at in range(count):
            flags = ["assembly", "component", "trackable"]
            yield "add_part", lambda at=at: {"name": f"Link {at}", "category": None, "template": None, "flags": flags}
        for at in range(count - 1):
            yield "add_line", lambda at=at: {"assembly": part(at), "component": part(at + 1), "quantity": 1,
                                             **{flag: False for flag in LINE_FLAGS}}
        for at in 2 * list(range(count)):
            yield "found", lambda at=at: {
                "part": part(at), "location": self.row("location"), "quantity": 1, "batch": None,
                "serials": self.serials(1)}

    def fields(self, do):
        return getattr(self, do)() if hasattr(self, do) else {name: self.row(name) for name, _, _ in FIELDS[do]}

    # what a request may name

    def one(self, *wished):
        """One of the first rows that there are, most often a new one; now and then any number."""
        r = self.r
        rows = next((list(it) for it in wished if it), [])
        if not rows or r.random() < 0.02:
            return r.choice([0, 1, r.randint(1, self.m.next + 1), 2**64 - 1])
        return r.choice(rows[-self.style["newest"]:] if r.random() < 0.7 else rows)

    def row(self, name):
        m = self.m
        return self.one({"location": m.locations, "part": m.parts, "line": m.lines, "substitute": m.substitutes,
                         "order": m.orders, "build": m.builds, "allocation": m.allocations}[name])

    def such(self, rows, when):
        """The rows of which that holds; now and then all, so that what fits is not all that is tried."""
        return list(rows) if self.r.random() < self.wild else [n for n, it in rows.items() if when(it)]

    def parts(self, *flags):
        return self.such(self.m.parts, lambda it: set(flags) <= it.flags and not it.retired)

    def items(self, place, when=lambda it: True):
        if self.m.allocations and self.r.random() < self.wild / 2:
            return sorted({it.item for it in self.m.allocations.values()})
        return self.such(self.m.items, lambda it: it.place[0] == place and when(it))

    def builds(self, *states):
        return self.such(self.m.builds, lambda it: it.state in states)

    def orders(self, state):
        return self.such(self.m.orders, lambda it: it.state == state)

    def open_lines(self, side):
        orders = self.m.orders
        return self.such(self.m.order_lines, lambda it: it.done < it.quantity and (
            (orders[it.order].side, orders[it.order].state) == (side, "In progress")))

    def takes(self, line, item):
        """Whether a bill's line may be served with the item; now and then also what fits and can't be had."""
        it = self.m.items[item]
        is_there = it.status in ALLOCATABLE and self.m.free(item) > 0
        return self.m.fits(line, it.part) and (is_there or self.r.random() < self.wild)

    def amount(self, item):
        """An amount of an item: some or all of it, some or all of what is free, or too much."""
        held = self.m.items[item].quantity if item in self.m.items else 1
        free = max(self.m.free(item), 1) if item in self.m.items else 1
        return self.r.choice([1, held, free, self.r.randint(1, max(held, 1)), self.r.randint(1, free), held + 1])

    def serials(self, count):
        """So many new serials as a text, now and then with one that was there."""
        r, first = self.r, self.serials_made + 1
        self.serials_made += count
        if count > 1 and r.random() < 0.4:
            return f"{first}-{self.serials_made}"
        made = [r.choice([f"{it}", f"A-{it}", f"S/{it}"]) for it in range(first, self.serials_made + 1)]
        if r.random() < 0.1:
            made[-1] = r.choice([it.serial for it in self.m.items.values() if it.serial] or ["1"])
        return ",".join(made)

    def stock(self, part, most=60):
        """The quantity, the batch and the serials of new items of a part."""
        r = self.r
        quantity, serials = r.choice([r.randint(1, most)] * 12 + [10**9]), None
        is_trackable = part in self.m.parts and "trackable" in self.m.parts[part].flags
        if r.random() < (0.75 if is_trackable else 0.02):
            count = min(r.choice([1, 1, 1, 2, 3, 4]), most)
            quantity, serials = count + (r.random() < 0.06), self.serials(count)
        return {"quantity": quantity, "batch": r.choice(BATCHES), "serials": serials}

    # files of comma-separated values

    def file(self, caller=None):
        """A kind, and a delivery or a stocktake of it as bytes; now and then the bytes are damaged."""
        r, kind = self.r, self.r.choice(["receipts", "counts"])
        rows = [HEADERS[kind]]
        for number in range(1, r.choice([1, 3, 10, 30])):
            made = {"number": number, **self.fields(COMMAND_OF[kind])}
            for name, table in ROWS[COMMAND_OF[kind]].items() if caller else ():
                made[name] = word_of(caller.call(table, made[name], wild=0.01))
            rows.append(["" if made[name] is None else made[name] for name in HEADERS[kind]])
        text = io.StringIO()
        quoting = r.choice([csv.QUOTE_MINIMAL, csv.QUOTE_MINIMAL, csv.QUOTE_ALL])
        csv.writer(text, lineterminator=r.choice(["\n", "\r\n", "\r"]), quoting=quoting).writerows(rows)
        held = bytearray(r.choice([b"", b"", b"\xef\xbb\xbf"]) + text.getvalue().encode())
        for _ in range(r.choice([0, 0, 1, 1, 2])):
            at = r.randint(0, len(held))
            held[at:at + r.choice([0, 0, 1])] = r.choice(DAMAGE)
        return kind, bytes(held)

    # commands of parts and bills

    def add_category(self):
        return {"name": self.r.choice(self.names[:5]), "parent": self.r.choice([None, self.one(self.m.categories)])}

    def add_location(self):
        return {"name": self.r.choice(self.names[:12]), "parent": self.r.choice([None, self.one(self.m.locations)])}

    def add_part(self):
        r = self.r
        flags, template = {flag for flag in FLAGS[1:6] if r.random() < self.style[flag]}, None
        templates = self.parts("template")
        if templates and r.random() < 0.45:
            template = self.one(templates)
        if r.random() < 0.35:
            flags.add("template")
        if r.random() < 0.06:
            flags = flags & {"component"} | {"virtual"}
        if r.random() < 0.05:
            flags.add(r.choice(FLAGS))
        return {
            "name": r.choice(self.names), "category": r.choice([None, self.one(self.m.categories)]),
            "template": template, "flags": r.sample(sorted(flags), len(flags))}

    def add_line(self):
        made = {"assembly": self.one(self.parts("assembly")), "component": self.one(self.parts("component")),
                "quantity": self.r.choice([1, 1, 1, 2, 3])}
        made.update({flag: self.r.random() < self.style[flag] for flag in LINE_FLAGS})
        for part, flag in ("assembly", "inherited"), ("component", "variants"):
            if made[part] in self.parts("template"):
                made[flag] = self.r.random() < 0.8
        return made

    def add_substitute(self):
        return {"line": self.row("line"), "part": self.one(self.parts("component"))}

    # commands of stock

    def wanted(self):
        """The components that builds want which may still have something allocated."""
        m = self.m
        builds = [it for it in m.builds.values() if it.state in ("Pending", "Production")]
        lines = [m.lines[line] for it in builds for line in m.effective(it.part)]
        return [line.component for line in lines if not line.consumable]

    def found(self):
        part = self.one(self.wanted() if self.r.random() < 0.4 else [], self.parts())
        return {"part": part, "location": self.row("location"), **self.stock(part)}

    def found_wanted(self):
        """Stock of a component that a build wants, or of a part that descends from it."""
        part = self.one(self.wanted(), self.parts("component"))
        part = self.one([n for n in self.m.parts if part in self.m.chain(n)], [part])
        return {"part": part, "location": self.row("location"), **self.stock(part)}

    def add(self):
        return {"item": self.one(self.items("at", lambda it: not it.serial)), "quantity": self.r.choice([1, 7, 10**9])}

    def remove(self):
        item = self.one(self.items("at"))
        return {"item": item, "quantity": self.amount(item)}

    def count(self):
        return {**self.remove(), **self.r.choice([{}, {}, {"quantity": 0}])}

    def transfer(self):
        return {**self.remove(), "location": self.row("location")}

    def split(self):
        item = self.one(self.items("at", lambda it: it.quantity > 1))
        return {"item": item, "quantity": self.amount(item)}

    def merge(self):
        into = self.one(self.items("at", lambda it: not it.serial))
        alike = []
        if into in self.m.items:
            lot = self.m.lot(into)
            alike = [n for n in self.items("at") if n != into and self.m.lot(n) == lot]
        chosen = self.r.sample(alike, min(len(alike), self.r.randint(1, 3))) or [into]
        if self.r.random() < 0.1:
            chosen.append(self.r.choice([self.one(self.m.items), self.m.next]))
        if self.r.random() < 0.03:
            chosen = self.r.choice([[], [into] * 101])
        return {"into": into, "items": chosen}

    def serialise(self):
        trackable, count = self.parts("trackable"), self.r.randint(1, 3)
        item = self.one(self.items("at", lambda it: not it.serial and it.part in trackable))
        return {"item": item, "quantity": count + (self.r.random() < 0.06), "serials": self.serials(count)}

    def set_status(self):
        return {"item": self.one(self.items("at")), "status": self.r.choice(STATUSES + ["OK"] * 8)}

    def install(self):
        m = self.m
        standing = self.items("at") + self.items("in")
        parent = self.one([n for n in standing if m.items[n].serial and m.effective(m.items[n].part)])
        lines = m.effective(m.items[parent].part) if parent in m.items else []
        item = self.one([n for n in self.items("at") if any(self.takes(it, n) for it in lines)], self.items("at"))
        return {"item": item, "parent": parent, "quantity": self.r.choice([1, self.amount(item)])}

    def uninstall(self):
        return {"item": self.one(self.items("in")), "location": self.row("location")}

    def disassemble(self):
        holders = {it.place[1] for it in self.m.items.values() if it.place[0] == "in"}
        item = self.one([n for n in self.items("at") if n in holders], self.items("at"))
        return {"item": item, "location": self.row("location")}

    def reinstate(self):
        return {"item": self.one(self.items("off")), "location": self.row("location")}

    # commands of orders

    def order(self):
        return {"side": self.r.choice(SIDES), "partner": self.r.choice(self.names)}

    def order_line(self):
        order = self.row("order")
        side = self.m.orders[order].side if order in self.m.orders else "sale"
        part = self.one(self.parts("salable" if side == "sale" else "purchaseable"))
        return {"order": order, "part": part, "quantity": self.r.choice([1, 1, 2, 3, self.r.randint(1, 100)])}

    def issue_order(self):
        return {"order": self.one(self.orders("Pending"), self.m.orders)}

    def close_order(self):
        return {"order": self.one(self.orders("In progress"), self.m.orders)}

    cancel_order = close_order

    def receive(self):
        line, part, left = self.one(self.open_lines("purchase"), self.m.order_lines), 0, 1
        if line in self.m.order_lines:
            it = self.m.order_lines[line]
            part, left = it.part, max(it.quantity - it.done, 1)
        return {"line": line, "location": self.row("location"), **self.stock(part, left)}

    def allocate_sale(self):
        m = self.m
        line = self.one(self.open_lines("sale"), m.order_lines)
        part = m.order_lines[line].part if line in m.order_lines else 0
        fit = self.items("at", lambda it: it.part == part and (it.status in ALLOCATABLE or self.r.random() < self.wild))
        item = self.one([n for n in fit if m.free(n)], self.items("at"))
        return {"line": line, "item": item, "quantity": self.r.choice([1, self.amount(item)])}

    def ship(self):
        owners = {it.owner for it in self.m.allocations.values() if it.side == "order"}
        return {"order": self.one(sorted(owners), self.m.orders)}

    def return_item(self):
        return {"item": self.one(self.items("sent")), "location": self.row("location")}

    # commands of builds

    def build(self):
        part = self.one([n for n in self.parts("assembly") if self.m.effective(n)], self.parts("assembly"))
        return {"part": part, "quantity": self.r.choice([1, 1, 2, 3, 5])}

    def issue_build(self):
        return {"build": self.one(self.builds("Pending", "On Hold"), self.m.builds)}

    def complete_build(self):
        production = self.builds("Production")
        done = [n for n in production if self.m.builds[n].done == self.m.builds[n].quantity]
        return {"build": self.one(done, production, self.m.builds)}

    def outputs(self):
        m, build = self.m, self.one(self.builds("Production"), self.m.builds)
        if build not in m.builds:
            return {"build": build, **self.stock(0)}
        it = m.builds[build]
        left = max(it.quantity - it.done - sum(m.items[n].quantity for n in m.at_output(build)), 1)
        return {"build": build, **self.stock(it.part, left)}

    def complete_output(self):
        ready = self.items("output", lambda it: self.m.builds[it.place[1]].state == "Production")
        return {"output": self.one(ready, self.items("output"), self.m.items), "location": self.row("location")}

    def cancel_output(self):
        return {"output": self.one(self.items("output"))}

    scrap_output = cancel_output

    def auto_allocate(self):
        build = self.one(self.builds("Pending", "Production"), self.m.builds)
        return {"build": build, "substitutes": self.r.random() < 0.6, "optional": self.r.random() < 0.5}

    def allocate_build(self):
        m, r = self.m, self.r
        build = self.one([n for n in self.builds("Pending", "Production") if m.effective(m.builds[n].part)], m.builds)
        lines = m.effective(m.builds[build].part) if build in m.builds else []
        outputs = m.at_output(build)
        line = self.one([n for n in lines if outputs and r.random() < 0.7 and m.is_tracked(n)], lines, m.lines)
        output = self.one(outputs) if line in m.lines and m.is_tracked(line) else None
        item = self.one([n for n in self.items("at") if line in m.lines and self.takes(line, n)], self.items("at"))
        if build not in m.builds or line not in m.lines or item not in m.items:
            return {"build": build, "line": line, "item": item, "quantity": 1, "output": output}
        which = output if output in m.items else None
        left, free = m.need(build, line, which) - m.for_line("build", build, line, which), m.free(item)
        quantity = r.choice([max(min(left, free), 1)] * 3 + [1, free + 1, left + 1])
        return {"build": build, "line": line, "item": item, "quantity": quantity, "output": output}

    def to_consume(self):
        """The allocations that can be used up; they are seldom there for long."""
        m = self.m
        return [n for n, it in m.allocations.items()
                if it.side == "build" and not it.output and m.builds[it.owner].state == "Production"]

    def consume(self):
        return {"allocation": self.one(self.to_consume(), self.m.allocations)}
