"""For which reasons a state refuses a command."""
import copy

from machine.lines import ROWS

REFUSALS = """
    KeyTaken NoSuch BadNumber NameTaken WrongFlag Retired WrongState Mismatch OpenOutputs InUse Cycle SelfInside Unfit
    NotLoose Serialised NotSerialised HasContent Unavailable Short Allocated OverNeed SerialCount SerialTaken TooDeep
    TooLarge Full""".split()
ALLOCATABLE = {"OK", "Attention", "Damaged", "Returned"}
# The first three are open.
BUILD_STATES = ["Pending", "Production", "On Hold", "Cancelled", "Complete"]
MOST = 1_000_000_000


class Refused(Exception):
    """The refusal of a request."""


class Checks:
    """Every reason for which a state refuses a command. The first in the order of the refusals is the answer, so that
    each method may name them in any order."""

    def __init__(self, machine, do, fields):
        self.m, self.do, self.c, self.found = machine, do, fields, set()

    def pass_or_refuse(self):
        self.rows()
        if not self.found:
            self.numbers()
            getattr(self, f"of_{self.do}")(self.c)
        if self.found:
            raise Refused(min(self.found, key=REFUSALS.index))

    def when(self, condition, name):
        if condition:
            self.found.add(name)

    def rows(self):
        for name, table in ROWS[self.do].items():
            held = self.c[name]
            for it in held if isinstance(held, list) else [held]:
                self.when(it is not None and it not in getattr(self.m, table), "NoSuch")

    def numbers(self):
        least = 0 if self.do == "count" else 1
        if "quantity" in self.c:
            self.when(not least <= self.c.quantity <= MOST, "BadNumber")
        if "items" in self.c:
            self.when(not 1 <= len(self.c["items"]) <= 100, "BadNumber")

    # what several commands share

    def serials(self, part):
        c, m = self.c, self.m
        if c.serials is not None:
            self.when("trackable" not in m.parts[part].flags, "WrongFlag")
            self.when(len(c.serials) != c.quantity, "SerialCount")
            is_held = any(m.is_held(m.family(part), it) for it in c.serials)
            self.when(is_held or len(set(c.serials)) < len(c.serials), "SerialTaken")

    def enough(self, c):
        self.when(c.quantity > self.m.items[c.item].quantity, "Short")
        self.when(c.quantity > self.m.free(c.item), "Allocated")

    def loose(self, item):
        self.when(not self.m.is_loose(item), "NotLoose")

    def no_serial(self, item):
        self.when(self.m.items[item].serial is not None, "Serialised")

    def serial(self, item):
        self.when(self.m.items[item].serial is None, "NotSerialised")

    def no_allocation(self, item):
        self.when(self.m.allocated(item) > 0, "Allocated")

    def allocatable(self, item):
        self.when(self.m.items[item].status not in ALLOCATABLE, "Unavailable")

    def no_flag(self, part, flag):
        self.when(flag not in self.m.parts[part].flags, "WrongFlag")

    def no_virtual(self, part):
        self.when("virtual" in self.m.parts[part].flags, "WrongFlag")

    def in_service(self, part):
        self.when(self.m.parts[part].retired, "Retired")

    def unused(self, line):
        self.when(self.m.is_in_use(self.m.lines[line].assembly), "InUse")

    def cycle(self):
        """Whether the bills would have a cycle once the command was done."""
        trial = copy.copy(self.m)
        trial.lines, trial.substitutes, trial.ids = dict(trial.lines), dict(trial.substitutes), []
        getattr(trial, f"do_{self.do}")(self.c)
        self.when(trial.has_cycle(), "Cycle")

    # each command

    def of_add_category(self, c):
        self.when(any((it.name, it.parent) == (c.name, c.parent) for it in self.m.categories.values()), "NameTaken")

    def of_add_location(self, c):
        self.when(any((it.name, it.parent) == (c.name, c.parent) for it in self.m.locations.values()), "NameTaken")

    def of_add_part(self, c):
        self.when(any(it.name == c.name for it in self.m.parts.values()), "NameTaken")
        if c.template is not None:
            self.no_flag(c.template, "template")
            self.in_service(c.template)
            self.when(len(self.m.chain(c.template)) > 3, "TooDeep")
        self.when("virtual" in c.flags and c.flags - {"virtual", "component"}, "WrongFlag")

    def of_retire_part(self, c):
        self.in_service(c.part)

    def of_add_line(self, c):
        self.no_flag(c.assembly, "assembly")
        self.no_flag(c.component, "component")
        self.when("virtual" in self.m.parts[c.component].flags and not c.consumable, "WrongFlag")
        self.in_service(c.assembly)
        self.in_service(c.component)
        self.when(self.m.is_in_use(c.assembly), "InUse")
        self.cycle()

    def of_drop_line(self, c):
        self.unused(c.line)

    def of_add_substitute(self, c):
        self.no_flag(c.part, "component")
        self.no_virtual(c.part)
        self.in_service(c.part)
        self.unused(c.line)
        self.when(self.m.fits(c.line, c.part), "InUse")
        self.cycle()

    def of_drop_substitute(self, c):
        self.unused(self.m.substitutes[c.substitute].line)

    def of_found(self, c):
        self.serials(c.part)
        self.no_virtual(c.part)
        self.in_service(c.part)

    def of_add(self, c):
        self.loose(c.item)
        self.no_serial(c.item)
        self.when(self.m.items[c.item].quantity + c.quantity > MOST, "TooLarge")

    def of_remove(self, c):
        self.loose(c.item)
        self.when(self.m.children(c.item), "HasContent")
        self.enough(c)

    def of_count(self, c):
        self.loose(c.item)
        self.when(self.m.items[c.item].serial is not None and c.quantity > 1, "Serialised")
        self.when(c.quantity < self.m.allocated(c.item), "Allocated")

    def of_transfer(self, c):
        self.loose(c.item)
        self.when(c.quantity > self.m.items[c.item].quantity, "Short")
        self.when(self.m.free(c.item) < c.quantity < self.m.items[c.item].quantity, "Allocated")

    def of_split(self, c):
        self.loose(c.item)
        self.no_serial(c.item)
        self.when(c.quantity >= self.m.items[c.item].quantity, "Short")
        self.when(c.quantity > self.m.free(c.item), "Allocated")

    def of_merge(self, c):
        items, lot = c["items"], self.m.lot
        self.when(len({c.into, *items}) <= len(items) or any(lot(it) != lot(c.into) for it in items), "Mismatch")
        for it in [c.into, *items]:
            self.loose(it)
            self.no_serial(it)
        for it in items:
            self.no_allocation(it)
        self.when(sum(self.m.items[it].quantity for it in [c.into, *items]) > MOST, "TooLarge")

    def of_serialise(self, c):
        self.serials(self.m.items[c.item].part)
        self.loose(c.item)
        self.no_serial(c.item)
        self.enough(c)

    def of_set_status(self, c):
        self.loose(c.item)
        if c.status not in ALLOCATABLE:
            self.no_allocation(c.item)

    def of_install(self, c):
        m = self.m
        self.when(c.parent in m.nodes(c.item), "SelfInside")
        lines = [it for it in m.effective(m.items[c.parent].part) if not m.lines[it].consumable]
        self.when(not any(m.fits(it, m.items[c.item].part) for it in lines), "Unfit")
        self.loose(c.item)
        self.when(not m.stands_loose(c.parent), "NotLoose")
        self.serial(c.parent)
        self.allocatable(c.item)
        self.enough(c)
        self.when(m.depth(c.parent) + m.height(c.item) > 16, "TooDeep")

    def of_uninstall(self, c):
        self.when(self.m.items[c.item].place[0] != "in", "WrongState")
        self.when(not self.m.stands_loose(c.item), "NotLoose")

    def of_disassemble(self, c):
        self.loose(c.item)
        self.serial(c.item)
        self.no_allocation(c.item)

    def of_reinstate(self, c):
        self.when(self.m.items[c.item].place[0] != "off", "WrongState")

    def of_order(self, c):
        pass

    def of_order_line(self, c):
        order = self.m.orders[c.order]
        self.no_flag(c.part, "purchaseable" if order.side == "purchase" else "salable")
        self.no_virtual(c.part)
        self.in_service(c.part)
        self.when(order.state in ("Complete", "Cancelled"), "WrongState")

    def of_issue_order(self, c):
        self.when(self.m.orders[c.order].state != "Pending", "WrongState")

    def in_progress(self, order, side):
        self.when(self.m.orders[order].state != "In progress", "WrongState")
        self.when(self.m.orders[order].side != side, "Mismatch")

    def of_receive(self, c):
        line = self.m.order_lines[c.line]
        self.serials(line.part)
        self.in_progress(line.order, "purchase")
        self.when(line.done + c.quantity > line.quantity, "OverNeed")

    def of_allocate_sale(self, c):
        line = self.m.order_lines[c.line]
        self.in_progress(line.order, "sale")
        self.when(self.m.items[c.item].part != line.part, "Unfit")
        self.loose(c.item)
        self.allocatable(c.item)
        self.when(c.quantity > self.m.free(c.item), "Allocated")
        self.when(line.done + self.m.for_line("order", line.order, c.line) + c.quantity > line.quantity, "OverNeed")

    def of_ship(self, c):
        self.in_progress(c.order, "sale")
        self.when(not self.m.allocations_of("order", c.order), "Short")

    def of_return_item(self, c):
        self.when(self.m.items[c.item].place[0] != "sent", "WrongState")

    def of_close_order(self, c):
        self.when(self.m.orders[c.order].state != "In progress", "WrongState")
        self.when(any(it.order == c.order and it.done < it.quantity for it in self.m.order_lines.values()), "Short")

    def of_cancel_order(self, c):
        self.when(self.m.orders[c.order].state in ("Complete", "Cancelled"), "WrongState")

    def of_build(self, c):
        self.no_flag(c.part, "assembly")
        self.in_service(c.part)

    def state_in(self, build, *states):
        self.when(self.m.builds[build].state not in states, "WrongState")

    def of_issue_build(self, c):
        self.state_in(c.build, "Pending", "On Hold")

    def of_hold_build(self, c):
        self.state_in(c.build, "Pending", "Production")

    def of_cancel_build(self, c):
        self.state_in(c.build, "Pending", "Production", "On Hold")

    def of_outputs(self, c):
        m, build = self.m, self.m.builds[c.build]
        self.serials(build.part)
        self.state_in(c.build, "Production")
        self.when(c.serials is None and any(m.is_tracked(it) for it in m.effective(build.part)), "NotSerialised")
        begun = sum(m.items[it].quantity for it in m.at_output(c.build))
        self.when(build.done + begun + c.quantity > build.quantity, "OverNeed")

    def output_in_production(self, output):
        place = self.m.items[output].place
        self.when(place[0] != "output" or self.m.builds[place[1]].state != "Production", "WrongState")
        return place[1] if place[0] == "output" else None

    def of_complete_output(self, c):
        m, build = self.m, self.output_in_production(c.output)
        if build is None:
            return
        for line in m.effective(m.builds[build].part):
            it = m.lines[line]
            is_short = m.for_line("build", build, line, c.output) < m.need(build, line, c.output)
            self.when(m.is_tracked(line) and not it.optional and is_short, "Short")
        heights = [m.height(it.item) for _, it in m.allocations_of("build", build, c.output)]
        self.when(1 + max(heights, default=0) > 16, "TooDeep")

    def of_cancel_output(self, c):
        self.output_in_production(c.output)

    def of_scrap_output(self, c):
        self.output_in_production(c.output)

    def of_allocate_build(self, c):
        m, build, line = self.m, self.m.builds[c.build], self.m.lines[c.line]
        self.state_in(c.build, "Pending", "Production")
        self.when(c.output is not None and m.items[c.output].place != ("output", c.build), "WrongState")
        self.when(c.line not in m.effective(build.part) or line.consumable, "Unfit")
        self.when(m.is_tracked(c.line) != (c.output is not None) or not m.fits(c.line, m.items[c.item].part), "Unfit")
        self.loose(c.item)
        self.allocatable(c.item)
        self.when(c.quantity > m.free(c.item), "Allocated")
        allocated = m.for_line("build", c.build, c.line, c.output)
        self.when(allocated + c.quantity > m.need(c.build, c.line, c.output), "OverNeed")

    def of_auto_allocate(self, c):
        self.state_in(c.build, "Pending", "Production")

    def of_release(self, c):
        pass

    def of_complete_build(self, c):
        m, build = self.m, self.m.builds[c.build]
        self.state_in(c.build, "Production")
        self.when(m.at_output(c.build), "OpenOutputs")
        self.when(build.done < build.quantity, "Short")
        for line in m.effective(build.part):
            it = m.lines[line]
            is_short = m.for_line("build", c.build, line) < m.need(c.build, line)
            self.when(m.is_untracked(line) and not it.optional and is_short, "Short")

    def of_consume(self, c):
        it = self.m.allocations[c.allocation]
        if it.side == "build":
            self.state_in(it.owner, "Production")
        self.when(it.side == "order" or it.output != 0, "Mismatch")
