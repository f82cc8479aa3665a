"""Lines that make a workshop for the page to show, in which everything happened, and one of many items."""
import json
import random

DAY = "2030-04-01"
HOSTILE = '<img src=x onerror="window.hit=1">'
WORDS = ("Screw Washer Nut Bolt Bearing Spring Gasket Cable Resistor Capacitor Sensor Bracket Plate Tube Seal").split()


class Lines:
    """Lines that are said one after another. Each tells how many numbers it draws, and gives the first of them."""

    def __init__(self):
        self.said, self.next, self.day = [], 1, "2030-01-02"

    def say(self, do, draws=0, day=None, **fields):
        self.said.append(json.dumps({"day": day or self.day, "do": do, **fields}))
        first = self.next
        self.next += draws
        return first


def workshop(items):
    """The lines of a workshop with so many items, and the numbers of the rows that are looked at."""
    r, lines, rows = random.Random(7), Lines(), {}
    say = lines.say
    rooms = [say("add_location", 1, name=name) for name in ("Workshop", "Store", "Yard", "Goods in")]
    places = list(rooms)
    for n, room in enumerate(rooms, 1):
        for s in range(1, 7):
            shelf = say("add_location", 1, name=f"Shelf {n}.{s}", parent=room)
            places += [shelf, *(say("add_location", 1, name=f"Bin {bin}", parent=shelf) for bin in range(1, 9))]
    rows.update(room=rooms[0], shelf=rooms[0] + 4)
    categories = []
    for name in ("Electronics", "Mechanics", "Fasteners", "Consumables", "Products"):
        top = say("add_category", 1, name=name)
        categories += [top, *(say("add_category", 1, name=f"{name} {letter}", parent=top) for letter in "ABC")]
    traded = ["component", "purchaseable", "salable"]

    def part(name, category, flags, **more):
        return say("add_part", 1, name=name, category=categories[category], flags=flags, **more)
    small = [part(f"{WORDS[n % 15]} {n:04d}", n % 20, traded) for n in range(1200)]
    motors = [part(f"Motor type {n:02d}", 4, ["trackable", *traded]) for n in range(60)]
    whole = ["assembly", "component", "trackable", "salable"]
    robot = part("Robot", 16, ["template", *whole])
    reds = [part(f"Robot {color}", 16, whole, template=robot) for color in ("red", "blue")]
    arms = [part(f"Arm {n}", 16, whole) for n in range(4)]
    boards = [part(f"Board {n}", 16, ["assembly", "component", "salable"]) for n in range(6)]
    cell = part("Robot cell", 16, ["assembly", "trackable", "salable"])
    rows.update(robot=robot, cell=cell, arm=arms[0], part=small[201], counted_part=small[602])

    def line(assembly, component, quantity, **more):
        return say("add_line", 1, assembly=assembly, component=component, quantity=quantity, **more)
    for n, board in enumerate(boards):
        for k in range(5):
            number = line(board, small[30 * n + k], 2 + k)
            if k == 1:
                rows.setdefault("line", number)
                for other in (20, 21):
                    say("add_substitute", 1, line=number, part=small[30 * n + other])
    for n, arm in enumerate(arms):
        line(arm, boards[n], 1)
        rows.setdefault("motor_line", line(arm, motors[n], 1))
        line(arm, small[400 + n], 8)
        line(arm, small[410 + n], 1, optional=True)
        line(arm, small[420 + n], 3, consumable=True)
    line(robot, arms[0], 2, inherited=True)
    line(robot, small[500], 16, inherited=True)
    line(reds[0], small[501], 1)
    line(cell, robot, 1, variants=True)
    line(cell, small[502], 40)
    rows["hostile"] = part(HOSTILE, 0, traded)
    for name in ('"quoted", with comma & <b>bold</b>', "\u202egnirts desrever", "x" * 200):
        say("add_part", 1, name=name, flags=["component"])
    much = {it: r.choice((3, 8, 40, 120, 500, 900)) for it in small + boards}
    loose = {it: say("found", 1, part=it, location=r.choice(places), quantity=much[it]) for it in much}
    pieces = []
    for n, motor in enumerate(motors):
        serials = ",".join(f"M{n}-{k}" for k in range(1, 7))
        pieces.append(say("found", 6, part=motor, location=r.choice(places), quantity=6, serials=serials))
    rows["motor"], batch = pieces[0], "<script>window.hit=2</script>"
    rows["hostile_item"] = say("found", 1, part=rows["hostile"], location=rooms[0], quantity=12, batch=batch)
    traded_away(lines, rows, small, loose, much, boards)
    begun = {"build": rows["build"], "line": rows["motor_line"], "quantity": 1}
    outputs = say("outputs", 2, build=rows["build"], quantity=2, serials="A1,A2", day="2030-02-02")
    for k in range(2):
        say("allocate_build", 1, item=pieces[0] + k, output=outputs + k, day="2030-02-02", **begun)
    say("complete_output", output=outputs, location=rooms[0], day="2030-02-03")
    rows["built"] = outputs
    made = len(much) + 6 * len(motors) + 3
    lines.day = "2030-03-01"
    for k in range(items - made):
        number, batch = rows["first_line"] + k % 40, f"B{k // 40:04d}"
        say("receive", 1, line=number, location=r.choice(places), quantity=1 + k % 9, batch=batch)
    for it in small[600:640]:
        say("transfer", 1, item=loose[it], location=rooms[1], quantity=1)
        say("count", item=loose[it], quantity=2)
    hinges(lines, rows, categories, rooms)
    return lines.said, rows


def traded_away(lines, rows, small, loose, much, boards):
    """A purchase of forty parts, sales in each state, and builds."""
    say = lines.say
    rows["purchase"] = say("order", 1, side="purchase", partner="Nuts & Bolts Ltd")
    rows["first_line"] = lines.next
    for part in small[:40]:
        say("order_line", 1, order=rows["purchase"], part=part, quantity=5000)
    say("issue_order", order=rows["purchase"])
    rows["build"] = say("build", 1, part=rows["arm"], quantity=5, day="2030-02-01")
    say("issue_build", build=rows["build"], day="2030-02-01")
    for n in range(30):
        build = say("build", 1, part=boards[n % 6], quantity=3 + n, day="2030-02-04")
        if n % 3:
            say("issue_build", build=build, day="2030-02-04")
    for n in range(40):
        order = say("order", 1, side="sale", partner=f"Customer {n:02d}", day="2030-02-05")
        number = say("order_line", 1, order=order, part=small[200 + n], quantity=3)
        say("order_line", 1, order=order, part=small[260 + n], quantity=2)
        if n % 4:
            part, quantity = small[200 + n], 1 + n % 3
            say("issue_order", order=order, day="2030-02-05")
            say("allocate_sale", 1, line=number, item=loose[part], quantity=quantity, day="2030-02-06")
            if n % 4 == 1:
                say("ship", order=order, draws=int(much[part] > quantity), day="2030-02-07")


def hinges(lines, rows, categories, rooms):
    """A part to which everything happens: received 150, found 300, returned 30; used up 40, shipped 80, written off
    25."""
    say = lines.say
    lines.day = "2030-03-04"
    hinge = say("add_part", 1, name="Hinge", category=categories[4], flags=["component", "purchaseable", "salable"])
    door = say("add_part", 1, name="Door", category=categories[16], flags=["assembly", "component"])
    say("add_line", 1, assembly=door, component=hinge, quantity=4)
    item = say("found", 1, part=hinge, location=rooms[0], quantity=300)
    order = say("order", 1, side="purchase", partner="Hinges & Co")
    number = say("order_line", 1, order=order, part=hinge, quantity=200)
    say("issue_order", order=order)
    say("receive", 1, line=number, location=rooms[1], quantity=150, batch="H-2030", day="2030-03-05")
    build = say("build", 1, part=door, quantity=10, day="2030-03-06")
    say("issue_build", build=build, day="2030-03-06")
    say("auto_allocate", 1, build=build, day="2030-03-06")
    output = say("outputs", 1, build=build, quantity=10, day="2030-03-07")
    say("complete_output", output=output, location=rooms[2], day="2030-03-08")
    say("complete_build", 1, build=build, day="2030-03-08")
    for quantity in (50, 30):
        order = say("order", 1, side="sale", partner="Doors & Sons", day="2030-03-09")
        number = say("order_line", 1, order=order, part=hinge, quantity=quantity, day="2030-03-09")
        say("issue_order", order=order, day="2030-03-09")
        say("allocate_sale", 1, line=number, item=item, quantity=quantity, day="2030-03-09")
        sent = say("ship", 1, order=order, day="2030-03-10")
    say("return_item", item=sent, location=rooms[3], day="2030-03-20")
    say("remove", item=item, quantity=25, day="2030-03-21")
    rows.update(hinge=hinge, hinges=item, last_sale=order)


def many_items(count):
    """Lines of as many pieces with serials, a thousand of a part, at one location."""
    lines = Lines()
    place = lines.say("add_location", 1, name="Hall")
    for n in range(count // 1000):
        part = lines.say("add_part", 1, name=f"Part {n}", flags=["component", "trackable"])
        lines.say("found", 1000, part=part, location=place, quantity=1000, serials=f"{1000 * n + 1}-{1000 * n + 1000}")
    return lines.said
