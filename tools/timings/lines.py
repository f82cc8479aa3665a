"""Runs the program on lines of each kind, and prints lines per second and by what factor the time grows."""
import itertools
import resource
import subprocess
import tempfile
import time

from timings import chosen

DAY = '"day":"2030-01-02"'
COUNTS = (20_000, 40_000)
BUILDS = (500, 1_000)
ROWS = (10_000, 20_000)
LOCATION = f'{{{DAY},"do":"add_location","name":"A"}}'
PART = f'{{{DAY},"do":"add_part","flags":["component","trackable"],"name":"Screw"}}'
FOUND = '"do":"found","location":1,"part":2,"quantity"'


def found_and_remove(count):
    """In turn a find and a removal of it, on one part."""
    yield LOCATION
    yield PART
    for i in range((count - 2) // 2):
        yield f'{{{DAY},{FOUND}:100}}'
        yield f'{{{DAY},"do":"remove","item":{i + 3},"quantity":30}}'


def transfer(count):
    """Pieces of one item, each to the location where it lies."""
    yield LOCATION
    yield PART
    yield f'{{{DAY},{FOUND}:1000000}}'
    for _ in range(count - 3):
        yield f'{{{DAY},"do":"transfer","item":3,"location":1,"quantity":1}}'


def found_with_serial(count):
    """One piece at a time, with a batch and a serial of its own."""
    yield LOCATION
    yield PART
    for i in range(count - 2):
        yield f'{{{DAY},{FOUND}:1,"batch":"B-7","serials":"S{i}"}}'


def add_line(count):
    """A bill of half as many parts, each of which contains the two after it: the parts, and then the lines."""
    parts = count // 3
    for i in range(parts + 2):
        yield f'{{{DAY},"do":"add_part","flags":["assembly","component"],"name":"Part {i}"}}'
    for i in range(1, (count - parts - 2) // 2 + 1):
        yield f'{{{DAY},"do":"add_line","assembly":{i},"component":{i + 1},"quantity":1}}'
        yield f'{{{DAY},"do":"add_line","assembly":{i},"component":{i + 2},"quantity":1}}'


def add_part(count):
    """Parts of new names."""
    for i in range(count):
        yield f'{{{DAY},"do":"add_part","flags":["component"],"name":"Part {i}"}}'


def keyed_found(count):
    """Finds with a key each."""
    yield LOCATION
    yield PART
    for i in range(count - 2):
        yield f'{{{DAY},{FOUND}:1,"key":"k{i}"}}'


def chosen_serials(count):
    """One piece at a time, whose serials have one hash in an earlier program."""
    yield LOCATION
    yield PART
    for serial in chosen.serials(count - 2):
        yield f'{{{DAY},{FOUND}:1,"serials":"{serial}"}}'


def chosen_names(count):
    """Parts whose names have one hash in an earlier program."""
    for name in chosen.part_names(count):
        yield f'{{{DAY},"do":"add_part","flags":["component"],"name":"{name}"}}'


def chosen_keys(count):
    """Finds whose keys have one hash in an earlier program."""
    yield LOCATION
    yield PART
    for key in chosen.keys(count - 2):
        yield f'{{{DAY},{FOUND}:1,"key":"{key}"}}'


def one_serial(count):
    """Parts, and a piece of each, all of one serial."""
    yield LOCATION
    for i in range(count // 2):
        yield f'{{{DAY},"do":"add_part","flags":["component","trackable"],"name":"Part {i}"}}'
    for i in range(count // 2):
        yield f'{{{DAY},"do":"found","location":1,"part":{i + 2},"quantity":1,"serials":"1"}}'


def one_serial_of_variants(count):
    """Templates with a variant each, and a piece of each variant, all of one serial."""
    yield LOCATION
    for i in range(count // 3):
        yield f'{{{DAY},"do":"add_part","flags":["component","template","trackable"],"name":"Part {i}"}}'
        yield f'{{{DAY},"do":"add_part","flags":["component","trackable"],"name":"Variant {i}","template":{2 * i + 2}}}'
    for i in range(count // 3):
        yield f'{{{DAY},"do":"found","location":1,"part":{2 * i + 3},"quantity":1,"serials":"1"}}'


def serials_of_variants(count):
    """A template with many variants, a piece of each with a serial of its own, and as many other parts with a piece of the
    same serials."""
    yield LOCATION
    yield f'{{{DAY},"do":"add_part","flags":["component","template","trackable"],"name":"Part"}}'
    parts = count // 4
    for i in range(parts):
        yield f'{{{DAY},"do":"add_part","flags":["component","trackable"],"name":"Variant {i}","template":2}}'
        yield f'{{{DAY},"do":"add_part","flags":["component","trackable"],"name":"Other {i}"}}'
    for i in range(parts):
        yield f'{{{DAY},"do":"found","location":1,"part":{2 * i + 4},"quantity":1,"serials":"{i % 100}"}}'
        yield f'{{{DAY},"do":"found","location":1,"part":{2 * i + 3},"quantity":1,"serials":"{i}"}}'


def order(side, flag):
    """An order under number 3, with a line under number 4 for as many of the part as an order may ask for, issued."""
    yield LOCATION
    yield f'{{{DAY},"do":"add_part","flags":["component","{flag}"],"name":"Screw"}}'
    yield f'{{{DAY},"do":"order","partner":"Acme","side":"{side}"}}'
    yield f'{{{DAY},"do":"order_line","order":3,"part":2,"quantity":1000000000}}'
    yield f'{{{DAY},"do":"issue_order","order":3}}'


def receipts(count):
    """Receipts on one line of a purchase."""
    yield from order("purchase", "purchaseable")
    for _ in range(count - 5):
        yield f'{{{DAY},"do":"receive","line":4,"location":1,"quantity":1}}'


def allocated_pieces(count):
    """Single pieces of one item, each allocated to one line of a sale."""
    yield from order("sale", "salable")
    yield f'{{{DAY},{FOUND}:1000000}}'
    for _ in range(count - 6):
        yield f'{{{DAY},"do":"allocate_sale","item":5,"line":4,"quantity":1}}'


def allocated_items(count):
    """Items under the numbers from 5, and then an allocation of a piece of each to one line of a sale."""
    yield from order("sale", "salable")
    for _ in range(count // 2):
        yield f'{{{DAY},{FOUND}:10}}'
    for i in range(count // 2):
        yield f'{{{DAY},"do":"allocate_sale","item":{i + 5},"line":4,"quantity":1}}'


def shipped_lines(count):
    """A sale of half as many lines, a piece of one item allocated to each, which is shipped at once."""
    yield from order("sale", "salable")
    yield f'{{{DAY},{FOUND}:1000000}}'
    for _ in range(count // 2):
        yield f'{{{DAY},"do":"order_line","order":3,"part":2,"quantity":1}}'
    for i in range(count // 2):
        yield f'{{{DAY},"do":"allocate_sale","item":5,"line":{i + 6},"quantity":1}}'
    yield f'{{{DAY},"do":"ship","order":3}}'


def allocations(items):
    """So many items with an allocation each."""
    yield from allocated_items(2 * items)


def refused_removals(items):
    """Removals of more than is free of the item, each refused."""
    for i in range(10_000):
        yield f'{{{DAY},"do":"remove","item":{i % 1_000 + 5},"quantity":10}}'


def robot_with_motors(items):
    """A robot, under number 5, and so many motors, a thousand under the numbers from 6 at a time."""
    yield LOCATION
    yield f'{{{DAY},"do":"add_part","flags":["assembly","component","trackable"],"name":"Robot"}}'
    yield f'{{{DAY},"do":"add_part","flags":["component","trackable"],"name":"Motor"}}'
    yield f'{{{DAY},"do":"add_line","assembly":2,"component":3,"quantity":1}}'
    yield f'{{{DAY},"do":"found","location":1,"part":2,"quantity":1,"serials":"R"}}'
    for first in range(1, items, 1_000):
        yield f'{{{DAY},"do":"found","location":1,"part":3,"quantity":1000,"serials":"{first}-{first + 999}"}}'


def installs(items):
    """In turn a motor goes into the robot and comes out, among so many."""
    for _ in range(5_000):
        yield f'{{{DAY},"do":"install","item":6,"parent":5,"quantity":1}}'
        yield f'{{{DAY},"do":"uninstall","item":6,"location":1}}'


def robot_of_motors(items):
    """The robot, with all the motors in it."""
    yield from robot_with_motors(items)
    for i in range(items):
        yield f'{{{DAY},"do":"install","item":{i + 6},"parent":5,"quantity":1}}'


def write_offs(items):
    """A robot with so many motors in it is counted as missing and comes back."""
    yield f'{{{DAY},"do":"count","item":5,"quantity":0}}'
    yield f'{{{DAY},"do":"reinstate","item":5,"location":1}}'


def loose_items(items):
    """So many items of one part, 1,000 pieces each."""
    yield LOCATION
    yield PART
    for _ in range(items):
        yield f'{{{DAY},{FOUND}:1000}}'


def transfers(items):
    """Single pieces of the items, each to the location where it lies."""
    for i in range(10_000):
        yield f'{{{DAY},"do":"transfer","item":{i % 1_000 + 3},"location":1,"quantity":1}}'


def bill(parts):
    """A bill of so many parts, each of which contains the two after it."""
    yield from add_line(3 * parts)


def where_used(parts):
    """The parts that the last but two is used in: all before it."""
    for _ in range(10):
        yield f'{{"of":{parts},"report":"where_used"}}'


def robots():
    """Robots, part 4, of four screws by line 5 and two motors by line 6; and screws for all of them, item 7."""
    yield LOCATION
    yield f'{{{DAY},"do":"add_part","flags":["component"],"name":"Screw"}}'
    yield f'{{{DAY},"do":"add_part","flags":["component","trackable"],"name":"Motor"}}'
    yield f'{{{DAY},"do":"add_part","flags":["assembly","trackable"],"name":"Robot"}}'
    yield f'{{{DAY},"do":"add_line","assembly":4,"component":2,"quantity":4}}'
    yield f'{{{DAY},"do":"add_line","assembly":4,"component":3,"quantity":2}}'
    yield f'{{{DAY},{FOUND}:1000000}}'


def robots_from(first, count):
    """So many builds of one robot each, with serials on it and on its motors: ten requests for each, which draw eight
    numbers from the first."""
    for n in range(first, first + 8 * count, 8):
        yield f'{{{DAY},"do":"found","location":1,"part":3,"quantity":1,"serials":"A{n}"}}'
        yield f'{{{DAY},"do":"found","location":1,"part":3,"quantity":1,"serials":"B{n}"}}'
        yield f'{{{DAY},"do":"build","part":4,"quantity":1}}'
        yield f'{{{DAY},"do":"issue_build","build":{n + 2}}}'
        yield f'{{{DAY},"do":"outputs","build":{n + 2},"quantity":1,"serials":"R{n}"}}'
        yield f'{{{DAY},"do":"allocate_build","build":{n + 2},"line":5,"item":7,"quantity":4}}'
        yield f'{{{DAY},"do":"allocate_build","build":{n + 2},"line":6,"item":{n},"quantity":1,"output":{n + 3}}}'
        yield f'{{{DAY},"do":"allocate_build","build":{n + 2},"line":6,"item":{n + 1},"quantity":1,"output":{n + 3}}}'
        yield f'{{{DAY},"do":"complete_output","location":1,"output":{n + 3}}}'
        yield f'{{{DAY},"do":"complete_build","build":{n + 2}}}'


def built_robots(builds):
    """So many builds of a robot."""
    yield from robots()
    yield from robots_from(8, builds)


def open_builds(builds):
    """As many builds of robots that stay open, and as many motors."""
    yield from robots()
    for i in range(builds):
        yield f'{{{DAY},"do":"build","part":4,"quantity":1}}'
        yield f'{{{DAY},"do":"found","location":1,"part":3,"quantity":1,"serials":"M{i}"}}'


def completions(builds):
    """Builds of a robot, begun and completed."""
    yield from robots_from(2 * builds + 8, 1_000)


def frames(quantities):
    """Frames, part 4, that want as many bolts, part 3, by a line each, from number 5 on."""
    yield LOCATION
    yield f'{{{DAY},"do":"add_part","flags":["component"],"name":"Pin"}}'
    yield f'{{{DAY},"do":"add_part","flags":["component"],"name":"Bolt"}}'
    yield f'{{{DAY},"do":"add_part","flags":["assembly"],"name":"Frame"}}'
    for quantity in quantities:
        yield f'{{{DAY},"do":"add_line","assembly":4,"component":3,"quantity":{quantity}}}'


def pins_and_bolts(items):
    """An item of ten bolts, which a frame wants, and then so many of pins."""
    yield from frames([10])
    yield f'{{{DAY},"do":"found","location":1,"part":3,"quantity":10}}'
    for _ in range(items):
        yield f'{{{DAY},{FOUND}:10}}'


def allotments_of_one(items):
    """Frames for which the bolts are allocated, each given up again."""
    for build in range(items + 7, items + 7 + 2 * 2_000, 2):
        yield f'{{{DAY},"do":"build","part":4,"quantity":1}}'
        yield f'{{{DAY},"do":"auto_allocate","build":{build}}}'
        yield f'{{{DAY},"do":"cancel_build","build":{build}}}'


def bolts(items):
    """So many items of a bolt, all of which a frame wants."""
    yield from frames([items])
    for _ in range(items):
        yield f'{{{DAY},"do":"found","location":1,"part":3,"quantity":1}}'


def allotment_of_all(items):
    """A frame for which an amount of each is allocated, and which is given up."""
    yield f'{{{DAY},"do":"build","part":4,"quantity":1}}'
    yield f'{{{DAY},"do":"auto_allocate","build":{items + 6}}}'
    yield f'{{{DAY},"do":"cancel_build","build":{items + 6}}}'


def bolts_for_lines(items):
    """So many items of a bolt, which fifty lines of a frame want, as much each."""
    yield from frames([items // 50] * 50)
    for _ in range(items):
        yield f'{{{DAY},"do":"found","location":1,"part":3,"quantity":1}}'


def allotment_by_line(items):
    """A frame for which an amount of each is allocated, line by line, and which is given up."""
    yield f'{{{DAY},"do":"build","part":4,"quantity":1}}'
    yield f'{{{DAY},"do":"auto_allocate","build":{items + 55}}}'
    yield f'{{{DAY},"do":"cancel_build","build":{items + 55}}}'


def reading_alone(count):
    """Requests that are read, and refused at their first check."""
    for i in range(count):
        yield f'{{{DAY},"do":"transfer","item":{i + 1},"location":1,"quantity":1}}'


def writing_alone(count):
    """One request with a key, sent again and again. Its text is written each time, and compared with the one kept."""
    yield LOCATION
    yield PART
    for _ in range(count - 2):
        yield f'{{{DAY},{FOUND}:1,"key":"k"}}'


LINES = (
    found_and_remove, transfer, found_with_serial, add_part, add_line, keyed_found, receipts, allocated_pieces,
    allocated_items, shipped_lines, reading_alone, writing_alone, one_serial, one_serial_of_variants,
    serials_of_variants, chosen_serials, chosen_names, chosen_keys,
)
AMONG = (
    (loose_items, transfers, ROWS), (allocations, refused_removals, ROWS), (robot_with_motors, installs, ROWS),
    (robot_of_motors, write_offs, ROWS), (bill, where_used, ROWS), (open_builds, completions, ROWS),
    (pins_and_bolts, allotments_of_one, ROWS), (bolts, allotment_of_all, ROWS),
    (bolts_for_lines, allotment_by_line, (1_000, 2_000)),
)


def run(program, name, lines, *words):
    """Gives the seconds that the lines take."""
    text = "".join(line + "\n" for line in lines).encode()
    begin = time.monotonic()
    done = subprocess.run([program, *words], input=text, stdout=subprocess.PIPE, check=False)
    seconds = time.monotonic() - begin
    answers = done.stdout.count(b"\n")
    # The most of any run so far: the runs grow.
    peak = resource.getrusage(resource.RUSAGE_CHILDREN).ru_maxrss
    print(
        f"{name}: {answers} answers, status {done.returncode}, {seconds:.2f} s,"
        f" {answers / seconds:.0f} lines per second, {peak} KiB at most",
        flush=True,
    )
    return seconds


def run_on_file(program, name, lines):
    """Gives the seconds that the lines take with a file, which is new."""
    with tempfile.TemporaryDirectory(dir="/dev/shm") as folder:
        return run(program, f"{name} --db", lines, "run", "--db", f"{folder}/x.db")


def tell(name, small, large, what):
    print(f"{name}: {large / small:.2f} times the time for twice the {what}", flush=True)


def time_kind(program, kind, counts):
    """Lines of one kind, in memory and with a file."""
    for name, act in ((kind.__name__, run), (f"{kind.__name__} --db", run_on_file)):
        times = [act(program, f"{kind.__name__}({count})", kind(count)) for count in counts]
        tell(name, *times, "lines")


def time_among(program, rows, lines, counts):
    """Lines among rows, with the time of the rows and without it."""
    name = f"{lines.__name__} among {rows.__name__}"
    before = [run(program, f"{rows.__name__}({count})", rows(count)) for count in counts]
    whole = [run(program, f"{name}({count})", itertools.chain(rows(count), lines(count))) for count in counts]
    tell(name, *whole, "rows, with the rows")
    tell(name, *(w - b for w, b in zip(whole, before)), "rows, without them")


def time_lines(program):
    for kind in LINES:
        time_kind(program, kind, COUNTS)
    time_kind(program, built_robots, BUILDS)
    for rows, lines, counts in AMONG:
        time_among(program, rows, lines, counts)
