"""Times what a journal costs, beside the same lines without one, and the lists by which what is kept is recalled."""
import pathlib
import tempfile

from timings.file import DAY, START, in_turn, measured, timed
from timings.history import finds, held, memory_of
from timings.names import Clerk

COUNT, KEYED = 40_000, 50_000
# How many times as long finds and removals may take with a journal, in memory and on a memory disk.
GOALS = (1.3, 1.6)
# Items, each of a request of its own: half of them of one batch, all of which a build uses, and the others in batches
# of a hundred.
ITEMS, SMALL = 200_000, 100
MOST_SECONDS = 1.0


def over(value, goal):
    return "" if value <= goal else f", more than {goal}"


def beside_plain(program, folder):
    """Finds and removals with a journal and without: the least of three turns of each."""
    lines = START + "".join(in_turn(COUNT))
    for where, goal in zip(("in memory", "on a memory disk"), GOALS):
        turns = []
        for turn in range(3):
            pair = []
            for journal in ([], ["--journal"]):
                path = str(folder / f"turn-{where[:2]}-{turn}-{len(journal)}.db")
                on_file = [] if where == "in memory" else ["--db", path]
                pair.append(timed(program, ("run", *journal, *on_file), lines))
            turns.append(pair)
        plain, kept = (min(it) for it in zip(*turns))
        told = f"{COUNT / plain:.0f} a second, with a journal {COUNT / kept:.0f}: {kept / plain:.2f} times the time"
        print(f"{COUNT} finds and removals {where}: {told}{over(kept / plain, goal)}", flush=True)


def memory(program, folder):
    """The bytes that a request takes in memory with a journal more than without one."""
    grown, opened = [], []
    for journal in ([], ["--journal"]):
        clerk = Clerk(program, *journal)
        clerk.send(finds(KEYED).encode())
        grown.append(memory_of(clerk.process)[0])
        clerk.end()
        path = str(folder / f"kept-{len(journal)}.db")
        timed(program, ("run", *journal, "--db", path), finds(KEYED))
        opened.append(held(program, path)[0])
    more = [(kept - plain) * 1024 / KEYED for plain, kept in (grown, opened)]
    print(f"bytes of memory of a find with a journal more than without: {more[0]:.0f} as it is done, {more[1]:.0f} in"
          " books that were opened", flush=True)


def recalled(program, path):
    """Books of many items: an output that was built of half of them, and batches."""
    half = ITEMS // 2

    def line(rest):
        return f"{{{DAY},{rest}}}\n"

    def found(quantity, batch):
        return line(f'"do":"found","location":1,"part":2,"quantity":{quantity},"batch":"{batch}"')

    lines = [START, line('"do":"add_part","name":"Crate","flags":["assembly","trackable"]'),
             line(f'"do":"add_line","assembly":3,"component":2,"quantity":{half}'),
             line('"do":"build","part":3,"quantity":1'), line('"do":"issue_build","build":5'),
             line('"do":"outputs","build":5,"quantity":1,"serials":"C1"'),
             line('"do":"complete_output","output":6,"location":1')]
    timed(program, ("run", "--journal", "--db", path), "".join(lines))
    timed(program, ("run", "--journal", "--db", path), "".join(found(1, "half") for _ in range(half)))
    timed(program, ("run", "--journal", "--db", path), line('"do":"auto_allocate","build":5'))
    timed(program, ("run", "--journal", "--db", path), line('"do":"complete_build","build":5'))
    others = "".join(found(1 + at % 9, f"L{at // SMALL}") for at in range(ITEMS - half))
    timed(program, ("run", "--journal", "--db", path), others)


def lists(program, folder):
    """Each list beside the opening of the books."""
    path = str(folder / "recalled.db")
    recalled(program, path)
    opening = min(measured(program, folder, ("export", "--db", path, "meta")) for _ in range(3))
    print(f"{ITEMS} items and as many kept answers: opened in {opening[0]:.2f} s, {opening[1]} KiB at most", flush=True)
    asked = {f"trace-forward of {ITEMS // 2} items": ("trace-forward", "half"),
             f"trace-forward of {SMALL} items": ("trace-forward", "L7"),
             f"trace-back of what {ITEMS // 2} items went into": ("trace-back", "6"),
             "trace-back of one item": ("trace-back", str(ITEMS + 50)), "builds": ("builds",), "item": ("item", "6")}
    for what, words in asked.items():
        seconds, peak = min(measured(program, folder, ("show", "--csv", "--db", path, *words)) for _ in range(3))
        more = seconds - opening[0]
        told = f"{more:.2f} s more than the opening{over(more, MOST_SECONDS)}"
        print(f"    {what}: {told}; {peak / opening[1]:.2f} times its memory", flush=True)


def time_recall(program):
    with tempfile.TemporaryDirectory(dir="/dev/shm") as folder:
        folder = pathlib.Path(folder)
        beside_plain(program, folder)
        memory(program, folder)
        lists(program, folder)
