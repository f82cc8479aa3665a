"""Times lines in which rows are said by what they are called, beside the same lines with numbers: by the seconds of a
processor, which other work on the machine changes little."""
import json
import os
import random
import subprocess
import sys
import tempfile
import threading

DAY = "2030-01-02"
SIZES = (2_000, 200_000)
COUNT, BLOCKS = 20_000, 5
# So many locations stand at the top or under one that does, a hundred to each.
UNDER = 100
GOAL = 1.3


def line(**members):
    return json.dumps({"day": DAY, **members}, separators=(",", ":")).encode() + b"\n"


class Rows:
    """So many locations, so many parts, and an item with a serial and a key of each part; told by their place among
    them, from 0."""

    def __init__(self, size):
        self.size = size

    def location(self, at, named):
        top = at - at % UNDER
        way = [f"Hall {top}"] if at == top else [f"Hall {top}", f"Shelf {at}"]
        return way if named else at + 1

    def part(self, at, named):
        return f"Part {at}" if named else self.size + at + 1

    def item(self, at, named):
        return {"part": f"Part {at}", "serial": f"S{at}"} if named else 2 * self.size + at + 1

    def keyed(self, at, named):
        return {"key": f"found/{at}"} if named else 2 * self.size + at + 1

    def made(self):
        """The lines that make them."""
        for at in range(self.size):
            top = at - at % UNDER
            under = {} if at == top else {"parent": top + 1}
            yield line(do="add_location", name=self.location(at, True)[-1], **under)
        for at in range(self.size):
            yield line(do="add_part", flags=["component", "trackable"], name=self.part(at, True))
        for at in range(self.size):
            yield line(do="found", key=f"found/{at}", part=self.part(at, False), location=at + 1, quantity=1,
                       serials=f"S{at}")


def found(rows, r, named):
    """Finds of a part, which is said by its name, at a location, said by its way."""
    part, location = (r.randrange(rows.size) for _ in range(2))
    return line(do="found", part=rows.part(part, named), location=rows.location(location, named), quantity=1)


def transfer(rows, r, named):
    """Transfers of an item, which is said by its part and its serial, to a location, said by its way."""
    item, location = (r.randrange(rows.size) for _ in range(2))
    return line(do="transfer", item=rows.item(item, named), location=rows.location(location, named), quantity=1)


def count(rows, r, named):
    """Counts that change nothing of an item, which is said by the key of its find."""
    return line(do="count", item=rows.keyed(r.randrange(rows.size), named), quantity=1)


KINDS = (found, transfer, count)


class Clerk:
    """The program, to which lines are sent."""

    def __init__(self, program, *words):
        pipes = {"stdin": subprocess.PIPE, "stdout": subprocess.PIPE}
        self.process = subprocess.Popen([program, "run", *words], bufsize=0, **pipes)

    def used(self):
        """The seconds of a processor that the program has had, in whatever time."""
        with open(f"/proc/{self.process.pid}/schedstat", encoding="ascii") as told:
            return int(told.read().split()[0]) / 1e9

    def send(self, lines):
        """The seconds of a processor until all of these lines are answered. Each has to be done."""
        begin = self.used()
        sender = threading.Thread(target=self.process.stdin.write, args=(lines,))
        sender.start()
        answers, wanted = [], lines.count(b"\n")
        while wanted > 0:
            answers.append(os.read(self.process.stdout.fileno(), 65_536))
            if not answers[-1]:
                sys.exit("bench: the program ends amid its lines")
            wanted -= answers[-1].count(b"\n")
        seconds = self.used() - begin
        sender.join()
        bad = next((it for it in b"".join(answers).splitlines() if not it.startswith(b'{"entries"')), None)
        if bad:
            sys.exit(f"bench: a line is answered {bad!r}")
        return seconds

    def end(self):
        self.process.stdin.close()
        self.process.wait()
        self.process.stdout.close()


def times(program, rows, words):
    """The seconds of a processor for each kind of lines, with numbers and with names: the least of some blocks of each,
    which take turns, so that both meet the same books."""
    clerk = Clerk(program, "--names", *words)
    clerk.send(b"".join(rows.made()))
    r, taken = random.Random(rows.size), {}
    for kind in KINDS:
        turns = []
        for _ in range(BLOCKS):
            pair = [b"".join(kind(rows, r, named) for _ in range(COUNT)) for named in (False, True)]
            turns.append([clerk.send(it) for it in pair])
        taken[kind] = [min(it) for it in zip(*turns)]
    clerk.end()
    return taken


def beside_numbers(program, size, where, *words):
    """The kinds of lines among so many rows, with numbers and with names."""
    print(f"among {size:,} parts, items and locations {where}, {COUNT:,} lines with numbers and with names", flush=True)
    for kind, (by_number, by_name) in times(program, Rows(size), words).items():
        ratio = by_name / by_number
        over = "" if ratio <= GOAL else f", more than {GOAL}"
        each = f"{(by_name - by_number) / COUNT * 1e6:.1f} microseconds a line"
        seconds = f"{by_number:.3f} s and {by_name:.3f} s"
        print(f"    {kind.__name__}: {seconds}, {each} more, {ratio:.2f} times the time{over}", flush=True)


def time_names(program):
    for size in SIZES:
        beside_numbers(program, size, "in memory")
        with tempfile.TemporaryDirectory(dir="/dev/shm") as folder:
            beside_numbers(program, size, "on a memory disk", "--db", f"{folder}/x.db")
