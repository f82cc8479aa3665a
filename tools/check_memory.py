#!/usr/bin/env python3
"""Refuses the program a growth of memory, or that one and each after it, at one growth after another: over worked
examples as lines, on a shop in memory and on a file, where a read gives all lines or one alone; over the making and the
opening of a file, an import, and the bringing along of an old file; and over requests of HTTP. A small C library
refuses, tools/refuse_growth.c, which the system's compiler builds and which is loaded into the program by LD_PRELOAD.

A run that meets a refusal ends with status 4, or with 3 where the database met it, says so, and has written a front of
what an unbroken run writes, in whole lines; or it does without that growth and ends as if nothing had been refused.
The same sent again to the file is answered as in the unbroken run, and leaves the same tables. A request of HTTP is
answered 503, or 500 where the database met the refusal and the service has to be started again, or not at all; sent
again under its key, it is answered as it should be. How often it had been done by then, so that a kept answer came, is
counted.

Each request has a key of its own. On a file only those are sent that are accepted, since what was refused once may be
accepted when it is sent again.

usage: tools/check_memory.py PROGRAM [--tries TRIES] [--every] [--only WORDS] [--seed SEED] [--at-once RUNS]
By default 40 growths of a run on a shop, and 8 of one on a file, are refused, each by chance in its part of the run, in
about a minute. The whole check refuses every one (--every), and takes hours; --only tries what has the words in its
name."""
import collections
import concurrent.futures
import contextlib
import dataclasses
import http.client
import json
import mmap
import os
import pathlib
import random
import shutil
import signal
import socket
import sqlite3
import struct
import subprocess
import tempfile
import time

from shared import TOP, ask, built_by_cc, copy_with_log, expect, reader_of_words, rows_of, run, serve

DATA = TOP / "crates" / "worked_examples" / "data"
FIRST_RUN = TOP / "crates" / "invdesk" / "stdin"
OLD = TOP / "tools" / "data" / "old" / "cell-shipped.db"
EXAMPLES = (
    "first-run used-up order-limits bad-numbers serial-lists shipped-serial free-quantity robot-build cell-shipped"
    " short-output bill-cycles nesting auto-allocation repeated-keys merging counted-off"
).split()
DAY = "2030-01-02"
ORDERED = (
    {"day": DAY, "do": "order", "partner": "Acme", "side": "purchase"},
    {"day": DAY, "do": "order_line", "order": 10, "part": 3, "quantity": 500},
    {"day": DAY, "do": "order_line", "order": 10, "part": 4, "quantity": 2},
    {"day": DAY, "do": "issue_order", "order": 10},
)
RECEIPTS = 'number,line,location,quantity,batch,serials\n1,11,1,100,L1,\n2,11,1,50,,\n3,12,2,2,,"M1,M2"\n'
REPORT = b'1\t{"entries":1,"ids":[13]}\n2\t{"entries":1,"ids":[14]}\n3\t{"entries":2,"ids":[15,16]}\n'
IMPORT = "import --db FILE --kind receipts --document D1 --day 2030-03-01".split()
ON_FILE = "run --db FILE".split()
MIGRATE = "migrate --db FILE".split()
EXPORTED = ("items", "history", "kept")
SAID = {3: b"invdesk: store or device failed\n", 4: b"invdesk: no memory\n"}
EVERY_LATER = 2**64 - 1


class Growths:
    """The numbers that are shared with the library in the program."""

    def __init__(self, library, folder):
        self.path = folder / "growths"
        self.path.write_bytes(bytes(32))
        with open(self.path, "r+b") as file:
            self.numbers = mmap.mmap(file.fileno(), 32)
        self.environment = {**os.environ, "LD_PRELOAD": str(library), "REFUSE_GROWTH": str(self.path)}

    @property
    def asked(self):
        return struct.unpack_from("<Q", self.numbers, 0)[0]

    @property
    def refused(self):
        return struct.unpack_from("<Q", self.numbers, 24)[0]

    def refuse(self, first, last):
        """Refuses those from the first to the last, and meanwhile none."""
        struct.pack_into("<Q", self.numbers, 16, 0)
        struct.pack_into("<Q", self.numbers, 8, first)
        struct.pack_into("<Q", self.numbers, 16, last)

    def refuse_none(self):
        self.refuse(0, 0)


def built_library(folder):
    """The library that refuses growths."""
    library = built_by_cc(TOP / "tools" / "refuse_growth.c", folder / "refuse_growth.so", "-shared", "-fPIC")
    expect(library, "there is no C compiler, or it doesn't build tools/refuse_growth.c")
    return library


@dataclasses.dataclass
class Ended:
    """How a run ended, what it wrote and said, how many growths it asked for, and how many were refused."""
    status: int
    told: bytes
    said: bytes
    asked: int = 0
    refused: int = 0


def fed(stdin, lines):
    """Sends a packet for each line, so that a read gives one line."""
    with contextlib.suppress(BrokenPipeError), contextlib.closing(stdin):
        for line in lines:
            stdin.sendall(line)


def ran(words, text, alone, growths=None):
    """Runs the words on the text."""
    environment = growths.environment if growths else os.environ
    if alone:
        ours, theirs = socket.socketpair(socket.AF_UNIX, socket.SOCK_SEQPACKET)
        pipe = subprocess.PIPE
        with subprocess.Popen(words, stdin=theirs, stdout=pipe, stderr=pipe, env=environment) as child:
            theirs.close()
            fed(ours, text.splitlines(keepends=True))
            told, said = child.communicate()
            status = child.returncode
    else:
        done = run(*words, lines=text, env=environment)
        status, told, said = done.returncode, done.stdout, done.stderr
    counts = (growths.asked, growths.refused) if growths else (0, 0)
    return Ended(status, told, said, *counts)


def tables_of(path):
    """The tables of the file, as Python's sqlite3 finds them."""
    with contextlib.closing(sqlite3.connect(path)) as conn:
        return rows_of(conn)


@dataclasses.dataclass
class Case:
    """A run of the program that is to meet refusals, what it reads, and what it writes where it meets none. `words`
    name its file FILE; `base` is what lies there before, if anything does; `alone` tells that a read gives one line;
    `first` is the first growth that is refused."""
    name: str
    words: list
    text: bytes = b""
    told: bytes = b""
    base: pathlib.Path | None = None
    alone: bool = False
    first: int = 1

    def has_file(self):
        return "FILE" in self.words

    def placed(self, folder):
        """The path of its file in the folder, with what lies there before."""
        path = folder / "workshop.db"
        for end in ("", "-wal"):
            with contextlib.suppress(FileNotFoundError):
                os.remove(f"{path}{end}")
        if self.base:
            shutil.copyfile(self.base, path)
        return path


class Check:
    """The program, the library that refuses it growths, and the unbroken runs."""

    def __init__(self, given, folder):
        self.program, self.folder = given.program, folder
        self.given = given
        self.library = built_library(folder)
        self.workers = concurrent.futures.ThreadPoolExecutor(given.at_once)

    def close(self):
        self.workers.shutdown(cancel_futures=True)

    def run(self, case, path, growths=None):
        words = [self.program, *(str(path) if word == "FILE" else word for word in case.words)]
        return ran(words, case.text, case.alone, growths)

    def exports(self, path):
        return [ran([self.program, "export", "--db", str(path), table], b"", False).told for table in EXPORTED]

    @contextlib.contextmanager
    def room(self):
        """A folder of its own, and growths."""
        with tempfile.TemporaryDirectory(dir=self.folder) as name:
            folder = pathlib.Path(name)
            yield folder, Growths(self.library, folder)

    def unbroken(self, case):
        """How the case ends where nothing is refused, and the tables and exports that it leaves."""
        with self.room() as (folder, growths):
            path = case.placed(folder)
            ended = self.run(case, path, growths)
            expect(ended.asked > 0, "the library isn't loaded into the program, which has to be linked dynamically")
            expect(ended.told == case.told, f"{case.name}: an unbroken run tells {ended.told!r}")
            expect(not ended.said, f"{case.name}: an unbroken run says {ended.said!r}")
            left = (tables_of(path), self.exports(path)) if case.has_file() else None
            return ended, left

    def tried(self, case, unbroken, first, last, is_exported):
        """Refuses growths to the case, and runs it again. How the first run ended."""
        wanted, left = unbroken
        what = f"{case.name}, growths {first} to {last}"
        with self.room() as (folder, growths):
            path = case.placed(folder)
            growths.refuse(first, last)
            ended = self.run(case, path, growths)
            growths.refuse_none()
            is_as_told(what, ended, wanted, first == last)
            if case.has_file():
                again = self.run(case, path)
                expect(not again.said, f"{what}: sent again it says {again.said!r}")
                expect(again.told == wanted.told, f"{what}: sent again it is told {again.told!r}")
                expect(again.status == wanted.status, f"{what}: sent again it ends with {again.status}")
                expect(tables_of(path) == left[0], f"{what}: other tables")
                expect(not is_exported or self.exports(path) == left[1], f"{what}: other exports")
            return ended

    def growths_of(self, first, end, tries):
        """Numbers of growths from the first until before the end: all, or so many, each by chance in its part."""
        if self.given.every or end - first <= tries:
            return list(range(first, end))
        chance = random.Random(f"{self.given.seed} {end}")
        bounds = [first + (end - first) * n // tries for n in range(tries + 1)]
        return [chance.randrange(low, high) for low, high in zip(bounds, bounds[1:])]

    def tried_throughout(self, case, tries):
        """Refuses growths all over the case, and then more growths than it asks for."""
        unbroken = self.unbroken(case)
        asked = unbroken[0].asked
        numbers = self.growths_of(min(case.first, asked), asked + 1, tries)
        lasts = [first if n % 2 == 0 else EVERY_LATER for n, first in enumerate(numbers)]
        started = [self.workers.submit(self.tried, case, unbroken, first, last, n == 1)
                   for n, (first, last) in enumerate(zip(numbers, lasts))]
        ends = collections.Counter(way_of(it.result()) for it in started)
        beyond = asked + 1
        while self.tried(case, unbroken, beyond, beyond, False).refused:
            beyond += 1
        return asked, ends


def is_as_told(what, ended, wanted, is_one):
    """A run that met a refusal ends as it is told to."""
    expect(wanted.told.startswith(ended.told), f"{what}: told {ended.told!r}")
    expect(ended.told in (b"", wanted.told) or ended.told.endswith(b"\n"), f"{what}: a line is told by half")
    if ended.status in SAID and ended.refused:
        expect(ended.said.endswith(SAID[ended.status]), f"{what}: it ends with {ended.status} and says {ended.said!r}")
        expect(b"memory" in ended.said or not is_one, f"{what}: it doesn't say why: {ended.said!r}")
    else:
        same = (ended.status, ended.told, ended.said) == (wanted.status, wanted.told, wanted.said)
        expect(same, f"{what}: it ends with {ended.status}, is told {ended.told!r} and says {ended.said!r}")


def way_of(ended):
    if not ended.refused:
        return "not met"
    return {3: "status 3", 4: "status 4"}.get(ended.status, "done without")


def lines_of(name):
    """The lines of a worked example, each request under a key of its own."""
    path = FIRST_RUN if name == "first-run" else DATA / f"{name}.in"
    for number, line in enumerate(path.read_text().splitlines()):
        if '"do":' in line and '"key":' not in line:
            line = f'{{"key":"m{number}",{line[1:]}'
        yield line


def joined(lines):
    return "".join(f"{line}\n" for line in lines).encode()


def answers_of(check, name):
    """The lines of a worked example, and what answers each."""
    lines = list(lines_of(name))
    answers = ran([check.program, "run"], joined(lines), False).told.decode().splitlines()
    expect(len(lines) == len(answers), f"{name}: not every line is answered")
    wanted = FIRST_RUN.with_name("stdout") if name == "first-run" else DATA / f"{name}.out"
    expect(answers == wanted.read_text().splitlines(), f"{name}: other answers")
    return list(zip(lines, answers))


def accepted_of(check, name):
    """The same of those that are accepted."""
    return [(line, answer) for line, answer in answers_of(check, name) if answer.startswith('{"entries"')]


def made(check, name, lines):
    """A closed file with the lines."""
    path = check.folder / f"{name}.db"
    done = ran([check.program, "run", "--db", str(path)], joined(lines), False)
    expect(done.status == 0, f"{name}: no file is made: {done.said!r}")
    return path


def cases_of_files(check):
    """Files that are made, opened and brought along, and an import."""
    robot = made(check, "robot", [line for line, _ in accepted_of(check, "robot-build")])
    yield Case("a file is made", ON_FILE)
    yield Case("a file is opened", ON_FILE, base=robot)
    yield Case("an old file is brought along", MIGRATE, told=b"migrated\n", base=OLD)
    bought = made(check, "bought", [*lines_of("workshop"), *map(json.dumps, ORDERED)])
    receipts = check.folder / "receipts.csv"
    receipts.write_text(RECEIPTS)
    yield Case("receipts-import", [*IMPORT, str(receipts)], told=REPORT, base=bought)


def cases_of_lines(check):
    """The lines of each example on a shop, and those that are accepted on a file, where growths are refused behind its
    opening."""
    empty = made(check, "empty", [])
    opened, _ = check.unbroken(Case("no lines", ON_FILE, base=empty))
    for name in EXAMPLES:
        lines, answers = map(joined, zip(*answers_of(check, name)))
        yield Case(f"{name}, on a shop", ["run"], lines, answers)
        lines, answers = map(joined, zip(*accepted_of(check, name)))
        for where, alone in (("on a file", False), ("on a file line by line", True)):
            yield Case(f"{name}, {where}", ON_FILE, lines, answers, empty, alone, opened.asked + 1)


class Service:
    """The program as a server, on a file or on a shop."""

    def __init__(self, check, folder, growths, path):
        self.check, self.growths, self.path = check, growths, path
        self.said = open(folder / "said", "ab")
        self.begin()

    def begin(self):
        file = ["--db", str(self.path)] if self.path else []
        environment = self.growths.environment
        self.process, self.port = serve(self.check.program, *file, stderr=self.said, env=environment)

    def asked(self, body):
        """The status and the body of an answer: none where the connection ends without one."""
        try:
            status, _, answer = ask(self.port, "POST", "/run", body)
            return status, answer.decode()
        except (http.client.HTTPException, ConnectionError):
            return None, ""

    def end(self):
        self.process.send_signal(signal.SIGTERM)
        self.process.wait()
        self.process.stdout.close()

    def close(self):
        self.end()
        self.said.close()

    def left(self):
        """The tables that it leaves in its file, once it has ended and the program was started alone."""
        self.end()
        if not self.path:
            return None
        ended = ran([self.check.program, "run", "--db", str(self.path)], b"", False)
        expect(ended.status == 0, f"the file of a service isn't opened: {ended.said!r}")
        return tables_of(self.path)

    def has_kept(self, key):
        """Whether the file, with its log, has an answer under the key."""
        with copy_with_log(self.path) as conn:
            return conn.execute("SELECT count(*) FROM kept WHERE word = ?", (key,)).fetchone() == (1,)


def served_once(service, body, answer, number, is_one):
    """Sends a request whose growth of that number is refused, and sends it again where it isn't answered as it should
    be: what came of it. Where the database met the refusal, the service is started again."""
    wanted = (200, f"{answer}\n")
    before, first = service.growths.refused, service.growths.asked + number
    service.growths.refuse(first, first if is_one else EVERY_LATER)
    got = service.asked(body)
    service.growths.refuse_none()
    is_met = service.growths.refused > before
    if got == wanted:
        return "done without" if is_met else "not met"
    what = f"{body} at growth {number}"
    expect(is_met and got[0] in (None, 500, 503), f"{what}: answered {got}")
    is_kept = service.path is not None and service.has_kept(json.loads(body)["key"])
    again = service.asked(body)
    if again[0] == 500:
        expect(service.path and got[0] != 503, f"{what}: answered {got}, and then that the file failed")
        service.end()
        service.begin()
        again = service.asked(body)
    expect(again == wanted, f"{what}: answered {got}, and {again} when it is sent again")
    return "done, and told when sent again" if is_kept else "done when sent again"


class Served:
    """Requests that a service answers, on a file or on a shop. Their growths are counted from the last one, so that
    those that come once a request is done are met in each of them."""

    # So many of the last growths are all refused.
    LAST = 16

    def __init__(self, check, name, requests, has_file):
        self.check, self.name, self.requests, self.has_file = check, name, requests, has_file
        self.asked, self.tables = self.unbroken()

    @contextlib.contextmanager
    def service(self):
        with self.check.room() as (folder, growths):
            path = folder / "workshop.db" if self.has_file else None
            if path:
                shutil.copyfile(self.check.folder / "empty.db", path)
            with contextlib.closing(Service(self.check, folder, growths, path)) as service:
                yield service

    def unbroken(self):
        """How many growths each request asks for, and the tables after all."""
        with self.service() as service:
            counts = []
            for body, answer in self.requests:
                before = service.growths.asked
                got = service.asked(body)
                expect(got == (200, f"{answer}\n"), f"{self.name}: {body} is answered {got}")
                counts.append(service.growths.asked - before)
            return counts, service.left()

    def tried(self, left, is_one):
        """Sends the requests, of which each has a growth refused behind which so many are left: what came of each."""
        with self.service() as service:
            ways = [served_once(service, body, answer, max(asked - left, 1), is_one)
                    for (body, answer), asked in zip(self.requests, self.asked)]
            expect(service.left() == self.tables, f"{self.name}: other tables in the end")
            return ways

    def tried_throughout(self, tries):
        most = max(self.asked)
        last = min(self.LAST, most)
        places = [*range(last), *self.check.growths_of(last, most, tries)]
        started = [self.check.workers.submit(self.tried, left, n % 2 == 0) for n, left in enumerate(places)]
        return most, collections.Counter(way for it in started for way in it.result())


def tried_all(check):
    """Refuses growths to each run and to the services: the name of each, how many growths it, or a request of it, asks
    for, and what came of it."""
    on_shop, on_file = check.given.tries, max(2, check.given.tries // 5)
    for case in (*cases_of_files(check), *cases_of_lines(check)):
        if check.given.only in case.name:
            yield case.name, *check.tried_throughout(case, on_file if case.has_file() else on_shop)
    for example, where, tries in (("cell-shipped", "shop", on_shop), ("robot-build", "file", on_file)):
        name = f"{example} by HTTP, on a {where}"
        if check.given.only in name:
            served = Served(check, name, accepted_of(check, example), where == "file")
            yield name, *served.tried_throughout(tries)


def in_words(ends):
    return ", ".join(f"{count} {way}" for way, count in sorted(ends.items()))


def main():
    words = reader_of_words(__doc__)
    words.add_argument("--tries", type=int, default=40)
    words.add_argument("--every", action="store_true")
    words.add_argument("--only", default="")
    words.add_argument("--seed", type=int, default=1)
    words.add_argument("--at-once", type=int, default=os.cpu_count())
    given = words.parse_args()
    begin, all_ends = time.monotonic(), collections.Counter()
    with tempfile.TemporaryDirectory(ignore_cleanup_errors=True) as name:
        with contextlib.closing(Check(given, pathlib.Path(name).resolve())) as check:
            for what, asked, ends in tried_all(check):
                print(f"{what}: {asked} growths; {in_words(ends)}", flush=True)
                all_ends += ends
    print(f"check_memory: {in_words(all_ends)}, in {time.monotonic() - begin:.0f} s: all as it should be")


if __name__ == "__main__":
    main()
