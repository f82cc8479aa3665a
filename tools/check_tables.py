#!/usr/bin/env python3
"""Looks whether `docs/TABLES.md` tells the tables of a file as they are: each table and column with its kind as the
file has it, each code and its word as the sources have them, also in `contrib/views.sql`, and what a column names.
Runs what stands there, each command by a shell, and compares what comes back byte for byte: `sqlite3` by Python's
module, and by the shell of that name where it is installed. Asks its ten questions, and the views whole, of made-up
books too, and compares the answers with the program's lists and reports, or with its exports; and looks whether a file
that was asked is still one that the program opens. Where a server of PostgreSQL is installed, it starts one in a
temporary folder, loads the books as the document says, and asks the same.

usage: tools/check_tables.py PROGRAM"""
import contextlib
import csv
import functools
import glob
import io
import os
import pathlib
import pwd
import re
import shutil
import signal
import sqlite3
import subprocess
import tempfile
import time

from check_tutorial import commands, difference, outputs
from machine.machine import Machine
from machine.reports import answer, answer_line
from made_small import workshop
from recalled import Books, run_lines
from shared import TOP, expect, reader_of_words, run

DOCUMENT, CONTRIB = "TABLES.md", TOP / "contrib"
VIEWS, LOADER = CONTRIB / "views.sql", CONTRIB / "tables.sql"
SECTION = r"(?ms)^### (.+?)\n(.*?)(?=^##|\Z)"
# Where the sources have the codes that stand under each heading, and their words where these aren't the names; and
# what the view of codes calls them.
CODES = {
    "Flags of parts": ("part_core/specs/PartColumns", "flags_number", None, None),
    "Flags of lines": ("bom_core/specs/BillColumns", "line_flags_number", None, None),
    "Places": ("forest/specs/PlaceColumns", "place_code", None, None),
    "Reasons": ("forest/specs/PlaceColumns", "reason_code", ("yard_core/specs/EntryLines", "reason_name"), "reason"),
    "Statuses": ("word_core/specs/Status", "status_code", ("word_core/specs/Status", "status_name"), "status"),
    "Kinds": ("forest/specs/Forest", "kind_code", ("yard_core/specs/EntryLines", "kind_name"), "kind"),
    "Sides": ("word_core/specs/Side", "side_code", ("word_core/specs/Side", "side_name"), "side"),
    "States of orders": ("order_core/specs/OrderColumns", "state_code",
                         ("list_core/specs/OrderList", "order_state_name"), "order"),
    "States of builds": ("build_core/specs/BuildColumns", "state_code",
                         ("list_core/specs/BuildList", "build_state_name"), "build"),
    "What allocations are for": ("alloc_core/specs/AllocationColumns", "purpose_side", None, None),
}
SUMS = "received found built returned present consumed shipped written".split()
MADE_UP = 700


# -- what the document tells

def sections():
    """The text under each heading of the document that has a table, without its code."""
    return dict(re.findall(SECTION, (TOP / "docs" / DOCUMENT).read_text()))


def rows_under(text):
    rows = [[it.strip(" `") for it in line.strip("| ").split(" | ")] for line in text.split("\n") if line[:1] == "|"]
    return rows[2:]


def tables_told():
    """Each table that the document has, with its columns: the name, the kind, and what is said of it."""
    return {title.strip("`"): rows_under(text) for title, text in sections().items() if title.startswith("`")}


def codes_told():
    """The words of the codes under each heading."""
    found = {title: rows_under(text) for title, text in sections().items() if not title.startswith("`")}
    return {title: {int(code): word for code, word, *_ in rows} for title, rows in found.items() if rows}


def spec(path):
    return (TOP / "crates" / f"{path}.antt").read_text()


def codes_of(path, function, names, _):
    """The words of codes by the definition of a function that tells their numbers."""
    text = spec(path)
    if function.endswith("flags_number"):
        body = re.search(rf"(?m)^{function} f =\n((?: .*\n)+)", text)[1]
        return {int(n or 1): word for n, word in re.findall(r"(?:(\d+) \* )?yes_number f\.(?:is_)?(\w+)", body)}
    found = {name: int(n) for name, n in re.findall(rf"(?m)^{function} \(?(\w+)[^=\n]*= (\d+)$", text)}
    said = {name: name.lower() for name in found}
    if names:
        said = dict(re.findall(rf'(?m)^{names[1]} (\w+) = codes "(.*)"$', spec(names[0])))
    expect(found and found.keys() == said.keys(), f"{path}: the words of {function} aren't found")
    return {n: said[name] for name, n in found.items()}


def try_codes(conn):
    told, seen = codes_told(), {}
    for what, code, word in conn.execute("SELECT what, code, word FROM codes"):
        seen.setdefault(what, {})[code] = word
    expect(told.keys() == CODES.keys(), f"codes are told under {[*told]}, and not {[*CODES]}")
    for title, where in CODES.items():
        wanted = codes_of(*where)
        expect(told[title] == wanted, f"under {title!r} stands {told[title]}, and not {wanted}")
        expect(not where[3] or seen.pop(where[3], None) == wanted, f"views.sql has other words for {title!r}")
    expect(not seen, f"views.sql has codes of {[*seen]}")
    return sum(map(len, told.values()))


def try_tables(conn):
    """The tables and columns of a file, beside those that are told and those that PostgreSQL gets."""
    told, loader = tables_told(), " ".join(LOADER.read_text().split())
    names = [name for name, in conn.execute("SELECT name FROM sqlite_schema WHERE type = 'table' ORDER BY rowid")]
    expect([*told] == names, f"tables {[*told]} are told, and not {names}")
    expect(re.search(r"TRUNCATE (.*?);", loader)[1].split(", ") == names, "tables.sql empties other tables")
    expect(re.findall(r"\\copy (\w+) FROM '(\w+).csv' CSV HEADER", loader) == [(it, it) for it in names],
           "tables.sql copies other tables")
    for name in names:
        columns = conn.execute(f"PRAGMA table_info({name})").fetchall()
        wanted = [[column, {"INTEGER": "number", "TEXT": "text"}[kind] + ("" if full or key else " or nothing")]
                  for _, column, kind, full, _, key in columns]
        expect([row[:2] for row in told[name]] == wanted, f"columns of {name} are told otherwise than {wanted}")
        kinds = {"number": "bigint", "text": "text"}
        loaded = [f"{column} {kinds[kind.split()[0]]}" + (" NOT NULL" if kind in kinds else "")
                  for column, kind in wanted]
        loaded[0] = loaded[0].replace("NOT NULL", "PRIMARY KEY")
        expect(f"CREATE TABLE IF NOT EXISTS {name} ({', '.join(loaded)});" in loader, f"tables.sql has another {name}")
    return sum(map(len, told.values()))


def try_values(conn):
    """Each value of a column is a code that is told, or the number of a row that the column names."""
    codes, count = codes_told(), 0
    slugs = {title.lower().replace(" ", "-"): title for title in codes}
    for table, columns in tables_told().items():
        for column, _, text in columns:
            values = {it for it, in conn.execute(f"SELECT DISTINCT {column} FROM {table}")} - {None}
            named = re.findall(r"`?(\w+)\.(id)`?", text)
            for slug in re.findall(r"\(#([\w-]+)\)", text):
                allowed = set(codes[slugs[slug]])
                if "a sum of" in text:
                    allowed = set(range(2 * max(allowed)))
                expect(values <= allowed, f"{table}.{column} has {sorted(values - allowed)}, which no code is")
            if named:
                rows = {it for other, key in named for it, in conn.execute(f"SELECT {key} FROM {other}")}
                rows |= {0} if text.endswith("or 0") else set()
                expect(values <= rows, f"{table}.{column} has {sorted(values - rows)[:9]}, which no row is")
            count += bool(named) or "(#" in text
    for table in "items", "history":
        for code, _, _, ref in rows_under(sections()["Places"]):
            values = {it for it, in conn.execute(f"SELECT DISTINCT ref FROM {table} WHERE place = {code}")}
            other = re.match(r"(\w+)\.id", ref)
            rows = {0} if ref == "0" else set(codes["Reasons"]) if "#reasons" in ref else {
                it for it, in conn.execute(f"SELECT id FROM {other[1]}")}
            expect(values <= rows, f"{table}.ref has {sorted(values - rows)[:9]} at place {code}")
    return count


# -- what the program tells of a file

class Told:
    """What the program tells of a file by its lists, reports and exports."""

    def __init__(self, program, path):
        self.program, self.path = program, path

    @functools.lru_cache(maxsize=None)
    def said(self, *words):
        done = run(self.program, words[0], "--db", self.path, *words[1:], lines=b"")
        expect(done.returncode == 0, f"{words} end with {done.returncode}: {done.stderr.decode()}")
        return done.stdout.decode()

    def rows(self, *words):
        """The rows of a list or of an export, by the names of its columns."""
        return list(csv.DictReader(io.StringIO(self.said(*words), newline="")))

    def shown(self, *words):
        return self.rows("show", "--csv", *words)

    def table(self, name):
        return self.rows("export", name)

    def report(self, *words):
        return [line.split("\t") for line in self.said("report", *words).split("\n")[:-1]]

    @functools.cached_property
    def names(self):
        return {it["id"]: it["name"] for it in self.table("parts")}

    @functools.cached_property
    def items(self):
        return {it["id"]: it for it in self.table("items")}

    @functools.cached_property
    def ways(self):
        """The way to each location."""
        found = {}
        for it in self.table("locations"):
            found[it["id"]] = f"{found[it['parent']]} / {it['name']}" if it["parent"] else it["name"]
        return found

    def place(self, code, ref):
        """A place in words."""
        def of_build():
            return self.names[next(it["part"] for it in self.table("builds") if it["id"] == ref)]

        def partner():
            return next(it["partner"] for it in self.table("orders") if it["id"] == ref)

        item = self.items.get(ref)
        return [
            lambda: self.ways[ref], lambda: f"in item {ref} ({self.names[item['part']]} {item['serial']})",
            lambda: f"begun by build {ref} of {of_build()}", lambda: f"sent for order {ref} to {partner()}",
            lambda: f"used by build {ref} of {of_build()}",
            lambda: "off the books: " + codes_told()["Reasons"][int(ref)], lambda: "gone"][int(code)]()

    @functools.cached_property
    def entries(self):
        """The history in words."""
        kinds, found = codes_told()["Kinds"], []
        for it in self.table("history"):
            item = self.items[it["item"]]
            found.append({**it, "kind": kinds[int(it["kind"])], "name": self.names[it["part"]], "batch": item["batch"],
                          "serial": item["serial"], "place": self.place(it["place"], it["ref"])})
        return found

    @functools.cached_property
    def last(self):
        """The day on which something happened to each part for the last time."""
        found = {}
        for it in self.entries:
            found[it["part"]] = max(it["day"], found.get(it["part"], ""))
        return found

    def lying(self, location):
        """What lies at a location and below it, each with its way."""
        way = None
        for it in self.shown("at", location):
            way = it["way"] or way
            yield {**it, "way": way, "name": it["name"][2 * int(it["depth"]) - 2:]}

    def path_of(self, item):
        """The item and those that it lies in, the outermost last."""
        while self.items[item]["place"] == "1":
            yield item
            item = self.items[item]["ref"]
        yield item

    # the answers to the ten questions, in their order

    def answers(self, about):
        return [self.present(), self.at(about["location"]), self.outstanding("purchase", "wanted", "outstanding"),
                self.outstanding("sale", "outstanding", "allocated"), self.sent(),
                self.happened(about["part"], about["serial"]), self.became(about["other"]), self.used(),
                self.written(), self.still(about["day"])]

    def present(self):
        return [[it["name"], it["present"], it["free"]] for it in self.shown("stock")]

    def at(self, location):
        number = next(n for n, way in self.ways.items() if way == location)
        found = sorted(self.lying(number), key=lambda it: (it["way"], int(it["item"])))
        return [[it[name] for name in "way item name quantity free batch serial status".split()] for it in found]

    def outstanding(self, side, *amounts):
        found = [it for it in self.shown("orders") if it["side"] == side and int(it["outstanding"] or 0)]
        found.sort(key=lambda it: int(it["line"]))
        return [[it["partner"], it["order"], it["name"], *(it[name] for name in amounts)] for it in found]

    def sent(self):
        found, orders = [], {it["id"]: it["partner"] for it in self.table("orders")}
        for n, it in self.items.items():
            *_, root = way = [*self.path_of(n)]
            if self.items[root]["place"] == "3":
                row = [str(len(way)), self.names[it["part"]], it["quantity"], it["batch"], it["serial"]]
                order = self.items[root]["ref"]
                found.append(((int(order), int(root), len(way), int(n)), [orders[order], order, *row]))
        return [row for _, row in sorted(found)]

    def happened(self, part, serial):
        """What the reports tell of the items of that part and serial."""
        told = [line for n, it in self.items.items() if (self.names[it["part"]], it["serial"]) == (part, serial)
                for line in self.report("history", n)]
        codes = {word: code for code, word in codes_told()["Places"].items()}
        reasons = {word: str(code) for code, word in codes_told()["Reasons"].items()}
        for line in sorted(told, key=lambda line: int(line[0])):
            word, ref, *_ = [*line[4].split(), "0"]
            line[4] = self.place(codes[word], reasons.get(ref, ref))
            yield line

    def became(self, part):
        number = next(n for n, name in self.names.items() if name == part)
        sums = dict(self.report("ledger", number)[1:])
        return [[sums[name] for name in SUMS]]

    def used(self):
        found = {}
        for it in self.entries:
            if it["kind"] == "consumed":
                month = it["day"][:7], int(it["part"])
                found[month] = found.get(month, 0) + int(it["quantity"])
        return [[month, self.names[str(part)], str(count)] for (month, part), count in sorted(found.items())]

    def written(self):
        return [[it[name] for name in "day name quantity batch serial place".split()]
                for it in self.entries if it["kind"] == "written"]

    def still(self, day):
        return [[it["name"], it["present"], self.last[it["number"]]] for it in self.shown("stock")
                if int(it["present"]) and self.last[it["number"]] < day]

    # the views whole

    def views(self):
        tops = [it["id"] for it in self.table("locations") if not it["parent"]]
        numbers = {way: n for n, way in self.ways.items()}
        lying = sorted((it for top in tops for it in self.lying(top)), key=lambda it: int(it["item"]))
        allocated = {}
        for it in self.table("allocations"):
            allocated[it["item"]] = allocated.get(it["item"], 0) + int(it["quantity"])
        yield "SELECT * FROM stock_by_location ORDER BY item", [
            [numbers[it["way"]], *(it[name] for name in "way depth item part name quantity".split()),
             str(allocated.get(it["item"], 0)), *(it[name] for name in "free batch serial status".split())]
            for it in lying]
        yield "SELECT * FROM history_in_words ORDER BY n", [
            [it[name] for name in "n day kind item part name quantity batch serial place".split()]
            for it in self.entries]
        columns = "order side state partner line part name wanted done allocated outstanding".split()
        yield "SELECT * FROM orders_in_words ORDER BY number, line", [
            [it[name] for name in columns] for it in self.shown("orders")]
        yield f"SELECT part, {', '.join(SUMS)}, sent FROM what_became ORDER BY part", [
            [n, *(sums[name] for name in SUMS), sums["sent"]]
            for n in self.names for sums in [dict(self.report("ledger", n)[1:])]]


def about(told):
    """What the questions are asked about in these books: the location with most on it, the piece with a serial and the
    part to which most happened, and a day before which something happened to some parts for the last time."""
    roots = [told.items[[*told.path_of(n)][-1]] for n in told.items]
    at = [told.ways[it["ref"]].split(" / ")[0] for it in roots if it["place"] == "0"]
    pieces = [(it["name"], it["serial"]) for it in told.entries if it["serial"]]
    parts, last = [it["name"] for it in told.entries], sorted(told.last.values())
    part, serial = max(pieces, key=pieces.count)
    return {"location": max(at, key=at.count), "part": part, "serial": serial, "other": max(parts, key=parts.count),
            "day": last[len(last) // 2]}


ASKED = {"location": "Store", "part": "Lamp", "serial": "L3", "other": "Driver", "day": "2030-02-01"}


def questions():
    """The SQL of each question of the document."""
    return ["".join(line + "\n" for line in text.split("\n")[1:-2])
            for _, text, _ in commands(f"docs/{DOCUMENT}") if text.startswith("sqlite3")]


def asked_about(sql, subject):
    """The SQL with other names and another day in the place of those that stand there."""
    for what, name in ASKED.items():
        sql = re.sub(rf"'{name}(?=['% /])", lambda _, to=subject[what]: "'" + to.replace("'", "''"), sql)
    return sql


def same_rows(sql, rows, wanted):
    rows, wanted = [["" if it is None else str(it) for it in row] for row in rows], [list(it) for it in wanted]
    other = next((pair for pair in zip(rows, wanted) if pair[0] != pair[1]), (len(rows), len(wanted)))
    expect(rows == wanted, f"{other[0]}, and not {other[1]}, is answered to\n{sql}")


@contextlib.contextmanager
def with_views(path):
    with contextlib.closing(sqlite3.connect(path)) as conn:
        conn.executescript(VIEWS.read_text())
        yield conn


def wanted_of(told):
    """What is asked of books, with what has to be answered."""
    subject = about(told)
    sqls = [asked_about(sql, subject) for sql in questions()]
    wanted = [[list(row) for row in rows] for rows in told.answers(subject)]
    expect(len(sqls) == len(wanted) == 10, f"there are {len(sqls)} questions")
    return [*zip(sqls, wanted), *told.views()]


def try_backup(program, path):
    """The program opens a file that was asked by views of a session, and none with a view that stays."""
    words = program, "show", "--db", path, "stock"
    expect(run(*words).returncode == 0, "a file that was asked isn't opened")
    with contextlib.closing(sqlite3.connect(path)) as conn:
        conn.execute("CREATE VIEW more AS SELECT 1")
    expect("no workshop's" in run(*words).stderr, "a file with a view is opened")


# -- books

def small_lines():
    """The lines of the small workshop, with numbers as they are drawn."""
    m, lines = Machine(), []

    def do(verb, **fields):
        lines.append(answer_line({"do": verb, "day": "2030-01-02", **fields}).encode())
        told = answer(m, lines[-1], len(lines))
        expect("ids" in told, f"{lines[-1]} is answered {told}")
        return told["ids"]

    workshop(do)
    return lines


def made_books(program, top):
    """Made-up books, in which most has happened, and a small workshop with names that look like markup."""
    for name, lines in ("made-up", Books(11, MADE_UP, True, 0.2).lines), ("small", small_lines()):
        path = os.path.join(top, f"{name}.db")
        run_lines(program, path, lines)
        yield path


# -- PostgreSQL

def installed(name):
    """A program of a server, from where Debian has these or from the path, or none."""
    there = sorted(glob.glob(f"/usr/lib/postgresql/*/bin/{name}"))
    return there[-1] if there else shutil.which(name)


def started(folder):
    """Starts a server in the folder, which the environment says then: its process. It doesn't run as root."""
    user = pwd.getpwuid(os.getuid()).pw_name
    if os.getuid() == 0:
        user = next(it.pw_name for it in pwd.getpwall() if it.pw_name in ("postgres", "nobody"))
        shutil.chown(folder, user)
    how = {"user": user if os.getuid() == 0 else None, "cwd": folder, "stdout": subprocess.DEVNULL}
    words = [installed("initdb"), "-D", f"{folder}/data", "-U", user, "-A", "trust", "-E", "UTF8", "--locale=C", "-N"]
    subprocess.run(words, check=True, **how)
    os.environ.update(PGHOST=folder, PGUSER=user)
    words = [installed("postgres"), "-D", f"{folder}/data", "-k", folder, "-c", "listen_addresses=", "-c", "fsync=off"]
    process = subprocess.Popen(words, stderr=subprocess.DEVNULL, **how)
    for _ in range(300):
        if subprocess.run(["psql", "-d", "postgres", "-c", ""], capture_output=True, check=False).returncode == 0:
            return process
        time.sleep(0.1)
    process.kill()
    process.wait()
    return None


@contextlib.contextmanager
def server():
    """A server of PostgreSQL in a temporary folder: whether there is one here."""
    process = None
    with tempfile.TemporaryDirectory() as folder:
        if all([installed("initdb"), installed("postgres"), shutil.which("psql"), shutil.which("createdb")]):
            try:
                process = started(folder)
            except (OSError, StopIteration, subprocess.CalledProcessError) as fault:
                print(f"check_tables: PostgreSQL is here and can't be started: {fault}")
        try:
            yield process is not None
        finally:
            if process:
                process.send_signal(signal.SIGINT)
                process.wait()


def try_postgres(told, wanted, folder):
    """The same answers by PostgreSQL, once the exports are loaded as the document says."""
    name = pathlib.Path(told.path).stem
    folder = pathlib.Path(folder, f"{name}-exports")
    folder.mkdir()
    for table in tables_told():
        (folder / f"{table}.csv").write_bytes(told.said("export", table).encode())
    subprocess.run(["createdb", name], check=True)
    psql, how = ["psql", "-q", "-v", "ON_ERROR_STOP=1", "-d", name], {"cwd": folder, "text": True}
    subprocess.run([*psql, "-1", "-f", LOADER], check=True, **how)
    subprocess.run(psql, input=VIEWS.read_text().replace("TEMP ", ""), check=True, **how)
    # Once more, as each night.
    subprocess.run([*psql, "-1", "-f", LOADER], check=True, **how)
    for sql, rows in wanted:
        done = subprocess.run([*psql, "-t", "--csv", "-c", sql], capture_output=True, check=False, **how)
        expect(done.returncode == 0, f"PostgreSQL: {done.stderr}{sql}")
        same_rows(f"PostgreSQL: {sql}", csv.reader(io.StringIO(done.stdout, newline="")), rows)


# -- the document

def has_pandas():
    return subprocess.run(["python3", "-c", "import pandas"], capture_output=True, check=False).returncode == 0


def is_tried(command, has_server):
    """Whether what a command needs is here."""
    if "createdb" in command or "psql" in command:
        return has_server
    return "pandas" not in command or has_pandas()


def try_document(program, has_server):
    """Runs the document, and its questions once more by the shell of sqlite where that is installed."""
    steps = [step for step in commands(f"docs/{DOCUMENT}") if is_tried(step[1], has_server)]
    shell = shutil.which("sqlite3")
    if shell:
        steps += [[n, f"{shell}{text[7:]}", wanted] for n, text, wanted in steps if text.startswith("sqlite3")]
    beside = [TOP / "docs" / "tables", CONTRIB]
    told = outputs(program, steps, *beside, sqlite3=TOP / "tools" / "sqlite_shell.py")
    for (number, _, wanted), it in zip(steps, told):
        other = difference(wanted, it)
        expect(other is None, f"docs/{DOCUMENT}:{number}: the command answers {other}")
    return len(steps)


def main():
    program = reader_of_words(__doc__).parse_args().program
    with tempfile.TemporaryDirectory() as top, server() as has_server:
        count, asked, answered = try_document(program, has_server), 0, set()
        for path in made_books(program, top):
            told = Told(program, path)
            wanted = wanted_of(told)
            with with_views(path) as conn:
                columns, codes, values = try_tables(conn), try_codes(conn), try_values(conn)
                for sql, rows in wanted:
                    same_rows(sql, conn.execute(sql).fetchall(), rows)
            if has_server:
                try_postgres(told, wanted, top)
            try_backup(program, path)
            asked += len(wanted)
            answered |= {at for at, (_, rows) in enumerate(wanted) if rows}
    expect(len(answered) == len(wanted), f"only the questions {sorted(answered)} have an answer with rows")
    seen = "PostgreSQL too" if has_server else "no server of PostgreSQL is here"
    seen += "" if has_pandas() else ", pandas isn't here"
    shown = f"{columns} columns, {codes} codes, {values} columns that name something"
    print(f"check_tables: {count} commands, {asked} answers, {shown}, {seen}: all as they should be")


if __name__ == "__main__":
    main()
