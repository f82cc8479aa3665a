#!/usr/bin/env python3
"""Compares the program with the rules written once more in Python: sends requests that are made up as a workshop would
send them, with and without a file, and looks at every answer, every report, the exit status and every table. With a
file the program ends and begins again between, a delivery or a stocktake is imported each time, and in the end the
books have small limits. Each tenth run is of lines that fit nothing, most of them faulty. In each third run rows are
said by what they are called, on lines, in files and as words of a report. Half of the runs have a journal: the keys
that it gives stand in the table of what is kept, and where none of them is said the same lines are answered alike
without it. In the end every list is shown, in columns and as comma-separated values.

usage: tools/check_machine.py PROGRAM [--runs N] [--lines N] [--seed N]"""
import contextlib
import csv
import dataclasses
import io
import json
import os
import random
import sqlite3
import sys
import tempfile

import compare_lines
from machine import lists, traces
from machine.imports import imported
from machine.lines import COMMANDS, FIELDS, REPORTS
from machine.machine import Machine
from machine.made_names import STRANGE_NAMES, Caller, word_of
from machine.made_up import Maker
from machine.names import Names, said
from machine.reports import HEADERS, answer, answer_line, printed, table
from shared import reader_of_words, run

WRONG = [None, True, 0, -1, 1.5, 1e3, "", "x", "7", [], [1], {}, 2**64, 2**64 - 1, "a\tb", "x" * 201, "é" * 101]


@dataclasses.dataclass
class Stop:
    """Where the program ends: after so many lines, with other limits or none, with the import of a file, and with
    reports that words ask for."""

    at: int
    limits: tuple
    asked: tuple
    wanted: tuple
    reports: list


class Run:
    """The lines of one run, what the machine answers each, and where the program is stopped and started again."""

    def __init__(self, seed, with_names=False, journal=False):
        self.r, self.m, self.with_names, self.journal = random.Random(seed), Machine(), with_names, journal
        self.maker = Maker(self.r, self.m, STRANGE_NAMES if with_names else ())
        self.caller = Caller(self.r, self.m) if with_names else None
        self.words = ["--names"] if with_names else []
        self.run_words = [*self.words, "--journal"] if journal else self.words
        # On a file requests say keys, too, that the journal would give, and may be KeyTaken by that.
        self.says_soon = journal and seed % 2 == 1
        self.lines, self.wanted, self.stops, self.keyed, self.told = [], [], [], [], []

    def send(self, line):
        begin = self.stops[-1].at if self.stops else 0
        self.lines.append(line)
        self.wanted.append(answer(self.m, line, len(self.lines) - begin, self.with_names, self.journal))
        return self.wanted[-1]

    def stop(self, with_limits):
        """Ends the program's run here. A file is imported, and the next run may find other limits in the books."""
        limits = None
        if with_limits:
            limits = self.m.next + self.r.randint(0, 40), len(self.m.history) + self.r.randint(0, 60)
            self.m.most_numbers, self.m.most_entries = limits
        kind, held = self.maker.file(self.caller)
        asked = kind, f"D{self.r.randint(1, 3)}", "2031-02-03", held
        wanted = imported(self.m, *asked, self.with_names)
        reports = [self.report_by_words() for _ in range(6)] if self.caller else []
        self.stops.append(Stop(len(self.lines), limits, asked, wanted, reports))

    def report_by_words(self):
        """The name of a report, the word for what it is of, and what is printed, with the status."""
        name, word = self.r.choice(list(REPORTS)), ""
        while not word or word.startswith("-"):
            word = word_of(self.caller.call(REPORTS[name], self.row_of(name)))
        return name, word, printed(self.m, name, word)

    def request(self):
        do, made = self.maker.request()
        told = self.send(self.line_of(do, made))
        self.told.append((do, told.get("refused") or ("done" if "ids" in told else "a fault")))

    def line_of(self, do, made):
        """A request's line: with or without a key, now and then an earlier one of a key, or one that is damaged."""
        r = self.r
        members = {"do": do, "day": f"20{r.randint(0, 99):02}-{r.randint(1, 12):02}-{r.randint(1, 28):02}"}
        if self.journal and r.random() < 0.8:
            members["day"] = r.choice(["2030-01-02", "2030-01-03"])
        for name, _, is_optional in FIELDS[do]:
            may_lack = is_optional and made[name] is None or made[name] is False
            if not may_lack or r.random() < 0.3:
                members[name] = made[name]
        if r.random() < 0.1:
            soon = f"{members['day']}/{len(self.m.kept) + r.randint(1, 8)}"
            members["key"] = soon if self.says_soon and r.random() < 0.4 else f"k{r.randint(1, 10**9)}"
            self.keyed.append(dict(members))
        elif self.keyed and r.random() < 0.03:
            members = {**r.choice(self.keyed), "day": members["day"]}
            if r.random() < 0.3:
                members[r.choice([it for it in members if it not in ("do", "key")])] = r.choice([1, 2, None, "A", True])
        elif self.keyed and r.random() < 0.02:
            members["key"] = r.choice(self.keyed)["key"]
        if r.random() < 0.02:
            members[r.choice(list(members))] = r.choice(WRONG)
        if r.random() < 0.005:
            del members[r.choice(list(members))]
        if r.random() < 0.005:
            members[r.choice(["x", "of", "report", "Do", ""])] = r.choice([None, 1, "ledger"])
        if self.caller:
            members = self.caller.members(members)
        names = r.sample(list(members), len(members))
        return json.dumps({it: members[it] for it in names}, ensure_ascii=r.random() < 0.5).encode()

    def report(self, name, number):
        of = self.caller.call(REPORTS[name], number) if self.caller else number
        self.send(json.dumps({"of": of, "report": name}).encode())

    def row_of(self, name):
        """The number of a row that there is such a report of, now and then of none."""
        return self.r.choice([*getattr(self.m, REPORTS[name]), 0])

    def any_report(self):
        name = self.r.choice(list(REPORTS))
        self.report(name, self.row_of(name))

    def every_report(self):
        for name, rows in REPORTS.items():
            for number in list(getattr(self.m, rows)):
                self.report(name, number)


def workshop(seed, count, **how):
    """A run of requests that fit the state."""
    made = Run(seed, **how)
    last = count - count // 8
    for at in range(count):
        if seed % 2 and at in (count // 3, 2 * count // 3, last):
            made.stop(with_limits=at == last)
        made.request()
        if made.r.random() < 0.04:
            made.any_report()
    made.every_report()
    return made


def wild(seed, count, **how):
    """A run of lines that fit nothing."""
    made = Run(seed, **how)
    for line in compare_lines.lines(count, seed, 0.5 if made.with_names else 0):
        made.send(line)
    return made


def run_on(program, words, path, lines):
    """Runs the program with these words on the lines, with the file or without one."""
    on_file = ["--db", path] if path else []
    return run(program, "run", *words, *on_file, lines=b"".join(it + b"\n" for it in lines))


def import_fault(program, words, path, stop):
    """What an import told otherwise than it should, or an empty text."""
    kind, document, day, held = stop.asked
    with open(path + ".csv", "wb") as file:
        file.write(held)
    asked = ["--kind", kind, "--document", document, "--day", day]
    done = run(program, "import", *words, "--db", path, *asked, path + ".csv", lines=b"")
    told = done.stdout.decode(), done.returncode
    return "" if told == stop.wanted else f"{held!r} is told as {told}, and not as {stop.wanted}"


def report_fault(program, words, path, asked):
    """What a report that words ask for told otherwise than it should, or an empty text."""
    name, word, wanted = asked
    done = run(program, "report", *words, "--db", path, name, word, lines=b"")
    told = done.stdout.decode(), bool(done.stderr), done.returncode
    return "" if told == wanted else f"{name} of {word!r} is told as {told}, and not as {wanted}"


def told_by(program, made, path):
    """The program's answers to a run's lines, and what else was not as it has to be."""
    answers, begin = [], 0
    for stop in [*made.stops, None]:
        end = stop.at if stop else len(made.lines)
        told = run_on(program, made.run_words, path if made.stops else None, made.lines[begin:end])
        answers += told.stdout.decode().split("\n")[:-1]
        status = int(any(it and it.keys() & {"refused", "fault"} for it in made.wanted[begin:end]))
        if told.stderr or told.returncode != status:
            return answers, f"status {told.returncode} and not {status}; {told.stderr.decode()}"
        if stop and stop.limits:
            with contextlib.closing(sqlite3.connect(path)) as file, file:
                file.execute("update meta set max_numbers = ?, max_entries = ?", stop.limits)
        fault = import_fault(program, made.words, path, stop) if stop else ""
        for asked in stop.reports if stop else []:
            fault = fault or report_fault(program, made.words, path, asked)
        if fault:
            return answers, fault
        begin = end
    return answers, ""


def plain_fault(program, made):
    """Which answer of a run with a journal isn't that of the same lines without one, or None. Not looked at are runs
    that may say keys which the journal gave: as their own, or as what rows are called."""
    if not made.journal or made.says_soon or made.with_names:
        return None
    told = [run_on(program, words, None, made.lines).stdout.split(b"\n") for words in (made.run_words, made.words)]
    if told[0] == told[1]:
        return None
    other = next((pair for pair in zip(*told) if pair[0] != pair[1]), [len(it) for it in told])
    return f"with a journal {other[0]!r}, and {other[1]!r} without"


def table_of(program, path, name):
    told = run(program, "export", "--db", path, name, lines=b"").stdout.decode()
    return list(csv.reader(io.StringIO(told, newline="")))


def words_to_find(made):
    """Some words that find something, and one that finds nothing."""
    m, r = made.m, made.r
    texts = [it.name for it in (*m.parts.values(), *m.locations.values())]
    texts += [text for it in m.items.values() for text in (it.serial, it.batch) if text] + list(m.kept)
    for text in r.sample(sorted(texts), min(6, len(texts))):
        begin = r.randint(0, len(text) - 1) if r.random() < 0.5 else 0
        word = text[begin:] if r.random() < 0.5 else text[: r.randint(1, len(text))]
        if not word.startswith("-"):
            yield word
    yield "no such thing"


def lists_by_words(made):
    """Lists whose row is said by a plain word: a location by its way, an item by its serial, a part by its name."""
    m, r, names = made.m, made.r, Names(made.m)
    ways = {lists.way(m.locations, it): it for it in m.locations}
    serials = {}
    for number, it in m.items.items():
        if it.serial and it.place[0] != "gone":
            serials.setdefault(it.serial, []).append(number)
    alone = {serial: found[0] for serial, found in serials.items() if len(found) == 1}
    for word in r.sample(sorted(ways), min(4, len(ways))):
        if is_plain(word) and names.found("locations", word) == [ways[word]]:
            yield ["at", word], lists.at(m, ways[word])
    for word in r.sample(sorted(alone), min(4, len(alone))):
        if is_plain(word):
            yield ["item", word], lists.item(m, alone[word])
            yield ["history", word], lists.history(m, (names.parts(word) or [alone[word]])[0])
    for number in r.sample(sorted(m.parts), min(3, len(m.parts))):
        if is_plain(m.parts[number].name):
            yield ["history", m.parts[number].name], lists.history(m, number)


def is_plain(word):
    """Whether a word is neither a number nor JSON, nor one that begins as an option does."""
    return isinstance(said(word), str) and not word.startswith("-")


def asked_lists(made):
    """The words of lists, and the rows that they have to show."""
    m, r = made.m, made.r
    low = r.choice([0, 1, 5, 100, 10**18])
    yield ["stock"], lists.stock(m)
    yield ["--low", str(low), "stock"], lists.stock(m, low)
    for words, only_open in ([], False), (["--open"], True):
        yield ["orders", *words], lists.orders(m, only_open)
        yield ["builds", *words], lists.builds(m, only_open)
    yield ["shortages"], lists.shortages(m)
    yield ["count-sheet"], lists.count_sheet(m)
    yield ["receipt-sheet"], lists.receipt_sheet(m)
    days = sorted({it.day for it in m.history}) or ["2030-01-01"]
    first, last = sorted(r.choices(days, k=2))
    yield ["history"], lists.history(m)
    yield ["history", "--from", first, "--to", last], lists.history(m, None, first, last)
    for of in r.sample(sorted([*m.parts, *m.items, *m.orders]), min(6, len(m.parts))):
        yield ["history", str(of), "--from", first], lists.history(m, of, first)
    for order in r.sample(sorted(m.orders), min(3, len(m.orders))):
        yield ["receipt-sheet", str(order)], lists.receipt_sheet(m, order)
    for place in r.sample(sorted(m.locations), min(4, len(m.locations))):
        yield ["at", str(place)], lists.at(m, place)
        yield ["count-sheet", str(place)], lists.count_sheet(m, place)
    for part in r.sample(sorted(m.parts), min(6, len(m.parts))):
        yield ["part", str(part)], lists.part(m, part)
    for item in r.sample(sorted(m.items), min(6, len(m.items))):
        yield ["item", str(item)], lists.item(m, item)
        yield ["trace-back", str(item)], traces.back(m, [item])
    for batch in sorted({it.batch for it in m.items.values() if it.batch}):
        yield ["trace-forward", batch], traces.forward(m, traces.roots_forward(m, batch, None))
    for word in words_to_find(made):
        yield ["find", word], lists.find(m, word)
    yield from lists_by_words(made)


def list_fault(program, made, path):
    """What a list shows otherwise than it should, or None."""
    for words, rows in asked_lists(made):
        wanted = lists.texts(rows)
        shown = [run(program, "show", "--db", path, *how, *words, lines=b"") for how in (["--csv"], [])]
        rows = list(csv.reader(io.StringIO(shown[0].stdout.decode(), newline="")))
        if rows != wanted or shown[1].stdout.decode() != lists.columns(wanted) or any(it.returncode for it in shown):
            other = next((pair for pair in zip(rows, wanted) if pair[0] != pair[1]), "columns, or the number of rows")
            return f"the list {words}: {other}"
    return None


def difference(program, made):
    """What the program says otherwise than the machine, or None."""
    with tempfile.TemporaryDirectory() as folder:
        path = os.path.join(folder, "workshop.db")
        answers, fault = told_by(program, made, path)
        asked = [(line, answer_line(it)) for line, it in zip(made.lines, made.wanted) if it is not None]
        for (line, wanted), told in zip(asked, answers):
            if told != wanted:
                return f"{line.decode(errors='replace')[:300]}\n  machine {wanted[:300]}\n  program {told[:300]}"
        fault = fault or plain_fault(program, made)
        if fault or len(answers) != len(asked):
            return f"{len(answers)} answers to {len(asked)} lines; {fault}"
        if made.stops:
            others = (f"the table {it}" for it in HEADERS if table_of(program, path, it) != table(made.m, it))
            return next(others, None) or list_fault(program, made, path)
    return None


def main():
    words = reader_of_words(__doc__)
    words.add_argument("--runs", type=int, default=60)
    words.add_argument("--lines", type=int, default=1_000)
    words.add_argument("--seed", type=int, default=1)
    said = words.parse_args()
    told, sent, differ = {}, 0, 0
    for seed in range(said.seed, said.seed + said.runs):
        make = wild if seed % 10 == 0 else workshop
        made = make(seed, said.lines, with_names=seed % 3 == 0, journal=seed % 4 in (1, 2))
        sent += len(made.lines)
        for do, answer in made.told:
            told[do, answer] = told.get((do, answer), 0) + 1
        found = difference(said.program, made)
        if found:
            differ += 1
            print(f"run {seed}: {found}")
    for do in COMMANDS:
        of = sorted(((n, answer) for (it, answer), n in told.items() if it == do), reverse=True)
        print(f"  {do}:", ", ".join(f"{n} {answer}" for n, answer in of))
    print(f"{sent:,} lines in {said.runs} runs: {differ} runs differ")
    sys.exit(1 if differ else 0)


if __name__ == "__main__":
    main()
