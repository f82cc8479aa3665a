#!/usr/bin/env python3
"""Kills the program (SIGKILL) amid a pipe of keyed lines, and goes on with the file that it leaves. The lines are sent
from the first one on each time: those that are kept already are repeats, and are answered as they were. After each kill
the file opens, alone and with its log, holds the first lines whole and no part of another, and no fewer lines than were
answered; the answers are a front of those of a run that nobody killed. At last the lines are sent to their end, and the
answers and the tables are those of that run.

Half of the lines find stock, and each other one takes from what the line before it found, so a line that was lost or
kept by half shows in the history and in the items.

usage: tools/check_kills.py PROGRAM [--kills KILLS] [--lines LINES]
By default it kills 10 times amid 10,000 lines, in some 10 seconds; the whole check is 100 times amid 100,000."""
import contextlib
import os
import pathlib
import random
import signal
import subprocess
import tempfile
import threading
import time

from shared import copy_with_log, expect, expect_whole, reader_of_words, rows_of, run

DAY = '"day":"2030-01-02"'
START = f"""{{{DAY},"do":"add_location","key":"a","name":"A"}}
{{{DAY},"do":"add_part","flags":["component"],"key":"b","name":"Screw"}}
"""
TABLES = "meta locations parts items history kept".split()
FIRST_ITEM = 3


def keyed_lines(count):
    """Finds and removals in turn, each under a key of its own, behind the two lines that they need."""
    yield from START.splitlines()
    for n in range(count // 2):
        yield f'{{{DAY},"do":"found","key":"f{n}","location":1,"part":2,"quantity":100}}'
        yield f'{{{DAY},"do":"remove","item":{FIRST_ITEM + n},"key":"r{n}","quantity":30}}'


def in_words(count):
    """The keys of the lines, in their order."""
    yield from ("a", "b")
    for n in range(count // 2):
        yield f"f{n}"
        yield f"r{n}"


def feed(pipe, text):
    with contextlib.suppress(BrokenPipeError):
        pipe.write(text)
    with contextlib.suppress(BrokenPipeError):
        pipe.close()


def run_until(program, path, text, lines, wait):
    """Sends the text, and kills the program a moment after it has answered so many lines; where `lines` is None it runs
    to its end. Gives the answers that came whole, and the exit status."""
    words = [program, "run", "--db", path]
    child = subprocess.Popen(words, stdin=subprocess.PIPE, stdout=subprocess.PIPE, stderr=subprocess.PIPE)
    feeder = threading.Thread(target=feed, args=(child.stdin, text))
    feeder.start()
    told = bytearray()
    while piece := os.read(child.stdout.fileno(), 65_536):
        told += piece
        if lines is not None and told.count(b"\n") >= lines:
            time.sleep(wait)
            child.send_signal(signal.SIGKILL)
            lines = None
    child.wait()
    feeder.join()
    child.stdout.close()
    stderr = child.stderr.read().decode()
    child.stderr.close()
    expect(child.returncode in (0, -signal.SIGKILL), f"the run ends with {child.returncode}: {stderr}")
    whole = told.rfind(b"\n") + 1
    return bytes(told[:whole]), child.returncode


def tables_of(path):
    """The tables of a copy of the file and its log, as Python's sqlite3 finds them."""
    with copy_with_log(path) as conn:
        expect_whole(conn)
        return rows_of(conn, TABLES)


def holds_first(tables, words, answered):
    """The tables hold some first lines whole, no fewer than were answered. How many they are."""
    kept = {row[0] for row in tables["kept"]}
    done = len(kept)
    expect(kept == set(words[:done]), f"{done} lines are kept, and not the first ones")
    expect(done >= answered, f"{answered} lines were answered, and {done} are kept")
    entries = max(done - 2, 0)
    expect(len(tables["history"]) == entries, f"after {done} lines there are {len(tables['history'])} entries")
    found, removed = (entries + 1) // 2, entries // 2
    amounts = [row[5] for row in tables["items"]]
    expect(amounts == [70] * removed + [100] * (found - removed), f"after {done} lines the items are others")
    if done:
        counter = tables["meta"][0]
        expect(len(tables["meta"]) == 1 and counter[2:4] == (done - removed + 1, entries), f"the counter is {counter}")
    return done


def goes_on(program, path, text, words, wanted, kills):
    """Kills the program so many times, and lets it go on with what it left."""
    chance = random.Random(1)
    done, killed = 0, 0
    for number in range(kills):
        # The kills are spread over the lines, each somewhat ahead of what is kept.
        aim = max(done, number * len(words) // kills) + chance.randrange(1, max(2, len(words) // kills))
        told, status = run_until(program, path, text, min(aim, len(words)), chance.random() * 0.003)
        expect(wanted.startswith(told), f"after {number} kills another answer")
        killed += status == -signal.SIGKILL
        answered = told.count(b"\n")
        done = holds_first(tables_of(path), words, answered)
        if number % 10 == 0:
            opened = run(program, "export", "--db", path, "kept")
            expect(opened.returncode == 0, f"the file doesn't open: {opened.stderr!r}")
            expect(opened.stdout.count("\n") == done + 1, "another number of lines is kept once it was opened")
    return killed


def main():
    words = reader_of_words(__doc__)
    words.add_argument("--kills", type=int, default=10)
    words.add_argument("--lines", type=int, default=10_000)
    given = words.parse_args()
    text = "".join(f"{line}\n" for line in keyed_lines(given.lines)).encode()
    keys = list(in_words(given.lines))
    begin = time.monotonic()
    with tempfile.TemporaryDirectory(dir=".") as name:
        unbroken, path = (str(pathlib.Path(name).resolve() / what) for what in ("unbroken.db", "killed.db"))
        wanted, _ = run_until(given.program, unbroken, text, None, 0)
        expect(wanted.count(b"\n") == len(keys), "a run that nobody kills doesn't answer each line")
        killed = goes_on(given.program, path, text, keys, wanted, given.kills)
        told, status = run_until(given.program, path, text, None, 0)
        expect(status == 0 and told == wanted, "the lines that are sent again are answered otherwise")
        expect(tables_of(path) == tables_of(unbroken), "the tables are others than those of an unbroken run")
    seconds = time.monotonic() - begin
    print(f"check_kills: {killed} kills amid {len(keys)} lines, in {seconds:.0f} s: all as it should be")


if __name__ == "__main__":
    main()
