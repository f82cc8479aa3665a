"""Times the program on a file, beside Python's sqlite3, a C program and the kit's `sqlite` alone.

The program over the kit's sqlite, three_writes.rt.txt, is no crate of the repository: a folder of its own gets it, and
there `rt run` proves that it is safe and builds it, in some minutes."""
import os
import pathlib
import shutil
import sqlite3
import subprocess
import sys
import tempfile
import time

from shared import built_by_cc

HERE = pathlib.Path(__file__).resolve().parent
KIT_CRATES = "anyhow sqlite sqlite_value sqlite_sql sqlite_schema sqlite_trees sqlite_disk sqlite_catalog"
DAY = '"day":"2030-01-02"'
COUNTS = (20_000, 40_000)
# What a pipe holds, and so what one read gives: its lines are a group.
PIPE = 65_536
START = f"""{{{DAY},"do":"add_location","name":"A"}}
{{{DAY},"do":"add_part","flags":["component"],"name":"Screw"}}
"""


def found(quantity):
    return f'{{{DAY},"do":"found","location":1,"part":2,"quantity":{quantity}}}\n'


def remove(item):
    return f'{{{DAY},"do":"remove","item":{item},"quantity":30}}\n'


def transfer(item):
    return f'{{{DAY},"do":"transfer","item":{item},"location":1,"quantity":1}}\n'


def timed(program, words, lines):
    """The seconds of a run on the lines that ends well."""
    begin = time.monotonic()
    done = subprocess.run([program, *words], input=lines.encode(), stdout=subprocess.PIPE, check=False)
    seconds = time.monotonic() - begin
    if done.returncode != 0:
        sys.exit(f"bench: {words} ends with {done.returncode}: {done.stdout[-200:]!r}")
    return seconds


def line_by_line(program, path, lines):
    """The seconds of lines of which each is sent when the one before it was answered."""
    words = [program, "run", "--db", path]
    with subprocess.Popen(words, stdin=subprocess.PIPE, stdout=subprocess.PIPE, bufsize=0) as child:
        begin = time.monotonic()
        for line in lines:
            child.stdin.write(line.encode())
            answer = child.stdout.readline()
            if not answer.startswith(b'{"entries"'):
                sys.exit(f"bench: {line!r} is answered {answer!r}")
        return time.monotonic() - begin


def by_python(path, count, group):
    """The same writes: a row of an item and an entry for each request, and the counter for each group."""
    conn = sqlite3.connect(path, isolation_level=None)
    conn.execute("PRAGMA journal_mode = WAL")
    conn.execute("PRAGMA synchronous = FULL")
    conn.execute(
        "CREATE TABLE meta (one INTEGER PRIMARY KEY, version INTEGER NOT NULL, next INTEGER NOT NULL,"
        " entries INTEGER NOT NULL, max_numbers INTEGER NOT NULL, max_entries INTEGER NOT NULL) STRICT"
    )
    conn.execute(
        "CREATE TABLE items (id INTEGER PRIMARY KEY, part INTEGER NOT NULL, batch TEXT, serial TEXT,"
        " status INTEGER NOT NULL, quantity INTEGER NOT NULL, place INTEGER NOT NULL, ref INTEGER NOT NULL) STRICT"
    )
    conn.execute(
        "CREATE TABLE history (n INTEGER PRIMARY KEY, day TEXT NOT NULL, kind INTEGER NOT NULL, item INTEGER NOT NULL,"
        " part INTEGER NOT NULL, quantity INTEGER NOT NULL, place INTEGER NOT NULL, ref INTEGER NOT NULL) STRICT"
    )
    begin = time.monotonic()
    for entry in range(1, count + 1):
        item = (entry + 1) // 2 + 2
        quantity = 100 if entry % 2 else 70
        if entry % group == 1 or group == 1:
            conn.execute("BEGIN")
        conn.execute(
            "INSERT OR REPLACE INTO items VALUES (?1, ?2, ?3, ?4, ?5, ?6, ?7, ?8)",
            (item, 2, None, None, 0, quantity, 0, 1),
        )
        conn.execute(
            "INSERT OR REPLACE INTO history VALUES (?1, ?2, ?3, ?4, ?5, ?6, ?7, ?8)",
            (entry, "2030-01-02", 1, item, 2, quantity, 0, 1),
        )
        if entry % group == 0 or entry == count:
            conn.execute(
                "INSERT OR REPLACE INTO meta VALUES (?1, ?2, ?3, ?4, ?5, ?6)", (1, 1, item + 1, entry, 10**10, 10**10)
            )
            conn.execute("COMMIT")
    seconds = time.monotonic() - begin
    conn.close()
    return seconds


def c_program(folder):
    """The program in C, or none where it can't be built."""
    return built_by_cc(HERE / "three_writes.c", folder / "three_writes", "-lsqlite3")


def kit_program(folder):
    """The program over the kit's sqlite, or none where it isn't built."""
    crate = folder / "kit" / "crates" / "three_writes"
    (crate / "src").mkdir(parents=True)
    (folder / "kit" / "crates.txt").write_text(f"three_writes: {KIT_CRATES}\n")
    shutil.copy(HERE / "three_writes.rt.txt", crate / "src" / "main.rt")
    subprocess.run(["rt", "run", "--", str(folder / "once.db"), "1"], cwd=crate, capture_output=True, check=False)
    built = crate / "out" / "three_writes"
    return str(built) if os.access(built, os.X_OK) else None


def by_program(program, path, count, group):
    """The seconds that another program prints, as such or in nanoseconds. Where the requests are alone it gets no word
    of a group."""
    words = [program, path, str(count), *([str(group)] if group > 1 else [])]
    told = subprocess.run(words, capture_output=True, text=True, check=True).stdout.strip()
    return float(told) if "." in told else int(told) / 1e9


def in_turn(count):
    for i in range(count // 2):
        yield found(100)
        yield remove(i + 3)


def of_program(program, folder, count, lines, grouped):
    """The program's seconds for the lines, by a pipe or line by line."""
    path = str(folder / f"turns-{count}-{grouped}.db")
    timed(program, ("run", "--db", path), START)
    return timed(program, ("run", "--db", path), "".join(lines)) if grouped else line_by_line(program, path, lines)


def beside_others(program, folder, name, programs):
    """The program beside the others on each count, in groups and alone, as lines a second."""
    others = {"Python's sqlite3": by_python}
    for what, other in programs.items():
        if other:
            others[what] = lambda path, count, group, other=other: by_program(other, path, count, group)
    before = None
    for count in COUNTS:
        lines = list(in_turn(count))
        group = PIPE * count // sum(len(line) for line in lines)
        print(f"{count} finds and removals on {name}, a second: in groups of {group}, and alone", flush=True)
        ours = {size: of_program(program, folder, count, lines, size > 1) for size in (group, 1)}
        print(f"    the program: {count / ours[group]:.0f}, {count / ours[1]:.0f}", flush=True)
        for at, (what, act) in enumerate(others.items()):
            path = str(folder / f"other-{at}-{count}")
            sizes = (1,) if "kit" in what else (group, 1)
            theirs = {size: act(f"{path}-{size}.db", count, size) for size in sizes}
            rates = ", ".join(f"{count / theirs[size]:.0f}" if size in theirs else "-" for size in (group, 1))
            shares = ", ".join(f"{theirs[size] / ours[size]:.2f}" if size in theirs else "-" for size in (group, 1))
            print(f"    {what}: {rates}; the program has {shares} of its speed", flush=True)
        if before:
            print(f"    by a pipe {ours[group] / before:.2f} times the time of half as many", flush=True)
        before = ours[group]


def opening(program, folder):
    for items in (25_000, 50_000):
        path = str(folder / f"{items}.db")
        timed(program, ("run", "--db", path), START + "".join(found(1) for _ in range(items)))
        runs = [measured(program, folder, ("export", "--db", path, "meta")) for _ in range(3)]
        seconds, peak = min(it[0] for it in runs), max(it[1] for it in runs)
        print(f"opening {2 * items} rows: {seconds:.2f} s, {peak} KiB at most", flush=True)


def among(program, folder):
    for items in (1_000, 20_000):
        path = str(folder / f"among-{items}.db")
        words = ("run", "--db", path)
        timed(program, words, START + "".join(found(1_000) for _ in range(items)))
        empty = min(timed(program, words, "") for _ in range(3))
        seconds = timed(program, words, "".join(transfer(i % 1_000 + 3) for i in range(2_000))) - empty
        print(f"2,000 transfers among {items} items: {seconds:.2f} s, {seconds / 2:.2f} ms each", flush=True)


def measured(program, folder, words, lines=""):
    """The seconds and the peak memory in KiB of a run that ends well."""
    given = folder / "given"
    given.write_text(lines)
    begin = time.monotonic()
    with given.open("rb") as reader:
        child = subprocess.Popen([program, *words], stdin=reader, stdout=subprocess.DEVNULL)
        _, status, used = os.wait4(child.pid, 0)
    child.returncode = os.waitstatus_to_exitcode(status)
    if child.returncode != 0:
        sys.exit(f"bench: {words} ends with {child.returncode}")
    return time.monotonic() - begin, used.ru_maxrss


def with_items(program, folder, name):
    """Books of 1,000 items."""
    db = str(folder / f"{name}.db")
    timed(program, ("run", "--db", db), START + "".join(found(10) for _ in range(1_000)))
    return db


def imports(program, folder):
    """Each row counts one of 1,000 items, and finds another quantity than before."""
    before = None
    for count in (10_000, 20_000, 100_000):
        counted = [(i + 1, i % 1_000 + 3, 1_000 + i) for i in range(count)]
        rows = "number,item,quantity\n" + "".join(f"{n},{item},{quantity}\n" for n, item, quantity in counted)
        path = folder / "counted.csv"
        path.write_text(rows)
        words = ("--kind", "counts", "--document", "C1", "--day", "2030-01-02", str(path))
        db = with_items(program, folder, f"rows-{count}")
        ours, peak = measured(program, folder, ("import", "--db", db, *words))
        print(
            f"{count} counts imported: {ours:.2f} s, {count / ours:.0f} a second; {peak} KiB at most, of a file of"
            f" {len(rows) // 1024}",
            flush=True,
        )
        if count <= 20_000:
            lines = "".join(
                f'{{{DAY},"do":"count","item":{item},"key":"counts/C1/{n}","quantity":{quantity}}}\n'
                for n, item, quantity in counted
            )
            db = with_items(program, folder, f"lines-{count}")
            theirs, beside = measured(program, folder, ("run", "--db", db), lines)
            print(f"    {theirs / ours:.2f} of the rate of lines, of which {beside} KiB at most", flush=True)
        if before:
            print(f"    {ours / before[1]:.2f} times the time of {before[0]}", flush=True)
        before = (count, ours)


def time_files(program):
    with tempfile.TemporaryDirectory(dir=".") as disk, tempfile.TemporaryDirectory(dir="/dev/shm") as memory:
        disk, memory = pathlib.Path(disk).resolve(), pathlib.Path(memory)
        programs = {"C": c_program(disk), "the kit's sqlite alone": kit_program(disk)}
        beside_others(program, disk, "a disk", programs)
        beside_others(program, memory, "a memory disk", programs)
        opening(program, memory)
        among(program, memory)
        imports(program, memory)
