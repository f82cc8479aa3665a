"""Times the program on books with a long history, and measures what a row takes in memory, beside Python's sqlite3.

The rows of the file are copies of an item and its entries that the program wrote itself: Python's sqlite3 puts them
into its tables, which takes seconds where a million requests take a minute."""
import pathlib
import sqlite3
import subprocess
import tempfile
import time

from timings.file import DAY, START, found, measured, timed
from timings.names import Clerk

# Items, and entries on each of them.
SIZES = ((100_000, 1), (200_000, 1), (100_000, 5), (200_000, 5))
KEYED = 50_000
KEY = '"key":"k{:05}",'


def first_books(program, path, entries):
    """Books of one item, found and then written off in part, with so many entries."""
    lines = found(100) + f'{{{DAY},"do":"remove","item":3,"quantity":10}}\n' * (entries - 1)
    timed(program, ("run", "--db", path), START + lines)


def many_books(program, path, items, entries):
    """Books of so many such items, each with so many entries, one item after another."""
    first_books(program, path, entries)
    conn = sqlite3.connect(path)
    item = list(conn.execute("SELECT * FROM items").fetchone())
    history = [list(row) for row in conn.execute("SELECT * FROM history ORDER BY n")]
    conn.executemany(
        f"INSERT INTO items VALUES ({','.join('?' * len(item))})", ([3 + i, *item[1:]] for i in range(1, items))
    )
    columns = [name for _, name, *_ in conn.execute("PRAGMA table_info(history)")]
    of_item = columns.index("item")
    rows = (
        [1 + entries * i + at, *row[1:of_item], 3 + i, *row[of_item + 1 :]]
        for i in range(1, items)
        for at, row in enumerate(history)
    )
    conn.executemany(f"INSERT INTO history VALUES ({','.join('?' * len(columns))})", rows)
    conn.execute("UPDATE meta SET next = ?, entries = ?", (3 + items, items * entries))
    conn.commit()
    conn.close()
    return path


def memory_of(process):
    """What the process holds in memory, and the most that it held until now, in KiB."""
    status = pathlib.Path(f"/proc/{process.pid}/status").read_text()
    told = dict(line.split(":", 1) for line in status.splitlines())
    return tuple(int(told[name].split()[0]) for name in ("VmRSS", "VmHWM"))


def held(program, path):
    """What the program holds in memory once it has opened the file, and the most that it held until then, in KiB."""
    with subprocess.Popen([program, "run", "--db", path], stdin=subprocess.PIPE, stdout=subprocess.PIPE) as child:
        child.stdin.write(b'{"report":"stock","of":1}\n')
        child.stdin.flush()
        child.stdout.readline()
        told = memory_of(child)
        child.stdin.close()
    return told


def finds(items, key=""):
    """Finds of so many items, whose requests have such keys or none."""
    lines = (f'{{{DAY},{key.format(i)}"do":"found","location":1,"part":2,"quantity":10}}\n' for i in range(items))
    return START + "".join(lines)


def made(program, items, entries, key=""):
    """What the program holds, in KiB, of books in memory that requests made: so many items, and entries of each."""
    clerk = Clerk(program)
    clerk.send(finds(items, key).encode())
    for _ in range(entries - 1):
        taken = (f'{{{DAY},"do":"remove","item":{3 + i},"quantity":1}}\n' for i in range(items))
        clerk.send("".join(taken).encode())
    told, _ = memory_of(clerk.process)
    clerk.end()
    return told


def read_by_python(path):
    """The seconds in which Python's sqlite3 reads each row of the items and of the history."""
    begin = time.monotonic()
    conn = sqlite3.connect(path)
    for table in ("items", "history"):
        for _ in conn.execute(f"SELECT * FROM {table}"):
            pass
    conn.close()
    return time.monotonic() - begin


def keyed_books(program, folder, key):
    """What the program holds, in KiB, once it has opened a file of finds, whose requests have such keys or none."""
    path = str(folder / f"keyed-{bool(key)}.db")
    timed(program, ("run", "--db", path), finds(KEYED, key))
    return held(program, path)[0]


def per_row(held_of, keyed, keyless):
    """The bytes of an entry, of an item with one, and of a key, by what is held of books of these sizes, in KiB."""
    (few, single), (many, _), _, (_, several) = SIZES
    return tuple(
        more * 1024 / rows
        for more, rows in (
            (held_of[many, several] - held_of[many, single], many * (several - single)),
            (held_of[many, single] - held_of[few, single], many - few),
            (keyed - keyless, KEYED),
        )
    )


def time_history(program):
    with tempfile.TemporaryDirectory(dir="/dev/shm") as folder:
        folder = pathlib.Path(folder)
        rss = {}
        for items, entries in SIZES:
            path = many_books(program, str(folder / f"{items}-{entries}.db"), items, entries)
            rss[items, entries], peak = held(program, path)
            seconds, _ = measured(program, folder, ("export", "--db", path, "meta"))
            python = read_by_python(path)
            print(
                f"{items} items and {items * entries} entries: opened in {seconds:.2f} s, {seconds / python:.2f} times"
                f" what Python's sqlite3 takes to read all rows; {rss[items, entries]} KiB are held, and"
                f" {peak / rss[items, entries]:.2f} times as much at most",
                flush=True,
            )
        lines, most = measured(program, folder, ("export", "--db", path, "history"))
        print(f"    its history exported: {lines - seconds:.2f} s more, {most - peak} KiB above opening", flush=True)
        one, _ = measured(program, folder, ("report", "--db", path, "history", "3"))
        print(f"    the history of one item: {one - seconds:.2f} s more", flush=True)
        opened = per_row(rss, *(keyed_books(program, folder, key) for key in (KEY, "")))
    grown = per_row(
        {size: made(program, *size) for size in SIZES}, *(made(program, KEYED, 1, key) for key in (KEY, ""))
    )
    for told, of_books in (
        (grown, "of books that requests made in memory"),
        (opened, "of a file that was opened, with what the C library keeps of the opening"),
    ):
        of_entry, of_item, of_key = told
        print(
            f"bytes of memory, {of_books}: {of_entry:.0f} an entry, {of_item:.0f} an item with one, {of_key:.0f} more"
            " for a key of six letters"
        )
