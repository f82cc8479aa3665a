"""Times files of a command, of which each row has a key, beside the lines that they are."""
import pathlib
import shutil
import subprocess
import sys
import tempfile

from timings.file import DAY, measured, timed

PARTS, SHELVES = 1_000, 100
COUNTS = (50_000, 100_000)
GOAL = 1.2
SHEET = ("--kind", "found", "--document", "S1", "--day", "2030-01-02")


def made():
    """The lines that make a store with shelves, and parts."""
    yield f'{{{DAY},"do":"add_location","name":"Store"}}\n'
    for at in range(SHELVES):
        yield f'{{{DAY},"do":"add_location","name":"Shelf {at}","parent":1}}\n'
    for at in range(PARTS):
        yield f'{{{DAY},"do":"add_part","flags":["component"],"name":"Part {at}"}}\n'


def rows(count):
    """A file of stock: each part by its name, each shelf by the way to it."""
    yield "part,location,quantity,batch,counted by\n"
    for at in range(count):
        yield f'Part {at * 7 % PARTS},"[""Store"",""Shelf {at % SHELVES}""]",{at % 500 + 1},L{at % 90},Ann\n'


def least(program, folder, words, lines):
    """The seconds of the fastest of three runs, each on its own copy of the books, and the peak memory in KiB."""
    runs = []
    for at in range(3):
        path = folder / f"run-{at}.db"
        shutil.copy(folder / "books.db", path)
        runs.append(measured(program, folder, [words[0], "--db", str(path), *words[1:]], lines))
    return min(it for it, _ in runs), min(it for _, it in runs)


def beside_lines(program, folder, count):
    """An import of so many rows, and runs of the same lines."""
    path = folder / "stock.csv"
    path.write_text("".join(rows(count)))
    size = path.stat().st_size // 1024
    done = subprocess.run([program, "lines", *SHEET, str(path)], capture_output=True, text=True, check=False)
    if done.returncode:
        sys.exit(f"bench: the lines of a file end with {done.returncode}: {done.stdout[:200]!r}")
    ours, peak = least(program, folder, ("import", *SHEET, str(path)), "")
    told = f"{ours:.2f} s, {count / ours:.0f} a second; {peak} KiB at most, of a file of {size}"
    print(f"{count} rows imported: {told}", flush=True)
    for words in (("run", "--names"), ("run", "--names", "--check")):
        theirs, beside = least(program, folder, words, done.stdout)
        over = "" if ours / theirs <= GOAL else f", more than {GOAL}"
        told = f"{theirs:.2f} s, of which {ours / theirs:.2f} times{over}; {beside} KiB at most"
        print(f"    as lines of {len(done.stdout) // 1024} KiB, {' '.join(words)}: {told}", flush=True)
    return ours, peak


def time_sheets(program):
    with tempfile.TemporaryDirectory(dir="/dev/shm") as folder:
        folder = pathlib.Path(folder)
        timed(program, ("run", "--db", str(folder / "books.db")), "".join(made()))
        (first, least_memory), (last, most_memory) = (beside_lines(program, folder, count) for count in COUNTS)
        told = f"{last / first:.2f} times the time and {most_memory / least_memory:.2f} times the memory"
        print(f"    {COUNTS[1]} rows take {told} of {COUNTS[0]}", flush=True)
