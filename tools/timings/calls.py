"""Times calls of the libraries, without the reading and writing of lines.

The program that makes the calls, main.rt.txt, is no crate of the repository and isn't proved: a copy of the crates gets
it as one more, and 'rt try' runs it there. So it isn't named .rt, of which the gate wants each file in a crate."""
import os
import pathlib
import shutil
import subprocess
import sys
import tempfile

from shared import copy_crates

CALLS = pathlib.Path(__file__).resolve().parent / "main.rt.txt"
SIZES = (1_000, 2_000)
USES = "part_core forest bom_core yard_core stock_core anyhow"
# rt try's limit of the program: it takes about a minute on an idle machine.
SECONDS = 600
# What each measurement's size counts, and what it does.
MEASURES = {
    "add_line": ("parts", "each line of a bill, whose component has none yet, up to two lines a part"),
    "reaches": ("parts", "the cycle test from the part that contains all others, at two lines a part"),
    "transfer": ("items", "1,000 in turn of one piece, each out of one of the items"),
}


def add_bench(to):
    """Adds the program to a copy of the crates, as the crate 'bench'."""
    os.makedirs(f"{to}/crates/bench/src")
    shutil.copy(CALLS, f"{to}/crates/bench/src/main.rt")
    with open(f"{to}/crates.txt", "a", encoding="utf-8") as lines:
        lines.write(f"\nbench: {USES}\n")


def run():
    """Gives the lines that the program prints."""
    with tempfile.TemporaryDirectory(prefix="bench-") as folder:
        copy_crates(folder)
        add_bench(folder)
        words = ["rt", "try", "--seconds", str(SECONDS), "--", *map(str, SIZES)]
        how = {"stdin": subprocess.DEVNULL, "capture_output": True, "text": True}
        done = subprocess.run(words, cwd=f"{folder}/crates/bench", check=False, **how)
    if done.returncode:
        sys.exit(f"{done.stdout}{done.stderr}rt try: status {done.returncode}")
    return done.stdout.splitlines()


def time_calls(_program):
    """Times the calls, for which no built program is needed."""
    version = ["rt", "version"]
    kit = subprocess.run(version, capture_output=True, text=True, check=True).stdout.strip()
    print(f"{kit}: rt try builds without optimisation and with checks of each access (clang -O0 -fsanitize=address),")
    print("and so a call takes hundreds of times as long as in a built program. What counts is how it grows.")
    before = os.getloadavg()[0]
    lines = run()
    after, processors = os.getloadavg()[0], os.cpu_count()
    print(f"Other work spoils the times. Load: {before:.1f} before, {after:.1f} after, {processors} processors.")
    per_call = {}
    for line in lines:
        name, size, calls, nanos = line.split()
        per_call.setdefault(name, {})[int(size)] = int(nanos) / int(calls) / 1e6
    for name, (counted, what) in MEASURES.items():
        small, large = (per_call[name][size] for size in SIZES)
        times = f"{small:.2f} and {large:.2f} ms per call at {SIZES[0]:,} and {SIZES[1]:,} {counted}"
        print(f"{name}, {what}: {times}, {large / small:.2f} times as much")
