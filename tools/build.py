#!/usr/bin/env python3
"""Proves the libraries below the program side by side, lowest first, and then proves, builds and runs the program.

'rt run' alone proves one library behind the other. Here each is begun ('rt lib' in its folder) once all below it are
proved, first the one with the most text in the chain of crates above it, which gets the processors that are free. What
an earlier call proved and nothing has changed since is kept. Where a library isn't proved, those that stand on it are
left out; what its check told is printed, and the last line says which failed.

usage: tools/build.py [--jobs N] [--until NAME]
  --jobs N       processors to take; else all that have 5.5 GB of memory
  --until NAME   that library alone with those below it, and not the program"""
import argparse
import concurrent.futures
import pathlib
import subprocess
import sys
import time

import proof_times
from gate import proofs_at_once
from shared import TOP, expect

PROGRAM = "invdesk"
# One proof gains little from more.
MOST = 3


def lines_of(crate):
    """How many lines of code, definitions and proofs a crate has."""
    files = (path for path in (TOP / "crates" / crate).glob("*/**/*") if path.suffix in (".rt", ".antt"))
    return sum(path.read_bytes().count(b"\n") for path in files if "out" not in path.parts)


def below_each():
    """Each crate with all that it stands on, lowest first."""
    direct, all_below = proof_times.dependencies(), {}

    def below(crate):
        if crate not in all_below:
            all_below[crate] = {it for name in direct[crate] for it in [name, *below(name)]}
        return all_below[crate]

    return dict(sorted(((crate, below(crate)) for crate in direct), key=lambda it: len(it[1])))


def chains(needed):
    """The lines of the longest chain of crates that begins with each."""
    long = {crate: lines_of(crate) for crate in needed}
    for crate in reversed([*needed]):
        long[crate] += max((long[above] for above, below in needed.items() if crate in below), default=0)
    return long


def prove(crate, jobs):
    """Proves a library, and builds it for those above: whether it is proved, and what was told."""
    told = subprocess.run(["rt", "lib", "--jobs", str(jobs)], cwd=TOP / "crates" / crate, check=False, text=True,
                          errors="replace", stdout=subprocess.PIPE, stderr=subprocess.STDOUT)
    return told.returncode == 0, told.stdout


def prove_all(needed, processors):
    """Proves these libraries: those that aren't proved, or stand on one that isn't."""
    long, began = chains(needed), time.monotonic()
    left, proved, failed, running = sorted(needed, key=lambda it: -long[it]), set(), [], {}
    with concurrent.futures.ThreadPoolExecutor(processors) as pool:
        while True:
            for crate in [it for it in left if needed[it] <= proved]:
                idle = processors - sum(jobs for _, jobs in running.values())
                if idle:
                    left.remove(crate)
                    is_first = long[crate] >= max(long[name] for name, _ in [(crate, 1), *running.values()])
                    jobs = min(MOST, idle) if is_first else 1
                    running[pool.submit(prove, crate, jobs)] = crate, jobs
            if not running:
                return failed + left
            for ended in concurrent.futures.wait(running, return_when=concurrent.futures.FIRST_COMPLETED).done:
                crate, _ = running.pop(ended)
                is_proved, told = ended.result()
                print(f"[{time.monotonic() - began:.0f} s] {crate} {'is proved' if is_proved else 'IS NOT PROVED'}", flush=True)
                if is_proved:
                    proved.add(crate)
                else:
                    failed.append(crate)
                    print(told, flush=True)


def main():
    does, called = __doc__.split("\nusage: ")
    words = argparse.ArgumentParser(usage=called, description=does, formatter_class=argparse.RawDescriptionHelpFormatter)
    words.add_argument("--jobs", type=int, default=proofs_at_once())
    words.add_argument("--until", default=PROGRAM)
    given = words.parse_args()
    below = below_each()
    expect(given.until in below, f"there is no crate {given.until}")
    wanted = below[given.until] | ({given.until} - {PROGRAM})
    failed = prove_all({crate: it for crate, it in below.items() if crate in wanted}, max(1, given.jobs))
    expect(not failed, f"not proved: {' '.join(failed)}")
    if given.until == PROGRAM:
        sys.exit(subprocess.run(["rt", "run"], cwd=TOP / "crates" / PROGRAM, check=False).returncode)


if __name__ == "__main__":
    main()
