#!/usr/bin/env python3
"""Tries the wrong bodies that the gate leaves out: the prover has to refuse each.

The gate tries those that say most. The others, mostly one for a rule, lie in tools/wrong_bodies, a folder for each
crate, in the form of its must-fail edits, each below the rule that it breaks. They are tried by 'rt must-fail' in a
copy of the crates that has them in their place. Names of crates as words: theirs alone. One takes about a minute, of
desk_store up to five, and all take about as long as the gate.

usage: tools/refuse.py [--random N] [CRATE..]     N of them, chosen anew each time, else all"""
import argparse
import os
import random
import shutil
import subprocess
import sys
import tempfile

from shared import TOP, copy_crates

BODIES = TOP / "tools" / "wrong_bodies"


def main():
    words = argparse.ArgumentParser(description=__doc__, formatter_class=argparse.RawDescriptionHelpFormatter)
    words.add_argument("--random", type=int, metavar="N")
    words.add_argument("crates", nargs="*", metavar="CRATE")
    given = words.parse_args()
    bodies = sorted(path for name in given.crates or os.listdir(BODIES) for path in (BODIES / name).glob("*.edit"))
    if given.random:
        bodies = random.sample(bodies, min(given.random, len(bodies)))
    names = sorted({path.parent.name for path in bodies})
    with tempfile.TemporaryDirectory(prefix="refuse-") as folder:
        copy_crates(folder, "must-fail")
        for path in bodies:
            to = f"{folder}/crates/{path.parent.name}/must-fail"
            os.makedirs(to, exist_ok=True)
            shutil.copy(path, to)
        done = subprocess.run(["rt", "must-fail", *names], cwd=f"{folder}/crates", check=False)
    sys.exit(done.returncode)


if __name__ == "__main__":
    main()
