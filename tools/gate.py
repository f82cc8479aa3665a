#!/usr/bin/env python3
"""The gate: passes every proof and every test, and says how many passed.

First it looks whether each wrong body still applies, whether each name that the documents cite stands where they say,
whether the worked examples with names ask for what those with numbers do, and say each field in each form, and
whether the page, the help, the page of man and the completions have what they take from the documents and from the
program's words, and the program the page. Then 'rt ci' proves every crate from nothing, tries the must-fail edits, and
runs the tests and the program. The program that this built is then tried as its owner would: with the examples with
names, the tutorial, the move from spreadsheets, a recall and mistakes, with the words of a clerk, with lists, files,
dumps, imports, questions to the tables, clients of HTTP, what its page reads, and kills, beside the rules written once
more, and installed and packed.
Where a step fails, those behind it are not run. The last line is 'N passed, M failed': what 'rt ci' counts, and one
for each script. Before it stands a table of what each crate's proof, tests and wrong bodies took, and waited for, and
then what failed, once more. It takes two and a half to three hours, of which the scripts take six minutes.

usage: tools/gate.py [--jobs N | --only CHECK | --table [--graph FILE]]
  --jobs N       N proofs side by side; else as many as there are processors with 5.5 GB each
  --only CHECK   the scripts whose names have this word alone, as 'http', on the program that is built
  --table        the table of the last gate here; with --graph a picture of it (SVG) into the file, too"""
import argparse
import os
import pathlib
import re
import subprocess
import sys

import proof_times
from shared import TOP, expect

PROGRAM = "crates/invdesk/out/invdesk"
# What 'rt ci' writes of a proof, a wrong body, a test or a program that failed, and of which function. Much comes behind
# it.
LOST = re.compile(
    r"^rt: .*(NOT PROVED|NOT REFUSED|NOT TRIED|BAD EDIT|FAILED|was killed)|^fn .*: (no proof|not proved|could not tell)"
    r"|^test .* FAILED$")
# What it writes of a check that the system ended, most likely since there was no memory.
KILLED = "was killed"
# The memory that there has to be for each proof. The largest takes 7 GB, and most 2 to 4.
FOR_EACH = 5_500 * 1024**2
BEFORE = [
    "check_edits.py", "check_names.py", "name_lines.py --check", "make_page.py --check", "make_guide.py --check",
    "make_man.py --check"]
AFTER = [
    f"check_examples.py {PROGRAM}",
    f"check_tutorial.py {PROGRAM}",
    f"check_people.py {PROGRAM}",
    f"check_lists.py {PROGRAM}",
    f"check_file.py {PROGRAM}",
    f"check_dump.py {PROGRAM}",
    f"check_import.py {PROGRAM}",
    f"check_sheets.py {PROGRAM}",
    f"check_tables.py {PROGRAM}",
    f"check_http.py {PROGRAM}",
    f"check_site.py {PROGRAM}",
    f"check_at.py {PROGRAM}",
    f"check_kills.py {PROGRAM}",
    f"check_machine.py {PROGRAM} --runs 9",
    f"check_opening.py {PROGRAM} --runs 3",
    f"check_package.py {PROGRAM}",
    f"check_growth.py {PROGRAM}",
]


def count_scripts(scripts):
    """Runs these scripts of this folder: how many passed, and how many failed."""
    failed = 0
    for script in scripts:
        print(f"== {script}", flush=True)
        name, *words = script.split()
        failed += subprocess.run([sys.executable, TOP / "tools" / name, *words], cwd=TOP, check=False).returncode != 0
    return len(scripts) - failed, failed


def proofs_at_once():
    """How many proofs run side by side: one for each processor that has memory for it. Left to itself 'rt ci' reckons
    far more for each, and leaves processors idle."""
    memory = os.sysconf("SC_PAGE_SIZE") * os.sysconf("SC_PHYS_PAGES")
    return max(1, min(len(os.sched_getaffinity(0)), memory // FOR_EACH))


def echoed(words, **how):
    """Runs a command, and shows what it writes as it comes: its lines that tell of what failed, its last line, and its
    status."""
    lost, last = [], ""
    with subprocess.Popen(words, stdout=subprocess.PIPE, text=True, errors="replace", **how) as ran:
        for last in ran.stdout:
            print(last, end="", flush=True)
            lost += [last.rstrip()] * bool(LOST.search(last))
    return lost, last.strip(), ran.returncode


def prove_all(jobs):
    """Runs 'rt ci' with so many proofs side by side: what `echoed` tells of it. Where a check was killed and that failed
    it, half as many are run once more: what passed is kept."""
    told = echoed(["rt", "ci"], cwd=TOP, env={**os.environ, "RT_JOBS": str(jobs)})
    lost, _, status = told
    if status == 0 or jobs == 1 or not any(KILLED in line for line in lost):
        return told
    print(f"== once more, {jobs // 2} side by side", flush=True)
    return prove_all(jobs // 2)


def count_proofs(jobs):
    """Runs 'rt ci': how many passed, and how many failed, by its last line."""
    watch = proof_times.Watch()
    watch.start()
    lost, last, status = prove_all(jobs or proofs_at_once())
    steps = watch.stop()
    proof_times.keep(steps)
    print("\n".join(proof_times.table_of(steps)), *lost, sep="\n", flush=True)
    counts = re.fullmatch(r"(\d+) passed, (\d+) failed", last)
    passed, failed = map(int, counts.groups()) if counts else (0, 1)
    return passed, failed or int(status != 0)


def show_table(graph):
    """Prints the table of the last gate, and writes its picture where one is asked for."""
    steps = proof_times.kept()
    print("\n".join(proof_times.table_of(steps) if steps else ["no gate ran here yet"]))
    if steps and graph:
        graph.write_text("\n".join(proof_times.graph_of(steps)) + "\n")


def main():
    does, called = __doc__.split("\nusage: ")
    plain = argparse.RawDescriptionHelpFormatter
    words = argparse.ArgumentParser(usage=called, description=does, formatter_class=plain)
    words.add_argument("--jobs", type=int)
    words.add_argument("--only")
    words.add_argument("--table", action="store_true")
    words.add_argument("--graph", type=pathlib.Path)
    given = words.parse_args()
    if given.table:
        return show_table(given.graph)
    steps = [lambda: count_scripts(BEFORE), lambda: count_proofs(given.jobs), lambda: count_scripts(AFTER)]
    if given.only:
        chosen = [it for it in [*BEFORE, *AFTER] if given.only in it.split()[0]]
        expect(chosen, f"no script has {given.only!r} in its name")
        steps = [lambda: count_scripts(chosen)]
    passed = failed = 0
    for step in steps:
        if not failed:
            more, failed = step()
            passed += more
    print(f"{passed} passed, {failed} failed")
    sys.exit(failed > 0)


if __name__ == "__main__":
    main()
