#!/usr/bin/env python3
"""Looks whether the time of the program grows with the lines, and not with their square: one serial in many parts, in
many families, and in a family as in as many other parts; and serials, names of parts and keys of requests that were
chosen to have one hash where hashes begin as anyone can work out. Of each kind it runs 5,000 lines and 20,000, and
prints what they took of a processor. Where the square counted, four times the lines would take sixteen times as long;
more than eight times is a fault, and so is a line that isn't answered, or another answer than that of other seeds.

usage: tools/check_growth.py PROGRAM"""
import resource

from shared import expect, reader_of_words, run
from timings import lines

KINDS = (
    lines.one_serial, lines.one_serial_of_variants, lines.serials_of_variants, lines.chosen_serials, lines.chosen_names,
    lines.chosen_keys,
)
COUNTS = (5_000, 20_000)
MOST = 8
# What a run takes besides its lines, as it begins and ends, is little beside this.
LEAST = 0.02


def taken():
    """The seconds of a processor that the runs took so far."""
    of_runs = resource.getrusage(resource.RUSAGE_CHILDREN)
    return of_runs.ru_utime + of_runs.ru_stime


def ran(program, kind, count):
    """The seconds of a processor that so many lines of a kind take, and what answers them."""
    text = "".join(line + "\n" for line in kind(count))
    begin = taken()
    done = run(program, "run", lines=text, timeout=600)
    expect(done.stdout.count("\n") == text.count("\n"), f"{kind.__name__}: of {count} lines not each is answered")
    return taken() - begin, done.stdout


def main():
    program = reader_of_words(__doc__).parse_args().program
    for kind in KINDS:
        (few, front), (many, _) = (ran(program, kind, count) for count in COUNTS)
        # Each run draws its own seed.
        expect(ran(program, kind, COUNTS[0])[1] == front, f"{kind.__name__}: two runs answer otherwise")
        factor = many / max(few, LEAST)
        print(f"{kind.__name__}: {few:.2f} s and {many:.2f} s, {factor:.1f} times as long", flush=True)
        expect(factor <= MOST, f"{kind.__name__}: four times the lines take {factor:.1f} times as long")
    print(f"{len(KINDS)} kinds of lines: none grows as its square")


if __name__ == "__main__":
    main()
