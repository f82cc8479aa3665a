#!/usr/bin/env python3
"""Times the program, and prints what it took. Words behind the program say what is timed; without them all of it is.

lines  Lines of each kind, twice: 20,000 and 40,000, or those of 500 builds and of 1,000, in memory and with a file on
       a memory disk; and as many lines among 10,000 rows and among 20,000, or among as many as stand beside them. It
       prints lines per second and peak memory of each run, and by what factor the time grows; among rows also by what
       factor the time of the lines alone grows, without that of the rows that they are among. Among the kinds are one
       serial in many parts and in many families, serials that are in a large family and in as many others, and serials,
       names and keys that have one hash in an earlier program.
file   20,000 and 40,000 finds and removals on a file, on a disk and on a memory disk, once by a pipe and once line by
       line, each sent when the one before it was answered. Beside them, in the same run, the same writes in groups of
       the same size and alone: by Python's sqlite3; by a C program with prepared statements over the system's library,
       where there is a C compiler and that library; and alone by the kit's `sqlite`. All are in WAL with synchronous
       FULL. Then the opening of a file of 50,000 and of 100,000 rows, half of them items and half their entries;
       transfers of single pieces among 1,000 items and among 20,000; and imports of 10,000, 20,000 and 100,000 counts,
       the first two beside the same requests as lines. It prints seconds, ratios and peak memory. The program over the
       kit's `sqlite` is proved and built in a folder of its own, in some minutes.
history  Books of 100,000 and of 200,000 items with one entry each, and with five: how long they take to be opened,
       beside Python's sqlite3, which reads the same rows; what is held in memory then, and the most until then; the
       history exported, and that of one item. And how many bytes an entry takes, an item with one, and a key: by books
       that requests made in memory, and once more by the files, whose opening leaves memory with the C library.
http   2,000 and 20,000 finds by POST /run, a connection for each, in memory and with a file on a memory disk; and
       beside them, in the same run, as many requests to a server of Python's http.server that reads the body and does
       nothing. The client is a C program where there is a C compiler, so that little of what is timed is the client's;
       else it is Python's. It prints requests a second, the median and the 99th percentile in milliseconds.
names  20,000 lines of each of three kinds with names and with numbers of the same rows, in memory and with a file on a
       memory disk, among 2,000 parts, items and locations and among 200,000 of each: parts by their names, locations by
       their ways, items by their parts and serials, and by keys. It prints seconds of a processor, and by what factor
       names take longer.
sheets 50,000 and 100,000 rows of a file of stock, a key each, imported by the name of their command, on a memory disk;
       and beside them the same lines, run with names, and with names once all have been looked at. It prints seconds,
       how many times as long the import takes, peak memory, and by what factors both grow.
recall 40,000 finds and removals with a journal and without, in memory and on a file on a memory disk; what a request
       takes more of memory with a journal; and the lists trace-forward and trace-back on books of 200,000 items with as
       many kept answers. It prints by what factor the journal takes longer, bytes, and seconds beside the opening.
calls  Calls of the libraries, without the reading and writing of lines: the cycle test of bills, and transfers in
       part, each at 1,000 and at 2,000 rows. It prints milliseconds per call, and by what factor they grow.

usage: tools/bench.py PROGRAM [lines] [file] [history] [http] [names] [sheets] [recall] [calls]"""
import multiprocessing
import sys

from shared import reader_of_words
from timings import calls, file, history, lines, names, recall, service, sheets

PARTS = {
    "lines": lines.time_lines,
    "file": file.time_files,
    "history": history.time_history,
    "http": service.time_service,
    "names": names.time_names,
    "sheets": sheets.time_sheets,
    "recall": recall.time_recall,
    "calls": calls.time_calls,
}


def main():
    words = reader_of_words(__doc__)
    words.add_argument("parts", nargs="*", metavar="what", help=f"what is timed: {', '.join(PARTS)}")
    given = words.parse_args()
    unknown = [part for part in given.parts if part not in PARTS]
    if unknown:
        words.error(f"nothing is timed by the name {unknown[0]}")
    for part in given.parts or PARTS:
        # Each has a process of its own, so that the peaks of memory are those of its own runs.
        process = multiprocessing.Process(target=PARTS[part], args=(given.program,))
        process.start()
        process.join()
        if process.exitcode:
            sys.exit(process.exitcode)


if __name__ == "__main__":
    main()
