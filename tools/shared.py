"""What the scripts beside it share: the words that they are called with, how the built program is run, served and
asked, how its files are looked at, and how a script ends where something isn't as it has to be."""
import argparse
import contextlib
import http.client
import os
import pathlib
import shutil
import socket
import sqlite3
import subprocess
import sys
import tempfile

from machine.reports import HEADERS

TOP = pathlib.Path(__file__).resolve().parent.parent
SCRIPT = pathlib.Path(sys.argv[0]).stem
# The columns of each table, in their order.
COLUMNS = {table: names.split() for table, names in HEADERS.items()}


def reader_of_words(text, *programs):
    """Reads the words of a script. Its text says what it does and, behind 'usage: ', how it is called; its first words
    are the built program, or the programs of those names."""
    does, called = text.replace("%", "%%").split("\nusage: ")
    plain = argparse.RawDescriptionHelpFormatter
    reader = argparse.ArgumentParser(usage=called, description=does, formatter_class=plain)
    for name in programs or ["program"]:
        reader.add_argument(name, type=os.path.abspath, help="the path of a built program")
    return reader


def expect(holds, text):
    """Ends the script with the text where something isn't as it has to be."""
    if not holds:
        sys.exit(f"{SCRIPT}: {text}")


def run(program, *words, lines="", **more):
    """Runs the program with these words on the lines, to its end. What it writes is text where the lines are text."""
    is_text = isinstance(lines, str)
    return subprocess.run([program, *words], input=lines, capture_output=True, text=is_text, check=False, **more)


def free_port():
    """A port of the loopback on which nothing listens."""
    with contextlib.closing(socket.socket()) as taken:
        taken.bind(("127.0.0.1", 0))
        return taken.getsockname()[1]


def serve(program, *words, stderr=subprocess.PIPE, port=None, **more):
    """Starts the program as a server, at a free port or that one, and waits until it can be asked: the process and its
    port. A port that was free may be taken before the program listens there: then it is another one, a few times."""
    for left in reversed(range(5)):
        at = port or free_port()
        command = [program, "serve", *words, "--port", str(at)]
        process = subprocess.Popen(command, stdout=subprocess.PIPE, stderr=stderr, **more)
        said = process.stdout.readline()
        if said == f"listening on 127.0.0.1:{at}\n".encode():
            return process, at
        told = process.stderr.read() if process.stderr else b""
        expect(left and not port and b"Address already in use" in told, f"a server says {said!r}, and tells {told!r}")
        process.wait()
    return None


def ask(port, method, path, body=None, timeout=20, **fields):
    """Sends a request of HTTP: the status, the fields and the body of the answer."""
    connection = http.client.HTTPConnection("127.0.0.1", port, timeout=timeout)
    with contextlib.closing(connection):
        connection.request(method, path, body, fields)
        answer = connection.getresponse()
        return answer.status, answer.headers, answer.read()


def posted(body, path="/run", fields=""):
    """The bytes of a POST request, which has no more fields than its length and these."""
    return f"POST {path} HTTP/1.1\r\nContent-Length: {len(body)}\r\n{fields}\r\n{body}".encode()


def rows_of(conn, tables=COLUMNS):
    """The rows of each of these tables of a file, in the order of their first columns."""
    return {table: conn.execute(f"SELECT * FROM {table} ORDER BY 1").fetchall() for table in tables}


def expect_whole(conn):
    """Ends the script where sqlite finds a fault in the file."""
    expect(conn.execute("PRAGMA integrity_check").fetchone() == ("ok",), "the file isn't whole")


@contextlib.contextmanager
def copy_with_log(path):
    """A connection of Python's sqlite3 to a copy of a file and of its log, which lies beside it meanwhile."""
    with tempfile.TemporaryDirectory(dir=pathlib.Path(path).parent) as folder:
        copy = f"{folder}/copy.db"
        for end in ("", "-wal"):
            with contextlib.suppress(FileNotFoundError):
                shutil.copyfile(f"{path}{end}", f"{copy}{end}")
        with contextlib.closing(sqlite3.connect(copy)) as conn:
            yield conn


def built_by_cc(source, target, *words):
    """Builds a C source with the system's compiler: the path of what was built, or none where it can't be."""
    compiler = next(filter(None, map(shutil.which, ("cc", "gcc", "clang"))), None)
    if not compiler:
        return None
    done = subprocess.run([compiler, "-O2", "-o", str(target), str(source), *words], check=False)
    return None if done.returncode else str(target)


def copy_crates(to, *left_out):
    """Copies the crates without what checks left in them, and without files and folders of these names."""
    shutil.copytree(TOP / "crates", f"{to}/crates", ignore=shutil.ignore_patterns("out", *left_out))
    for name in ("crates.txt", "HANDLES"):
        shutil.copy(TOP / name, to)
