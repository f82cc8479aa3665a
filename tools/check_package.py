#!/usr/bin/env python3
"""Installs the built program into a temporary folder and tries what was installed with it: the page of man, by 'groff',
'mandoc' and 'man', for warnings; the help of each command, for the words that the page and the completions have; the
completions, which bash reads and is asked for; and the unit, by 'systemd-analyze', and by doing what it says: the
program serves with its words, is stopped by a signal, and does what comes then, so that the file alone has the books.
Then it makes the package of Debian, twice, looks at it by 'lintian', which may have no error and whose warnings are
told, unpacks it, and runs its program on the first example. What the machine doesn't have of all that is told and left
out. It takes some ten seconds, half of them for 'lintian'.

usage: tools/check_package.py PROGRAM"""
import filecmp
import os
import pathlib
import re
import shlex
import shutil
import signal
import subprocess
import sys
import tempfile

from make_man import MEMBERS, options_of
from machine.lines import FIELDS
from program_words import program
from shared import TOP, ask, expect, reader_of_words, run, serve

EXAMPLE = TOP / "crates" / "invdesk"
MANUAL, SCRIPT = "share/man/man1/invdesk.1", "share/bash-completion/completions/invdesk"
UNIT = "lib/systemd/system/invdesk.service"
INSTALLED = [
    "bin/invdesk", MANUAL, SCRIPT, UNIT, "lib/sysusers.d/invdesk.conf", "share/doc/invdesk/README.md",
    "share/doc/invdesk/docs/OPERATING.md", "share/doc/invdesk/contrib/views.sql"]
# How much of the system the unit may be exposed to, as 'systemd-analyze security' counts it, in tenths of ten.
EXPOSED = 15
# What bash is asked to complete, and what it has to propose: these words, or all values of a word of that name. Bash
# has cut each word at a sign of equality.
ASKED = {
    "invdesk r": "run report",
    "invdesk --v": "--version",
    "invdesk show --db a.db ": "@list",
    "invdesk show --db a.db trace": "trace-forward trace-back",
    "invdesk show --db a.db --csv orders --o": "--open",
    "invdesk show --db a.db at S": "",
    "invdesk report --names --db a.db ": "@name",
    "invdesk report --db a.db stock --n": "--names",
    "invdesk export --db a.db order": "orders order_lines",
    "invdesk help ": "@topic",
    "invdesk run --db ": "books here.csv here.db",
    "invdesk run --db here": "here.csv here.db",
    "invdesk run --db = here.d": "here.db",
    "invdesk serve --port 8080 --token b": "books",
    "invdesk serve --port 8080 --p": "--page",
    "invdesk serve --port ": "",
    "invdesk import --kind ": "@kind",
    "invdesk import --kind = rec": "receipts",
    "invdesk lines --kind add_s": "add_substitute",
    "invdesk import --kind found --set qu": "quantity=",
    "invdesk import --kind found --set quantity = 5 --set ": "@found",
    "invdesk import --kind found --set quantity = 5 --column part = Part here.c": "here.csv",
    "invdesk import --db a.db --stop --set day = 5 --s": "--set",
}
ASKING = """
source "$1"
while IFS= read -r line; do
    IFS=' ' read -ra COMP_WORDS <<< "$line"
    [[ $line == *' ' ]] && COMP_WORDS+=('')
    COMP_CWORD=$((${#COMP_WORDS[@]} - 1)) COMPREPLY=()
    _invdesk
    echo "${COMPREPLY[*]}"
done
complete -p invdesk
"""


class Tools:
    """Which programs that look at something were there."""

    def __init__(self):
        self.used, self.lacking = [], []

    def has(self, name):
        is_there = shutil.which(name) is not None
        (self.used if is_there else self.lacking).append(name)
        return is_there


def quiet(what, *words, **more):
    """Runs a command that has to end well and may say nothing."""
    done = subprocess.run(words, stdout=subprocess.PIPE, stderr=subprocess.STDOUT, text=True, check=False, **more)
    is_quiet = done.returncode == 0 and not done.stdout
    expect(is_quiet, f"{what}: {words[0]} ends with {done.returncode} and says {done.stdout!r}")


def made(target, **values):
    """Makes a target with these values, of the program as it was built."""
    words = ["make", "-s", "-o", "build", target, *(f"{name}={value}" for name, value in values.items())]
    quiet(f"make {target}", *words, cwd=TOP, env={**os.environ, "MAKEFLAGS": ""})


def try_install(built, top):
    """Installs below DESTDIR, and without it: the same files, of which the unit alone says where the program is."""
    made("install", PROGRAM=built, DESTDIR=f"{top}/below", PREFIX="/usr")
    made("install", PROGRAM=built, DESTDIR="", PREFIX=f"{top}/usr")
    for name in INSTALLED:
        one, other = (pathlib.Path(top, folder, name) for folder in ("below/usr", "usr"))
        expect(one.is_file() and other.is_file(), f"make install doesn't install {name}")
        wanted = one.read_bytes()
        if name == UNIT:
            wanted = wanted.replace(b"/usr/bin/", f"{top}/usr/bin/".encode())
        expect(other.read_bytes() == wanted, f"{name} is another one where it is installed elsewhere")
    expect(os.access(f"{top}/usr/bin/invdesk", os.X_OK), "the installed program can't be run")
    made("uninstall", DESTDIR=f"{top}/below", PREFIX="/usr")
    left = [it for it in pathlib.Path(top, "below").rglob("*") if it.is_file()]
    expect(not left, f"make uninstall leaves {left[:1]}")


def try_manual(page, tools):
    """Looks for warnings of the page of man."""
    if tools.has("groff"):
        quiet("the page of man", "groff", "-man", "-ww", "-z", page)
    if tools.has("mandoc"):
        quiet("the page of man", "mandoc", "-T", "lint", page)
    if tools.has("man"):
        how = {"capture_output": True, "text": True, "env": {**os.environ, "MANWIDTH": "80", "LC_ALL": "C.UTF-8"}}
        done = subprocess.run(["man", "--warnings", "-l", page], check=False, **how)
        expect(done.returncode == 0 and not done.stderr, f"man says of the page {done.stderr!r}")
        expect(re.search(r"\nNAME\n +invdesk +- ", done.stdout), "the page that man shows has no name")


def try_help(built, top):
    """Compares the help of the program and of its commands with the words that the page has."""
    told = run(built, "--version").stdout
    expect(told == f"invdesk {top.said['version']}\n", f"the version is {told!r}")
    for command in top, *top.commands:
        asked = [] if command is top else [command.name]
        text = run(built, *asked, "--help").stdout
        found = set(re.findall(r"(?m)^ +(?:-\w, )?(--[\w-]+)", text)) - {"--help", "--version"}
        expect(found == set(options_of(command)), f"the help of {command.name} has the options {sorted(found)}")
        words = [command, *command.words, *command.commands]
        for about in (it.said.get("about") or it.said["help"] for it in words):
            expect(about in text, f"the help of {command.name} doesn't say {about!r}")


def questions(top):
    """What bash is asked to complete, each with what it has to propose."""
    values = {f"@{it.name}": it.values() for command in top.commands for it in command.words if it.values()}
    values["@found"] = [f"{it}=" for it in [*MEMBERS, *(name for name, _, _ in FIELDS["found"])]]
    yield "invdesk ", [*(it.name for it in top.commands), "--help", "--version"]
    yield from ((f"invdesk {it.name} -", [*options_of(it), "--help"]) for it in top.commands)
    yield from ((question, values.get(wanted) or wanted.split()) for question, wanted in ASKED.items())


def try_completions(script, top, folder):
    """Has bash read the completions, and asks for some: how many."""
    folder.mkdir()
    for name in "here.db", "here.csv", "books":
        (folder / name).touch()
    asked = list(questions(top))
    lines = "".join(f"{question}\n" for question, _ in asked)
    done = subprocess.run(["bash", "--norc", "-c", ASKING, "bash", script], cwd=folder, input=lines,
                          capture_output=True, text=True, check=False)
    expect(done.returncode == 0 and not done.stderr, f"bash says of the completions {done.stderr!r}")
    *proposed, last = done.stdout.splitlines()
    expect(last == "complete -F _invdesk invdesk" and len(proposed) == len(asked), f"bash proposes {done.stdout!r}")
    for (question, wanted), words in zip(asked, proposed):
        expect(sorted(words.split()) == sorted(wanted), f"of {question!r} bash proposes {words!r} and not {wanted}")
    return len(asked)


def try_unit(unit, top, tools):
    """Looks at the unit, and does what it says: it serves, is stopped, and the file alone has the books."""
    if tools.has("systemd-analyze"):
        quiet("the unit", "systemd-analyze", "verify", unit, env={**os.environ, "MANPATH": f"{top}/usr/share/man"})
        if "--offline" in run("systemd-analyze", "--help").stdout:
            done = run("systemd-analyze", "security", "--no-pager", "--offline=yes", f"--threshold={EXPOSED}", unit)
            expect(done.returncode == 0, f"the unit is exposed: {done.stdout[-80:]!r} {done.stderr!r}")
    said = dict(re.findall(r"(?m)^(\w+)=-?(.*)$", unit.read_text().replace("%S", f"{top}/state")))
    expect(said.keys() >= {"ExecStart", "ExecStopPost"}, "the unit doesn't say what is run")
    pathlib.Path(top, "state", "invdesk").mkdir(parents=True)
    built, does, *words = shlex.split(said["ExecStart"])
    at = words.index("--port")
    expect(does == "serve" and words[at + 1] == "8080", "the unit doesn't serve at port 8080")
    process, port = serve(built, *words[:at], *words[at + 2:], stderr=subprocess.DEVNULL)
    line = '{"day":"2030-01-02","do":"add_location","name":"Bench"}'
    statuses = ask(port, "POST", "/run", line)[0], ask(port, "GET", "/")[0]
    expect(statuses == (200, 200), f"the service of the unit answers a line and the page with {statuses}")
    process.send_signal(signal.SIGTERM)
    expect(process.wait() == -signal.SIGTERM, "a signal doesn't stop the service of the unit")
    process.stdout.close()
    quiet("what the unit does then", *shlex.split(said["ExecStopPost"]), stdin=subprocess.DEVNULL)
    shutil.copy(f"{top}/state/invdesk/workshop.db", f"{top}/copy.db")
    rows = run(built, "export", "--db", f"{top}/copy.db", "locations").stdout
    expect("\n1,Bench," in rows, f"a copy of the file that the unit leaves has {rows!r}")


def try_package(built, top, tools):
    """Makes the package twice, looks at it, unpacks it, and runs its program on the first example."""
    if not tools.has("dpkg-deb"):
        return
    for name in "one", "other":
        words = [sys.executable, TOP / "tools" / "make_deb.py", built, "--to", f"{top}/{name}"]
        subprocess.run(words, check=True, stdout=subprocess.DEVNULL)
    one, other = (next(pathlib.Path(top, name).glob("*.deb")) for name in ("one", "other"))
    expect(filecmp.cmp(one, other, shallow=False), "a package that is made once more is another one")
    if tools.has("lintian"):
        told = run("lintian", "--no-cfg", one).stdout
        expect("E: " not in told, f"lintian has errors: {told!r}")
        print(told, end="")
    quiet("the package", "dpkg-deb", "-x", one, f"{top}/unpacked")
    quiet("the package", "dpkg-deb", "-e", one, f"{top}/control")
    quiet("the package", "md5sum", "-c", "--quiet", f"{top}/control/md5sums", cwd=f"{top}/unpacked")
    answers = run(f"{top}/unpacked/usr/bin/invdesk", "run", lines=(EXAMPLE / "stdin").read_text()).stdout
    expect(answers == (EXAMPLE / "stdout").read_text(), f"the program of the package answers {answers!r}")


def main():
    built, words, tools = reader_of_words(__doc__).parse_args().program, program(), Tools()
    with tempfile.TemporaryDirectory() as top:
        installed = pathlib.Path(top, "usr")
        try_install(built, top)
        try_manual(installed / MANUAL, tools)
        try_help(built, words)
        count = try_completions(installed / SCRIPT, words, pathlib.Path(top, "here"))
        try_unit(installed / UNIT, top, tools)
        try_package(built, top, tools)
    lacking = f"; without {', '.join(tools.lacking)}, which the machine doesn't have" if tools.lacking else ""
    print(f"check_package: {len(INSTALLED)} files, {count} completions; {', '.join(tools.used)}{lacking}")


if __name__ == "__main__":
    main()
