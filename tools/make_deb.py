#!/usr/bin/env python3
"""Makes a package of Debian of the built program, by 'dpkg-deb' alone: what 'make install' installs, what stands in
`contrib/debian`, a change log, and the sums of all files. Its version is the program's and its day that of the newest
commit, so that the same program gives the same package. It needs the version of the C library whose functions the
program uses.

'lintian' has no error and no warning for it. Two of its hints stay: 'hardening-no-fortify-functions', since the program
is no C and calls none of the functions of C that can be fortified; and the one that other systems than systemd would
need a script of their own to start the service.

usage: tools/make_deb.py PROGRAM [--to FOLDER]     --to FOLDER   where the package goes; else it is 'out'"""
import datetime
import email.utils
import gzip
import hashlib
import os
import pathlib
import re
import shutil
import struct
import subprocess
import tempfile

from make_man import PAGE, day_of, number_of
from program_words import program
from shared import TOP, expect, reader_of_words

DEBIAN = TOP / "contrib" / "debian"
SCRIPTS = ["postinst", "prerm", "postrm"]
# The names that Debian has for the machines of programs.
MACHINES = {0x3E: "amd64", 0xB7: "arm64", 0xF3: "riscv64"}
# What the package libc6 has of what a program is linked with.
LIBRARIES = re.compile(r"linux-vdso\.so|(?:/\S+/)?ld-linux|lib(?:c|m|dl|pthread|rt)\.so")
MAINTAINER = "Toqsharil maintainers <maintainers@users.noreply.toqsharil.example>"


def told_by(*words, **more):
    """What a command prints."""
    return subprocess.run(words, cwd=TOP, stdout=subprocess.PIPE, text=True, check=True, **more).stdout


def made_at():
    """When the newest commit was made; where git doesn't tell, the day of the page of man."""
    try:
        told = told_by("git", "log", "-1", "--format=%ct", stderr=subprocess.DEVNULL)
        return datetime.datetime.fromtimestamp(int(told), datetime.timezone.utc)
    except (OSError, subprocess.CalledProcessError):
        return datetime.datetime.fromisoformat(f"{day_of(PAGE.read_text())}T00:00:00+00:00")


def architecture(binary):
    """Debian's name of the machine that a program is for."""
    expect(binary.startswith(b"\x7fELF"), "the program isn't one that Linux runs by itself")
    machine = struct.unpack_from("<H", binary, 18)[0]
    expect(machine in MACHINES, f"Debian's name of the machine {machine} isn't known here")
    return MACHINES[machine]


def needed_library(path, binary):
    """The least version of the C library that has all that a program uses of it. It may need no other library."""
    others = [line.strip() for line in told_by("ldd", path).splitlines() if not LIBRARIES.match(line.strip())]
    expect(not others, f"the program needs more than the C library: {', '.join(others)}")
    versions = re.findall(rb"GLIBC_(\d+(?:\.\d+)+)\0", binary)
    expect(versions, "the program doesn't say which C library it needs")
    return max((it.decode() for it in versions), key=lambda it: [int(part) for part in it.split(".")])


def packed(path):
    """Packs a file as Debian has it: as small as it goes, and with no day in it."""
    path.with_name(f"{path.name}.gz").write_bytes(gzip.compress(path.read_bytes(), 9, mtime=0))
    path.unlink()


def install(top, binary):
    """Installs what the package has, below that folder."""
    words = ["make", "-s", "-o", "build", "install", f"DESTDIR={top}", "PREFIX=/usr", f"PROGRAM={binary}"]
    subprocess.run(words, cwd=TOP, env={**os.environ, "MAKEFLAGS": ""}, check=True)
    if shutil.which("strip"):
        told_by("strip", "--remove-section=.comment", "--remove-section=.note", f"{top}/usr/bin/invdesk")


def describe(top, values, moment):
    """Adds the files by which a package is described."""
    documents, control = top / "usr" / "share" / "doc" / "invdesk", top / "DEBIAN"
    packed(top / "usr" / "share" / "man" / "man1" / "invdesk.1")
    shutil.copyfile(DEBIAN / "copyright", documents / "copyright")
    (documents / "changelog").write_text(
        f"invdesk ({values['VERSION']}) unstable; urgency=medium\n\n  * The program of that version.\n\n"
        f" -- {values['MAINTAINER']}  {email.utils.format_datetime(moment)}\n")
    packed(documents / "changelog")
    files = sorted(path for path in top.rglob("*") if path.is_file())
    values["SIZE"] = str(sum(path.stat().st_size // 1024 + 1 for path in files))
    control.mkdir()
    for script in SCRIPTS:
        shutil.copyfile(DEBIAN / script, control / script)
        (control / script).chmod(0o755)
    told = re.sub(r"@([A-Z]+)@", lambda it: values[it[1]], (DEBIAN / "control").read_text())
    (control / "control").write_text(told)
    sums = (f"{hashlib.md5(path.read_bytes()).hexdigest()}  {path.relative_to(top)}\n" for path in files)
    (control / "md5sums").write_text("".join(sums))


def main():
    words = reader_of_words(__doc__)
    words.add_argument("--to", type=pathlib.Path, default=TOP / "out")
    given = words.parse_args()
    expect(shutil.which("dpkg-deb"), "there is no dpkg-deb here")
    binary, moment = pathlib.Path(given.program).read_bytes(), made_at()
    values = {"VERSION": number_of(program()), "ARCHITECTURE": architecture(binary),
              "LIBRARY": needed_library(given.program, binary), "MAINTAINER": MAINTAINER}
    given.to.mkdir(parents=True, exist_ok=True)
    os.umask(0o022)
    package = given.to / f"invdesk_{values['VERSION']}_{values['ARCHITECTURE']}.deb"
    with tempfile.TemporaryDirectory() as folder:
        top = pathlib.Path(folder, "package")
        install(top, given.program)
        describe(top, values, moment)
        subprocess.run(["dpkg-deb", "--root-owner-group", "-Zxz", "-z1", "--build", top, package], check=True,
                       stdout=subprocess.DEVNULL, env={**os.environ, "SOURCE_DATE_EPOCH": str(int(moment.timestamp()))})
    print(f"make_deb: {package}")


if __name__ == "__main__":
    main()
