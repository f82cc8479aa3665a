#!/usr/bin/env python3
"""Writes the page of `man invdesk`, `contrib/invdesk.1`, and the completions of bash, `contrib/invdesk.bash`. Both have
the commands with their words as the program reads them (`tools/program_words.py`). The page has besides what the README
says first, the answers of `docs/TUTORIAL.md`, the tables of `docs/REFUSALS.md`, and the files and the environment of
`docs/OPERATING.md`.
It bears the day on which the rest of it was last written otherwise. The kit that the program says it is proved with has to
be the one of the documents, and its logic that of `rt version`.

usage: tools/make_man.py [--check]     --check writes nothing, and tells which isn't as it would be written"""
import argparse
import datetime
import re
import shutil
import subprocess
import textwrap

from machine.lines import FIELDS
from make_page import section
from program_words import program
from shared import TOP, expect

PAGE, COMPLETIONS = TOP / "contrib" / "invdesk.1", TOP / "contrib" / "invdesk.bash"
# The sections of docs/REFUSALS.md whose tables the page has, and what stands above each.
SAID = {
    "Refusals": "A request that can't be done as things stand is refused, and changes nothing.",
    "Faults of lines and of files that are imported": "A line or a file that can't be read has a fault.",
    "Words of a report": "A word that is to call a row may call none.",
    "Workshop files": "A line on the standard error says why a file isn't opened, or that it failed.",
    "Tokens": "So does one of the file of a token.",
    "Services": "And so does one of a service that is asked.",
    "Statuses of HTTP": "The service answers with these.",
}
# What a word of the program names where its value has this name.
PATHS = ("FILE", "PATH")
# What a line of each kind has besides its fields, as '--set' and '--column' say it.
MEMBERS = ["number", "key", "day"]


def is_option(word):
    return "long" in word.said


def options_of(command):
    """The options of a command, as they are typed."""
    return [f"--{it.said['long']}" for it in command.words if is_option(it)]


# The page of man.

def escaped(text):
    """A text as a line of the page has it."""
    return text.replace("\\", "\\e").replace("`", "\\(ga").replace("~", "\\(ti").replace("^", "\\(ha")


def literal(text):
    """A text that is typed or printed as it stands."""
    return escaped(text).replace("-", "\\-").replace("'", "\\(aq")


def strong(text):
    return f"\\fB{literal(text)}\\fR"


def slanted(text):
    return f"\\fI{literal(text)}\\fR"


def named(text):
    """A name amid a text. One without blanks isn't hyphenated."""
    return "\\%" * (" " not in text) + strong(text)


def told(text):
    """A text of a document or of the help, in which names stand between backticks."""
    cut = re.split(r"``(.+?)``|`([^`]+)`", text.replace("\\|", "|").strip())
    parts = zip(cut[::3], cut[1::3] + [None], cut[2::3] + [None])
    return "".join(escaped(plain) + (named((double or single).strip()) if double or single else "")
                   for plain, double, single in parts)


def sentence(text):
    """The help of a word as a sentence."""
    return told(re.sub(r"(--\w+)", r"`\1`", f"{text[0].upper()}{text[1:]}."))


def filled(*texts):
    """A paragraph of these texts, in lines of which none is taken for a request of roff."""
    lines = textwrap.wrap(" ".join(texts), 79, break_long_words=False, break_on_hyphens=False)
    return [f"\\&{line}" if line[0] in ".'" else line for line in lines]


def tagged(tag, *texts):
    """Something that has a name, and what is said of it."""
    return [".TP", tag, *filled(*texts)]


def form(word):
    """A word as it is typed: an option, with its value if it has one, or a value alone."""
    option, value = word.said.get("long"), word.said.get("value_name")
    return " ".join([*([strong(f"--{option}")] if option else []), *([slanted(value)] if value else [])])


def usage(command):
    """The words of a command, those first that it needs."""
    yield strong(command.name)
    for word in sorted(command.words, key=lambda it: (not is_option(it), not it.is_needed())):
        yield form(word) if word.is_needed() else f"[{form(word)}]" + " ..." * word.is_repeated()


def values_of(word, command, shown):
    """Which values a word may have, where they are listed. A list that was shown stands where it was."""
    if word.values():
        names, where = ", ".join(map(named, word.values())), shown.setdefault(tuple(word.values()), command.name)
        yield f"It is one of {names}." if where == command.name else f"It is one of those of {named(where)}."


def part_of(command, shown):
    """What the page says of a command."""
    yield from [f".SS {command.name}", *filled(sentence(command.said["about"]))]
    for word in command.words:
        yield from tagged(form(word), sentence(word.said["help"]), *values_of(word, command, shown))
    if "after_help" in command.said:
        title, *examples = command.said["after_help"].replace(": invdesk", ":\ninvdesk").split("\n")
        yield from [".PP", title, ".PP", ".nf", ".RS 4", *(literal(it.strip()) for it in examples), ".RE", ".fi"]


def table(text):
    """The tables in a text of a document: the first cell of each row as a name, the others behind it."""
    rows = re.findall(r"^\| (.*) \|$", text, re.M)
    expect(rows, "a document has no table where the page of man has one")
    for row in rows[1:]:
        name, *others = re.split(r"(?<!\\) \| ", row)
        yield from tagged(told(name) if "`" in name else strong(name), *map(told, others))


def paragraphs(text):
    """The paragraphs and the lists of a text of a document, without its tables."""
    for at, block in enumerate(it for it in text.strip().split("\n\n") if not it.startswith("|")):
        if block.startswith("- "):
            yield from (line for it in block.split("\n") for line in [".IP \\(bu 2", *filled(told(it[2:]))])
        else:
            yield from [*([".PP"] if at else []), *filled(told(block))]


def page_of(top):
    """The lines of the page behind its head."""
    readme, about, shown = (TOP / "README.md").read_text(), top.said["about"], {}
    yield from [".SH NAME", *filled(f"{top.name} \\- {about[0].lower()}{about[1:]}"), ".SH SYNOPSIS"]
    for command in top.commands:
        yield from [f".SY {top.name}", *filled(*usage(command)), ".YS"]
    yield from [f".SY {top.name}", f"{strong('--help')} | {strong('--version')}", ".YS"]
    yield from [".SH DESCRIPTION", *paragraphs(readme.split("\n\n", 1)[1].split("\n\nIt has ")[0])]
    yield from [".PP", *filled(f"Without a command it is {named('run')}, of books that end with it.",
                               f"{named('invdesk help commands')} prints what a line can ask for.")]
    yield from [".SH COMMANDS", *(line for command in top.commands for line in part_of(command, shown))]
    yield from [".SH ANSWERS", "Each line has one answer:", *table(section("TUTORIAL.md", "What is answered"))]
    for title, text in (
            ("EXIT STATUS", section("REFUSALS.md", "Statuses that the program ends with")),
            ("FILES", section("OPERATING.md", "Files")), ("ENVIRONMENT", section("OPERATING.md", "Environment"))):
        yield from [f".SH {title}", *paragraphs(text), *(table(text) if "\n| " in text else [])]
    yield from [".SH DIAGNOSTICS", "Two dots stand for what differs from time to time."]
    for title, head in SAID.items():
        yield from [f".SS {title}", head, *table(section("REFUSALS.md", title))]
    yield from [".SH SEE ALSO", ".BR curl (1),", ".BR sqlite3 (1),", ".BR ssh (1),", ".BR systemctl (1)", ".PP"]
    yield from filled("The documents lie in the folder \\fIshare/doc/invdesk\\fR beside that of the program.",
                      f"{named('docs/TUTORIAL.md')} is the one to begin with.")


def logic_of(kit):
    """What a kit's proofs stand on, as its line tells it: kits with the same prove the same."""
    return kit.partition(" ")[2]


def number_of(top):
    """The program's version. Behind it the program says with which kit it is proved, as the documents do."""
    number, kit = re.fullmatch(r"(\S+) \((.*)\)", top.said["version"]).groups()
    for name in "README.md", "docs/engineering/PROOF.md":
        expect(f"`{kit}`" in (TOP / name).read_text(), f"{name} names another kit than the program: {kit}")
    if shutil.which("rt"):
        here = subprocess.run(["rt", "version"], capture_output=True, text=True, check=True).stdout.strip()
        expect(logic_of(here) == logic_of(kit), f"the kit is {here}, and the program says {kit}")
        if here != kit:
            print(f"note: the kit here is {here}, of the logic that the program says: {kit}")
    return number


def page(top, day):
    """The page, last written otherwise on that day."""
    head = [".\\\" This file is written by tools/make_man.py from the program's words and the documents.",
            f'.TH INVDESK 1 {day} "invdesk {number_of(top)}" "User Commands"']
    return "\n".join([*head, *page_of(top)]) + "\n"


def day_of(text):
    """The day that a page bears."""
    found = re.search(r"^\.TH \S+ 1 (\S+)", text, re.M)
    return found and found[1]


def page_by(top, was, today):
    """The page as it is to be written where another was before."""
    same = page(top, day_of(was) or today)
    return same if same == was else page(top, today)


# The completions.

SCRIPT = r"""# Completions of bash for invdesk. This file is written by tools/make_man.py from the program's words.

# Proposes those of the words that begin with what is typed.
_invdesk_words()
{
    mapfile -t COMPREPLY < <(compgen -W "$1" -- "$typed")
}

# Proposes files and folders.
_invdesk_files()
{
    compopt -o filenames 2> /dev/null
    mapfile -t COMPREPLY < <(compgen -f -- "$typed")
}

# Proposes the members that a line of the kind has which is told before, each with the sign behind it.
_invdesk_members()
{
    local members=
    case $kind in
@MEMBERS@
    esac
    compopt -o nospace 2> /dev/null
    mapfile -t COMPREPLY < <(compgen -S = -W "$members" -- "$typed")
}

_invdesk()
{
    local said=() word typed before= command= kind= place=0 given=' ' options= rest= at last
    # bash has cut each word at an equals sign
    for ((at = 0; at <= COMP_CWORD; at++)); do
        word=${COMP_WORDS[at]}
        if ((at > 1)) && [[ $word == = || ${COMP_WORDS[at - 1]} == = ]]; then
            said[-1]+=$word
        else
            said+=("$word")
        fi
    done
    last=$((${#said[@]} - 1))
    typed=${said[last]}
    for ((at = 1; at < last; at++)); do
        word=${said[at]}
        given+="${word%%=*} "
        case $word in
            --kind=*) kind=${word#*=} ;;
            @OPTIONS@)
                ((++at < last)) || before=$word
                [[ $word == --kind ]] && kind=${said[at]} ;;
            -*) ;;
            *) if [[ -z $command ]]; then command=$word; else ((++place)); fi ;;
        esac
    done
    if [[ $typed == --*=* ]]; then
        before=${typed%%=*} typed=${typed#*=}
    fi
    COMPREPLY=()
    case $before in
@VALUES@
    esac
    case $command in
@COMMANDS@
    esac
    if [[ $typed != -* ]]; then
        case $command:$place in
@PLACES@
        esac
    fi
    # what was given isn't proposed again, but for what may be
    for word in $options; do
        [[ $given == *" $word "* && $word != @(@REPEATED@) ]] || rest+=" $word"
    done
    _invdesk_words "$rest"
}

complete -F _invdesk invdesk
"""


def quoted(words):
    return "'" + " ".join(words) + "'"


def branches(indent, found):
    """The branches of a case, of each its label and what it does."""
    return "\n".join(f"{' ' * indent}{label}) {does} ;;" for label, does in found)


def proposal(word):
    """What is proposed as the value of a word: files, values that are listed, members of a line, or nothing."""
    if word.said["value_name"] in PATHS:
        return "_invdesk_files"
    if word.values():
        return f"_invdesk_words {quoted(word.values())}"
    return "_invdesk_members" if word.is_repeated() else ":"


def values_of_options(top):
    """Each option that has a value, with what is proposed for that. It is the same wherever the option stands."""
    found = {}
    for word in (word for command in top.commands for word in command.words):
        if is_option(word) and word.takes_value():
            option, does = f"--{word.said['long']}", proposal(word)
            expect(found.setdefault(option, does) == does, f"{option} has two meanings")
    return found


def values_of_places(top):
    """The place of each word that is no option, with what is proposed there."""
    for command in top.commands:
        words = [it for it in command.words if not is_option(it)]
        yield from ((f"{command.name}:{place}", proposal(it)) for place, it in enumerate(words))


def words_of_commands(top):
    """Each command with its options, and none with the commands."""
    yield "''", [*(it.name for it in top.commands), "--help", "--version"]
    for command in top.commands:
        yield command.name, [*options_of(command), "--help"]


def completions(top):
    """The script that bash reads."""
    words = [word for command in top.commands for word in command.words]
    options = values_of_options(top)
    kinds = next(it.values() for it in words if it.name == "kind")
    parts = {
        "MEMBERS": branches(8, ((kind, "members=" + quoted([*MEMBERS, *(name for name, _, _ in FIELDS[kind])]))
                                for kind in kinds if kind in FIELDS)),
        "OPTIONS": "|".join(options),
        "VALUES": branches(8, ((option, f"{does}; return") for option, does in options.items())),
        "COMMANDS": branches(8, ((name, f"options={quoted(found)}") for name, found in words_of_commands(top))),
        "PLACES": branches(12, ((place, f"{does}; return") for place, does in values_of_places(top) if does != ":")),
        "REPEATED": "|".join(sorted({f"--{it.said['long']}" for it in words if it.is_repeated()})),
    }
    return re.sub(r"@([A-Z]+)@", lambda found: parts[found[1]], SCRIPT)


def main():
    words = argparse.ArgumentParser(description=__doc__, formatter_class=argparse.RawDescriptionHelpFormatter)
    words.add_argument("--check", action="store_true")
    top, is_check = program(), words.parse_args().check
    was = PAGE.read_text() if PAGE.exists() else ""
    today = day_of(was) if is_check else datetime.date.today().isoformat()
    for path, text in (PAGE, page_by(top, was, today)), (COMPLETIONS, completions(top)):
        if is_check:
            is_same = path.exists() and path.read_text() == text
            expect(is_same, f"{path.relative_to(TOP)} isn't as tools/make_man.py would write it")
        else:
            path.write_text(text)
    print(f"make_man: {len(top.commands)} commands")


if __name__ == "__main__":
    main()
