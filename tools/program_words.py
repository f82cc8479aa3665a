"""The words that the program is called with, as `crates/desk_cli/src/words.rt` makes them: each function there that
makes a command, or a word of one, is run once more in Python, from `command` on."""
import re

from shared import TOP, expect

SOURCE = TOP / "crates" / "desk_cli" / "src" / "words.rt"
TOKEN = re.compile(r'\s*(?:("(?:\\.|[^"\\])*")|(\w+(?:::\w+)*)|([^\s\w]))', re.S)
# A function whose head ends with clauses, so that its body's brace stands alone.
FUNCTION = re.compile(r"^fn (\w+)<'a>\(([^)]*)\) -> [^\n]*[^{\n]\n.*?^\{\n(.*?)^\}$", re.M | re.S)
FLAG, REPEATED = "ArgAction::SetTrue", "ArgAction::Append"


class Made:
    """A command or a word of one: its name, what its source says of it, a command's words, and those below it."""

    def __init__(self, name):
        self.name, self.said, self.words, self.commands = name, {}, [], []

    def take(self, method, given):
        """Does what a method of that name does, which gives the same thing back."""
        if method == "arg":
            self.words.append(given[0])
        elif method == "subcommand":
            self.commands.append(given[0])
        else:
            self.said[method] = given[0]
        return self

    def is_needed(self):
        return self.said.get("required") == "true"

    def takes_value(self):
        return self.said["action"] != FLAG

    def is_repeated(self):
        return self.said["action"] == REPEATED

    def values(self):
        """The values that the word may have, where they are listed."""
        return self.said.get("value_parser", [])


def text_in(token):
    """The text that a token of the source says. Behind a backslash at a line's end blanks are left out."""
    plain = re.sub(r"\\\n\s*", "", token[1:-1])
    return re.sub(r'\\(["\\])', r"\1", plain)


class Reader:
    """Reads what a function's body says, whose parameters are given, and makes it."""

    def __init__(self, source, body, names):
        self.source, self.names = source, names
        self.tokens = [found.group().strip() for found in TOKEN.finditer(body)]

    def next(self, *wanted):
        """Takes the next token, if it is one of these, or any where none is told: whether, or which, it is."""
        if wanted and (not self.tokens or self.tokens[0] not in wanted):
            return None
        return self.tokens.pop(0)

    def expect(self, wanted):
        expect(self.next(wanted), f"{SOURCE.name} isn't read: {wanted!r} is wanted before {self.tokens[:5]}")

    def body(self):
        """What the last expression makes, behind the names that are given to others."""
        while self.next("let"):
            name = self.next()
            self.expect("=")
            self.names[name] = self.made()
            self.expect(";")
        return self.made()

    def given(self):
        """What stands in parentheses, of which the first was taken."""
        found = []
        while not self.next(")"):
            found.append(self.made())
            self.next(",")
        return found

    def made(self):
        """What one expression makes."""
        it = self.first()
        while mark := self.next(".", "?"):
            if mark == ".":
                method = self.next()
                self.expect("(")
                given = self.given()
                it = it if method == "as_slice" else it.take(method, given)
        return it

    def first(self):
        """What stands before the first method of an expression: a text, a call, or a name."""
        token = self.next()
        if token.startswith('"'):
            return text_in(token)
        if not self.next("("):
            return self.names.get(token, self.source.constants.get(token, token))
        given = self.given()
        return Made(given[1]) if token.endswith("::new") else self.source.call(token, given)


class Source:
    """The functions and the constants of the program's words."""

    def __init__(self, text):
        self.functions = {name: (re.findall(r"(\w+):", parameters), body)
                          for name, parameters, body in FUNCTION.findall(text)}
        texts = re.findall(r'^const (\w+): &str =\s*("(?:\\.|[^"\\])*");', text, re.M | re.S)
        lists = re.findall(r"^const (\w+): \[&str; \d+\] = \[(.*?)\];", text, re.M | re.S)
        self.constants = {**{name: text_in(token) for name, token in texts},
                          **{name: re.findall(r'"([^"]*)"', body) for name, body in lists}}

    def call(self, name, given):
        """What a function of that name makes."""
        expect(name in self.functions, f"{SOURCE.name} isn't read: there is no function {name}")
        parameters, body = self.functions[name]
        return Reader(self, body, dict(zip(parameters, given))).body()


def program():
    """The program as its words make it: a command with those below it."""
    return Source(SOURCE.read_text()).call("command", ["alloc"])
