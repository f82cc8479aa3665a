"""What is told of a new name by those that stand beside it: that it is near one of them, or that it is blank."""
import unicodedata

# What is left out where it isn't known (Default_Ignorable_Code_Point), from the first to the last.
IGNORABLE = (
    (0xAD, 0xAD), (0x34F, 0x34F), (0x61C, 0x61C), (0x115F, 0x1160), (0x17B4, 0x17B5), (0x180B, 0x180F),
    (0x200B, 0x200F), (0x202A, 0x202E), (0x2060, 0x206F), (0x3164, 0x3164), (0xFE00, 0xFE0F), (0xFEFF, 0xFEFF),
    (0xFFA0, 0xFFA0), (0xFFF0, 0xFFF8), (0x1BCA0, 0x1BCA3), (0x1D173, 0x1D17A), (0xE0000, 0xE0FFF))
# Marks of format that are drawn before a number (Prepended_Concatenation_Mark).
DRAWN = ((0x600, 0x605), (0x6DD, 0x6DD), (0x70F, 0x70F), (0x890, 0x891), (0x8E2, 0x8E2), (0x110BD, 0x110BD),
         (0x110CD, 0x110CD))


def is_among(letter, ranges):
    return any(first <= ord(letter) <= last for first, last in ranges)


def has_no_width(letter):
    is_format = unicodedata.category(letter) == "Cf"
    return is_among(letter, IGNORABLE) or is_format and not is_among(letter, DRAWN)


def is_unseen(letter):
    return letter.isspace() or has_no_width(letter) or unicodedata.category(letter) == "Cc"


def folded(letter):
    """The letter in lower case, where that is one letter."""
    return next((it for it in (letter.casefold(), letter.lower()) if len(it) == 1), letter)


def what_counts(name):
    """What of a name counts: what is seen of it and is no punctuation, in whatever case."""
    return "".join(folded(it) for it in name if not is_unseen(it) and unicodedata.category(it)[0] != "P")


def shown(name):
    return "".join("\u25a1" if is_unseen(it) and it != " " else it for it in name)


def note_of(name, beside):
    """What is told of a new name beside those, of which the oldest is the first: nothing of most."""
    if all(map(is_unseen, name)):
        return f'the name "{shown(name)}" is blank'
    near = next((it for it in beside if it != name and what_counts(it) == what_counts(name)), None)
    return near and f'"{shown(name)}" is new beside "{shown(near)}"'
