"""Texts that a stranger chooses so that they have one hash, where the hash begins as anyone can work out.

An earlier program hashed by multiplications of 16 bytes to 128 bits, whose halves were joined by exclusive or, from a
state that was the same in each run. Of a text of 16 bytes both factors can be chosen: the first so that it is a multiple
of the larger prime of 2^64 + 1, the second of the smaller one. The product is a multiple of 2^64 + 1 then, whose halves
are the same: whatever the text, the hash goes on from 0. The program draws what its hashes begin with, so such texts are
like any others to it."""
import itertools
import string

BITS = (1 << 64) - 1
MULTIPLIER = 0x9E3779B97F4A7C15
BEGIN = 0x243F6A8885A308D3
SMALL, LARGE = 274_177, 67_280_421_310_721  # 2^64 + 1

SERIAL = (string.ascii_letters + string.digits + "._/-").encode()
VISIBLE = bytes(code for code in range(0x21, 0x7F) if code not in b'"\\')


def folded(a, b):
    product = a * b
    return (product & BITS) ^ (product >> 64)


def after_number(state, number):
    """The state after a number of eight bytes."""
    return folded(state ^ number, MULTIPLIER ^ 16)


def hashed(state, text):
    """The state after a text of 16 bytes and the byte behind it."""
    assert len(text) == 16
    first, second = (int.from_bytes(text[at : at + 8], "little") for at in (0, 8))
    state = folded(first ^ ((state + 16) & BITS), second ^ MULTIPLIER)
    return folded(state ^ 0xFFFFFF, MULTIPLIER ^ 2)


def first_half(state, alphabet):
    """Eight bytes by which the first factor is a multiple of the larger prime."""
    for multiple in range(LARGE, 1 << 64, LARGE):
        half = (multiple ^ ((state + 16) & BITS)).to_bytes(8, "little")
        if all(code in alphabet for code in half):
            return half
    raise ValueError("no text begins so")


def second_halves(alphabet):
    """Eight bytes each by which the second factor is a multiple of the smaller prime."""
    low, high = MULTIPLIER & 0xFFFFFFFF, MULTIPLIER >> 32
    fours = [bytes(four) for four in itertools.islice(itertools.product(alphabet, repeat=4), 150_000)]
    upper = {}
    for four in fours:
        upper.setdefault(((int.from_bytes(four, "little") ^ high) << 32) % SMALL, []).append(four)
    for four in fours:
        for last in upper.get(-(int.from_bytes(four, "little") ^ low) % SMALL, ()):
            yield four + last


def texts_of_one_hash(state, alphabet, count):
    """So many texts of 16 bytes of the alphabet that lead from the state to one hash."""
    first = first_half(state, alphabet)
    texts = [first + second for second in itertools.islice(second_halves(alphabet), count)]
    assert len(texts) == count and len({hashed(state, text) for text in texts}) == 1
    return [text.decode() for text in texts]


def serials(count):
    """Serials of one hash: an item was looked up by the number 1, and its serial."""
    return texts_of_one_hash(after_number(BEGIN, 1), SERIAL, count)


def part_names(count):
    """Names of parts of one hash: a part was looked up by the number 0, and its name."""
    return texts_of_one_hash(after_number(BEGIN, 0), VISIBLE, count)


def keys(count):
    """Keys of requests of one hash."""
    return texts_of_one_hash(BEGIN, SERIAL, count)
