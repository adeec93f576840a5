"""Checks of a square. Each check returns what is wrong, or an empty text."""
import re
from pathlib import Path

import goqlanis
import penalty
import reading
from forms import blocks, form

MOST_WRONG_IN_FORMAT = 3


def listed(name):
    """Returns the rows of a section of symbols.txt."""
    text = Path(__file__).with_name("symbols.txt").read_text(encoding="utf-8")
    part = re.search(rf"\$ {name}\n((?:[^#$\n].*\n)+)", re.sub(r"\n +", " ", text))[1]
    return [eval(line) for line in part.splitlines()]


def square_of(symbol):
    """Returns the modules of a symbol of the library, one byte each."""
    return bytes(map(int, (module for row in symbol.matrix for module in row)))


def drawn(rows):
    """Returns the square of rows of `#` and `.`."""
    return bytes(letter == "#" for letter in "".join(rows))


def rows_of(square):
    width = int(len(square) ** 0.5)
    return [square[i:i + width] for i in range(0, len(square), width)] if width else []


def judged(square):
    """Returns what the judge reads: version, level, mask, number of wrong codewords and data; or
    the name of its error."""
    try:
        bits, data = reading.read(square)
    except (reading.NoSuchSide, reading.NoFormat, reading.Damaged, reading.NotSpelled) as refusal:
        return type(refusal).__name__
    return bits.version, bits.level, bits.mask, bits.wrong, data


def answered(square):
    """Returns what the library reads, in the form of `judged`."""
    try:
        found = goqlanis.read(rows_of(square))
    except goqlanis.Unread as refusal:
        return type(refusal).__name__
    return found.version, found.level, found.mask, found.wrong, found.data


def differs(judge, library):
    return "" if judge == library else f"the judge says {judge}, and the library {library}"


def not_alike(square):
    return differs(judged(square), answered(square))


def not_read(square, version, level, data, wrong=0):
    """Returns a complaint unless judge and library read this data with `wrong` wrong codewords. If
    there are any, each copy of the format word must have three wrong bits."""
    said = judged(square)
    if said[:2] != (version, level) or said[3:] != (wrong, data):
        return f"the judge reads {said} of {version}-{level}"
    word = reading.WORDS[version][level, said[2]]
    bits = {reading.wrong_bits(square, copy, word) for copy in form(version).copies}
    if bits != {MOST_WRONG_IN_FORMAT if wrong else 0}:
        return f"{bits} wrong bits in the format word of {version}-{level}"
    return differs(said, answered(square))


def not_least(square):
    """Returns a complaint unless the mask of a symbol is the first of lowest penalty."""
    bits = reading.read_bits(square)
    first = penalty.first_least(reading.penalties(square, bits))
    said = f"mask {bits.mask} of {bits.version}-{bits.level}, and not {first}"
    return "" if bits.mask == first else said


def turn_word(square, shape, parts, number, bits):
    """XORs a codeword with the byte `bits`, or with its first four bits if it has no more."""
    begin, count = parts.word_bits(number)
    for k in range(count):
        square[shape.places[begin + k]] ^= bits >> (7 - k) & 1


def turn_format(square, shape, numbers):
    """Inverts these bits in each copy of the format word."""
    for copy in shape.copies:
        for number in numbers:
            square[copy[number]] ^= 1


def damaged(square, version, level, chance, more=0):
    """Returns a symbol with the most damage that can be corrected, and its number of wrong
    codewords.

    Three random bits in each copy of the format word are wrong, and in each block half as many
    codewords as it has for error correction; in the last block `more` in addition.
    """
    shape, parts, square, wrong = form(version), blocks(version, level), bytearray(square), 0
    for copy in shape.copies:
        for place in chance.sample(copy, MOST_WRONG_IN_FORMAT):
            square[place] ^= 1
    shares = parts.shares()
    for share in shares:
        for number in chance.sample(share, parts.ec // 2 + more * (share is shares[-1])):
            turn_word(square, shape, parts, number,
                      chance.randrange(1, 16) << 4 | chance.randrange(16))
            wrong += 1
    return square, wrong
