"""Reads a square of modules, and corrects its errors."""
from typing import NamedTuple

import penalty
from field import Uncorrected, corrected
from forms import WIDTHS, blocks, form
from spelling import Unspelled, spelled
from tables import MICRO_SYMBOLS, NORMAL_LEVELS


class NoSuchSide(Exception):
    """No version has this number of modules."""


class NoFormat(Exception):
    """No format word differs in at most three bits from each copy."""


class Damaged(Exception):
    """A block has too many wrong codewords."""


class NotSpelled(Exception):
    """The data bits are not segments and a terminator, or have a header."""


class Bits(NamedTuple):
    """The version, level, mask, number of wrong codewords, and data bits of a square."""

    version: str
    level: str
    mask: int
    wrong: int
    bits: str


def divided(number, divisor):
    """Returns bits and behind them their remainder by a polynomial (Annexes C and D)."""
    count = divisor.bit_length() - 1
    rest = number << count
    for k in range(number.bit_length() - 1, -1, -1):
        if rest >> (count + k) & 1:
            rest ^= divisor << k
    return number << count | rest


def named(version, five):
    """Returns the level and mask that five bits name in a version, or None."""
    if not version.startswith("M"):
        return NORMAL_LEVELS[five >> 3], five & 7
    owner, level = MICRO_SYMBOLS[five >> 2]
    return (level, five & 3) if owner == version else None


def words(version):
    """Returns the format words of a version by level and mask."""
    turned = 0b100010001000101 if version.startswith("M") else 0b101010000010010
    return {named(version, five): divided(five, 0b10100110111) ^ turned for five in range(32)
            if named(version, five)}


WORDS = {version: words(version) for version in WIDTHS.values()}


def wrong_bits(square, copy, word):
    """Returns in how many bits a copy of the format word differs from `word`."""
    return sum(square[place] != word >> (14 - k) & 1 for k, place in enumerate(copy))


def read_format(square, shape):
    """Returns the level and mask whose format word differs in at most three bits from each copy."""
    for found, word in WORDS[shape.version].items():
        if all(wrong_bits(square, copy, word) <= 3 for copy in shape.copies):
            return found
    raise NoFormat


def words_of(stream, count, parts):
    """Returns the codewords of a stream of `count` bits; one of four bits is filled with zeros."""
    if not parts.has_half:
        return (stream >> count % 8).to_bytes(parts.total, "big")
    bits, cut = f"{stream:0{count}b}", parts.data * 8 - 4
    return int(bits[:cut] + "0000" + bits[cut:], 2).to_bytes(parts.total, "big")


def mended(square, shape, level, mask):
    """Returns the numbers of wrong codewords of each block, and the data bits, corrected."""
    parts, data, wrong = blocks(shape.version, level), b"", []
    found = words_of(shape.stream(square, mask), len(shape.places), parts)
    for share, length in zip(parts.shares(), parts.lengths):
        block, count = corrected(bytes(map(found.__getitem__, share)), parts.ec)
        data, wrong = data + block[:length], [*wrong, count]
    return wrong, f"{int.from_bytes(data, 'big'):0{len(data) * 8}b}"[:parts.capacity]


def read_bits(square):
    version = WIDTHS.get(int(len(square) ** 0.5))
    if version is None or form(version).width ** 2 != len(square):
        raise NoSuchSide
    shape = form(version)
    level, mask = read_format(square, shape)
    try:
        wrong, bits = mended(square, shape, level, mask)
    except Uncorrected:
        raise Damaged from None
    return Bits(version, level, mask, sum(wrong), bits)


def read_headed(square):
    """Returns the data bits of a square, and their bytes and headers."""
    bits = read_bits(square)
    try:
        return bits, spelled(form(bits.version), bits.bits)
    except Unspelled:
        raise NotSpelled from None


def read(square):
    """Returns the bits and bytes of a square; like the library's `read` it rejects headers."""
    bits, found = read_headed(square)
    if found.headers:
        raise NotSpelled
    return bits, found.data


def penalties(square, bits):
    """Returns the terms of the penalty of a symbol under each mask of its version."""
    shape, found = form(bits.version), []
    for mask in shape.mask_numbers():
        other = shape.remasked(square, bits.mask, mask, WORDS[bits.version][bits.level, mask])
        found.append((penalty.micro if shape.is_micro else penalty.normal)(other, shape.width))
    return found
