"""Decodes data bits to bytes and headers. Bits are text of `0` and `1`."""
from typing import NamedTuple

from tables import CHARACTERS, COUNT_BITS, MICRO_COUNT_BITS, MICRO_MODES, MODES

ECI, FNC1_FIRST, FNC1_SECOND, STRUCTURED_APPEND = 7, 5, 9, 3


class Unspelled(Exception):
    """The bits are not segments and a terminator."""


class Spelled(NamedTuple):
    """The bytes of all segments; the headers, as `("ECI", 26)`, `("FNC1",)`, `("FNC1", 37)` or
    `("symbol", place, count, parity)`; and the number of bits that both take."""

    data: bytes
    headers: list
    length: int


class Front:
    def __init__(self, bits):
        self.bits, self.at = bits, 0

    def number(self, count):
        if self.at + count > len(self.bits):
            raise Unspelled
        self.at += count
        return int("0" + self.bits[self.at - count:self.at], 2)

    def is_end(self, count):
        """Whether the next bits, or as many as are left, are zeros."""
        return "1" not in self.bits[self.at:self.at + count]


def digits(front, count):
    """Decodes digits: three in ten bits, two remaining ones in seven, one in four."""
    found = ""
    while count > 0:
        taken = min(count, 3)
        part = str(front.number((0, 4, 7, 10)[taken])).zfill(taken)
        if len(part) > taken:
            raise Unspelled
        found, count = found + part, count - taken
    return found.encode()


def letters(front, count):
    """Decodes letters: two in eleven bits, a remaining one in six."""
    found = []
    for _ in range(count // 2):
        found += divmod(front.number(11), 45)
    if count % 2:
        found.append(front.number(6))
    if any(number >= 45 for number in found):
        raise Unspelled
    return bytes(CHARACTERS[number] for number in found)


def plain(front, count):
    return bytes(front.number(8) for _ in range(count))


def pairs(front, count):
    """Decodes Shift JIS pairs of thirteen bits: the pair less 0x8140 or 0xc140, as 192 times its
    first byte plus the second."""
    found = b""
    for _ in range(count):
        first, second = divmod(front.number(13), 0xc0)
        joined = first * 256 + second
        pair = (joined + (0x8140 if joined + 0x8140 <= 0x9ffc else 0xc140)).to_bytes(2, "big")
        if pair[1] == 0x7f or pair[1] > 0xfc:
            raise Unspelled
        found += pair
    return found


READERS = {"numeric": digits, "alphanumeric": letters, "byte": plain, "kanji": pairs}


def is_pair(pair):
    """Whether two bytes are a Shift JIS pair of Kanji mode."""
    number = int.from_bytes(pair, "big")
    is_within = 0x8140 <= number <= 0x9ffc or 0xe040 <= number <= 0xebbf
    return len(pair) == 2 and is_within and 0x40 <= pair[1] <= 0xfc and pair[1] != 0x7f


def count_bits(form, mode):
    if form.is_micro:
        return MICRO_COUNT_BITS[mode][form.number - 1]
    return COUNT_BITS[mode][(form.number >= 10) + (form.number >= 27)]


def number_of_set(front):
    """Decodes an ECI designator of one, two or three bytes."""
    if front.number(1) == 0:
        return front.number(7)
    if front.number(1) == 0:
        return front.number(14)
    if front.number(1) == 1:
        raise Unspelled
    return front.number(21)


def header(indicator, front):
    if indicator == ECI:
        return "ECI", number_of_set(front)
    if indicator == FNC1_FIRST:
        return ("FNC1",)
    if indicator == FNC1_SECOND:
        return "FNC1", front.number(8)
    if indicator == STRUCTURED_APPEND:
        return "symbol", front.number(4) + 1, front.number(4) + 1, front.number(8)
    raise Unspelled


def parts_of(form, front):
    """Yields the mode and the bytes of each segment, and `None` and what a header says."""
    modes = dict(enumerate(MICRO_MODES)) if form.is_micro else MODES
    while not front.is_end(form.number * 2 + 1 if form.is_micro else 4):
        indicator = front.number(form.number - 1 if form.is_micro else 4)
        mode = modes.get(indicator)
        if mode and count_bits(form, mode):
            yield mode, READERS[mode](front, front.number(count_bits(form, mode)))
        elif mode or form.is_micro:
            raise Unspelled
        else:
            yield None, header(indicator, front)


def spelled(form, bits):
    front = Front(bits)
    parts = [*parts_of(form, front)]
    data = b"".join(it for mode, it in parts if mode)
    return Spelled(data, [it for mode, it in parts if not mode], front.at)
