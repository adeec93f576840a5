"""The layout of each version: which modules hold data, in which order, and the places of the format
word and of the blocks.

A square is its modules row by row, one byte each, 1 for a dark one. A place is the index of a
module.
"""
from functools import lru_cache

from tables import CENTRES, LEVELS, MASKS, MICRO_BLOCKS, MICRO_MASKS, NORMAL_BLOCKS


class Form:
    """The layout of a version: "1" to "40", "M1" to "M4"."""

    def __init__(self, version):
        self.version, self.is_micro = version, version.startswith("M")
        self.number = int(version.lstrip("M"))
        self.width = self.number * 2 + 9 if self.is_micro else self.number * 4 + 17
        self.copies = self._format_copies()
        self.places = self._places()
        self.masks = [MASKS[number] for number in (MICRO_MASKS if self.is_micro else range(8))]
        self.turned = [self._turned(mask) for mask in self.masks]

    def _place(self, row, column):
        return row * self.width + column

    def _format_copies(self):
        """Returns the places of the fifteen bits of each copy of the format word, highest first
        (Figures 25 and 26)."""
        last, place = self.width - 1, self._place
        if self.is_micro:
            return [[place(8, 1 + k) for k in range(8)] + [place(7 - k, 8) for k in range(7)]]
        corner = [place(8, k) for k in (0, 1, 2, 3, 4, 5, 7, 8)]
        corner += [place(k, 8) for k in (7, 5, 4, 3, 2, 1, 0)]
        edges = [place(last - k, 8) for k in range(7)]
        return [corner, edges + [place(8, last - 7 + k) for k in range(8)]]

    def _reserved(self):
        """Returns the places of patterns, of the format word and of the version word."""
        width, found = self.width, set()

        def area(top, left, height, breadth):
            found.update(self._place(i, j) for i in range(top, top + height)
                         for j in range(left, left + breadth))

        area(0, 0, 9, 9)
        timing = 0 if self.is_micro else 6
        area(timing, 0, 1, width)
        area(0, timing, width, 1)
        if not self.is_micro:
            area(0, width - 8, 9, 8)
            area(width - 8, 0, 8, 9)
            for i, j in self._centres():
                area(i - 2, j - 2, 5, 5)
            if self.number >= 7:
                area(0, width - 11, 6, 3)
                area(width - 11, 0, 3, 6)
        return found

    def _centres(self):
        """Returns the centres of alignment patterns: each row with each column, except at finder
        patterns."""
        lines = list(map(int, CENTRES[self.number - 2])) if self.number > 1 else []
        corners = {(6, 6), (6, self.width - 7), (self.width - 7, 6)}
        return [(i, j) for i in lines for j in lines if (i, j) not in corners]

    def _places(self):
        """Returns the places of data in the order of the bits: in pairs of columns from the right,
        alternately up and down."""
        reserved, found, width = self._reserved(), [], self.width
        rights = range(width - 1, 0, -2) if self.is_micro else [*range(width - 1, 6, -2), 5, 3, 1]
        for turn, right in enumerate(rights):
            rows = range(width) if turn % 2 else range(width - 1, -1, -1)
            found += [place for i in rows
                      for place in (self._place(i, right), self._place(i, right - 1))
                      if place not in reserved]
        return found

    def _turned(self, mask):
        """Returns which places of data a mask inverts, as the bits of a number, the first place
        highest."""
        return number_of(mask(*divmod(place, self.width)) for place in self.places)

    def mask_numbers(self):
        return range(len(self.masks))

    def stream(self, square, mask):
        """Returns the bits of a square under a mask, in the order of the places, as a number."""
        return number_of(map(square.__getitem__, self.places)) ^ self.turned[mask]

    def remasked(self, square, mask, other, word):
        """Returns a symbol under a mask as it would be under another, whose format word is
        `word`."""
        square, changes = bytearray(square), self.turned[mask] ^ self.turned[other]
        for place, change in zip(self.places, f"{changes:0{len(self.places)}b}"):
            square[place] ^= change == "1"
        for copy in self.copies:
            for k, place in enumerate(copy):
                square[place] = word >> (14 - k) & 1
        return square


def number_of(bits):
    """Returns bits as a number, the highest first."""
    return int("0" + "".join("1" if bit else "0" for bit in bits), 2)


class Blocks:
    def __init__(self, form, level):
        words = (MICRO_BLOCKS if form.is_micro else NORMAL_BLOCKS)[form.number - 1]
        self.ec, self.count = map(int, words[LEVELS.index(level)].split("x"))
        bits = len(form.places)
        self.has_half = form.is_micro and bits % 8 == 4
        self.total = bits // 8 + self.has_half
        self.data = self.total - self.ec * self.count
        self.capacity = self.data * 8 - 4 * self.has_half
        short, long = divmod(self.data, self.count)
        self.lengths = [short] * (self.count - long) + [short + 1] * long

    def shares(self):
        """Returns the indices in the stream of each block's codewords: data, then error correction,
        both interleaved."""
        order = [k for i in range(self.lengths[-1])
                 for k, length in enumerate(self.lengths) if i < length]
        found = [[] for _ in self.lengths]
        for number, k in enumerate(order + [*range(self.count)] * self.ec):
            found[k].append(number)
        return found

    def word_bits(self, number):
        """Returns the bit at which a codeword begins in the stream, and how many bits it has."""
        behind_half = self.has_half and number >= self.data
        return number * 8 - 4 * behind_half, 4 if self.has_half and number == self.data - 1 else 8


@lru_cache(None)
def form(version):
    return Form(version)


@lru_cache(None)
def blocks(version, level):
    return Blocks(form(version), level)


VERSIONS = [str(number) for number in range(1, 41)] + [f"M{number}" for number in range(1, 5)]
WIDTHS = {17 + 4 * number: str(number) for number in range(1, 41)}
WIDTHS |= {9 + 2 * number: f"M{number}" for number in range(1, 5)}


def levels(version):
    known = form(version)
    return LEVELS[:len((MICRO_BLOCKS if known.is_micro else NORMAL_BLOCKS)[known.number - 1])]


def pairs():
    """Returns all 168 pairs of a version and a level."""
    return [(version, level) for version in VERSIONS for level in levels(version)]
