"""Makes pages with a large code beside other things.

A page has a code of a version from 30 to 40 at 2 to 4 pixels a module, another code, lines of
letters, marks and noise. Codes are upright, turned or mirrored.
"""
import random

from room import square

LETTERS = "abcdefghijklmnopqrstuvwxyzABCDEFGHIJKLMNOPQRSTUVWXYZ0123456789 .,:;-+*/=()"
# Glyphs of five by seven pixels, a row for each five bits: o O 0 8 B D [ ] H i
GLYPHS = (0x0001d18c62e, 0x3a31863172e, 0x3a33ae6372e, 0x3a317462e, 0x7a31f462f, 0x7a318c63e,
          0x39084210e, 0x3842108ee, 0x463f18c631, 0x10c21084e)


class Page:
    """Rows of pixels, each an integer with a bit for each pixel, the last one lowest."""

    def __init__(self, across, down):
        self.across, self.down = across, down
        self.rows = [0] * down

    def put(self, left, top, rows, wide):
        shift = self.across - left - wide
        for y, row in enumerate(rows, top):
            self.rows[y] |= row << shift

    def code(self, left, top, modules, scale, zone):
        """Clears a place and its quiet zone, and lays a square of modules there."""
        wide, edge = len(modules) * scale, zone * scale
        mask = ((1 << wide + 2 * edge) - 1) << self.across - left - wide - edge
        for y in range(top - edge, top + wide + edge):
            self.rows[y] &= ~mask
        lines = [int("".join(str(it) * scale for it in row), 2) for row in modules]
        self.put(left, top, [it for it in lines for _ in range(scale)], wide)

    def letters(self, chance, scale):
        for top in range(scale, self.down - 8 * scale, 11 * scale):
            for left in range(scale, self.across - 6 * scale, 6 * scale):
                if chance.random() < 0.8:
                    glyph = chance.choice(GLYPHS)
                    lines = [glyph >> 5 * it & 31 for it in range(7)]
                    wide = [int("".join(it * scale for it in f"{line:05b}"), 2) for line in lines]
                    self.put(left, top, [it for it in wide for _ in range(scale)], 5 * scale)

    def marks(self, chance):
        """Draws boxes, frames, rings like finder patterns, and single pixels."""
        for _ in range(12):
            wide, high = chance.randint(1, 60), chance.randint(1, 60)
            full = (1 << wide) - 1
            lines = [full] * high
            if chance.random() < 0.3 and min(wide, high) > 8:
                lines = [full] * 2 + [3 << wide - 2 | 3] * (high - 4) + [full] * 2
            self.put(chance.randrange(self.across - wide), chance.randrange(self.down - high),
                     lines, wide)
        ring = [0x7f, 0x41, 0x5d, 0x5d, 0x5d, 0x41, 0x7f]
        for _ in range(4):
            scale = chance.randint(1, 4)
            lines = [int("".join(it * scale for it in f"{row:07b}"), 2) for row in ring]
            self.put(chance.randrange(self.across - 28), chance.randrange(self.down - 28),
                     [it for it in lines for _ in range(scale)], 7 * scale)
        for _ in range(self.across * self.down // 400):
            self.put(chance.randrange(self.across), chance.randrange(self.down), [1], 1)

    def file(self):
        """Returns a PGM file, which zxing reads too."""
        shades = bytes.maketrans(b"01", b"\xff\x00")
        body = b"".join(f"{row:0{self.across}b}".encode().translate(shades) for row in self.rows)
        return b"P5\n%d %d\n255\n" % (self.across, self.down) + body


def turned(rows, number):
    """Returns rows in one of eight positions."""
    rows = [it[::-1] for it in rows] if number & 1 else rows
    rows = rows[::-1] if number & 2 else rows
    return [list(it) for it in zip(*rows)] if number & 4 else rows


def made(program, version, number):
    """Makes a page by its version and number; returns its file and its texts."""
    chance = random.Random(1000 * version + number)
    level = chance.choice("LMQH")
    most = {"L": 1700, "M": 1300, "Q": 900, "H": 700}[level]
    texts = ["".join(chance.choice(LETTERS) for _ in range(chance.choice((7, most - 1))))]
    large = square(program, "-v", str(version), "-l", level, given=texts[0].encode())
    if number % 5 == 4:
        texts.append(str(chance.randrange(10 ** 4)))
        kind, zone = "M" + chance.choice("1234"), 2
    else:
        texts.append("".join(chance.choice(LETTERS) for _ in range(10)))
        kind, zone = str(chance.randint(1, 9)), 4
    small = square(program, "-v", kind, given=texts[1].encode())
    scale, other = chance.randint(2, 4), chance.randint(2, 5)
    large, small = turned(large, chance.randrange(8)), turned(small, chance.randrange(8))
    sides = len(large) * scale, len(small) * other
    is_beside = chance.random() < 0.5
    across, down = sides[0] + 20 * scale, sides[0] + 20 * scale
    apart = sides[1] + 12 * other
    page = Page(across + apart * is_beside, down + apart * (not is_beside))
    page.letters(chance, chance.randint(1, 3))
    page.marks(chance)
    first = [5 * scale + chance.randrange(8 * scale) for _ in range(2)]
    second = [5 * other + chance.randrange(2 * other), 5 * other + chance.randrange(2 * other)]
    if chance.random() < 0.5:
        first[not is_beside] += apart
    else:
        second[not is_beside] += down
    page.code(*first, large, scale, 4)
    page.code(*second, small, other, zone)
    return page.file(), texts
