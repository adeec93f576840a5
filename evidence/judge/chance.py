"""Random squares, which the library and the judge must read alike, or reject for the same cause."""
from collections import Counter
from random import Random

import goqlanis
from forms import WIDTHS, blocks, form, levels
from looks import answered, damaged, differs, judged, square_of

SMALL = ["M1", "M2", "M3", "M4", "1", "2", "3", "4", "5", "6", "7"]


def symbol(version, chance):
    """Returns the square and level of a symbol of a few random bytes, or digits in Micro."""
    level = chance.choice(levels(version))
    data = chance.randbytes(chance.randrange(1, 5))
    if version.startswith("M"):
        data = bytes(48 + byte % 10 for byte in data)
    return bytearray(square_of(goqlanis.encode(data, level, version))), level


def turned(square, version, level, chance):
    """Inverts up to about twice as many random modules as wrong codewords can be corrected."""
    parts = blocks(version, level)
    for _ in range(chance.randrange(min(parts.ec // 2 * parts.count * 2 + 3, 1000))):
        square[chance.randrange(len(square))] ^= 1
    return square


def noise(square, version, chance, everywhere):
    """Returns a square of noise, or one that keeps the row and column of the format word."""
    width = form(version).width
    return bytes(chance.randrange(2) if everywhere or 8 not in divmod(place, width) else module
                 for place, module in enumerate(square))


def square_by_chance(chance, versions):
    """Returns a random square. Of ten, seven are symbols with modules inverted; one has as many
    wrong codewords in each block as can be corrected, and up to two more in the last; two are
    noise, one of them with a format word."""
    version = chance.choice(versions)
    square, level = symbol(version, chance)
    kind = chance.randrange(10)
    if kind < 2:
        return noise(square, version, chance, kind == 0)
    if kind == 2:
        return damaged(square, version, level, chance, chance.randrange(3))[0]
    return turned(square, version, level, chance)


def compared(count, seed, versions):
    """Returns what is wrong with `count` random squares, and how many were read or rejected, by
    cause."""
    chance, found, counts = Random(seed), [], Counter()
    for number in range(count):
        square = square_by_chance(chance, versions)
        judge = judged(square)
        counts[judge if isinstance(judge, str) else "read"] += 1
        it = differs(judge, answered(square))
        found += [f"square {number} of seed {seed}: {it}"] if it else []
    return found, counts


def summary(counts):
    return ", ".join(f"{counts[kind]} {kind}" for kind in sorted(counts, reverse=True))


def small_squares():
    """The library reads or rejects small random squares as the judge does"""
    found, counts = compared(5000, 2006, SMALL)
    rare = [kind for kind, least in (("read", 2000), ("Damaged", 1000), ("NoFormat", 200))
            if counts[kind] < least]
    return found + [f"too few are {kind}" for kind in rare], summary(counts)


def large_squares():
    """The library reads or rejects random squares of any version as the judge does"""
    found, counts = compared(120, 18004, list(WIDTHS.values()))
    return found, summary(counts)


def other_sides():
    """Squares with a side that no version has are rejected"""
    sides = [side for side in range(185) if side not in WIDTHS]
    found = [f"side {side}" for side in sides
             if not judged(bytes(side * side)) == answered(bytes(side * side)) == "NoSuchSide"]
    return found, f"{len(sides)} sides"


TESTS = [small_squares, large_squares, other_sides]
