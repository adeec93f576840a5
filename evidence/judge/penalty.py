"""Penalties of squares, term by term (6.8.2), with rows and columns as text of `0` and `1`."""
import re

RUNS = re.compile("0{5,}|1{5,}")
FINDERS = re.compile("(?=1011101)")
TERMS = ("runs", "blocks", "finders", "balance")
MICRO_TERMS = ("both sides", "greater side")


def lines(square, width):
    text = square.translate(LETTERS).decode()
    rows = [text[i * width:(i + 1) * width] for i in range(width)]
    return rows, [text[j::width] for j in range(width)]


LETTERS = bytes([48, 49]) + bytes(254)


def runs(line):
    """Counts 3 for five modules of one colour in a line, and 1 for each further one."""
    return sum(len(run) - 2 for run in RUNS.findall(line))


def blocks(rows):
    """Counts 3 for each block of two by two modules of one colour."""
    count = 0
    for colour in (rows, [row.translate({48: 49, 49: 48}) for row in rows]):
        both = [int(above, 2) & int(below, 2) for above, below in zip(colour, colour[1:])]
        joined = [pair & pair >> 1 for pair in both]
        count += sum(bin(pairs).count("1") for pairs in joined)
    return 3 * count


def finders(line, outside="0", is_long=True):
    """Counts 40 for each finder-like pattern with four light modules before or after it. Modules
    outside the square are light, if `outside` is "0"; the outer dark runs of a pattern may be
    longer than a module, if `is_long`."""
    wide = outside * 4 + line + outside * 4
    return sum(40 for found in FINDERS.finditer(wide, 4, len(wide) - 4)
               if "0000" in (wide[found.start() - 4:found.start()],
                             wide[found.start() + 7:found.start() + 11])
               and (is_long or f"{line}0"[found.start() + 3] == "0" and (
                   found.start() == 4 or line[found.start() - 5] == "0")))


def read(square, width, outside, is_long):
    """Returns the penalty of what looks like a finder pattern, by one reading of the standard."""
    return sum(finders(line, outside, is_long) for each in lines(square, width) for line in each)


def normal(square, width):
    """Returns the four terms of Normal. The balance is the distance of 200 times the share of dark
    modules, rounded down, from 100."""
    rows, columns = lines(square, width)
    both = rows + columns
    balance = abs(200 * square.count(1) // len(square) - 100)
    return dict(zip(TERMS, (sum(map(runs, both)), blocks(rows), sum(map(finders, both)), balance)))


def micro(square, width):
    """Returns the two terms of Micro: the light modules of the last row and column, without the
    first of each, and 15 times the larger of both numbers. The standard takes the mask with the
    largest 16 * min + max of the dark ones, which has the smallest sum here."""
    rows, columns = lines(square, width)
    row, column = rows[-1][1:].count("0"), columns[-1][1:].count("0")
    return dict(zip(MICRO_TERMS, (row + column, 15 * max(row, column))))


def first_least(penalties, left_out=None):
    """Returns the index of the first with the lowest sum, counting all terms except `left_out`."""
    sums = [sum(cost for term, cost in terms.items() if term != left_out) for terms in penalties]
    return sums.index(min(sums))
