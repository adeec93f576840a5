"""Tables of the standard (ISO/IEC 18004:2006), typed from it anew for the judge."""
from pathlib import Path

LEVELS = "LMQH"

# The tables of tables.txt, as lines of words: for Normal and Micro the error correction codewords
# of a block and the number of blocks; and the centres of alignment patterns.
NORMAL_BLOCKS, MICRO_BLOCKS, CENTRES = (
    [line.split() for line in part.splitlines()]
    for part in Path(__file__).with_name("tables.txt").read_text().split("\n\n")[2::2])

# Table 25: the level that two bits of the format word name in Normal. Table 13: the version and
# level that three bits name in Micro.
NORMAL_LEVELS = {0b01: "L", 0b00: "M", 0b11: "Q", 0b10: "H"}
MICRO_SYMBOLS = [("M1", "L"), ("M2", "L"), ("M2", "M"), ("M3", "L"), ("M3", "M"), ("M4", "L"),
                 ("M4", "M"), ("M4", "Q")]

# Table 10: whether a mask inverts the module in row i and column j; and the four masks of Micro.
MASKS = [
    lambda i, j: (i + j) % 2 == 0,
    lambda i, j: i % 2 == 0,
    lambda i, j: j % 3 == 0,
    lambda i, j: (i + j) % 3 == 0,
    lambda i, j: (i // 2 + j // 3) % 2 == 0,
    lambda i, j: i * j % 2 + i * j % 3 == 0,
    lambda i, j: (i * j % 2 + i * j % 3) % 2 == 0,
    lambda i, j: (i * j % 3 + (i + j) % 2) % 2 == 0,
]
MICRO_MASKS = [1, 4, 6, 7]

# Table 2: mode indicators of Normal. In Micro the four modes are numbered 0 to 3.
MODES = {1: "numeric", 2: "alphanumeric", 4: "byte", 8: "kanji"}
MICRO_MODES = ["numeric", "alphanumeric", "byte", "kanji"]

# Table 3: the length of the character count, in Normal 1 to 9, 10 to 26 and 27 to 40, and in Micro
# 1 to 4; 0 if the version lacks the mode.
COUNT_BITS = {"numeric": (10, 12, 14), "alphanumeric": (9, 11, 13), "byte": (8, 16, 16),
              "kanji": (8, 10, 12)}
MICRO_COUNT_BITS = {"numeric": (3, 4, 5, 6), "alphanumeric": (0, 3, 4, 5), "byte": (0, 0, 4, 5),
                    "kanji": (0, 0, 3, 4)}

# Table 5: the characters of the alphanumeric mode by their numbers.
CHARACTERS = b"0123456789ABCDEFGHIJKLMNOPQRSTUVWXYZ $%*+-./:"
