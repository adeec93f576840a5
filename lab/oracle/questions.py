"""The data of evidence/answers, which looks random; its bits; and rows of modules."""
import zlib

MODES = ("numeric", "alphanumeric", "byte", "kanji")
ALPHABET = b"0123456789ABCDEFGHIJKLMNOPQRSTUVWXYZ $%*+-./:"


def pair(number):
    first, second = number % 43, number // 43
    first = 0x81 + first if first < 31 else 0xE0 + first - 31
    second %= 127 if first == 0xEB else 188
    return bytes([first, 0x40 + second if second < 63 else 0x41 + second])


def content(mode, count):
    """Returns `count` characters of a mode, which look random."""
    state, found = count, bytearray()
    for _ in range(count):
        state = (state * 1103515245 + 12345) % 2**31
        number = state >> 16
        found += {
            "numeric": b"%d" % (number % 10),
            "alphanumeric": ALPHABET[number % 45:number % 45 + 1],
            "byte": bytes([number % 256]),
            "kanji": pair(number),
        }[mode]
    return bytes(found)


def data_bits(mode, count):
    return {
        "numeric": 10 * (count // 3) + (0, 4, 7)[count % 3],
        "alphanumeric": 11 * (count // 2) + 6 * (count % 2),
        "byte": 8 * count,
        "kanji": 13 * count,
    }[mode]


def rows_of(matrix):
    """Returns the rows of modules as text of # and ."""
    return ["".join("#" if module else "." for module in row) for row in matrix]


def zint_rows(text):
    """Returns the rows of # and . of a dump of zint."""
    lines = [line.replace(" ", "") for line in text.split("\n") if line]
    return [f"{int(line, 16):0{4 * len(line)}b}"[:len(lines)].replace("1", "#").replace("0", ".")
            for line in lines]


def checksum(rows):
    """Returns the CRC-32 of such rows, as lines."""
    return f"{zlib.crc32(chr(10).join(rows).encode()):08x}"
