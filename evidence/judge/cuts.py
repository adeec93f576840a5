"""Short data takes as many bits as the best of all ways to cut it into segments, and no more."""
from itertools import product

import goqlanis
import reading
from forms import form
from looks import square_of
from spelling import count_bits, is_pair
from tables import CHARACTERS, MICRO_MODES

# A digit, a letter, another byte, and two lead bytes, which are Kanji pairs with each other and
# with a letter after them; in text a character of two bytes.
BYTES = [b"1", b"A", b"a", b"\x81", b"\x9f"]
LETTERS = ["1", "A", "a", "\u00e9"]

# Versions, and the longest data to try in each.
LENGTHS = [("1", 5), ("M1", 4), ("M2", 5), ("M3", 5), ("40", 2)]


def data_bits(mode, data):
    """Returns the bits of data in a mode, without its header; None if it lacks a character."""
    count = len(data)
    if mode == "numeric":
        return count // 3 * 10 + (0, 4, 7)[count % 3] if data.isdigit() else None
    if mode == "alphanumeric":
        return count // 2 * 11 + count % 2 * 6 if all(byte in CHARACTERS for byte in data) else None
    if mode == "byte":
        return count * 8
    pairs = [data[i:i + 2] for i in range(0, count, 2)]
    return len(pairs) * 13 if count % 2 == 0 and all(map(is_pair, pairs)) else None


def segment_bits(shape, modes, data):
    """Returns the fewest bits of the data as one segment, or None if no mode has it."""
    indicator = shape.number - 1 if shape.is_micro else 4
    found = [indicator + count_bits(shape, mode) + bits for mode in modes
             if count_bits(shape, mode) and (bits := data_bits(mode, data)) is not None]
    return min(found, default=None)


def least(shape, modes, data):
    """Returns the fewest bits of all cuts, or None, by the best cut up to each place in turn."""
    best = [0]
    for end in range(1, len(data) + 1):
        ends = [(best[begin], segment_bits(shape, modes, data[begin:end])) for begin in range(end)]
        best.append(min((before + last for before, last in ends if None not in (before, last)),
                        default=None))
    return best[-1]


def bits_of(make, *words):
    """Returns the bits that data takes in a symbol, or None if the version lacks a mode for it."""
    try:
        square = square_of(make(*words))
    except goqlanis.NoMode:
        return None
    return reading.read_headed(square)[1].length


def short_data():
    """Short data takes as many bits as its best cut"""
    found, count = [], 0
    for version, longest in LENGTHS:
        for length in range(longest + 1):
            for parts in product(BYTES, repeat=length):
                data, count = b"".join(parts), count + 1
                best = least(form(version), MICRO_MODES, data)
                if bits_of(goqlanis.encode, data, "L", version) != best:
                    found.append(f"{data} in {version}")
    return found, f"{count} strings"


def short_texts():
    """Short text takes as many bits as its best cut without Kanji"""
    texts = ["".join(letters) for length in range(6) for letters in product(LETTERS, repeat=length)]
    best = {text: least(form("1"), MICRO_MODES[:3], text.encode()) for text in texts}
    found = [text for text in texts if bits_of(goqlanis.encode_text, text, "L") != best[text]]
    return found, f"{len(texts)} texts"


TESTS = [short_data, short_texts]
