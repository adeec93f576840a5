"""Computes what `goqlanis check --json` must print for a square, by the judge of evidence/judge."""
import os
import sys

sys.path.append(os.path.join(os.path.dirname(os.path.realpath(__file__)), os.pardir, "judge"))
import penalty
import reading
from damage import bounds, version_copies
from field import Uncorrected  # noqa: F401 (for ways/reading.py)
from forms import blocks, form
from spelling import READERS, Front, Unspelled, count_bits, is_pair, parts_of
from tables import CHARACTERS

# The cost of a byte in a mode, in sixths of a bit.
SIXTHS = {"numeric": 20, "alphanumeric": 33, "byte": 48, "kanji": 39}


def finder(square, shape):
    """Returns the number of wrong modules of finder patterns and their separators."""
    width, far = shape.width, shape.width - 4
    middles = [(3, 3)] if shape.is_micro else [(3, 3), (3, far), (far, 3)]
    return sum(square[(i + y) * width + j + x] != (max(abs(x), abs(y)) in (0, 1, 3))
               for i, j in middles for y in range(-4, 5) for x in range(-4, 5)
               if 0 <= i + y < width and 0 <= j + x < width)


def alignment(square, shape):
    if shape.is_micro:
        return 0
    return sum(square[(i + y) * shape.width + j + x] != (max(abs(x), abs(y)) != 1)
               for i, j in shape._centres() for y in range(-2, 3) for x in range(-2, 3))


def timing(square, shape):
    width = shape.width
    line, last = (0, width) if shape.is_micro else (6, width - 8)
    return sum((square[line * width + k] != (k % 2 == 0)) + (square[k * width + line] != (k % 2 == 0))
               for k in range(8, last))


def format_bits(square, shape, word):
    """Returns the number of wrong bits of the format word, with the module that is always dark."""
    dark = 0 if shape.is_micro else 1 - square[(shape.width - 8) * shape.width + 8]
    return sum(reading.wrong_bits(square, copy, word) for copy in shape.copies) + dark


def version_bits(square, shape):
    """Returns the number of wrong bits of the version word (Annex D)."""
    word = reading.divided(shape.number, 0b1111100100101)
    return sum(square[place] != word >> k & 1
               for copy in version_copies(shape) for k, place in enumerate(copy))


def remainder(square, shape, level, mask):
    """Returns how many remainder bits are dark."""
    parts = blocks(shape.version, level)
    rest = len(shape.places) - parts.total * 8 + 4 * parts.has_half
    return bin(shape.stream(square, mask) & (1 << rest) - 1).count("1")


def may_be(mode, data, at):
    """Whether a mode has the byte at a place, or the Kanji pair that begins there."""
    if mode == "numeric":
        return data[at:at + 1].isdigit()
    if mode == "alphanumeric":
        return data[at] in CHARACTERS
    return mode == "byte" or is_pair(data[at:at + 2])


def fewest(shape, modes, data):
    """Returns the fewest bits of data in these modes, or None; it counts in sixths of a bit."""
    none = float("inf")
    ended, going = [0] + [none] * len(data), {mode: [none] * (len(data) + 1) for mode in modes}
    for at in range(len(data)):
        for mode in modes:
            begun = ended[at] + 6 * (count_bits(shape, mode) + (shape.number - 1 if shape.is_micro else 4))
            step, cost = 1 + (mode == "kanji"), min(going[mode][at], begun)
            if cost < none and may_be(mode, data, at):
                to = at + step
                going[mode][to] = min(going[mode][to], cost + SIXTHS[mode] * step)
                ended[to] = min(ended[to], -(-going[mode][to] // 6) * 6)
    return None if ended[-1] == none else ended[-1] // 6


def taken(shape, parts):
    """Returns the bits taken and the fewest possible, if only ECI or append come before."""
    headers = [said[0] for mode, _, said in parts if not mode]
    segments = parts[len(headers):]
    modes = [it[0] for it in segments]
    if None in modes or "FNC1" in headers:
        return {}
    known = [it for it in READERS if count_bits(shape, it) and (it != "kanji" or "kanji" in modes)]
    least = fewest(shape, known, b"".join(it[2] for it in segments))
    return {} if least is None else {"bits": sum(it[1] for it in segments), "fewest_bits": least}


def ending(shape, bits, used):
    """Returns the wrong bits of the terminator, up to a whole byte, and of the padding."""
    behind = min(used + (2 * shape.number + 1 if shape.is_micro else 4), len(bits))
    behind = min((behind + 7) // 8 * 8, len(bits))
    count = (len(bits) - behind) // 8
    padding = "".join(f"{(0xec, 0x11)[k % 2]:08b}" for k in range(count)).ljust(len(bits) - behind, "0")
    wrong = sum(a != b for a, b in zip(bits[behind:], padding))
    return {"wrong_terminator": bits[used:behind].count("1"), "wrong_padding": wrong}


def is_utf8(data):
    return data.decode(errors="ignore").encode() == data


def guesses(parts):
    """Returns how many Byte segments before an ECI have bytes above 127, and if these are UTF-8."""
    until = next((k for k, (_, _, said) in enumerate(parts) if said[:1] == ("ECI",)), len(parts))
    found = [said for mode, _, said in parts[:until] if mode == "byte" and not said.isascii()]
    return {"guessed_segments": len(found), "guessed_utf8": all(map(is_utf8, found))}


def content(shape, bits):
    front, parts, at = Front(bits), [], 0
    try:
        for mode, said in parts_of(shape, front):
            parts.append((mode, front.at - at, said))
            at = front.at
    except Unspelled:
        return {"segments": False}
    return {"segments": True, **taken(shape, parts), **ending(shape, bits, at), **guesses(parts)}


def rank(numbers, at):
    """Returns how many numbers are lower than that at `at`, and how many before it equal it."""
    return {"lower": sum(it < numbers[at] for it in numbers), "same_before": numbers[:at].count(numbers[at])}


def ranks(square, bits):
    """Returns the rank of the mask by the standard's balance term, and by that of goqlanis."""
    terms, stepped, others = reading.penalties(square, bits), [], ([], [], [])
    shape = form(bits.version)
    for mask, each in enumerate(terms):
        balance = 0
        if not shape.is_micro:
            other = shape.remasked(square, bits.mask, mask, reading.WORDS[bits.version][bits.level, mask])
            balance = 10 * (abs(20 * other.count(1) - 10 * len(other)) // len(other)) - each["balance"]
        stepped.append(sum(each.values()) + balance)
        for found, how in zip(others, (("0", False), ("1", True), ("1", False))):
            more = 0 if shape.is_micro else penalty.read(other, shape.width, *how) - each["finders"]
            found.append(stepped[-1] + more)
    own = [sum(each.values()) for each in terms]
    is_lowest = any(not rank(it, bits.mask)["lower"] for it in (own, stepped, *others))
    return {"masks": rank(stepped, bits.mask), "masks_here": rank(own, bits.mask)}, is_lowest


def checked(square):
    """Returns all findings on a square of modules, one byte each, 1 for a dark one."""
    version = reading.WIDTHS[int(len(square) ** 0.5)]
    shape = form(version)
    level, mask = reading.read_format(square, shape)
    wrong, bits = reading.mended(square, shape, level, mask)
    allowed = bounds(version, level)[1]
    unused = min(100 * max(allowed - it, 0) // allowed if allowed else 100 * (it == 0) for it in wrong)
    modules = {"finder": finder(square, shape), "alignment": alignment(square, shape),
               "timing": timing(square, shape),
               "format": format_bits(square, shape, reading.WORDS[version][level, mask]),
               "version": version_bits(square, shape),
               "remainder": remainder(square, shape, level, mask)}
    said = {"version": version, "level": level, "mask": mask, "wrong_by_block": wrong,
            "allowed_by_block": allowed, "unused_correction": unused / 100,
            "grade": "FDCBA"[sum(unused >= it for it in (25, 37, 50, 62))], "wrong_modules": modules,
            **content(shape, bits)}
    masks, is_lowest = ranks(square, reading.Bits(version, level, mask, sum(wrong), bits))
    is_data = said["segments"] and not said["wrong_terminator"] and not said["wrong_padding"]
    is_right = is_data and is_lowest and not any(wrong) and not any(modules.values())
    return {**said, **masks, "standard": bool(is_right)}
