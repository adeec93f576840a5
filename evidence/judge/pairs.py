"""Symbols of all 168 pairs of version and level, undamaged and damaged, and data that is too
long."""
from random import Random

import goqlanis
from forms import VERSIONS, blocks, form, levels, pairs
from looks import damaged, not_alike, not_least, not_read, square_of
from spelling import count_bits
from tables import LEVELS


def most(version, level, mode):
    """Returns the most digits or lower-case letters a symbol holds; 0 if the version lacks the
    mode."""
    shape = form(version)
    width = count_bits(shape, mode)
    bits = blocks(version, level).capacity - (shape.number - 1 if shape.is_micro else 4) - width
    if width == 0 or bits < 0:
        return 0
    return bits // 8 if mode == "byte" else bits // 10 * 3 + (bits % 10 >= 4) + (bits % 10 >= 7)


def refusal(call, *words):
    """Returns the name of the error that a call raises, or an empty text."""
    try:
        call(*words)
    except goqlanis.Error as error:
        return type(error).__name__
    return ""


def not_drawn(symbol):
    """Returns a complaint unless a grey picture of one pixel a module shows the modules."""
    pixels = bytes(0 if module else 255 for module in square_of(symbol))
    return "" if symbol.grey(scale=1, quiet_zone=0) == pixels else "the picture is another one"


def symbol_complaint(version, level, data, chance):
    """Returns a complaint unless a symbol is drawn, has the mask of lowest penalty, and is read
    both undamaged and with the most damage."""
    symbol = goqlanis.encode(data, level, version)
    square = square_of(symbol)
    worst, wrong = damaged(square, version, level, chance)
    return (not_read(square, version, level, data) or not_drawn(symbol) or not_least(square)
            or not_read(worst, version, level, data, wrong))


def pair_complaints(version, level, chance):
    """Returns what is wrong with symbols of no digit, one, the most digits and the most letters;
    one more must be too long, and more damage must be read or rejected as by the judge."""
    count = most(version, level, "numeric")
    digits = bytes(chance.choices(b"0123456789", k=count + 1))
    found = [symbol_complaint(version, level, digits[1:], chance)]
    found += [not_read(square_of(goqlanis.encode(data, level, version)), version, level, data)
              for data in (b"", b"7")]
    found.append("" if refusal(goqlanis.encode, digits, level, version) == "NoRoom"
                 else f"{count + 1} digits are not refused")
    count = most(version, level, "byte")
    if count:
        data = bytes(chance.choices(b"abcdefghijklmnopqrstuvwxyz", k=count))
        found.append(symbol_complaint(version, level, data, chance))
        found.append("" if refusal(goqlanis.encode, data + b"a", level, version) == "NoRoom"
                     else f"{count + 1} letters are not refused")
    beyond, _ = damaged(square_of(goqlanis.encode(digits[1:], level, version)), version, level,
                        chance, 1)
    return found + [not_alike(beyond)]


def all_pairs():
    """Symbols of all pairs have the mask of lowest penalty, and are read undamaged and damaged"""
    chance = Random(168)
    found = [f"{version}-{level}: {it}" for version, level in pairs()
             for it in pair_complaints(version, level, chance) if it]
    return found, f"{len(pairs())} pairs"


def missing_levels():
    """Levels that a version lacks are rejected"""
    missing = [(version, level) for version in VERSIONS for level in LEVELS
               if level not in levels(version)]
    found = [f"{version}-{level}" for version, level in missing
             if refusal(goqlanis.encode, b"", level, version) != "LevelNotInVersion"]
    return found + ([] if len(missing) == 8 else ["there are not eight"]), f"{len(missing)} pairs"


def least_version(rooms, count):
    """Returns the smallest Normal version that holds `count` bytes as one segment, or 41."""
    return next((number for number, room in enumerate(rooms, 1) if count == 0
                 or count * 8 + 4 + count_bits(form(str(number)), "byte") <= room), 41)


def least_versions():
    """Letters get the smallest version with room for them"""
    found, asked = [], 0
    for level in LEVELS:
        rooms = [blocks(str(number), level).capacity for number in range(1, 41)]
        count = 0
        while (number := least_version(rooms, count)) <= 40:
            if goqlanis.smallest_version(b"a" * count, level) != str(number):
                found.append(f"{count} letters at {level}")
            count += 1
        if refusal(goqlanis.smallest_version, b"a" * count, level) != "NoRoom":
            found.append(f"{count} letters at {level} are not refused")
        asked += count + 1
    return found, f"{asked} calls"


TESTS = [all_pairs, missing_levels, least_versions]
