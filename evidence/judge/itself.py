"""Tests of the judge itself: it reads symbols of other encoders as what they were asked for,
corrects blocks as trying all changes does, counts published penalties, and notices wrong input."""
import sys
from itertools import product
from pathlib import Path
from random import Random

import goqlanis
import penalty
import reading
from chance import compared
from field import Uncorrected, corrected, syndromes
from forms import blocks, form
from looks import damaged, drawn, not_alike, not_least, not_read, square_of, turn_word
from masks import not_beyond, not_decided

HERE = Path(__file__).resolve().parent
sys.path.append(str(HERE.parent / "program"))
from room import squares  # noqa: E402

# The symbols of printed.txt: two printed ones of `01234567`, and one whose penalty is published.
DIGITS_NORMAL, DIGITS_MICRO, PUBLISHED = (
    part.split() for part in (HERE / "printed.txt").read_text().split("\n\n")[1::2])


def told_header(kind, *numbers):
    """Returns a header as lab/others/symbols/make writes it."""
    if kind == "symbol":
        return "symbol {} of {}, parity {}".format(*numbers)
    if kind == "FNC1":
        numbers = [f"{it:02}" if it < 100 else chr(it - 100) for it in numbers]
    return " ".join(map(str, (kind, *numbers)))


def told_of(square):
    """Returns what the judge reads, as lab/others/symbols/make writes it."""
    bits, found = reading.read_headed(square)
    name = f"{'Micro' if bits.version.startswith('M') else 'Normal'} {bits.version.lstrip('M')} {bits.level}, mask {bits.mask}"
    return f"{', '.join([name] + [told_header(*header) for header in found.headers])}: {found.data.hex()}" if bits.wrong == 0 else "wrong codewords"


def other_encoders():
    """The judge reads symbols of segno, qrcodegen, zint, qrencode and zxing as what they were asked
    for, and so does the library"""
    found = []
    for rows, wanted in squares():
        square = bytes(sum(rows, []))
        said = told_of(square)
        found.append(not_alike(square) if said == wanted else f"{said} and not {wanted}")
    return found + ["there are not 204"] * (len(found) != 204), f"{len(found)} squares"


def printed_symbols():
    """The judge reads printed symbols, which the library draws"""
    found = []
    for rows, version, level in ((DIGITS_NORMAL, "1", "M"), (DIGITS_MICRO, "M2", "L")):
        found.append(not_read(drawn(rows), version, level, b"01234567"))
        if square_of(goqlanis.encode(b"01234567", level, version)) != drawn(rows):
            found.append(f"the library draws another {version}-{level}")
    return found, "2 symbols"


def known_penalties():
    """The judge counts published penalties, and those of plain squares and a chessboard as counted
    by hand"""
    width = 21
    light = {"runs": 42 * 19, "blocks": 400 * 3, "finders": 0, "balance": 100}
    chessboard = bytes((i + j) % 2 for i in range(width) for j in range(width))
    rows = [
        (penalty.normal, drawn(PUBLISHED),
         {"runs": 88 + 92, "blocks": 90, "finders": 360 + 400, "balance": 2}),
        (penalty.normal, bytes(width * width), light),
        (penalty.normal, b"\1" * width * width, light),
        (penalty.normal, chessboard, {"runs": 0, "blocks": 0, "finders": 0, "balance": 1}),
        (penalty.micro, chessboard, {"both sides": 20, "greater side": 150}),
    ]
    found = [f"{count(square, width)} and not {costs}" for count, square, costs in rows
             if count(square, width) != costs]
    return found, f"{len(rows)} squares"


def found_by_trial(block):
    """Returns which of a block with two error correction codewords, and of all blocks that differ
    from it in one byte, vanish at 1 and 2. The syndromes of a changed block are the XOR of those of
    the block and of the change."""
    values, found = syndromes(block, 2), [] if any(syndromes(block, 2)) else [block]
    for place, change in product(range(len(block)), range(1, 256)):
        if ALONE[place, change] == values:
            found.append(block[:place] + bytes([block[place] ^ change]) + block[place + 1:])
    return found


ALONE = {(place, change): syndromes(bytes(change * (k == place) for k in range(5)), 2)
         for place in range(5) for change in range(1, 256)}


def corrected_by_trial():
    """Each wrong codeword of Micro 1 is corrected as trying all single changes corrects it"""
    shape, parts, found, count = form("M1"), blocks("M1", "L"), [], 0
    square = square_of(goqlanis.encode(b"123", "L", "M1"))
    for number in range(parts.total):
        for bits in range(1, 256) if parts.word_bits(number)[1] == 8 else range(0x10, 0x100, 0x10):
            wrong = bytearray(square)
            turn_word(wrong, shape, parts, number, bits)
            block = reading.words_of(shape.stream(wrong, reading.read_bits(square).mask),
                                     len(shape.places), parts)
            if found_by_trial(block) != [corrected(block, 2)[0]] or not_alike(wrong):
                found.append(f"codeword {number} changed by {bits:02x}")
            count += 1
    return found + ([] if count == 1035 else ["there are not 1035"]), f"{count} squares"


def not_corrected(block, count):
    try:
        corrected(block, count)
    except Uncorrected:
        return "refused"
    return ""


def seen(square, second):
    """Yields a complaint for each wrong input, empty if the judge does not notice it. `square` is
    the symbol of `01234567` in Normal 1 at M; `second` has other digits."""
    bits, shape = reading.read_bits(square), form("1")
    costs = [sum(terms.values()) for terms in reading.penalties(square, bits)]
    worst = max(shape.mask_numbers(), key=costs.__getitem__)
    other = shape.remasked(square, bits.mask, worst, reading.WORDS["1"]["M", worst])
    beyond = damaged(square, "1", "M", Random(7), 1)[0]
    yield "other data", not_read(second, "1", "M", b"01234567")
    yield "another level", not_read(square, "1", "L", b"01234567")
    yield "a wrong codeword", not_read(bytes([*square[:-1], 1 - square[-1]]), "1", "M", b"01234567")
    turned = bytes([*square[:168], 1 - square[168], *square[169:]])
    yield "a wrong bit of the format word", not_read(turned, "1", "M", b"01234567")
    yield "too much damage", not_read(beyond, "1", "M", b"01234567", 6)
    yield "another mask", not_least(other)
    yield "a term that does not decide alone", not_decided(square, "runs")
    yield "a penalty of 16 bits", not_beyond(square, bits.mask)
    yield "six wrong bytes of a block", not_corrected(bytes([1, 2, 3, 4, 5, 6]) + bytes(20), 10)


def what_is_wrong():
    """The judge notices each wrong input"""
    square, second = (square_of(goqlanis.encode(data, "M", "1"))
                      for data in (b"01234567", b"76543210"))
    told = list(seen(square, second))
    read = goqlanis.read
    try:
        goqlanis.read = lambda rows: read([*rows[:-1], bytes(1 - module for module in rows[-1])])
        told.append(("another reading of the library", "".join(compared(5, 1, ["1"])[0])))
    finally:
        goqlanis.read = read
    return [f"not seen: {name}" for name, it in told if not it], f"{len(told)} wrong inputs"


TESTS = [other_encoders, printed_symbols, known_penalties, corrected_by_trial, what_is_wrong]
