"""Data bits of symbols: printed ones, headers, and lists of segments of each length in versions
with a codeword of four bits; segments in any order; damage without finder patterns; wrong bits of
the format word."""
from itertools import combinations, product

import goqlanis
import reading
from forms import blocks, form
from looks import answered, differs, judged, listed, not_read, square_of, turn_format, turn_word
from spelling import count_bits

def hexadecimal(bits):
    bits += "0" * (-len(bits) % 8)
    return f"{int(bits, 2):0{len(bits) // 4}x}"


def printed_codewords():
    """Data bits are the printed ones"""
    found = []
    rows = listed("codewords")
    for data, version, level, words in rows:
        make = goqlanis.encode if isinstance(data, bytes) else goqlanis.encode_segments
        bits = reading.read_bits(square_of(make(data, level, version))).bits
        if hexadecimal(bits) != words:
            found.append(f"{data} in {version}-{level}: {hexadecimal(bits)}")
    return found, f"{len(rows)} symbols"


def least_cuts():
    """Data takes as many bits as its best cut"""
    found = []
    rows = listed("least cuts")
    for data, version, level, length in rows:
        _, said = reading.read_headed(square_of(goqlanis.encode(data, level, version)))
        found += [f"{data}: {said.length}"] if (said.data, said.length) != (data, length) else []
    return found, f"{len(rows)} symbols"


def written(shape, count):
    """Returns the bits of a segment of `count` sevens in Micro."""
    bits = "0" * (shape.number - 1) + f"{count:0{count_bits(shape, 'numeric')}b}"
    bits += f"{777:010b}" * (count // 3)
    return bits + ("", f"{7:04b}", f"{77:07b}")[count % 3]


def lists_of_each_length(shape, room):
    """Returns a list of segments of digits for each length that such lists can have, up to `room`
    bits: the number of digits in each segment. No segment is empty."""
    most, found = 2 ** count_bits(shape, "numeric"), {0: []}
    for length in range(room + 1):
        for count in range(1, most if length in found else 0):
            longer = length + len(written(shape, count))
            if longer <= room:
                found.setdefault(longer, found[length] + [count])
    return found


def ended(shape, bits, room):
    """Ends bits as the standard says: a terminator of one zero more than twice the version's
    number, zeros up to a whole codeword, 11101100 and 00010001 in turn, and four zeros for a
    codeword of four bits."""
    bits += "0" * min(2 * shape.number + 1, room - len(bits))
    bits += "0" * min(-len(bits) % 8, room - len(bits))
    while len(bits) + 8 <= room:
        bits += "11101100"
        bits += "00010001" if len(bits) + 8 <= room else ""
    return bits + "0" * (room - len(bits))


def not_ended(square, expected):
    bits = reading.read_bits(square).bits
    return "" if bits == expected else f"{bits} and not {expected}"


def lists_are_ended():
    """Lists of each length end as they must in versions with a codeword of four bits"""
    found, counts = [], []
    for version, level in (("M1", "L"), ("M3", "L"), ("M3", "M")):
        shape, room = form(version), blocks(version, level).capacity
        lists = lists_of_each_length(shape, room)
        for counted in lists.values():
            segments = [("numeric", b"7" * count) for count in counted]
            square = square_of(goqlanis.encode_segments(segments, level, version))
            bits = "".join(written(shape, count) for count in counted)
            it = not_ended(square, ended(shape, bits, room))
            found += [f"{counted} in {version}-{level}: {it}"] if it else []
        counts.append(len(lists))
    return found + ([] if counts == [7, 63, 47] else [f"{counts} lengths"]), f"{sum(counts)} lists"


def segments_in_any_order():
    """Segments that no best cut has are read; empty ones are left out"""
    segments = [("alphanumeric", b"AB"), ("numeric", b"12"), ("byte", b"2A"), ("numeric", b"12"),
                ("kanji", b"\x93\x5f"), ("byte", b"\x93\x5f")]
    it = not_read(square_of(goqlanis.encode_segments(segments, "L", "2")), "2", "L",
                  b"AB122A12\x93\x5f\x93\x5f")
    some = [("byte", b""), *segments[:2], ("kanji", b"")]
    square, plain = (square_of(goqlanis.encode_segments(given, "L", "2"))
                     for given in (some, segments[:2]))
    empty = "" if square == plain else "segments without a character"
    return [it, empty], "2 symbols"


def headers_are_read():
    """Headers are read as they were given, and reading them as plain bytes fails"""
    found = []
    rows = listed("headers")
    for segments, version, level, headers, data in rows:
        square = square_of(goqlanis.encode_segments(segments, level, version))
        bits, said = reading.read_headed(square)
        read = (bits.version, bits.level, said.headers, said.data)
        if read != (version, level, headers, data) or answered(square) != "NotSpelled":
            found.append(f"{segments}: {said}")
    return found, f"{len(rows)} symbols"


def usual_symbols():
    """Three usual symbols are read back"""
    symbols = [
        (goqlanis.encode_text("01234567", "M"), "1", "M", b"01234567"),
        (goqlanis.encode_text("BCD\n002\n1\nSCT\n..", "M"), "2", "M", b"BCD\n002\n1\nSCT\n.."),
        (goqlanis.encode(b"01234567", "L", "M2"), "M2", "L", b"01234567"),
    ]
    found = [not_read(square_of(symbol), version, level, data)
             for symbol, version, level, data in symbols]
    return list(filter(None, found)), f"{len(symbols)} symbols"


def without_finders():
    """Five wrong codewords are corrected without finder patterns"""
    shape, parts = form("1"), blocks("1", "M")
    square = bytearray(square_of(goqlanis.encode(b"01234567", "M", "1")))
    for number, bits in enumerate([0xff, 0x01, 0x80, 0x5a, 0x11]):
        turn_word(square, shape, parts, number * 6, bits)
    turn_format(square, shape, [0, 7, 14])
    for top, left in ((0, 0), (0, 13), (13, 0)):
        for row in range(top, top + 8):
            square[row * 21 + left:row * 21 + left + 8] = bytes(8)
    it = not_read(square, "1", "M", b"01234567", 5) or differs(judged(square)[2], 2)
    return [it], "a symbol"


# Data, and its error correction as printed in the standard and in "Reed-Solomon codes for coders".
CORRECTION = [(b"01234567", "a524d4c1ed36c7872c55"), (b"'Twas brillig", "bc2a90136bafeffd4be0")]


def wrong_codewords():
    """Printed blocks are corrected with up to five wrong codewords, five places apart, from each
    place"""
    shape, parts, found, count = form("1"), blocks("1", "M"), [], 0
    for (data, printed), first, wrong in product(CORRECTION, range(26), range(6)):
        square = square_of(goqlanis.encode(data, "M", "1"))
        mask, count = reading.read_bits(square).mask, count + 1
        words = reading.words_of(shape.stream(square, mask), len(shape.places), parts)
        damaged = bytearray(square)
        for k in range(wrong):
            turn_word(damaged, shape, parts, (first + 5 * k) % 26, 0x5a)
        said = answered(damaged)
        if words[16:].hex() != printed or said != ("1", "M", mask, wrong, data):
            found.append(f"{data} with {wrong} wrong from {first} on: {said}")
    return found, f"{count} squares"


def wrong_bits_of_a_copy():
    """Any three wrong bits of either copy of the format word are corrected; any four are
    rejected"""
    square, found, count = square_of(goqlanis.encode(b"01234567", "M", "1")), [], 0
    for copy, (wrong, expected) in product(form("1").copies,
                                           ((3, answered(square)), (4, "NoFormat"))):
        for places in combinations(copy, wrong):
            turned = bytes(module ^ (place in places) for place, module in enumerate(square))
            found += [f"{places}: {answered(turned)}"] if answered(turned) != expected else []
            count += 1
    return found + ([] if count == 2 * (455 + 1365) else ["there are not 3640"]), f"{count} squares"


TESTS = [printed_codewords, least_cuts, usual_symbols, headers_are_read, lists_are_ended,
         segments_in_any_order, without_finders, wrong_codewords, wrong_bits_of_a_copy]
