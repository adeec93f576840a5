"""Inverts the largest area that may be covered in each version and level, and then an area with one
codeword more. `bindings/c/rows/areas` covers it in other ways."""
from bisect import bisect

import goqlanis
import reading
from forms import pairs
from looks import answered, differs, judged, listed, square_of

# Here the modules below the largest square are too few to touch one more codeword.
BOUNDED = [("1", "Q"), ("1", "H"), ("13", "H")]
# The excess of an area that is no area of the symbol.
OUTSIDE = 99


def inverted(symbol, area):
    square = bytearray(square_of(symbol))
    for left, top, across, down in area:
        for begin in range(top * symbol.width + left, (top + down) * symbol.width, symbol.width):
            for place in range(begin, begin + across):
                square[place] ^= 1
    return square


def grown(area, more):
    """Returns an area with `more` modules added, row by row below it."""
    left, top, across, down = area
    rows, rest = divmod(more - 1, across)
    return [(left, top, across, down + rows), (left, top + down + rows, rest + 1, 1)]


def excess(symbol, area):
    """Returns by how many codewords the worst block exceeds what it may lose."""
    try:
        found = symbol.reserve(area)
    except goqlanis.NoSuchArea:
        return OUTSIDE
    return found.touched[found.worst] - found.allowed


def too_large(symbol, area):
    """Returns the area with the fewest modules added that is too large."""
    few = bisect(range(1, 1000), 0, key=lambda more: excess(symbol, grown(area, more)))
    return grown(area, few + 1)


def area_complaint(version, level):
    """Returns what is wrong with the largest square of a symbol: inverted as a whole it must not
    prevent reading; enlarged until it touches one codeword too many it must."""
    symbol = goqlanis.encode(b"1", level, version)
    area = symbol.largest_area(reserve=0)
    square = inverted(symbol, [area])
    said = judged(square)
    if said[-1] != b"1" or said != answered(square):
        return f"not read: {differs(said, answered(square)) or said}"
    larger = too_large(symbol, area)
    most = excess(symbol, larger)
    if most != (OUTSIDE if (version, level) in BOUNDED else 1):
        return f"a larger area has {most} codewords too many"
    if most == OUTSIDE:
        return ""
    square = inverted(symbol, larger)
    is_read = b"1" in (judged(square)[-1], answered(square)[-1])
    return "it is read, although a larger area is inverted" if is_read else ""


def largest_squares():
    """The largest squares may be inverted, but not one codeword more"""
    normal = [it for it in pairs() if not it[0].startswith("M")]
    found = [f"{version}-{level}: {it}" for version, level in normal
             if (it := area_complaint(version, level))]
    return found, f"{len(normal)} pairs"


def headers_stay():
    """Symbols with headers keep them whatever their largest square shows"""
    found = []
    rows = listed("headers")
    for segments, version, level, headers, data in rows:
        symbol = goqlanis.encode_segments(segments, level, version)
        area = symbol.largest_area(reserve=0)
        square = inverted(symbol.with_area(area), [area])
        bits, said = reading.read_headed(square)
        if (bits.version, bits.level, said.headers, said.data) != (version, level, headers, data):
            found.append(f"{segments}: {said}")
    return found, f"{len(rows)} symbols"


def no_squares():
    """Micro symbols have no area, since their middle belongs to patterns"""
    found, micro = [], [it for it in pairs() if it[0].startswith("M")]
    for version, level in micro:
        try:
            area = goqlanis.encode(b"1", level, version).largest_area(reserve=0)
            found.append(f"{version}-{level}: {area}")
        except goqlanis.AreaTooLarge:
            pass
    return found, f"{len(micro)} pairs"


TESTS = [largest_squares, headers_stay, no_squares]
