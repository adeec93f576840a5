"""Masks of symbols in which one term of the penalty decides, of symbols in which several masks tie,
and of symbols with penalties of more than 16 bits."""
import goqlanis
import penalty
import reading
from forms import blocks, form
from looks import listed, not_least, square_of

# Symbols that are mostly light under a mask: version, mask, and how many codewords are noise. Under
# that mask the penalty just exceeds 16 bits, and truncated to 16 bits it would be the lowest.
LIGHT = [("36", 3, 950), ("38", 7, 1300), ("40", 5, 1650)]


def not_decided(square, term):
    """Returns a complaint unless `term` is the only one without which another mask would win."""
    costs = reading.penalties(square, reading.read_bits(square))
    first = penalty.first_least(costs)
    deciding = [it for it in costs[0] if penalty.first_least(costs, it) != first]
    return "" if deciding == [term] else f"{deciding} and not {term} alone"


def one_term_decides():
    """Each term of the penalty decides the mask of some symbols"""
    found = []
    rows = listed("terms")
    for data, version, level, term in rows:
        square = square_of(goqlanis.encode(data, level, version))
        it = not_least(square) or not_decided(square, term)
        found += [f"{data} in {version}-{level}: {it}"] if it else []
    return found, f"{len(rows)} symbols"


def first_of_several():
    """If several masks tie, a symbol has the first"""
    found = []
    rows = listed("ties")
    for data, version, level, masks in rows:
        square = square_of(goqlanis.encode(data, level, version))
        bits = reading.read_bits(square)
        costs = [sum(terms.values()) for terms in reading.penalties(square, bits)]
        least = [mask for mask, cost in enumerate(costs) if cost == min(costs)]
        if least != masks or bits.mask != masks[0]:
            found.append(f"{data} in {version}-{level}: mask {bits.mask} of {least}")
    return found, f"{len(rows)} symbols"


def noise(row, column):
    mixed = (column * 0x9e3779b1 ^ row * 0x85ebca6b) % 2 ** 32
    return mixed * 0xc2b2ae35 % 2 ** 32 >> 17 & 1


def light_data(version, mask, noisy):
    """Returns the bytes of a segment whose data codewords are light under a mask at L, except for
    the first ones, which are noise."""
    shape, parts, bits = form(version), blocks(version, "L"), ""
    turned = f"{shape.turned[mask]:0{len(shape.places)}b}"
    for share, length in zip(parts.shares(), parts.lengths):
        for number in share[:length]:
            begin, count = parts.word_bits(number)
            places = shape.places[begin:begin + count]
            random = (str(noise(*divmod(place, shape.width))) for place in places)
            bits += "".join(random) if number < noisy else turned[begin:begin + count]
    behind = bits[20:-4]
    return bytes(int(behind[i:i + 8], 2) for i in range(0, len(behind) - 7, 8))


def not_beyond(square, mask):
    """Returns a complaint unless the penalty under a mask exceeds 16 bits, and would be the lowest
    if truncated to them."""
    costs = [sum(terms.values()) for terms in reading.penalties(square, reading.read_bits(square))]
    cut = costs.pop(mask)
    return "" if cut >= 2 ** 16 and cut % 2 ** 16 < min(costs) else f"{cut} beside {costs}"


def more_than_16_bits():
    """Penalties of more than 16 bits are compared in full"""
    found = []
    for version, mask, noisy in LIGHT:
        square = square_of(goqlanis.encode_segments([("byte", light_data(version, mask, noisy))],
                                                    "L", version))
        it = not_least(square) or not_beyond(square, mask)
        found += [f"{version}: {it}"] if it else []
    return found, f"{len(LIGHT)} symbols"


TESTS = [one_term_decides, first_of_several, more_than_16_bits]
