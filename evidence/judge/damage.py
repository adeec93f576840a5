"""Counts what is wrong in damaged squares."""
import reading
from forms import blocks, form

# Error correction codewords that are reserved against misdecoding (Table 9).
PROTECTION = {("1", "L"): 3, ("1", "M"): 2, ("1", "Q"): 1, ("1", "H"): 1, ("2", "L"): 2,
              ("3", "L"): 1, ("M1", "L"): 2, ("M2", "L"): 3, ("M2", "M"): 2, ("M3", "L"): 2,
              ("M4", "L"): 2}


def bounds(version, level):
    """Returns how many wrong codewords of each block can be corrected, and how many the standard
    allows readers to correct."""
    parts, kept = blocks(version, level), PROTECTION.get((version, level), 0)
    return parts.ec // 2, (parts.ec * parts.count - kept) // 2 // parts.count


def version_copies(shape):
    """Returns the places of each copy of the version word (Annex D)."""
    if shape.is_micro or shape.number < 7:
        return []
    near = [(k // 3, shape.width - 11 + k % 3) for k in range(18)]
    return [[y * shape.width + x for x, y in near], [x * shape.width + y for x, y in near]]


def wrong_in(whole, other, version, level, mask):
    """Returns the numbers of wrong codewords of each block, of wrong bits in each copy of the format
    and of the version word, and of other wrong modules."""
    shape, parts = form(version), blocks(version, level)
    found = [reading.words_of(shape.stream(it, mask), len(shape.places), parts)
             for it in (whole, other)]
    differs = {place for place, pair in enumerate(zip(whole, other)) if len(set(pair)) > 1}
    words = [sum(found[0][it] != found[1][it] for it in share) for share in parts.shares()]
    copies, versions = shape.copies, version_copies(shape)
    known = {*shape.places[:parts.total * 8 - 4 * parts.has_half], *sum(copies + versions, [])}
    return (words, [len(differs & set(it)) for it in copies],
            [len(differs & set(it)) for it in versions], len(differs - known))
