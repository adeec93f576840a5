"""Symbols of text that other readers were shown (lab/others/texts/look)."""
from pathlib import Path

import goqlanis
from looks import not_read, square_of

TEXTS = Path(__file__).resolve().parents[2] / "lab" / "others" / "texts"
PRIME = 4294967291


def digest(square):
    """Returns the digest of a symbol, as lab/others/texts/digests has it."""
    total = 0
    for module in square:
        total = (total * 257 + module + 1) % PRIME
    return f"{total:08x}"


def not_shown(text, wanted):
    """Returns a complaint unless the two symbols of a text are those that were shown, and the one
    without a header is read as the text."""
    plain, marked = (goqlanis.encode_text(text, "M", is_marked) for is_marked in (False, True))
    digests = " ".join(digest(square_of(symbol)) for symbol in (plain, marked))
    if digests != wanted:
        return f"{digests} and not {wanted}"
    return not_read(square_of(plain), plain.version, "M", text.encode())


def texts_that_were_shown():
    """Symbols of texts, without and with the ECI of UTF-8, are those that readers were shown"""
    texts, digests = (
        (TEXTS / name).read_text(encoding="utf-8").splitlines() for name in ("texts", "digests"))
    looks = ((text, not_shown(text, it)) for text, it in zip(texts, digests, strict=True))
    found = [f"{text}: {it}" for text, it in looks if it]
    return found + ([] if len(texts) == 500 else ["there are not 500"]), f"{len(texts)} texts"


TESTS = [texts_that_were_shown]
