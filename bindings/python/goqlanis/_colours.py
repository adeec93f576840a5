"""Colours, as callers write them, and their contrast."""
import difflib
import pkgutil
from typing import Any, Tuple, Union

from . import _checks
from ._checks import shown
from .errors import NoSuchColour

Colour = Union[str, Tuple[int, int, int], Tuple[int, int, int, int], None]
TRANSPARENT = 0xFF000000
# The smallest difference of brightness, out of 255: two fifths, below which ISO/IEC 15415 grades
# the contrast of a symbol D or F.
CONTRAST = 102

# The names of CSS Color Module Level 4, each with its red, green and blue.
_TABLE = pkgutil.get_data("goqlanis", "colours.txt") or b""
_NAMES = dict(row.split("=") for row in _TABLE.decode().split())


def colour(name: str, value: Any) -> int:
    """Returns the library's number of a colour, which is the argument `name`."""
    if value is None or isinstance(value, str) and value.strip().lower() == "transparent":
        return TRANSPARENT
    if isinstance(value, (tuple, list)) and len(value) in (3, 4):
        parts = bytes(_checks.whole(f"each part of {name}", part, 0, 255, NoSuchColour)
                      for part in value)
    elif isinstance(value, str):
        parts = _parts(name, value.strip().lower())
    else:
        raise TypeError(f"{name} is a colour, not {shown(value)}: take a name, '#rgb', '#rrggbb', "
                        "'#rrggbbaa', (red, green, blue), or None for transparent")
    red, green, blue, opacity = (parts + b"\xff")[:4]
    return (255 - opacity) << 24 | red << 16 | green << 8 | blue


def are_close(dark: int, light: int) -> bool:
    """Returns whether dark modules are too bright next to light ones, on white paper."""
    return _brightness(light) < _brightness(dark) + CONTRAST


def _brightness(number: int) -> int:
    """Returns how bright a colour is on white, 0 to 255, by the weights of ITU-R BT.601."""
    red, green, blue = number >> 16 & 255, number >> 8 & 255, number & 255
    own, clear = (299 * red + 587 * green + 114 * blue) // 1000, number >> 24
    return (own * (255 - clear) + 255 * clear) // 255


def _parts(name: str, word: str) -> bytes:
    """Returns red, green, blue and perhaps opacity of a colour in words."""
    digits = _NAMES.get(word, word[word.startswith("#"):])
    if len(digits) not in (3, 4, 6, 8) or not _is_hexadecimal(digits):
        near = difflib.get_close_matches(word, _NAMES, 1)
        raise NoSuchColour(f"{name}: {shown(word)} is not a colour: "
                           + (f"did you mean {shown(near[0])}?" if near else
                              "take '#rrggbb', or a CSS name"))
    return bytes.fromhex(digits if len(digits) > 4 else "".join(it * 2 for it in digits))


def _is_hexadecimal(word: str) -> bool:
    return set(word) <= set("0123456789abcdef")
