"""Draws symbols: the formats, and the options of each."""
import ctypes
import os
import re
import warnings
import xml.sax.saxutils as xml
from collections import namedtuple
from fractions import Fraction
from itertools import product
from typing import Any, Dict, NamedTuple, Optional, Tuple, Union

from . import _checks
from . import _numbers as goq
from ._checks import PARTS, shown
from ._colours import are_close, colour
from ._library import Drawing, Rectangle, library
from ._numbers import FORMATS, SIDES
from .areas import Logo
from .errors import NoSuchColour, NoSuchKind, NoSuchSize, NotInFormat, OutOfMemory, refuse


class Kind(NamedTuple):
    """A format: the library's number, whether it is text, the default pixels per module, and
    whether it has colours."""
    number: int
    is_text: bool
    scale: int
    has_colours: bool


KINDS = {ending: Kind(*row) for ending, row in FORMATS.items()}
# Formats without a file extension: half blocks for dark backgrounds, and rows of pixels.
OTHERS = {"light": Kind(goq.LIGHT_HALF_BLOCKS, True, 1, False),
          "grey": Kind(goq.GREY, False, 8, False)}
MOST_SIDE = 65535
# The most points a side of a page in PDF.
MOST_POINTS = 14400
# The most pixels a side of a PNG file with colours of parts.
MOST_COLOURFUL = 8192
# No colour of its own.
SAME = 0xFFFFFFFF
# A character that XML 1.0 does not allow.
NOT_IN_XML = re.compile("[^\t\n\r -\ud7ff\ue000-\ufffd\U00010000-\U0010ffff]")
Size = Union[int, str, None]
Length = Tuple[str, str]
# Each unit in inches.
INCHES = {"mm": Fraction(10, 254), "cm": Fraction(100, 254), "in": Fraction(1),
          "pt": Fraction(1, 72)}


# The options of a drawing, as a caller gives them; `border` and `quiet_zone` are the same. Those of
# PARTS are False where parts have no colour of their own.
Look = namedtuple("Look", ["scale", "border", "quiet_zone", "dark", "light", "dpi", "size", "title",
                           *PARTS], defaults=[None, None, None, "black", "white", None, None, None,
                                              *[False] * len(PARTS)])


def drawn(modules: bytes, width: int, usual_zone: int, name: str, look: Look,
          logo: Optional[Logo] = None) -> bytes:
    """Draws modules in a format, in PNG with a logo; the default quiet zone has `usual_zone`
    modules."""
    kind = KINDS.get(name) or OTHERS[name]
    if look.scale is not None and look.size is not None:
        raise ValueError("scale and size: give one of them")
    zone = zone_of(look, usual_zone)
    across = width + 2 * zone
    length = _length(look.size) or _fraction(look.scale, across) if name == "svg" else None
    exact = _exact(look.size, across) if name in ("eps", "pdf") else None
    scale = 1 if length else exact[0] if exact else _scale(look, kind) if look.size is None else \
        _fitted(look, across)
    own = _own(look, name)
    dark, light, dpi = _ink(look, name, kind.has_colours, own)
    dpi = exact[1] if exact else dpi
    side = across * scale
    most = MOST_COLOURFUL if logo or own and name == "png" else SIDES.get(kind.number, side)
    if side > most:
        helps = "a smaller border" if across > most else f"scale={most // across} or less"
        raise NoSuchSize(f"a side of {side:,} pixels: this format has at most {most:,}: take "
                         f"{helps}")
    if name == "pdf" and side * 72 > MOST_POINTS * (dpi or 72):
        warnings.warn("a page in PDF has at most 14,400 points (5,080 mm) a side, and this one has "
                      "more: take a smaller size or scale", stacklevel=5)
    drawing = Drawing(ctypes.sizeof(Drawing), kind.number, zone, scale, dark, light, dpi,
                      *(own.get(it, SAME) for it in PARTS))
    given: Tuple[Any, ...] = (modules, len(modules), width, ctypes.byref(drawing))
    call, count = library.goq_draw_with, ctypes.c_size_t(8 * side * side + 1000)
    if logo:
        file, call = logo.png or b"", library.goq_draw_logo
        given += file, len(file), ctypes.byref(Rectangle(*logo[:4]))
    else:
        refuse(library.goq_draw_with_length(*given, ctypes.byref(count)))
    out = _room(count.value)
    place = (ctypes.c_char * len(out)).from_buffer(out)
    refuse(call(*given, place, len(out), ctypes.byref(count)))
    found = bytes(memoryview(out)[:count.value])
    return found if name != "svg" else _framed(found, length, look)


def _framed(svg: bytes, length: Optional[Length], look: Look) -> bytes:
    """Returns an SVG file with its sides as a length, if it has one, and with its title."""
    if length:
        sides = 'width="{0}{1}" height="{0}{1}"'.format(*length)
        svg = re.sub(rb'width="[0-9]+" height="[0-9]+"', sides.encode(), svg, count=1)
    if look.title is None:
        return svg
    title = f"<title>{_escaped('title', look.title)}</title>".encode()
    return re.sub(rb"<svg [^>]*>", lambda it: it[0] + title, svg, count=1)


def _escaped(name: str, value: Any) -> str:
    text = _checks.text(name, value)
    found = NOT_IN_XML.search(text)
    if found:
        raise NotInFormat(f"{name}: it contains U+{ord(found[0]):04X}, which SVG does not allow: "
                          "remove it")
    return xml.escape(text)


def _room(count: int) -> bytearray:
    try:
        return bytearray(count)
    except (MemoryError, OverflowError):
        raise OutOfMemory(f"a picture of {count:,} bytes: take a smaller scale") from None


def zone_of(look: Look, usual: int) -> int:
    if look.border is not None and look.quiet_zone is not None:
        raise ValueError("border and quiet_zone are the same: give one of them")
    name, value = ("border", look.border) if look.quiet_zone is None else \
        ("quiet_zone", look.quiet_zone)
    return usual if value is None else _checks.whole(name, value, 0, 4000, NoSuchSize)


def _scale(look: Look, kind: Kind) -> int:
    if _ending(look.scale) in KINDS:
        raise TypeError(f"scale is a whole number: code.save({shown(look.scale)}) writes a file")
    return kind.scale if look.scale is None else \
        _checks.whole("scale", look.scale, 1, MOST_SIDE, NoSuchSize)


def _length(size: Any) -> Optional[Length]:
    """Returns a size as a number and its unit, or None if it is not written so."""
    length = r"([0-9]{1,9}(?:[.][0-9]{1,9})?)(mm|cm|in|pt)"
    found = isinstance(size, str) and re.fullmatch(length, size)
    return (found[1], found[2]) if found and float(found[1]) > 0 else None


def _fraction(scale: Any, across: int) -> Optional[Length]:
    """Returns the side in pixels if a module has a fraction of them."""
    if not isinstance(scale, float) or scale.is_integer():
        return None
    if not 1 <= scale <= MOST_SIDE:
        raise NoSuchSize(f"scale is a number from 1 to {MOST_SIDE:,} in SVG, not {shown(scale)}")
    return f"{across * scale:.9g}", ""


def _exact(size: Any, across: int) -> Optional[Tuple[int, int]]:
    """Returns a length as a scale and dots per inch, or None if it is not written so: the scale is
    the side in micrometres, or tens or hundreds of them, and each module has a part of that."""
    found = _length(size)
    if not found:
        return None
    inches = Fraction(found[0]) * INCHES[found[1]]
    for units in (25400, 2540, 254):
        side = int(inches * units)
        if 0 < side <= MOST_SIDE:
            return side, units * across
    raise NoSuchSize(f"size={shown(size)}: take 0.001mm to 6553.5mm")


def _fitted(look: Look, across: int) -> int:
    """Returns the most pixels per module with which `across` modules fit in a size."""
    dots = look.dpi
    pixels = _pixels(look, dots)
    if pixels < across:
        raise NoSuchSize(f"a side of {pixels} pixels: the code and its quiet zone have {across} "
                         "modules a side: take a larger size, or a smaller border")
    scale = pixels // across
    if _length(look.size) and (pixels - scale * across) * 254 >= dots:
        made = scale * across / dots * 25.4
        warnings.warn(f"size={shown(look.size)} comes out at {made:.1f} mm: {across} modules of "
                      f"{scale} whole pixels; SVG, EPS and PDF take any length", stacklevel=6)
    return scale


def _pixels(look: Look, dots: Any) -> int:
    """Returns the pixels of a size, with `dots` pixels per inch."""
    size, found = look.size, _length(look.size)
    close = "".join(size.split()) if isinstance(size, str) else ""
    if not found and _length(close):
        raise TypeError(f"size={shown(size)}: take {close!r}")
    if found and dots is None:
        raise NoSuchSize(f"size={shown(size)}: how many pixels are these? Take SVG, EPS or PDF, or "
                         "PNG with dpi=300")
    if found:
        dots = _checks.whole("dpi", dots, 1, MOST_SIDE, NoSuchSize)
        size = int(Fraction(found[0]) * dots * INCHES[found[1]])
    return _checks.whole("size in pixels, or as '30mm',", size, 1, MOST_SIDE, NoSuchSize)


def _own(look: Look, name: str) -> Dict[str, int]:
    """Returns the colours that parts have of their own."""
    own = {it: min(colour(it, getattr(look, it)), SAME - 1)
           for it in PARTS if getattr(look, it) is not False}
    if own and name not in ("png", "svg", "eps", "pdf"):
        raise NotInFormat(f"{name.upper()} has no {next(iter(own))}: PNG, SVG, EPS and PDF have "
                          "colours of patterns")
    if name != "png" and max(own.values(), default=0) > 0xFFFFFF:
        raise NotInFormat("colours of patterns are drawn over dark and light in SVG, EPS and PDF: "
                          "for transparent ones take PNG")
    return own


def _ink(look: Look, name: str, has_colours: bool, own: Dict[str, int]) -> Tuple[int, int, int]:
    """Returns the colours of dark and light modules, and the dots per inch, 0 for none."""
    dark, light = colour("dark", look.dark), colour("light", look.light)
    if not has_colours and (dark, light) != (0x000000, 0xFFFFFF):
        raise NotInFormat(f"{name.upper()} is black on white; PNG, SVG, EPS, PDF and PPM have "
                          "colours")
    if name not in ("png", "svg") and max(dark, light) > 0xFFFFFF:
        raise NotInFormat(f"{name.upper()} has only opaque colours; PNG and SVG have transparent "
                          "ones")
    if dark == light:
        raise NoSuchColour(f"dark and light are the same colour, {shown(look.dark)}: the code "
                           "would be invisible")
    if look.dpi is not None and name != "png":
        raise NotInFormat(f"{name.upper()} has no dots per inch: only PNG has dpi")
    if look.title is not None and name != "svg":
        raise NotInFormat(f"{name.upper()} has no title: only SVG has one")
    darks, lights = ([(name, it), *(row for row in own.items() if row[0].endswith(name))]
                      for name, it in (("dark", dark), ("light", light)))
    for (one, ink), (other, paper) in product(darks, lights):
        if are_close(ink, paper):
            warnings.warn(f"dark modules in {shown(getattr(look, one))}, light ones in "
                          f"{shown(getattr(look, other))}: many readers need the dark ones to be "
                          "much darker", stacklevel=6)
            break
    if look.dpi is None:
        return dark, light, 0
    return dark, light, _checks.whole("dpi", look.dpi, 1, MOST_SIDE, NoSuchSize)


def kind_of(out: Any, kind: Optional[str]) -> str:
    """Returns the format of a file: `kind`, or that of the file extension."""
    known = ", ".join(KINDS)
    name = getattr(out, "name", "") if hasattr(out, "write") else os.fsdecode(out)
    ending = _ending(name)
    if kind is not None:
        found = _checks.text("kind", kind).lstrip(".").lower()
        if found not in KINDS:
            raise NoSuchKind(f"no kind {shown(kind)}: take one of {known}")
        if ending in KINDS and ending != found:
            warnings.warn(f"{shown(name)} has the file extension of another format than {found}",
                          stacklevel=4)
        return found
    if not ending:
        raise NoSuchKind(f"nothing names the format, one of {known}: add kind='png', or another "
                         "one")
    if ending not in KINDS:
        file = os.path.basename(os.fsdecode(name))
        raise NoSuchKind(f"{shown(file)}: its file extension is none of {known}: save "
                         f"{shown(os.path.splitext(file)[0] + '.png')}, and convert that")
    return ending


def _ending(name: Any) -> str:
    """Returns the file extension of a name in lower case, or an empty str if it has none."""
    is_name = isinstance(name, (str, bytes, os.PathLike))
    return os.path.splitext(os.fsdecode(name))[1][1:].lower() if is_name else ""
