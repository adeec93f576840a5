"""Areas of symbols that may show anything, e.g. logos."""
import base64
import ctypes
import os
import re
import xml.etree.ElementTree as xml
from fractions import Fraction
from typing import Any, Iterable, List, NamedTuple, Optional, Sequence, Tuple, Union

from . import _checks
from . import _numbers as goq
from ._checks import LEVELS
from ._library import Rectangle as Given
from ._library import AreaUse, Wish, library
from .errors import Error, NoSuchArea, NotPicture, refusal, refuse

HALF = 0xffffffff


class Rectangle(NamedTuple):
    """A rectangle of modules: its left column and top row, counted from 0, and how many columns and
    rows it has.
    """
    left: int
    top: int
    width: int
    height: int


class Reserve(NamedTuple):
    """How much of a symbol an area takes, and what is left.

    - `touched`: how many codewords of each block the area touches;
    - `allowed`: how many codewords of each block may be lost;
    - `worst`: the block that loses most, counted from 0;
    - `format_modules`: how many modules of each copy of the format information it has; 3 may be
      lost;
    - `least`: how many more codewords of each block may be lost; None if the area takes too much.
    """
    touched: Tuple[int, ...]
    allowed: int
    worst: int
    format_modules: Tuple[int, int]
    least: Optional[int]


Area = Union[Rectangle, Sequence[int], Sequence[Rectangle]]


def reserve(version: int, level: int, area: Area) -> Reserve:
    """Returns how much of a symbol of a version and level an area takes."""
    return _reserve(version, level, *_given(area))


def _reserve(version: int, level: int, given: Any, count: int) -> Reserve:
    counts, use = (ctypes.c_size_t * goq.BLOCKS_MAX)(), AreaUse()
    answer = library.goq_reserve(version, level, given, count, counts, len(counts),
                                 ctypes.byref(use))
    refuse(answer)
    return Reserve(tuple(counts[:use.blocks]), use.allowed, use.worst, (use.first, use.last),
                   use.least if use.may_show_anything else None)


def largest(version: int, level: int, ratio: Any, kept: Any, keep_alignment: bool) -> Rectangle:
    """Returns the largest rectangle in the middle of a symbol of a version and level."""
    given = _checks.listed("ratio", ratio, "two numbers")
    sides = [_checks.whole("ratio", it, 1, 10000, NoSuchArea) for it in given]
    if len(sides) != 2:
        raise NoSuchArea("ratio is a width and a height, e.g. (16, 9)")
    left = HALF if kept is None else _checks.whole("reserve", kept, 0, 10000)
    wish = Wish(ctypes.sizeof(Wish), *sides, left, _checks.flag("keep_alignment", keep_alignment))
    found = Given()
    refuse(library.goq_largest_area(version, level, ctypes.byref(wish), ctypes.byref(found)))
    return _rectangle(found)


def covered(modules: bytes, version: int, level: int, area: Area) -> bytes:
    """Returns the modules of a symbol, with those of an area light."""
    out, place = ctypes.create_string_buffer(modules, len(modules)), ctypes.c_size_t()
    given = _given(area)
    answer = library.goq_cover(out, len(out), *given, ctypes.byref(place))
    if answer == goq.AREA_BLOCK:
        raise _too_large(version, level, *given)
    refuse(answer)
    return out.raw


def _too_large(version: int, level: int, given: Any, count: int) -> Error:
    """Returns the error for an area that takes too much, with a level that allows it."""
    taken = _reserve(version, level, given, count)
    higher = (it for it in range(level + 1, len(LEVELS)) if _fits(version, it, given, count))
    found = next(higher, None)
    helps = "a smaller area" if found is None else f"level {LEVELS[found]}, or a smaller area"
    return refusal(goq.AREA_BLOCK, f"the area touches {taken.touched[taken.worst]} codewords of "
                   f"block {taken.worst + 1}, of which {taken.allowed} may be lost: take {helps}")


def _fits(version: int, level: int, given: Any, count: int) -> bool:
    try:
        return _reserve(version, level, given, count).least is not None
    except Error:
        return False


def _given(area: Area) -> Tuple[Any, int]:
    """Returns the rectangles of an area, which is one or several."""
    given: List[Any] = _checks.listed("area", area, "rectangles: left, top, width, height")
    is_one = given and not any(isinstance(it, Iterable) for it in given)
    rows = [Given(*rectangle(row)) for row in ([given] if is_one else given)]
    return (Given * len(rows))(*rows), len(rows)


def rectangle(given: Any) -> Rectangle:
    sides = _checks.listed("area", given, "left, top, width, height")
    if len(sides) != 4:
        raise NoSuchArea(f"a rectangle is left, top, width and height, not {_checks.shown(given)}")
    return Rectangle(*(_checks.whole(name, side, 0, 10000, NoSuchArea)
                       for name, side in zip(Rectangle._fields, sides)))


def _rectangle(found: Given) -> Rectangle:
    return Rectangle(found.left, found.top, found.width, found.height)


class Logo(NamedTuple):
    """A picture in an area of a symbol, as a data URI; its ratio is kept."""
    left: int
    top: int
    width: int
    height: int
    data: str

    @property
    def png(self) -> Optional[bytes]:
        """The PNG file that it is, or None if it is an SVG file."""
        kind, _, data = self.data.partition(",")
        return base64.b64decode(data) if "png" in kind else None

    def over(self, svg: bytes, zone: int) -> bytes:
        """Returns an SVG file, whose quiet zone has `zone` modules, with the picture added."""
        picture = (f'<image x="{zone + self.left}" y="{zone + self.top}" width="{self.width}" '
                   f'height="{self.height}" href="{self.data}"/>')
        return svg.rpartition(b"</svg>")[0] + picture.encode() + b"</svg>"


def loaded(logo: Any) -> Tuple[str, Tuple[int, int]]:
    """Returns the data URI of a picture, given by its path or its bytes, and its width and height.
    """
    data = logo
    if isinstance(logo, (str, os.PathLike)):
        with open(logo, "rb") as file:
            data = file.read()
    if not isinstance(data, _checks.BINARY):
        raise TypeError(f"logo is a path or the bytes of a file, not {_checks.shown(logo)}")
    data = _checks.exact(data)
    if data.startswith(b"\x89PNG") and len(data) > 24:
        sides = [int.from_bytes(data[at:at + 4], "big") for at in (16, 20)]
        kind = "png"
    else:
        sides, kind = _sides(data), "svg+xml"
    if min(sides) <= 0:
        raise NotPicture("the logo has no width or no height")
    ratio = min(max(Fraction(sides[0]) / Fraction(sides[1]), Fraction(1, 10000)), Fraction(10000))
    across, down = ratio.limit_denominator(100).as_integer_ratio() if ratio >= 1 else \
        (1 / ratio).limit_denominator(100).as_integer_ratio()[::-1]
    return f"data:image/{kind};base64,{base64.b64encode(data).decode()}", (across, down)


def _sides(data: bytes) -> List[Any]:
    """Returns the width and height of an SVG file, which must be UTF-8 without entities, since
    these may take any time and memory to parse."""
    if data.startswith(b"\xff\xd8"):
        raise NotPicture("the logo is a JPEG file: save it as PNG or plain SVG")
    if b"<!ENTITY" in data or b"\0" in data:
        raise NotPicture("the logo has entities, or is not UTF-8: save it as plain SVG")
    try:
        root = xml.fromstring(data)
    except (xml.ParseError, LookupError, ValueError):
        raise NotPicture("a logo is an SVG or a PNG file") from None
    box = root.get("viewBox", "").replace(",", " ").split()[2:]
    said = box if len(box) == 2 else [root.get("width", ""), root.get("height", "")]
    found = [re.match(r"[0-9]{0,99}[.]?[0-9]{1,99}", it) for it in said]
    if not root.tag.endswith("svg") or not all(found):
        raise NotPicture("the logo is not an SVG file with a viewBox, or a width and a height")
    return [Fraction(it[0]) for it in found if it]


def placed(data: str, area: Rectangle, margin: int) -> Logo:
    """Returns a picture in an area, with a margin of light modules if there is room."""
    across, down = (min(margin, (side - 1) // 2) for side in (area.width, area.height))
    return Logo(area.left + across, area.top + down, area.width - 2 * across,
                area.height - 2 * down, data)
