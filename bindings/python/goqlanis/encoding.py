"""Encodes data, text and segments as symbols."""
from typing import Any, Iterable, List, Optional, Tuple, Union

from . import _asked, _checks, _refusals
from ._asked import MICRO_1
from ._library import Segment, library
from ._numbers import (ALPHANUMERIC, AS_BYTES, AS_MARKED_TEXT, AS_TEXT, BYTES, ECI, FNC1_FIRST,
                       FNC1_SECOND, KANJI, NUMERIC, SEVERAL_MAX)
from ._payloads import elements_of, string_of
from .errors import NoSuchMask, NoSuchNumber
from .symbol import Symbol

Data = Union[str, bytes, bytearray, memoryview]
Version = Union[str, int]
Segments = Iterable[Tuple[str, Union[bytes, int, None]]]
Elements = Iterable[Tuple[str, str]]

MODES = {"numeric": NUMERIC, "alphanumeric": ALPHANUMERIC, "byte": BYTES, "kanji": KANJI}
KINDS = {**MODES, "eci": ECI, "fnc1_first": FNC1_FIRST, "fnc1_second": FNC1_SECOND}
UTF_8, MOST_SET = 26, 999_999


def _one(asked: Any, said: str) -> Symbol:
    """Returns the symbol that is asked for; an error message calls its data `said`."""
    answer, symbols = asked.answer()
    if answer:
        raise _refusals.of(asked, answer, said)
    symbol: Symbol = symbols[0]
    return symbol


@_checks.named
def encode(data: Data, level: str = "M", version: Optional[Version] = None, *,
           min_version: Optional[Version] = None, micro: bool = False, boost: bool = False,
           mask: Optional[int] = None, marked: bool = False, eci: Optional[int] = None,
           charset: Optional[str] = None) -> Symbol:
    """Encodes a str or bytes at a level ("L", "M", "Q" or "H"), in the smallest version of Normal
    QR that holds the data, or in `version`.

    - `micro`: uses Micro QR if it holds the data;
    - `min_version`: uses this version or a larger one;
    - `boost`: uses the highest level, from `level` on, that fits in the same version;
    - `mask`: uses this mask, 0 to 7 (Micro QR: 0 to 3), instead of the one with the lowest penalty;
    - `marked`: marks a str as UTF-8 (ECI 26), for readers that guess;
    - `eci`: marks bytes with the number of their character set, e.g. 4 for ISO 8859-2; then only
      `level` and `version` may be given too;
    - `charset`: encodes a str in this character set and marks it with its ECI: "utf-8",
      "iso-8859-5" and so on, or "shortest" for that in which it takes the fewest bits, which needs
      no ECI if it is UTF-8. `charset` of the symbol says which.

    Raises NoRoom if no symbol of this kind holds the data, or TooLong if there are more than
    1,048,576 bytes and `version` is given; NoSuchLevel, NoSuchVersion, LevelNotInVersion, NoMode,
    NoSuchMask, NoSuchSet or NoSuchNumber for an option that does not exist or does not suit the
    version or the data; NotInSet, which names the first character that the set lacks; ValueError
    for options that exclude each other.

    >>> encode(bytes([0, 255]), "H", version=7)
    <goqlanis.Symbol 7-H>
    >>> encode("HELLO", micro=True), encode("HELLO", boost=True), encode("HELLO", mask=3).mask
    (<goqlanis.Symbol M2-M>, <goqlanis.Symbol 1-H>, 3)
    >>> encode("Živjo".encode("iso8859_2"), eci=4).version
    '1'
    >>> encode("Привет, мир", charset="shortest").charset
    'iso-8859-5'
    """
    octets, is_text = _checks.data(data)
    manner, versions = _manner(is_text, marked, eci), _versions(version, min_version, micro)
    if _checks.flag("boost", boost) and version is not None:
        raise ValueError("version and boost: use min_version instead of version")
    number = _mask(mask)
    asked = octets, _checks.level(level), *versions, boost, number, manner
    if charset is not None:
        sets = _sets(is_text, marked, eci, charset)
        return _one(_asked.Text(*asked, sets), "the characters")
    if eci is None or is_text:
        return _one(_asked.Data(*asked), f"{len(octets):,} bytes")
    if min_version is not None or micro or boost or number:
        raise ValueError("bytes with eci: only level and version may be given too")
    return encode_segments([("eci", eci), ("byte", octets)], level, version)


def _manner(is_text: bool, marked: bool, eci: Optional[int]) -> int:
    """Returns how the library encodes the data: as bytes, text, or text marked as UTF-8."""
    if _checks.flag("marked", marked) and not is_text:
        raise TypeError("marked is only for a str; for bytes, eci=26 says that they are UTF-8")
    number = None if eci is None else _checks.whole("eci", eci, 0, MOST_SET, NoSuchNumber)
    if is_text and number not in (None, UTF_8):
        raise ValueError(f"eci={number} is for bytes: give data.encode(..) in that character set")
    return AS_MARKED_TEXT if marked or number else AS_TEXT if is_text else AS_BYTES


def _sets(is_text: bool, marked: bool, eci: Optional[int], charset: str) -> Tuple[int, ...]:
    """Returns the library's numbers of the character sets that may be used."""
    if not is_text:
        raise TypeError("charset is only for a str; for bytes, eci=7 says that they are ISO 8859-5")
    if marked or eci is not None:
        raise ValueError("charset, marked and eci: give one of them; charset='utf-8' marks UTF-8")
    return _checks.charset(charset)


def _versions(version: Optional[Version], least: Optional[Version], micro: bool) -> Tuple[int, int]:
    """Returns the version that is asked for, or 0, and the smallest to try."""
    asked = 0 if version is None else _checks.version(version)
    first = 1 if least is None else _checks.version(least)
    if _checks.flag("micro", micro) and max(asked, first) >= MICRO_1:
        name, value = ("version", version) if asked else ("min_version", least)
        raise ValueError(f"leave out micro: {name}={value!r} is Micro QR")
    if (version is not None) + (least is not None) + micro > 1:
        raise ValueError("version, min_version and micro: give one of them")
    return asked, MICRO_1 if micro else first


def _mask(mask: Optional[int]) -> int:
    return 0 if mask is None else 1 + _checks.whole("mask", mask, 0, 7, NoSuchMask)


def encode_text(text: str, level: str = "M", marked: bool = False,
                charset: Optional[str] = None) -> Symbol:
    """Encodes a str as `encode` does, but raises TypeError for bytes."""
    return encode(_checks.text("text", text), level, marked=marked, charset=charset)


@_checks.named
def encode_sequence(data: Data, level: str = "M", version: Optional[Version] = None, *,
                    count: Optional[int] = None, min_version: Optional[Version] = None,
                    max_version: Optional[Version] = None) -> List[Symbol]:
    """Splits a str or bytes over up to 16 symbols (structured append), which `join` joins again.

    Returns as few symbols as possible, in the smallest version that allows so few; or `count`
    symbols. All have `version`, or the same version of Normal QR from `min_version` to
    `max_version`. A single symbol has no header.

    Raises NoRoom if these symbols do not hold the data, and NoSuchVersion if a version is Micro QR,
    or `min_version` is above `max_version`.

    >>> encode_sequence("All that is gold does not glitter", "L", count=3)
    [<goqlanis.Symbol 1-L>, <goqlanis.Symbol 1-L>, <goqlanis.Symbol 1-L>]
    """
    octets, is_text = _checks.data(data)
    if version is not None and (min_version is not None or max_version is not None):
        raise ValueError("version with min_version or max_version: give one of them")
    least, most = (1 if min_version is None else min_version,
                   40 if max_version is None else max_version)
    first, last = (_checks.version(it if version is None else version) for it in (least, most))
    wanted = 0 if count is None else _checks.whole("count", count, 1, SEVERAL_MAX)
    asked = _asked.Parts(octets, _checks.level(level), min_version=first, max_version=last,
                         wanted=wanted, manner=AS_TEXT if is_text else AS_BYTES)
    answer, symbols = asked.answer()
    if answer:
        raise _refusals.of_parts(asked, answer)
    return symbols


@_checks.named
def encode_segments(segments: Segments, level: str = "M",
                    version: Optional[Version] = None) -> Symbol:
    """Encodes segments, one after another, in `version`, or in the smallest version of Normal QR
    that holds them.

    A segment is a pair: a mode and its bytes, e.g. `("numeric", b"..")`, also `"alphanumeric"`,
    `"byte"` or `"kanji"` (pairs of Shift JIS bytes); or a header: `("eci", 26)`,
    `("fnc1_first", None)` or `("fnc1_second", 37)`. A segment without bytes is left out.

    Raises NotInMode if the mode of a segment lacks one of its bytes, NoSuchNumber if the number of
    a header is out of range, NoMode if the version lacks a mode, and NoRoom if no version holds
    them.

    >>> encode_segments([("eci", 4), ("byte", "Živjo".encode("iso8859_2"))]).version
    '1'
    >>> encode_segments([("fnc1_first", None), ("numeric", b"0109501101530003")], "Q").version
    '1'
    """
    given = 0 if version is None else _checks.version(version)
    return _one(_asked.Segments(_listed(segments), _checks.level(level), given), "the segments")


def _listed(segments: Segments) -> List[Segment]:
    given = _checks.listed("segments", segments, "pairs, e.g. ('byte', b'..')")
    return [_segment(f"segment {at + 1}", it) for at, it in enumerate(given)]


def _segment(name: str, given: Any) -> Segment:
    if not isinstance(given, (tuple, list)) or len(given) != 2:
        raise TypeError(f"{name} is a pair, e.g. ('byte', b'..') or ('eci', 26), not "
                        f"{_checks.shown(given)}")
    kind, value = given
    if not isinstance(kind, str) or kind not in KINDS:
        raise ValueError(f"{name}: no kind {_checks.shown(kind)}: take one of {', '.join(KINDS)}")
    at = KINDS[kind]
    if kind in MODES:
        codec = "'shift_jis'" if kind == "kanji" else ""
        data = _checks.binary(f"{name}: the data of {_checks.shown(kind)}", value, codec)
        return Segment(at, 0, data, len(data))
    if at in (ECI, FNC1_SECOND):
        most = MOST_SET if at == ECI else 255
        what = f"{name}: the number of {kind}"
        return Segment(at, _checks.whole(what, value, 0, most, NoSuchNumber), b"", 0)
    if value is not None:
        raise TypeError(f"{name} is ('fnc1_first', None), not {_checks.shown(given)}")
    return Segment(at, 0, b"", 0)


@_checks.named
def encode_gs1(elements: Elements, level: str = "M", version: Optional[Version] = None, *,
               min_version: Optional[Version] = None, mask: Optional[int] = None) -> Symbol:
    """Encodes GS1 elements, as `contents.gs1` takes them, in the smallest symbol, or in `version`.

    `min_version` and `mask` are as for `encode`. Raises a subclass of `contents.WrongField` for a
    wrong element, and NoRoom if no such symbol holds the elements; Micro QR holds none.

    >>> encode_gs1([("01", "03453120000011"), ("17", "191125"), ("10", "ABCD1234")]).version
    '2'
    """
    given, versions = elements_of(elements), _versions(version, min_version, False)
    string_of(given)
    return _one(_asked.Elements(given, _checks.level(level), *versions, mask=_mask(mask)),
                "the elements")


def smallest_version(data: Data, level: str = "M") -> str:
    """Returns the smallest version of Normal QR that holds a str or bytes at a level."""
    return encode(data, level).version


def smallest_version_of_segments(segments: Segments, level: str = "M") -> str:
    """Returns the smallest version of Normal QR that holds segments, as `encode_segments` takes
    them, at a level.
    """
    return encode_segments(segments, level).version


def smallest_scale(dpi: int) -> int:
    """Returns the fewest pixels per module with which a print of `dpi` dots per inch has the 0.25 mm
    per module that many readers need.

    >>> symbol, scale = encode("https://example.org"), smallest_scale(300)
    >>> symbol.save("code.png", scale=scale, dpi=300)
    >>> print(f"{(symbol.width + 2 * symbol.quiet_zone) * scale / 300 * 25.4:.1f} mm")
    8.4 mm
    """
    return -(-_checks.whole("dpi", dpi, 1, 65535) * 25 // 2540)


def is_functional(version: Version, x: int, y: int) -> bool:
    """Returns whether the module in column x and row y of a version belongs to a pattern or to the
    format information; False if the version has no such module.
    """
    number, most = _checks.version(version), 2**63
    x, y = _checks.whole("x", x, -most, most), _checks.whole("y", y, -most, most)
    width = library.goq_width(number)
    inside = 0 <= x < width and 0 <= y < width
    return inside and bool(library.goq_is_functional(number, x, y))
