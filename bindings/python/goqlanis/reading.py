"""Reads squares of modules, and pictures."""
import ctypes
import functools
import io
import operator
import os
import struct
import sys
import warnings
import zlib
from typing import (Any, IO, Iterable, Iterator, List, NamedTuple, Optional, Sequence, Tuple, Union,
                    overload)

from . import _checks, errors
from . import _numbers as goq
from ._checks import LEVELS, version_name
from ._library import AnyRead, MissedCode, Read, Scan, Square, library
from ._library import Code as KnownCode
from ._library import Part as KnownPart
from ._numbers import BYTES_MAX, PARTS_MAX, SEVERAL_MAX
from .encoding import KINDS
from .errors import NoSuchSide, NotJoined, refusal, refuse
from .symbol import Symbol

HEADED = ("the data begins with a header, of structured append, GS1 or a character set other than "
          "UTF-8: join reads the first; read(code.png()) reads the others")
# Answers after which another call may read the square, unless there is such a header.
OTHERS = {goq.NOT_SPELLED: library.goq_read_text, goq.NOT_SHOWN: library.goq_read}
# The most bytes of a picture that the library reads, how each of several pictures in a file begins,
# and what else `read` takes.
MOST_PICTURE = 67_108_864
ONE_OF_MANY = b"P1", b"P4", b"P5"
PICTURES = "rows of modules, a Symbol, or a picture: a path, bytes or an open file"
# The colour types of PNG, by how many numbers a pixel has.
COLOUR_TYPES = {(1,): 0, (3,): 2, (4,): 6}
ARRAY = ("an array is a picture if it has rows, columns and 1, 3 or 4 numbers of uint8, 0 to 255; "
         "or modules, each True or False")
# How formats of numbers begin whose bytes are not in the order of this machine.
SWAPPED = ">!" if sys.byteorder == "little" else "<"
Modules = Union[Symbol, Sequence[Sequence[bool]]]
Picture = Union[str, bytes, bytearray, memoryview, "os.PathLike[str]", IO[bytes]]
# The kinds of parts by their numbers.
PARTS = {**{number: name for name, number in KINDS.items()}, goq.ONE_OF_SEVERAL: "one_of_several"}
# The positions in the order of their numbers.
POSITIONS = ("upright", "rotated left", "upside down", "rotated right", "mirrored", "flipped",
             "transposed", "antitransposed")


class Reading(NamedTuple):
    """A decoded square: its data, version and level, the number of its mask, and how many codewords
    were wrong and corrected.

    >>> read(encode("01234567"))
    Reading(data=b'01234567', version='1', level='M', mask=2, wrong=0)
    """
    data: bytes
    version: str
    level: str
    mask: int
    wrong: int


class AnyReading(NamedTuple):
    """A decoded square in any position: a `Reading`, the position, and whether dark and light are
    swapped.

    The position is "upright", "rotated left" (by 90 degrees), "upside down", "rotated right",
    "mirrored" (left and right swapped), "flipped" (top and bottom swapped), "transposed" (columns
    and rows swapped) or "antitransposed" (the same along the other diagonal).

    >>> read_any([[not dark for dark in row] for row in encode("01234567").matrix])[5:]
    ('upright', True)
    """
    data: bytes
    version: str
    level: str
    mask: int
    wrong: int
    position: str
    is_inverted: bool


class Part(NamedTuple):
    """A header or a segment of a code. What it does not have is None.

    - `kind`: as for `encode_segments`, or "one_of_several" (structured append);
    - `number`: for "eci" the character set; for "fnc1_second" the application: two digits as their
      number, a letter as its code plus 100; for "one_of_several" the parity of the whole data;
    - `place`, `symbols`: for "one_of_several" which symbol it is, from 0, and how many there are;
    - `length`: for a segment, how many bytes it has.

    >>> symbol = encode_segments([("fnc1_second", 37), ("numeric", b"0123")])
    >>> [(part.kind, part.number, part.length) for part in read(symbol.png())[0].parts]
    [('fnc1_second', 37, None), ('numeric', None, 4)]
    """
    kind: str
    number: Optional[int] = None
    place: Optional[int] = None
    symbols: Optional[int] = None
    length: Optional[int] = None


class Code(NamedTuple):
    """A code in a picture: as an `AnyReading`, and its headers and segments in order (`parts`).
    After FNC1, `data` has a separator (byte 29) between elements.

    >>> symbol = encode_gs1([("10", "ABCD1234"), ("17", "191125")])
    >>> code = read(symbol.png())[0]
    >>> code.data, code.level, code.position, code.parts[0].kind
    (b'10ABCD1234\\x1d17191125', 'M', 'upright', 'fnc1_first')
    """
    data: bytes
    version: str
    level: str
    mask: int
    wrong: int
    position: str
    is_inverted: bool
    parts: Tuple[Part, ...]

    @property
    def text(self) -> Optional[str]:
        """The data as a str: in UTF-8, or in the character sets that ECI headers name (those of
        `encode`). None if it is in none of these, or has a Kanji segment without ECI 20.
        """
        numbers = {name: number for number, name in PARTS.items()}
        parts = [KnownPart(numbers[it.kind], it.number or 0, length=it.length or 0)
                 for it in self.parts]
        out, count = ctypes.create_string_buffer(3 * len(self.data) + 1), ctypes.c_size_t()
        answer = library.goq_text(self.data, len(self.data), (KnownPart * len(parts))(*parts),
                                  len(parts), out, len(out), ctypes.byref(count))
        if answer == goq.NOT_IN_SET:
            return None
        refuse(answer)
        return out.raw[:count.value].decode()


@overload
def read(picture: Modules) -> Reading: ...
@overload
def read(picture: Picture) -> List[Code]: ...
def read(picture: Union[Picture, Modules, Any]) -> Union[List[Code], Reading]:
    """Returns the codes in a picture, or what a single symbol or square says.

    A picture is a path, the bytes of a file, an open file or a Pillow image: PNG, PBM, PGM or half
    blocks; or an array of pixels, as of numpy: rows, columns and 1, 3 or 4 numbers of uint8. Its
    codes are listed from top to bottom, and from left to right if they are side by side. Of more
    than 64 codes in a picture some may be missed. A PBM or PGM file may have several pictures,
    which are read in order. For a symbol, or for rows of modules without a quiet zone, each True or
    1 if it is dark, the result is a single `Reading`.

    Raises a subclass of Unread if nothing can be read, and OSError if a file cannot be opened. A
    UserWarning tells which of several pictures have nothing.

    >>> encode("https://example.org").save("a.png", scale=4)
    >>> [(code.text, code.version, code.level) for code in read("a.png")]
    [('https://example.org', '2', 'M')]
    >>> rows = [list(row) for row in encode(b"01234567", "H").matrix]
    >>> rows[20][20] = not rows[20][20]
    >>> found = read(rows)
    >>> found.data, found.version, found.level, found.wrong
    (b'01234567', '1', 'H', 1)
    """
    file = _file_of(picture)
    if file is not None:
        return _found(file, _codes)
    modules, out, found = _modules_of(picture, PICTURES), _bytes(), Read()
    _refuse(library.goq_read(modules, len(modules), out, len(out), ctypes.byref(found)), modules)
    return _reading(out, found)


class Missed(NamedTuple):
    """A square in a picture that looks like a code but does not decode: how many modules a side
    has, the pixel column and row of its upper left corner, and why, e.g. Damaged."""
    width: int
    left: int
    top: int
    why: errors.Error


def missed(picture: Picture) -> List[Missed]:
    """Returns the squares in a picture that look like codes but do not decode, next to those that
    `read` returns.

    Raises a subclass of Unread if no code decodes.
    """
    file = _file_of(picture)
    if file is None:
        raise TypeError(f"missed takes {PICTURES.partition(', or ')[2]}")
    return _found(file, _missed)


def _pictures(file: bytes, of: str = "") -> List[Tuple[bytes, str]]:
    """Returns the pictures in a file, each with what messages on it begin with."""
    if len(file) > MOST_PICTURE:
        raise refusal(goq.LARGE_PICTURE, of=of)
    start, ends = ctypes.cast(file, ctypes.c_void_p).value or 0, [0]
    while ends == [0] or file.startswith(ONE_OF_MANY, ends[-1]):
        at = ends[-1]
        ends.append(at + library.goq_picture_length(start + at, len(file) - at))
    if ends[-1] < len(file):
        warnings.warn(f"{of}the file has data after its picture, which is ignored", stacklevel=4)
    if len(ends) == 2:
        return [(file[:ends[1]], of)]
    return [(file[at:end], f"{of}picture {number}: ")
            for number, (at, end) in enumerate(zip(ends, ends[1:]), 1)]


def _found(file: bytes, find: Any) -> List[Any]:
    """Returns what is found in all pictures; warns of those that are not read if others are."""
    pictures, found, failures = _pictures(file), [], []
    for picture in pictures:
        try:
            found.extend(find(*picture))
        except errors.Unread as error:
            failures.append(error)
    if len(failures) == len(pictures):
        raise failures[0]
    for error in failures:
        warnings.warn(str(error), stacklevel=3)
    return found


def _missed(picture: bytes, of: str) -> List[Missed]:
    """Returns the squares in one picture; makes room for more of them until there is enough."""
    room, count, answer = 4, ctypes.c_size_t(), goq.SMALL_BUFFER
    while answer == goq.SMALL_BUFFER:
        found = (MissedCode * room)()
        answer = library.goq_missed(picture, len(picture), found, room, ctypes.byref(count))
        room *= 8
    _refuse_picture(answer, of)
    return [Missed(it.width, it.left, it.top, refusal(it.why)) for it in found[:count.value]]


def _codes(picture: bytes, of: str) -> Iterator[Code]:
    """Yields the codes of a picture; makes room for more of them until there is enough."""
    count, answer = 4, goq.SMALL_BUFFER
    while answer == goq.SMALL_BUFFER:
        codes, parts = (KnownCode * count)(), (KnownPart * (count * PARTS_MAX))()
        out, scan = _bytes(count), Scan(ctypes.sizeof(Scan))
        answer = library.goq_read_picture(picture, len(picture), codes, len(codes), parts,
                                          len(parts), out, len(out), ctypes.byref(scan))
        count *= 8
    _refuse_picture(answer, of)
    said, data = iter(parts[:scan.parts]), io.BytesIO(out[:scan.length])
    for code in codes[:scan.codes]:
        own = tuple(_part(next(said)) for _ in range(code.parts))
        found = _reading(data.read(code.reading.length), code.reading)
        yield Code(*found, *_position(code.position), own)


def _refuse_picture(answer: int, of: str = "") -> None:
    """Raises the exception for an answer on a picture, unless that is success."""
    if answer == goq.NO_SUCH_SIDE:
        raise refusal(answer, "the picture shows no code: what it shows is not the size of a code",
                      of)
    refuse(answer, of)


def _part(part: KnownPart) -> Part:
    if part.kind == goq.ONE_OF_SEVERAL:
        return Part(PARTS[part.kind], part.number, part.place, part.symbols)
    if part.kind in (goq.ECI, goq.FNC1_SECOND):
        return Part(PARTS[part.kind], part.number)
    return Part(PARTS[part.kind], length=None if part.kind == goq.FNC1_FIRST else part.length)


def _file_of(given: Any) -> Optional[bytes]:
    """Returns the bytes of a picture, or None if `given` is not a picture."""
    if isinstance(given, _checks.BINARY):
        return _checks.exact(given)
    if isinstance(given, (str, os.PathLike)):
        with open(given, "rb") as file:
            return file.read(MOST_PICTURE + 1)
    if hasattr(given, "read"):
        if hasattr(given, "encoding"):
            raise TypeError("the file is open for text: open it with 'rb'")
        return _checks.binary("what the file gives", given.read())
    if hasattr(given, "save") and hasattr(given, "mode"):
        out = io.BytesIO()
        plain = given if given.mode in ("1", "L", "RGB", "RGBA") else given.convert("RGBA")
        plain.save(out, "PNG")
        return out.getvalue()
    return _file_of_array(given)


def _array(given: Any) -> Optional[memoryview]:
    """Returns an array of two or three dimensions, e.g. of numpy, or None for anything else."""
    try:
        view = memoryview(given)
    except TypeError:
        return None
    except (BufferError, ValueError):  # such as dates of numpy
        raise TypeError(f"{ARRAY}; not {_checks.shown(given)}") from None
    if view.ndim != 1 and 0 in (view.ndim, *view.shape):
        raise _no_array(view)
    return view if view.ndim > 1 else None


def _no_array(view: memoryview) -> TypeError:
    """Returns the error for an array that is neither a picture nor modules."""
    return TypeError(f"{ARRAY}; this one has the shape {_checks.shown(view.shape)}, of the type "
                     f"{_checks.shown(view.format)}")


def _form(view: memoryview) -> str:
    """Returns the type of the numbers of an array."""
    return view.format.lstrip("<>=@!")


def _file_of_array(given: Any) -> Optional[bytes]:
    """Returns a PNG file of an array of pixels, or None for anything else. Truth values, and whole
    numbers that are 0 or 1, are modules."""
    view = _array(given)
    if view is None:
        return None
    form, data, depth = _form(view), view.tobytes(), view.shape[2:] or (1,)
    if view.ndim == 2 and (form in "?bhilqHILQ" or form == "B" and max(data, default=0) <= 1):
        return None
    if form != "B" or depth not in COLOUR_TYPES:
        raise _no_array(view)
    down, across = view.shape[:2]
    size = across * depth[0]
    rows = b"".join(b"\0" + data[at * size:(at + 1) * size] for at in range(down))
    head = struct.pack(">IIBBBBB", across, down, 8, COLOUR_TYPES[depth], 0, 0, 0)
    parts = ((b"IHDR", head), (b"IDAT", zlib.compress(rows, 1)), (b"IEND", b""))
    return b"\x89PNG\r\n\x1a\n" + b"".join(
        struct.pack(">I", len(body)) + name + body + struct.pack(">I", zlib.crc32(name + body))
        for name, body in parts)


def read_any(square: Modules) -> AnyReading:
    """Returns the data of a square of modules that may be rotated, mirrored or inverted.

    Raises Unread if it cannot be read in any position.
    """
    modules, out, found = _modules_of(square), _bytes(), AnyRead()
    refuse(library.goq_read_any(modules, len(modules), out, len(out), ctypes.byref(found)))
    return AnyReading(*_reading(out, found.reading), *_position(found.position))


def read_text(square: Modules) -> str:
    """Returns the text that readers show for a square, e.g. the str that `encode` encoded.

    Raises NotShown if the data is not such a text, and another subclass of Unread if the square
    cannot be read.
    """
    modules, out, found = _modules_of(square), _bytes(), Read()
    answer = library.goq_read_text(modules, len(modules), out, len(out), ctypes.byref(found))
    _refuse(answer, modules)
    return bytes(out[:found.length]).decode()


def join(squares: Iterable[Union[Modules, Picture]]) -> bytes:
    """Joins the data of symbols that `encode_sequence` made, in any order, or of their pictures, as
    `read` takes them.

    Raises NotJoined if they are not all the parts of one sequence, and a subclass of Unread if one
    cannot be read.

    >>> join(encode_sequence(b"01234567", count=2)[::-1])
    b'01234567'
    """
    found = _checks.listed("squares", squares, "symbols, squares or pictures")
    files = [_file_of(it) for it in found]
    if any(file is not None for file in files):
        pictures = [_pictures(_symbol(it).png() if file is None else file, f"square {at + 1}: ")
                    for at, (it, file) in enumerate(zip(found, files))]
        return _joined([code for own in pictures for it in own for code in _codes(*it)])
    given = list(map(_modules_of, found))
    rows = (Square * len(given))(*(Square(it, len(it)) for it in given))
    out, count, place = _bytes(SEVERAL_MAX), ctypes.c_size_t(), ctypes.c_size_t()
    answer = library.goq_join(rows, len(rows), out, len(out), ctypes.byref(count),
                              ctypes.byref(place))
    if isinstance(refusal(answer), NotJoined):
        raise _not_joined(answer, place.value)
    refuse(answer, f"square {place.value + 1}: ")
    return bytes(out[:count.value])


def _symbol(given: Any) -> Symbol:
    if not isinstance(given, Symbol):
        raise TypeError(f"squares: symbols and pictures, or squares, not {_checks.shown(given)}")
    return given


def _joined(codes: List[Code]) -> bytes:
    """Joins the data of codes, each of which begins with the header of one of several symbols."""
    heads = [code.parts[0] if code.parts else Part("") for code in codes]
    for at, head in enumerate(heads):
        if head.kind != PARTS[goq.ONE_OF_SEVERAL]:
            raise _not_joined(goq.NOT_SEVERAL, at)
        is_beyond = (head.place or 0) >= (head.symbols or 0)
        if is_beyond or (head.number, head.symbols) != (heads[0].number, heads[0].symbols):
            raise _not_joined(goq.STRANGER, at)
    places = [head.place for head in heads]
    for place in range(heads[0].symbols or 0):
        if places.count(place) != 1:
            raise _not_joined(goq.TWICE if place in places else goq.MISSING, place)
    data = b"".join(codes[at].data for at in sorted(range(len(codes)), key=places.__getitem__))
    if functools.reduce(operator.xor, data, 0) != heads[0].number:
        raise _not_joined(goq.PARITY, 0)
    return data


def _not_joined(answer: int, place: int) -> NotJoined:
    return NotJoined(str(refusal(answer)).replace("#", f"{place + 1}"))


def _bytes(count: int = 1) -> Any:
    return ctypes.create_string_buffer(count * BYTES_MAX)


def _refuse(answer: int, modules: bytes) -> None:
    """Raises the error that an answer stands for, and says what reads the modules."""
    other = OTHERS.get(answer)
    if other and other(modules, len(modules), _bytes(), BYTES_MAX, ctypes.byref(Read())):
        raise errors.refusal(answer, HEADED)
    refuse(answer)


def _reading(out: Any, found: Read) -> Reading:
    return Reading(out[:found.length], version_name(found.version), LEVELS[found.level],
                   found.mask, found.wrong)


def _position(number: int) -> Tuple[str, bool]:
    is_inverted, position = divmod(number, len(POSITIONS))
    return POSITIONS[position], bool(is_inverted)


def _modules_of(square: Modules, of: str = "rows of modules, or a Symbol") -> bytes:
    """Returns the modules of a square, a byte each."""
    if isinstance(square, Symbol):
        return square.modules
    if isinstance(square, (str, *_checks.BINARY, os.PathLike)) or hasattr(square, "read") or \
            _file_of_array(square) is not None:
        raise TypeError("square is a Symbol, or rows of modules, each True or False, not "
                        f"{_checks.shown(square)}: read reads pictures")
    view = _array(square)
    given = _checks.listed("square", square, of) if view is None else _rows_of(view)
    rows = [_row(f"row {at + 1} of the square", it) for at, it in enumerate(given)]
    if any(len(row) != len(rows) for row in rows):
        raise NoSuchSide(f"{len(rows)} rows, and not all of them have {len(rows)} modules")
    return b"".join(rows)


def _rows_of(view: memoryview) -> List[List[Any]]:
    step, across = -1 if view.format[0] in SWAPPED else 1, view.shape[1]
    numbers = memoryview(view.tobytes()[::step]).cast(_form(view)).tolist()[::step]
    return [numbers[at:at + across] for at in range(0, len(numbers), across)]


def _row(name: str, given: Any) -> bytes:
    if isinstance(given, str) or not isinstance(given, Iterable):
        raise TypeError(f"{name} is a list of True and False, not {_checks.shown(given)}")
    modules = list(given)
    if any(module not in (0, 1) for module in modules):
        raise ValueError(f"{name} has something other than True or 1 (dark) and False or 0 "
                         "(light)")
    return bytes(map(bool, modules))
