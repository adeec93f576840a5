"""Checks of arguments, before the library sees them."""
import functools
import inspect
import numbers
import operator
from typing import Any, Callable, Iterable, List, Optional, Tuple, TypeVar

from ._numbers import CHARSETS, STRUCTS
from .errors import INSTEAD, NoSuchLevel, NoSuchSet, NoSuchVersion

Call = TypeVar("Call", bound=Callable[..., Any])
# The names of arguments in other packages, and what to use here.
OTHERS = {name: here for names, here in INSTEAD for name in names.split()}
# The options that all methods take that draw.
LOOK = ("border", "dark", "light", "dpi", "size", "title")
# Those of them that are colours of parts, in the order of the library's struct.
PARTS = tuple(STRUCTS["goq_drawing"].split()[7:])
LEVELS = "LMQH"
BINARY = (bytes, bytearray, memoryview)


def cut(said: str) -> str:
    """Returns the first 40 characters of what a message quotes."""
    return said if len(said) <= 40 else f"{said[:38]}.."


def shown(value: Any, write: Callable[[Any], str] = repr) -> str:
    """Returns a value as Python writes it, cut to 40 characters."""
    try:
        return cut(write(value))
    except ValueError:  # Python writes no int of more than 4,300 digits.
        return "a number of thousands of digits"


def named(call: Call) -> Call:
    """Wraps a call so that it says what to use instead of an argument that it does not have."""
    known = list(inspect.signature(call).parameters)
    draws = known[-1] == "look"
    known = [*known[:-1], *LOOK] if draws else known

    @functools.wraps(call)
    def checked(*given: Any, **more: Any) -> Any:
        for name in more:
            if name not in known and not (draws and name in PARTS):
                helps = f"take {OTHERS[name]}" if name in OTHERS else \
                    "it takes " + ", ".join(it for it in known if it != "self") + \
                    f", {PARTS[0]} .. {PARTS[-1]}" * draws
                raise TypeError(f"{call.__name__} has no argument {shown(name)}: {helps}")
        return call(*given, **more)
    return checked  # type: ignore[return-value]


def whole(name: str, value: Any, least: int, most: int,
          error: Callable[[str], Exception] = ValueError) -> int:
    """Returns a whole number in a range. Those of numpy are accepted; True and 2.0 are not."""
    number = index(value)
    if number is None:
        near = _whole_of(value)
        helps = f": take {near}" if near is not None and least <= near <= most else ""
        raise TypeError(f"{name} is a whole number from {least:,} to {most:,}, not {shown(value)}"
                        f"{helps}")
    if not least <= number <= most:
        raise error(f"{name} is a whole number from {least:,} to {most:,}, not "
                    f"{shown(number, '{:,}'.format)}")
    return number


def index(value: Any) -> Optional[int]:
    """Returns the value as a whole number, or None; numpy has bools of its own."""
    try:
        return None if "bool" in type(value).__name__ else operator.index(value)
    except TypeError:
        return None


def _whole_of(value: Any) -> Optional[int]:
    """Returns the whole number to give instead of a value, if there is one."""
    if isinstance(value, float) and abs(value) < 2**53:
        return round(value)
    if isinstance(value, str) and value.strip().isdecimal() and len(value) < 40:
        return int(value)
    return None


def flag(name: str, value: Any) -> bool:
    if not isinstance(value, bool):
        raise TypeError(f"{name} is True or False, not {shown(value)}")
    return value


def text(name: str, value: Any) -> str:
    if isinstance(value, str):
        return str.__str__(value)
    if isinstance(value, BINARY):
        raise TypeError(f"{name} is a str, not bytes: take {name}.decode()")
    helps = "take '', or leave it out" if value is None else "take str(..)"
    raise TypeError(f"{name} is a str, not {shown(value)}: {helps}")


def exact(value: Any) -> bytes:
    """Returns plain bytes, since the length that a subclass states may be wrong."""
    return value if type(value) is bytes else memoryview(value).tobytes()


def binary(name: str, value: Any, codec: str = "") -> bytes:
    """Returns the value as bytes, which it must be; `codec` is what a str lacks, if not UTF-8."""
    if isinstance(value, BINARY):
        return exact(value)
    if isinstance(value, str):
        raise TypeError(f"{name} is bytes, not a str: take {value[:20]!r}.encode({codec})")
    raise TypeError(f"{name} is bytes, not {_typed(value)}{_bytes_of(value)}")


def data(value: Any) -> Tuple[bytes, bool]:
    """Returns data as bytes, and whether it is a str."""
    if isinstance(value, str):
        return str.encode(value), True
    if isinstance(value, BINARY):
        return exact(value), False
    raise TypeError(f"data is a str or bytes, not {_typed(value)}{_bytes_of(value)}")


def _typed(value: Any) -> str:
    """Returns a value with its type, for a message."""
    return "None" if value is None else f"the {type(value).__name__} {shown(value)}"


def _bytes_of(value: Any) -> str:
    """Says how to make data of a value, if there is a way."""
    if isinstance(value, numbers.Number):
        return f": take str({shown(value, str)})"
    if hasattr(value, "read_bytes"):
        return ": take str(..) for the path, or .read_bytes() for what is in the file"
    if hasattr(value, "read"):
        return ": take .read()"
    if isinstance(value, (list, tuple, set, range)):
        return ": take bytes(..) for numbers from 0 to 255, encode_segments for segments"
    return "" if value is None else ": take str(..) or bytes(..)"


def level(value: Any) -> int:
    if not isinstance(value, str):
        raise TypeError(f"level is one of 'L', 'M', 'Q' and 'H', not {shown(value)}")
    if len(value) != 1 or value.upper() not in LEVELS:
        raise NoSuchLevel(f"no level {shown(value)}: take L, M, Q or H")
    return LEVELS.index(value.upper())


def charset(value: Any) -> Tuple[int, ...]:
    """Returns the library's number of a character set, or nothing for the shortest."""
    name = text("charset", value).lower().replace("_", "-")
    name = name.replace("iso8859", "iso-8859").replace("utf8", "utf-8")
    if name == "shortest":
        return ()
    if name not in CHARSETS:
        raise NoSuchSet(f"no charset {shown(value)}: take 'shortest', 'utf-8', 'shift-jis', "
                        "'iso-8859-1' to 'iso-8859-16', without 12, or 'windows-1250', -1251, "
                        "-1252 or -1256")
    return CHARSETS[name],


def version(value: Any) -> int:
    """Returns the library's number of a version, which is a str or, for Normal QR, a number."""
    name = value if isinstance(value, str) else shown(index(value), str)
    if name == "None":
        raise TypeError(f"a version is '1' to '40' or 'M1' to 'M4', not {shown(value)}")
    is_micro = name[:1] in ("M", "m")
    digits, most = (name[1:], 4) if is_micro else (name, 40)
    number = int(digits) if digits.isascii() and digits.isdigit() and len(digits) < 3 else 0
    if not 1 <= number <= most:
        raise NoSuchVersion(f"no version {shown(value)}: take 1 to 40 or M1 to M4")
    return 40 + number if is_micro else number


def _compared(holds: Callable[[int, int], bool]) -> Callable[[Any, Any], Any]:
    """Returns a comparison of versions by size."""
    def compare(self: Any, other: Any) -> Any:
        return holds(_rank(self), _rank(other)) if isinstance(other, str) else NotImplemented
    return compare


def _rank(name: str) -> int:
    """Returns the place of a version in the order M1 to M4, 1 to 40."""
    number = version(name)
    return number - 44 if number > 40 else number


class Version(str):
    """The name of a version, "1" to "40" or "M1" to "M4": a str that sorts by size.

    >>> Version("9") < "10", max(Version("M4"), Version("1")), Version("7") == "7"
    (True, '1', True)
    """
    __slots__ = ()
    __lt__, __le__ = _compared(operator.lt), _compared(operator.le)
    __gt__, __ge__ = _compared(operator.gt), _compared(operator.ge)


def version_name(number: int) -> Version:
    return Version(number) if number <= 40 else Version(f"M{number - 40}")


def listed(name: str, value: Any, of: str) -> List[Any]:
    """Returns the items of an iterable, which must not be a str or bytes."""
    if isinstance(value, (str, *BINARY)) or not isinstance(value, Iterable):
        raise TypeError(f"{name}: a list of {of}, not {_typed(value)}")
    return list(value)
