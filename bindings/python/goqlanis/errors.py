"""The exceptions of the package, one for each reason."""
import pkgutil
from typing import Dict, List, Tuple, Type

from . import _numbers as goq

__all__ = ["Error", "NoSuchLevel", "NoSuchVersion", "LevelNotInVersion", "TooLong", "NoMode",
           "NoRoom", "NoSuchMask", "NoSuchSet", "NotInSet", "OutOfMemory", "NoSuchSize",
           "NotInFormat", "NotInMode",
           "NoSuchNumber", "Unread", "NoSuchSide", "NoFormat", "Damaged", "NotSpelled", "NotShown",
           "NotJoined", "NoSuchArea", "AreaTooLarge", "NotPicture", "BrokenPicture", "NoSquare",
           "NoSuchColour", "NoSuchKind", "TooMuchDamage"]


class Error(Exception):
    """The base class of all errors of the library; the message says what would help."""


class WrongField(Error, ValueError):
    """The format cannot express a field: `field` is its name, or `text` for the whole text."""

    why = "the format cannot say it"

    def __init__(self, field: str, said: str = ""):
        super().__init__(field, said)
        self.field, self.said = field, said

    def __str__(self) -> str:
        return self.said or f"{self.field}: {self.why}"


class NoSuchLevel(Error, ValueError):
    """The level is not L, M, Q or H."""


class NoSuchVersion(Error, ValueError):
    """The version is not 1 to 40 or M1 to M4, or does not suit the call."""


class LevelNotInVersion(Error, ValueError):
    """The version does not have the level."""


class TooLong(WrongField):
    """A field is longer than the format allows, or data is more than 1,048,576 bytes."""


class NoMode(Error, ValueError):
    """The data needs a mode that the version does not have."""


class NoRoom(Error, ValueError):
    """No symbol of the requested kind holds the data."""


class NoSuchMask(Error, ValueError):
    """The version has no mask with this number."""


class NoSuchSet(Error, ValueError):
    """No character set has this name."""


class NotInSet(Error, ValueError):
    """The character set lacks a character of the text."""


class OutOfMemory(Error, MemoryError):
    """Memory ran out."""


class NoSuchSize(Error, ValueError):
    """The scale or the quiet zone is out of range, or the picture would be too large."""


class NotInFormat(Error, ValueError):
    """The format does not have such colours, characters, dots per inch, a title or logos."""


class NoSuchColour(Error, ValueError):
    """A colour is unknown, or dark and light are the same."""


class NoSuchKind(Error, ValueError):
    """Neither the file extension nor `kind` names a format."""


class NotInMode(Error, ValueError):
    """The mode of a segment lacks one of its bytes."""


class NoSuchNumber(Error, ValueError):
    """The number of a character set is not 0 to 999,999, or that of an application not 0 to 255."""


class Unread(Error, ValueError):
    """A square of modules, or a picture, cannot be read."""


class NoSuchSide(Unread):
    """No version has this many modules."""


class NoFormat(Unread):
    """No level and mask have format information within three bits of each copy."""


class Damaged(Unread):
    """A block has too many wrong codewords."""


class NotSpelled(Unread):
    """The data bits are not segments and a terminator, e.g. because they begin with a header."""


class NotShown(Unread):
    """The data bits are not text that readers show."""


class NotPicture(Unread):
    """A file is not a PNG, PBM or PGM file, nor half blocks."""


class BrokenPicture(Unread):
    """A picture is truncated, damaged, interlaced or too large."""


class NoSquare(Unread):
    """A picture shows no code."""


class NotJoined(Error, ValueError):
    """Symbols, squares or pictures are not all the parts of one sequence."""


class NoSuchArea(Error, ValueError):
    """An area has no rectangle, or one that is not inside the symbol."""


class AreaTooLarge(Error, ValueError):
    """An area takes more of the symbol than may be lost."""


class TooMuchDamage(Error, ValueError):
    """A symbol has fewer codewords or bits than shall be wrong."""


def _tables() -> List[List[List[str]]]:
    """Returns the tables of messages.txt: the rows of each, and the parts of a row."""
    text = (pkgutil.get_data("goqlanis", "messages.txt") or b"").decode()
    return [[row.split(" | ") for row in part.splitlines() if " | " in row]
            for part in text.split("\n# ")]


ANSWERS, FIELDS, FORMS, RANGES, INSTEAD = _tables()
_CAUSES: Dict[int, Tuple[Type[Error], str]] = {
    getattr(goq, answer): (globals()[name], said) for answer, name, said in ANSWERS}

# Tracebacks show them under the name by which the package exports them.
for _name in __all__:
    globals()[_name].__module__ = "goqlanis"


def refusal(answer: int, text: str = "", of: str = "") -> Error:
    """Returns the exception for an answer of the library, with the message `text` or the usual one,
    after `of`, which says what is wrong."""
    kind, usual = _CAUSES.get(answer, (Error, f"answer {answer} of the library"))
    said = of + (text or usual)
    return TooLong("data", said) if kind is TooLong else kind(said)


def refuse(answer: int, of: str = "") -> None:
    """Raises the exception for an answer of the library, unless that is success."""
    if answer:
        raise refusal(answer, of=of)
