"""Error messages for data that is rejected: what is wrong, why, and what would help."""
from dataclasses import replace
from typing import Any, Union

from ._asked import SETS, Data, Parts, Segments, Text
from ._checks import LEVELS, version_name
from ._numbers import (AS_MARKED_TEXT, LEVEL_NOT_IN_VERSION, NO_MODE, NO_ROOM, NO_SUCH_MASK,
                       NO_SUCH_VERSION, NOT_IN_MODE, NOT_IN_SET, TOO_LONG)
from .errors import Error, refusal

LIMIT = 1_048_576
MODES = ("numeric holds only digits",
         "alphanumeric holds only digits, capitals, spaces and $%*+-./:", "",
         "kanji holds only Shift JIS, 8140 to 9ffc and e040 to ebbf")


def of(asked: Any, answer: int, said: str) -> Error:
    """Returns the error for a symbol; its message calls the data `said`."""
    texts = {LEVEL_NOT_IN_VERSION: _no_level, NO_MODE: _no_mode, NOT_IN_MODE: _not_in_mode,
             NO_SUCH_MASK: _no_mask, NOT_IN_SET: _not_in_set}
    is_refused = answer in (LEVEL_NOT_IN_VERSION, NO_MODE, NO_ROOM)
    if is_refused and isinstance(asked, (Data, Text)) and asked.version and len(asked.given) > LIMIT:
        return refusal(TOO_LONG)
    if answer == NO_ROOM:
        return refusal(answer, _no_room(asked, said))
    return refusal(answer, texts[answer](asked) if answer in texts else "")


def _no_level(asked: Any) -> str:
    levels = {41: "only L", 44: "L, M and Q"}.get(asked.version, "L and M")
    return (f"version {version_name(asked.version)} has no level {LEVELS[asked.level]}; "
            f"it has {levels}")


def _no_mode(asked: Any) -> str:
    name = version_name(asked.version)
    if isinstance(asked, Segments) and any(row.kind >= len(MODES) for row in asked.given):
        return f"version {name} has no headers, like all of Micro QR; take 1 to 40"
    if isinstance(asked, Segments):
        return f"version {name} lacks a mode of the segments; M3, M4 and 1 to 40 have all"
    if isinstance(asked, Text) or isinstance(asked, Data) and asked.manner >= AS_MARKED_TEXT:
        options = "charset" if isinstance(asked, Text) else "marked and eci"
        return (f"version {name} cannot say which character set it holds; leave out {options}, or "
                "take 1 to 40")
    modes = "digits" if name == "M1" else "digits, capitals, spaces and $%*+-./:"
    return f"version {name} holds only {modes}; M3, M4 and 1 to 40 hold any bytes"


def _not_in_mode(asked: Segments) -> str:
    """Names the first segment that is rejected on its own."""
    for at, row in enumerate(asked.given):
        if replace(asked, given=[row], version=0).answer()[0] == NOT_IN_MODE:
            return f"segment {at + 1}: {MODES[row.kind]}"
    return ""


def _not_in_set(asked: Text) -> str:
    """Names the first character that the set lacks."""
    place = asked.told()[2]
    character = asked.given.decode()[place]
    return (f"character {place + 1:,}, {character!r} (U+{ord(character):04X}), is not in "
            f"{SETS[asked.sets[0]]}; charset='shortest' finds a set that has all")


def _no_mask(asked: Any) -> str:
    _, symbols = replace(asked, mask=0).answer()
    name = symbols[0].version if symbols else version_name(asked.version)
    return f"version {name} has no mask {asked.mask - 1}: take one of 0 to 3"


def _no_room(asked: Any, said: str) -> str:
    level, name = LEVELS[asked.level], version_name(asked.version)
    if isinstance(asked, Data):
        where = f"version {name} and level {level}" if asked.version else f"level {level}"
        text, most = f"{said} at {where}", _most(asked)
        text += f": at most {most:,} fit, more of digits or capitals" if most else ": too many"
    elif asked.version:
        text = f"version {name} at level {level} does not hold {said}"
    else:
        text = f"no version holds {said} at level {level}"
    helps = _helps(asked)
    if helps:
        return f"{text}; {helps} holds them"
    if isinstance(asked, Data) and asked.manner < AS_MARKED_TEXT and _are_held(asked):
        return f"{text}; no level holds them: encode_sequence splits them over several codes"
    return f"{text}; no level holds them"


def _are_held(asked: Union[Data, Parts]) -> bool:
    """Returns whether several symbols together hold the data."""
    return Parts(asked.given, 0, manner=asked.manner).answer()[0] == 0


def _helps(asked: Any) -> str:
    """Names the smallest version, and the highest level, that would hold the data."""
    found = []
    if asked.version:
        _, symbols = asked.of_any_version().answer()
        found += [f"version {symbol.version}" for symbol in symbols]
    below = (replace(asked, level=level) for level in range(asked.level - 1, -1, -1))
    held = next((it.level for it in below if it.answer()[0] == 0), None)
    found += [] if held is None else [f"level {LEVELS[held]}"]
    return " or ".join(found)


def _most(asked: Data) -> int:
    """Returns the most bytes, of any kind, that the version holds, or without one version 40."""
    at = replace(asked, version=asked.version or 40, boost=0, mask=0)
    most, beyond = 0, 2954
    while beyond - most > 1:
        middle = (most + beyond) // 2
        is_held = replace(at, given=bytes(middle)).answer()[0] == 0
        most, beyond = (middle, beyond) if is_held else (most, middle)
    return most


def of_parts(asked: Parts, answer: int) -> Error:
    level, last = LEVELS[asked.level], version_name(asked.max_version)
    if answer == NO_ROOM:
        helps = {"a larger version": asked.max_version < 40, "a lower level": asked.level,
                 "more codes": asked.wanted % 16}
        text = (f"{asked.wanted or 16} codes up to version {last} at level {level} do not hold "
                f"them; take {', or '.join(filter(helps.get, helps))}") if _are_held(asked) else \
            "16 codes of version 40 at level L hold at most 47,216, more of digits or capitals"
        return refusal(answer, f"{len(asked.given):,} bytes: {text}")
    if answer == NO_SUCH_VERSION:
        return refusal(answer, f"versions {version_name(asked.min_version)} to {last}: several "
                       "codes have versions 1 to 40, the smallest first")
    return refusal(answer)
