"""Requests for symbols in the library's numbers, and its answers."""
import ctypes
from dataclasses import dataclass, replace
from typing import Any, List, Sequence, Tuple

from ._checks import LEVELS, version_name
from ._library import Known, Options, Segment, Several, library
from ._numbers import AS_BYTES, CHARSETS, MODULES_MAX, SEVERAL_MAX
from .symbol import Symbol

MICRO_1 = 41
# The names of character sets by their numbers; 0 is UTF-8 without a header.
SETS = {0: "utf-8", **{number: name for name, number in CHARSETS.items()}}

Answer = Tuple[int, List[Symbol]]


def _made(call: Any, *given: Any, behind: Sequence[Any] = (), most: int = 1) -> Answer:
    """Returns the answer of a call that fills modules, and its symbols if the answer is 0: one, or
    as many as the first of `behind`, the outputs after the modules, says."""
    known = Known()
    modules: Any = ctypes.create_string_buffer(most * MODULES_MAX)
    answer = call(*given, modules, len(modules), ctypes.byref(known), *map(ctypes.byref, behind))
    if answer:
        return answer, []
    size, count = known.width * known.width, behind[0].value if most > 1 else 1
    name, level = version_name(known.version), LEVELS[known.level]
    parts = (modules[at * size:(at + 1) * size] for at in range(count))
    return 0, [Symbol(part, name, level) for part in parts]


@dataclass(frozen=True)
class Asked:
    """A symbol of what is `given`. A version of 0 is the smallest; a mask of 0 is the one with the
    lowest penalty, and others are their number plus 1."""
    given: Any
    level: int
    version: int = 0
    min_version: int = 1
    boost: int = 0
    mask: int = 0
    manner: int = AS_BYTES

    def options(self) -> Any:
        return ctypes.byref(Options(ctypes.sizeof(Options), self.level, self.manner, self.version,
                                    self.min_version, self.boost, self.mask))

    def answer(self) -> Answer:
        raise NotImplementedError

    def of_any_version(self) -> "Asked":
        is_micro = self.version >= MICRO_1 and isinstance(self, (Data, Text))
        return replace(self, version=0, min_version=MICRO_1 if is_micro else 1, boost=0, mask=0)


class Data(Asked):
    def answer(self) -> Answer:
        return _made(library.goq_encode_with, self.given, len(self.given), self.options())


@dataclass(frozen=True)
class Text(Asked):
    """A symbol of text in the set with one of these numbers, or without numbers in that in which it
    takes the fewest bits."""
    sets: Sequence[int] = ()

    def told(self) -> Tuple[int, List[Symbol], int]:
        """Returns the answer, and the place of a character that the set lacks."""
        numbers = (ctypes.c_uint32 * len(self.sets))(*self.sets)
        chosen, place = ctypes.c_uint32(), ctypes.c_size_t()
        answer, symbols = _made(library.goq_encode_charset, self.given, len(self.given), numbers,
                                len(numbers), self.options(), behind=[chosen, place])
        return answer, [replace(it, charset=SETS[chosen.value]) for it in symbols], place.value

    def answer(self) -> Answer:
        return self.told()[:2]


@dataclass(frozen=True)
class Parts(Asked):
    """Several symbols over which data is split; 0 are as few as possible."""
    max_version: int = 40
    wanted: int = 0

    def answer(self) -> Answer:
        options = Several(ctypes.sizeof(Several), self.level, self.manner, self.min_version,
                          self.max_version, self.wanted)
        return _made(library.goq_encode_several, self.given, len(self.given), ctypes.byref(options),
                     behind=[ctypes.c_size_t()], most=SEVERAL_MAX)


class Segments(Asked):
    """A symbol of segments; the smallest is one of Normal QR."""

    def rows(self) -> Tuple[Any, int]:
        return (Segment * len(self.given))(*self.given), len(self.given)

    def least(self) -> Tuple[int, int]:
        """Returns the library's answer about the smallest version, and its number."""
        found = ctypes.c_uint32()
        call = library.goq_smallest_version_of_segments
        return call(*self.rows(), self.level, ctypes.byref(found)), found.value

    def answer(self) -> Answer:
        answer, version = (0, self.version) if self.version else self.least()
        if answer:
            return answer, []
        return _made(library.goq_encode_segments, *self.rows(), version, self.level)


class Elements(Asked):
    """A symbol of correct GS1 elements."""

    def answer(self) -> Answer:
        return _made(library.goq_encode_gs1, self.given, len(self.given), self.options(),
                     behind=[ctypes.c_size_t()])
