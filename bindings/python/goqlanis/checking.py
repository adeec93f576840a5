"""Reports what departs from the standard in a code."""
import ctypes
from itertools import islice
from typing import Any, Iterator, List, NamedTuple, Optional, Tuple, Union, overload

from . import _numbers as goq
from ._checks import LEVELS, version_name
from ._library import Checked, Checks, library
from ._numbers import BLOCKS_MAX
from .errors import refuse
from .reading import PICTURES, Modules, Picture, _file_of, _found, _modules_of, _refuse_picture

LINES = """\
version {0.version}, level {0.level}, mask {0.mask}
wrong codewords in each block: {wrong}; the standard allows {0.allowed_by_block}
unused error correction: {unused} %, grade {0.grade}
wrong modules outside the data: {modules}
{data}"""
DATA = """\
data: {bits}
wrong bits after the data: terminator {0.wrong_terminator}, padding {0.wrong_padding}
segments whose character set readers guess: {0.guessed_segments}{guess}"""


class WrongModules(NamedTuple):
    """How many modules of each pattern are wrong. `finder` includes the separators, and `format`
    the module that is always dark; `remainder` are the modules after the last codeword."""
    finder: int
    alignment: int
    timing: int
    format: int
    version: int
    remainder: int


class Rank(NamedTuple):
    """How many masks have a lower penalty, and how many with a lower number have the same."""
    lower: int
    same_before: int


class Check(NamedTuple):
    """What departs from the standard in a code: the fields of `goqlanis check --json`; str() gives
    the text of `goqlanis check`.

    Unknown fields are None: `bits` and `fewest_bits` after FNC1 or with a header between segments,
    and all fields on the data if its bits are not segments and a terminator.

    """
    version: str
    level: str
    mask: int
    wrong_by_block: Tuple[int, ...]
    allowed_by_block: int
    unused_correction: float
    grade: str
    wrong_modules: WrongModules
    segments: bool
    bits: Optional[int]
    fewest_bits: Optional[int]
    wrong_terminator: Optional[int]
    wrong_padding: Optional[int]
    guessed_segments: Optional[int]
    guessed_utf8: Optional[bool]
    masks: Rank
    masks_here: Rank
    is_standard: bool

    def __str__(self) -> str:
        data = "data: its bits are not segments and a terminator"
        if self.segments:
            bits = "with headers such as FNC1, not compared with the fewest bits" \
                if self.bits is None else \
                f"{self.bits} bits, {self.bits - (self.fewest_bits or 0)} more than needed"
            guess = ", UTF-8" if self.guessed_utf8 else ", not all UTF-8"
            data = DATA.format(self, bits=bits, guess=guess if self.guessed_segments else "")
        wrong = self.wrong_modules._asdict().items()
        modules = ", ".join(f"{name} {count}" for name, count in wrong)
        text = LINES.format(self, wrong=", ".join(map(str, self.wrong_by_block)), modules=modules,
                            data=data, unused=round(self.unused_correction * 100))
        if any(self.wrong_by_block) or any(self.wrong_modules):
            return text
        own, lower = self.masks_here.lower, self.masks.lower
        more = f"; {own} if the share of dark modules is not rounded to 5 %" if own != lower else ""
        return f"{text}\nmasks with a lower penalty: {lower}{more}"


@overload
def check(picture: Modules) -> Check: ...
@overload
def check(picture: Picture) -> List[Check]: ...
def check(picture: Union[Picture, Modules, Any]) -> Union[List[Check], Check]:
    """Returns what departs from the standard in each code of a picture, in the order of `read`, or
    in a symbol or a square of modules. Both are as `read` takes them.

    Raises a subclass of Unread if nothing can be checked.

    >>> rows = [list(row) for row in encode(b"01234567", "H").matrix]
    >>> rows[20][20] = not rows[20][20]
    >>> found = check(rows)
    >>> found.is_standard, found.wrong_by_block, found.allowed_by_block, found.unused_correction
    (False, (1,), 8, 0.87)
    """
    file = _file_of(picture)
    if file is not None:
        return _found(file, _checks)
    modules, known = _modules_of(picture, PICTURES), Checked()
    wrong = (ctypes.c_size_t * BLOCKS_MAX)()
    refuse(library.goq_check_square(modules, len(modules), wrong, len(wrong), ctypes.byref(known)))
    return _check(known, wrong[:known.blocks])


def _checks(picture: bytes, of: str) -> Iterator[Check]:
    """Yields the checks of a picture; makes room for more of them until there is enough."""
    count, answer = 4, goq.SMALL_BUFFER
    while answer == goq.SMALL_BUFFER:
        checks, wrong = (Checked * count)(), (ctypes.c_size_t * (count * BLOCKS_MAX))()
        counts = Checks(ctypes.sizeof(Checks))
        answer = library.goq_check(picture, len(picture), checks, len(checks), wrong, len(wrong),
                                   ctypes.byref(counts))
        count *= 8
    _refuse_picture(answer, of)
    numbers = iter(wrong)
    for known in checks[:counts.codes]:
        yield _check(known, list(islice(numbers, known.blocks)))


def _check(known: Checked, wrong: List[int]) -> Check:
    data, masks, here = known.data, known.masks, known.masks_here
    said = data.terminator, data.padding, data.guessed, bool(data.are_utf8)
    modules = WrongModules(*(getattr(known.wrong, name) for name in WrongModules._fields))
    return Check(version_name(known.version), LEVELS[known.level], known.mask, tuple(wrong),
                 known.allowed, known.unused / 100, chr(known.grade), modules, bool(data.segments),
                 *((data.bits, data.fewest) if data.compared else (None, None)),
                 *(said if data.segments else (None,) * 4), Rank(masks.lower, masks.equal),
                 Rank(here.lower, here.equal), bool(known.standard))
