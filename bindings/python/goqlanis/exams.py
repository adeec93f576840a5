"""Exams for readers: whole and damaged symbols, and what they hold."""
import functools
import random
from typing import Any, Dict, Iterable, Iterator, List, NamedTuple, Tuple

from . import _asked
from ._checks import LEVELS
from ._checks import level as level_of
from ._checks import version as version_of
from .checking import check
from .encoding import _listed, encode_segments, encode_sequence
from .errors import NoMode
from .symbol import Symbol

# Some characters of each mode.
LETTERS = {"numeric": [b"%d" % it for it in range(10)],
           "alphanumeric": [b"%c" % it for it in b"0123456789ABCDEFGHIJKLMNOPQRSTUVWXYZ $%*+-./:"],
           "byte": [b"%c" % it for it in range(32, 127)],
           "kanji": [b"\x93\x5f", b"\xe4\xaa", b"\x93\xfa", b"\x96\x7b"]}
# What symbols hold: a header, and the modes of the segments after it. Those of one mode are in each
# version and level, the others in every second one of Normal QR.
CONTENTS: Dict[str, Tuple[List[Any], List[str]]] = {
    **{mode: ([], [mode]) for mode in LETTERS}, "empty": ([], []),
    "mixed": ([], ["alphanumeric", "numeric", "byte"]), "eci": ([("eci", 26)], ["byte"]),
    "fnc1": ([("fnc1_first", None)], ["numeric"]), "append": ([("eci", 26)], ["byte"])}
VERSIONS = ("M1", "M2", "M3", "M4", *map(str, range(1, 41)))
PAIRS = [(version, level) for version in VERSIONS
         for level in {"M1": "L", "M2": "LM", "M3": "LM", "M4": "LMQ"}.get(version, "LMQH")]


class Question(NamedTuple):
    """A question of an exam.

    - `name`: version, level, content and damage, e.g. "7-H-kanji-most";
    - `symbol`: what to read, e.g. `symbol.png()` or `symbol.matrix`; it has the version, the level
      and the mask;
    - `data`: what it says;
    - `damage`: "whole"; "most": in each block half as many wrong codewords as it has for error
      correction, and 3 wrong bits in each copy of the format and version information; "beyond": one
      codeword more in each block;
    - `must_read`: whether the standard requires readers to correct that;
    - `goqlanis_reads`: whether this library is promised to.
    """
    name: str
    symbol: Symbol
    data: bytes
    damage: str
    must_read: bool
    goqlanis_reads: bool


def exam(seed: int = 0) -> Iterator[Question]:
    """Yields the questions of an exam for readers: symbols of all versions and levels, whole and
    damaged, with digits, letters, ASCII or Kanji, with these mixed, with nothing, or with a header:
    ECI 26, FNC1, structured append. About half are full. docs/EXAM.md has a test for pytest.

    >>> questions = list(exam())
    >>> len(questions), questions[0].name, questions[-1].name
    (3234, 'M1-L-numeric-whole', '40-H-fnc1-beyond')
    """
    return of_pairs(PAIRS, seed)


def of_pairs(pairs: Iterable[Tuple[str, str]], seed: int) -> Iterator[Question]:
    for version, level in pairs:
        number = 4 * VERSIONS.index(version) + LEVELS.index(level)
        turn = number + number // 4
        for place, name in enumerate(CONTENTS):
            if name in LETTERS or version[0] == "M" or (place + turn) % 2:
                chance = random.Random(f"{seed} {number} {place}")
                try:
                    symbol, data = _made(name, level, version, chance)
                except NoMode:
                    continue
                yield from _questions(f"{version}-{level}-{name}", symbol, data,
                                      chance.getrandbits(64))


def _made(name: str, level: str, version: str, chance: random.Random) -> Tuple[Symbol, bytes]:
    """Returns a symbol with a content, and its data; segments are full or of any length."""
    header, modes = CONTENTS[name]
    if version[0] == "M":  # which may lack the header or the modes
        encode_segments([*header, *((mode, LETTERS[mode][0]) for mode in modes)], level, version)
    segments: List[Any] = list(header)
    for mode in modes:
        most = _most(segments, mode, level, version)
        count = most if chance.random() < .5 else int(chance.random() * (most + 1))
        segments.append((mode, b"".join(chance.choices(LETTERS[mode], k=count))))
    data = b"".join(it for _, it in segments[len(header):])
    if name != "append":
        return encode_segments(segments, level, version), data
    # Its header has eight bits more than that of ECI. Two parts of bytes are equally long.
    data = data[1:] or b"a"
    other = b"".join(chance.choices(LETTERS["byte"], k=len(data)))
    return encode_sequence(data + other, level, version=version, count=2)[0], data


def _most(segments: List[Any], mode: str, level: str, version: str) -> int:
    """Returns how many characters of a mode fit after segments."""
    most, beyond = 0, 7090
    while beyond - most > 1:
        middle = (most + beyond) // 2
        given = _listed([*segments, (mode, LETTERS[mode][0] * middle)])
        asked = _asked.Segments(given, level_of(level), version_of(version))
        if version[0] != "M":
            answer, least = asked.least()
            fits = answer == 0 and least <= asked.version
        else:
            fits = asked.answer()[0] == 0
        most, beyond = (middle, beyond) if fits else (most, middle)
    return most


def _questions(name: str, symbol: Symbol, data: bytes, seed: int) -> Iterator[Question]:
    most, required = symbol.most_codewords, _required(symbol.version, symbol.level)
    for damage, codewords, bits in (("whole", 0, 0), ("most", most, 3), ("beyond", most + 1, 3)):
        found = symbol.damaged(codewords, bits, bits if symbol.width >= 45 else 0, seed=seed)
        yield Question(f"{name}-{damage}", found, data, damage,
                       found.is_promised and codewords <= required, found.is_promised)


@functools.lru_cache(maxsize=None)
def _required(version: str, level: str) -> int:
    """Returns how many wrong codewords of each block the standard requires readers to correct."""
    return check(encode_segments([], level, version)).allowed_by_block
