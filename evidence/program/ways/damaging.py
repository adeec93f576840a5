"""Tests of `goqlanis damage`: the judge of evidence/judge counts what is wrong in the squares."""
from checked import form, reading
from damage import bounds, wrong_in
from forms import pairs
from room import file_of, run, square
from spelling import spelled


def _square(program, *words):
    return bytes(sum(square(program, "damage", *words, "0123"), []))


def as_much_is_wrong_as_asked(program):
    """In all versions and levels, as many codewords and bits are wrong as asked, nothing else."""
    for at, (version, level) in enumerate(pairs()):
        words = ["-v", version, "-l", level, "--seed", str(at)]
        whole = _square(program, *words, "--wrong-codewords", "0")
        bits = reading.read_bits(whole)
        held = spelled(form(bits.version), bits.bits).data
        yield (bits.version, bits.level, bits.wrong, held) == (version, level, 0, b"0123")
        has_version = version[0] != "M" and int(version) >= 7
        most, count = bounds(version, level)[0], str(3 * has_version)
        for name, wrong in (("most", most), ("beyond", most + 1)):
            more = ["--wrong-codewords", name, "--wrong-format", "3", "--wrong-version", count]
            found = wrong_in(whole, _square(program, *words, *more), version, level, bits.mask)
            wanted = {wrong}, {3}, {3} if has_version else set(), 0
            yield (*map(set, found[:3]), found[3]) == wanted
    yield len(pairs()) == 168


def another_seed_is_other_damage(program):
    squares = [_square(program, "-v", "7", "--seed", it) for it in ("1", "1", "2")]
    return squares[0] == squares[1] != squares[2]


def damaged_codes_are_turned(program):
    """Codes are mirrored, and turned clockwise; goqlanis reads them in all eight positions."""
    for version, level in (("M1", "L"), ("M3", "M"), ("1", "L")):
        words = ["-v", version, "-l", level]
        upright = square(program, "damage", *words, "0123")
        for mirror in ([], ["--mirror"]):
            wanted = [row[::-1] for row in upright] if mirror else upright
            for degrees in ("0", "90", "180", "270"):
                drawn = square(program, "damage", *words, *mirror, "--turn", degrees, "0123")
                yield drawn == wanted
                yield run(program, ["read"], "/", file_of(drawn, 0, 1)).stdout == b"0123"
                wanted = [list(row) for row in zip(*wanted[::-1])]


def patterns_are_wrong(program):
    """As many modules of patterns are wrong as asked; these versions have no remainder bits."""
    for words, count in (("-v 1 -l L", 203), ("-v 7 -l H", 20), ("-v 40 -l M", 1000), ("-v M1 -l L", 70),
                         ("-v M4 -l Q", 1)):
        squares = [_square(program, *f"{words} --wrong-codewords {more}".split())
                   for more in ("0", f"1 --wrong-format 2 --wrong-patterns {count}")]
        bits = reading.read_bits(squares[0])
        found = wrong_in(*squares, bits.version, bits.level, bits.mask)
        yield ({*found[0]}, {*found[1]}, {0, *found[2]}, found[3]) == ({1}, {2}, {0}, count)
