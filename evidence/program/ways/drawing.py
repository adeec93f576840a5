"""Tests of what goqlanis draws: colours of parts, labels, covered squares, logos and documents."""
import random
import re
import shlex
from fractions import Fraction
from itertools import product

import documents
import labels
import parts
import png
from room import COLOURS, SYMBOLS, TOP, empty, file_of, held, put, run, square, written


def parts_have_their_colours(program):
    """In PNG, SVG, EPS and PDF each module has the colour of its part, by segno."""
    return parts.are_drawn(lambda words: written(program, shlex.join(words)),
                           f"{TOP}/lab/others/parts/types")


def labels_show_the_dots(program):
    """ZPL and TSPL, as a printer carries them out, put the PBM file's dots at the right place."""
    for words in ("01234567", "-l H -s 3 https://example.org", "-v 40 -s 5 A", "-q 1 -s 5 A",
                  "-s 88 A", "-s 1 -q 0 --invert A"):
        dots = written(program, f"-f pbm {words}")
        across, count = map(int, dots.split(b"\n", 2)[1].split())
        rows = labels.rows_of(dots.split(b"\n", 2)[2], (across + 7) // 8, count)
        for kind, carried_out in (("zpl", labels.zpl), ("tspl", labels.tspl)):
            for option, place in (("", (0, 0)), ("--at 50,3", (50, 3))):
                yield carried_out(written(program, f"-f {kind} {option} {words}")) == (place, rows)


def labels_are_those_of_zint(program):
    """GS1 elements get the symbols that zint draws, and these are read as their element strings."""
    found = [(name.split(" "), rows) for name, rows in SYMBOLS.items() if name[0].isdigit()]
    for (level, elements, string), rows in found:
        drawn = square(program, "gs1", elements, "-l", "LMQH"[int(level) - 1])
        read = run(program, ["read"], "/", file_of(rows, 4, 2)).stdout
        yield drawn == rows and read == string.encode()
    long = run(program, ["gs1", "(10)abcdefghijklmnopqrst" * 200, "-l", "H"], "/")
    is_said = long.stderr == b"goqlanis: no version holds the elements at level H\n"
    yield len(found) == 6 and long.returncode == 1 and is_said


def covered_squares_are_those_that_others_read(program):
    """Those of lab/others/areas are covered, nothing else changes, and larger ones are rejected."""
    found = (TOP / "lab" / "others" / "areas" / "found").read_text()
    lines = [line.split() for line in found.splitlines()]
    for version, level, size, _, _ in lines:
        words = ["-v", version, "-l", level, "-f", "pgm", "-s", "1", "-q", "0", "GOQLANIS"]
        side, size = 17 + 4 * int(version), int(size)
        inside = range((side - size) // 2, (side + size) // 2)
        plain = run(program, words, "/").stdout
        light = bytearray(plain)
        for y in inside:
            at = len(plain) - side * side + side * y
            light[at + inside.start:at + inside.stop] = b"\xff" * size
        drawn = run(program, ["--logo-area", "--logo-size", str(size), *words], "/")
        more = run(program, ["--logo-area", "--logo-size", str(size + 2), *words], "/")
        yield (not size or drawn.stdout == light) and more.returncode == 1
    yield len(lines) == 40


def _greys(pgm):
    """Returns the pixels of a PGM file, as opaque RGBA."""
    side = int(pgm.split()[1])
    grey = pgm[-side * side:]
    return [[(it, it, it, 255) for it in grey[side * y:side * (y + 1)]] for y in range(side)]


# The logo, 4 by 3, in 53 by 40 pixels: each shows what lies at its middle.
_NEAREST = [[COLOURS[(2 * y + 1) * 3 // 80][(2 * x + 1) * 4 // 106] for x in range(53)]
            for y in range(40)]


def _put_logo(rows, left, top, logo=_NEAREST):
    """Draws a logo of 53 by 40 pixels in the middle of an area of 9 by 5 modules of 8 pixels."""
    for y, row in enumerate(logo):
        for x, (*levels, opacity) in enumerate(row, left + 9):
            shade = [int(0.5 + (it * opacity + below * (255 - opacity)) / 255)
                     for it, below in zip(levels, rows[top + y][x])]
            rows[top + y][x] = (*shade, 255)


def _covered(place, count, whole):
    """Yields the pixels of `whole` that pixel `place` of `count` covers, each with its share."""
    begin, end = place * whole, (place + 1) * whole
    for it in range(begin // count, -(-end // count)):
        yield it, min(end, (it + 1) * count) - max(begin, it * count)


def _mean(logo, x, y):
    """Returns the mean of what pixel (x, y) of 53 by 40 covers, by area and opacity."""
    total = [0] * 5
    for (row, high), (column, wide) in product(_covered(y, 40, len(logo)),
                                               _covered(x, 53, len(logo[0]))):
        *levels, opacity = logo[row][column]
        parts = [high * wide * opacity * it for it in (*levels, 1)] + [high * wide]
        total = [sum(it) for it in zip(total, parts)]
    *levels, opacity, area = total
    return [int(Fraction(it, opacity or 1) + Fraction(1, 2)) for it in levels] + \
        [int(Fraction(opacity, area) + Fraction(1, 2))]


def _with_logo(program, logo, shown=_NEAREST, margin="0"):
    """Returns the pixels of a code with a logo, shown like this over white, and its PNG file."""
    words = ["-v", "5", "-l", "H", "GOQLANIS"]
    rows = _greys(run(program, [*words, "-f", "pgm"], "/").stdout)
    for row in rows[160:200]:
        row[144:216] = [(255,) * 4] * 72
    _put_logo(rows, 144, 160, shown)
    with empty() as folder:
        put(folder, "logo.png", png.of_pixels(logo))
        words += ["--logo", "logo.png", "--logo-size", "9", "--logo-margin", margin, "-f", "png"]
        return rows, run(program, words, folder).stdout


def a_logo_with_more_pixels_than_its_place_is_averaged(program):
    """Each pixel is the mean of those of the logo that it covers, by area and opacity."""
    chance = random.Random(5)
    logo = [[tuple(chance.randbytes(3)) + (chance.choice((0, 9, 255)),) for _ in range(100)]
            for _ in range(75)]
    means = [[_mean(logo, x, y) for x in range(53)] for y in range(40)]
    rows, drawn = _with_logo(program, logo, means)
    return png.pixels_of(drawn) == rows


def a_logo_in_png_is_drawn_in_its_area_alone(program):
    """The logo is drawn over white; outside of its area in the middle nothing changes."""
    (rows, drawn), (_, far) = (_with_logo(program, COLOURS, margin=it) for it in "01")
    is_read = run(program, ["read"], "/", drawn).stdout == b"GOQLANIS"
    # With a margin of one module the logo is 24 pixels high.
    coloured = [y for y, row in enumerate(png.pixels_of(far))
                if any(len({*it[:3]}) > 1 for it in row)]
    return png.pixels_of(drawn) == rows and is_read and coloured[0] >= 168 and coloured[-1] < 192


def a_logo_in_png_is_drawn_over_colours_of_parts(program):
    """Modules have the colours of segno's parts, in the area the light one, below the logo."""
    words = ["-v", "7", "-l", "H", "GOQLANIS"]
    letters = parts.parts_of(f"{TOP}/lab/others/parts/types")["7"]
    plain = _greys(run(program, [*words, "-f", "pgm", "-s", "1", "-q", "0"], "/").stdout)
    modules = [[int(it[0] == 0) for it in row] for row in plain]
    for row in modules[20:25]:
        row[18:27] = [0] * 9
    with empty() as folder:
        put(folder, "logo.png", png.of_pixels(COLOURS))
        words += ["--logo", "logo.png", "--logo-margin", "0", "--logo-size", "9", "-f", "png",
                  "--dark", parts.DARK, "--light", parts.LIGHT, *parts.WORDS]
        for is_inverted in (False, True):
            colors = parts.wanted(modules, letters, 4, is_inverted)
            rows = [[(*it, 255) for it in row for _ in range(8)]
                    for row in colors for _ in range(8)]
            _put_logo(rows, 176, 192)
            drawn = run(program, [*words, *["--invert"] * is_inverted], folder).stdout
            yield png.pixels_of(drawn) == rows


def the_cross_of_a_bill(program):
    """In PNG the Swiss cross takes 7/46 of the side, and each pixel shows the colour at its middle:
    a white frame, and on black a white cross with the bars of the style guide for bills. In SVG,
    EPS and PDF its square is in the right place, at two scales."""
    bill = ["bill", "--iban", "CH5800791123000889012", "--name", "a", "--code", "2501", "--city",
            "Biel", "--country", "CH", "-q", "4"]
    words = [*bill, "-s", "8"]
    plain = run(program, [*words, "-f", "pgm"], "/")
    rows = _greys(plain.stdout)
    side = len(rows) - 64
    size = round(7 * side / 46)
    size += (side - size) % 2
    start, area = (len(rows) - size) // 2, 8 * (-(-7 * side // 8 // 46) | 1)
    around = slice((len(rows) - area) // 2, (len(rows) + area) // 2)
    units = [(2 * it + 1) * 252 / size / 2 for it in range(size)]
    for row in rows[around]:
        row[around] = [(255,) * 4] * area
    for y, v in enumerate(units):
        for x, u in enumerate(units):
            bars = 105 < u < 147 and 56 < v < 196 or 56 < u < 196 and 105 < v < 147
            if 18 < u < 234 and 18 < v < 234 and not bars:
                rows[start + y][start + x] = (0, 0, 0, 255)
    drawn = run(program, [*words, "-f", "png"], "/")
    warned = b"this format lacks the Swiss cross" in plain.stderr and b"cross" not in drawn.stderr
    shapes = all(_is_in_the_middle(run(program, [*bill, "-s", scale, "-f", kind], "/"),
                                   pattern.replace(b"SCALE", scale.encode()), side // 8)
                 for scale in ("3", "8") for kind, pattern in CROSSES.items())
    return png.pixels_of(drawn.stdout) == rows and warned and shapes


# In each format: the modules of a unit, or the units of a module; where the square of the cross
# begins, in units; and how many units are a 252nd of its side. SCALE is the pixels of a module.
CROSSES = {
    "svg": rb"scale\(1\) scale\((?P<unit>\S+)\) translate\((?P<left>\d+) (?P=left)\) "
           rb"scale\((?P<part>\d+)\)",
    "eps": rb"gsave SCALE (?P<unit>\d+) div dup scale (?P<left>\d+) dup translate (?P<part>\d+) dup "
           rb"scale\n1 setgray 0 0 252 252 rectfill",
    "pdf": rb"\nq (?P<unit>\S+) 0 0 (?P=unit) 0 0 cm (?P<part>\d+) 0 0 (?P=part) (?P<left>\d+) "
           rb"(?P=left) cm\n1 g 0 0 252 252 re f"}


def _is_in_the_middle(ran, pattern, side):
    """Whether the cross is 7 mm of a code of 46 mm, in the middle, in a quiet zone of 4 modules."""
    found = re.search(pattern, ran.stdout)
    if not found or b"cross" in ran.stderr:
        return False
    unit, left, part = (float(found[it]) for it in ("unit", "left", "part"))
    unit = min(unit, 1 / unit)
    begins, is_wide = 4 + side / 2 - 3.5 * side / 46, 7 * side / 46
    return abs(unit * left - begins) < 1e-6 and abs(unit * 252 * part - is_wide) < 1e-6


# Command lines that write documents, their lines, and the command lines of the pages.
DOCUMENTS = [
    ("--lines --pdf-title Café --finder-dark navy -s 2.5", "one\n\n" + 3000 * "a" + "\r\nthree", [
        "--pdf-title Café --finder-dark navy -s 2.5 one",
        "--pdf-title Café --finder-dark navy -s 2.5 three"]),
    ("--lines --field 2 --size 30mm -o -", f"1,a\n2,{500 * 'b'}\n3,c", [
        f"--size 30mm {it}" for it in ("a", 500 * "b", "c")]),
    ("--lines --logo-area --dpi 300 --module 1mm --dark teal --invert", "a\nb\n", [
        f"--logo-area --dpi 300 --module 1mm --dark teal --invert {it}" for it in "ab"]),
    ("--lines --charset shortest -v 40 -q 0", "Привет\nмир", [
        f"--charset shortest -v 40 -q 0 {it}" for it in ("Привет", "мир")]),
    ("wifi --lines --header", "ssid,password\nGuests,pass;word\nStaff,12345678", [
        "wifi --ssid Guests --password 'pass;word'", "wifi --ssid Staff --password 12345678"]),
    ("bill --lines --header --iban CH5800791123000889012 --name a --code 2501 --city Biel --country CH",
     "amount\n1\n2.50", [
         "bill --iban CH5800791123000889012 --name a --code 2501 --city Biel --country CH "
         f"--amount {it}" for it in ("1", "2.50")]),
    ("gs1 --lines --columns 01,10 --delimiter ;", "09521234543213;A\n09521234543213;B", [
        f"gs1 '(01)09521234543213(10){it}'" for it in "AB"]),
    ("damage --lines --wrong-codewords 3 --turn 90", "a\nb", [
        f"damage --wrong-codewords 3 --turn 90 {it}" for it in "ab"])]


def a_document_has_the_pages_of_its_lines(program):
    """A document has a page for each line or part that is not refused: that of its PDF file."""
    for words, lines, each in DOCUMENTS:
        ran = run(program, [*shlex.split(words), "-f", "pdf"], "/", lines.encode())
        files = [documents.pages_of(written(program, f"{it} -f pdf")) for it in each]
        yield documents.pages_of(ran.stdout) == (files[0][0], sum((it[1] for it in files), []))
    with empty() as folder:
        run(program, ["split", "--count", "3", "-o", "a.pdf", "abc"], folder)
        files = [documents.pages_of(held(folder, f"a-00000{it}.pdf")) for it in (1, 2, 3)]
        ran = run(program, ["split", "--count", "3", "-f", "pdf", "abc"], folder)
    yield documents.pages_of(ran.stdout)[1] == sum((it[1] for it in files), [])


def a_long_document_has_its_pages_in_order(program):
    """A document of 8,193 lines, which needs nodes, has the pages of documents of 500 lines."""
    lines = [str(it) for it in range(8193)]
    pages = [documents.pages_of(run(program, ["--lines", "-f", "pdf"], "/", "\n".join(it).encode()).stdout)[1]
             for it in (lines, *(lines[at:at + 500] for at in range(0, len(lines), 500)))]
    return len(pages[0]) == len(lines) and pages[0] == sum(pages[1:], [])
