"""Tests of how goqlanis reads symbols of other encoders, and pictures of each form, position and
size."""
import json
import random
import re
import resource
import zlib
from itertools import product

import checked
import crowds
import png
from room import FILES, SYMBOLS, figures, file_of, plain, run, slanted, square, squares

EXCHANGED = ", inverted"
NOT_HEADERS = ("segment: ", "goqlanis: warning: ")
# By their numbers in crowds.turned.
POSITIONS = ("upright", "mirrored", "flipped", "upside down", "transposed", "rotated left",
             "rotated right", "antitransposed")
# Of the dark and the light ring of a finder pattern.
CORNERS = [*product((0, 6), repeat=2), *product((1, 5), repeat=2)]


def checks_are_those_of_the_judge(program):
    """Every fifth symbol of other encoders is checked, whole and with 2 and 8 wrong modules."""
    chance = random.Random(1)
    for number, (rows, _) in enumerate(squares()):
        if number % 5 == 0:
            for count in (0, 2, 6):
                for _ in range(count):
                    rows[chance.randrange(len(rows))][chance.randrange(len(rows))] ^= 1
                try:
                    said = checked.checked(bytes(it for row in rows for it in row))
                except checked.Uncorrected:
                    continue
                ran = run(program, ["check", "--json"], "/", file_of(rows, 4, 1))
                yield (ran.returncode, json.loads(ran.stdout)) == (1 - said["standard"], [said])


def grades_are_those_of_the_standard(program):
    """Codewords of 1-H are inverted, one more at a time, of 8 that may be wrong. Grades A to D
    begin at 62, 50, 37 and 25 % of unused error correction (ISO/IEC 15415)."""
    words, found = ["-l", "H", "-q", "0", "-s", "1", "-f", "pgm", "1"], ""
    for count in range(9):
        square = [int(it == 0) for it in run(program, words, "/").stdout[-441:]]
        for place in checked.form("1").places[:8 * count]:
            square[place] ^= 1
        rows = [square[at:at + 21] for at in range(0, 441, 21)]
        ran = run(program, ["check", "--json"], "/", file_of(rows, 4, 1))
        found += json.loads(ran.stdout)[0]["grade"]
    return found == "AAAABCDFF"


def _headers_said(headers):
    """Returns what `read --verbose` prints for headers, given as in lab/others/symbols."""
    words = ", ".join(headers)
    sets, other = {"ECI 0": "IBM437", "ECI 26": "UTF-8"}, "a character set without a known name"
    words = re.sub(r"ECI \d+", lambda it: f"{it[0]}, {sets.get(it[0], other)}", words)
    words = words.replace("symbol", "structured append, code")
    words = re.sub(r"FNC1 (\w+)", r"FNC1 in second position, application \1", words)
    words = re.sub(r"FNC1$", "FNC1 in first position, GS1 data", words)
    return [f"header: {words}"] if words else []


def _read(program, picture):
    """Returns the data of a picture in hexadecimal digits, and the headers that are said."""
    ran = run(program, ["read", "--verbose"], "/", picture)
    lines = ran.stderr.decode().splitlines()
    return ran.stdout.hex(), [it for it in lines if not it.startswith(NOT_HEADERS)]


def symbols_of_other_encoders_are_read(program):
    """Scales and quiet zones vary; every third symbol, if it has no header, is rotated."""
    for number, (rows, words) in enumerate(squares()):
        (symbol, mask, *headers), data = words.split(": ")[0].split(", "), words.split(": ")[1]
        kind, version, level = symbol.split()
        rows = [list(it) for it in zip(*rows[::-1])] if number % 3 == 0 and not headers else rows
        read, lines = _read(program, file_of(rows, number % 5, 1 + number % 4))
        named = f"version {'M' * (kind == 'Micro')}{version}, level {level}, {mask}"
        wanted = [named, "wrong codewords: 0", *_headers_said(headers)]
        yield read == data and lines[:1] + lines[3:] == wanted
    yield number > 100


def large_pictures_are_read(program):
    """The most digits are read: PGM of 32 MB, PBM, PNG of 65 million pixels, and half blocks."""
    digits, words = FILES["digits"], ["-l", "L", "-q", "80", "-f"]
    forms = (["pgm", "-s", "17"], ["pbm", "-s", "17"], ["png", "-s", "24"], ["half-blocks"])
    pictures = [run(program, [*words, *form], "/", digits).stdout for form in forms]
    pictures.append(figures(program, digits))
    is_large = len(pictures[0]) > 32 * 2**20 - 10**6
    return is_large and all(run(program, ["read"], "/", it).stdout == digits for it in pictures)


def headers_are_read_in_all_positions(program):
    """Symbols with headers are read in eight positions, with modules or the picture inverted."""
    with_headers = [it for it in squares() if it[1].split(": ")[0].count(",") > 1]
    for rows, words in with_headers[::3]:
        (_, _, *headers), data = words.split(": ")[0].split(", "), words.split(": ")[1]
        for number, position in enumerate(POSITIONS):
            plain = crowds.turned(rows, number)
            other = [[1 - module for module in it] for it in plain]
            *head, body = file_of(plain, 4, 8).split(b"\n", 2)
            negative = b"\n".join([*head, bytes(it ^ 255 for it in body)])
            for picture, shades in ((file_of(plain, 4, 8), ""), (negative, EXCHANGED),
                                    (file_of(other, 4, 8), EXCHANGED)):
                wanted = [f"position: {position}{shades}", "wrong codewords: 0"]
                read, lines = _read(program, picture)
                yield read == data and lines[2:] == wanted + _headers_said(headers)
    yield len(with_headers[::3]) > 3


def png_files_of_every_kind_are_read(program):
    """Every colour type, depth and filter is read; damaged files are rejected."""
    (name, rows), *_ = ((it.split(" "), rows) for it, rows in SYMBOLS.items() if it[0].isdigit())
    for color, depth in png.KINDS:
        read = run(program, ["read"], "/", png.file_of(rows, color, depth)).stdout
        yield read == name[2].encode()
    whole = png.file_of(rows, 0, 1)
    large = png.chunk(b"IHDR", bytes([0, 1, 0, 0] * 2 + [1, 0, 0, 0, 0]))
    at = whole.index(b"IDAT") + 20
    flipped = whole[:at] + bytes([whole[at] ^ 1]) + whole[at + 1:]
    for given, said in ((whole[:-20], b"cut off or damaged"), (flipped, b"cut off or damaged"),
                        (png.file_of(rows, 0, 1, 1), b"interlaced"), (b"\xff\xd8\xff\xe0", b"JPEG"),
                        (whole[:8] + large + whole[33:], b"65536 by 65536 pixels")):
        ran = run(program, ["read"], "/", given)
        yield ran.returncode == 1 and not ran.stdout and said in ran.stderr


def png_files_with_faults_beside_the_picture_are_read(program):
    """Bytes behind the end of a file, behind its zlib stream and behind its last row are ignored,
    with a warning; so are a wrong check sum of a chunk that readers need not know, several pHYs
    and a zlib stream without its check sum, or a part of it, and the place of pHYs without one.
    The picture itself is not touched: a wrong check sum of image data is an error."""
    warning = (b"goqlanis: warning: standard input has extra or faulty data beside its picture, "
               b"which is ignored\n")
    density = bytes(3) + b"\1" + bytes(3) + b"\1\1"
    for command, name in (("read", "one.pbm"), ("check", "one.pbm"), ("check", "run.pbm")):
        whole, row = png.file_of(SYMBOLS[name], 0, 8), bytes(1 + 3 * (21 + 8))
        dense = png.with_chunk(whole, b"pHYs", density)
        ways = ((whole + b"PK\5\6" + bytes(18), True),
                (png.with_stream(whole, lambda it: it + b"\0"), True),
                (png.with_stream(whole, lambda it: zlib.compress(zlib.decompress(it) + row)), True),
                (whole.replace(b"a code", b"a mode"), True),
                (png.with_chunk(dense, b"pHYs", density), True),
                (png.with_stream(whole, lambda it: it[:-4]), True),
                (png.with_stream(whole, lambda it: it[:-1]), True),
                (png.with_chunk(whole, b"pHYs", bytes(8) + b"\1", b"IDAT"), False))
        own = run(program, [command], "/", whole)
        yield own.stdout and not own.stderr and all(
            (ran.returncode, ran.stdout, ran.stderr) == (own.returncode, own.stdout, warning * has)
            for ran, has in ((run(program, [command], "/", it), has) for it, has in ways))


def _with_empty_block(stream):
    """Returns a zlib stream with an empty block first, of which only the end has a code."""
    lengths = "".join({2: "100", 3: "010", 17: "010"}.get(at, "000") for at in range(18))
    zeros = "0" + "1111111" + "0" + "1101011"
    bits = "001" + "00000" + "00000" + "0111" + lengths + zeros + "11" + "10" + "0" + "000"
    bits = bits.ljust((len(bits) + 7) // 8 * 8, "0")
    block = bytes(int(bits[at:at + 8][::-1], 2) for at in range(0, len(bits), 8))
    made = stream[:2] + block + b"\0\0\xff\xff" + stream[2:]
    assert zlib.decompress(made) == zlib.decompress(stream)
    return made


def png_files_are_read_as_the_standard_says(program):
    """Of 16 bits the higher 8 count: 0x8000 is 128, which is light if the lightest pixel is 255. A
    palette and its transparency have no entry too many, and the zlib window is at most 32,768."""
    rows, corner = SYMBOLS["one.pbm"], iter([[0xffff]])
    text = run(program, ["read"], "/", png.file_of(rows, 0, 1)).stdout
    grey = png.file_of(rows, 0, 16, 0, lambda *it: [0] if it[2] else next(corner, [0x8000]))
    plain, palette = png.file_of(rows, 0, 8), png.file_of(rows, 3, 1)
    empty = png.with_stream(plain, _with_empty_block)
    long = png.joined((kind, body + bytes(3) * (kind == b"PLTE"))
                      for kind, body in png.chunks(palette))
    for given, said in (
            (grey, b""), (empty, b""), (long, b"not valid"),
            (png.with_chunk(palette, b"tRNS", b"\xff\xff", b"PLTE"), b""),
            (png.with_chunk(palette, b"tRNS", b"\xff\xff\xff", b"PLTE"), b"not valid"),
            (png.with_stream(plain, lambda it: b"\x88\x1c" + it[2:]), b"damaged"),
            (png.with_stream(plain, lambda it: it[:2] + b"\7" + it[3:]), b"damaged"),
            (png.with_stream(plain, lambda it: it[:-1] + bytes([it[-1] ^ 1])), b"damaged")):
        ran = run(program, ["read"], "/", given)
        yield (ran.returncode, ran.stdout) == ((1, b"") if said else (0, text))
        yield said in ran.stderr and bool(said) == bool(ran.stderr)
    yield text != b""


def a_percent_sign_is_a_separator_behind_fnc1_alone(program):
    """So it is with any other headers too."""
    rows = {name[6:].encode(): it for name, it in SYMBOLS.items() if name.startswith("bytes ")}
    read = [run(program, ["read"], "/", file_of(it, 4, 2)).stdout for it in rows.values()]
    return len(read) == 4 and read == [*rows]


def _tiled(rows, count, pitch, above=()):
    """Returns a PBM file of `count` by `count` copies of a square, each `pitch` pixels from the
    last, and of rows above them. A dark line at the end keeps it from being a single square in an
    even margin."""
    above = [it + [0] * (pitch * count - len(it)) for it in above]
    wide = [(it + [0] * (pitch - len(it))) * count for it in rows]
    wide += [[0] * (pitch * count)] * (pitch - len(rows))
    wide = above + wide * count + [[1] * (pitch * count)]
    return plain([[0] * (pitch * count), *wide])


def crowded_pages_are_read(program):
    """All of 121 codes are read, one above 1,024 finder patterns, though more squares have three of
    these than are tried, and nothing in noise."""
    code = square(program, "-v", "1", "hi")
    finder = [it[:7] for it in code[:7]]
    noise = b"P4\n400 400\n" + random.Random(1).randbytes(20000)
    for picture, said in ((_tiled(code, 11, 29), b"hi\n" * 121), (noise, b""),
                          (_tiled(finder, 32, 9, code + [[]] * 4), b"hi")):
        ran = run(program, ["read"], "/", picture)
        yield ran.stdout == said and ran.returncode == (not said)


def boards_take_seconds(program):
    """In boards of 4,096 by 4,096 pixels, with fields of one pixel and of two by one, all runs are
    equally long. None is taken for a finder pattern. Of 262,144 finder patterns side by side no
    three belong to a code. So six seconds of a processor are plenty."""
    finder = [0xfe, 0x82, 0xba, 0xba, 0xba, 0x82, 0xfe, 0]
    for rows in ([0x55, 0xaa], [0x33, 0xcc], finder):
        board = b"".join(bytes([it] * 512) for it in rows) * (4096 // len(rows))
        ran = run(program, ["read"], "/", b"P4\n4096 4096\n" + board, preexec_fn=lambda:
                  resource.setrlimit(resource.RLIMIT_CPU, (6, 6)))
        yield (ran.returncode, ran.stdout) == (1, b"")


def _lines_read(program, picture):
    return sorted(run(program, ["read"], "/", picture).stdout.decode().splitlines())


def large_codes_beside_other_things_are_read(program):
    """Two pages of each version from 30 to 40, one with a Micro QR code beside it."""
    for version in range(30, 41):
        for number in (3, 4):
            file, texts = crowds.made(program, version, number)
            yield _lines_read(program, file) == sorted(texts)


def _beside(*codes):
    high = max(map(len, codes))
    tall = [it + [[0] * len(it)] * (high - len(it)) for it in codes]
    rows = [sum([[0] * 4 + row for row in line], []) + [0] * 4 for line in zip(*tall)]
    blank = [[0] * len(rows[0])] * 4
    return [*blank, *rows, *blank]


def _stretched(pixels, modules, rows):
    """Returns a PBM file of rows of modules, at so many pixels for so many modules."""
    wide = [[row[x * modules // pixels] for x in range(len(row) * pixels // modules)]
            for row in rows]
    ink = [wide[y * modules // pixels] for y in range(len(rows) * pixels // modules)]
    return plain(ink)


def codes_of_uneven_pixels_beside_another_are_read(program):
    """At two and a half pixels a module M1, version 40, version 20 with three finder patterns among
    its data or half of a timing pattern wrong, and version 1 with twelve wrong modules in a finder
    pattern; at 1.2 pixels version 1, and at two one with a wrong module in the middle row of it."""
    other = square(program, "-v", "1", "hi")
    decoyed, spoilt = (square(program, "-v", "20", "-l", "H", "decoys") for _ in range(2))
    pierced, bored = (square(program, "-v", "1", "pierced") for _ in range(2))
    pierced[3][1] ^= 1
    for x, y in (*CORNERS, (2, 1), (4, 1), (2, 5), (4, 5)):
        bored[y][x] ^= 1
    for row, line in zip(decoyed, other[:8]):
        for left in (21, 39, 57):
            row[left:left + 9] = [0, *line[:7], 0]
    for place in range(10, 90, 2):
        spoilt[6][place] ^= 1
    for code, pixels, modules, said in (
            (square(program, "-v", "M1", "12"), 5, 2, "12"), (decoyed, 5, 2, "decoys"),
            (square(program, "-v", "40", "large"), 5, 2, "large"), (spoilt, 5, 2, "decoys"),
            (square(program, "-v", "1", "small"), 6, 5, "small"), (pierced, 2, 1, "pierced"),
            (bored, 5, 2, "pierced")):
        page = _stretched(pixels, modules, _beside(code, other))
        yield _lines_read(program, page) == sorted([said, "hi"])


def a_hundred_codes_of_uneven_pixels_are_read_in_order(program):
    """From left to right and from top to bottom, at two and a half pixels a module."""
    codes = [square(program, "-v", "1", f"{it:02}") for it in range(100)]
    rows = [row for at in range(0, 100, 10) for row in _beside(*codes[at:at + 10])]
    ran = run(program, ["read"], "/", _stretched(5, 2, rows))
    return ran.stdout.decode().split() == [f"{it:02}" for it in range(100)]


def light_codes_at_an_angle_are_read(program):
    """Those of slanted.pbm with dark and light swapped, in a light frame."""
    rows = [[1 - int(it) for it in line] for line in FILES["slanted.pbm"].decode().split("\n")[2:]]
    rows = [[0] * 204, *([0, 0, *row, 0, 0] for row in rows), [0] * 204]
    return run(program, ["read"], "/", plain(rows)).stdout == b"half one\nhalf two\n"


def a_quarter_of_a_turned_finder_pattern_may_be_wrong(program):
    """Its corners, those of its light ring, and the middles of its sides: twelve modules that lines
    through its middle across, down and along the diagonals of the picture do not cross."""
    rows = [[*row] for row in SYMBOLS["one.pbm"]]
    for x, y in (*CORNERS, (3, 0), (0, 3), (6, 3), (3, 6)):
        rows[y][x] ^= 1
    return run(program, ["read"], "/", slanted((rows, 100, 90, 22.5, 5))).stdout == b"half one"


def codes_that_nearly_touch_are_read(program):
    """One pixel below and to the right of a code of four pixels a module stand two of one pixel."""
    texts = ["large", "below", "beside"]
    large, below, beside = (square(program, "-v", "1", it) for it in texts)
    rows = [[ink for ink in row for _ in range(4)] + [0] for row in large for _ in range(4)]
    rows = [row + more for row, more in zip(rows, beside + [[0] * 21] * 63)]
    rows += [[0], *below]
    rows = [[0] * 4 + row + [0] * (110 - len(row)) for row in [[]] * 4 + rows + [[]] * 4]
    return _lines_read(program, plain(rows)) == sorted(texts)


def no_micro_code_is_read_inside_an_unread_code(program):
    """A code with a Micro QR code over its data, too large to be corrected, is not read at all."""
    rows = square(program, "-v", "5", "-l", "L", "unread")
    for row in rows[10:27]:
        row[10:27] = [0] * 17
    for row, line in zip(rows[12:], square(program, "-v", "M2", "12")):
        row[12:25] = line
    ran = run(program, ["read"], "/", file_of(rows, 4, 3))
    return (ran.returncode, ran.stdout) == (1, b"") and b"37 by 37 modules" in ran.stderr


def damaged_micro_codes_alone_are_read_in_any_margin(program):
    """Micro QR codes with as many wrong codewords as can be corrected, some more than a reader
    corrects on a page. Their margins are no whole modules of 8 pixels, or differ."""
    for version in ("M1", "M2", "M3", "M4"):
        rows = square(program, "damage", "--seed", "1", "-v", version, "12345")
        wide = [[it for it in row for _ in range(8)] for row in rows for _ in range(8)]
        for left, top, right, bottom in ((19, 19, 19, 19), (1, 1, 1, 1), (3, 16, 5, 9)):
            across = left + len(wide) + right
            lines = [[0] * left + it + [0] * right for it in wide]
            lines = [*[[0] * across] * top, *lines, *[[0] * across] * bottom]
            yield run(program, ["read"], "/", plain(lines)).stdout == b"12345"


def wrong_codewords_of_micro_codes_on_a_page(program):
    """On a page one is corrected in M2 but none in M1, as the standard says; in a picture of a
    single code, one is corrected in M1 too, with a warning."""
    for version, wrong, on_page in (("M1", 0, b"12"), ("M1", 1, b""), ("M2", 1, b"12")):
        rows = square(program, "-v", version, "12")
        rows[-1][-1] ^= wrong
        ran = run(program, ["read"], "/", _tiled(rows, 1, 20))
        alone = run(program, ["read"], "/", file_of(rows, 2, 4))
        is_warned = b"warning: version M1" in alone.stderr
        yield (ran.stdout, ran.returncode, alone.stdout) == (on_page, not on_page, b"12")
        yield is_warned == ((version, wrong) == ("M1", 1))
