"""Compares drawings in which each part of a symbol has its own colour with the parts by segno."""
import re

import png

OPTIONS = {"F": "finder", "A": "alignment", "T": "timing", "W": "format", "V": "version",
           ".": "data"}
# The colours of dark and of light modules of each part.
INKS = {(letter, tone): f"#{10 * at + 5:02x}0028" if tone else f"#{250 - 10 * at:02x}e6c8"
        for at, letter in enumerate(OPTIONS) for tone in (1, 0)}
WORDS = [it for (letter, tone), ink in INKS.items()
         for it in (f"--{OPTIONS[letter]}-{'dark' if tone else 'light'}", ink)]
DARK, LIGHT = "#012345", "#fedcba"


def parts_of(path):
    """Returns the rows of lab/others/parts/types by version. segno names the module to the
    left of the second copy of the format word as part of it, but draws data there, as the standard
    says."""
    with open(path, encoding="ascii") as it:
        sheets = re.findall(r"^\$ (\S+)\n((?:[^$\n]+\n)+)", it.read(), re.MULTILINE)
    found = {version: rows.split() for version, rows in sheets}
    for version, rows in found.items():
        if version[0] != "M":
            at = len(rows) - 9
            assert rows[8][at:] == 9 * "W"
            rows[8] = rows[8][:at] + "." + rows[8][at + 1:]
    return found


def rgb(name):
    return tuple(bytes.fromhex(name[1:]))


def png_cells(file, scale):
    """Returns the colours of the modules of a PNG file, or None if a module has two."""
    dots = png.pixels_of(file)
    cells = [line[::scale] for line in dots[::scale]]
    whole = [[it for it in line for _ in range(scale)] for line in cells for _ in range(scale)]
    opaque = all(it[3] == 255 for line in cells for it in line)
    return [[it[:3] for it in line] for line in cells] if whole == dots and opaque else None


def rectangles(path):
    """Yields left, top, width and height of the subpaths of a path, which are rectangles."""
    x = y = 0
    for subpath in re.findall("[Mm][^Mm]*", path):
        corners = []
        for letter, body in re.findall(r"([MmhvHV])([^MmhvHV]*)", subpath):
            numbers = [int(it) for it in re.findall(r"-?\d+", body)]
            if letter in "Mm":
                x, y = (x + numbers[0], y + numbers[1]) if letter == "m" else numbers
            elif letter in "hH":
                x = numbers[0] + (x if letter == "h" else 0)
            else:
                y = numbers[0] + (y if letter == "v" else 0)
            corners.append((x, y))
        across, down = zip(*corners)
        yield min(across), min(down), max(across) - min(across), max(down) - min(down)


def svg_cells(text, side):
    """Returns the colours of the modules of an SVG drawing, with `side` modules a side."""
    cells = [[None] * side for _ in range(side)]
    units, sides = [], []
    for name, rest in re.findall(r"<(/?\w+)([^>]*)>", text.split("?>")[1]):
        given = dict(re.findall(r'(\w+)="([^"]*)"', rest))
        if name == "svg":
            # The side of this element in modules, and the modules of one of its units.
            whole = int(given["width"]) * units[-1] if units else side
            units.append(whole / int(given["viewBox"].split()[2]))
            sides.append(whole)
        elif name == "/svg":
            units.pop()
        elif given["fill"] != "none":
            found = [(0, 0, int(given["width"]), int(given["height"]))] if name == "rect" \
                else rectangles(given["d"])
            for place in found:
                fill(cells, [round(it * units[-1], 6) for it in place], rgb(given["fill"]))
    return cells if sides and set(sides) == {side} else None


def fill(cells, place, color):
    left, top, width, height = map(int, place)
    assert [left, top, width, height] == place
    for y in range(top, top + height):
        for x in range(left, left + width):
            cells[y][x] = color


def eps_cells(text, side, scale):
    """Returns the colours of the modules of an EPS drawing, which counts rows from the top."""
    cells = [[None] * side for _ in range(side)]
    color = None
    for line in text.splitlines():
        words = line.split()
        if words[-1:] == ["setrgbcolor"]:
            color = tuple(int(it) for it in words[::3][:3])
        elif words[-1:] == ["setgray"]:
            color = 3 * (int(words[0]),)
        elif words[-1:] == ["rectfill"]:
            fill(cells, [int(it) / scale for it in words[:4]], color)
    return cells


def pdf_cells(file, side):
    """Returns the colours of the modules of a PDF file, whose unit is a module, from the top."""
    cells = [[None] * side for _ in range(side)]
    color, boxes = None, []
    for word in file.split(b"stream\n")[1].decode().split("\n"):
        if word.endswith(" rg"):
            color = tuple(round(255 * float(it)) for it in word.split()[:3])
        elif word.endswith(" g"):
            color = 3 * (round(255 * float(word.split()[0])),)
        elif " re" in word:
            boxes.append([int(it) for it in word.split()[:4]])
        if word.endswith("f"):
            for found in boxes:
                fill(cells, found, color)
            boxes = []
    return cells


def wanted(rows, letters, zone, is_inverted):
    """Returns the expected colours: of modules by their parts, and light for the quiet zone."""
    light = rgb(DARK if is_inverted else LIGHT)
    across = len(rows) + 2 * zone
    inner = [[light] * zone + [rgb(INKS[letter, tone != is_inverted]) for letter, tone
                               in zip(line, row)] + [light] * zone for line, row in zip(letters, rows)]
    return [[light] * across] * zone + inner + [[light] * across] * zone


def are_drawn(run, path):
    """Whether each module has the colour of its part; `run` runs a command line."""
    for version, letters in parts_of(path).items():
        plain = ["-v", version, "-l", "L", "12"]
        bits = run([*plain, "-f", "pbm", "-s", "8", "-q", "0"]).split(b"\n", 2)[2]
        width = len(letters)
        rows = [[bits[8 * y * width + x] & 1 for x in range(width)] for y in range(width)]
        for is_inverted in (False, True):
            words = [*plain, "-q", "3", "-s", "2", "--dark", DARK, "--light", LIGHT, *WORDS,
                     *["--invert"] * is_inverted]
            colors = wanted(rows, letters, 3, is_inverted)
            side = width + 6
            yield png_cells(run([*words, "-f", "png"]), 2) == colors
            yield svg_cells(run([*words, "-f", "svg"]).decode(), side) == colors
            yield eps_cells(run([*words, "-f", "eps"]).decode(), side, 2) == colors
            yield pdf_cells(run([*words, "-f", "pdf"]), side) == colors
