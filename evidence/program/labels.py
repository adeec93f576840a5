"""Carries out the commands of label printers as a printer would, by the makers' manuals (TSC
"TSPL/TSPL2 Programming"; Zebra "ZPL II Programming Guide", ^GF); finds the place of the picture and
its rows of dots."""
import re


def rows_of(bits, across, count):
    """Splits bits into `count` rows of `across` bytes; the highest bit is the first dot."""
    assert len(bits) == across * count
    return [[byte >> (7 - i) & 1 for byte in bits[y * across:(y + 1) * across] for i in range(8)]
            for y in range(count)]


def tspl(file):
    """Carries out TSPL: the size of a label, which is cleared, a BITMAP x,y,width,height,mode of
    width bytes across and height rows, and PRINT. In mode 0 (OVERWRITE) a dot is printed if its
    bit is 0."""
    head = re.match(rb"SIZE (\d+) dot,(\d+) dot\r\nCLS\r\nBITMAP (\d+),(\d+),(\d+),(\d+),0,", file)
    width, height, left, top, across, count = map(int, head.groups())
    data = file[head.end():].removesuffix(b"\r\nPRINT 1\r\n")
    label = [[1 - dot for dot in row] for row in rows_of(data, across, count)]
    assert top + count == height and not any(any(row[width - left:]) for row in label)
    return (left, top), label


def repeated(run):
    return run[2] * sum(ord(it) - 70 if it < "a" else 20 * (ord(it) - 102) for it in run[1])


def zpl(file):
    """Carries out ZPL II. ^FOx,y places the field. ^GFA,b,c,d,data has b bytes in all, c in the
    field and d in a row. G to Y repeat the next digit 1 to 19 times, and g to z 20 to 400 times;
    `,` and `!` fill the row with 0 and 1, and `:` repeats the row before."""
    text = re.fullmatch(r"\^XA\^FO(\d+),(\d+)\^GFA,(\d+),(\d+),(\d+),([^^~]*)\^FS\^XZ\s*",
                        file.decode("ascii"))
    left, top, total, field, across = map(int, text.groups()[:5])
    assert total == field
    plain = re.sub("([G-Yg-z]+)([0-9A-F])", repeated, text[6])
    parts = re.findall(rf":|[0-9A-F]{{{2 * across}}}|[0-9A-F]*[,!]", plain)
    assert "".join(parts) == plain
    rows = []
    for part in parts:
        row = part.rstrip(",!").ljust(2 * across, "F" if part[-1] == "!" else "0")
        rows.append(rows[-1] if part == ":" else row)
    assert len(rows) * across == total
    return (left, top), rows_of(bytes.fromhex("".join(rows)), across, len(rows))
