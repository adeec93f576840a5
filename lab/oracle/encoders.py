"""Asks other encoders for symbols: Debian 12's python3-segno (1.4.1), python3-qrcodegen (1.8.0),
zint (2.11.1) and qrencode (4.1.1). A part of data is ("numeric", bytes), ("eci", number) and so
on; a version of Normal is a number, one of Micro a text such as "M1". Symbols are rows of # and .
"""
import itertools

import qrcodegen
import segno
from questions import MODES, rows_of, zint_rows
from segno import consts
from segno import encoder as segno_encoder
from shown import file_with, output

LEVELS = "LMQH"
NORMAL = [*itertools.product(range(1, 41), LEVELS)]
MICRO_LEVELS = {1: "L", 2: "LM", 3: "LM", 4: "LMQ"}
MICRO = [(version, level) for version, levels in MICRO_LEVELS.items() for level in levels]
Code, Segment = qrcodegen.QrCode, qrcodegen.QrSegment
GEN_LEVELS = dict(zip(LEVELS, (Code.Ecc.LOW, Code.Ecc.MEDIUM, Code.Ecc.QUARTILE, Code.Ecc.HIGH)))
SEGNO_LEVELS = {level: getattr(consts, f"ERROR_LEVEL_{level}") for level in LEVELS}
SEGNO_MODES = {mode: getattr(consts, f"MODE_{mode.upper()}") for mode in MODES}


def gen_segment(mode, value):
    if mode == "eci":
        return Segment.make_eci(value)
    if mode == "numeric":
        return Segment.make_numeric(value.decode())
    if mode == "alphanumeric":
        return Segment.make_alphanumeric(value.decode())
    if mode == "byte":
        return Segment.make_bytes(value)
    # qrcodegen for Python has no call for Kanji: segno makes their bits
    found = segno_encoder.make_segment(value, consts.MODE_KANJI)
    return Segment(Segment.Mode.KANJI, found.char_count, list(found.bits))


def gen(version, level, parts, mask=-1):
    """Returns the mask and rows of qrcodegen's symbol."""
    code = Code.encode_segments([gen_segment(*part) for part in parts], GEN_LEVELS[level], version,
                                version, mask, False)
    return code.get_mask(), rows_of(code._modules)


def seg(version, level, parts, mask=None):
    code = segno.make([(value, SEGNO_MODES[mode]) for mode, value in parts], version=version,
                      error=level, mask=mask, boost_error=False, micro=isinstance(version, str))
    return rows_of(code.matrix)


def with_file(data, command):
    """Returns the output of a command that is given a file of data as its last word."""
    with file_with(data) as path:
        return output(*command, path).decode()


def zint_words(version, level, *flags):
    kind, number = ("MICROQR", version[1:]) if isinstance(version, str) else ("QRCODE", version)
    return ["zint", "-b", kind, f"--vers={number}", f"--secure={LEVELS.index(level) + 1}", *flags]


def zint(version, level, data, *flags):
    """Returns zint's symbol of UTF-8 text, or of bytes with the flag --binary."""
    return zint_rows(with_file(data, [*zint_words(version, level, *flags), "--dump", "-i"]))


def qrencode_words(version, level, *flags):
    number, micro = (version[1:], ["-M"]) if isinstance(version, str) else (str(version), [])
    return ["qrencode", "-v", number, "-l", level, *"-t ASCII -m 0 -o -".split(), *micro, *flags]


def qrencode_rows(text):
    """Returns the rows of a symbol that qrencode writes as ASCII, without a quiet zone."""
    return [line[::2] for line in text.replace(" ", ".").split("\n") if line]


def qrencode(version, level, data, *flags):
    """Returns qrencode's symbol, whose version may be larger than `version`."""
    return qrencode_rows(output(*qrencode_words(version, level, *flags), data=data).decode())
