"""Creates and reads QR and Micro QR codes with a library that is proved correct.

`encode` makes a symbol of a str or bytes, and `save` writes it to a file, completely or not at all;
goqlanis.contents writes the text for Wi-Fi networks, contacts, payments and more. `read` reads the
codes of a picture, a symbol or a square of modules:

>>> import goqlanis
>>> symbol = goqlanis.encode(goqlanis.contents.wifi("Guests", "secret12"), "H")
>>> symbol.version, symbol.level, symbol.width
('4', 'H', 33)
>>> symbol.save("code.png", scale=8, border=4, dark="#008", light=None, dpi=300)
>>> [code.text for code in goqlanis.read("code.png")]
['WIFI:T:WPA;S:Guests;P:secret12;;']

Each reason why the library rejects something is a subclass of goqlanis.Error (help(goqlanis.errors)
lists them), and its message says what would help. help(goqlanis.encode), help(goqlanis.Symbol) and
help(goqlanis.contents) explain all options, help(goqlanis.Code) and help(goqlanis.Reading) what is
read, help(goqlanis.Check) what is checked. docs/PYTHON.md has more examples.
"""
from typing import TYPE_CHECKING

from . import contents
from ._checks import Version as Version
from .areas import Rectangle as Rectangle
from .areas import Reserve as Reserve
from .checking import Check as Check
from .checking import check
from .encoding import (encode, encode_gs1, encode_segments, encode_sequence, encode_text,
                       is_functional, smallest_scale, smallest_version,
                       smallest_version_of_segments)
from .errors import *  # noqa: F403 - its __all__ alone
from .exams import Question as Question
from .exams import exam
from .reading import AnyReading as AnyReading
from .reading import Code as Code
from .reading import Missed as Missed
from .reading import Part as Part
from .reading import Reading as Reading
from .reading import join, missed, read, read_any, read_text
from .symbol import Symbol

__version__ = "1.0.0"
__all__ = ["contents", "Symbol", "encode", "encode_sequence", "encode_segments", "encode_gs1",
           "encode_text", "read", "read_any", "read_text", "join", "missed", "check", "exam",
           "smallest_version", "smallest_version_of_segments", "smallest_scale", "is_functional"]

# The names that other packages use, and what to use here.
_HERE = {"make": "encode(data)", "make_qr": "encode(data)", "QRCode": "encode(data)",
         "QrCode": "encode(data)", "make_micro": "encode(data, micro=True)",
         "make_sequence": "encode_sequence(data)", "split": "encode_sequence(data)",
         "helpers": "contents", "epc": "contents.payment", "email": "contents.mail",
         **{name: f"contents.{name}" for name in contents.__all__}}

if not TYPE_CHECKING:
    def __getattr__(name):
        """Raises AttributeError, which says what to use instead of a name of another package."""
        helps = f": take goqlanis.{_HERE[name]}" if name in _HERE else ""
        raise AttributeError(f"module 'goqlanis' has no attribute {name!r}{helps}")
