"""Symbols and their drawings."""
import base64
import ctypes
import io
import math
import os
import sys
import tempfile
import urllib.parse
import webbrowser
from dataclasses import dataclass, field, replace
from typing import IO, Any, Callable, Dict, Iterator, Optional, Tuple, Type, TypeVar, Union

from . import _checks, _drawing, _files, areas
from ._checks import named, shown, version_name
from ._drawing import Look
from ._library import Promised, Wrong, library
from .areas import Area, Logo, Rectangle, Reserve
from .errors import NoSuchSide, NotInFormat, refuse

Path = Union[str, bytes, "os.PathLike[str]"]
Whole = Optional[int]
Kind = TypeVar("Kind", str, bytes)
BLACK_ON_WHITE, USUAL_COLOURS = "\x1b[38;5;16;48;5;231m", "\x1b[0m"


def _method(name: str, kind: Type[Kind], said: str) -> Callable[..., Kind]:
    """Returns the method that draws a symbol in a format as a str or bytes."""
    def draw(self: "Symbol", scale: Whole = None, quiet_zone: Whole = None, **look: Any) -> Any:
        found = self._drawn(name, scale, quiet_zone, look)
        return found.decode() if issubclass(kind, str) else found
    draw.__name__, draw.__doc__ = name, said
    return named(draw)


@dataclass(frozen=True, repr=False)
class Symbol:
    """A QR or Micro QR symbol.

    `version` is "1" to "40" or "M1" to "M4", `level` is "L", "M", "Q" or "H", and `modules` has a
    byte for each module, row by row, 1 for a dark module; `charset` is the character set, if
    `encode` was given one or chose it; `is_promised` is False if `damaged` made more wrong than
    this library is promised to correct. Symbols with the same modules, version, level and logo are
    equal, and symbols can be members of sets.

    All methods that draw it take the same arguments, as far as the format has them (docs/PYTHON.md,
    "Drawing"): `scale`, pixels per module, by default 8, for text and PIC 1; or `size`, the most
    pixels of a side, or a length such as "30mm" (cm, in, pt); `border` or `quiet_zone`, by default
    4 modules, for Micro QR 2; `dark` and `light`, a CSS name, "#rgb", "#rrggbb", "#rrggbbaa", a
    tuple (red, green, blue) or (red, green, blue, opacity), or None for transparent; `finder_dark`,
    `finder_light` and so on for `alignment`, `timing`, `format`, `version` and `data`; `dpi`, which
    a PNG file states; `title` of an SVG file. Colours that many readers cannot tell apart give a
    UserWarning.

    With a logo, SVG can be drawn, with a PNG file also PNG, and half blocks with a light area.

    >>> symbol = encode("01234567")
    >>> symbol, symbol.width, symbol.mask
    (<goqlanis.Symbol 1-M>, 21, 2)
    >>> symbol == encode(b"01234567")
    True
    """
    modules: bytes
    version: str
    level: str
    logo: Optional[Logo] = None
    charset: Optional[str] = field(default=None, compare=False)
    is_promised: bool = field(default=True, compare=False)

    def __post_init__(self) -> None:
        number, modules = _checks.version(self.version), _checks.binary("modules", self.modules)
        width = library.goq_width(number)
        if len(modules) != width ** 2:
            raise NoSuchSide(f"modules: {len(modules):,} bytes: version {version_name(number)} has "
                             f"{width} rows of {width}, a byte for each module")
        object.__setattr__(self, "modules", modules)
        object.__setattr__(self, "version", version_name(number))

    @property
    def width(self) -> int:
        """The modules per side, without the quiet zone."""
        return math.isqrt(len(self.modules))

    @property
    def mask(self) -> int:
        """The number of the mask: 0 to 7, for Micro QR 0 to 3."""
        found = ctypes.c_uint32()
        refuse(library.goq_mask(self.modules, len(self.modules), ctypes.byref(found)))
        return found.value

    @property
    def matrix(self) -> Tuple[Tuple[bool, ...], ...]:
        """The rows of modules, True for a dark module, without the quiet zone.

        >>> encode("01234567").matrix[0][:8]
        (True, True, True, True, True, True, True, False)
        """
        rows = range(0, len(self.modules), self.width)
        return tuple(tuple(map(bool, self.modules[at:at + self.width])) for at in rows)

    @property
    def quiet_zone(self) -> int:
        """The width of the quiet zone that the standard requires, in modules: 4, for Micro QR 2."""
        return 2 if self.version.startswith("M") else 4

    def matrix_iter(self, scale: int = 1, border: Whole = None) -> Iterator[Tuple[bool, ...]]:
        """Yields the rows of the picture, True for a dark pixel, with the quiet zone."""
        pixels = self._plain("grey", Look(scale, border))
        side = math.isqrt(len(pixels))
        for at in range(0, len(pixels), side):
            yield tuple(pixel == 0 for pixel in pixels[at:at + side])

    @named
    def save(self, out: Union[Path, IO[Any]], kind: Optional[str] = None, *,
             scale: Whole = None, quiet_zone: Whole = None, **look: Any) -> None:
        """Writes the symbol to a file.

        `out` is a path, whose file is written completely or not at all, or a file that is open for
        writing. The file extension, or `kind`, selects the format, e.g. png, svg, pdf or txt (half
        blocks).

        Raises NoSuchKind, which names all formats, if neither selects one, NotInFormat if the
        format has no such colours, `dpi`, `title` or logo, NoSuchColour, NoSuchSize if the picture
        would be too large, and OSError if writing fails.

        >>> encode("01234567").save("ticket.png", scale=8, border=4, dark="#008", light=None)
        >>> encode("01234567").save("ticket.svg", size="30mm", title="A ticket", finder_dark="navy")
        """
        if not hasattr(out, "write") and not isinstance(out, (str, bytes, os.PathLike)):
            raise TypeError(f"out is a path or a file that is open for writing, not {shown(out)}")
        name = _drawing.kind_of(out, kind)
        data = self._drawn(name, scale, quiet_zone, look)
        data += b"\n" if name == "txt" else b""
        _files.write(out, data, _drawing.KINDS[name].is_text)

    png = _method("png", bytes, "Returns a PNG file, with at most 65,535 pixels a side.")
    svg = _method("svg", str, "Returns the text of an SVG file, which has one path.")
    eps = _method("eps", str, "Returns Encapsulated PostScript, with one point per pixel.")
    pdf = _method("pdf", bytes, "Returns a PDF file of one page, with one point per pixel.")
    pbm = _method("pbm", bytes, "Returns a PBM file: black and white pixels, eight per byte.")
    grey = _method("grey", bytes, "Returns pixels row by row, a byte each: 0 if dark, else 255.")
    pic = _method("pic", str, "Returns PIC text, for troff.")

    def text(self, light: bool = False, quiet_zone: Whole = None, *, border: Whole = None) -> str:
        """Returns half blocks, two modules per character; `light` is for light text on a dark
        background.

        >>> print(encode("1", "L", micro=True).text(border=0))
        █▀▀▀▀▀█ █ ▀
        █ ███ █ ▄▀▀
        █ ▀▀▀ █  ▀▀
        ▀▀▀▀▀▀▀ ▄▀█
        ▀█ ▄▄█▄▄▄▀█
        ▀▀▀▀▀▀▀▀ ▀▀
        """
        if not isinstance(light, bool):
            raise TypeError(f"light is True or False, not {shown(light)}: half blocks have no "
                            "colours")
        name = "light" if light else "txt"
        return self._plain(name, Look(1, border, quiet_zone)).decode()

    def show(self, **look: Any) -> None:
        """Shows the symbol in the web browser, as a temporary SVG file."""
        with tempfile.NamedTemporaryFile("w", suffix=".svg", delete=False) as file:
            file.write(self.svg(**look))
        webbrowser.open(f"file://{file.name}")

    def terminal(self, out: Optional[IO[str]] = None, *, border: Whole = None) -> None:
        """Prints the symbol, or writes it to `out`, as half blocks.

        On a terminal they are black on white, whatever its colours are, unless the environment
        variable NO_COLOR is set.
        """
        out = sys.stdout if out is None else out
        if out is None:
            raise ValueError("there is no standard output: give terminal a file that is open")
        lines = self.text(border=border).split("\n")
        if out.isatty() and not os.environ.get("NO_COLOR"):
            lines = [f"{BLACK_ON_WHITE}{line}{USUAL_COLOURS}" for line in lines]
        out.write("\n".join(lines) + "\n")

    def to_pil(self, **look: Any) -> Any:
        """Returns the picture of `png` as a Pillow image, e.g. `symbol.to_pil(scale=4).rotate(45)`.

        Raises ImportError if Pillow is not installed."""
        picture = io.BytesIO(self.png(**look))
        try:
            from PIL import Image
        except ImportError:
            raise ImportError("to_pil needs Pillow: pip install pillow, or take png()") from None
        return Image.open(picture)

    def svg_inline(self, **look: Any) -> str:
        """Returns the text of `svg` without the XML declaration, for an HTML page."""
        return self.svg(**look).partition("?>")[2]

    def svg_data_uri(self, **look: Any) -> str:
        """Returns the SVG as a data URI, for `src` and `href` in HTML and `url(..)` in CSS."""
        return "data:image/svg+xml," + urllib.parse.quote(self.svg_inline(**look), safe="/:=,")

    def png_data_uri(self, **look: Any) -> str:
        """Returns the bytes of `png` as a data URI."""
        return "data:image/png;base64," + base64.b64encode(self.png(**look)).decode()

    @named
    def reserve(self, area: Area) -> Reserve:
        """Returns how much of the symbol an area takes, and what is left.

        `area` is a `Rectangle`, or four numbers: left, top, width, height; or several of these.
        Raises NoSuchArea if a rectangle is not inside the symbol, or there is none.

        >>> encode("01234567", "H").reserve((10, 10, 1, 1))
        Reserve(touched=(1,), allowed=8, worst=0, format_modules=(0, 0), least=7)
        """
        return areas.reserve(*self._pair(), area)

    @named
    def largest_area(self, ratio: Tuple[int, int] = (1, 1), *, reserve: Whole = None,
                     keep_alignment: bool = False) -> Rectangle:
        """Returns the largest rectangle in the middle that may show anything, e.g. a logo.

        Its width and height are in the proportion `ratio`, e.g. (16, 9). Next to it, each block can
        still correct `reserve` wrong codewords, by default half of those that it can. It covers no
        patterns, except alignment patterns if `keep_alignment` is False.

        Raises AreaTooLarge if there is no such rectangle.

        >>> encode("01234567", "H").largest_area(reserve=0)
        Rectangle(left=9, top=9, width=3, height=3)
        """
        return areas.largest(*self._pair(), ratio, reserve, keep_alignment)

    @named
    def with_area(self, area: Optional[Area] = None) -> "Symbol":
        """Returns the symbol with a light area, by default the largest one (`largest_area()`).

        Whatever the area then shows, the symbol still decodes to the same data and nothing else.
        Raises NoSuchArea as `reserve` does, and AreaTooLarge if the area takes more of the symbol
        than may be lost.

        >>> read(encode("01234567", "H").with_area()).data
        b'01234567'
        """
        area = self.largest_area() if area is None else area
        modules = areas.covered(self.modules, *self._pair(), area)
        return replace(self, modules=modules)

    @named
    def with_logo(self, logo: Union[Path, bytes], area: Optional[Rectangle] = None, *,
                  margin: int = 1, reserve: Whole = None, keep_alignment: bool = False) -> "Symbol":
        """Returns the symbol with a logo: the path or the bytes of an SVG or PNG file.

        `area` is a rectangle, by default the largest one in the ratio of the logo, for which
        `reserve` and `keep_alignment` are as for `largest_area`. SVG shows the logo, and PNG a PNG
        file, with `margin` light modules on each side if there is room; half blocks leave the area
        light. Other formats raise NotInFormat: for these take `with_area`.

        Raises NoSuchArea or AreaTooLarge as `with_area` does, and NotPicture if `logo` is neither.

        >>> logo = b'<svg xmlns="http://www.w3.org/2000/svg" viewBox="0 0 2 1"/>'
        >>> "<image " in encode("01234567", "H").with_logo(logo).svg()
        True
        """
        data, ratio = areas.loaded(logo)
        area = areas.rectangle(area) if area is not None else \
            self.largest_area(ratio, reserve=reserve, keep_alignment=keep_alignment)
        placed = areas.placed(data, area, _checks.whole("margin", margin, 0, 99))
        return replace(self.with_area(area), logo=placed)

    @property
    def most_codewords(self) -> int:
        """How many wrong codewords of each block this library is promised to correct."""
        return self._damaged(0, 0, 0, 0, 0)[1].codewords

    @named
    def damaged(self, codewords: int = 0, format_bits: int = 0, version_bits: int = 0, *,
                pattern_modules: int = 0, seed: int = 0) -> "Symbol":
        """Returns the symbol with exactly so much damage, to test readers.

        In each block `codewords` codewords are wrong, in each copy of the format information and,
        in versions 7 to 40, of the version information so many bits, and so many modules of finder,
        timing and alignment patterns and separators; no other module is. `seed` decides which. A
        whole symbol within the promise, whose `is_promised` stays True, still decodes to its data
        and nothing else: up to `most_codewords`, and 3 format bits.

        Raises TooMuchDamage if the symbol has fewer of them.

        >>> symbol = encode("01234567", "H").damaged(8, format_bits=3)
        >>> symbol.is_promised, read(symbol).data, read(symbol).wrong
        (True, b'01234567', 8)
        >>> encode("01234567", "H").damaged(9).is_promised
        False
        """
        given = {"codewords": codewords, "format_bits": format_bits, "version_bits": version_bits,
                 "pattern_modules": pattern_modules}
        counts = (_checks.whole(name, it, 0, 10000) for name, it in given.items())
        modules, found = self._damaged(*counts, _checks.whole("seed", seed, 0, 2**64 - 1))
        return replace(self, modules=modules,
                       is_promised=self.is_promised and found.is_promised == 1)

    def _damaged(self, *counts: int) -> Tuple[bytes, Promised]:
        """Returns the modules with so much damage, and how much is within the promise."""
        out, found = ctypes.create_string_buffer(self.modules, len(self.modules)), Promised()
        wrong = Wrong(ctypes.sizeof(Wrong), *counts)
        refuse(library.goq_damage(out, len(out), ctypes.byref(wrong), ctypes.byref(found)))
        return out.raw, found

    def _pair(self) -> Tuple[int, int]:
        return _checks.version(self.version), _checks.level(self.level)

    def _drawn(self, name: str, scale: Any, quiet_zone: Any, more: Dict[str, Any]) -> bytes:
        if self.logo is not None and not self._shows_logo(name):
            helps = "the logo is an SVG file: save it as PNG, or draw SVG" if name == "png" else \
                "SVG shows the logo, PNG if it is one; with_area leaves its area light in all"
            raise NotInFormat(f"{name.upper()}: {helps}")
        look, logo = Look(scale, quiet_zone=quiet_zone, **more), self.logo
        found = _drawing.drawn(self.modules, self.width, self.quiet_zone, name, look,
                               logo if name == "png" else None)
        zone = _drawing.zone_of(look, self.quiet_zone)
        return logo.over(found, zone) if logo and name == "svg" else found

    def _shows_logo(self, name: str) -> bool:
        return name == "svg" or name == "png" and (self.logo is None or self.logo.png is not None)

    def _plain(self, name: str, look: Look) -> bytes:
        """Draws the symbol without its logo."""
        return _drawing.drawn(self.modules, self.width, self.quiet_zone, name, look)

    def _repr_svg_(self) -> str:
        return self.svg()

    def _repr_png_(self) -> Optional[bytes]:
        return self.png() if self._shows_logo("png") else None

    def __str__(self) -> str:
        return self.text()

    def __repr__(self) -> str:
        return f"<goqlanis.Symbol {self.version}-{self.level}>"
