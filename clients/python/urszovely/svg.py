"""A page of SVG as text. The same calls give the same bytes on every machine: coordinates are whole or halves, and nothing is compressed."""
import struct
import zlib
from base64 import b64encode
from typing import List, Optional, Sequence, Tuple, Union
from xml.sax.saxutils import escape

Number = Union[int, float]

INK, SOFT, EDGE, PAPER, EMPTY = "#1f2933", "#52606d", "#7b8794", "#ffffff", "#f4f6f8"
RED, DARK, GREEN, OUTSIDE = "#b42318", "#4a0a05", "#0b6b4b", "url(#urszovely-outside)"
ZERO = "url(#urszovely-zero)"
SANS = "'Segoe UI','Helvetica Neue','DejaVu Sans',Arial,sans-serif"
MONO = "Consolas,'DejaVu Sans Mono',Menlo,monospace"
SMALLEST = 9

# Along the rows of a matrix from blue over green to amber, along its columns from light to dark: no red, which is kept for clashes, and no two ends
# that only differ in red and green.
_LIGHT = ((224, 234, 252), (214, 238, 243), (219, 241, 222), (240, 242, 208), (252, 236, 200))
_DEEP = ((134, 174, 236), (112, 192, 208), (124, 202, 140), (201, 205, 102), (238, 184, 78))

_DEFS = (
    '<defs><pattern id="urszovely-outside" width="8" height="8" patternUnits="userSpaceOnUse" patternTransform="rotate(45)">'
    '<rect width="8" height="8" fill="#fff5f3"/><rect width="3" height="8" fill="#f3c3bc"/></pattern>'
    '<pattern id="urszovely-zero" width="6" height="6" patternUnits="userSpaceOnUse" patternTransform="rotate(45)">'
    '<rect width="6" height="6" fill="#323f4b"/><rect width="2" height="6" fill="#4b5a68"/></pattern></defs>'
)


def _between(low: Sequence[int], high: Sequence[int], part: int, whole: int) -> Tuple[int, ...]:
    return tuple((a * (whole - part) + b * part) // whole for a, b in zip(low, high))


def shade(row: int, rows: int, column: int, columns: int) -> Tuple[int, ...]:
    """The colour of a place of a matrix, in whole numbers."""
    steps, last = max(rows - 1, 1), len(_LIGHT) - 1
    stop, part = divmod(row * last, steps)
    after = min(stop + 1, last)
    light = _between(_LIGHT[stop], _LIGHT[after], part, steps)
    deep = _between(_DEEP[stop], _DEEP[after], part, steps)
    return _between(light, deep, column, max(columns - 1, 1))


def colour(rgb: Sequence[int]) -> str:
    return "#%02x%02x%02x" % tuple(rgb)


class Picture(str):
    """An SVG as text, which a notebook shows."""

    def written(self, path: Optional[str]) -> "Picture":
        """Itself, after it is written to a file where a path is given."""
        if path is not None:
            with open(path, "w", encoding="utf-8", newline="\n") as file:
                file.write(self)
        return self

    def _repr_svg_(self) -> str:
        return str(self)

    def __repr__(self) -> str:
        return f"<picture of {len(self):,} bytes>"


def wrapped(text: str, most: int) -> List[str]:
    """A text in lines of at most so many letters, parted after a space, a comma or a plus."""
    lines, line = [], ""
    for piece in text.replace(",", ",\0").replace("+", "+\0").replace(" ", " \0").split("\0"):
        if line and len(line + piece.rstrip()) > most:
            lines.append(line.rstrip())
            line = ""
        line += piece
    return lines + [line.rstrip()]


def _stored(data: bytes) -> bytes:
    """Bytes as a stream that is not compressed, which is the same with every version of every library."""
    parts = [b"\x78\x01"]
    for at in range(0, len(data), 65535):
        piece = data[at : at + 65535]
        parts.append(struct.pack("<BHH", at + 65535 >= len(data), len(piece), 65535 - len(piece)) + piece)
    return b"".join(parts) + struct.pack(">I", zlib.adler32(data))


def png(rows: Sequence[bytes], palette: Sequence[Sequence[int]]) -> bytes:
    """An image, a byte a pixel: its place in the palette."""
    def chunk(kind: bytes, data: bytes) -> bytes:
        return struct.pack(">I", len(data)) + kind + data + struct.pack(">I", zlib.crc32(kind + data))

    head = struct.pack(">IIBBBBB", len(rows[0]), len(rows), 8, 3, 0, 0, 0)
    colours = b"".join(bytes(rgb) for rgb in palette)
    data = _stored(b"".join(b"\0" + row for row in rows))
    return b"\x89PNG\r\n\x1a\n" + chunk(b"IHDR", head) + chunk(b"PLTE", colours) + chunk(b"IDAT", data) + chunk(b"IEND", b"")


def _attributes(**given: object) -> str:
    return "".join(f' {name.rstrip("_").replace("_", "-")}="{value:g}"' if isinstance(value, (int, float)) else f' {name.rstrip("_").replace("_", "-")}="{value}"'
                   for name, value in given.items() if value is not None)


class Page:
    """What is drawn, one after the other, on a page that grows with it."""

    def __init__(self) -> None:
        self.parts: List[str] = []
        self.width: Number = 0
        self.height: Number = 0

    def grow(self, x: Number, y: Number) -> None:
        self.width, self.height = max(self.width, x), max(self.height, y)

    def rect(self, x: Number, y: Number, width: Number, height: Number, fill: str, title: Optional[str] = None, **more: object) -> None:
        """A box; `title` is what is shown where a pointer rests on it."""
        self.grow(x + width, y + height)
        said = f"><title>{escape(title)}</title></rect>" if title else "/>"
        self.parts.append("<rect" + _attributes(x=x, y=y, width=width, height=height, fill=fill, **more) + said)

    def path(self, line: str, **more: object) -> None:
        self.parts.append(f'<path d="{line}"' + _attributes(**more) + "/>")

    def open(self, **more: object) -> None:
        """A group: what is said of it holds for all in it."""
        self.parts.append("<g" + _attributes(**more) + ">")

    def close(self) -> None:
        self.parts.append("</g>")

    def label(self, x: Number, y: Number, text: object) -> None:
        """A text whose size and colour are its group's."""
        self.parts.append(f'<text x="{x:g}" y="{y:g}">{escape(str(text))}</text>')

    def text(self, x: Number, y: Number, text: object, size: Number = 12, fill: str = INK, anchor: Optional[str] = None, bold: bool = False, mono: bool = False) -> None:
        if size < SMALLEST:
            raise ValueError(f"a text of {size} pixels cannot be read")
        letters = len(str(text)) * size * (0.61 if mono else 0.58)
        self.grow(x + int(letters * {None: 1, "middle": 0.5, "end": 0}[anchor]), y + 4)
        more = _attributes(font_size=size, fill=fill, text_anchor=anchor, font_weight=700 if bold else None, font_family=MONO if mono else None)
        space = ' xml:space="preserve"' if mono else ""
        self.parts.append(f'<text x="{x:g}" y="{y:g}"{more}{space}>{escape(str(text))}</text>')

    def texts(self, x: Number, y: Number, text: str, most: int, step: int = 18, **more: object) -> Number:
        """A text in as many lines as it needs; gives back where the next one goes."""
        for line in text.split("\n"):
            for piece in wrapped(line, most):
                self.text(x, y, piece, **more)  # type: ignore[arg-type]
                y += step
        return y

    def chip(self, x: Number, y: Number, text: str, fill: str) -> Number:
        """A badge; gives back where the text beside it begins."""
        width = len(text) * 8 + 20
        self.rect(x, y - 15, width, 21, fill, rx=10)
        self.text(x + width / 2, y, text, 13, PAPER, "middle", True)
        return x + width + 10

    def image(self, x: Number, y: Number, width: Number, height: Number, data: bytes) -> None:
        self.grow(x + width, y + height)
        link = "data:image/png;base64," + b64encode(data).decode("ascii")
        self.parts.append("<image" + _attributes(x=x, y=y, width=width, height=height, preserveAspectRatio="none", style="image-rendering:pixelated", href=link) + "/>")

    def picture(self, title: str) -> Picture:
        width, height = int(self.width) + 24, int(self.height) + 18
        head = f'<svg xmlns="http://www.w3.org/2000/svg" width="{width}" height="{height}" viewBox="0 0 {width} {height}" font-family="{SANS}" role="img">'
        paper = f'<rect width="{width}" height="{height}" fill="{PAPER}"/>'
        return Picture(head + f"<title>{escape(title)}</title>" + _DEFS + paper + "\n" + "\n".join(self.parts) + "\n</svg>\n")
