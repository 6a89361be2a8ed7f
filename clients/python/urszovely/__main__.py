"""The programs of the package, which ./judge --why and ./look start.

    python -m urszovely why                  two lines on standard input: what judge says of them, and why
    python -m urszovely look FILE.svg        the same two lines: the picture of the layout, - for standard output
    python -m urszovely look FILE.svg LAYOUT AXIS=LENGTH ..

    --shape 8x16         elements are named by their coordinates in a shape
    --swizzle 3,3,3      M, B and S; or 128B/16, a mode and the elements' bits
    --banks BITS         the bank view of a tile of such elements
"""
import argparse
import re
import subprocess
import sys
from pathlib import Path
from typing import Dict, List, Sequence, Tuple

from . import AXES, Refused, judge
from .layout import SwizzleLike

# The program judge lends so many entries to its table.
_LENT = 16384


def _typed() -> Tuple[bytes, bytes]:
    """The first two lines of standard input, with their line feeds; no further one is waited for."""
    return sys.stdin.buffer.readline(), sys.stdin.buffer.readline()


def _lengths(line: bytes) -> Dict[str, int]:
    """The lengths on the first line, as the program judge takes them: to say what it said of them."""
    pieces = line.split(b" ")
    if len(pieces) != 8 or not all(re.fullmatch(rb"0|[1-9][0-9]{0,4}", piece) for piece in pieces):
        shown = line.decode("ascii", "replace")
        raise Refused((4, 0, 0, 0), f"the first line is not eight numbers of at most five digits, pid to m, parted by single spaces: {shown!r}")
    return dict(zip(AXES, map(int, pieces)))


def _line(typed: bytes) -> bytes:
    return typed[:-1] if typed.endswith(b"\n") else typed


def why() -> int:
    """The program judge's own line, and then why, which ends where that line ends."""
    first, second = _typed()
    program = Path(__file__).resolve().parents[3] / "judge"
    said = subprocess.run([str(program)], input=first + second, stdout=subprocess.PIPE)
    sys.stdout.buffer.write(said.stdout)
    sys.stdout.flush()
    try:
        verdict = judge(_line(second), None, None, _LENT, **_lengths(_line(first)))
        number, details, reason = verdict.number, verdict.details, verdict.why()
    except Refused as refused:
        number, details, reason = refused.number, refused.details, str(refused)
    line = " ".join(["accepted" if number == 0 else f"refused {number}", *map(str, details)])
    if said.returncode or said.stdout != line.encode() + b"\n":
        print(f"the package says otherwise: {line}", file=sys.stderr)
        return said.returncode or 1
    print(reason)
    return 0


def _swizzle(text: str) -> SwizzleLike:
    mode, slash, bits = text.partition("/")
    if slash:
        return mode, int(bits)
    m, b, s = map(int, text.split(","))
    return m, b, s


def look(words: Sequence[str]) -> int:
    """Writes the picture of a layout, and says its verdict; status 1 where there is no layout to be drawn."""
    parser = argparse.ArgumentParser(prog="./look", description="Writes the picture of a layout as SVG.", epilog="Without LAYOUT, two lines are read: eight lengths, pid to m, and a layout.")
    parser.add_argument("file", metavar="FILE.svg", help="where the picture goes, - for standard output")
    parser.add_argument("layout", metavar="LAYOUT", nargs="?")
    parser.add_argument("lengths", metavar="AXIS=LENGTH", nargs="*", default=[])
    parser.add_argument("--shape", metavar="8x16", type=lambda text: tuple(map(int, text.split("x"))), help="names elements by their coordinates")
    parser.add_argument("--swizzle", metavar="3,3,3", type=_swizzle, help="M, B and S, or a mode and bits as 128B/16")
    parser.add_argument("--banks", metavar="BITS", type=int, help="the bank view of a tile of such elements")
    asked = parser.parse_args(words)
    lengths = [word.partition("=") for word in asked.lengths]
    wrong = [word for word, (axis, _, length) in zip(asked.lengths, lengths) if axis not in AXES or not length.isdigit()]
    if wrong:
        parser.error(f"{wrong[0]} is not an axis and its length; the axes are {', '.join(AXES)}")
    try:
        if asked.layout is None:
            first, second = _typed()
            verdict = judge(_line(second), asked.shape, asked.swizzle, **_lengths(_line(first)))
        else:
            verdict = judge(asked.layout, asked.shape, asked.swizzle, **{axis: int(length) for axis, _, length in lengths})
        picture = verdict.bank_svg(asked.banks) if asked.banks else verdict.svg()
    except Refused as refused:
        print(refused, file=sys.stderr)
        return 1
    if asked.file == "-":
        sys.stdout.write(picture)
    else:
        picture.written(asked.file)
    print(verdict, file=sys.stderr if asked.file == "-" else sys.stdout)
    return 0


def main(words: List[str]) -> int:
    if words == ["why"]:
        return why()
    if words[:1] == ["look"]:
        return look(words[1:])
    print(__doc__, file=sys.stderr)
    return 0 if words in (["-h"], ["--help"]) else 2


if __name__ == "__main__":
    sys.exit(main(sys.argv[1:]))
