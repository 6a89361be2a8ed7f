"""Warp fragments: which register of which lane holds a place of a matrix, and values dealt to lanes and collected from them."""
import struct
from array import array
from typing import Callable, List, NamedTuple, Optional, Sequence, Tuple

from . import _ask
from .layout import Card
from .names import KINDS, MMA_KINDS, Refused
from .svg import Picture


class Place(NamedTuple):
    """What a register holds: a place of a computation's matrix."""

    computation: int
    row: int
    column: int


class Holder(NamedTuple):
    """Who holds a place."""

    lane: int
    register: int


def _until(answered: Callable[[int], bool]) -> int:
    """How many numbers from 0 on are answered: the sizes of a kind are asked for, not kept."""
    count = 0
    while answered(count):
        count += 1
    return count


class Fragment:
    """A kind of warp fragment of m8n8k4, by its number: 0 to 8.

    >>> import urszovely as u
    >>> f = u.Fragment(5)
    >>> f
    <fragment 5: m8n8k4 C .f32, 4 computations of 8 by 8>
    >>> f.held(lane=5, register=6), f.holder(row=6, column=3)
    (Place(computation=1, row=3, column=4), Holder(lane=18, register=3))
    """

    def __init__(self, kind: int) -> None:
        self.kind = kind
        self.held(0, 0)
        self.name = "m8n8k4 " + KINDS[kind]
        self.computations = _until(lambda n: self._holders([(n, 0, 0)])[0][0] == 0)
        self.rows = _until(lambda n: self._holders([(0, n, 0)])[0][0] == 0)
        self.columns = _until(lambda n: self._holders([(0, 0, n)])[0][0] == 0)

    def _holders(self, places: Sequence[Tuple[int, int, int]]) -> List[_ask.Answer]:
        return _ask.holder(self.kind, places)

    def held(self, lane: int, register: int) -> Place:
        """What a register of a lane holds."""
        answer = _ask.fragment(self.kind, lane, register)
        if answer[0]:
            known = 0 <= self.kind < len(KINDS)
            raise Refused(answer, f"lane {lane} has no register {register} in {KINDS[self.kind]}" if known else f"there is no kind {self.kind}; kinds are 0 to 8")
        return Place(*answer[1:])

    def holder(self, row: int, column: int, computation: int = 0) -> Holder:
        """Which register of which lane holds a place."""
        answer = self._holders([(computation, row, column)])[0]
        if answer[0]:
            raise Refused(answer, f"no row {row}, column {column} of computation {computation} in {self.name}")
        return Holder(answer[1], answer[2])

    def map(self, computation: int = 0) -> List[List[Holder]]:
        """The holders of a whole matrix, row by row."""
        places = [(computation, row, column) for row in range(self.rows) for column in range(self.columns)]
        flat = [Holder(answer[1], answer[2]) for answer in self._holders(places)]
        return [flat[row * self.columns : (row + 1) * self.columns] for row in range(self.rows)]

    def __repr__(self) -> str:
        many = f"{self.computations} computations of " if self.computations > 1 else ""
        return f"<fragment {self.kind}: {self.name}, {many}{self.rows} by {self.columns}>"

    def svg(self, path: Optional[str] = None) -> Picture:
        """The map of lanes and registers as SVG, written to a file where a path is given."""
        from .pictures import fragment_map

        return fragment_map(self).written(path)

    def _repr_svg_(self) -> str:
        return str(self.svg())


class MmaPlace(NamedTuple):
    """What a register of a further kind holds: a place of a matrix."""

    matrix: int
    row: int
    column: int


class MmaHolder(NamedTuple):
    """Who holds a place of a further kind."""

    warp: int
    lane: int
    register: int


class Mma:
    """A further kind of fragment, by its number: 9 to 45, or 1000 + N for the accumulators of wgmma m64nN.

    ``Mma(12).held(warp=0, lane=5, register=3)`` is a place, ``Mma(12).holder(row=9, column=3)`` who holds it, and ``Mma(12).card`` the kind as a layout.
    A register is counted as an element that a lane holds. Where the archive has no such kinds yet, it raises NotImplementedError.
    """

    def __init__(self, kind: int) -> None:
        self.kind = kind
        self.held(0, 0, 0)
        self.name = MMA_KINDS.get(kind, "a kind without a name here")
        self.matrices = _until(lambda n: _ask.mma_holder(kind, [(n, 0, 0)])[0][0] == 0)
        self.rows = _until(lambda n: _ask.mma_holder(kind, [(0, n, 0)])[0][0] == 0)
        self.columns = _until(lambda n: _ask.mma_holder(kind, [(0, 0, n)])[0][0] == 0)
        self.warps = _until(lambda n: _ask.mma(kind, [(n, 0, 0)])[0][0] == 0)
        self.registers = _until(lambda n: _ask.mma(kind, [(0, 0, n)])[0][0] == 0)

    def held(self, warp: int, lane: int, register: int) -> MmaPlace:
        """What a register of a lane of a warp holds."""
        answer = _ask.mma(self.kind, [(warp, lane, register)])[0]
        if answer[0]:
            known = self.kind in MMA_KINDS
            raise Refused(answer, f"warp {warp}, lane {lane} has no register {register} in {MMA_KINDS[self.kind]}" if known else f"there is no further kind {self.kind}")
        return MmaPlace(*answer[1:])

    def holder(self, row: int, column: int, matrix: int = 0) -> MmaHolder:
        """Which register of which lane and warp holds a place."""
        answer = _ask.mma_holder(self.kind, [(matrix, row, column)])[0]
        if answer[0]:
            raise Refused(answer, f"no row {row}, column {column} of matrix {matrix} in {self.name}")
        return MmaHolder(*answer[1:])

    def map(self, matrix: int = 0) -> List[List[MmaHolder]]:
        """The holders of a whole matrix, row by row."""
        places = [(matrix, row, column) for row in range(self.rows) for column in range(self.columns)]
        flat = [MmaHolder(*answer[1:]) for answer in _ask.mma_holder(self.kind, places)]
        return [flat[row * self.columns : (row + 1) * self.columns] for row in range(self.rows)]

    @property
    def card(self) -> Card:
        """The kind as a layout card, which may be judged like any other."""
        answer, numbers = _ask.mma_layout(self.kind)
        if answer[0]:
            raise Refused(answer, f"there is no further kind {self.kind}")
        return Card.of(numbers)

    def __repr__(self) -> str:
        many = f"{self.matrices} matrices of " if self.matrices > 1 else ""
        return f"<kind {self.kind}: {self.name}, {many}{self.rows} by {self.columns}>"

    def svg(self, path: Optional[str] = None) -> Picture:
        """The map of warps, lanes and registers as SVG, written to a file where a path is given."""
        from .pictures import mma_map

        return mma_map(self).written(path)

    def _repr_svg_(self) -> str:
        return str(self.svg())


class Register(NamedTuple):
    """A register: its sort, 0 empty, 1 a single, 2 a double, and the bits of its value, which are moved as they are."""

    sort: int
    bits: int

    @property
    def value(self) -> Optional[float]:
        """The value as a float of Python, which may quiet a not-a-number; the bits do not."""
        if self.sort not in (1, 2):
            return None
        form, size = ("<f", 4) if self.sort == 1 else ("<d", 8)
        return float(struct.unpack(form, self.bits.to_bytes(size, "little"))[0])


EMPTY = Register(0, 0)


def single(value: float) -> Register:
    """A register with a single, rounded to 32 bits."""
    return Register(1, int.from_bytes(struct.pack("<f", value), "little"))


def double(value: float) -> Register:
    """A register with a double."""
    return Register(2, int.from_bytes(struct.pack("<d", value), "little"))


class Holding(NamedTuple):
    """What a lane holds of .f64: its A, its B and its two accumulators, each as the bits of a double."""

    a: int
    b: int
    c0: int
    c1: int


Tile = List[List[Register]]
Lanes = List[List[Register]]


def _lend(rows: Optional[Sequence[Sequence[Register]]], count: int) -> _ask.Registers:
    """Rows of eight registers, or as many empty ones, as the library takes them."""
    if rows is None:
        rows = [[EMPTY] * 8] * count
    if len(rows) != count or any(len(row) != 8 for row in rows):
        raise TypeError(f"{count} rows of 8 registers are needed")
    return _ask.registers([register for row in rows for register in row])


def _rows(lent: _ask.Registers) -> List[List[Register]]:
    flat = [Register(sort, single if sort == 1 else double if sort == 2 else 0) for sort, single, double in zip(*lent)]
    return [flat[at : at + 8] for at in range(0, len(flat), 8)]


def _check(answer: _ask.Answer, kind: int, computation: int, known: bool) -> None:
    if not answer[0]:
        return
    if not known:
        raise Refused(answer, f"no values of kind {kind}, computation {computation}")
    raise Refused(answer, f"the value of lane {answer[1]}, register {answer[2]} is not of the sort of kind {kind}")


def _known(kind: int, computation: int, first: int) -> bool:
    """Whether a refused 14 is one of a value: for the sentence alone."""
    return first <= kind <= 8 and 0 <= computation < (4 if kind == 5 else 1)


def deal(kind: int, tile: Sequence[Sequence[Register]], computation: int = 0, lanes: Optional[Sequence[Sequence[Register]]] = None) -> Lanes:
    """The registers of 32 lanes, eight each, after a computation's matrix of kind 5 to 8 is dealt to them; the others stay as given.

    >>> import urszovely as u
    >>> tile = [[u.single(8 * row + column) for column in range(8)] for row in range(8)]
    >>> lanes = u.deal(5, tile, computation=1)
    >>> lanes[5][6].value
    28.0
    >>> u.collect(5, lanes, computation=1) == tile
    True
    """
    lent = _lend(lanes, 32)
    answer = _ask.deal(kind, computation, _lend(tile, 8), lent)
    _check(answer, kind, computation, _known(kind, computation, 5))
    return _rows(lent)


def collect(kind: int, lanes: Sequence[Sequence[Register]], computation: int = 0, tile: Optional[Sequence[Sequence[Register]]] = None) -> Tile:
    """The tile of eight rows of eight after a computation's matrix of kind 5 to 8 is collected from 32 lanes; other places stay as given."""
    lent = _lend(tile, 8)
    answer = _ask.collect(kind, computation, _lend(lanes, 32), lent)
    _check(answer, kind, computation, _known(kind, computation, 5))
    return _rows(lent)


def _holdings(given: Optional[Sequence[Sequence[int]]]) -> _ask.Memory:
    flat = [bits for holding in given for bits in holding] if given is not None else [0] * 128
    if len(flat) != 128:
        raise TypeError("32 holdings of 4 doubles are needed")
    return array("Q", flat)


def deal_f64(kind: int, tile: Sequence[Sequence[Register]], computation: int = 0, holdings: Optional[Sequence[Sequence[int]]] = None) -> List[Holding]:
    """The holdings of 32 lanes after a matrix of kind 6 to 8 is dealt to them.

    >>> import urszovely as u
    >>> tile = [[u.double(10 * row + column) for column in range(8)] for row in range(8)]
    >>> u.deal_f64(8, tile)[5].c1 == u.double(13.0).bits
    True
    """
    lent = _holdings(holdings)
    answer = _ask.deal_f64(kind, computation, _lend(tile, 8), lent)
    _check(answer, kind, computation, _known(kind, computation, 6))
    return [Holding(*lent[at : at + 4]) for at in range(0, 128, 4)]


def collect_f64(kind: int, holdings: Sequence[Sequence[int]], computation: int = 0, tile: Optional[Sequence[Sequence[Register]]] = None) -> Tile:
    """The tile after a matrix of kind 6 to 8 is collected from the holdings of 32 lanes."""
    lent = _lend(tile, 8)
    answer = _ask.collect_f64(kind, computation, _holdings(holdings), lent)
    _check(answer, kind, computation, _known(kind, computation, 6))
    return _rows(lent)
