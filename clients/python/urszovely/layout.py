"""Layouts: cards, verdicts on them, where each element goes and who owns each cell."""
from math import prod
from typing import List, NamedTuple, Optional, Sequence, Tuple, Union

from . import _ask, explain
from .addresses import mode
from .names import AXES, NO_SWIZZLE, Mode, Refused, Swizzle, axis_number, eight
from .svg import Picture

Element = Union[int, Sequence[int]]
#: M, B and S; or a mode, by its name or number, and the elements' bits.
SwizzleLike = Union[Tuple[int, int, int], Tuple[Mode, int]]


class Iter(NamedTuple):
    """An iter of a shard or a replica: so many steps of a stride on an axis, which is a number."""

    extent: int
    stride: int
    axis: int


class Cell:
    """A cell of a space: its number, and its coordinate on each axis.

    >>> import urszovely as u
    >>> cell = u.judge("S[(4):(1)]+3@m", m=8).where(2)[0]
    >>> cell, cell.number, cell.m, cell.laneid
    (cell 5 (m 5), 5, 5, 0)
    """

    def __init__(self, number: int, lengths: Sequence[int]) -> None:
        self.number = number
        self.coordinates = dict(zip(AXES, explain.split(number, lengths)))
        self._longer = [axis for axis, length in zip(AXES, lengths) if length > 1]

    def __getattr__(self, axis: str) -> int:
        if axis not in AXES:
            raise AttributeError(axis)
        return self.coordinates[axis]

    def __eq__(self, other: object) -> bool:
        return isinstance(other, Cell) and (self.number, self.coordinates) == (other.number, other.coordinates)

    def __hash__(self) -> int:
        return hash(self.number)

    def at(self) -> str:
        """The coordinates on the axes that are longer than 1."""
        return ", ".join(f"{axis} {self.coordinates[axis]}" for axis in self._longer)

    def __str__(self) -> str:
        return f"cell {self.number}" + (f" ({self.at()})" if self._longer else "")

    __repr__ = __str__


def _read(text: Union[str, bytes]) -> Tuple[List[int], int]:
    raw = text.encode("utf-8") if isinstance(text, str) else text
    answer, numbers, marks = _ask.read(raw)
    if answer[0]:
        raise Refused(answer, explain.text_sentence(raw, answer[1]))
    return numbers, marks


def _swizzle(given: Optional[SwizzleLike]) -> Swizzle:
    if given is None:
        return NO_SWIZZLE
    if len(given) == 3:
        return Swizzle(*given)
    return mode(given[1], given[0])


class Card:
    """A layout card: shard, replica and offsets from a text of the notation, a length for each axis, 1 where none is given, and a swizzle.

    >>> import urszovely as u
    >>> card = u.Card("S[(8,64):(64,1)]", swizzle=("128B", 16), m=512)
    >>> card
    Card('S[(8,64):(64@m,1@m)]', swizzle=(3, 3, 3), m=512)
    >>> card.shard[0], card.lengths, card.swizzle
    (Iter(extent=8, stride=64, axis=7), (1, 1, 1, 1, 1, 1, 1, 512), Swizzle(M=3, B=3, S=3))
    """

    def __init__(self, text: Union[str, bytes], swizzle: Optional[SwizzleLike] = None, **lengths: int) -> None:
        numbers, marks = _read(text)
        self._set([*numbers, *eight(lengths, 1), *_swizzle(swizzle)], marks)

    @classmethod
    def of(cls, numbers: Sequence[int], marks: int = 0) -> "Card":
        """A card from its 57 numbers, strides and offsets with their signs, and its marks, bit k for shard iter k."""
        if len(numbers) != _ask.CARD:
            raise TypeError(f"a card is {_ask.CARD} numbers, not {len(numbers)}")
        card = cls.__new__(cls)
        card._set(numbers, marks)
        return card

    def _set(self, numbers: Sequence[int], marks: int) -> None:
        self.numbers = tuple(_ask.signed([_ask.number(n) for n in numbers]))
        self.marks = marks
        self.shard = self._iters(0, 8)
        self.replica = self._iters(25, 4)
        self.offsets = self.numbers[38:46]
        self.lengths = self.numbers[46:54]
        self.swizzle = Swizzle(*self.numbers[54:57])

    def _iters(self, at: int, most: int) -> Tuple[Iter, ...]:
        slots = self.numbers[at + 1 : at + 1 + 3 * min(self.numbers[at], most)]
        return tuple(Iter(*slots[k : k + 3]) for k in range(0, len(slots), 3))

    @property
    def text(self) -> str:
        """The card in the notation, its lengths and swizzle aside, as the library writes it."""
        answer, text = _ask.write(self.numbers, self.marks)
        if answer[0]:
            raise Refused(answer, explain.card_sentence(self, answer))
        return text

    def in_space(self, lengths: Sequence[int]) -> "Card":
        """The same card in another space."""
        return Card.of(self.numbers[:46] + tuple(lengths) + self.numbers[54:], self.marks)

    def admit(self) -> None:
        """Does nothing where the card's own checks pass, and raises Refused where one does not: 1 to 6, then 17."""
        answer = _ask.admit(self.numbers, self.marks)
        if answer[0]:
            raise Refused(answer, explain.card_sentence(self, answer))

    def judge(self, shape: Optional[Sequence[int]] = None, lent: Optional[int] = None) -> "Verdict":
        """The verdict; elements are named by their coordinates where there is a shape. The table is as long as it has to be, or as `lent`."""
        return Verdict.of(self, shape, lent)

    def cell(self, number: int) -> Cell:
        """A cell by its number."""
        return Cell(number, self.lengths)

    def where(self, element: Element, shape: Optional[Sequence[int]] = None) -> List[Cell]:
        """The cells of an element's copies, one for each replica combination. It needs no approval.

        >>> import urszovely as u
        >>> u.Card("S[(8,2,4,2):(4@laneid,1@warpid,1@laneid,1)]", laneid=32, warpid=2, m=2).where((7, 15), shape=(8, 16))
        [cell 127 (warpid 1, laneid 31, m 1)]
        """
        flat = isinstance(element, int)
        at = [element] if isinstance(element, int) else list(element)
        sizes = [prod(i.extent for i in self.shard)] if flat or shape is None else list(shape)
        answer, cells = _ask.place(self.numbers, self.marks, sizes, [at])[0]
        if answer[0]:
            raise Refused(answer, explain.place_sentence(self, answer, sizes, at, _ask.MOST_COPIES, shape))
        return [self.cell(number) for number in cells]

    def __eq__(self, other: object) -> bool:
        return isinstance(other, Card) and (self.numbers, self.marks) == (other.numbers, other.marks)

    def __hash__(self) -> int:
        return hash((self.numbers, self.marks))

    def __str__(self) -> str:
        return _ask.write(self.numbers, self.marks)[1] or "a card that has no text"

    def __repr__(self) -> str:
        swizzled = [f"swizzle={tuple(self.swizzle)}"] if self.swizzle != NO_SWIZZLE else []
        lengths = [f"{axis}={length}" for axis, length in zip(AXES, self.lengths) if length != 1]
        return f"Card({', '.join([repr(str(self)), *swizzled, *lengths])})"


class Verdict:
    """What the library says of a card; true where it is approved.

    >>> import urszovely as u
    >>> v = u.judge("S[(8,2,4,2):(4@laneid,1@warpid,1@laneid,1)]+R[2:4@warpid]+5@warpid", laneid=32, warpid=11, m=2)
    >>> v.approved, v.elements, v.occupied, v.cells
    (True, 128, 256, 704)
    >>> v.owner_of(laneid=3, warpid=6, m=1), v.owner_of(laneid=3, warpid=0, m=1)
    (15, None)
    >>> v.where(127)
    [cell 447 (warpid 6, laneid 31, m 1), cell 703 (warpid 10, laneid 31, m 1)]
    """

    def __init__(self, card: Card, answer: Sequence[int], table: _ask.Memory, shape: Optional[Sequence[int]]) -> None:
        self.card = card
        self.shape = tuple(shape) if shape else None
        self.number = answer[0]
        self.details: Tuple[int, int, int] = (answer[1], answer[2], answer[3])
        #: Each cell's owner plus 1, or 0 for nobody: the lent table as the library left it.
        self.table = table

    @classmethod
    def of(cls, card: Card, shape: Optional[Sequence[int]] = None, lent: Optional[int] = None) -> "Verdict":
        if shape:  # whether it is admitted is the library's to say, where it places an element
            refused = _ask.place(card.numbers, card.marks, shape, [[0] * len(shape)])[0][0]
            if refused[0] == 9:
                raise Refused(refused, explain.place_sentence(card, refused, shape, [], 0, None))
        answer, table = _ask.verdict(card.numbers, card.marks, lent or 0)
        if lent is None and answer[0] == 11:  # how many cells there are is the library's to say
            answer, table = _ask.verdict(card.numbers, card.marks, answer[1])
        return cls(card, answer, table, shape)

    @property
    def approved(self) -> bool:
        return self.number == 0

    def __bool__(self) -> bool:
        return self.approved

    @property
    def elements(self) -> Optional[int]:
        """The elements, copies not counted; None where it is refused."""
        return self.details[0] if self.approved else None

    @property
    def occupied(self) -> Optional[int]:
        """The cells that somebody owns; None where it is refused."""
        return self.details[1] if self.approved else None

    @property
    def cells(self) -> Optional[int]:
        """The cells of the space; None where it is refused."""
        return self.details[2] if self.approved else None

    @property
    def sentence(self) -> str:
        """The number and its details, said of this card."""
        return explain.sentence(self)

    def or_raise(self) -> "Verdict":
        """The verdict itself where it is approved; raises Refused otherwise."""
        if not self.approved:
            raise Refused((self.number, *self.details), self.sentence)
        return self

    def owner_of(self, **coordinates: int) -> Optional[int]:
        """The element in a cell, of those that are one by their marks the smallest, or None for nobody; an axis that is not named is 0."""
        asked = eight(coordinates, 0)
        answer, _ = _ask.owner(self.card.numbers, self.card.marks, asked, len(self.table))
        if answer[0] == 12:
            axis = answer[1]
            raise Refused(answer, f"{AXES[axis]} {asked[axis]} lies outside {AXES[axis]} 0 to {self.card.lengths[axis] - 1}")
        if answer[0]:
            raise Refused(answer, self.sentence)
        return answer[1] - 1 if answer[1] else None

    def where(self, *element: Union[int, Sequence[int]]) -> List[Cell]:
        """The cells of an element's copies, of a flat index or of a coordinate in the shape: ``where(8)``, ``where(0, 8)``, ``where((0, 8))``."""
        one: Element = element[0] if len(element) == 1 else [n for n in element if isinstance(n, int)]
        if not isinstance(one, int) and self.shape is None:
            raise TypeError("a coordinate needs a shape, as in judge(.., shape=(8, 16))")
        return self.card.where(one, self.shape)

    def stretch(self, axis: Union[int, str], **coordinates: int) -> _ask.Memory:
        """The part of the table under the coordinates of all axes up to one and with it.

        >>> import urszovely as u
        >>> u.judge("S[(2,4):(1@laneid,1)]", laneid=2, m=4).stretch("laneid", laneid=1)
        array('I', [5, 6, 7, 8])
        """
        asked, up_to = eight(coordinates, 0), axis_number(axis)
        answer = _ask.stretch(self.table, self.card.lengths, up_to, asked)
        if answer[0] == 12:
            wrong = answer[1]
            raise Refused(answer, f"{AXES[wrong]} {asked[wrong]} lies outside {AXES[wrong]} 0 to {self.card.lengths[wrong] - 1}")
        if answer[0] == 3:
            raise Refused(answer, f"there is no axis {up_to}; the axes are 0 to 7, pid to m")
        if answer[0]:
            raise Refused(answer, self.sentence)
        return self.table[answer[1] : answer[1] + answer[2]]

    def why(self, *elements: Element) -> str:
        """The verdict in a sentence, and the sums of rules 2 to 5 for the elements that it names, or for those that are given.

        >>> import urszovely as u
        >>> print(u.judge("S[(8,2,4,2):(4@laneid,1@warpid,1@laneid,1)]+R[2:1@warpid]+5@warpid", shape=(8, 16), laneid=32, warpid=11, m=2).why())
        refused 8: elements (0, 0) and (0, 8) share cell 384 (warpid 6, laneid 0, m 0)
          element (0, 0), copy 1 of 2
            rule 1: coordinate (0, 0) of (8, 16) is flat 0
            rule 2: components (0, 0, 0, 0) of extents (8, 2, 4, 2); of the copy (1) of (2)
            rule 3: warpid = 0*1 + 5 + 1*1 = 6, laneid = 0*4 + 0*1 = 0, m = 0*1 = 0
            rule 5: cell = (6*32 + 0)*2 + 0 = 384
          element (0, 8), copy 0 of 2
            rule 1: coordinate (0, 8) of (8, 16) is flat 8
            rule 2: components (0, 1, 0, 0) of extents (8, 2, 4, 2); of the copy (0) of (2)
            rule 3: warpid = 1*1 + 5 + 0*1 = 6, laneid = 0*4 + 0*1 = 0, m = 0*1 = 0
            rule 5: cell = (6*32 + 0)*2 + 0 = 384
        """
        return explain.why(self, [self._flat(one) for one in elements])

    def _flat(self, one: Element) -> int:
        """The flat index of an element that is to be explained, where there is such an element; it may lie outside."""
        try:
            self.where(one)
        except Refused as refused:
            if refused.number != 7:
                raise
        flat = 0
        for x, size in zip([one] if isinstance(one, int) else one, [0] if isinstance(one, int) else self.shape or ()):
            flat = flat * size + x
        return flat

    def __str__(self) -> str:
        return ("approved: " if self.approved else f"refused {self.number}: ") + self.sentence

    def __repr__(self) -> str:
        return f"<{self}>"

    def svg(self, path: Optional[str] = None) -> Picture:
        """The owner map as SVG, written to a file where a path is given."""
        from .pictures import owner_map

        return owner_map(self).written(path)

    def bank_svg(self, bits: int, path: Optional[str] = None, column: int = 0) -> Picture:
        """Shared memory, line by bank, with the hits of a column of the tile, whose rows are the shape's."""
        from .pictures import bank_map

        return bank_map(self, bits, column).written(path)

    def _repr_svg_(self) -> str:
        return str(self.svg())


def judge(
    text: Union[str, bytes], shape: Optional[Sequence[int]] = None, swizzle: Optional[SwizzleLike] = None, lent: Optional[int] = None, **lengths: int
) -> Verdict:
    """The verdict on a text of the notation in a space of which each axis that is not named has length 1.

    >>> import urszovely as u
    >>> u.judge("S[(8,2,4,2):(4@laneid,1@warpid,1@laneid,1)]+R[2:4@warpid]+5@warpid", laneid=32, warpid=11, m=2)
    <approved: 128 elements in 256 of 704 cells, 2 copies of each>
    >>> u.judge("S[(65):(1)]", swizzle=(3, 3, 3), m=72)
    <refused 7: element 64 would lie at m 72 (the swizzle's place for 64), outside m 0 to 71>
    >>> u.judge("S[(65):(1)]", swizzle=("128B", 16), m=73).approved
    True
    >>> u.judge("S[(8,2)(4@laneid,1)]", laneid=32)
    Traceback (most recent call last):
        ...
    urszovely.names.Refused: refused 18: not a layout, nothing correct goes on with this byte
      S[(8,2)(4@laneid,1)]
             ^
    """
    return Card(text, swizzle, **lengths).judge(shape, lent)
