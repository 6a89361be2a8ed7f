"""Move plans: lists of copies, cell to cell, that turn one layout into another in one space."""
from typing import List, NamedTuple, Sequence, Tuple

from . import _ask, explain
from .layout import Card
from .names import Refused

Copy = Tuple[int, int]


class Carried(NamedTuple):
    """The tables after a plan: what the copies left, and the second card's owners."""

    left: _ask.Memory
    wanted: _ask.Memory


def _sentence(first: Card, second: Card, answer: Sequence[int], copies: Sequence[int]) -> str:
    number = answer[0]
    if number == 21:
        if not answer[1]:
            return f"after the last copy {second.cell(answer[2])} does not hold its owner"
        return f"copy {answer[1] - 1}, {tuple(copies[2 * answer[1] - 2 : 2 * answer[1]])}, names a cell outside, or is half a copy"
    if number == 23:
        return f"both cards occupy {first.cell(answer[1])}"
    if number == 9:
        return "the two cards have unequally many elements"
    if number == 4 and first.lengths != second.lengths:
        return f"two spaces: {explain.space(first.lengths)}, and {explain.space(second.lengths)}"
    for which, card in (("first", first), ("second", second)):
        verdict = card.judge()
        if verdict.number == number:
            return f"the {which} card: {verdict.sentence}"
    return "a reuse mark, which a plan may not have"


def _cells(first: Card, second: Card) -> int:
    """How many entries each of two tables needs, as the library says it; 0 where it refuses before it says."""
    answer, _, _ = _ask.carry((first.numbers, first.marks), (second.numbers, second.marks), [], 0)
    return answer[1] if answer[0] == 11 else 0


def plan(first: Card, second: Card) -> List[Copy]:
    """The copies that carry the first card into the second: for each occupied cell of the second, rising, one from the smallest cell of the first.

    >>> import urszovely as u
    >>> first, second = u.Card("S[(2):(1)]", m=8), u.Card("S[(2):(1)]+4@m", m=8)
    >>> u.plan(first, second)
    [(0, 4), (1, 5)]
    """
    cells = _cells(first, second)
    marked = (first.numbers, first.marks), (second.numbers, second.marks)
    answer, numbers, _, _ = _ask.plan(*marked, 0, cells)
    if answer[0] == 11:
        answer, numbers, _, _ = _ask.plan(*marked, answer[1], cells)
    if answer[0]:
        raise Refused(answer, _sentence(first, second, answer, []))
    return [(numbers[at], numbers[at + 1]) for at in range(0, answer[1], 2)]


def carry(first: Card, second: Card, copies: Sequence[Copy]) -> Carried:
    """The tables after the copies are run in order, where every occupied cell of the second card then holds its owner; Refused otherwise.

    >>> import urszovely as u
    >>> first, second = u.Card("S[(2):(1)]", m=8), u.Card("S[(2):(1)]+4@m", m=8)
    >>> u.carry(first, second, [(0, 4), (1, 5)]).left.tolist()
    [1, 2, 0, 0, 1, 2, 0, 0]
    >>> u.carry(first, second, [(0, 4)])
    Traceback (most recent call last):
        ...
    urszovely.names.Refused: refused 21: after the last copy cell 5 (m 5) does not hold its owner
    """
    flat = [number for copy in copies for number in copy]
    answer, left, wanted = _ask.carry((first.numbers, first.marks), (second.numbers, second.marks), flat, _cells(first, second))
    if answer[0]:
        raise Refused(answer, _sentence(first, second, answer, flat))
    return Carried(left, wanted)
