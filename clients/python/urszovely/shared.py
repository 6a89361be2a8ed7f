"""Canonical shared-memory layouts."""
from typing import Optional, Sequence, Union

from . import _ask
from .layout import Card, Verdict
from .names import MAJORS, Mode, Refused, mode_number


class Canonical(Verdict):
    """The verdict on a canonical layout, with LBO and SBO as a descriptor has them, both 0 where it is refused."""

    lbo: int = 0
    sbo: int = 0


def _asked(major: Union[int, str], mode: Mode, bits: int, m: int, k: int, lbo: int, sbo: int, length: int) -> Sequence[int]:
    if isinstance(major, str) and major not in MAJORS:
        raise TypeError(f"no such major-ness: {major!r}; there are {', '.join(MAJORS)}")
    return (MAJORS.index(major) if isinstance(major, str) else major, mode_number(mode), bits, m, k, lbo, sbo, length)


def _fault(asked: Sequence[int]) -> str:
    """What of refusal 22 is wrong, for the sentence."""
    major, _, _, m, k, lbo, sbo, _ = asked
    if not 0 <= major <= 1:
        return f"major-ness {major} is not 0 (K) or 1 (MN)"
    for name, value in (("m", m), ("k", k)):
        if not 1 <= value <= 8:
            return f"{name} {value} is outside 1 to 8"
    for name, value in (("SBO", sbo), ("LBO", lbo)):
        if not 0 <= value < 262144 or value % 16:
            return f"{name} {value} is not a multiple of 16 below 262,144"
    return "a byte stride that is not allowed"


def canonical(major: Union[int, str], mode: Mode, bits: int, m: int, k: int, lbo: int, sbo: int, length: int, shape: Optional[Sequence[int]] = None) -> Canonical:
    """The verdict on a canonical layout: major-ness and mode by name or number, LBO and SBO in bytes, the length of axis m.

    >>> import urszovely as u
    >>> v = u.canonical("K", "none", 32, m=2, k=2, lbo=256, sbo=128, length=256)
    >>> v, v.lbo, v.sbo
    (<approved: 256 elements in 256 of 256 cells>, 16, 8)
    >>> v.card
    Card('S[(2,8,4,4):(32@m,4@m,64@m,1@m)]', swizzle=(2, 0, 3), m=256)
    """
    asked = _asked(major, mode, bits, m, k, lbo, sbo, length)
    answer, numbers = _ask.canonical_card(asked)
    if answer[0]:
        bits_or_mode = f"bits {bits} or mode {mode} is not allowed"
        raise Refused(answer, bits_or_mode if answer[0] == 6 else _fault(asked))
    answer, table, encodings = _ask.canonical(asked, 0)
    if answer[0] == 11:
        answer, table, encodings = _ask.canonical(asked, answer[1])
    verdict = Canonical(Card.of(numbers), answer, table, shape)
    verdict.lbo, verdict.sbo = encodings
    return verdict
