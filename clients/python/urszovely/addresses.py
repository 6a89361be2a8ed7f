"""Addresses of elements: the swizzle, M, B and S from bits and mode, line and bank."""
from typing import NamedTuple

from . import _ask
from .names import MODES, Mode, Refused, Swizzle, mode_number, swizzle_fault


class LineAndBank(NamedTuple):
    """Where an address lies in shared memory, 32 banks of 4 bytes to a line."""

    line: int
    bank: int


def swizzle(m: int, b: int, s: int, address: int) -> int:
    """The new address of an address, swizzled by M, B, S.

    >>> import urszovely as u
    >>> u.swizzle(3, 3, 3, 64), u.swizzle(3, 3, 3, 72), u.swizzle(3, 3, 3, 511)
    (72, 64, 455)
    """
    answer = _ask.swizzle(m, b, s, address)
    if answer[0]:
        raise Refused(answer, "no such swizzle: " + swizzle_fault(m, b, s))
    return answer[1]


def mode(bits: int, mode: Mode) -> Swizzle:
    """M, B and S for elements of so many bits in a mode, by its name or its number.

    >>> import urszovely as u
    >>> u.mode(16, "128B")
    Swizzle(M=3, B=3, S=3)
    """
    answer = _ask.mode(bits, mode_number(mode))
    if answer[0]:
        raise Refused(answer, f"no swizzle of mode {mode} for elements of {bits} bits; bits are 4, 8, 16, 32, 64 or 128, modes {', '.join(MODES)}")
    return Swizzle(*answer[1:])


def bank(bits: int, address: int) -> LineAndBank:
    """Line and bank of the address of an element of so many bits, taken as it is.

    >>> import urszovely as u
    >>> u.bank(16, 72)
    LineAndBank(line=1, bank=4)
    """
    answer = _ask.bank(bits, [address])[0]
    if answer[0] == 10:
        raise Refused(answer, f"address {address} is 2^32 or more")
    if answer[0]:
        raise Refused(answer, f"no elements of {bits} bits; bits are 4, 8, 16, 32, 64 or 128")
    return LineAndBank(answer[1], answer[2])
