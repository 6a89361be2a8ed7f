"""Zero-column masks and their descriptors."""
from typing import List, NamedTuple, Optional, Sequence

from . import _ask
from .names import Refused
from .svg import Picture


class Fields(NamedTuple):
    """The fields of a descriptor, in the documents' order."""

    start_counts: Sequence[int] = (0, 0, 0, 0)
    first_spans: Sequence[int] = (0, 0, 0, 0)
    non_zero_mask: int = 0
    skip_span: int = 0
    use_span: int = 0
    shift: int = 0


def fields(descriptor: int) -> Fields:
    """The fields of a descriptor.

    >>> import urszovely as u
    >>> u.fields(0x0203028301020100)
    Fields(start_counts=(0, 1, 2, 1), first_spans=(1, 1, 0, 0), non_zero_mask=1, skip_span=2, use_span=3, shift=2)
    """
    answer, twelve = _ask.fields(descriptor)
    if answer[0]:
        raise Refused(answer, f"bits 36 to 38, 62 and 63 of a descriptor are reserved: {descriptor:#018x} has one of them set")
    return Fields(tuple(twelve[:4]), tuple(twelve[4:8]), *twelve[8:])


def _size(m: int, n: int) -> str:
    return f"M {m} is not 128, 64 or 32" if m not in (32, 64, 128) else f"N {n} is not a multiple of 8 in 8 to 256"


def descriptor(m: int, fields: Fields) -> int:
    """The descriptor with these fields, for M.

    >>> import urszovely as u
    >>> hex(u.descriptor(128, u.Fields(non_zero_mask=1, skip_span=2, use_span=3)))
    '0x3028000000000'
    """
    eleven = [*fields.start_counts, *fields.first_spans, fields.non_zero_mask, fields.skip_span, fields.use_span]
    answer = _ask.descriptor(m, eleven, fields.shift)
    if answer[0] == 16:
        raise Refused(answer, f"shift {fields.shift} is above {answer[1]}, the limit for M {m}")
    if answer[0]:
        raise Refused(answer, _size(m, 8))
    return answer[1]


class Mask:
    """The zero-column mask for M, N and a descriptor: bit p set means that column p is taken as zeros.

    >>> import urszovely as u
    >>> mask = u.Mask(32, 32, 0x0203028301020100)
    >>> mask
    <mask M 32, N 32: 14 of 32 columns zeroed, first used column 3>
    >>> mask.bytes.hex(" "), mask.bits[:8]
    ('87 c3 1c 38', [1, 1, 1, 0, 0, 0, 0, 1])
    """

    def __init__(self, m: int, n: int, descriptor: int) -> None:
        answer, lent = _ask.mask(m, n, descriptor)
        if answer[0]:
            said = {13: _size(m, n), 15: "reserved bits of the descriptor are set", 16: f"the shift is above {answer[1]}, the limit for M {m}"}
            raise Refused(answer, said[answer[0]])
        self.m, self.n, self.descriptor = m, n, descriptor
        self.zeroed, self.first_used = answer[1], answer[2]
        self.bytes = lent[: n // 8]
        self.bits: List[int] = [self.bytes[p // 8] >> p % 8 & 1 for p in range(n)]

    def __repr__(self) -> str:
        used = f"first used column {self.first_used}" if self.first_used < self.n else "no column used"
        return f"<mask M {self.m}, N {self.n}: {self.zeroed} of {self.n} columns zeroed, {used}>"

    def svg(self, path: Optional[str] = None) -> Picture:
        """The mask as a strip, as SVG, written to a file where a path is given."""
        from .pictures import mask_strip

        return mask_strip(self).written(path)

    def _repr_svg_(self) -> str:
        return str(self.svg())
