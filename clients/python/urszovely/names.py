"""The documents' names for what the library numbers: axes, modes, major-ness, kinds of fragments, refusals."""
from typing import Mapping, NamedTuple, Sequence, Tuple, Union

#: The axes, by number.
AXES = ("pid", "warpid", "laneid", "P", "F", "TLane", "TCol", "m")
#: The modes, by number: how wide a swizzle is. A shared-memory descriptor counts them the other way.
MODES = ("none", "32B", "64B", "128B")
#: Major-ness, by number.
MAJORS = ("K", "MN")
#: The kinds of warp fragments of m8n8k4, by number.
KINDS = (
    "A .f16 row-major", "A .f16 column-major", "B .f16 row-major", "B .f16 column-major", "C .f16", "C .f32", "A .f64", "B .f64", "C .f64",
)
#: The further kinds of fragments, by number; wgmma's accumulators m64nN are 1000 + N, N from 8 to 256 in eights.
MMA_KINDS = {
    9: "m16n8k8 .f16/.bf16 A", 10: "m16n8k8 .f16/.bf16 B", 11: "m16n8 C and D", 12: "m16n8k16 .f16/.bf16 A", 13: "m16n8k16 .f16/.bf16 B",
    14: "m16n8k4 .tf32 A", 15: "m16n8k4 .tf32 B", 16: "m16n8k8 .tf32 A", 17: "m16n8k8 .tf32 B",
    18: "m8n8k16 .s8/.u8 A", 19: "m8n8k16 .s8/.u8 B", 20: "m8n8 C and D .s32", 21: "m16n8k16 .s8/.u8 A", 22: "m16n8k16 .s8/.u8 B",
    23: "m16n8k32 .s8/.u8 A", 24: "m16n8k32 .s8/.u8 B",
    25: "m8n8k32 .s4/.u4 A", 26: "m8n8k32 .s4/.u4 B", 27: "m16n8k32 .s4/.u4 A", 28: "m16n8k32 .s4/.u4 B", 29: "m16n8k64 .s4/.u4 A", 30: "m16n8k64 .s4/.u4 B",
    31: "m16n8k4 .f64 A", 32: "m16n8k4 .f64 B", 33: "m16n8k8 .f64 A", 34: "m16n8k8 .f64 B", 35: "m16n8k16 .f64 A", 36: "m16n8k16 .f64 B",
    37: "wgmma m64k16 A in registers (.f16/.bf16)", 38: "wgmma m64k8 A in registers (.tf32)", 39: "wgmma m64k32 A in registers (.s8/.u8)",
    40: "ldmatrix/stmatrix m8n8.x1.b16", 41: "ldmatrix/stmatrix m8n8.x1.trans.b16", 42: "ldmatrix/stmatrix m8n8.x2.b16",
    43: "ldmatrix/stmatrix m8n8.x2.trans.b16", 44: "ldmatrix/stmatrix m8n8.x4.b16", 45: "ldmatrix/stmatrix m8n8.x4.trans.b16",
    **{1000 + n: f"wgmma m64n{n} D" for n in range(8, 257, 8)},
}
#: The refusals, by number, as urszovely_refusal_text has them.
REFUSALS = (
    "approved",
    "shard or replica iter count outside limits",
    "an extent, stride or offset outside limits, or a reuse mark where a plan is asked of",
    "an axis above 7",
    "a length outside limits, too many cells, or two cards of two spaces",
    "too many elements or copies",
    "swizzle numbers, bits or mode not allowed",
    "a copy lies outside the space",
    "two elements share a cell",
    "shape not admitted, or two cards of unequally many elements",
    "a coordinate outside its dimension, or an address of 2^32 or more",
    "lent memory too short",
    "asked cell coordinate outside the space",
    "mask M or N not allowed",
    "unknown fragment kind, a number outside it, or a value of the wrong sort",
    "reserved descriptor bits set",
    "mask shift above its limit",
    "two replica combinations give the same sum on every axis",
    "a text that is not correct in the layout notation",
    "a block of the layout book whose check is wrong",
    "a note of more than 292 bytes, or an unused byte of a block that is not zero",
    "a plan with a copy outside, or one that ends wrongly",
    "major-ness, m, k or a byte stride of a canonical layout not allowed",
    "two cards occupy one cell",
)

#: The library's limits, for sentences alone: what is within them is the library's to say.
MOST, MOST_COPIES, SHORTEST_STRIDE, LONGEST_STRIDE = 65536, 64, -65536, 65535

Mode = Union[int, str]


class Refused(ValueError):
    """A question that was refused: its number, its three details, and a sentence that says it of what was asked.

    >>> import urszovely as u
    >>> try:
    ...     u.swizzle(3, 3, 2, 64)
    ... except u.Refused as refused:
    ...     print(refused.number, refused.details, refused.sentence)
    6 (0, 0, 0) no such swizzle: S 2 is below B 3
    """

    def __init__(self, answer: Sequence[int], sentence: str) -> None:
        self.number = answer[0]
        self.details: Tuple[int, int, int] = (answer[1], answer[2], answer[3])
        self.sentence = sentence
        super().__init__(f"refused {self.number}: {sentence}")


class Swizzle(NamedTuple):
    """M, B and S of a swizzle; with B 0 nothing is swizzled."""

    M: int
    B: int
    S: int

    def __str__(self) -> str:
        return f"M {self.M}, B {self.B}, S {self.S}" if self.B else "none"


NO_SWIZZLE = Swizzle(0, 0, 3)


def mode_number(mode: Mode) -> int:
    """A mode by its name or its number; a name that is none is an error, a number is the library's to judge."""
    if isinstance(mode, int):
        return mode
    if mode not in MODES:
        raise TypeError(f"no such mode: {mode!r}; the modes are {', '.join(MODES)}")
    return MODES.index(mode)


def axis_number(axis: Union[int, str]) -> int:
    """An axis by its name or its number."""
    if isinstance(axis, int):
        return axis
    if axis not in AXES:
        raise TypeError(f"no such axis: {axis!r}; the axes are {', '.join(AXES)}")
    return AXES.index(axis)


def eight(given: Mapping[str, int], otherwise: int) -> Tuple[int, ...]:
    """Eight numbers, pid to m, of those that are given by name."""
    for axis in given:
        axis_number(axis)
    return tuple(given.get(axis, otherwise) for axis in AXES)


def swizzle_fault(m: int, b: int, s: int) -> str:
    """What of M, B, S is not allowed, for sentences."""
    for name, value, most in (("M", m, 8), ("B", b, 4), ("S", s, 8)):
        if not 0 <= value <= most:
            return f"{name} {value} is above {most}"
    return f"S {s} is below B {b}"
