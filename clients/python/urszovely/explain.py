"""Sentences for refusals, and the sums of rules 1 to 5 written out.

Nothing in this module is an answer. The library has refused or approved before anything here is computed; the rules are gone through again only
to show what they come to for the elements that the answer names, and the tests hold that the sums end where the library ends.
"""
from math import prod
from typing import TYPE_CHECKING, List, Optional, Sequence, Tuple

from . import _ask
from .names import AXES, LONGEST_STRIDE, MOST, MOST_COPIES, SHORTEST_STRIDE, swizzle_fault

if TYPE_CHECKING:
    from .layout import Card, Iter, Verdict

M_AXIS = AXES.index("m")


def split(number: int, extents: Sequence[int]) -> Tuple[int, ...]:
    """Rule 2: the components of a number, the last running fastest. Also a coordinate in a shape, or in a space."""
    out = []
    for extent in reversed(extents):
        number, component = divmod(number, max(extent, 1))
        out.append(component)
    return tuple(reversed(out))


def copies(card: "Card") -> int:
    return prod(i.extent for i in card.replica)


def before_swizzle(card: "Card", flat: int, copy: int) -> List[int]:
    """Rule 3: the coordinate of a copy on each axis."""
    at = list(card.offsets)
    for iters, number in ((card.shard, flat), (card.replica, copy)):
        for component, i in zip(split(number, [i.extent for i in iters]), iters):
            at[i.axis] += component * i.stride
    return at


def finished(card: "Card", flat: int, copy: int) -> List[int]:
    """Rules 3 and 4; the swizzle itself is the library's."""
    at = before_swizzle(card, flat, copy)
    if card.swizzle.B and at[M_AXIS] >= 0:
        at[M_AXIS] = _ask.swizzle(*card.swizzle, at[M_AXIS])[1]
    return at


def plural(count: int, word: str, many: Optional[str] = None) -> str:
    return f"{count:,} {word if count == 1 else many or word + 's'}"


def space(lengths: Sequence[int]) -> str:
    """A space as people say it: the axes that are longer than 1."""
    return " x ".join(f"{axis} {length:,}" for axis, length in zip(AXES, lengths) if length != 1) or "a single cell"


def listed(numbers: Sequence[int]) -> str:
    return f"({', '.join(map(str, numbers))})"


def element(flat: int, shape: Optional[Sequence[int]]) -> str:
    """An element as people say it: its flat index, or its coordinate where there is a shape."""
    return listed(split(flat, shape)) if shape else str(flat)


def _counts(card: "Card") -> str:
    shard, replica = card.numbers[0], card.numbers[25]
    if not 1 <= shard <= 8:
        return f"{plural(shard, 'shard iter')}; there are 1 to 8"
    return f"{plural(replica, 'replica iter')}; there are at most 4"


def _limits(card: "Card") -> str:
    for what, iters in (("shard", card.shard), ("replica", card.replica)):
        for k, i in enumerate(iters):
            if not 1 <= i.extent <= MOST:
                return f"extent {i.extent} of {what} iter {k} is outside 1 to {MOST:,}"
            if not SHORTEST_STRIDE <= i.stride <= LONGEST_STRIDE:
                return f"stride {i.stride} of {what} iter {k} is outside {SHORTEST_STRIDE:,} to {LONGEST_STRIDE:,}"
            if what == "shard" and card.marks >> k & 1 and i.stride:
                return f"shard iter {k} has a reuse mark, so its stride must be 0, not {i.stride}"
    for axis, offset in zip(AXES, card.offsets):
        if not SHORTEST_STRIDE <= offset <= LONGEST_STRIDE:
            return f"offset {offset} of {axis} is outside {SHORTEST_STRIDE:,} to {LONGEST_STRIDE:,}"
    return "a reuse mark, which a plan may not have"


def _axis(card: "Card") -> str:
    wrong = [(what, k, i.axis) for what, iters in (("shard", card.shard), ("replica", card.replica)) for k, i in enumerate(iters) if i.axis > 7]
    what, k, axis = wrong[0]
    return f"{what} iter {k} is on axis {axis}; the axes are 0 to 7, pid to m"


def _space(card: "Card") -> str:
    for axis, length in zip(AXES, card.lengths):
        if not 1 <= length <= MOST:
            return f"length {length} of {axis} is outside 1 to {MOST:,}"
    return f"the space {space(card.lengths)} has {prod(card.lengths):,} cells, more than {MOST:,}"


def _too_many(card: "Card") -> str:
    elements = prod(i.extent for i in card.shard)
    if elements > MOST:
        return f"{elements:,} elements, more than {MOST:,}"
    return f"{copies(card):,} copies of each element, more than {MOST_COPIES}"


def card_sentence(card: "Card", answer: Sequence[int]) -> str:
    """The sentence for a refusal of a card's own checks: 1 to 6 and 17."""
    if answer[0] == 17:
        return f"replica combinations {answer[1]} and {answer[2]} give the same sum on every axis: each element would be stored twice in one place"
    if answer[0] == 6:
        return "no such swizzle: " + swizzle_fault(*card.swizzle)
    return {1: _counts, 2: _limits, 3: _axis, 4: _space, 5: _too_many}[answer[0]](card)


def first_outside(card: "Card", flat: int, axis: int) -> Tuple[int, int, int]:
    """Of refusal 7's element and axis: the first copy outside, and its coordinate there before and after the swizzle."""
    for copy in range(copies(card)):
        at = finished(card, flat, copy)[axis]
        if not 0 <= at < card.lengths[axis]:
            return copy, before_swizzle(card, flat, copy)[axis], at
    raise AssertionError("the sums come to another coordinate than the library's")


def outside_sentence(card: "Card", flat: int, axis: int, shape: Optional[Sequence[int]]) -> str:
    _, before, at = first_outside(card, flat, axis)
    name = AXES[axis]
    swizzled = f" (the swizzle's place for {before})" if at != before else ""
    return f"element {element(flat, shape)} would lie at {name} {at}{swizzled}, outside {name} 0 to {card.lengths[axis] - 1}"


def place_sentence(card: "Card", answer: Sequence[int], shape: Sequence[int], at: Sequence[int], lent: int, shown: Optional[Sequence[int]]) -> str:
    """The sentence for a refused placement of the element at a coordinate of a shape."""
    number = answer[0]
    if number == 7:
        return outside_sentence(card, answer[1], answer[2], shown)
    if number == 9:
        if not 1 <= len(shape) <= 8:
            return f"a shape of {plural(len(shape), 'dimension')}; there are 1 to 8"
        return f"the shape {listed(shape)} has {plural(prod(shape), 'place')}, the layout {plural(prod(i.extent for i in card.shard), 'element')}"
    if number == 10:
        if len(at) != len(shape):
            return f"{plural(len(at), 'coordinate')} for {plural(len(shape), 'dimension')}"
        wrong = next(k for k, (x, n) in enumerate(zip(at, shape)) if not 0 <= x < n)
        return f"coordinate {at[wrong]} is outside dimension {wrong}, which has 0 to {shape[wrong] - 1}"
    if number == 11:
        return f"memory for {plural(answer[1], 'copy', 'copies')} is needed, and {lent} were lent"
    return card_sentence(card, answer)


def sentence(verdict: "Verdict") -> str:
    """What the verdict's number and details say of this card."""
    a, b, c = verdict.details
    card = verdict.card
    if verdict.number == 0:
        each = f", {b // a} copies of each" if b > a and b % a == 0 else ""
        return f"{plural(a, 'element')} in {b:,} of {plural(c, 'cell')}{each}"
    if verdict.number == 7:
        return outside_sentence(card, a, b, verdict.shape)
    if verdict.number == 8:
        return f"elements {element(a, verdict.shape)} and {element(b, verdict.shape)} share {card.cell(c)}"
    if verdict.number == 11:
        return f"a table of {plural(a, 'entry', 'entries')} is needed, and {len(verdict.table):,} were lent"
    return card_sentence(card, (verdict.number, a, b, c))


def text_sentence(text: bytes, right: int) -> str:
    """The sentence for refusal 18: the text, with a caret under the first byte that no correct text has."""
    shown = "".join(chr(byte) if 32 <= byte < 127 else "?" for byte in text)
    what = "nothing correct goes on with this byte" if right < len(text) else "it ends too early"
    return f"not a layout, {what}\n  {shown}\n  {' ' * right}^"


def _terms(iters: Sequence["Iter"], number: int, axis: int) -> List[str]:
    components = split(number, [i.extent for i in iters])
    return [f"{component}*{i.stride}" for component, i in zip(components, iters) if i.axis == axis]


def _sum(terms: Sequence[str], total: int) -> str:
    if not terms:
        return str(total)
    said = " + ".join(terms).replace("+ -", "- ")
    return said if said == str(total) else f"{said} = {total}"


def _axes(card: "Card") -> List[int]:
    touched = {i.axis for i in card.shard + card.replica}
    return [x for x in range(8) if x in touched or card.offsets[x] or card.lengths[x] > 1]


def rule_3(card: "Card", flat: int, copy: int) -> str:
    """What each iter adds to which axis, then the offset, then the copy."""
    at = before_swizzle(card, flat, copy)
    said = []
    for x in _axes(card):
        offset = [str(card.offsets[x])] if card.offsets[x] else []
        terms = _terms(card.shard, flat, x) + offset + _terms(card.replica, copy, x)
        said.append(f"{AXES[x]} = {_sum(terms, at[x])}")
    return ", ".join(said)


def rule_5(card: "Card", at: Sequence[int]) -> str:
    """The cell number, row-major over the axes that are longer than 1."""
    said, number = "", 0
    for length, x in zip(card.lengths, at):
        number = number * length + x
        if length > 1:
            said = f"({said})*{length} + {x}" if " " in said else f"{said}*{length} + {x}" if said else str(x)
    return f"cell = {_sum([said] if said else [], number)}"


def walk(verdict: "Verdict", flat: int, copy: int) -> List[str]:
    """The rules for one copy of one element, a line each."""
    card = verdict.card
    count = copies(card)
    lines = [f"  element {element(flat, verdict.shape)}" + (f", copy {copy} of {count}" if count > 1 else "")]
    if verdict.shape and len(verdict.shape) > 1:
        lines.append(f"    rule 1: coordinate {element(flat, verdict.shape)} of {listed(verdict.shape)} is flat {flat}")
    extents = [i.extent for i in card.shard]
    said = f"    rule 2: components {listed(split(flat, extents))} of extents {listed(extents)}"
    if count > 1:
        many = [i.extent for i in card.replica]
        said += f"; of the copy {listed(split(copy, many))} of {listed(many)}"
    lines += [said, f"    rule 3: {rule_3(card, flat, copy)}"]
    before, at = before_swizzle(card, flat, copy), finished(card, flat, copy)
    if card.swizzle.B:
        m = before[M_AXIS]
        lines.append(f"    rule 4: m {m} " + (f"is swizzled by {card.swizzle} to {at[M_AXIS]}" if m >= 0 else "is below zero and not swizzled"))
    outside = [x for x in range(8) if not 0 <= at[x] < card.lengths[x]]
    for x in outside:
        lines.append(f"    outside: {AXES[x]} {at[x]}, of {AXES[x]} 0 to {card.lengths[x] - 1}")
    if not outside:
        lines.append(f"    rule 5: {rule_5(card, at)}")
    return lines


def _idle(card: "Card", combination: int) -> str:
    sums = [0] * 8
    for component, i in zip(split(combination, [i.extent for i in card.replica]), card.replica):
        sums[i.axis] += component * i.stride
    added = ", ".join(f"{sums[x]} to {AXES[x]}" for x in range(8) if any(i.axis == x for i in card.replica))
    return f"  combination {combination}, components {listed(split(combination, [i.extent for i in card.replica]))}: adds {added}"


def why(verdict: "Verdict", named: Sequence[int]) -> str:
    """The verdict's sentence, and then the sums for the elements that it names, or for those that are asked about."""
    card, (a, b, c) = verdict.card, verdict.details
    lines = [str(verdict)]
    if named:
        for flat in named:
            for copy in range(copies(card)):
                lines += walk(verdict, flat, copy)
    elif verdict.number == 7:
        lines += walk(verdict, a, first_outside(card, a, b)[0])
    elif verdict.number == 8:
        for flat in (a, b):
            lines += walk(verdict, flat, [cell.number for cell in verdict.where(flat)].index(c))
    elif verdict.number == 17:
        lines += [_idle(card, a), _idle(card, b)]
    return "\n".join(lines)
