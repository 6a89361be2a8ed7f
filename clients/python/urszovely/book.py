"""The layout book: a card with a note in a block of 512 bytes."""
from typing import NamedTuple, Tuple

from . import _ask, explain
from .layout import Card
from .names import Refused


class Page(NamedTuple):
    """What a block holds."""

    card: Card
    note: bytes


def block(card: Card, note: bytes = b"") -> bytes:
    """A card with a note as a block of the layout book.

    >>> import urszovely as u
    >>> card = u.Card("S[(8,64):(64,1)]", swizzle=("128B", 16), m=512)
    >>> written = u.block(card, b"A of the first kernel")
    >>> len(written), u.page(written) == (card, b"A of the first kernel")
    (512, True)
    """
    answer, lent = _ask.block(card.numbers, card.marks, note)
    if answer[0] == 20:
        raise Refused(answer, f"a note of {len(note)} bytes; there are at most 292")
    if answer[0]:
        raise Refused(answer, explain.card_sentence(card, answer))
    return lent


def page(block: bytes) -> Page:
    """The card and the note of a block; of a longer one the first 512 bytes are looked at."""
    answer, numbers, marks, note = _ask.page(block)
    if answer[0]:
        raise Refused(answer, _sentence(block, answer[0]))
    return Page(Card.of(numbers, marks), block[note[0] : note[0] + note[1]])


def _sentence(block: bytes, number: int) -> str:
    said = {
        1: f"{block[0] if block else 0} shard iters and {block[1] if block[1:] else 0} replica iters; there are 1 to 8 and at most 4",
        11: f"a block has 512 bytes, and these are {len(block)}",
        19: "the check of the block is wrong: one of its bytes was changed",
        20: "a note of more than 292 bytes, or an unused byte that is not zero",
    }
    return said[number]


def listed(book: bytes) -> Tuple[int, ...]:
    """The reader's number for each block of a book, as the program lister prints it.

    >>> import urszovely as u
    >>> u.listed(u.block(u.Card("S[(4):(1)]", m=4)) + bytes(100))
    (0, 11)
    """
    return tuple(_ask.page(book[at : at + 512])[0][0] for at in range(0, len(book), 512))
