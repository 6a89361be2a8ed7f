"""The package against the second program on 2,000 random cards: verdict with the whole table, owner, place, read, write; and what is explained
ends where the library ends. The cards come from the second program, their seed from the variable SEED."""
import os
import random
import re
import unittest
from math import prod
from typing import Callable, List, Optional, Tuple

import second
import urszovely as u
from urszovely import _ask, explain

SEED = os.environ.get("SEED", "a seed")
CARDS = 2000
Asked = Tuple[u.Card, int]


SIGNED = [place for place, n in enumerate(_ask.signed([1 << 63] * _ask.CARD)) if n < 0]


def asked(line: bytes) -> Optional[Asked]:
    """The card and the lent length of a line of verdict or verdict*, if it is a question; a stride that C cannot have is its largest."""
    if not re.fullmatch(rb"verdict( -?(0|[1-9][0-9]{0,19})){58}|verdict\*( -?(0|[1-9][0-9]{0,19})){59}", line):
        return None
    word, *numbers = line.split(b" ")
    marks = int(numbers.pop(0)) if word == b"verdict*" else 0
    *card, length = map(int, numbers)
    for place in SIGNED:
        card[place] = min(card[place], (1 << 63) - 1)
    permitted = all((-(1 << 63) if place in SIGNED else 0) <= n < 1 << 64 for place, n in enumerate(card))
    return (u.Card.of(card, marks), length) if permitted and 0 <= marks <= 255 and 0 <= length <= second.MOST else None


def cards() -> List[Asked]:
    """Cards with marks and without, in turns."""
    lines = zip(*[second.made("block", word, SEED, "2600") for word in ("verdict", "verdict*")])
    found = [asked(line) for pair in lines for line in pair]
    return [one for one in found if one is not None][:CARDS]


def said(question: Callable[[], Tuple[_ask.Answer, object]]) -> Tuple[_ask.Answer, object]:
    """An answer of the package: what it gives back at 0, or the exception's numbers, whose sentence has to be one."""
    try:
        return question()
    except u.Refused as refused:
        assert refused.sentence and str(refused).startswith(f"refused {refused.number}: ")
        return (refused.number, *refused.details), None


class RandomCards(unittest.TestCase):
    @classmethod
    def setUpClass(cls) -> None:
        cls.random = random.Random(SEED)
        cls.cards = cards()
        cls.verdicts = [card.judge(lent=length) for card, length in cls.cards]

    def compare(self, name: str, words: List[_ask.Words], ours: List[Tuple[_ask.Answer, object]], shown: Callable[[_ask.Answer, List[str]], object]) -> None:
        """Each answer of the package is the second program's, and so is what lies after the bar, as `shown`."""
        theirs = second.answers([second.line(name, w) for w in words])
        self.assertEqual(len(ours), len(theirs))
        for w, one, (answer, after) in zip(words, ours, theirs):
            self.assertEqual(one, (answer, shown(answer, after) if answer[0] == 0 or one[1] is not None else None), second.line(name, w)[:2000])

    def test_there_are_enough_of_every_sort(self) -> None:
        self.assertEqual(len(self.cards), CARDS)
        numbers = {verdict.number for verdict in self.verdicts}
        self.assertLessEqual({0, 2, 4, 7, 8, 11, 17}, numbers)
        self.assertLessEqual(numbers, {0, 1, 2, 3, 4, 5, 6, 7, 8, 11, 17})

    def test_verdict_and_table(self) -> None:
        words = [(_ask._numbers(card.numbers), card.marks, v.table, length) for (card, length), v in zip(self.cards, self.verdicts)]
        ours = [((v.number, *v.details), v.table.tolist()) for v in self.verdicts]
        self.compare("verdict", words, ours, lambda answer, after: [second.entry(text) for text in after])

    def test_owner(self) -> None:
        words, ours = [], []
        for (card, length), verdict in zip(self.cards, self.verdicts):
            at = [self.random.randrange(min(max(n, 1), 65536) + (self.random.random() < 0.02)) for n in card.lengths]
            words.append((_ask._numbers(card.numbers), card.marks, _ask._numbers(at), verdict.table, length))

            def owner() -> Tuple[_ask.Answer, object]:
                flat = verdict.owner_of(**dict(zip(u.AXES, at)))
                return (0, 0 if flat is None else flat + 1, 0, 0), None

            ours.append(said(owner))
        self.compare("owner", words, ours, lambda answer, after: None)

    def test_place(self) -> None:
        words, ours = [], []
        for card, _ in self.cards:
            elements = prod(i.extent for i in card.shard) % (1 << 64)
            at = self.random.randrange(min(max(elements, 1), 65536) + (self.random.random() < 0.02))
            words.append((_ask._numbers(card.numbers), card.marks, _ask._tuple([elements]), _ask._tuple([at]), _ask._numbers([]), 64))

            def place() -> Tuple[_ask.Answer, object]:
                cells = [cell.number for cell in card.where([at], [elements])]
                return (0, len(cells), 0, 0), cells

            ours.append(said(place))
        self.compare("place", words, ours, lambda answer, after: [int(text) for text in after[: answer[1]]])

    def test_write_and_read(self) -> None:
        words, ours, texts = [], [], []
        for card, _ in self.cards:
            words.append((_ask._numbers(card.numbers), card.marks, _ask._numbers([]), _ask.TEXT))

            def write() -> Tuple[_ask.Answer, object]:
                return (0, len(card.text), 0, 0), card.text

            ours.append(said(write))
            texts.append(self.changed(str(ours[-1][1] or "S[(8,64):(64,1)]")))
        self.compare("write", words, ours, lambda answer, after: after[1])
        lines = [(_ask.array("B", text), len(text)) for text in texts]
        self.compare("read", lines, [said(lambda: self.read(text)) for text in texts], lambda answer, after: [int(n) for n in after])

    def changed(self, text: str) -> bytes:
        """A text, every other time with one letter changed."""
        raw = bytearray(text, "ascii")
        if self.random.random() < 0.5:
            raw[self.random.randrange(len(raw))] = self.random.choice(b"0123456789@,:()[]+-*SRmlanediwrpFTCo ")
        return bytes(raw)

    @staticmethod
    def read(text: bytes) -> Tuple[_ask.Answer, object]:
        card = u.Card(text)
        return (0, 0, 0, 0), [*card.numbers[: _ask.LAYOUT], *[card.marks >> k & 1 for k in range(8)]]

    def test_sums_end_where_the_library_ends(self) -> None:
        walked = 0
        for verdict in self.verdicts:
            self.assertTrue(verdict.why().startswith(str(verdict)))
            if verdict.number not in (0, 7, 8):
                continue
            flat = self.random.randrange(prod(i.extent for i in verdict.card.shard))
            cells = said(lambda: ((0, 0, 0, 0), [cell.number for cell in verdict.card.where(flat)]))[1]
            copies = [explain.finished(verdict.card, flat, copy) for copy in range(explain.copies(verdict.card))]
            inside = all(0 <= x < n for at in copies for x, n in zip(at, verdict.card.lengths))
            self.assertEqual(inside, cells is not None)
            if isinstance(cells, list):
                ends = [int(line.split("= ")[-1]) for line in verdict.why(flat).splitlines() if line.startswith("    rule 5")]
                self.assertEqual(ends, cells)
                walked += 1
        self.assertGreater(walked, CARDS // 10)


if __name__ == "__main__":
    unittest.main()
