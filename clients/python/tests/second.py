"""The second program as a road: the questions that pictures and cards ask, as lines of docs/PROTOCOL.md, answered by `second tables`."""
import subprocess
from array import array
from pathlib import Path
from typing import List, Sequence, Tuple

from urszovely import _ask

ROOT = Path(__file__).resolve().parents[3]
PROGRAM = ROOT / "second" / "target" / "release" / "second"
MOST = 65536
Said = Tuple[_ask.Answer, List[str]]


def made(*words: str) -> List[bytes]:
    """Lines that the second program makes; some are no questions."""
    return subprocess.run([str(PROGRAM), *words], check=True, stdout=subprocess.PIPE).stdout.split(b"\n")


def answers(lines: Sequence[bytes]) -> List[Said]:
    """The answer to each line, and what stands after its bar."""
    out = subprocess.run([str(PROGRAM), "tables", str(MOST)], input=b"\n".join(lines) + b"\n", check=True, stdout=subprocess.PIPE).stdout
    said = []
    for line in out.decode("ascii").splitlines():
        numbers, _, after = line.partition(" |")
        a, b, c, d = map(int, numbers.split(" "))
        said.append(((a, b, c, d), after.split()))
    if len(said) != len(lines):
        raise AssertionError("the second program left a line without an answer")
    return said


def numbers(words: _ask.Words) -> List[int]:
    """All numbers of a question, strides and offsets of a card with their signs."""
    out: List[int] = []
    for word in words:
        out += [word] if isinstance(word, int) else _ask.signed(word) if len(word) == _ask.CARD else word.tolist()
    return out


def line(name: str, words: _ask.Words) -> bytes:
    """A question as a line; the card comes before its marks in C, and after them on a line."""
    if name == "read":
        text = words[0]
        assert isinstance(text, array)
        return b"read " + text.tobytes()
    starred = name in ("verdict", "owner", "place", "write")
    kept = [word for letter, word in zip(_ask.QUESTIONS[name], words) if letter not in "ueb"]
    if starred:
        kept = [kept[1], kept[0], *kept[2:]]
    said = numbers(kept)
    if name == "write":  # the card's lengths and M, B, S aside
        said = said[: 1 + _ask.LAYOUT] + said[-1:]
    return " ".join([name.replace("_", "-") + ("*" if starred else ""), *map(str, said)]).encode("ascii")


def knows(question: bytes) -> bool:
    """Whether a line is a question to the second program."""
    return subprocess.run([str(PROGRAM), "tables"], input=question + b"\n", check=True, stdout=subprocess.PIPE).stdout != b"?\n"


def entry(text: str) -> int:
    """An entry of lent memory; what is as it was lent, 1,000,000 and more, is 0 in the package's."""
    return 0 if int(text) >= 1000000 else int(text)


class Second:
    """A road of its own to answers that are not the library's."""

    def ask(self, name: str, questions: Sequence[_ask.Words]) -> List[_ask.Answer]:
        said = answers([line(name, words) for words in questions])
        for words, (answer, after) in zip(questions, said):
            self._fill(name, words, answer, after)
        return [answer for answer, _ in said]

    @staticmethod
    def _fill(name: str, words: _ask.Words, answer: _ask.Answer, after: List[str]) -> None:
        memory = [word for letter, word in zip(_ask.QUESTIONS[name], words) if letter in "ueb" and not isinstance(word, int)]
        if name == "read":
            for place, text in enumerate(after[: _ask.LAYOUT]):
                memory[0][place] = _ask.number(int(text))
            memory[1][0] = sum(int(bit) << k for k, bit in enumerate(after[_ask.LAYOUT :]))
        elif name == "write":
            text_written = after[1].encode("ascii") if answer[0] == 0 else b""
            memory[0][: len(text_written)] = array("B", text_written)
        elif memory:
            memory[0][:] = array(memory[0].typecode, [entry(text) % (1 << 8 * memory[0].itemsize) for text in after])
