"""The questions of include/urszovely.h: numbers and memory go in, the four numbers of the answer and the memory come back.

Two roads lead to the proved archive, and no other module knows which is taken. On x86-64 a shared library made from the archive is loaded
here; on another processor a process of clients/python/asker.c over the same archive is asked, under qemu-x86_64. ``./python``
builds what is missing and says which road it is; where Python was started otherwise, it is asked at the first question.
"""
import atexit
import ctypes
import os
import subprocess
import sys
import threading
from array import array
from pathlib import Path
from typing import IO, TYPE_CHECKING, Iterable, List, Optional, Protocol, Sequence, Tuple, Union

if TYPE_CHECKING:
    Memory = array[int]
else:  # what a type checker alone may write before Python 3.12
    Memory = array

Answer = Tuple[int, int, int, int]
Word = Union[int, Memory]
Words = Sequence[Word]

CARD, LAYOUT, TEXT, BLOCK = 57, 46, 344, 512
MOST_COPIES, MASK_BYTES = 64, 32
_NUMBERS = 1 << 64

# Each question with its words: n a number; U, E, B memory of 64, 32 and 8 bits that is read, u, e, b such memory that may be written. The list is
# that of asker.c, and so is its order.
QUESTIONS = {
    "swizzle": "nnnn", "mode": "nn", "bank": "nn", "fragment": "nnn", "holder": "nnnn",
    "deal": "nnBEUbeu", "collect": "nnBEUbeu", "deal_f64": "nnBEUu", "collect_f64": "nnUbeu",
    "fields": "nb", "descriptor": "nBn", "mask": "nnnbn",
    "admit": "Un", "place": "UnUUen", "verdict": "Unen", "owner": "UnUen", "stretch": "EnUnU",
    "read": "Bnuu", "write": "Unbn",
    "canonical": "nnnnnnnnenu", "canonical_card": "nnnnnnnnu",
    "block": "UnBnbn", "page": "Bnuuu",
    "carry": "UnUnUnenen", "plan": "UnUnunenen",
    "mma": "nnnn", "mma_holder": "nnnn", "mma_layout": "nu",
}
_PLACE_OF = {name: place for place, name in enumerate(QUESTIONS)}


class Road(Protocol):
    """What both roads do: ask one question several times over. Memory that may be written is written in place."""

    def ask(self, name: str, questions: Sequence[Words]) -> List[Answer]: ...


class Loaded:
    """The shared library, in this process."""

    def __init__(self, path: str) -> None:
        self.library = ctypes.CDLL(path)
        self.nothing = array("Q", [0])  # what memory of no length points to

    def ask(self, name: str, questions: Sequence[Words]) -> List[Answer]:
        if not hasattr(self.library, "urszovely_" + name):
            return [(_NUMBERS - 1, 0, 0, 0)] * len(questions)
        call = getattr(self.library, "urszovely_" + name)
        call.restype = None
        call.argtypes = [ctypes.c_uint64 if letter == "n" else ctypes.c_void_p for letter in QUESTIONS[name]] + [ctypes.c_void_p]
        answers = []
        for words in questions:
            answer = array("Q", bytes(32))
            call(*[word if isinstance(word, int) else word.buffer_info()[0] or self.nothing.buffer_info()[0] for word in words], answer.buffer_info()[0])
            answers.append((answer[0], answer[1], answer[2], answer[3]))
        return answers


class Process:
    """The asker, in a process of its own that ends with this one."""

    # So many bytes fit into a pipe before its reader comes, in both directions; more questions are not under way at once.
    _UNDER_WAY = 32768

    def __init__(self, command: Sequence[str]) -> None:
        self.command = list(command)
        self.process: Optional["subprocess.Popen[bytes]"] = None
        self.owner = 0
        self.lock = threading.Lock()
        atexit.register(self.end)

    def end(self) -> None:
        """Ends the process, if this process started it; the next question starts another."""
        process, self.process = self.process, None
        if process is not None and self.owner == os.getpid():
            process.kill()
            process.communicate()

    def _pipes(self) -> Tuple[IO[bytes], IO[bytes]]:
        """To the asker and back; it is started where there is none, or where this process is a fork of the one that has it. An interrupt is not its own."""
        if self.process is None or self.owner != os.getpid():
            self.process = subprocess.Popen(self.command, stdin=subprocess.PIPE, stdout=subprocess.PIPE, start_new_session=True)
            self.owner = os.getpid()
        to, back = self.process.stdin, self.process.stdout
        assert to is not None and back is not None
        return to, back

    @staticmethod
    def _frame(name: str, words: Words) -> bytes:
        parts, length = [], 1
        for word in words:
            if isinstance(word, int):
                parts.append(word.to_bytes(8, sys.byteorder))
                length += 1
                continue
            raw = word.tobytes()
            parts += [len(raw).to_bytes(8, sys.byteorder), raw, bytes(-len(raw) % 8)]
            length += 1 + (len(raw) + 7) // 8
        return b"".join([length.to_bytes(8, sys.byteorder), _PLACE_OF[name].to_bytes(8, sys.byteorder), *parts])

    def _reply(self, name: str, words: Words) -> Answer:
        def take(length: int) -> bytes:
            got = self._pipes()[1].read(length)
            if len(got) != length:
                raise OSError("the process that asks the library has ended")
            return got

        answer = array("Q", take(32))
        for letter, word in zip(QUESTIONS[name], words):
            if letter in "ueb" and not isinstance(word, int):
                size = len(word) * word.itemsize
                word[:] = array(word.typecode, take((size + 7) // 8 * 8)[:size])
        return (answer[0], answer[1], answer[2], answer[3])

    def ask(self, name: str, questions: Sequence[Words]) -> List[Answer]:
        with self.lock:
            try:
                return self._asked(name, questions)
            except BaseException:  # an interrupt too: what is still under way would be taken for the next answer
                self.end()
                raise

    def _asked(self, name: str, questions: Sequence[Words]) -> List[Answer]:
        answers: List[Answer] = []
        waiting: List[Words] = []
        under_way = 0
        for words in questions:
            frame = self._frame(name, words)
            if waiting and under_way + len(frame) > self._UNDER_WAY:
                answers += self._replies(name, waiting)
                waiting, under_way = [], 0
            self._pipes()[0].write(frame)
            waiting.append(words)
            under_way += len(frame)
        return answers + self._replies(name, waiting)

    def _replies(self, name: str, waiting: Sequence[Words]) -> List[Answer]:
        self._pipes()[0].flush()
        return [self._reply(name, words) for words in waiting]


_road: Optional[Road] = None


def _open() -> Road:
    """The road that ./python names: a shared library, or a command, each of whose words is a line."""
    named = os.environ.get("URSZOVELY_ROAD")
    if not named:
        root = Path(__file__).resolve().parents[3]
        named = subprocess.run([str(root / "python"), "--road"], check=True, stdout=subprocess.PIPE, text=True).stdout.rstrip("\n")
    words = named.split("\n")
    if len(words) == 1:
        return Loaded(words[0])
    return Process(words)


def take(road: Optional[Road]) -> Optional[Road]:
    """Takes another road from here on, or with None the one that ./python names; gives back the road before."""
    global _road
    before, _road = _road, road
    return before


def _ask_all(name: str, questions: Sequence[Words]) -> List[Answer]:
    global _road
    if _road is None:
        _road = _open()
    answers = _road.ask(name, questions)
    if any(answer[0] == _NUMBERS - 1 for answer in answers):
        raise NotImplementedError(f"the archive has no question {name}")
    return answers


def _ask(name: str, *words: Word) -> Answer:
    return _ask_all(name, [words])[0]


def number(value: int) -> int:
    """A number as C has it: 64 bits, below zero in two's complement."""
    if not -(_NUMBERS >> 1) <= value < _NUMBERS:
        raise OverflowError(f"{value} is no number of 64 bits")
    return value % _NUMBERS


def _numbers(values: Iterable[int]) -> Memory:
    return array("Q", [number(value) for value in values])


def _tuple(values: Sequence[int]) -> Memory:
    """A shape, or coordinates: a count and eight numbers."""
    return _numbers([len(values), *values[:8], *[0] * (8 - len(values))])


def swizzle(m: int, b: int, s: int, address: int) -> Answer:
    return _ask("swizzle", number(m), number(b), number(s), number(address))


def mode(bits: int, mode: int) -> Answer:
    return _ask("mode", number(bits), number(mode))


def bank(bits: int, addresses: Sequence[int]) -> List[Answer]:
    return _ask_all("bank", [(number(bits), number(address)) for address in addresses])


def fragment(kind: int, lane: int, register: int) -> Answer:
    return _ask("fragment", number(kind), number(lane), number(register))


def holder(kind: int, places: Sequence[Tuple[int, int, int]]) -> List[Answer]:
    """The holders of places, each a computation, a row and a column."""
    return _ask_all("holder", [(number(kind), *map(number, place)) for place in places])


Registers = Tuple[Memory, Memory, Memory]


def registers(values: Sequence[Tuple[int, int]]) -> Registers:
    """Registers, each a sort and its bits, as the three arrays of the header; floats and doubles only ever as their bits."""
    sorts = array("B", [sort for sort, _ in values])
    singles = array("I", [bits if sort == 1 else 0 for sort, bits in values])
    return sorts, singles, _numbers([bits if sort == 2 else 0 for sort, bits in values])


def deal(kind: int, computation: int, tile: Registers, lanes: Registers) -> Answer:
    return _ask("deal", number(kind), number(computation), *tile, *lanes)


def collect(kind: int, computation: int, lanes: Registers, tile: Registers) -> Answer:
    return _ask("collect", number(kind), number(computation), *lanes, *tile)


def deal_f64(kind: int, computation: int, tile: Registers, holdings: Memory) -> Answer:
    return _ask("deal_f64", number(kind), number(computation), *tile, holdings)


def collect_f64(kind: int, computation: int, holdings: Memory, tile: Registers) -> Answer:
    return _ask("collect_f64", number(kind), number(computation), holdings, *tile)


def fields(descriptor: int) -> Tuple[Answer, List[int]]:
    memory = array("B", bytes(12))
    return _ask("fields", number(descriptor), memory), memory.tolist()


def descriptor(m: int, fields: Sequence[int], shift: int) -> Answer:
    return _ask("descriptor", number(m), array("B", fields), number(shift))


def mask(m: int, n: int, descriptor: int, length: int = MASK_BYTES) -> Tuple[Answer, bytes]:
    memory = array("B", bytes(length))
    return _ask("mask", number(m), number(n), number(descriptor), memory, length), memory.tobytes()


def admit(card: Sequence[int], marks: int) -> Answer:
    return _ask("admit", _numbers(card), number(marks))


def place(card: Sequence[int], marks: int, shape: Sequence[int], coordinates: Sequence[Sequence[int]], length: int = MOST_COPIES) -> List[Tuple[Answer, List[int]]]:
    """The cells of the copies of elements, each named by coordinates in the shape."""
    numbers, dimensions = _numbers(card), _tuple(shape)
    lent = [array("I", bytes(4 * length)) for _ in coordinates]
    questions = [(numbers, number(marks), dimensions, _tuple(at), memory, length) for at, memory in zip(coordinates, lent)]
    answers = _ask_all("place", questions)
    return [(answer, memory[: answer[1]].tolist() if not answer[0] else []) for answer, memory in zip(answers, lent)]


def verdict(card: Sequence[int], marks: int, length: int) -> Tuple[Answer, Memory]:
    table = array("I", bytes(4 * length))
    return _ask("verdict", _numbers(card), number(marks), table, length), table


def owner(card: Sequence[int], marks: int, coordinates: Sequence[int], length: int) -> Tuple[Answer, Memory]:
    table = array("I", bytes(4 * length))
    return _ask("owner", _numbers(card), number(marks), _numbers(coordinates), table, length), table


def stretch(table: Memory, lengths: Sequence[int], axis: int, coordinates: Sequence[int]) -> Answer:
    return _ask("stretch", table, len(table), _numbers(lengths), number(axis), _numbers(coordinates))


def read(text: bytes) -> Tuple[Answer, List[int], int]:
    """The shard, the replica and the offsets of a text, strides and offsets with their signs, and the marks."""
    card, marks = array("Q", bytes(8 * CARD)), array("Q", bytes(8))
    answer = _ask("read", array("B", text), len(text), card, marks)
    return answer, signed(card[:LAYOUT]), marks[0]


def write(card: Sequence[int], marks: int, length: int = TEXT) -> Tuple[Answer, str]:
    text = array("B", bytes(length))
    answer = _ask("write", _numbers(card), number(marks), text, length)
    return answer, text[: answer[1]].tobytes().decode("ascii") if not answer[0] else ""


def canonical(asked: Sequence[int], length: int) -> Tuple[Answer, Memory, Tuple[int, int]]:
    """The verdict on major-ness, mode, bits, m, k, LBO, SBO and the length of m; LBO and SBO as encoded."""
    table, encodings = array("I", bytes(4 * length)), array("Q", bytes(16))
    return _ask("canonical", *map(number, asked), table, length, encodings), table, (encodings[0], encodings[1])


def canonical_card(asked: Sequence[int]) -> Tuple[Answer, List[int]]:
    card = array("Q", bytes(8 * CARD))
    return _ask("canonical_card", *map(number, asked), card), signed(card)


def block(card: Sequence[int], marks: int, note: bytes, length: int = BLOCK) -> Tuple[Answer, bytes]:
    memory = array("B", bytes(length))
    return _ask("block", _numbers(card), number(marks), array("B", note), len(note), memory, length), memory.tobytes()


def page(block: bytes) -> Tuple[Answer, List[int], int, Tuple[int, int]]:
    """The card and the marks of a block, and where its note is: its first byte and its length."""
    card, marks, note = array("Q", bytes(8 * CARD)), array("Q", bytes(8)), array("Q", bytes(16))
    answer = _ask("page", array("B", block), len(block), card, marks, note)
    return answer, signed(card), marks[0], (note[0], note[1])


Marked = Tuple[Sequence[int], int]


def _pair(first: Marked, second: Marked) -> List[Word]:
    return [_numbers(first[0]), number(first[1]), _numbers(second[0]), number(second[1])]


def carry(first: Marked, second: Marked, plan: Sequence[int], length: int) -> Tuple[Answer, Memory, Memory]:
    """A plan between two cards with their marks; both tables are lent `length` entries."""
    one, other = array("I", bytes(4 * length)), array("I", bytes(4 * length))
    answer = _ask("carry", *_pair(first, second), _numbers(plan), len(plan), one, length, other, length)
    return answer, one, other


def plan(first: Marked, second: Marked, plan_length: int, length: int) -> Tuple[Answer, Memory, Memory, Memory]:
    """The plan that is written, and both tables."""
    numbers = array("Q", bytes(8 * plan_length))
    one, other = array("I", bytes(4 * length)), array("I", bytes(4 * length))
    answer = _ask("plan", *_pair(first, second), numbers, plan_length, one, length, other, length)
    return answer, numbers, one, other


def mma(kind: int, held: Sequence[Tuple[int, int, int]]) -> List[Answer]:
    """What registers of a further kind hold, each a warp, a lane and a register."""
    return _ask_all("mma", [(number(kind), *map(number, place)) for place in held])


def mma_holder(kind: int, places: Sequence[Tuple[int, int, int]]) -> List[Answer]:
    """The holders of places of a further kind, each a matrix, a row and a column."""
    return _ask_all("mma_holder", [(number(kind), *map(number, place)) for place in places])


def mma_layout(kind: int) -> Tuple[Answer, List[int]]:
    card = array("Q", bytes(8 * CARD))
    return _ask("mma_layout", number(kind), card), signed(card)


def signed(card: Sequence[int]) -> List[int]:
    """The numbers of a card, or of its first 46, with strides and offsets below zero as such."""
    def below(place: int) -> bool:
        stride = 1 <= place < 25 and place % 3 == 2 or 26 <= place < 38 and place % 3 == 0
        return stride or 38 <= place < LAYOUT

    return [value - _NUMBERS if below(place) and value >= _NUMBERS >> 1 else value for place, value in enumerate(card)]
