"""Pictures of what the library says: who is in each cell, banks, fragments, masks.

Where a layout is refused there is no table to draw, so each element is drawn where the library places it. Nothing else is computed here but where
things stand on the page, and what is counted for a legend.
"""
from itertools import product
from math import prod
from typing import Callable, Dict, List, NamedTuple, Optional, Sequence, Tuple

from . import _ask, explain
from .addresses import bank as bank_of
from .layout import Card, Cell, Verdict
from .masks import Mask
from .names import AXES
from .svg import DARK, EDGE, EMPTY, GREEN, INK, OUTSIDE, PAPER, RED, SOFT, ZERO, Number, Page, Picture, colour, png, shade
from .warp import Fragment, Mma

LEFT, WIDE, LETTERS = 24, 1160, 124
MOST_PANELS, MOST_DRAWN = 24, 2400
Held = Dict[int, List[int]]


class Claims(NamedTuple):
    """Who is in which cell, in a space that may be longer than the card's, and how many elements are nowhere in it."""

    held: Held
    lengths: Tuple[int, ...]
    undrawn: int


def _longer(card: Card) -> Tuple[int, ...]:
    """A space that is long enough for what lies outside: to draw it, not to judge it."""
    tops = list(card.offsets)
    for i in card.shard + card.replica:
        tops[i.axis] += max(i.stride, 0) * (i.extent - 1)
    m, b, _ = card.swizzle
    if b:
        tops[7] |= (1 << m + b) - 1 if tops[7] >= 0 else 0
    lengths = tuple(max(length, top + 1) for length, top in zip(card.lengths, tops))
    return lengths if prod(lengths) <= 65536 else card.lengths


def claims(verdict: Verdict) -> Claims:
    """The table where the layout is approved, each element's own placement where it is refused with 7 or 8, and nothing otherwise."""
    card = verdict.card
    if verdict.approved:
        return Claims({cell: [entry - 1] for cell, entry in enumerate(verdict.table) if entry}, card.lengths, 0)
    if verdict.number not in (7, 8):
        return Claims({}, card.lengths, 0)
    wider = card.in_space(_longer(card) if verdict.number == 7 else card.lengths)
    elements = prod(i.extent for i in card.shard)
    held: Held = {}
    undrawn = 0
    for flat, (answer, cells) in enumerate(_ask.place(wider.numbers, wider.marks, [elements], [[flat] for flat in range(elements)])):
        undrawn += answer[0] != 0
        for cell in cells:
            held.setdefault(cell, []).append(flat)
    return Claims(held, wider.lengths, undrawn)


def _one_of(card: Card, flat: int) -> Tuple[int, ...]:
    """What is the same for elements that are one by their marks: which of the drawn ones clash is counted for the legend."""
    components = explain.split(flat, [i.extent for i in card.shard])
    return tuple(0 if card.marks >> k & 1 else component for k, component in enumerate(components))


def _clashes(verdict: Verdict, held: Held) -> Dict[int, int]:
    """The cells with more than one element, and with how many, in a layout that is refused with 8."""
    if verdict.number != 8:
        return {}
    counts = {cell: len({_one_of(verdict.card, flat) for flat in flats}) for cell, flats in held.items() if len(flats) > 1}
    return {cell: count for cell, count in counts.items() if count > 1}


def _matrix(verdict: Verdict) -> Tuple[int, int]:
    """The rows and columns by which elements are coloured."""
    shape = verdict.shape or [i.extent for i in verdict.card.shard]
    if verdict.shape is None:
        return shape[0], max(prod(shape[1:]), 1)
    return prod(shape[:-1]), shape[-1]


def _head(page: Page, verdict: Verdict, said: str = "") -> Number:
    """The badge with the verdict and its sentence, and under it the notation and the space."""
    card = verdict.card
    x = page.chip(LEFT, 34, "approved" if verdict.approved else f"refused {verdict.number}", GREEN if verdict.approved else RED)
    y = page.texts(x, 34, verdict.sentence, 100, 20, size=15, bold=True)
    swizzled = f", swizzle {card.swizzle}" if card.swizzle.B else ""
    return page.texts(LEFT, y + 6, f"{card} in {explain.space(card.lengths)}{swizzled}{said}", LETTERS, size=12, fill=SOFT, mono=True) + 8


class Grid(NamedTuple):
    """How a space is laid out: the axes whose coordinates make panels, and where a cell stands in its panel."""

    outer: Tuple[str, ...]
    rows: int
    columns: int
    at: Callable[[Cell], Tuple[int, int]]
    row: Callable[[int], str]
    column: Callable[[int], str]
    group: int
    inner: Optional[Callable[[int], str]]


def _lanes(longer: Sequence[str], lengths: Dict[str, int]) -> Grid:
    lanes, registers = lengths["laneid"], lengths["m"]
    outer = tuple(axis for axis in longer if axis not in ("laneid", "m"))
    if lanes % 4 or registers > 8:
        return Grid(outer, lanes, registers, lambda c: (c.laneid, c.m), lambda r: f"lane {r}", lambda k: f"m {k}" if k == 0 else str(k), 1, None)

    def at(cell: Cell) -> Tuple[int, int]:
        return cell.laneid // 4, cell.laneid % 4 * registers + cell.m

    inner = (lambda k: f"m{k % registers}") if registers > 1 else None
    return Grid(outer, lanes // 4, 4 * registers, at, lambda r: f"lane {4 * r}", lambda k: f"+{k // registers}" if k % registers == 0 else "", registers, inner)


def _line(longer: Sequence[str], lengths: Dict[str, int], width: int) -> Grid:
    """One axis, in lines of so many cells."""
    axis = longer[-1] if longer else "m"
    rows = -(-lengths[axis] // width)

    def at(cell: Cell) -> Tuple[int, int]:
        return divmod(cell.coordinates[axis], width)

    return Grid(tuple(longer[:-1]), rows, width, at, lambda r: f"{axis} {r * width}", lambda k: f"+{k}" if width <= 16 or k % 4 == 0 else "", 1, None)


def _two(longer: Sequence[str], lengths: Dict[str, int], row: str, column: str) -> Grid:
    outer = tuple(axis for axis in longer if axis not in (row, column))

    def at(cell: Cell) -> Tuple[int, int]:
        return cell.coordinates[row], cell.coordinates[column]

    return Grid(outer, lengths[row], lengths[column], at, lambda r: f"{row} {r}", lambda k: f"{column} {k}" if k == 0 else str(k), 1, None)


def _grid(lengths: Sequence[int], verdict: Verdict) -> Grid:
    named = dict(zip(AXES, lengths))
    longer = [axis for axis in AXES if named[axis] > 1]
    if "laneid" in longer:
        return _lanes(longer, named)
    for row, column in (("TLane", "TCol"), ("P", "F")):
        if row in longer and column in longer:
            return _two(longer, named, row, column)
    if longer and longer[-1] == "m" or len(longer) < 2:
        axis = longer[-1] if longer else "m"
        last = verdict.shape[-1] if verdict.shape else verdict.card.shard[-1].extent
        width = last if 8 <= last <= 32 else 32 if named[axis] >= 128 else 16
        return _line(longer, named, min(width, named[axis]))
    return _two(longer, named, longer[-2], longer[-1])


class Cells:
    """The cells of a map, and what is said of each: shared by the map of panels and the map as one image."""

    def __init__(self, verdict: Verdict) -> None:
        self.verdict, self.card = verdict, verdict.card
        self.held, self.lengths, self.undrawn = claims(verdict)
        self.clashes = _clashes(verdict, self.held)
        self.rows, self.columns = _matrix(verdict)
        self.witness = verdict.details[2] if verdict.number == 8 else None
        #: The cells of the longer space that are not the card's, where there are any.
        self.outside = [] if self.lengths == self.card.lengths else [n for n in range(prod(self.lengths)) if not self.inside(Cell(n, self.lengths))]

    def inside(self, cell: Cell) -> bool:
        return all(cell.coordinates[axis] < length for axis, length in zip(AXES, self.card.lengths))

    def shade(self, flat: int) -> Tuple[int, ...]:
        return shade(flat // self.columns, self.rows, flat % self.columns, self.columns)

    def title(self, cell: Cell, flats: Sequence[int]) -> str:
        who = ", ".join(explain.element(flat, self.verdict.shape) for flat in flats[:8]) + (", .." if len(flats) > 8 else "")
        return f"{cell}: element{'s' if len(flats) > 1 else ''} {who}"

    def legend(self, numbered: bool) -> str:
        shape = f" of {' x '.join(map(str, self.verdict.shape))}" if self.verdict.shape else ""
        hue = f"hue by row 0 to {self.rows - 1}{shape}, " if self.rows > 1 else ""
        said = [f"{'a number is an element' if numbered else 'each dot is a cell'}; {hue}darker to the right"]
        if self.clashes:
            said.append(f"dark red: {explain.plural(len(self.clashes), 'cell')} with more than one element, the first framed")
        if self.outside:
            said.append("hatched: outside the space")
        if self.undrawn:
            said.append(f"not drawn, below zero or too far outside: {explain.plural(self.undrawn, 'element')}")
        return "; ".join(said)


def _runs(numbers: Sequence[int]) -> str:
    """Rising numbers, neighbours as a span."""
    spans: List[List[int]] = []
    for number in numbers:
        if spans and number == spans[-1][1] + 1:
            spans[-1][1] = number
        else:
            spans.append([number, number])
    return ", ".join(str(a) if a == b else f"{a}, {b}" if b == a + 1 else f"{a} to {b}" for a, b in spans)


class Panels:
    """The owner map with a panel for each outer coordinate; a high and narrow panel is cut into several, of 32 rows each."""

    def __init__(self, cells: Cells, grid: Grid) -> None:
        self.cells, self.grid = cells, grid
        digits = len(str(cells.rows * cells.columns - 1))
        self.cell_width = max(22, 6 * digits + 8)
        self.cell_height = 24
        self.width = grid.columns * self.cell_width
        self.rows = 32 if grid.rows > 32 and self.width < WIDE // 3 else grid.rows
        self.height = self.rows * self.cell_height
        self.left = 8 + 6 * max(len(grid.row(r)) for r in range(grid.rows))
        self.panels: Dict[Tuple[int, ...], List[Tuple[Cell, List[int]]]] = {}
        for number in sorted(cells.held):
            cell = Cell(number, cells.lengths)
            self.panels.setdefault(self.key(cell), []).append((cell, cells.held[number]))
        self.outside: Dict[Tuple[int, ...], List[Cell]] = {}
        for number in cells.outside:
            cell = Cell(number, cells.lengths)
            self.outside.setdefault(self.key(cell), []).append(cell)

    def key(self, cell: Cell) -> Tuple[int, ...]:
        """A panel: its outer coordinates, and which of the rows it has."""
        return (*[cell.coordinates[axis] for axis in self.grid.outer], self.grid.at(cell)[0] // self.rows)

    def at(self, cell: Cell) -> Tuple[int, int]:
        r, k = self.grid.at(cell)
        return r % self.rows, k

    def name(self, key: Tuple[int, ...]) -> str:
        said = [f"{axis} {n}" for axis, n in zip(self.grid.outer, key)]
        if self.rows < self.grid.rows:
            said.append(f"{self.grid.row(key[-1] * self.rows)} on")
        return ", ".join(said)

    def fits(self) -> bool:
        return len(self.panels) <= MOST_PANELS and len(self.panels) * self.rows * self.grid.columns <= MOST_DRAWN and self.width <= WIDE

    def draw(self, page: Page, y: Number) -> Number:
        top = (22 if self.name(next(iter(self.panels))) else 0) + (32 if self.grid.inner else 16)
        across = max(1, (WIDE + 24) // (self.width + self.left + 24))
        for place, key in enumerate(sorted(self.panels)):
            x = LEFT + self.left + place % across * (self.width + self.left + 24)
            self._panel(page, x, y + place // across * (self.height + top + 20) + top, key)
        return page.height + 24

    def _panel(self, page: Page, x: Number, y: Number, key: Tuple[int, ...]) -> None:
        cells, grid = self.panels[key], self.grid
        outside = not any(self.cells.inside(cell) for cell, _ in cells)
        if self.name(key):
            page.text(x, y - (40 if grid.inner else 24), self.name(key) + (": outside" if outside else ""), 13, RED if outside else INK, bold=True)
        self._names(page, x, y, key[-1] * self.rows)
        page.rect(x, y, self.width, self.height, EMPTY)
        there = [self.at(cell) for cell in self.outside.get(key, [])]
        if there:
            boxes = [f"M{x + k * self.cell_width:g} {y + r * self.cell_height:g}h{self.cell_width}v{self.cell_height}h-{self.cell_width}z" for r, k in there]
            page.path("".join(boxes), fill=OUTSIDE)
        for cell, flats in cells:
            self._cell(page, x, y, cell, flats)
        self._lines(page, x, y, outside)
        self._numbers(page, x, y, cells)

    def _names(self, page: Page, x: Number, y: Number, first: int) -> None:
        grid, width, height = self.grid, self.cell_width, self.cell_height
        page.open(font_size=10, fill=SOFT, text_anchor="end")
        for r in range(self.rows):
            page.label(x - 6, y + r * height + 16, grid.row(first + r))
        page.close()
        page.open(font_size=10, fill=SOFT, text_anchor="middle")
        for k in range(grid.columns):
            if grid.column(k):
                page.label(x + (k + grid.group / 2) * width, y - (19 if grid.inner else 6), grid.column(k))
            if grid.inner:
                page.label(x + k * width + width / 2, y - 6, grid.inner(k))
        page.close()

    def _cell(self, page: Page, x: Number, y: Number, cell: Cell, flats: List[int]) -> None:
        r, k = self.at(cell)
        fill = RED if cell.number in self.cells.clashes else colour(self.cells.shade(flats[0])) if self.cells.inside(cell) else "transparent"
        page.rect(x + k * self.cell_width, y + r * self.cell_height, self.cell_width, self.cell_height, fill, self.cells.title(cell, flats))

    def _lines(self, page: Page, x: Number, y: Number, outside: bool) -> None:
        """The lines between cells, those between lanes and the frame."""
        across = [x + k * self.cell_width for k in range(1, self.grid.columns)]
        down = [y + r * self.cell_height for r in range(1, self.rows)]
        page.path("".join(f"M{a:g} {y:g}v{self.height:g}" for a in across) + "".join(f"M{x:g} {b:g}h{self.width:g}" for b in down) or "M0 0", stroke=PAPER, stroke_width=1)
        if self.grid.group > 1:
            page.path("".join(f"M{a:g} {y:g}v{self.height:g}" for a in across[self.grid.group - 1 :: self.grid.group]), stroke=EDGE, stroke_width=1)
        page.rect(x, y, self.width, self.height, "none", stroke=RED if outside else EDGE, stroke_width=1.5, stroke_dasharray="5 4" if outside else None)

    def _numbers(self, page: Page, x: Number, y: Number, cells: Sequence[Tuple[Cell, List[int]]]) -> None:
        plain: List[Tuple[Tuple[Number, Number], List[int]]] = []
        clashed: List[Tuple[Tuple[Number, Number], List[int]]] = []
        framed = []
        for cell, flats in cells:
            r, k = self.at(cell)
            place = (x + k * self.cell_width + self.cell_width / 2, y + r * self.cell_height)
            (clashed if cell.number in self.cells.clashes else plain).append((place, flats))
            if cell.number == self.cells.witness:
                framed.append((x + k * self.cell_width, y + r * self.cell_height))
        page.open(font_size=10, fill=INK, text_anchor="middle")
        for (a, b), flats in plain:
            page.label(a, b + 16, flats[0])
        page.close()
        if clashed:
            page.open(font_size=9, fill=PAPER, text_anchor="middle", font_weight=700)
            for (a, b), flats in clashed:
                if len(flats) == 2:
                    page.label(a, b + 10.5, flats[0])
                    page.label(a, b + 20.5, flats[1])
                else:
                    page.label(a, b + 15.5, f"{len(flats)}×")
            page.close()
        for a, b in framed:
            page.rect(a - 1, b - 1, self.cell_width + 2, self.cell_height + 2, "none", stroke=PAPER, stroke_width=5, rx=2)
            page.rect(a - 1, b - 1, self.cell_width + 2, self.cell_height + 2, "none", stroke=DARK, stroke_width=3, rx=2)

    def nobody(self) -> str:
        """The panels that are not drawn, in one line."""
        lengths = dict(zip(AXES, self.cells.lengths))
        parts = -(-self.grid.rows // self.rows)
        empty = [key for key in product(*[range(lengths[axis]) for axis in self.grid.outer], range(parts)) if key not in self.panels]
        if not empty:
            return ""
        if len(self.grid.outer) == 1 and parts == 1:
            return f"{self.grid.outer[0]} {_runs([key[0] for key in empty])}: nobody"
        return f"{len(empty)} of {len(empty) + len(self.panels)} panels have nobody"


class Image:
    """The owner map as one embedded image, a dot a cell, row-major."""

    _ROWS, _COLUMNS = 24, 10
    _SPECIAL = ((244, 246, 248), (180, 35, 24), (243, 195, 188), (255, 255, 255))  # nobody, a clash, outside twice

    def __init__(self, cells: Cells) -> None:
        self.cells = cells
        inner, outer = 1, list(cells.lengths)
        while outer and inner * outer[-1] <= 512:
            inner *= outer.pop()
        # Whole inner coordinates make a line, and the axis before them is cut into as many lines as it needs.
        self.width = inner * max(1, 256 // inner)
        self.block = inner * outer[-1] if outer else inner
        self.lines = -(-self.block // self.width)
        self.height = self.lines * prod(outer[:-1])
        self.dot = max(1, min(8, 1024 // self.width, 900 // self.height))

    def _spot(self, number: int) -> Tuple[int, int]:
        """The row and the column of a cell."""
        block, rest = divmod(number, self.block)
        r, k = divmod(rest, self.width)
        return block * self.lines + r, k

    def _first(self, r: int) -> int:
        """The first cell of a row."""
        block, line = divmod(r, self.lines)
        return block * self.block + line * self.width

    def _palette(self) -> List[Tuple[int, ...]]:
        made = [shade(r, self._ROWS, k, self._COLUMNS) for r in range(self._ROWS) for k in range(self._COLUMNS)]
        return [tuple(rgb) for rgb in self._SPECIAL] + made

    def _entry(self, number: int, flats: Sequence[int]) -> int:
        if number in self.cells.clashes:
            return 1
        row, column = divmod(flats[0], self.cells.columns)
        return 4 + row * self._ROWS // self.cells.rows * self._COLUMNS + column * self._COLUMNS // self.cells.columns

    def draw(self, page: Page, y: Number) -> Number:
        rows = [bytearray([3]) * self.width for _ in range(self.height)]  # where there is no cell there is paper
        for number in range(prod(self.cells.lengths)):
            r, k = self._spot(number)
            rows[r][k] = self._entry(number, self.cells.held[number]) if number in self.cells.held else 0
        for number in self.cells.outside:
            r, k = self._spot(number)
            rows[r][k] = 2 + (r + k) % 2
        x, y = LEFT + 112, y + 18
        page.image(x, y, self.width * self.dot, self.height * self.dot, png([bytes(row) for row in rows], self._palette()))
        page.rect(x - 0.5, y - 0.5, self.width * self.dot + 1, self.height * self.dot + 1, "none", stroke=EDGE)
        self._names(page, x, y)
        if self.cells.witness is not None:
            r, k = self._spot(self.cells.witness)
            page.rect(x + k * self.dot - 4, y + r * self.dot - 4, self.dot + 8, self.dot + 8, "none", stroke=PAPER, stroke_width=5, rx=3)
            page.rect(x + k * self.dot - 4, y + r * self.dot - 4, self.dot + 8, self.dot + 8, "none", stroke=DARK, stroke_width=2.5, rx=3)
        return page.height + 24

    def _names(self, page: Page, x: Number, y: Number) -> None:
        """Every so many rows the coordinates with which they begin; above, the axes that run along a row."""
        step = next(n for n in (1, 2, 4, 8, 16, 32, 64, 128, 256, 512, 1024, 65536) if n * self.dot >= 14)
        lengths = self.cells.lengths
        page.open(font_size=10, fill=SOFT, text_anchor="end")
        for r in range(0, self.height, step):
            cell = Cell(self._first(r), lengths)
            page.label(x - 6, y + r * self.dot + 8, self._start(cell))
        page.close()
        along = [axis for at, axis in enumerate(AXES) if lengths[at] > 1 and prod(lengths[at + 1 :]) < self.width]
        page.text(x, y - 6, f"{' x '.join(along)}: {self.width} cells a line", 10, SOFT)

    def _start(self, cell: Cell) -> str:
        lengths = self.cells.lengths
        outer = [axis for at, axis in enumerate(AXES) if lengths[at] > 1 and prod(lengths[at:]) > self.width]
        return " ".join(f"{axis} {cell.coordinates[axis]}" for axis in outer)


def owner_map(verdict: Verdict) -> Picture:
    """Each cell with its owner; a clash with both elements, the first framed; what lies outside hatched."""
    page, cells = Page(), Cells(verdict)
    y = _head(page, verdict)
    if cells.held:
        panels = Panels(cells, _grid(cells.lengths, verdict))
        fits = panels.fits()
        y = panels.draw(page, y) if fits else Image(cells).draw(page, y)
        nobody = panels.nobody() if fits else ""
        if nobody:
            y = page.texts(LEFT, y, nobody, 150, size=12, fill=SOFT)
        page.texts(LEFT, y, cells.legend(fits), 150, size=12, fill=SOFT)
    return page.picture(str(verdict))


_PIECES = ("#cfe0fa", "#fbe3b0", "#c9ecd0", "#e6e6e6", "#bfe6ee", "#f0d9f2", "#e9eba9", "#d9d2f5")


def _grid_frame(page: Page, x: Number, y: Number, columns: int, rows: int, width: int, height: int, every: int) -> None:
    """White lines between boxes, darker ones every so many columns, and a frame."""
    page.path("".join(f"M{x + k * width:g} {y:g}v{rows * height}" for k in range(1, columns)) + "".join(f"M{x:g} {y + r * height:g}h{columns * width}" for r in range(1, rows)) or "M0 0", stroke=PAPER, stroke_width=1)
    if every:
        page.path("".join(f"M{x + k * width:g} {y:g}v{rows * height}" for k in range(every, columns, every)), stroke=EDGE, stroke_width=1)
    page.rect(x, y, columns * width, rows * height, "none", stroke=EDGE, stroke_width=1.5)


class Banks:
    """The words of shared memory that a tile lies in, and which of them a column hits."""

    MOST_LINES = 64

    def __init__(self, verdict: Verdict, bits: int, column: int) -> None:
        card = verdict.card
        if verdict.number not in (0, 7, 8, 11):  # no element has a place
            verdict.or_raise()
        bank_of(bits, 0)
        self.rows, self.columns = _matrix(verdict)
        elements = self.rows * self.columns
        placed = _ask.place(card.numbers, card.marks, [elements], [[flat] for flat in range(elements)])
        there = [(flat, card.cell(cells[0]).m) for flat, (answer, cells) in enumerate(placed) if not answer[0]]
        self.words: Dict[Tuple[int, int], List[int]] = {}
        hit: Dict[Tuple[int, int], None] = {}
        for (flat, address), answer in zip(there, _ask.bank(bits, [address for _, address in there])):
            word = (answer[1], answer[2])
            self.words.setdefault(word, []).append(flat)
            if flat % self.columns == column and flat // self.columns < 32:
                hit[word] = None
        self.hit = list(hit)
        self.hits = [sum(bank == b for _, bank in self.hit) for b in range(32)]
        self.lines = min(max([line for line, _ in self.words] or [0]) + 1, self.MOST_LINES)
        self.piece = max(1, 128 // bits)

    def say(self, column: int) -> Tuple[str, bool, str]:
        worst = max(self.hits)
        rows = f"column {column} of rows 0 to {min(self.rows, 32) - 1}"
        if worst <= 1:
            return "no conflict", True, f"{rows}: {explain.plural(len(self.hit), 'word')} in as many banks"
        return f"{worst}-way conflict", False, f"{rows}: {worst} words in one bank"


def bank_map(verdict: Verdict, bits: int, column: int) -> Picture:
    """Shared memory, line by bank; the words of a column framed, and how often each bank is hit."""
    page, banks, card = Page(), Banks(verdict, bits, column), verdict.card
    badge, good, said = banks.say(column)
    page.text(page.chip(LEFT, 34, badge, GREEN if good else RED), 34, said, 15, bold=True)
    y = page.texts(LEFT, 60, f"{card}, {bits}-bit elements, {f'swizzle {card.swizzle}' if card.swizzle.B else 'no swizzle'}", LETTERS, size=12, fill=SOFT, mono=True) + 24
    x, width, height = LEFT + 50, 33, 24
    page.rect(x, y, 32 * width, banks.lines * height, EMPTY)
    shown = {word: flats for word, flats in banks.words.items() if word[0] < banks.lines}
    for (line, bank), flats in sorted(shown.items()):
        piece = flats[0] % banks.columns // banks.piece % len(_PIECES)
        places = ", ".join(f"({flat // banks.columns}, {flat % banks.columns})" for flat in flats[:8])
        page.rect(x + bank * width, y + line * height, width, height, _PIECES[piece], f"line {line}, bank {bank}: {places}")
    _grid_frame(page, x, y, 32, banks.lines, width, height, 4)
    page.open(font_size=9, fill=INK, text_anchor="middle")
    for (line, bank), flats in sorted(shown.items()):
        page.label(x + bank * width + width / 2, y + line * height + 15.5, f"{flats[0] // banks.columns},{flats[0] % banks.columns}")
    page.close()
    _bank_names(page, x, y, width, height, banks)
    for line, bank in banks.hit:
        if line < banks.lines:
            page.rect(x + bank * width + 1, y + line * height + 1, width - 2, height - 2, "none", stroke=INK if banks.hits[bank] == 1 else RED, stroke_width=3, rx=3)
    y = _hits(page, x, y + banks.lines * height + 12, width, banks)
    note = f"each box is a bank word of 4 bytes, named by its first element (row, column); one colour is one piece of 16 bytes of a row; framed: column {column}"
    page.texts(LEFT, y, note, 160, size=12, fill=SOFT)
    return page.picture(f"{badge}: {said}")


def _bank_names(page: Page, x: Number, y: Number, width: int, height: int, banks: Banks) -> None:
    page.open(font_size=10, fill=SOFT, text_anchor="middle")
    for b in range(32):
        page.label(x + b * width + width / 2, y - 6, b)
    page.close()
    page.open(font_size=10, fill=SOFT, text_anchor="end")
    page.label(x - 8, y - 6, "bank")
    for line in range(banks.lines):
        page.label(x - 8, y + line * height + 16, f"line {line}")
    page.label(x - 8, y + banks.lines * height + 25, "hits")
    page.close()


def _hits(page: Page, x: Number, y: Number, width: int, banks: Banks) -> Number:
    for b, n in enumerate(banks.hits):
        page.rect(x + b * width + 2, y, width - 4, 18, EMPTY if n == 0 else INK if n == 1 else RED, rx=3)
    page.open(font_size=11, fill=PAPER, text_anchor="middle", font_weight=700)
    for b, n in enumerate(banks.hits):
        if n:
            page.label(x + b * width + width / 2, y + 13, n)
    page.close()
    return y + 42


def _holders(page: Page, x: Number, y: Number, held: Sequence[Sequence[Tuple[int, int, str]]]) -> Tuple[int, int]:
    """A matrix with the lane and register of each place, rows and columns named; gives back how wide and high it is."""
    width, height = 38, 30
    rows, columns = len(held), len(held[0])
    for r, k in product(range(rows), range(columns)):
        lane, register, who = held[r][k]
        page.rect(x + k * width, y + r * height, width, height, colour(shade(lane // 4, 8, lane % 4, 4)), f"row {r}, column {k}: {who}lane {lane}, register {register}")
    _grid_frame(page, x, y, columns, rows, width, height, 0)
    page.open(font_size=11, fill=INK, text_anchor="middle", font_weight=700)
    for r, k in product(range(rows), range(columns)):
        page.label(x + k * width + width / 2, y + r * height + 14, f"T{held[r][k][0]}")
    page.close()
    page.open(font_size=9, fill=INK, text_anchor="middle")
    for r, k in product(range(rows), range(columns)):
        page.label(x + k * width + width / 2, y + r * height + 25, f"r{held[r][k][1]}")
    page.close()
    page.open(font_size=10, fill=SOFT, text_anchor="middle")
    for k in range(columns):
        page.label(x + k * width + width / 2, y - 6, k)
    page.close()
    page.open(font_size=10, fill=SOFT, text_anchor="end")
    for r in range(rows):
        page.label(x - 6, y + r * height + 19, r)
    page.close()
    return columns * width, rows * height


def fragment_map(fragment: Fragment) -> Picture:
    """Which lane and register holds each place, a matrix for each computation."""
    page = Page()
    page.text(LEFT, 34, f"{fragment.name}, kind {fragment.kind}", 15, bold=True)
    page.text(LEFT, 56, "which lane (T) and register (r) of a warp holds each place; hue by group of four lanes, darker with the lane in its group", 12, SOFT)
    across = 2 if fragment.columns > 4 else 4
    width, height = fragment.columns * 38 + 48, fragment.rows * 30 + 66
    for n in range(fragment.computations):
        x, y = LEFT + 20 + n % across * width, 112 + n // across * height
        if fragment.computations > 1:
            page.text(x, y - 24, f"computation {n}", 13, bold=True)
        _holders(page, x, y, [[(lane, register, "") for lane, register in row] for row in fragment.map(n)])
    return page.picture(f"{fragment.name}: lanes and registers")


def mma_map(mma: Mma) -> Picture:
    """Which warp, lane and register holds each place, a matrix after the other; large ones as an image of the lanes alone."""
    page = Page()
    page.text(LEFT, 34, f"{mma.name}, kind {mma.kind}: {mma.rows} by {mma.columns}", 15, bold=True)
    warps, large = f"{mma.warps} warps" if mma.warps > 1 else "a warp", mma.rows * mma.columns > 1100
    what = f"each dot is a place of the matrix, held by a lane of {warps}" if large else f"which lane (T) and register (r) of {warps} holds each place"
    page.text(LEFT, 56, what + "; hue by group of four lanes, darker with the lane in its group", 12, SOFT)
    if large:
        _lane_image(page, LEFT + 56, 94, [[(holder.warp, holder.lane) for holder in row] for row in mma.map()])
        return page.picture(f"{mma.name}: lanes")
    across = 2 if mma.columns > 4 else 4
    width, height = mma.columns * 38 + 48, mma.rows * 30 + 66
    for n in range(mma.matrices):
        x, y = LEFT + (20 if mma.warps == 1 else 60) + n % across * width, 112 + n // across * height
        if mma.matrices > 1:
            page.text(x, y - 24, f"matrix {n}", 13, bold=True)
        held = mma.map(n)
        _holders(page, x, y, [[(h.lane, h.register, f"warp {h.warp}, " if mma.warps > 1 else "") for h in row] for row in held])
        if mma.warps > 1:
            _warps(page, x - 26, y, [row[0].warp for row in held], 30)
    return page.picture(f"{mma.name}: lanes and registers")


def _warps(page: Page, x: Number, y: Number, warps: Sequence[int], height: int) -> None:
    """The name of each warp beside the first of its rows."""
    for r, warp in enumerate(warps):
        if r == 0 or warps[r - 1] != warp:
            page.text(x, y + r * height + max(12, height - 11), f"warp {warp}", 10, INK, "end", True)


def _lane_image(page: Page, x: Number, y: Number, held: Sequence[Sequence[Tuple[int, int]]]) -> None:
    """A dot for each place, by its lane, with lines where another warp or an eighth column begins."""
    dot, rows, columns = 5, len(held), len(held[0])
    palette = [shade(lane // 4, 8, lane % 4, 4) for lane in range(32)]
    page.image(x, y, columns * dot, rows * dot, png([bytes(lane for _, lane in row) for row in held], palette))
    borders = [r for r in range(1, rows) if held[r][0][0] != held[r - 1][0][0]]
    page.path("".join(f"M{x + k * dot:g} {y:g}v{rows * dot}" for k in range(8, columns, 8)) + "".join(f"M{x:g} {y + r * dot:g}h{columns * dot}" for r in borders) or "M0 0", stroke=EDGE)
    page.rect(x, y, columns * dot, rows * dot, "none", stroke=EDGE, stroke_width=1.5)
    _warps(page, x - 8, y, [row[0][0] for row in held], dot)
    page.open(font_size=10, fill=SOFT, text_anchor="middle")
    for k in range(0, columns, 16):
        page.label(x + k * dot + dot / 2, y - 6, k)
    page.close()


def mask_strip(mask: Mask) -> Picture:
    """The columns in strips, one for each sub-mask, zeroed ones dark and hatched, and under them the bytes."""
    page = Page()
    used = f"first used column {mask.first_used}" if mask.first_used < mask.n else "no column used"
    page.text(LEFT, 34, f"zero-column mask, M {mask.m}, N {mask.n}: {mask.zeroed} of {mask.n} columns zeroed, {used}", 15, bold=True)
    page.text(LEFT, 56, f"descriptor 0x{mask.descriptor:016x}", 12, SOFT, mono=True)
    parts = 128 // mask.m
    size = mask.n // parts
    x: Number = LEFT
    y: Number = 102
    for part, at in product(range(parts), range(0, size, 32)):
        columns = range(part * size + at, part * size + min(at + 32, size))
        if x > LEFT and x + 28 * len(columns) > LEFT + 1000:
            x, y = LEFT, y + 90
        name = f"mask {part}" if parts > 1 and at == 0 else ""
        _strip(page, x, y, mask, columns, name)
        x += 28 * len(columns) + 20
    page.texts(LEFT, y + 80, "dark and hatched: taken as zeros; white: used; the triangle marks the first used column; below, the bytes, lowest bit left", 150, size=12, fill=SOFT)
    return page.picture(f"zero-column mask, M {mask.m}, N {mask.n}")


def _strip(page: Page, x: Number, y: Number, mask: Mask, columns: range, name: str) -> None:
    width, height = 28, 30
    if name:
        page.text(x, y - 14, name, 12, INK, None, True)
    for i, p in enumerate(columns):
        page.rect(x + i * width, y, width, height, ZERO if mask.bits[p] else PAPER, f"column {p}: {'zeros' if mask.bits[p] else 'used'}", stroke=EDGE)
        page.text(x + i * width + width / 2, y + 19, p, 11, PAPER if mask.bits[p] else INK, "middle", bool(mask.bits[p]))
        if p == mask.first_used:
            page.path(f"M{x + i * width + width / 2 - 6:g} {y - 11:g}h12l-6 8z", fill=INK)
        if p % 8 == 0 or i == 0:
            until = min(8 - p % 8, len(columns) - i)
            page.path(f"M{x + i * width + 2:g} {y + height + 6:g}h{until * width - 4}", stroke=EDGE)
            page.text(x + i * width + until * width / 2, y + height + 20, f"{mask.bytes[p // 8]:02X}", 11, SOFT, "middle", mono=True)
