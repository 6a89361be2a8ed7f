"""Every question of the header through the package: the documents' loads, refusals as numbers and as sentences, bits that survive."""
import re
import unittest
from typing import Callable

import urszovely as u
from second import ROOT
from urszovely import _ask

TILE = "S[(8,2,4,2):(4@laneid,1@warpid,1@laneid,1)]+R[2:4@warpid]+5@warpid"
SPACE = {"laneid": 32, "warpid": 11, "m": 2}


class Answers(unittest.TestCase):
    def refused(self, number: int, sentence: str, question: Callable[[], object]) -> None:
        with self.assertRaises(u.Refused) as caught:
            question()
        self.assertEqual((caught.exception.number, caught.exception.sentence), (number, sentence))
        self.assertEqual(str(caught.exception), f"refused {number}: {sentence}")

    def says(self, sentence: str, verdict: u.Verdict) -> None:
        self.assertEqual(str(verdict), sentence)
        if not verdict:
            with self.assertRaises(u.Refused):
                verdict.or_raise()

    def test_the_header_has_no_other_question(self) -> None:
        header = (ROOT / "include" / "urszovely.h").read_text()
        declared = set(re.findall(r"^void urszovely_(\w+)\(", header, re.M))
        self.assertEqual(declared - set(_ask.QUESTIONS), set())
        texts = re.findall(r'case (\d+): return "(.*)";', header)
        self.assertEqual([text for _, text in texts], list(u.REFUSALS))

    def test_the_asker_has_the_same_list(self) -> None:
        source = (ROOT / "clients" / "python" / "asker.c").read_text()
        listed = source[source.index("questions[] = {") : source.index("enum { QUESTIONS")]
        self.assertEqual(re.findall(r'"(\w+)"', listed), list(_ask.QUESTIONS.values()))
        self.assertEqual(re.findall(r"\b([a-z_]+[0-9]*)(?:,| \*/)", "".join(re.findall(r"/\* .* \*/", listed))), list(_ask.QUESTIONS))

    def test_tile_x(self) -> None:
        v = u.judge(TILE, **SPACE)
        self.says("approved: 128 elements in 256 of 704 cells, 2 copies of each", v)
        self.assertEqual((v.elements, v.occupied, v.cells), (128, 256, 704))
        self.assertEqual([cell.number for cell in v.where(127)], [447, 703])
        self.assertEqual((v.table[447], v.table[0]), (128, 0))
        self.assertEqual(v.stretch("laneid", warpid=6, laneid=31).tolist(), [127, 128])
        self.assertEqual(v.card.text, "S[(8,2,4,2):(4@laneid,1@warpid,1@laneid,1@m)]+R[2:4@warpid]+5@warpid")
        self.assertEqual(u.Card(v.card.text, **SPACE), v.card)
        v.card.admit()

    def test_sentences_of_verdicts(self) -> None:
        named = {"shape": (8, 16), **SPACE}
        self.says("refused 8: elements (0, 0) and (0, 8) share cell 384 (warpid 6, laneid 0, m 0)", u.judge(TILE.replace("R[2:4", "R[2:1"), **named))
        self.says("refused 7: element (0, 8) would lie at warpid 10, outside warpid 0 to 9", u.judge(TILE, shape=(8, 16), laneid=32, warpid=10, m=2))
        self.says("refused 7: element 3 would lie at m -1, outside m 0 to 3", u.judge("S[(4):(-1)]+2@m", m=4))
        self.says("refused 11: a table of 704 entries is needed, and 703 were lent", u.judge(TILE, lent=703, **SPACE))
        self.says("refused 17: replica combinations 0 and 1 give the same sum on every axis: each element would be stored twice in one place", u.judge("S[(4):(1)]+R[2:0]", m=4))
        self.says("refused 2: shard iter 0 has a reuse mark, so its stride must be 0, not 1", u.judge("S[(4):(1@m*)]", m=4))
        self.says("refused 2: stride 99999 of shard iter 1 is outside -65,536 to 65,535", u.judge("S[(4,2):(1,99999)]", m=4))
        self.says("refused 2: extent 0 of replica iter 0 is outside 1 to 65,536", u.judge("S[(4):(1)]+R[0:1]", m=4))
        self.says("refused 4: length 0 of laneid is outside 1 to 65,536", u.judge("S[(4):(1)]", laneid=0, m=4))
        self.says("refused 4: the space laneid 32 x m 65,536 has 2,097,152 cells, more than 65,536", u.judge("S[(4):(1)]", laneid=32, m=65536))
        self.says("refused 5: 80,000 elements, more than 65,536", u.judge("S[(40000,2):(1,1)]", m=4))
        self.says("refused 5: 65 copies of each element, more than 64", u.judge("S[(4):(1)]+R[65:1]", m=4))
        self.says("refused 6: no such swizzle: M 9 is above 8", u.judge("S[(4):(1)]", swizzle=(9, 0, 3), m=4))
        numbers = list(u.Card("S[(4):(1)]", m=4).numbers)
        self.says("refused 1: 9 shard iters; there are 1 to 8", u.Card.of([9, *numbers[1:]]).judge())
        self.says("refused 3: shard iter 0 is on axis 8; the axes are 0 to 7, pid to m", u.Card.of([*numbers[:3], 8, *numbers[4:]]).judge())

    def test_sentences_of_other_questions(self) -> None:
        v = u.judge(TILE, shape=(8, 16), **SPACE)
        self.refused(12, "laneid 32 lies outside laneid 0 to 31", lambda: v.owner_of(laneid=32))
        self.refused(12, "warpid 11 lies outside warpid 0 to 10", lambda: v.stretch("laneid", warpid=11))
        self.refused(10, "coordinate 16 is outside dimension 1, which has 0 to 15", lambda: v.where(0, 16))
        self.refused(10, "3 coordinates for 2 dimensions", lambda: v.where(0, 1, 2))
        self.refused(9, "the shape (8, 17) has 136 places, the layout 128 elements", lambda: u.judge(TILE, shape=(8, 17), **SPACE))
        self.refused(18, "not a layout, it ends too early\n  S[(4\n      ^", lambda: u.judge("S[(4"))
        self.refused(18, "not a layout, nothing correct goes on with this byte\n  S[(4) :(1)]\n       ^", lambda: u.judge("S[(4) :(1)]"))
        self.refused(6, "no swizzle of mode 128B for elements of 12 bits; bits are 4, 8, 16, 32, 64 or 128, modes none, 32B, 64B, 128B", lambda: u.mode(12, "128B"))
        self.refused(10, "address 4294967296 is 2^32 or more", lambda: u.bank(16, 1 << 32))
        self.refused(14, "there is no kind 9; kinds are 0 to 8", lambda: u.Fragment(9))
        self.refused(14, "lane 32 has no register 0 in C .f32", lambda: u.Fragment(5).held(32, 0))
        self.refused(13, "M 96 is not 128, 64 or 32", lambda: u.Mask(96, 32, 0))
        self.refused(13, "N 12 is not a multiple of 8 in 8 to 256", lambda: u.Mask(32, 12, 0))
        self.refused(16, "shift 17 is above 16, the limit for M 32", lambda: u.descriptor(32, u.Fields(shift=17)))
        self.refused(15, "reserved bits of the descriptor are set", lambda: u.Mask(32, 32, 1 << 63))
        self.refused(20, "a note of 293 bytes; there are at most 292", lambda: u.block(v.card, bytes(293)))
        self.refused(11, "a block has 512 bytes, and these are 3", lambda: u.page(b"abc"))
        self.refused(19, "the check of the block is wrong: one of its bytes was changed", lambda: u.page(b"\1" + u.block(v.card)[1:]))
        self.refused(22, "m 9 is outside 1 to 8", lambda: u.canonical("K", "none", 32, m=9, k=2, lbo=256, sbo=128, length=256))
        self.refused(10, "coordinate 16 is outside dimension 1, which has 0 to 15", lambda: v.why((0, 16)))
        self.refused(10, "coordinate 128 is outside dimension 0, which has 0 to 127", lambda: v.why(128))
        self.refused(6, "no elements of 12 bits; bits are 4, 8, 16, 32, 64 or 128", lambda: v.bank_svg(12))
        self.refused(6, "no such swizzle: B 5 is above 4", lambda: u.judge("S[(8,8):(8,1)]", swizzle=(0, 5, 8), m=64).bank_svg(32))
        with self.assertRaises(TypeError):
            u.judge(TILE, lanes=32)
        with self.assertRaises(TypeError):
            u.judge(TILE, **SPACE).where(0, 1)

    def test_an_asker_that_ends_is_started_again(self) -> None:
        self.assertEqual(u.swizzle(3, 3, 3, 64), 72)
        road = _ask.take(None)
        _ask.take(road)
        if not isinstance(road, _ask.Process):
            self.skipTest("the library is loaded here")
        assert road.process is not None
        road.process.kill()
        road.process.wait()
        with self.assertRaises(OSError):
            u.swizzle(3, 3, 3, 64)
        self.assertEqual(u.swizzle(3, 3, 3, 64), 72)

    def test_many_questions_at_once(self) -> None:
        v = u.judge(TILE, **SPACE)
        places = _ask.place(v.card.numbers, 0, [128], [[flat] for flat in range(128)])
        self.assertEqual([cells for _, cells in places], [[cell.number for cell in v.where(flat)] for flat in range(128)])

    def test_swizzles(self) -> None:
        self.assertEqual([u.swizzle(3, 3, 3, address) for address in (64, 72, 511)], [72, 64, 455])
        self.assertEqual(u.mode(16, 3), (3, 3, 3))
        for swizzle in ((3, 3, 3), ("128B", 16), (3, 16)):
            self.assertEqual(u.Card("S[(8,64):(64,1)]", swizzle=swizzle, m=512).swizzle, (3, 3, 3))
        self.assertEqual(u.bank(16, 72), (1, 4))

    def test_fragments(self) -> None:
        for kind in range(9):
            fragment = u.Fragment(kind)
            for n in range(fragment.computations):
                for r, row in enumerate(fragment.map(n)):
                    for k, (lane, register) in enumerate(row):
                        self.assertEqual(fragment.held(lane, register), (n, r, k))

    def test_further_kinds(self) -> None:
        try:
            kind = u.Mma(12)
        except NotImplementedError:
            self.skipTest("the archive has no further kinds of fragments")
        self.assertEqual(repr(kind), "<kind 12: m16n8k16 .f16/.bf16 A, 16 by 16>")
        self.assertEqual(kind.held(0, 5, 3), (0, 9, 3))
        self.assertEqual(kind.holder(9, 3), (0, 5, 3))
        self.assertEqual(kind.card.text, "S[(2,8,2,4,2):(2@m,4@laneid,4@m,1@laneid,1@m)]")
        self.assertEqual(kind.card.judge().details, (256, 256, 256))
        self.assertEqual((u.Mma(1024).warps, u.Mma(1024).registers), (4, 12))
        self.refused(14, "there is no further kind 5", lambda: u.Mma(5))
        self.refused(14, "warp 1, lane 0 has no register 0 in m16n8k16 .f16/.bf16 A", lambda: kind.held(1, 0, 0))
        for number in u.MMA_KINDS:
            some = u.Mma(number)
            self.assertEqual(some.warps * 32 * some.registers, some.matrices * some.rows * some.columns)

    def test_bits_of_values_survive(self) -> None:
        singles = [0x7F800001, 0xFFC00000, 0x7FC12345, 0x80000000, 0x00000001]
        doubles = [0x7FF0000000000001, 0xFFF8000000000000, 0x7FF8000012345678, 1 << 63, 1]
        for kind, sort, patterns in ((5, 1, singles), (6, 2, doubles), (7, 2, doubles), (8, 2, doubles)):
            tile = [[u.Register(sort, patterns[(8 * r + k) % len(patterns)]) for k in range(8)] for r in range(8)]
            lanes = u.deal(kind, tile)
            self.assertEqual(u.collect(kind, lanes, tile=tile), tile)
            if kind > 5:
                held = u.deal_f64(kind, tile)
                self.assertEqual(u.collect_f64(kind, held, tile=tile), tile)
        back = u.deal(8, [[u.Register(2, doubles[0])] * 8] * 8)
        self.assertEqual({register for lane in back for register in lane}, {u.Register(2, doubles[0]), u.EMPTY})
        self.refused(14, "the value of lane 0, register 0 is not of the sort of kind 5", lambda: u.deal(5, [[u.double(1.0)] * 8] * 8))
        self.refused(14, "no values of kind 4, computation 0", lambda: u.deal(4, [[u.double(1.0)] * 8] * 8))

    def test_masks(self) -> None:
        fields = u.fields(0x0203028301020100)
        self.assertEqual(u.descriptor(32, fields), 0x0203028301020100)
        mask = u.Mask(128, 16, u.descriptor(128, u.Fields(non_zero_mask=1, skip_span=2, use_span=3)))
        self.assertEqual((mask.bytes.hex(), mask.zeroed, mask.first_used), ("7038", 6, 0))

    def test_books_and_plans(self) -> None:
        first, second = u.Card("S[(4):(1)]", m=8), u.Card("S[(4):(-1)]+7@m", m=8)
        self.assertEqual(u.page(u.block(first, b"a note")), (first, b"a note"))
        marked = u.Card("S[(2,4):(0@m*,1@m)]", m=4)
        self.assertEqual(u.page(u.block(marked)), (marked, b""))
        copies = u.plan(first, second)
        self.assertEqual(u.carry(first, second, copies).wanted.tolist(), second.judge().table.tolist())
        self.refused(21, "copy 1, (4, 8), names a cell outside, or is half a copy", lambda: u.carry(first, second, [(0, 0), (4, 8)]))
        self.refused(23, "both cards occupy cell 0 (m 0)", lambda: u.plan(first, first))
        self.refused(9, "the two cards have unequally many elements", lambda: u.plan(first, u.Card("S[(2):(1)]+4@m", m=8)))
        self.refused(4, "two spaces: m 8, and m 4", lambda: u.plan(first, u.Card("S[(4):(1)]", m=4)))
        self.refused(8, "the second card: elements 0 and 1 share cell 0 (m 0)", lambda: u.plan(first, u.Card("S[(4):(0)]", m=8)))
        self.refused(2, "a reuse mark, which a plan may not have", lambda: u.plan(first, u.Card("S[(4):(0@m*)]", m=8)))

    def test_canonical(self) -> None:
        v = u.canonical("K", "none", 32, m=2, k=2, lbo=256, sbo=128, length=256)
        self.assertEqual((v.approved, v.lbo, v.sbo, v.details), (True, 16, 8, (256, 256, 256)))
        self.assertEqual(v.table, v.card.judge().table)


if __name__ == "__main__":
    unittest.main()
