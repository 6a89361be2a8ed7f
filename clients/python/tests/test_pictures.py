"""Pictures: drawn from the library and from the second program, they are the same bytes; docs/pictures has what is drawn today."""
import re
import unittest
from xml.etree import ElementTree

import gallery
import urszovely as u
from second import ROOT, Second, knows
from urszovely import _ask


def has_kinds() -> bool:
    """Whether the archive and the second program have the further kinds of fragments."""
    try:
        u.Mma(12)
    except NotImplementedError:
        return False
    return knows(b"mma 12 0 0 0")


class Pictures(unittest.TestCase):
    @classmethod
    def setUpClass(cls) -> None:
        cls.all = {**gallery.ALL, **(gallery.KINDS if has_kinds() else {})}
        cls.drawn = {name: draw() for name, draw in cls.all.items()}

    def test_drawn_twice(self) -> None:
        before = _ask.take(Second())
        try:
            for name, draw in self.all.items():
                self.assertEqual(self.drawn[name], draw(), name)
        finally:
            _ask.take(before)

    def test_each_is_well_formed_small_and_readable(self) -> None:
        for name, svg in self.drawn.items():
            with self.subTest(name):
                self.assertEqual(ElementTree.fromstring(svg).tag, "{http://www.w3.org/2000/svg}svg")
                self.assertLess(len(svg.encode()), 1000000)
                self.assertGreaterEqual(min(float(size) for size in re.findall(r'font-size="([0-9.]+)"', svg)), 9)

    def test_docs_pictures_are_what_is_drawn(self) -> None:
        folder = ROOT / "docs" / "pictures"
        self.assertEqual(sorted(path.name for path in folder.iterdir()), sorted(name + ".svg" for name in gallery.KEPT))
        for name in gallery.KEPT:
            kept = (folder / (name + ".svg")).read_text(encoding="utf-8")
            self.assertEqual(kept, self.drawn[name], f"./python clients/python/tests/gallery.py docs/pictures writes {name} anew")
            self.assertLess(len(kept.encode()), 60000)


if __name__ == "__main__":
    unittest.main()
