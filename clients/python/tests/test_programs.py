"""./judge --why, ./look, and the lines of Python that README shows, each run as it stands."""
import os
import re
import subprocess
import tempfile
import unittest
from pathlib import Path
from typing import Tuple

from second import ROOT

TILE = (ROOT / "crates" / "judge" / "stdin").read_bytes()


def run(*words: str, typed: bytes = b"", folder: Path = ROOT) -> Tuple[int, bytes, bytes]:
    done = subprocess.run([str(ROOT / words[0]), *words[1:]], input=typed, stdout=subprocess.PIPE, stderr=subprocess.PIPE, cwd=folder)
    return done.returncode, done.stdout, done.stderr


class Programs(unittest.TestCase):
    def setUp(self) -> None:
        kept = tempfile.TemporaryDirectory()
        self.addCleanup(kept.cleanup)
        self.folder = Path(kept.name)

    def test_judge_and_why(self) -> None:
        for typed in (
            TILE, TILE.replace(b"R[2:4", b"R[2:1"), TILE.replace(b"1 11", b"1 10"), TILE.replace(b"R[2:4", b"R[2:0"), b"", TILE[:-1], TILE + b"more\n",
            b"1 11 32 1 1 1 1\nS[(4):(1)]\n", b"1 1 1 1 1 1 1 65536\nS[(4):(1)]\n", b"1 1 1 1 1 1 1 4\nS[(4):(1\xff\0)]", b"1 1 1 1 1 1 1 4\r\nS[(4):(1)]",
        ):
            with self.subTest(typed):
                alone, (status, why, error) = run("judge", typed=typed), run("judge", "--why", typed=typed)
                self.assertEqual((status, error), (alone[0], b""))
                line, _, rest = why.partition(b"\n")
                self.assertEqual(line + b"\n", alone[1])
                self.assertRegex(rest, rb"^(approved|refused [0-9]+): ")

    def test_look(self) -> None:
        status, said, _ = run("look", "a.svg", "--shape", "8x16", typed=TILE, folder=self.folder)
        self.assertEqual((status, said), (0, b"approved: 128 elements in 256 of 704 cells, 2 copies of each\n"))
        kept = (ROOT / "docs" / "pictures" / "approved.svg").read_bytes()
        self.assertEqual((self.folder / "a.svg").read_bytes(), kept)
        layout = TILE.decode().splitlines()[1]
        self.assertEqual(run("look", "-", layout, "laneid=32", "warpid=11", "m=2", "--shape", "8x16")[1], kept)
        banks = run("look", "-", "S[(8,64):(64,1)]", "m=512", "--swizzle", "128B/16", "--banks", "16")
        self.assertEqual(banks[1], (ROOT / "docs" / "pictures" / "banks.svg").read_bytes())
        self.assertEqual(run("look", "-", "S[(8")[:2], (1, b""))
        self.assertEqual(run("look", "-", "S[(8):(1)]", "n=8")[:2], (2, b""))

    def test_what_readme_shows(self) -> None:
        readme = (ROOT / "README.md").read_text(encoding="utf-8")
        lines = re.search(r"^    import urszovely as u\n(?:    .*\n){2}", readme, re.M)
        assert lines is not None
        program = re.sub("^    ", "", lines.group(), flags=re.M)
        file = self.folder / "three.py"
        file.write_text(program)
        status, said, error = run("python", str(file), folder=self.folder)
        self.assertEqual((status, said, error), (0, b"approved: 128 elements in 256 of 704 cells, 2 copies of each\n", b""))
        self.assertEqual([path.suffix for path in sorted(self.folder.iterdir())], [".py", ".svg"])
        drawn = next(self.folder.glob("*.svg")).read_bytes()
        self.assertEqual(drawn, (ROOT / "docs" / "pictures" / "approved.svg").read_bytes())

    def test_without_the_program_python(self) -> None:
        """A Python that was started otherwise finds the road by itself."""
        environment = {name: value for name, value in os.environ.items() if name != "URSZOVELY_ROAD"}
        environment["PYTHONPATH"] = str(ROOT / "clients" / "python")
        done = subprocess.run(["python3", "-c", "import urszovely as u; print(u.swizzle(3, 3, 3, 64))"], env=environment, stdout=subprocess.PIPE, cwd=self.folder)
        self.assertEqual((done.returncode, done.stdout), (0, b"72\n"))


if __name__ == "__main__":
    unittest.main()
