#!/usr/bin/env python3
"""turn_papers: brings names in code marks of the papers to those of today's definitions, lemmas and library, and the counts of lines in docs/PROMISES.md to what is there.

usage: python3 tools/turn_papers.py      at the top of the repository, as often as needed

tools/respell.py turned the names that it turned in the sources; port.py had turned others there before, and no paper. A name that nothing has any more is
written in snake case, or as the list below has it, if something has that name."""
import glob
import re
from pathlib import Path

# lemmas that tools/respell.py named anew beside a definition, after port.py had turned their dashes; and words of the library
OTHER = {
    "bit-length": "bit_length_lem", "first-past": "first_past_lem", "is-below": "is_below_lem", "no-text": "no_text_lem", "of-pair": "of_pair_lem",
    "read-back": "read_back_lem", "same-layout": "same_layout_lem", "same-list": "same_list_lem",
    "getD": "get_or", "leZ": "le_z", "leadingZeros": "count_leading_zeros", "natAbs": "nat_abs", "negℤ": "neg_ℤ",
}


def snake(name):
    return re.sub(r"(?<=[a-z0-9])([A-Z])", lambda m: "_" + m[1].lower(), name.replace("-", "_"))


def names():
    found = set()
    for path in glob.glob("crates/*/[ps][rpc]*/**/*.*t", recursive=True):
        found.update(re.findall(r"[\wℤ'-]+", Path(path).read_text(encoding="utf-8")))
    return found


def main():
    known = names()

    def turned(m):
        name = m[0]
        new = OTHER.get(name) or snake(name)
        return new if name not in known and new in known else name

    def marks(m):
        return "`" + re.sub(r"[A-Za-z][\wℤ'-]*", turned, m[1]) + "`"

    for path in ["README.md", "clients/python/README.md", *sorted(glob.glob("docs/**/*.md", recursive=True))]:
        if path in ("docs/PORT.md", "docs/WRONG-ANSWERS.md"):
            continue
        text = was = Path(path).read_text(encoding="utf-8")
        text = re.sub(r"`([^`\n]+)`", marks, text)
        if path == "docs/PROMISES.md":
            text = "\n".join(counted(line) for line in text.split("\n"))
        if text != was:
            Path(path).write_text(text, encoding="utf-8")
            print(f"turn_papers: {path}")


def counted(line):
    """A row of the table of definitions, with the lines of its files."""
    files = re.findall(r"\]\(\.\./([^)]*/specs/[^)]*)\)", line)
    last = re.match(r"(\|.*\| )\d+ \|$", line)
    if not files or not last:
        return line
    return f"{last[1]}{sum(Path(it).read_text(encoding='utf-8').count(chr(10)) for it in files)} |"


main()
