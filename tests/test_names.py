"""Holds the names that the documents give with a file to what that file defines."""

from __future__ import annotations

import re
import unittest
from collections.abc import Iterator
from pathlib import Path

ROOT = Path(__file__).parent.parent
DOCUMENTS = [ROOT / "README.md", *sorted((ROOT / "docs").glob("*.md"))]

# One backticked name or more, joined by commas or "and", and a backticked path below crates/.
MENTION = re.compile(r"((?:`[^`]+`(?: and |, ))*`[^`]+`) (?:in|of) `(crates/[^`]+)`")

# Of an .antt file a definition, field or constructor; of a .rt file an item, field or variant.
DEFINED = {
    ".antt": r"^ *(?:(?:unfoldable|abbrev|pub|data|record) )*{}(?: [^=\n]*)? :",
    ".rt": r"^ *(?:pub(?:\(crate\))? )?(?:extern \"C\" )?"
    r"(?:(?:fn|struct|enum|const|mod) {0}\b|{0}[:(,])",
}


def mentions(text: str) -> list[tuple[str, str]]:
    """Every (name, path) that a document's text has."""
    flat = " ".join(text.split())
    return [
        (name, found.group(2))
        for found in MENTION.finditer(flat)
        for name in re.findall(r"`([^`]+)`", found.group(1))
    ]


def defines(path: Path, name: str) -> bool:
    """Whether the file at the path, or some file below it, defines the name."""
    files = [path] if path.is_file() else sorted(path.rglob("*"))
    return any(
        re.search(DEFINED[file.suffix].format(re.escape(name)), file.read_text("utf-8"), re.M)
        for file in files
        if file.suffix in DEFINED
    )


def faults(text: str, root: Path) -> Iterator[str]:
    """What is wrong with the mentions of a document's text, a line for each."""
    for name, path in mentions(text):
        if not (root / path).exists():
            yield f"{name}: there is no {path}"
        elif not defines(root / path, name):
            yield f"{name} is not defined in {path}"


class Names(unittest.TestCase):
    def test_each_is_defined_where_the_documents_say(self) -> None:
        for document in DOCUMENTS:
            found = list(faults(document.read_text("utf-8"), ROOT))
            self.assertEqual(found, [], f"{document.name}:\n" + "\n".join(found))

    def test_the_documents_have_mentions(self) -> None:
        for name in ("METHOD.md", "DECISIONS.md", "PROOFS.md"):
            self.assertGreater(len(mentions((ROOT / "docs" / name).read_text("utf-8"))), 20)

    def test_a_list_over_two_lines(self) -> None:
        text = "by `a`,\n`b` and `c` in\n`crates/x/Y.antt`; `d` in `tests/z.py`"
        self.assertEqual(mentions(text), [(name, "crates/x/Y.antt") for name in "abc"])

    def test_what_it_must_catch(self) -> None:
        point = "crates/model/specs/Point.antt"
        self.assertEqual(list(faults(f"`Point`, `in_domain` and `x` in `{point}`", ROOT)), [])
        for name in ("Points", "poin", "leZ", "Type", "negsuc"):
            self.assertEqual(
                list(faults(f"`{name}` in `{point}`", ROOT)), [f"{name} is not defined in {point}"]
            )
        self.assertEqual(
            list(faults("`x` in `crates/none.antt`", ROOT)), ["x: there is no crates/none.antt"]
        )


if __name__ == "__main__":
    unittest.main()
