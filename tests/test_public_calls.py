"""Shows that .ci/public_calls.py finds the crates and contracts that it must."""

from __future__ import annotations

import importlib.util
import tempfile
import unittest
from pathlib import Path
from types import ModuleType

ROOT = Path(__file__).parent.parent
SOUND = """
// A head over several lines.
pub fn sound<'a>(
    x: &'a [u32; 4],
    y: u32,
) -> Reply
    ensures value { Right {x} result
        × (x.now ≡ y) }
    ensures { IsTrue true }
{
    helper(x, y)
}

fn helper(x: u32)
    requires { x < 4 }
{
}
"""


def load_script() -> ModuleType:
    spec = importlib.util.spec_from_file_location("public_calls", ROOT / ".ci" / "public_calls.py")
    assert spec is not None and spec.loader is not None
    module = importlib.util.module_from_spec(spec)
    spec.loader.exec_module(module)
    return module


SCRIPT = load_script()


class PublicCalls(unittest.TestCase):
    def faults(self, source: str, listed: str = "low:\nface: low\nmain: face\n") -> list[str]:
        """Those of a repository whose crate `face` has the source."""
        classes = {"public face": "face", "below it": "low", "programs": "main"}
        with tempfile.TemporaryDirectory() as folder:
            root = Path(folder)
            (root / "crates.txt").write_text("# A crate and what it is built on.\n" + listed)
            (root / "crates" / "face" / "src").mkdir(parents=True)
            (root / "crates" / "face" / "src" / "lib.rt").write_text(source, encoding="utf-8")
            found = SCRIPT.all_faults(root, classes)
            return [each.rpartition("/")[2] for each in found]

    def test_sound(self) -> None:
        self.assertEqual(self.faults(SOUND), [])
        self.assertEqual(self.faults(SOUND, "low:\nface staticlib: low\nmain: face\n"), [])

    def test_this_repository(self) -> None:
        self.assertEqual(SCRIPT.all_faults(ROOT, SCRIPT.CLASSES), [])

    def test_no_ensures(self) -> None:
        bare = 'pub extern "C" fn bare(\n    x: u32,\n) -> u8\n{\n    // ensures { }\n    0\n}\n'
        self.assertEqual(self.faults(SOUND + bare), ["lib.rt: bare has no ensures"])

    def test_body_on_the_head_line(self) -> None:
        self.assertEqual(
            self.faults("pub fn bare(x: u32) -> u8 { ensures(x) }\n"),
            ["lib.rt: bare has no ensures"],
        )

    def test_requires_after_a_long_ensures(self) -> None:
        head = "pub fn asking(x: u32)\n    ensures {\n        a\n    }\n"
        found = self.faults(head + "    requires low { b }\n{\n}\n")
        self.assertEqual(found, ["lib.rt: asking has a requires"])

    def test_no_public_function(self) -> None:
        self.assertEqual(self.faults("fn hidden() {}\n"), ["face has no public function"])

    def test_crate_without_an_entry(self) -> None:
        found = self.faults(SOUND, "low:\nface: low\nnewer: low\nmain: face\n")
        self.assertEqual(found, ["newer is in no class of public_calls.py"])

    def test_entry_without_a_crate(self) -> None:
        self.assertEqual(self.faults(SOUND, "face:\nmain: face\n"), ["low is not in crates.txt"])

    def test_crate_in_two_classes(self) -> None:
        found = SCRIPT.class_faults(["one"], {"public face": "one", "below it": "one"})
        self.assertEqual(found, ["one is in two places of public_calls.py"])


if __name__ == "__main__":
    unittest.main()
