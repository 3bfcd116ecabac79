"""Which lines are too wide."""
import pathlib
import tempfile
import unittest
from typing import Dict, List

import widths

SPEC = "crates/swreq_low/specs/A.antt"
PROOF = "crates/swreq_low/proofs/a/B.antt"
CODE = "crates/swreq_low/src/a.rt"
CLAUSE = """pub fn f(s: &[u8]) -> u8
    requires some { s.now ≡ codes "}" }
    ensures first { result ≡ g (record {
      items = s.now;
    })%s }
{
    g(s)%s
}
"""


def of_width(characters: int, begin: str = "") -> str:
    return begin + "≡" * (characters - len(begin)) + "\n"


class Widths(unittest.TestCase):
    def faults(self, files: Dict[str, str]) -> List[str]:
        """What is wrong with these files."""
        with tempfile.TemporaryDirectory() as folder:
            for name, text in files.items():
                path = pathlib.Path(folder, name)
                path.parent.mkdir(parents=True, exist_ok=True)
                path.write_text(text, encoding="utf-8")
            return widths.faults_of_widths(pathlib.Path(folder))

    def test_a_line_has_at_most_140_characters(self) -> None:
        self.assertEqual(self.faults({SPEC: of_width(140), PROOF: of_width(140)}), [])
        wanted = ["%s:2: 141 characters, where 140 is the most" % PROOF]
        self.assertEqual(self.faults({SPEC: of_width(140), PROOF: "\n" + of_width(141)}), wanted)

    def test_imports_may_be_wider(self) -> None:
        self.assertEqual(self.faults({SPEC: of_width(200, "use Low.{") + of_width(200, "pub use Low.{")}), [])

    def test_a_clause_is_narrower(self) -> None:
        self.assertEqual(self.faults({CODE: CLAUSE % ("", "")}), [])
        wanted = ["%s:5: 101 characters, where 100 is the most" % CODE]
        self.assertEqual(self.faults({CODE: CLAUSE % ("x" * 93, "")}), wanted)

    def test_code_and_its_comments_may_be_wider(self) -> None:
        self.assertEqual(self.faults({CODE: of_width(120, "/// ") + CLAUSE % ("x" * 92, "x" * 120)}), [])


if __name__ == "__main__":
    unittest.main()
