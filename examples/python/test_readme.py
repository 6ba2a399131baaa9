"""Tests that the README shows the programs that are here, and prints what they print. tools/examples runs them."""

import os
import re
import subprocess
import sys
import textwrap
import unittest
from pathlib import Path

HERE = Path(__file__).resolve().parent
EXAMPLES = HERE.parent
README = (EXAMPLES.parent / "README.md").read_text()


def shown(text):
    """A text as the README has it, each line four spaces in."""
    return textwrap.indent(text, "    ")


class Readme(unittest.TestCase):
    """README.md"""

    def printed(self, program, *arguments, stdin=os.devnull):
        with open(EXAMPLES / stdin) as source:
            return subprocess.run([sys.executable, program, *arguments], cwd=EXAMPLES, stdin=source, text=True, capture_output=True).stdout

    def test_the_first_program(self):
        self.assertIn(shown((HERE / "first.py").read_text()), README)
        self.assertIn(shown(self.printed("python/first.py", "plans/floor.jdr")), README)

    def test_what_the_programs_print(self):
        for name in ("more", "gaps"):
            self.assertIn(shown(self.printed("python/uptime.py", "plans/floor.jdr", f"lists/{name}.csv", "168")), README)
        self.assertIn(shown(self.printed("python/plan.py", "plans/hall.jdr", "machine")), README)
        self.assertIn(shown(self.printed("python/pipe.py", "100", stdin="plans/hall.jdr")), README)

    def test_a_session(self):
        # the README's lines, with the hall as what comes
        lines = re.search(r"\n((?:    .*\n)*    verdict = session\.verdict\(\)\n)", README).group(1)
        program = "import os, jdr\n" + textwrap.dedent(lines) + "print(verdict.length, verdict.rows, verdict.words)"
        self.assertEqual(self.printed("-c", program, stdin="plans/hall.jdr"), "522 8 178\n")


if __name__ == "__main__":
    unittest.main()
