"""Tests of the uptime: lists that cannot be used, labels with quotes, and that the figure leaves no tool of the plan out. tools/examples runs
them, and compares the program with the independent one on the lists of examples/lists.
"""

import unittest
from pathlib import Path

import jdr
import uptime

FLOOR = jdr.Plan.read((Path(__file__).resolve().parents[1] / "plans/floor.jdr").read_bytes())
TOOLS = {"etcher 1": 160.0, "etcher 2": 80.0, "stepper 1": 160.0, "furnace 1": 0.0, "wet bench 1": 100.0}
PLACES = dict.fromkeys(["floor", "bay 1", "bay 2", "bay 3", "door"])


class Uptime(unittest.TestCase):
    """The figure over the floor."""

    def figure(self, hours):
        (first, *named), matched = uptime.report(FLOOR, hours, 200)
        return float(first.removeprefix("uptime ").removeprefix("at least ").split()[0]), first, named, matched

    def test_all_labels_are_there(self):
        figure, first, named, matched = self.figure({**TOOLS, **PLACES})
        self.assertEqual((figure, named, matched), (50.0, [], True))
        self.assertIn(" over the 5 tools of the plan ", first)
        self.assertTrue(first.endswith(" (labels that are no tools: 5)"), first)

    def test_a_label_that_is_not_in_the_list_counts_as_not_run(self):
        whole = {**TOOLS, **PLACES}
        for label, own in whole.items():
            figure, first, named, matched = self.figure({other: run for other, run in whole.items() if other != label})
            tools = 5 if label in TOOLS else 6
            self.assertEqual((figure, matched), (round((500 - (own or 0)) / (2 * tools), 1), False))
            self.assertTrue(first.startswith("uptime at least "), first)
            self.assertIn(f" over the {tools} tools of the plan ", first)
            self.assertTrue(first.endswith("; not in the list, so counted as not run: 1)"), first)
            self.assertEqual(named, [f"on the plan, not in the list: {label}"])

    def test_a_label_that_is_nowhere_is_told_with_the_figure(self):
        figure, first, named, matched = self.figure({**TOOLS, **PLACES, "prober 7": 200.0})
        self.assertEqual((figure, matched), (50.0, False))
        self.assertTrue(first.endswith("; labels of the list that are not on the plan: 1)"), first)
        self.assertEqual(named, ["in the list, not on the plan: prober 7"])

    def test_no_tools(self):
        self.assertEqual(uptime.report(FLOOR, dict.fromkeys({**TOOLS, **PLACES}), 200), (["no figure: no label of the plan is a tool"], True))


class Lists(unittest.TestCase):
    """What a list may be."""

    def read(self, *lines):
        return uptime.hours_by_label(["label,hours\n", *lines], 168)

    def test_labels_may_be_quoted(self):
        self.assertEqual(self.read('"a, ""b""",1\n', "c,-\n"), {'a, "b"': 1.0, "c": None})

    def test_lists_that_cannot_be_used(self):
        for wrong in ("a\n", "a,\n", "a,1,2\n", ",1\n", "a,x\n", "a,-1\n", "a,169\n", "a,nan\n", "a,inf\n"):
            with self.assertRaisesRegex(uptime.BadList, "^line 2 "):
                self.read(wrong)
        with self.assertRaisesRegex(uptime.BadList, "^line 3 .* second time"):
            self.read("a,1\n", "a,1\n")
        with self.assertRaisesRegex(uptime.BadList, "does not begin"):
            uptime.hours_by_label(["a,1\n"], 168)


if __name__ == "__main__":
    unittest.main()
