"""Tests of the picture: the outlines that `fields` finds are those that the library measures, on all example plans and every committed case, and a picture
is XML with an element for each object. tools/examples runs them.
"""

import unittest
import xml.etree.ElementTree as xml
from pathlib import Path

import draw
import fields
import jdr
from jdr import Kind

REPOSITORY = Path(__file__).resolve().parents[2]
SVG = "{http://www.w3.org/2000/svg}"


def accepted():
    """The plans of this repository that are read, with their names."""
    files = [*sorted((REPOSITORY / "examples/plans").glob("*.jdr")), *sorted((REPOSITORY / "crates/run_cases/data/read").iterdir())]
    for path in files:
        try:
            yield path.name, jdr.Plan.read(path.read_bytes())
        except jdr.Refused:
            pass


class Drawn(unittest.TestCase):
    """Every plan that is read."""

    def outline(self, found):
        """The outline of a path or a text along one, which ends right before the flow frame flag and the description."""
        passed = fields.Fields(found)
        passed.paint()
        if found.kind is Kind.PATH:
            passed.paint()
            passed.line_style()
        else:
            passed.font()
            passed.string()
        outline = passed.outline()
        passed.skip(1)
        if passed.minor >= 2:
            passed.string()
        self.assertEqual(passed.at, len(passed.words))
        return outline

    def test_outlines_are_those_that_the_library_measures(self):
        seen = 0
        for name, plan in accepted():
            for found in plan.objects:
                if found.kind in (Kind.PATH, Kind.TEXT_PATH):
                    with self.subTest(name, row=found.row):
                        points = draw.points_of(self.outline(found))
                        xs, ys = zip(*points)
                        try:
                            self.assertEqual(found.extent, (min(xs), min(ys), max(xs), max(ys)))
                        except jdr.Refused:
                            self.assertTrue(any(value != value for value in xs + ys))
                    seen += 1
        self.assertGreater(seen, 200)

    def test_the_picture_of_the_readme(self):
        floor = jdr.Plan.read((REPOSITORY / "examples/plans/floor.jdr").read_bytes())
        self.assertEqual(draw.Picture(floor).draw(), (REPOSITORY / "docs/floor.svg").read_text())

    def test_a_picture_is_xml(self):
        for name, plan in accepted():
            if len(plan.objects) < 300:
                with self.subTest(name):
                    text = draw.Picture(plan).draw()
                    picture = xml.fromstring(text)
                    left_out = text.count("<!-- row")
                    drawn = [found for found in plan.objects if found.kind is not Kind.GROUP]
                    along = sum(found.kind is Kind.TEXT_PATH for found in drawn)
                    boxes = len(picture.findall(f"{SVG}rect[@stroke-dasharray]"))
                    labels = picture.findall(f"{SVG}text[@class='label']")
                    self.assertLessEqual(len(labels), sum(found.description != "" for found in plan.objects))
                    shapes = len(picture) - boxes - len(labels) + left_out
                    self.assertGreaterEqual(shapes, len(drawn))
                    self.assertLessEqual(shapes, len(drawn) + along)


if __name__ == "__main__":
    unittest.main()
