"""Draws a plan as SVG, from its table: outlines in their colours and line widths, texts, a box around each group, and the labels: draw.py FILE > PICTURE.

Of a gradient the first colour is drawn; fonts, dashes and markers are not. An outline with a coordinate that is no number, or infinite, is left out, with a
comment that says so.
"""

import colorsys
import math
import sys
from xml.sax.saxutils import escape

import fields
import jdr
from jdr import Kind, Space, Which

MARGIN = 10
BITMAP = 8  # a bitmap's size is not in the plan


def number(value):
    return f"{value:.6g}"


def printable(text):
    """The text, with a replacement for what XML cannot hold."""
    kept = (c if c in "\t\n" or " " <= c and not "\ud800" <= c <= "\udfff" and c not in "\ufffe\uffff" else "\ufffd" for c in text)
    return escape("".join(kept))


def rgb(colour):
    """Red, green and blue from 0 to 1."""
    if colour.space is Space.CMYK:
        cyan, magenta, yellow, black, _ = colour.components
        return [(1 - part) * (1 - black) for part in (cyan, magenta, yellow)]
    if colour.space is Space.GREY:
        return colour.components[:1] * 3
    if colour.space is Space.HSB:
        hue, saturation, brightness, _ = colour.components
        return colorsys.hsv_to_rgb(hue / 360, saturation, brightness)
    return colour.components[:3]


def painted(name, paint):
    """An attribute of this name for a paint, and its opacity."""
    if paint.first.space is Space.TRANSPARENT:
        return f'{name}="none"'
    red, green, blue = (round(255 * part) for part in rgb(paint.first))
    return f'{name}="#{red:02x}{green:02x}{blue:02x}" {name}-opacity="{number(paint.first.components[-1])}"'


def path_data(outline):
    """The outline as SVG writes it, whose letters are C, L and M for the format's B, L and M."""
    parts = ["M", *map(number, outline.start)]
    for letter, points in outline.segments:
        parts += ["C" if letter == "B" else letter, *map(number, points)]
    return " ".join(parts + ["Z"] * outline.closed)


def points_of(outline):
    coordinates = [*outline.start, *(value for _, points in outline.segments for value in points)]
    return list(zip(coordinates[::2], coordinates[1::2]))


def matrix_of(matrix):
    return f'transform="matrix({" ".join(map(number, matrix))})"'


class Picture:
    """The lines of the picture, and the points that it reaches."""

    def __init__(self, plan):
        self.plan = plan
        self.lines = []
        self.points = {found.row: [] for found in plan.objects}  # by row, those of an object and of all that it holds

    def reach(self, found, points):
        for each in (found, *found.groups):
            self.points[each.row] += points

    def left_out(self, found):
        self.lines.append(f"<!-- row {found.row} has a coordinate that cannot be drawn -->")

    def draw_path(self, found):
        width, outline = fields.path_of(found)
        points = points_of(outline)
        if not all(map(math.isfinite, sum(points, ()))):
            return self.left_out(found)
        self.reach(found, points)
        paints = painted("stroke", found.paint(Which.LINE)), painted("fill", found.paint(Which.FILL))
        thick = number(width if math.isfinite(width) and width > 0 else 0)
        self.lines.append(f'<path d="{path_data(outline)}" {" ".join(paints)} stroke-width="{thick}"/>')

    def draw_text(self, found):
        size, matrix, outline = fields.font_of(found)
        points = [matrix[4:]] if outline is None else points_of(outline)
        if not all(map(math.isfinite, matrix if outline is None else sum(points, ()))):
            return self.left_out(found)
        self.reach(found, points)
        shown, paint = printable(found.shown), painted("fill", found.paint(Which.TEXT))
        if outline is None:
            self.lines.append(f'<text {matrix_of(matrix)} font-size="{size}" {paint}>{shown}</text>')
        else:
            name = f"row{found.row}"
            self.lines.append(f'<path id="{name}" d="{path_data(outline)}" fill="none" stroke="#999" stroke-width="0.3"/>')
            self.lines.append(f'<text font-size="{size}" {paint}><textPath href="#{name}">{shown}</textPath></text>')

    def draw_bitmap(self, found):
        matrix = fields.bitmap_of(found)
        # its origin is the bottom left corner
        a, b, c, d, e, f = matrix
        corners = [(a * x + c * y + e, b * x + d * y + f) for x in (0, BITMAP) for y in (0, -BITMAP)]
        if not all(map(math.isfinite, sum(corners, ()))):
            return self.left_out(found)
        self.reach(found, corners)
        place = f'y="-{BITMAP}" width="{BITMAP}" height="{BITMAP}"'
        self.lines.append(f'<rect {matrix_of(matrix)} {place} fill="#ccc" stroke="#666" stroke-width="0.5"/>')

    def draw_label(self, found):
        """The object's description: above its left end, and a group's below it."""
        label, points = found.description, self.points[found.row]
        if label and points:
            xs, ys = zip(*points)
            below = found.kind is Kind.GROUP
            place = f'x="{number(min(xs))}" y="{number(max(ys) + 7 if below else min(ys) - 3)}"'
            self.lines.append(f'<text class="label" {place} font-size="5" fill="#38c">{printable(label)}</text>')

    def draw_box(self, group):
        """A box around all that a group holds."""
        points = self.points[group.row]
        if points and group.row:
            (left, top), (right, bottom) = (list(map(choose, zip(*points))) for choose in (min, max))
            place = f'x="{number(left - 2)}" y="{number(top - 2)}" width="{number(right - left + 4)}" height="{number(bottom - top + 4)}"'
            self.lines.append(f'<rect {place} fill="none" stroke="#38c" stroke-width="0.5" stroke-dasharray="3 2"/>')

    def draw(self):
        """The whole picture."""
        draws = {Kind.PATH: self.draw_path, Kind.TEXT: self.draw_text, Kind.TEXT_PATH: self.draw_text, Kind.BITMAP: self.draw_bitmap}
        for found in self.plan.objects:
            if found.kind in draws:
                draws[found.kind](found)
        for found in self.plan.objects:
            if found.kind is Kind.GROUP:
                self.draw_box(found)
            self.draw_label(found)
        xs, ys = zip(*(self.points[0] or [(0, 0)]))
        left, top = min(xs) - MARGIN, min(ys) - MARGIN
        place = " ".join(map(number, (left, top, max(xs) + MARGIN - left, max(ys) + MARGIN - top)))
        root = f'<svg xmlns="http://www.w3.org/2000/svg" viewBox="{place}" font-family="sans-serif" style="background: white">'
        return "\n".join([root, *self.lines, "</svg>", ""])


def main():
    if len(sys.argv) != 2:
        sys.exit("usage: draw.py FILE > PICTURE")
    with open(sys.argv[1], "rb") as source:
        file = source.read()
    try:
        plan = jdr.Plan.read(file)
    except jdr.Refused as refusal:
        sys.exit(f"the plan is refused: {refusal}")
    sys.stdout.buffer.write(Picture(plan).draw().encode())


if __name__ == "__main__":
    main()
