"""What an object's body holds, word by word, as far as a picture needs it: outlines, line widths, and where texts and bitmaps stand.

A body is the object's fields in file order: a word for a byte, flag, char, integer or float, two for a double, the high half first. Every plan was checked, so
nothing is checked here.
"""

import struct
from typing import NamedTuple

from jdr import Kind

# the components behind the letter of a plain paint; G and D are gradients, of two plain paints and an integer
COMPONENTS = {"T": 0, "R": 4, "C": 5, "Y": 2, "S": 4}


class Outline(NamedTuple):
    """Where a path runs, or a text along one: the letter and the points of each segment, without its own start."""

    closed: bool
    start: tuple
    segments: list


class Fields:
    """The fields of a body, one after the other."""

    def __init__(self, found):
        self.words = found.body
        self.at = 0
        self.minor = found.plan.bodies[0]

    def skip(self, count):
        self.at += count

    def word(self):
        self.at += 1
        return self.words[self.at - 1]

    def float(self):
        return struct.unpack("=f", struct.pack("=I", self.word()))[0]

    def doubles(self, count):
        self.skip(2 * count)
        return struct.unpack(f">{count}d", struct.pack(f">{2 * count}I", *self.words[self.at - 2 * count : self.at]))

    def string(self):
        self.skip(self.word())

    def plain_paint(self):
        self.skip(COMPONENTS[chr(self.word())])

    def paint(self):
        if chr(self.words[self.at]) in COMPONENTS:
            return self.plain_paint()
        self.skip(1)
        self.plain_paint()
        self.plain_paint()
        self.skip(1)

    def marker(self):
        """A marker with those that are put on top of it."""
        if self.minor == 0:
            self.skip(3 if self.word() else 0)
            return
        while self.word():
            self.skip(3)  # size, repeat, reversed
            self.skip(0 if self.word() else 1)  # turned with the line, or an angle
            self.plain_paint()
            overlay = self.word()
            if self.minor >= 4 and not overlay:
                for _ in range(2):
                    self.skip(1 if self.word() else 0)

    def line_style(self):
        """The line's width; the rest is passed."""
        width = self.float()
        dashes = self.word()
        self.skip(dashes + 1 if dashes else 0)
        self.skip(1)  # cap
        self.skip(0 if self.word() else 1)  # the join, and the limit of a mitre
        self.skip(1)  # winding
        for _ in range(2 if self.minor == 0 else 3):
            self.marker()
        return width

    def outline(self):
        closed = chr(self.word()) == "C"
        count = self.word()
        start = self.doubles(2) if self.minor >= 3 else None
        segments = []
        for _ in range(count):
            letter = chr(self.word())
            if self.minor < 3:
                own = self.doubles(2)
                start = own if start is None else start
            segments.append((letter, self.doubles(6 if letter == "B" else 2)))
        return Outline(closed, start, segments)

    def font(self):
        """A text's size and transformation; the LaTeX fields are passed."""
        self.string()
        self.skip(2)
        size, matrix = self.word(), self.doubles(6)
        if self.word():
            for _ in range(4):
                self.string()
            self.skip(2)
            self.string()
        return size, matrix


def path_of(found):
    """The line width and the outline of a path."""
    fields = Fields(found)
    fields.paint()
    fields.paint()
    return fields.line_style(), fields.outline()


def font_of(found):
    """The size and the transformation of a text, and of a text along a path its outline."""
    fields = Fields(found)
    if found.kind is Kind.TEXT:
        return *fields.font(), None
    fields.paint()
    size, matrix = fields.font()
    fields.string()
    return size, matrix, fields.outline()


def bitmap_of(found):
    """The transformation of a bitmap."""
    fields = Fields(found)
    fields.string()
    if fields.word():
        fields.string()
        fields.string()
    return fields.doubles(6)
