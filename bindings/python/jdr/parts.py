"""What a plan's objects are made of: kinds, colours, paints, texts and boxes, as Python values."""

from __future__ import annotations

import enum
from typing import NamedTuple, Optional

from . import calls


class Kind(enum.IntEnum):
    """The kind of an object."""

    GROUP = 1
    PATH = 2
    TEXT = 3
    BITMAP = 4
    TEXT_PATH = 5


class Which(enum.IntEnum):
    """A paint of an object: the line and the fill of a path, the text of a text or of a text along a path."""

    LINE = 0
    FILL = 1
    TEXT = 2


class Space(enum.IntEnum):
    """What a colour's components are; alpha is the last of them."""

    TRANSPARENT = 0
    RGB = 1  # red, green, blue, alpha
    CMYK = 2  # cyan, magenta, yellow, black, alpha
    GREY = 3  # grey, alpha
    HSB = 4  # hue (from 0 up to but not 360), saturation, brightness, alpha


_COMPONENTS = {Space.TRANSPARENT: 0, Space.RGB: 4, Space.CMYK: 5, Space.GREY: 2, Space.HSB: 4}


class Colour(NamedTuple):
    """A plain colour. Components are from 0 to 1, but for the hue."""

    space: Space
    components: tuple[float, ...]


class Form(enum.IntEnum):
    """The form of a paint."""

    PLAIN = 0
    LINEAR = 1
    RADIAL = 2


class Paint(NamedTuple):
    """A paint: `first` where it is plain, else a gradient from `first` to `second`.

    `place` is the direction of a linear gradient (0 to 7) or the location of a radial one (0 to 8), and 0 of a plain paint.
    """

    form: Form
    place: int
    first: Colour
    second: Optional[Colour]


class Text(NamedTuple):
    """The two texts of an object: the LaTeX alternative, which may be empty, and the text itself."""

    alternative: str
    plain: str

    @property
    def shown(self) -> str:
        """What is to be shown: the alternative if it has a char, otherwise the text."""
        return self.alternative or self.plain


class Box(NamedTuple):
    """The least x and y and the greatest x and y of an outline, control points included."""

    left: float
    bottom: float
    right: float
    top: float


def _colour(given: calls.ColorStruct) -> Colour:
    space = Space(given.kind)
    return Colour(space, tuple(given.c[: _COMPONENTS[space]]))


def paint_of(given: calls.PaintAnswer) -> Paint:
    """The paint that an answer of the number 0 holds."""
    form = Form(given.form)
    second = None if form is Form.PLAIN else _colour(given.second)
    return Paint(form, given.place, _colour(given.first), second)
