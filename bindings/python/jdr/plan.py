"""A plan: a drawing as a table that the library has accepted, and the objects in it."""

from __future__ import annotations

import sys
from array import array
from collections.abc import Callable, Iterator, Sequence
from operator import index
from typing import Any, Optional, SupportsIndex, Union

from . import calls
from .calls import ROW_WORDS
from .numbers import ACCEPTED, CONTENTS_TOO_SHORT, NO_PART, Refused, refused, refused_row
from .parts import Box, Kind, Paint, Text, Which, paint_of

Bytes = Union[bytes, bytearray, memoryview]

# where a word's 16-bit char stands, of the two halves
_CHAR_HALF = 0 if sys.byteorder == "little" else 1


class Plan:
    """A drawing, whole. Every plan that exists was accepted by the library, and it does not change.

    >>> plan = Plan.read(open("hall.jdr", "rb").read())       # raises Refused
    >>> for found in plan.find("machine"):
    ...     print(found.row, found.kind.name, found.shown)

    A row is the number of an object, in the order in which objects open in the file; row 0 is the outer group. Wherever a row is asked
    for, an `Object` does as well. Each question about a row checks the whole table again, so asking about every row takes time in
    proportion to rows times words. Several threads may use one plan.
    """

    __slots__ = ("_contents", "_bodies", "_chars")

    def __init__(self, contents: Sequence[int], bodies: Sequence[int]) -> None:
        """The plan of a table: the used words exactly, as `contents` and `bodies` give them. Refused (16) where they are none."""
        self._keep(array("I", contents), array("I", bodies))
        self.check()

    def _keep(self, contents: array, bodies: array) -> None:
        self._contents = contents
        self._bodies = bodies
        # every other 16-bit half of the bodies: a text is a slice of it
        self._chars = memoryview(bodies).cast("B").cast("H")[_CHAR_HALF::2]

    @classmethod
    def _filled(cls, call: Callable[..., calls.Answer], source: Bytes) -> Plan:
        """The plan that a call reads from bytes, which is asked for the counts first."""
        source = bytes(source)
        contents = bodies = calls.words(0)
        answer = call(source, contents, bodies)
        if answer.number == CONTENTS_TOO_SHORT:
            contents, bodies = calls.words(answer.rows * ROW_WORDS), calls.words(answer.words)
            answer = call(source, contents, bodies)
        if answer.number != ACCEPTED:
            raise refused(answer.number, answer.offset)
        plan = cls.__new__(cls)
        plan._keep(contents, bodies)
        return plan

    @classmethod
    def read(cls, file: Bytes) -> Plan:
        """Reads the bytes of a JDR file. Refused where they are not a whole drawing, with the offset of the field at fault."""
        return cls._filled(calls.read, file)

    @classmethod
    def read_sheet(cls, sheet: Bytes) -> Plan:
        """Reads a sheet, as `write_sheet` gives it. Refused (19) where the bytes are none."""
        return cls._filled(calls.sheet_read, sheet)

    @property
    def contents(self) -> memoryview:
        """The rows, four words each: kind, row of the parent, start and length of the body in the bodies. Not to be written to."""
        return memoryview(self._contents).toreadonly()

    @property
    def bodies(self) -> memoryview:
        """The words of the head and then of every object, in the order in which objects end. Not to be written to."""
        return memoryview(self._bodies).toreadonly()

    @property
    def version(self) -> str:
        """The version of the format, as '1.4'."""
        return f"1.{self._bodies[0]}"

    @property
    def objects(self) -> Objects:
        """All objects, by their rows: `plan.objects[0]` is the outer group."""
        return Objects(self)

    def check(self) -> int:
        """How many bytes the plan's file has. Checks the whole table."""
        answer = calls.check(self._contents, self._bodies)
        if answer.number != ACCEPTED:
            raise refused(answer.number, answer.offset)
        return answer.offset

    def _written(self, call: Callable[..., calls.Answer]) -> bytes:
        """What a call writes of the table, which is asked for the length first."""
        room = calls.octets(call(self._contents, self._bodies, calls.octets(0)).offset)
        answer = call(self._contents, self._bodies, room)
        if answer.number != ACCEPTED:
            raise refused(answer.number, answer.offset)
        return room.tobytes()

    def write(self) -> bytes:
        """The bytes of the plan's file: those that it was read from, with each true flag made 1."""
        return self._written(calls.write)

    def write_sheet(self) -> bytes:
        """The plan's table as a sheet: bytes to keep, from which the plan is read again."""
        return self._written(calls.sheet_write)

    def find(self, label: str) -> list[Object]:
        """Every object whose description is the label, char for char, in the order in which they open.

        Below version 1.2 every description is empty.
        """
        entries = calls.words(len(self.objects))
        answer = calls.find(self._contents, self._bodies, calls.chars(label), entries)
        if answer.number != ACCEPTED:
            raise refused(answer.number, answer.offset)
        return [Object(self, row) for row in entries[: answer.rows]]

    def _ask(self, call: Callable[..., Any], *numbers: SupportsIndex) -> Any:
        """The answer of a question about a row. Refused where the plan has no such row, or the object no such part."""
        # a row that no table can have is asked for as the last one that a call can name
        answer = call(self._contents, self._bodies, *(number if 0 <= number < 1 << 32 else (1 << 32) - 1 for number in map(index, numbers)))
        if answer.number != ACCEPTED:
            raise refused_row(answer.number)
        return answer

    def paint(self, row: SupportsIndex, which: Which) -> Paint:
        """The line or fill paint of a path, or the text paint of a text. Refused: no such row (6), no such paint (7)."""
        return paint_of(self._ask(calls.paint, row, which))

    def text(self, row: SupportsIndex) -> Text:
        """The texts of a text, or of a text along a path; `.shown` is the one to show. Refused: no such row (6), no text (7)."""
        places = self._ask(calls.text, row)
        return Text(self._text_at(places.alternative_start, places.alternative_length), self._text_at(places.text_start, places.text_length))

    def description(self, row: SupportsIndex) -> str:
        """The description of an object, which is its label; empty below version 1.2. Refused: no such row (6)."""
        place = self._ask(calls.description, row)
        return self._text_at(place.start, place.length)

    def extent(self, row: SupportsIndex) -> Box:
        """The box around a path, or a text along a path. Refused: no such row (6), no path (7), a coordinate is not a number (20)."""
        sides = self._ask(calls.box, row)
        return Box(sides.left, sides.bottom, sides.right, sides.top)

    def _text_at(self, start: int, length: int) -> str:
        """The text of so many chars in the bodies. Half of a pair that stands alone stays what it is."""
        return self._chars[start : start + length].tobytes().decode(calls.ENCODING, "surrogatepass")

    def __eq__(self, other: object) -> bool:
        """Whether the other is a plan of the same drawing."""
        return isinstance(other, Plan) and self._contents == other._contents and self._bodies == other._bodies

    def __hash__(self) -> int:
        return hash((self._contents.tobytes(), self._bodies.tobytes()))

    def __reduce__(self) -> tuple:
        return Plan, (self._contents, self._bodies)

    def __repr__(self) -> str:
        return f"<Plan of version {self.version}, {len(self.objects)} objects, {len(self._bodies)} words>"


class Objects(Sequence):
    """The objects of a plan, by their rows."""

    __slots__ = ("_plan",)

    def __init__(self, plan: Plan) -> None:
        self._plan = plan

    def __len__(self) -> int:
        return len(self._plan._contents) // ROW_WORDS

    def __getitem__(self, row):  # an Object for a row, a list of them for a slice
        rows = range(len(self))[row]
        return [Object(self._plan, each) for each in rows] if isinstance(rows, range) else Object(self._plan, rows)

    def __iter__(self) -> Iterator[Object]:
        return (Object(self._plan, row) for row in range(len(self)))


class Object:
    """An object of a plan. `row` is its number; it can stand wherever a row is asked for."""

    __slots__ = ("plan", "row")

    def __init__(self, plan: Plan, row: int) -> None:
        self.plan = plan
        self.row = row

    def __index__(self) -> int:
        return self.row

    def _word(self, place: int) -> int:
        return self.plan._contents[self.row * ROW_WORDS + place]

    @property
    def kind(self) -> Kind:
        """What the object is."""
        return Kind(self._word(0))

    @property
    def parent(self) -> Optional[Object]:
        """The group that holds the object; None of the outer group."""
        return Object(self.plan, self._word(1)) if self.row else None

    @property
    def groups(self) -> list[Object]:
        """The groups around the object, from the innermost to the outer one."""
        around = []
        group = self.parent
        while group is not None:
            around.append(group)
            group = group.parent
        return around

    @property
    def body(self) -> memoryview:
        """The words of the object's own fields."""
        start = self._word(2)
        return self.plan.bodies[start : start + self._word(3)]

    @property
    def description(self) -> str:
        """The object's label; empty where it has none."""
        return self.plan.description(self.row)

    def _part(self, ask: Callable[..., Any], *which: Which) -> Any:
        """A part of the object, or None where it has none."""
        try:
            return ask(self.row, *which)
        except Refused as refusal:
            if refusal.number != NO_PART:
                raise
            return None

    def paint(self, which: Which) -> Optional[Paint]:
        """The object's line, fill or text paint; None where it has none."""
        return self._part(self.plan.paint, which)

    @property
    def text(self) -> Optional[Text]:
        """The object's texts; None where it is no text."""
        return self._part(self.plan.text)

    @property
    def shown(self) -> Optional[str]:
        """The text to show; None where the object is no text."""
        text = self.text
        return None if text is None else text.shown

    @property
    def extent(self) -> Optional[Box]:
        """The box around the object's outline; None where it has none. Refused (20) where a coordinate is not a number."""
        return self._part(self.plan.extent)

    def __eq__(self, other: object) -> bool:
        return isinstance(other, Object) and self.row == other.row and (self.plan is other.plan or self.plan == other.plan)

    def __hash__(self) -> int:
        return hash((Object, self.row))

    def __repr__(self) -> str:
        return f"<{self.kind.name} in row {self.row}>"
