"""The numbers that the calls answer, as include/jdr.h names them, with a sentence for each; and the exception of a refusal."""

from __future__ import annotations

ACCEPTED = 0
TOO_LONG = 1
CUT = 2
NO_JDR = 3
BAD_VERSION = 4
BAD_FLAG = 5
OUT_OF_RANGE = 6
BAD_CHAR = 7
BAD_COUNT = 8
BAD_COMPONENT = 9
TOO_DEEP = 10
FLOW_FRAME = 11
UNJOINED = 12
TRAILING_BYTES = 13
CONTENTS_TOO_SHORT = 14
BODIES_TOO_SHORT = 15
NO_TABLE = 16
OUTPUT_TOO_SHORT = 17
LIST_TOO_SHORT = 18
NO_SHEET = 19
NOT_A_NUMBER = 20
NO_SESSION = 22

# of the questions about a row, which give these two another meaning
NO_ROW = 6
NO_PART = 7

MESSAGES = {
    ACCEPTED: "accepted",
    TOO_LONG: "the file is longer than the limit",
    CUT: "the file ends before or within a field",
    NO_JDR: "the file does not begin with 'JDR'",
    BAD_VERSION: "the version is not one that is read",
    BAD_FLAG: "a flag is neither 0 nor 1",
    OUT_OF_RANGE: "a byte or an integer is out of range",
    BAD_CHAR: "a char is not allowed here in this version",
    BAD_COUNT: "a count or a length is negative, 0 where 1 is needed, or an odd number of dashes",
    BAD_COMPONENT: "a paint component is out of range",
    TOO_DEEP: "groups are nested too deep, or a chain has too many markers",
    FLOW_FRAME: "an object has a flow frame",
    UNJOINED: "a segment does not start where the one before it ends",
    TRAILING_BYTES: "bytes follow the end of the drawing",
    CONTENTS_TOO_SHORT: "the contents lent are too short",
    BODIES_TOO_SHORT: "the bodies lent are too short",
    NO_TABLE: "the words are no table of a drawing",
    OUTPUT_TOO_SHORT: "the output lent is too short",
    LIST_TOO_SHORT: "the list lent is too short",
    NO_SHEET: "the bytes are no sheet of a table",
    NOT_A_NUMBER: "a coordinate is not a number",
    NO_SESSION: "the session was not opened",
}
UNKNOWN = "a number that no call gives"

ROW_MESSAGES = {
    **MESSAGES,
    NO_ROW: "the table has no such row",
    NO_PART: "the row's object has no such part",
}


class Refused(ValueError):
    """The library refused what it was given.

    `number` says why, and is one of this module's. `offset` is where: of a file that is refused, the first byte of the field at fault.
    `message` says the number in words.
    """

    def __init__(self, number: int, offset: int, message: str) -> None:
        super().__init__(number, offset, message)
        self.number = number
        self.offset = offset
        self.message = message

    def __str__(self) -> str:
        return f"{self.message} (number {self.number}, offset {self.offset})"


def refused(number: int, offset: int = 0) -> Refused:
    """The refusal of a file or a table."""
    return Refused(number, offset, MESSAGES.get(number, UNKNOWN))


def refused_row(number: int) -> Refused:
    """The refusal of a question about a row."""
    return Refused(number, 0, ROW_MESSAGES.get(number, UNKNOWN))
