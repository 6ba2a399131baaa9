"""Reads JDR vector drawings, versions 1.0 to 1.5, by a library that is proved to refuse what it cannot read.

    import jdr

    plan = jdr.Plan.read(open("hall.jdr", "rb").read())     # raises jdr.Refused, with number, offset and a message
    for found in plan.find("machine"):
        print(found.row, found.kind.name, [group.row for group in found.groups], found.shown)

`Plan` and the `Object`s in it are all that most programs need. `Session` checks a plan that comes in pieces, and stores none of it. `jdr.numbers`
has the numbers of refusals by name, `jdr.calls` the calls of the C interface over memory of one's own.
"""

from .numbers import Refused
from .parts import Box, Colour, Form, Kind, Paint, Space, Text, Which
from .plan import Object, Objects, Plan
from .session import Session, Verdict

__version__ = "1.1.0"
__all__ = ["Box", "Colour", "Form", "Kind", "Object", "Objects", "Paint", "Plan", "Refused", "Session", "Space", "Text", "Verdict", "Which"]
