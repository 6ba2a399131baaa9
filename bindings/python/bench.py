"""What the calls cost through the package, on the plans that are named: microseconds a call, a line for each as `plan call Python`. tools/bench_bindings
runs it.
"""

import sys
import time

from jdr import Plan, Refused, Session, Which

# A measurement is the best of so many batches, each of about this time: a shared machine only ever slows one down.
BATCHES = 60
BATCH = 0.003

# The bytes that a session is given at a time.
PIECE = 512


def timed(count, call):
    begun = time.perf_counter()
    for _ in range(count):
        call()
    return time.perf_counter() - begun


def microseconds(call):
    count = 1
    while timed(count, call) < BATCH:
        count *= 2
    return min(timed(count, call) for _ in range(BATCHES)) / count * 1e6


def asked(question, *arguments):
    """A question that may be refused."""

    def ask():
        try:
            question(*arguments)
        except Refused:
            pass

    return ask


def judged(pieces):
    """The verdict of a session on these pieces."""
    session = Session()
    for piece in pieces:
        session.feed(piece)
    return session.verdict()


def measure(name, file):
    plan = Plan.read(file)
    sheet = plan.write_sheet()
    pieces = [file[at : at + PIECE] for at in range(0, len(file), PIECE)]
    measured = {
        "read": lambda: Plan.read(file),
        "check": plan.check,
        "write": plan.write,
        "sheet_write": plan.write_sheet,
        "sheet_read": lambda: Plan.read_sheet(sheet),
        "find": lambda: plan.find(""),
        "paint": asked(plan.paint, 1, Which.LINE),
        "text": asked(plan.text, 1),
        "description": asked(plan.description, 1),
        "box": asked(plan.extent, 1),
        "session": lambda: judged(pieces),
        "walk": lambda: sum(each.kind + len(each.groups) for each in plan.objects),
    }
    for call, run in measured.items():
        print(f"{name} {call} {microseconds(run):.1f}")


for path in sys.argv[1:]:
    with open(path, "rb") as source:
        measure(path, source.read())
