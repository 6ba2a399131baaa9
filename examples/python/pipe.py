"""Tells whether a plan that comes over a pipe is good, piece by piece and without storing it: pipe.py [BYTES] <PLAN, with the most bytes that
are read at a time.
"""

import os
import sys

import jdr

MOST = 4096


def judge(most):
    """Whether all that comes is a good plan; prints the verdict."""
    session = jdr.Session()
    while piece := os.read(sys.stdin.fileno(), most):
        session.feed(piece)
    try:
        verdict = session.verdict()
    except jdr.Refused as refusal:
        print(f"verdict: {refusal.number} {refusal.offset} 0 0")
        return False
    print(f"verdict: 0 {verdict.length} {verdict.rows} {verdict.words}")
    return True


def fail(message):
    print(message, file=sys.stderr)
    sys.exit(2)


if __name__ == "__main__":
    arguments = sys.argv[1:] or ["512"]
    if len(arguments) > 1 or not arguments[0].isdecimal() or not 1 <= int(arguments[0]) <= MOST:
        fail("usage: pipe [BYTES] <PLAN, with 1 to 4096 bytes")
    try:
        good = judge(int(arguments[0]))
    except OSError:
        fail("the plan cannot be read")
    sys.exit(0 if good else 1)
