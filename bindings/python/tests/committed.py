"""The committed cases of the library (second/README.md says what their lines mean) and the example plans, for the tests."""

import sys
from array import array
from pathlib import Path

REPOSITORY = Path(__file__).resolve().parents[3]
CASES = REPOSITORY / "crates/run_cases"
HEADER = (REPOSITORY / "include/jdr.h").read_text()
PLANS = {path.name: path.read_bytes() for path in sorted((REPOSITORY / "examples/plans").glob("*.jdr"))}
SHEETS = {path.name: path.read_bytes() for path in sorted((REPOSITORY / "examples/plans").glob("*.sheet"))}

FILL = 0xA5
_FACTOR = 16_777_619


def of(call):
    """Each case of a call: its name, the bytes of its data, and the groups of its line."""
    for line in (CASES / "stdout").read_text().splitlines():
        name, *groups = line.split(" ; ")
        if name.startswith(call + "/"):
            yield name, (CASES / "data" / name).read_bytes(), groups


def table_of(data):
    """The contents, the bodies and what else the data of a call that takes a table holds."""
    words = array("I", data)
    if sys.byteorder == "little":
        words.byteswap()
    contents, bodies = 2 + words[0], 2 + words[0] + words[1]
    return words[2:contents], words[contents:bodies], words[bodies:]


def filled(typecode, count):
    """Lent memory as it is before a call: all bytes are 0xA5."""
    size = array(typecode).itemsize
    return array(typecode, (int.from_bytes(bytes((FILL,)) * size, "little"),)) * count


def true_made_one(written, file):
    """Whether the bytes written are the file with each true flag made 1: where they differ, a byte that is not 0 became 1."""
    return len(written) == len(file) and all(new == old or (new == 1 and old > 1) for new, old in zip(written, file))


def hashed(run, used=None):
    """The hash of a run of which only the first `used` elements have changed; all are looked at where nothing is said."""
    used = len(run) if used is None else used
    left = len(run) - used
    rest = run[used:]
    if rest != filled(run.typecode, left):
        raise AssertionError("the call wrote behind what it hands back")
    value = 2_166_136_261
    for element in run[:used]:
        value = (value * _FACTOR + element) & 0xFFFF_FFFF
    # the steps over equal elements in one: a geometric sum
    power = pow(_FACTOR, left, (_FACTOR - 1) << 32)
    value = value * power + (rest[0] if left else 0) * ((power - 1) // (_FACTOR - 1))
    return f"{value & 0xFFFF_FFFF:08x}"
