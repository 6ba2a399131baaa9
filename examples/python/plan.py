"""Reads a plan, or its sheet if the file's name ends with .sheet. Without a label the table is checked, written back and compared with the
file; with one, the objects that have it for their description are listed, each with the groups around it, of a path its box, and of a
text what is shown: plan.py FILE [LABEL]. Or the table is stored as a sheet, to be read from then on without parsing the plan again:
plan.py store FILE SHEET.
"""

import os
import sys

import jdr


def counts(plan):
    return f"{len(plan.objects)} {len(plan.bodies)}"


def is_sheet(name):
    return name.endswith(".sheet")


def read_plan(name, file):
    """The plan, or None where it is refused."""
    call, read = ("sheet_read", jdr.Plan.read_sheet) if is_sheet(name) else ("read", jdr.Plan.read)
    try:
        plan = read(file)
    except jdr.Refused as refusal:
        print(f"{call}: {refusal.number} {refusal.offset} 0 0")
        return None
    print(f"{call}: 0 {len(file)} {counts(plan)}")
    return plan


def comes_back(plan, name, file):
    """Whether the plan is written as long as the file that it was read from; a plan's true flags are written as 1, whatever they were."""
    print(f"check: 0 {plan.check()} {counts(plan)}")
    call, copy = ("sheet_write", plan.write_sheet()) if is_sheet(name) else ("write", plan.write())
    print(f"{call}: 0 {len(copy)} {counts(plan)}")
    print("the same file" if copy == file else "the file with each true flag made 1")
    return len(copy) == len(file)


def store(plan, name):
    sheet = plan.write_sheet()
    print(f"sheet_write: 0 {len(sheet)} {counts(plan)}")
    try:
        with open(name, "wb") as target:
            target.write(sheet)
    except OSError:
        fail("the sheet cannot be written")
    return True


def box(found):
    """The box around a path, or around the path of a text along one, as words to print: left, bottom, right and top."""
    try:
        sides = found.extent
    except jdr.Refused:
        return ["box not a number"]
    return [] if sides is None else ["box"] + [f"{side:.2f}" for side in sides]


def shown(found):
    """What is shown of a text, along a path or not, as words to print. Half of a pair that stands alone becomes the replacement character."""
    if found.shown is None:
        return []
    return ["shows", found.shown.encode("utf-16", "surrogatepass").decode("utf-16", "replace")]


def list_label(plan, label):
    found = plan.find(label)
    print(f"list: 0 0 {len(found)} 0")
    for each in found:
        inside = [group.row for group in each.groups] or ["no group"]
        kind = each.kind.name.lower().replace("_", "")
        print(f"row {each.row} {kind} inside", *inside, *box(each), *shown(each))
    return True


def run(name, label=None, sheet=None):
    """Whether all went well; SystemExit where the command line is at fault."""
    if label is not None:
        try:
            # the bytes of the command line, whatever the locale takes them for
            label = os.fsencode(label).decode("utf-8")
        except ValueError:
            fail("the label is not UTF-8")
    try:
        with open(name, "rb") as source:
            file = source.read()
    except OSError:
        fail("the file cannot be read")
    plan = read_plan(name, file)
    if plan is None:
        return False
    if sheet is not None:
        return store(plan, sheet)
    return comes_back(plan, name, file) if label is None else list_label(plan, label)


def fail(message):
    print(message, file=sys.stderr)
    sys.exit(2)


if __name__ == "__main__":
    arguments = sys.argv[1:]
    if len(arguments) == 3 and arguments[0] == "store":
        done = run(arguments[1], sheet=arguments[2])
    elif len(arguments) in (1, 2):
        done = run(*arguments)
    else:
        fail("usage: plan FILE [LABEL], or plan store FILE SHEET")
    sys.exit(0 if done else 1)
