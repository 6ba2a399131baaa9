"""Prints the uptime over the tools of a plan, from a list of hours run: uptime.py PLAN LIST HOURS, where HOURS is how long the period was.

The list is CSV with the columns label and hours. The hours `-` say that a label is no tool: a bay, a door. A tool is a label of the plan,
however many objects have it; objects without a label are none.

A figure never leaves a tool of the plan out. A label of the plan that is not in the list may be a tool, and its hours are not known: it counts as
a tool that did not run, and the figure is then 'at least'. A label that is in the list and not on the plan is not counted. The figure's own line
says how many there are of both, and every one is named. A plan that is refused gives no figure.

Exit status 1 where a label was named; 2 where the plan is refused or the list is bad.
"""

import csv
import math
import sys

import jdr

NO_TOOL = "-"


class BadList(ValueError):
    """The list of hours cannot be used."""


def hours_by_label(lines, period):
    """The hours run of each label of the list, None where it is no tool."""
    rows = csv.reader(lines)
    if next(rows, None) != ["label", "hours"]:
        raise BadList("the list does not begin with the line label,hours")
    hours = {}
    for row in rows:
        where = f"line {rows.line_num} of the list"
        if len(row) != 2 or not row[0]:
            raise BadList(f"{where} is not a label and its hours")
        label, run = row
        if label in hours:
            raise BadList(f"{where} has a label for the second time")
        try:
            hours[label] = None if run == NO_TOOL else float(run)
        except ValueError:
            raise BadList(f"{where} has hours that are no number") from None
        if run != NO_TOOL and not 0 <= hours[label] <= period:
            raise BadList(f"{where} has hours that are not within the period")
    return hours


def figure(labels, hours, unplaced, period):
    """The first line: the uptime, with what it is over."""
    run = [hours.get(label, 0.0) for label in labels]
    run = [own for own in run if own is not None]
    if not run:
        return "no figure: no label of the plan is a tool"
    unlisted = sum(label not in hours for label in labels)
    notes = [f"labels that are no tools: {len(labels) - len(run)}"]
    if unlisted:
        notes.append(f"not in the list, so counted as not run: {unlisted}")
    if unplaced:
        notes.append(f"labels of the list that are not on the plan: {len(unplaced)}")
    share = 100 * sum(run) / (len(run) * period)
    return f"uptime {'at least ' if unlisted else ''}{share:.1f} % over the {len(run)} tools of the plan in {period:g} hours ({'; '.join(notes)})"


def report(plan, hours, period):
    """The lines to print, and whether every label is on the plan and in the list."""
    # in the order in which objects open, each once; objects without a label left out
    labels = dict.fromkeys(found.description for found in plan.objects)
    labels.pop("", None)
    unlisted = [label for label in labels if label not in hours]
    unplaced = [label for label in hours if label not in labels]
    lines = [figure(labels, hours, unplaced, period)]
    lines += [f"on the plan, not in the list: {label}" for label in unlisted]
    lines += [f"in the list, not on the plan: {label}" for label in unplaced]
    return lines, not unlisted and not unplaced


def main():
    try:
        plan_name, list_name, period = sys.argv[1:]
        period = float(period)
        if not 0 < period < math.inf:
            raise ValueError
    except ValueError:
        fail("usage: uptime.py PLAN LIST HOURS")
    try:
        with open(plan_name, "rb") as source:
            plan = jdr.Plan.read(source.read())
        with open(list_name, newline="", encoding="utf-8") as lines:
            hours = hours_by_label(lines, period)
    except jdr.Refused as refusal:
        fail(f"no figure: the plan is refused: {refusal}")
    except (BadList, OSError, UnicodeDecodeError) as failure:
        fail(f"no figure: {failure}")
    sys.stdout.reconfigure(errors="backslashreplace")  # a label may have half of a pair
    lines, matched = report(plan, hours, period)
    print(*lines, sep="\n")
    sys.exit(0 if matched else 1)


def fail(message):
    print(message, file=sys.stderr)
    sys.exit(2)


if __name__ == "__main__":
    main()
