"""Every committed case, by the calls over lent memory and by plans: the numbers, the offsets, the counts and every element lent."""

import struct
import unittest
from array import array

import committed
from jdr import Plan, Refused, Which, calls


def counts(answer):
    return f"{answer.number} {answer.offset} {answer.rows} {answer.words}"


def sides(box):
    """The bits of a box's sides."""
    return " ".join(struct.pack(">d", side).hex() for side in (box.left, box.bottom, box.right, box.top))


def outcome(call, *arguments):
    """The number of a refusal and its offset, or 0 and None; and what the call gives."""
    try:
        return (0, None), call(*arguments)
    except Refused as refusal:
        return (refusal.number, refusal.offset), None


class Cases(unittest.TestCase):
    """The lines of crates/run_cases/stdout."""

    def each(self, call, run):
        """Runs each case of a call, and names those that fail."""
        cases = list(committed.of(call))
        self.assertGreater(len(cases), 80, "there are fewer cases than there were")
        for name, data, groups in cases:
            with self.subTest(name):
                run(data, groups)

    def read_group(self, call, source, contents_room, bodies_room):
        contents, bodies = committed.filled("I", contents_room), committed.filled("I", bodies_room)
        answer = call(source, contents, bodies)
        rows, words = (answer.rows, answer.words) if answer.number == 0 else (0, 0)
        return answer, f"{counts(answer)} {committed.hashed(contents, 4 * rows)} {committed.hashed(bodies, words)}"

    def read_by(self, call, source, groups):
        """A call that reads bytes into a table, in all rooms."""
        answer, group = self.read_group(call, source, 37452, 65536)
        made = [group]
        if answer.number == 0:
            r, w = answer.rows, answer.words
            made += [self.read_group(call, source, *rooms)[1] for rooms in ((4 * r + 3, w), (4 * r - 1, w), (4 * r, w - 1))]
        self.assertEqual(made, groups)

    def plan_by(self, read, source, number, offset, rows, words):
        """The plan of the same bytes, or None where they are refused in the same way."""
        (refused, at), plan = outcome(read, source)
        self.assertEqual(refused, number)
        if plan is None:
            self.assertEqual(at, offset)
            return None
        self.assertEqual((len(plan.objects), len(plan.contents), len(plan.bodies)), (rows, 4 * rows, words))
        self.assertEqual(Plan(plan.contents, plan.bodies), plan)
        return plan

    def read(self, file, groups):
        self.read_by(calls.read, file, groups)
        plan = self.plan_by(Plan.read, file, *map(int, groups[0].split()[:4]))
        if plan is not None:
            self.assertEqual(plan.check(), len(file))
            self.assertTrue(committed.true_made_one(plan.write(), file))
            self.assertEqual(Plan.read(plan.write()), plan)

    def sheet_read(self, sheet, groups):
        self.read_by(calls.sheet_read, sheet, groups)
        plan = self.plan_by(Plan.read_sheet, sheet, *map(int, groups[0].split()[:4]))
        if plan is not None:
            self.assertEqual(plan.write_sheet(), sheet)

    def write_group(self, contents, bodies, room, call=calls.write):
        file = committed.filled("B", room)
        answer = call(contents, bodies, file)
        return answer, f"{counts(answer)} {committed.hashed(file, answer.offset if answer.number == 0 else 0)}"

    def check_and_write(self, data, groups):
        contents, bodies, _ = committed.table_of(data)
        answer, group = self.write_group(contents, bodies, 65536)
        made = [counts(calls.check(contents, bodies)), group]
        if answer.number == 0:
            made += [self.write_group(contents, bodies, room)[1] for room in (answer.offset, answer.offset - 1)]
        self.assertEqual(made, groups)
        (refused, _), plan = outcome(Plan, contents, bodies)
        self.assertEqual(refused, answer.number)
        if plan is not None:
            self.assertEqual(Plan.read(plan.write()), plan)

    def sheet_write(self, data, groups):
        contents, bodies, _ = committed.table_of(data)
        answer, group = self.write_group(contents, bodies, 340_000, calls.sheet_write)
        made = [group]
        if answer.number == 0:
            made += [self.write_group(contents, bodies, room, calls.sheet_write)[1] for room in (answer.offset, answer.offset - 1)]
        self.assertEqual(made, groups)
        (refused, _), plan = outcome(Plan, contents, bodies)
        self.assertEqual(refused, answer.number)
        if plan is not None:
            self.assertEqual(Plan.read_sheet(plan.write_sheet()), plan)

    def list_group(self, contents, bodies, label, room):
        entries = committed.filled("I", room)
        answer = calls.find(contents, bodies, label, entries)
        return answer, entries, f"{counts(answer)} {committed.hashed(entries, answer.rows)}"

    def question_group(self, contents, bodies, row):
        answers = [calls.paint(contents, bodies, row, which) for which in range(4)] + [calls.text(contents, bodies, row)]
        numbers = " ".join(str(answer.number) for answer in answers)
        return f"{row}: {numbers} {committed.hashed(array('I', b''.join(map(bytes, answers))))}"

    def list_and_questions(self, data, groups):
        contents, bodies, label = committed.table_of(data)
        label = array("H", label)
        answer, entries, group = self.list_group(contents, bodies, label, 9400)
        made, found = [group], answer.rows
        if answer.number == 0:
            made += [self.list_group(contents, bodies, label, room)[2] for room in (found, found - 1) if room >= 0]
        last = min(len(contents) // 4, 40) if answer.number == 0 else 1
        made += [self.question_group(contents, bodies, row) for row in range(last + 1)]
        self.assertEqual(made, groups)
        if answer.number == 0:
            self.ask_plan(Plan(contents, bodies), label, list(entries[:found]))

    def ask_plan(self, plan, label, rows):
        text = label.tobytes().decode(calls.ENCODING, "surrogatepass")
        self.assertEqual(calls.chars(text), label.tobytes())
        self.assertEqual([found.row for found in plan.find(text)], rows)
        for each in plan.objects[:40]:
            self.assertEqual(each.description == text, each.row in rows)
            given = calls.text(plan._contents, plan._bodies, each.row)
            self.assertEqual(each.text is None, given.number != 0)
            if given.number == 0:
                place = slice(given.text_start, given.text_start + given.text_length)
                self.assertEqual(array("H", calls.chars(each.text.plain)).tolist(), plan.bodies[place].tolist())
                self.assertEqual(each.shown, each.text.alternative if given.alternative_length else each.text.plain)
            for which in Which:
                given = calls.paint(plan._contents, plan._bodies, each.row, which)
                self.assertEqual(outcome(plan.paint, each, which)[0][0], given.number)
                self.assertEqual(each.paint(which) is None, given.number == 7)
                if given.number == 0:
                    self.same_paint(plan.paint(each, which), given)

    def same_paint(self, paint, given):
        self.assertEqual((paint.form, paint.place, paint.second is None), (given.form, given.place, given.form == 0))
        for colour, struct in ((paint.first, given.first), (paint.second, given.second)):
            if colour is not None:
                self.assertEqual((colour.space, len(colour.components)), (struct.kind, (0, 4, 5, 2, 4)[struct.kind]))
                self.assertEqual([*colour.components, 0, 0, 0, 0, 0][:5], list(struct.c))

    def boxes(self, data, groups):
        contents, bodies, rows = committed.table_of(data)
        answers = [(row, calls.box(contents, bodies, row)) for row in rows]
        self.assertEqual([f"{row}: {box.number} {sides(box)}" for row, box in answers], groups)
        if calls.check(contents, bodies).number == 0:
            plan = Plan(contents, bodies)
            for row, box in answers:
                (number, _), given = outcome(plan.extent, row)
                self.assertEqual((number, given and sides(given)), (box.number, None if box.number else sides(box)))

    def descriptions(self, data, groups):
        contents, bodies, rows = committed.table_of(data)
        answers = [(row, calls.description(contents, bodies, row)) for row in rows]
        self.assertEqual([f"{row}: {answer.number} {answer.start} {answer.length}" for row, answer in answers], groups)
        if calls.check(contents, bodies).number == 0:
            plan = Plan(contents, bodies)
            for row, answer in answers:
                (number, _), given = outcome(plan.description, row)
                self.assertEqual(number, answer.number)
                if number == 0:
                    chars = bodies[answer.start : answer.start + answer.length]
                    self.assertEqual(array("H", calls.chars(given)).tolist(), chars.tolist())

    def test_read(self):
        self.each("read", self.read)

    def test_check_and_write(self):
        self.each("table", self.check_and_write)

    def test_list_and_questions(self):
        self.each("list", self.list_and_questions)

    def test_sheets(self):
        self.each("sheet_write", self.sheet_write)
        self.each("sheet_read", self.sheet_read)

    def test_descriptions(self):
        self.each("description", self.descriptions)

    def test_boxes(self):
        self.each("box", self.boxes)


if __name__ == "__main__":
    unittest.main()
