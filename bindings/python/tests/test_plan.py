"""Plans as a program uses them: the example plans, refusals, every char as a label, and what is not a table, a row or a run."""

import pickle
import random
import struct
import unittest
from array import array
from concurrent.futures import ThreadPoolExecutor

import committed
import jdr
from jdr import Kind, Plan, Refused, Space, Which, calls, numbers

HALL = committed.PLANS["hall.jdr"]


class Plans(unittest.TestCase):
    """The example plans."""

    def test_every_plan_comes_back(self):
        for name, file in committed.PLANS.items():
            with self.subTest(name):
                if name == "cut.jdr":
                    continue
                plan = Plan.read(file)
                # a converter's plan has 255 for true, and is the other one with each true flag made 1
                written = committed.PLANS["bays.jdr"] if name == "converter.jdr" else file
                self.assertEqual((plan.write(), plan.check()), (written, len(file)))
                sheet = committed.SHEETS[name.replace(".jdr", ".sheet")]
                self.assertEqual((plan.write_sheet(), Plan.read_sheet(sheet)), (sheet, plan))
                self.assertEqual(Plan.read(bytearray(file)), Plan.read(memoryview(file)))
                self.assertEqual(pickle.loads(pickle.dumps(plan)), plan)

    def test_a_cut_plan_is_refused(self):
        file = committed.PLANS["cut.jdr"]
        with self.assertRaises(Refused) as caught:
            Plan.read(file)
        refusal = caught.exception
        self.assertEqual((refusal.number, refusal.message), (numbers.CUT, numbers.MESSAGES[numbers.CUT]))
        self.assertLess(refusal.offset, len(file))
        self.assertIn(refusal.message, str(refusal))
        self.assertEqual(pickle.loads(pickle.dumps(refusal)).args, refusal.args)

    def test_groups_are_around_their_objects(self):
        for file in (HALL, committed.PLANS["bays.jdr"]):
            plan = Plan.read(file)
            # a group's rows follow its own, up to the next row whose groups do not have it
            for each in plan.objects:
                around = each.groups
                self.assertEqual(around[:1], [each.parent] if each.row else [])
                self.assertTrue(all(group.kind is Kind.GROUP and group.row < each.row for group in around))
                self.assertEqual(each.row == 0, not around)
                self.assertEqual(around[-1:], [plan.objects[0]] if each.row else [])

    def test_objects_are_a_sequence(self):
        objects = Plan.read(HALL).objects
        self.assertEqual([each.row for each in objects], list(range(len(objects))))
        self.assertEqual((objects[-1].row, len(objects[1:3])), (len(objects) - 1, 2))
        with self.assertRaises(IndexError):
            objects[len(objects)]

    def test_threads_may_share_a_plan(self):
        plan = Plan.read(HALL)
        with ThreadPoolExecutor(4) as threads:
            found = list(threads.map(lambda _: (plan.find("machine"), plan.write(), plan.extent(3)), range(200)))
        self.assertEqual(found, found[:1] * 200)
        self.assertEqual(len(found[0][0]), 3)

    def test_tables_cannot_be_written_to(self):
        plan = Plan.read(HALL)
        for run in (plan.contents, plan.bodies, plan.objects[1].body):
            with self.assertRaises(TypeError):
                run[0] = 1

    def test_a_path_has_its_colours(self):
        plan = Plan.read(HALL)
        path = next(each for each in plan.objects if each.kind is Kind.PATH)
        self.assertEqual([path.paint(which) is None for which in Which], [False, False, True])
        for which in (Which.LINE, Which.FILL):
            paint = plan.paint(path, which)
            self.assertIsNone(paint.second)
            self.assertEqual(len(paint.first.components), {Space.RGB: 4, Space.GREY: 2}[paint.first.space])
            self.assertEqual(paint.first.components[-1], 1.0)


class Sheets(unittest.TestCase):
    """Tables stored as sheets: counts and contents of 16 bits, bodies of 32, all big-endian."""

    def test_every_plan_has_one_sheet(self):
        for name, file, groups in committed.of("read"):
            if groups[0].startswith("0 "):
                with self.subTest(name):
                    plan = Plan.read(file)
                    sheet = plan.write_sheet()
                    halves = [len(plan.objects), len(plan.bodies), *plan.contents]
                    self.assertEqual(sheet, struct.pack(f">{len(halves)}H{len(plan.bodies)}I", *halves, *plan.bodies))
                    self.assertEqual(Plan.read_sheet(sheet), plan)

    def test_what_is_no_sheet(self):
        sheet = Plan.read(HALL).write_sheet()
        for wrong in (b"", sheet[:-1], sheet + b"\0", HALL, bytes(len(sheet)), sheet[:-1] + b"\xff\xff"):
            with self.assertRaises(Refused) as caught:
                Plan.read_sheet(wrong)
            self.assertEqual((caught.exception.number, caught.exception.offset), (numbers.NO_SHEET, 0))


class Refusals(unittest.TestCase):
    """What is refused, and what is a mistake of the program."""

    def number_of(self, call, *arguments):
        with self.assertRaises(Refused) as caught:
            call(*arguments)
        return caught.exception.number, caught.exception.message

    def test_rows_and_parts(self):
        plan = Plan.read(HALL)
        no_row, no_part = ((number, numbers.ROW_MESSAGES[number]) for number in (numbers.NO_ROW, numbers.NO_PART))
        for row in (len(plan.objects), -1, 1 << 30, 1 << 32, (1 << 32) + 3, 1 << 80):
            self.assertEqual(self.number_of(plan.text, row), no_row)
            self.assertEqual(self.number_of(plan.extent, row), no_row)
            self.assertEqual(self.number_of(plan.description, row), no_row)
            self.assertEqual(self.number_of(plan.paint, row, Which.LINE), no_row)
        self.assertEqual(self.number_of(plan.text, 0), no_part)
        for which in (3, -1, 1 << 32):
            self.assertEqual(self.number_of(plan.paint, 3, which), no_part)
        self.assertEqual(plan.objects[0].text, None)

    def test_words_that_are_no_table(self):
        plan = Plan.read(HALL)
        for contents, bodies in (((), ()), (plan.contents, plan.bodies[:-1]), (plan.contents[:-1], plan.bodies)):
            self.assertEqual(self.number_of(Plan, contents, bodies)[0], numbers.NO_TABLE)

    def test_a_file_that_is_too_long(self):
        self.assertEqual(self.number_of(Plan.read, bytes(1 << 22))[0], numbers.TOO_LONG)

    def test_runs_of_another_size(self):
        words, octets = calls.words(4), calls.octets(16)
        for wrong in ((words, words, words), (octets, octets, words), ("text", words, words), (b"", b"", words)):
            with self.assertRaises(TypeError):
                calls.read(*wrong)
        with self.assertRaises(TypeError):
            calls.check(words)
        with self.assertRaises(TypeError):
            calls.find(words, words, b"odd", words)
        with self.assertRaises(OverflowError):
            calls.text(words, words, -1)


class Labels(unittest.TestCase):
    """Labels and texts are any chars, lone halves of pairs among them."""

    def described(self, units):
        """The hall with these chars for the description of its outer group, which are the last words of the bodies."""
        plan = Plan.read(HALL)
        contents, bodies = array("I", plan.contents), array("I", plan.bodies)
        old = len("hall")
        self.assertEqual(bodies[-old:].tolist(), list(map(ord, "hall")))
        bodies[-old - 1 :] = array("I", [len(units), *units])
        contents[3] += len(units) - old
        return Plan(contents, bodies)

    def test_every_char_can_be_asked_for(self):
        chars = random.Random(1)
        pools = [range(0x10000), range(0xD800, 0xE000), range(0x20, 0x7F), [0, 0xFEFF, 0xFFFF, 0xD800, 0xDC00]]
        for _ in range(300):
            pool = chars.choice(pools)
            units = [chars.choice(pool) for _ in range(chars.randrange(1, 9))]
            plan = self.described(units)
            label = array("H", units).tobytes().decode(calls.ENCODING, "surrogatepass")
            self.assertEqual([found.row for found in plan.find(label)], [0])
            self.assertEqual(plan.find(label + "\0"), [])
            self.assertEqual((plan.objects[0].description, plan.description(0)), (label, label))
            self.assertEqual(Plan.read(plan.write()), plan)

    def test_an_object_is_found_by_its_description(self):
        for name, file in committed.PLANS.items():
            if name != "cut.jdr":
                plan = Plan.read(file)
                labels = [each.description for each in plan.objects]
                for label in {*labels, "no such label"}:
                    rows = [row for row, own in enumerate(labels) if own == label]
                    self.assertEqual([found.row for found in plan.find(label)], rows)

    def test_a_pair_is_one_character(self):
        self.assertEqual([found.row for found in self.described([0xD83D, 0xDD27]).find("🔧")], [0])
        self.assertEqual([found.row for found in self.described([0xDD27, 0xD83D]).find("\udd27\ud83d")], [0])


class Names(unittest.TestCase):
    """What the package says of itself."""

    def test_all_that_is_named_is_there(self):
        for name in jdr.__all__:
            self.assertTrue(getattr(jdr, name).__doc__, name)


if __name__ == "__main__":
    unittest.main()
