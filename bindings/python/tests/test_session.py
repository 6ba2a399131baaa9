"""Sessions: every committed case by the calls over a lent struct and by `Session`, and every example plan however it is cut."""

import copy
import ctypes
import random
import unittest
from array import array
from concurrent.futures import ThreadPoolExecutor

import committed
from jdr import Plan, Refused, Session, Verdict, calls, numbers

HALL = committed.PLANS["hall.jdr"]
LONGEST = 65_535


def pieces(part, cuts):
    """The bytes between the cuts; a cut behind the end is at the end."""
    ends = [min(cut, len(part)) for cut in cuts]
    return [part[start:end] for start, end in zip([0, *ends], [*ends, len(part)])]


def judged(session):
    """What a session says: a verdict, or the number and the offset of a refusal with its message."""
    try:
        return session.verdict()
    except Refused as refusal:
        return refusal.number, refusal.offset, refusal.message


def read(file):
    """What the reader says of the same bytes."""
    try:
        plan = Plan.read(file)
    except Refused as refusal:
        return refusal.number, refusal.offset, refusal.message
    return Verdict(len(file), len(plan.objects), len(plan.bodies))


def fed(given):
    """A session that was given these pieces."""
    session = Session()
    for piece in given:
        session.feed(piece)
    return session


class Cases(unittest.TestCase):
    """The lines of crates/run_cases/stdout."""

    def given(self, session, answers, part, cuts):
        """A line's group: the verdict, and the hash of what was answered before it."""
        answers = answers + [calls.session_piece(session, piece) for piece in pieces(part, cuts)]
        words = array("I", [word for each in answers for word in (each.number, each.offset, each.rows, each.words)])
        before = bytes(session)
        verdict = calls.session_verdict(session)
        return f"{verdict.number} {verdict.offset} {verdict.rows} {verdict.words} {committed.hashed(words)}", before

    def spent(self, session, part, cuts):
        before = bytes(session)
        group, after = self.given(session, [], part, cuts)
        return f"{group} {int(before == after)}"

    def refused(self, call, depth, count, *arguments):
        session = self.made_up(depth, count)
        before = bytes(session)
        answer = call(session, *arguments)
        if answer.number != numbers.NO_SESSION:
            return "-"
        return f"{answer.number} {answer.offset} {answer.rows} {answer.words} {int(bytes(session) == before)}"

    def made_up(self, depth, count):
        """A session that was not opened."""
        session = calls.SessionStruct.from_buffer_copy(bytes((committed.FILL,)) * ctypes.sizeof(calls.SessionStruct))
        session.depth, session.bytes = depth, count
        return session

    def by_struct(self, depth, count, middle, cuts, file):
        session = self.made_up(depth, count)
        groups = [self.given(session, [calls.session_open(session)], file, cuts)[0], self.spent(session, file, cuts)]
        groups += [self.given(session, [calls.session_open(session)], file[:middle], cuts)[0], self.spent(session, file[middle:], cuts)]
        return groups + [self.refused(calls.session_piece, depth, count, file), self.refused(calls.session_verdict, depth, count)]

    def by_object(self, middle, cuts, file, groups):
        """The first four groups again, of one session."""
        session = Session()
        for place, part in ((0, file), (2, file[:middle])):
            number, offset, rows, words = map(int, groups[place].split()[:4])
            wanted = Verdict(offset, rows, words) if number == 0 else (number, offset, numbers.MESSAGES[number])
            for _ in range(2):
                for piece in pieces(part, cuts):
                    session.feed(piece)
                self.assertEqual(judged(session), wanted)
            session.open()

    def test_sessions(self):
        cases = list(committed.of("session"))
        self.assertGreater(len(cases), 200, "there are fewer cases than there were")
        for name, data, groups in cases:
            with self.subTest(name):
                depth, count, middle, cut = (int.from_bytes(data[at : at + 4], "big") for at in (0, 4, 8, 12))
                cuts = [int.from_bytes(data[at : at + 4], "big") for at in range(16, 16 + 4 * cut, 4)]
                file = data[16 + 4 * cut :]
                self.assertEqual(self.by_struct(depth, count, middle, cuts, file), groups)
                self.by_object(middle, cuts, file, groups)


class Plans(unittest.TestCase):
    """The example plans, and their sheets, which are no plans."""

    def test_every_cut(self):
        for name, file in {**committed.PLANS, **committed.SHEETS}.items():
            wanted = read(file)
            with self.subTest(name):
                self.assertEqual(wanted[0] == len(file), name.endswith(".jdr") and name != "cut.jdr")
                self.assertEqual(judged(fed([file])), wanted)
                self.assertEqual(judged(fed(file[at : at + 1] for at in range(len(file)))), wanted)
                for cut in range(len(file) + 1):
                    self.assertEqual(judged(fed((file[:cut], file[cut:]))), wanted)

    def test_every_beginning_by_a_copy(self):
        session = Session()
        for at in range(len(HALL)):
            self.assertEqual(judged(session.copy()), read(HALL[:at]))
            session.feed(HALL[at : at + 1])
        self.assertEqual(session.verdict(), read(HALL))

    def test_any_bytes_any_cuts(self):
        chosen = random.Random(1)
        for _ in range(2000):
            file = bytearray(chosen.choice(list(committed.PLANS.values())))
            for _ in range(chosen.randrange(3)):
                file[chosen.randrange(len(file))] = chosen.randrange(256)
            cuts = sorted(chosen.randrange(len(file) + 1) for _ in range(chosen.randrange(9)))
            self.assertEqual(judged(fed(pieces(bytes(file), cuts))), read(file))

    def test_pieces_of_any_kind(self):
        backwards = memoryview(HALL[::-1])[::-1]
        for kind in (bytes, bytearray, memoryview, lambda part: array("B", part)):
            self.assertEqual(judged(fed(map(kind, pieces(HALL, (100, 100, 300))))), read(HALL))
        self.assertEqual(judged(fed([backwards])), read(HALL))
        for wrong in ("text", 5, None, [1, 2]):
            with self.assertRaises(TypeError):
                Session().feed(wrong)

    def test_a_plan_that_grows_too_long(self):
        for begun in (HALL, b"no plan", b""):
            long = fed([begun, bytes(LONGEST - len(begun))])
            self.assertEqual(judged(long.copy()), read(begun + bytes(LONGEST - len(begun))))
            long.feed(b"\0")
            self.assertEqual(judged(long), (numbers.TOO_LONG, LONGEST, numbers.MESSAGES[numbers.TOO_LONG]))


class Spent(unittest.TestCase):
    """What a verdict does to a session, and opening it again."""

    def test_a_verdict_is_repeated(self):
        for file in (HALL, HALL[:100], b""):
            session = fed([file])
            wanted = judged(session)
            self.assertEqual(wanted, read(file))
            session.feed(HALL)
            self.assertEqual((judged(session), judged(session)), (wanted, wanted))

    def test_opened_again(self):
        session = fed([HALL[:100]])
        for _ in range(2):
            with self.assertRaises(Refused) as caught:
                session.verdict()
            self.assertEqual(caught.exception.number, numbers.CUT)
        session.open()
        session.feed(HALL)
        self.assertEqual(session.verdict(), Verdict(522, 8, 178))
        session = fed([HALL])
        session.open()
        self.assertEqual(judged(session), read(b""))

    def test_a_copy_goes_on_by_itself(self):
        session = fed([HALL[:100]])
        other = copy.copy(session)
        self.assertEqual(judged(session), read(HALL[:100]))
        other.feed(HALL[100:])
        self.assertEqual((judged(other), judged(session)), (read(HALL), read(HALL[:100])))

    def test_what_was_not_opened(self):
        session = Session()
        session._session.depth = 17
        for call in (session.verdict, lambda: session.feed(b"")):
            with self.assertRaises(Refused) as caught:
                call()
            self.assertEqual((caught.exception.number, caught.exception.message), (numbers.NO_SESSION, numbers.MESSAGES[numbers.NO_SESSION]))
        session.open()
        self.assertEqual(judged(session), read(b""))
        self.assertEqual(repr(fed([HALL])), "<Session that counts 522 bytes>")

    def test_threads_take_turns(self):
        session = Session()
        with ThreadPoolExecutor(4) as threads:
            list(threads.map(session.feed, [bytes(1000)] * 65))
        self.assertEqual(session._session.bytes, 65_000)
        self.assertEqual(judged(session), read(bytes(65_000)))

    def test_what_is_no_session(self):
        for wrong in (None, b"", bytearray(328), calls.Answer()):
            with self.assertRaises((TypeError, ctypes.ArgumentError)):
                calls.session_open(wrong)
        with self.assertRaises(TypeError):
            calls.session_piece(calls.SessionStruct(), "text")


if __name__ == "__main__":
    unittest.main()
