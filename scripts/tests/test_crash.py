"""Whether `crash.py` and `crowd.py` find the faults that a stand-in of the service has on purpose, and none in one without; and what
`journal_walk.py` takes for right."""
import contextlib
import io
import os
import shutil
import sys
import unittest
import unittest.mock

HERE = os.path.dirname(os.path.realpath(__file__))
TOP = os.path.dirname(os.path.dirname(HERE))
sys.path.insert(0, f"{TOP}/scripts")

from stress import crash  # noqa: E402
from stress import crowd  # noqa: E402
from stress.callers import TABLES  # noqa: E402
from stress.journal_walk import UNDO, Differs, Said, Walk, fork, mark, marked, state  # noqa: E402

STAND_IN = f"{HERE}/stand_in.py"
START = b'{"cmd":"start"}'
INSERT = b'{"cmd":"insert","table":"side","row":{"n":%d}}'
SIZE = b'{"cmd":"size","table":"side"}'
RESERVE = b'{"cmd":"reserve","changes":1,"sessions":1}'
BUSY = b'{"error":"busy","ok":false}\n'


def inserted(id):
    return b'{"id":%d,"ok":true}\n' % id


def size(n):
    return b'{"ok":true,"size":%d}\n' % n


class AWalk(unittest.TestCase):
    """Connections that are written down, and journals of them."""

    def setUp(self):
        self.walk, self.said = Walk(TABLES), {}

    def says(self, number, *pairs, left=False):
        """A connection, by what it asked and was answered, or None; answers its lines with their marks."""
        said = self.said[number] = Said(number)
        said.has_left = left
        said.lines = [text + (b"" if text == SIZE else mark(number, n)) for n, (text, _) in enumerate(pairs)]
        said.replies = [reply for _, reply in pairs if reply]
        return said.lines

    def walked(self, *lines):
        self.walk.on(lines, list(self.said.values()))

    def differs(self, why, *lines):
        with self.assertRaisesRegex(Differs, why):
            self.walked(*lines)

    def test_marks(self):
        for it in [(0, 0), (1, 0), (65_535, 4_095), (2, 77)]:
            self.assertEqual(marked(b'{"cmd":"undo"}' + mark(*it)), it)
        self.assertEqual(marked(UNDO + mark(3, 4) + b"\r\r"), (3, 4))
        self.assertIsNone(marked(UNDO))
        self.assertIsNone(marked(b""))

    def test_two_in_either_order(self):
        a, = self.says(1, (INSERT % 5, inserted(1)))
        b, = self.says(2, (INSERT % 6, inserted(0)))
        self.walked(b, a)
        self.assertEqual(self.walk.reference.tables[1].rows, {0: [6], 1: [5]})

    def test_the_order_is_the_journals(self):
        a, = self.says(1, (INSERT % 5, inserted(1)))
        b, = self.says(2, (INSERT % 6, inserted(0)))
        self.differs("wanted .*0.*, got .*1", a, b)

    def test_reads_find_their_place(self):
        a, _, b = self.says(1, (INSERT % 5, inserted(0)), (SIZE, size(1)), (INSERT % 6, inserted(1)))
        self.says(2, (SIZE, size(0)), (SIZE, size(0)), (SIZE, size(2)))
        self.walked(a, b)

    def test_a_read_that_fits_nowhere(self):
        a, _, b = self.says(1, (INSERT % 5, inserted(0)), (SIZE, size(2)), (INSERT % 6, inserted(1)))
        self.differs("fits nowhere", a, b)

    def test_reads_go_forward(self):
        a, = self.says(1, (INSERT % 5, inserted(0)))
        self.says(2, (SIZE, size(1)), (SIZE, size(0)))
        self.differs("fits nowhere", a)

    def test_a_lost_line(self):
        self.says(1, (INSERT % 5, inserted(0)))
        self.differs("the journal lacks it")

    def test_a_reserve_may_be_there_or_not(self):
        for kept in (False, True):
            self.setUp()
            a, b = self.says(1, (RESERVE, b'{"ok":true}\n'), (INSERT % 5, inserted(0)))
            self.walked(*([a, b] if kept else [b]))

    def test_a_line_without_a_reply_may_be_there_or_not(self):
        a, b = self.says(1, (INSERT % 5, inserted(0)), (INSERT % 6, None))
        self.walked(a, b)
        self.walk, self.said[1] = Walk(TABLES), Said(1)
        self.said[1].lines, self.said[1].replies = [a, b], [inserted(0)]
        self.walked(a)

    def test_a_last_line_that_ends_before_its_carriage_return(self):
        for left in (True, False):
            self.setUp()
            a, b = self.says(1, (INSERT % 5, inserted(0)), (INSERT % 6, None), left=left)
            self.said[1].lines[1] = b + b"\r"
            self.walked(a, b) if left else self.differs("wasn't sent", a, b)

    def test_a_last_line_that_ends_among_its_blanks(self):
        for cut in (1, 7):
            self.setUp()
            a, b = self.says(1, (INSERT % 5, inserted(0)), (INSERT % 6, None), left=True)
            self.walked(a, b[:-cut])
            self.assertEqual(self.walk.reference.tables[1].rows, {0: [5], 1: [6]})
        self.setUp()
        a, b = self.says(1, (INSERT % 5, inserted(0)), (INSERT % 6, None))
        self.differs("nobody sent", a, b[:-1])
        self.setUp()
        a, b = self.says(1, (INSERT % 5, inserted(0)), (INSERT % 6, inserted(1)), left=True)
        self.differs("nobody sent|lacks it", a, b[:-1])

    def test_lines_that_nobody_sent(self):
        a, = self.says(1, (INSERT % 5, inserted(0)))
        self.differs("wasn't sent", a, INSERT % 7 + mark(1, 1))
        self.setUp()
        a, = self.says(1, (INSERT % 5, inserted(0)))
        self.differs("wasn't sent", a.replace(b"5", b"6"))
        self.setUp()
        a, = self.says(1, (INSERT % 5, inserted(0)))
        self.differs("twice", a, a)

    def test_a_reply_that_was_another_ones(self):
        self.says(1, (SIZE, size(0)))
        self.said[1].replies.append(size(0))
        self.differs("asked 1 lines and got 2 replies")

    def test_a_carriage_return(self):
        a, b = self.says(1, (INSERT % 5, inserted(0)), (INSERT % 6, inserted(1)))
        self.said[1].lines = [a + b"\r", b + b"\r"]
        self.walked(a + b"\r", b + b"\r\r")
        self.setUp()
        a, b = self.says(1, (INSERT % 5, inserted(0)), (INSERT % 6, inserted(1)))
        self.said[1].lines = [a + b"\r", b + b"\r"]
        self.differs("wasn't sent", a + b"\r\r", b)

    def test_the_undo_of_a_holder(self):
        a, b = self.says(1, (START, b'{"ok":true,"revision":1}\n'), (INSERT % 5, inserted(0)), left=True)
        self.says(2, (SIZE, size(1)), (INSERT % 9, BUSY), (SIZE, size(0)))
        self.walked(a, b, UNDO)
        self.assertEqual((self.walk.reference.held, self.walk.reference.tables[1].rows), (0, {}))

    def test_no_undo_of_one_that_is_there(self):
        a, = self.says(1, (START, b'{"ok":true,"revision":1}\n'))
        self.differs("still there", a, UNDO)
        self.setUp()
        self.differs("nobody sent", UNDO)

    def test_a_fork_is_its_own(self):
        a, b = self.says(1, (START, b'{"ok":true,"revision":1}\n'), (INSERT % 5, inserted(0)))
        self.walked(a, b)
        before = state(fork(self.walk.reference))
        other = fork(self.walk.reference)
        for text in (INSERT % 6, UNDO, START, b'{"cmd":"erase","table":"side","id":0}'):
            other.answer_ended(1, text)
        self.assertEqual(state(self.walk.reference), before)


class AgainstAStandIn(unittest.TestCase):
    def ran(self, script, plant, *words):
        """The status, and what is said."""
        out = io.StringIO()
        with unittest.mock.patch.dict(os.environ, {"PLANT": plant}), contextlib.redirect_stdout(out):
            status = script.main([*words, "--short", "--program", STAND_IN])
        return status, out.getvalue()

    def test_none_is_found(self):
        of_crash = [("rounds", "--rounds", "2"), ("tools",), ("full",), ("rebase", "--rounds", "2"), ("rebase-ledger", "--rounds", "1"), ("bases",)]
        of_crowd = [("place",), ("comers", "--connections", "70"), ("full", "--connections", "70")]
        for script, words in [*((crash, it) for it in of_crash), *((crowd, it) for it in of_crowd)]:
            status, said = self.ran(script, "", "--part", *words)
            self.assertEqual(status, 0, said)

    def is_found(self, plant, script, part, why, seeds=12):
        """Some plants show at times only, by how clients come and are killed: so one of some seeds is to find it."""
        for seed in range(1, seeds + 1):
            more = ("--rounds", "3", "--seed", str(seed)) if script is crash else ()
            status, said = self.ran(script, plant, "--part", part, *more)
            if status:
                break
        self.assertEqual(status, 1, (plant, said))
        self.assertRegex(said, why, plant)

    def test_faults_are_found(self):
        self.is_found("held", crash, "rounds", 'sessions are held in the journal|wanted .*"busy"|fits nowhere')
        self.is_found("torn", crash, "torn", "cut at byte")
        # (such a line can be taken for one that was cut short: then another line has no place)
        self.is_found("added", crash, "rounds", "nobody sent|fits nowhere|a line twice|wanted .*, got ")
        self.is_found("quiet", crash, "full", "it listens, and its journal has room for 20 bytes")
        self.is_found("ends", crash, "full", "the service ended with status 4: fault: journal")
        self.is_found("taken", crash, "full", 'wanted .*, got .*"journal"')
        self.is_found("unkept", crash, "full", "the journal lacks it|fits nowhere|nobody sent|wanted .*, got ")
        self.is_found("stuck", crash, "full", '"error":"journal"')
        self.is_found("bound", crash, "full", "fits nowhere")
        self.is_found("taken", crowd, "full", 'wanted .*, got .*"journal"|fits nowhere')
        self.is_found("unkept", crowd, "full", "the journal lacks it|fits nowhere|nobody sent|wanted .*, got ")
        self.is_found("beyond", crowd, "place", "connection 65 is served")
        self.is_found("crossed", crash, "rounds", r"lines and got \d+ replies|wanted .*, got |fits nowhere")

    def test_faults_of_a_rebase_are_found(self):
        self.is_found("unordered", crash, "rebase", "the base's table (kept|side) isn't the reference's")
        # (it shows by some two seeds in eighteen: the newest record is to be gone as the base is made)
        self.is_found("uncounted", crash, "rebase", "the base's table (kept|side) isn't the reference's", seeds=40)
        self.is_found("ripe", crash, "rebase-ledger", "the base's table (kept|side) isn't that in front of the oldest open block")
        self.is_found("trusting", crash, "bases", "a base with .*'journal: base: .*it listens|cut at byte .*'journal: base: .*it listens")

    @unittest.skipUnless(shutil.which(os.environ.get("CC", "cc")), "a C compiler is needed")
    def test_a_disk_that_forgets_in_a_rebase(self):
        self.assertEqual(self.ran(crash, "", "--part", "rebase-forgets", "--rounds", "1")[0], 0)
        self.is_found("hasty", crash, "rebase-forgets", "a stop of rebasing behind change .*, remove .*")
        self.is_found("loose", crash, "rebase-forgets", "a stop of rebasing behind change .*journal: base")

    @unittest.skipUnless(shutil.which(os.environ.get("CC", "cc")), "a C compiler is needed")
    def test_a_disk_that_forgets(self):
        self.assertEqual(self.ran(crash, "", "--part", "power", "--rounds", "2")[0], 0)
        for plant in ("unsynced", "early"):
            self.is_found(plant, crash, "power", "the journal lacks it|fits nowhere|wanted .*, got ")


if __name__ == "__main__":
    unittest.main()
