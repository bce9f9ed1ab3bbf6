"""What `faults.py` takes for a difference, and which requests its library refuses, on replies and a program that are made here."""
import contextlib
import io
import os
import platform
import shutil
import subprocess
import sys
import tempfile
import unittest

TOP = os.path.dirname(os.path.dirname(os.path.dirname(os.path.realpath(__file__))))
sys.path.insert(0, f"{TOP}/scripts")

from stress import fault_blocks  # noqa: E402
from stress.fault_runs import MEMORY, UNDO, Plan, Ran, Row, compiled_library, insert, judge, line, rows_in  # noqa: E402
from reference import Reference  # noqa: E402

STEPS = [(1, it) for it in (insert("a"), line("start"), insert("b"), UNDO + b"\n", line("size"))]


def answered(plan, left_out=(), log_of=None, asked=None):
    """A run whose lines at `left_out` were answered `memory`: those at `log_of` met a refusal, those of `asked` were executed all the same."""
    asked = asked or ()
    reference, outs = Reference(plan.schemas, plan.first_revision), dict.fromkeys((conn for conn, _ in plan.pieces), b"")
    for n, (conn, bytes_) in enumerate(plan.pieces):
        reply = b"" if n in left_out and n not in asked else reference.feed(conn, bytes_) if bytes_ else reference.close(conn)
        outs[conn] += MEMORY if n in left_out else reply
    refused_at = left_out if log_of is None else log_of
    log = "".join(f"refused {it}\n" for it in refused_at)
    return Ran(outs, 0, b"", log + f"requests 9 refused {len(refused_at)} others 0 pieces {len(plan.pieces)}\n")


class Judging(unittest.TestCase):
    def setUp(self):
        self.one, self.rest, self.within = (Plan(Row("row", steps=STEPS), way) for way in ("one", "rest", "within"))

    def differs(self, plan, ran):
        return judge(plan, ran)[0]

    def test_what_may_come(self):
        for plan in (self.one, self.rest, self.within):
            self.assertIsNone(self.differs(plan, answered(plan)))
            self.assertIsNone(self.differs(plan, answered(plan, log_of=[1])))
            self.assertIsNone(self.differs(plan, answered(plan, [2])))
        self.assertIsNone(self.differs(self.rest, answered(self.rest, [0, 2])))

    def test_a_refusal_elsewhere(self):
        self.assertIn("answered memory", self.differs(self.one, answered(self.one, [2], log_of=[1])))
        self.assertIn("2 lines", self.differs(self.one, answered(self.one, [0, 2])))

    def test_an_undo_that_is_refused(self):
        for plan in (self.one, self.rest):
            self.assertIn("undo line", self.differs(plan, answered(plan, [3])))
        self.assertIn("undo line", self.differs(self.rest, answered(self.rest, [len(STEPS)])))

    def test_a_change_behind_a_refusal(self):
        """A start or an insert that is answered `memory` and was done."""
        for plan, n in ((self.one, 0), (self.one, 1), (self.rest, 0)):
            self.assertIn("wanted", self.differs(plan, answered(plan, [n], asked=[n])))

    def test_an_end(self):
        def ended(status, errors, out=b"", log="refused -1\nrequests 1 refused 1 others 0 pieces 0\n"):
            return Ran({1: out}, status, errors, log)

        self.assertIsNone(self.differs(self.one, ended(4, b"fault: memory\n")))
        self.assertIsNone(self.differs(self.one, ended(3, b"schema: memory\n")))
        for ran in (ended(4, b"fault: read\n"), ended(3, b"fault: memory\n"), ended(-11, b""), ended(4, b"fault: memory\n", b"x"),
                    ended(4, b"fault: memory\n", log="requests 1 refused 0 others 0 pieces 0\n"),
                    ended(4, b"fault: memory\n", log="refused 1\nrequests 1 refused 1 others 0 pieces 2\n")):
            self.assertIn("it ended", self.differs(self.one, ran))

    def test_a_session_that_is_not_taken_back(self):
        self.assertTrue(Plan(Row("row", steps=[(1, insert("a"))]), "within").is_undone())
        self.assertFalse(Plan(Row("row", steps=[(1, line("squash"))]), "within").is_undone())


class Rows(unittest.TestCase):
    def test_rows_as_text(self):
        rows = {}
        rows_in('row one\n1 {"cmd":"size"}\n= {"ok":true,"size":0}\n\nrow two\nafter one\nwith max_rows = 2\n1+ x\n1 closes\n2 y\n', rows)
        self.assertEqual(rows["one"].steps, [(1, b'{"cmd":"size"}\n')])
        self.assertEqual(rows["two"].steps, [(1, b'{"cmd":"size"}\n'), (1, b"x"), (1, None), (2, b"y\n")])
        self.assertEqual(rows["two"].catalog()[0][0].max_rows, 2)

    def test_connections_by_turns(self):
        plan = Plan(Row("row", steps=[(1, b"a\n"), (1, b"b"), (1, None), (2, b"c\n")]), "one")
        self.assertEqual(plan.pieces[:6], [(1, b"a\n"), (2, b"\n"), (1, b"b"), (2, b"\n"), (1, b""), (2, b"c\n")])
        self.assertEqual(plan.lines[:6], [b"a", None, None, None, b"b", b"c"])


class Blocks(unittest.TestCase):
    """What is taken for a difference in a block, by a runner whose answers are made here."""

    class Runner:
        def __init__(self, requests=0, left_out=()):
            self.requests, self.left_out = requests, left_out

        def run(self, plan, request, first=-1, within=None):
            ran = answered(plan, self.left_out)
            ran.requests, ran.refused = self.requests, len(self.left_out)
            return ran

    def differ(self, call, runner, *words):
        with contextlib.redirect_stdout(io.StringIO()):
            return call(runner, *words).differ

    def test_a_request_inside_the_database(self):
        name, front, block = fault_blocks.BLOCKS[0]
        words = (fault_blocks.block_within, name, front, block)
        self.assertEqual(self.differ(words[0], self.Runner(), *words[1:]), 0)
        self.assertEqual(self.differ(words[0], self.Runner(1, [len(front) + 1]), *words[1:]), 1)

    def test_a_line_that_needs_none(self):
        """A replacement may lack the memory of its reading; an erase may not."""
        name, front, block = fault_blocks.BLOCKS[0]
        for n, want in ((1, 0), (2, 1), (3, 1)):
            runner = self.Runner(1, [len(front) + n])
            runs = []

            def run(plan, request, first=-1, within=None):
                runs.append(request)
                return runner_run(plan, request) if request == 1 else self.Runner().run(plan, request)

            runner_run, runner.run = runner.run, run
            self.assertEqual(self.differ(fault_blocks.block_by_lines, runner, name, front, block), want)
            self.assertTrue(runs)

    def test_a_request_of_the_undo_line(self):
        self.assertEqual(self.differ(fault_blocks.undo_line, self.Runner()), 0)
        self.assertEqual(self.differ(fault_blocks.undo_line, self.Runner(1)), 2)


PROGRAM = r"""
#include <stdio.h>
#include <stdlib.h>
#include <unistd.h>
int main(void) {
    char bytes[16], *line = NULL;
    size_t length = 0;
    FILE *file = fopen("/dev/null", "r"); /* (the C library's own request) */
    char out[9] = {0};
    for (int n = 0; n < 4; n++) {
        char *got = n % 2 ? malloc(10) : realloc(NULL, 10);
        out[n] = got ? '+' : '-';
        free(got);
        if (n == 1)
            out[6] = '0' + (int)read(0, bytes, sizeof bytes);
    }
    out[4] = file && getline(&line, &length, file) < 0 && line ? '+' : '-';
    out[5] = ' ';
    out[7] = '0' + (int)read(0, bytes, sizeof bytes);
    return write(1, out, 8) != 8;
}
"""


OWN = r"""
#include <stddef.h>
#include <unistd.h>
extern void *__libc_malloc(size_t);
extern void *__libc_realloc(void *, size_t);
__attribute__((noinline)) void *malloc(size_t size) { return __libc_malloc(size); } /* (an allocator in the program's own file) */
__attribute__((noinline)) void *realloc(void *block, size_t size) { return __libc_realloc(block, size); }
__attribute__((noinline)) int rattle_alloc(size_t size) { return malloc(size) ? 1 : 0; }
__attribute__((noinline)) int rattle_realloc(size_t size) { return realloc(NULL, size) ? 1 : 0; }
__attribute__((noinline)) int inside(char *out) { return out[0] = rattle_alloc(10) ? '+' : '-', out[1] = rattle_realloc(10) ? '+' : '-', 2; }
__attribute__((noinline)) int erase_row(char *out) { return inside(out); }
__attribute__((noinline)) int insert_row(char *out) { return inside(out + 2) + erase_row(out) + inside(out + 4); }
int main(void) {
    char out[8];
    return insert_row(out) + inside(out + 6) == 8 && write(1, out, 8) != 8;
}
"""


@unittest.skipUnless(shutil.which(os.environ.get("CC", "cc")), "a C compiler is needed")
class Library(unittest.TestCase):
    def setUp(self):
        self.folder = tempfile.mkdtemp()
        self.addCleanup(shutil.rmtree, self.folder)
        with open(f"{self.folder}/lines", "wb") as file:
            file.write(b"ab\nc\n")

    def compile(self, text):
        with open(f"{self.folder}/program.c", "w", encoding="ascii") as file:
            file.write(text)
        words = [os.environ.get("CC", "cc"), "-O1", "-fno-builtin", "-fno-omit-frame-pointer", "-fno-optimize-sibling-calls", "-rdynamic"]
        subprocess.run([*words, "-o", f"{self.folder}/program", f"{self.folder}/program.c"], check=True)

    def ran(self, **settings):
        env = {**os.environ, "LD_PRELOAD": compiled_library(), "REFUSE_LOG": f"{self.folder}/log"}
        env.update({f"REFUSE_{name}": str(value) for name, value in settings.items()})
        with open(f"{self.folder}/lines", "rb") as lines:
            out = subprocess.run([f"{self.folder}/program"], env=env, stdin=lines, stdout=subprocess.PIPE, check=True).stdout
        with open(f"{self.folder}/log", encoding="ascii") as log:
            ran = Ran({}, 0, b"", log.read())
        return out.decode(), ran.requests, ran.refused, sorted(ran.refused_at)

    def test_which_are_refused(self):
        self.compile(PROGRAM)
        for settings, want in [
            ({}, ("+++++ 32", 4, 0, [])),
            ({"REQUEST": 2}, ("+-+++ 32", 4, 1, [-1])),
            ({"REQUEST": 2, "ALL": 1}, ("+---+ 32", 4, 3, [-1, 0])),
            ({"REQUEST": 1, "FROM": 0}, ("++-++ 32", 2, 1, [0])),
            ({"REQUEST": 1, "ALL": 1, "UNTIL": 0}, ("--+++ 32", 2, 2, [-1])),
            ({"REQUEST": 5}, ("+++++ 32", 4, 0, [])),
        ]:
            self.assertEqual(self.ran(**settings), want)

    @unittest.skipUnless(platform.machine() == "x86_64", "calls are turned on x86-64 alone")
    def test_an_allocator_in_the_program_s_file(self):
        """Its requests are turned to the library; and those made while a function is at work are told from the others."""
        self.compile(OWN)
        for settings, want in [
            ({}, ("++++++++", 8, 0, [])),
            ({"REQUEST": 3}, ("-+++++++", 8, 1, [-1])),
            ({"REQUEST": 4, "ALL": 1}, ("+-++----", 8, 5, [-1])),
            ({"REQUEST": 1, "ALL": 1, "WITHIN": "erase_"}, ("--++++++", 2, 2, [-1])),
            ({"REQUEST": 1, "ALL": 1, "WITHIN": "no_such|insert_"}, ("------++", 6, 6, [-1])),
            ({"REQUEST": 1, "ALL": 1, "WITHIN": "no_such"}, ("++++++++", 0, 0, [])),
        ]:
            self.assertEqual(self.ran(**settings), want, settings)
        with open(f"{self.folder}/log", encoding="ascii") as log:
            self.assertTrue(Ran({}, 0, b"", log.read()).has_own_allocator)


if __name__ == "__main__":
    unittest.main()
