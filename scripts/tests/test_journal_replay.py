"""`journal.py check --replay` of journals in segments and with a base. The program is asked all lines; the service is started on a copy: the one that
`scripts/program.py` finds, and the stand-in, which is the reference behind a socket. Tables and bases are the reference's."""
import contextlib
import fcntl
import os
import random
import subprocess
import sys
import tempfile
import unittest
import unittest.mock

TOP = os.path.dirname(os.path.dirname(os.path.dirname(os.path.realpath(__file__))))
sys.path.insert(0, f"{TOP}/scripts")
sys.path.insert(0, f"{TOP}/scripts/tests")

import bases  # noqa: E402
import program  # noqa: E402
from reference import Reference  # noqa: E402
from stress import fuzz, service  # noqa: E402
from test_bases import asked, later_header, text_of_base  # noqa: E402
from test_journal import HASH, START, UNDO, Files, first_line, insert, line, random_run  # noqa: E402

STAND_IN = f"{TOP}/scripts/tests/stand_in.py"
TAKEN = [insert("a"), START, insert("b"), UNDO, insert("c"), line("erase", id=0), insert("a")]
"""Lines that a journal may have. Behind the undo the next id is 1 again, so these give c the id 1, and a the id 2."""


class Segments(Files):
    def split(self, *parts, torn=b"", schema=HASH, revision=0):
        """Writes a journal whose segments have these lines."""
        path, text = self.path, first_line(revision, schema)
        for number, lines in enumerate(parts, 1):
            whole = text + b"".join(it + b"\n" for it in lines)
            path = bases.segment_path(self.path, number)
            with open(path, "wb") as file:
                file.write(whole + (torn if number == len(parts) else b""))
            text = later_header(bases.sum_of(whole), number + 1, schema, revision)
        return path

    def based(self, reference, segment, covered):
        """Writes the base behind so many lines of a segment, and takes away the segments before it."""
        with open(bases.segment_path(self.path, segment), "rb") as file:
            header = file.readline()[:-1]
        with open(f"{self.path}.base", "wb") as file:
            file.write(text_of_base(reference, covered, segment, bases.sum_of(header)))
        for it in range(1, segment):
            os.remove(bases.segment_path(self.path, it))

    def check(self, replay, *words):
        return self.ran("check", self.path, "--replay", replay, *words)

    def files(self):
        return {it: self.text(f"{self.folder}/{it}") for it in sorted(os.listdir(self.folder))}


class AskedLines(Segments):
    """A program that is asked the lines."""

    def test_three_segments(self):
        """A line of each needs what the segments before it did: an id, a key that is gone."""
        for parts in ((TAKEN[:2], TAKEN[2:5], TAKEN[5:]), (TAKEN, [], []), ([], TAKEN, [])):
            self.split(*parts)
            status, said = self.check(program.program())
            self.assertEqual((status, said.splitlines()), (0, [
                f"{self.path}: segments 1 to 3, 7 lines, schema {HASH}, ok as a file", f"{self.path}: replayed, and each line is one of a journal"]))

    def test_random_runs(self):
        for seed in range(4):
            catalog, _, kept = random_run(seed, 200)
            schema, ends = self.written(catalog), sorted(random.Random(seed).choices(range(len(kept) + 1), k=2))
            parts = [kept[:ends[0]], kept[ends[0]:ends[1]], kept[ends[1]:]]
            self.split(*parts, schema=self.hash_of(schema), revision=catalog[1])
            status, said = self.check(program.program(), "--schema", schema)
            self.assertEqual((status, said.count(f" {len(kept)} lines, ")), (0, 1), (seed, said))
            # (a line more of any segment is told by that segment and its number there)
            n = seed % 3
            parts[n] = [*parts[n], line("commit", revision=0), line("erase", table=catalog[0][0].name, id=2**63 - 1)]
            self.split(*parts, schema=self.hash_of(schema), revision=catalog[1])
            status, said = self.check(program.program(), "--schema", schema)
            self.assertEqual(status, 3)
            self.assertIn(f'{bases.segment_path(self.path, n + 1)}: line {len(parts[n]) + 1}: no change: {{"error":"id"', said)

    def written(self, catalog):
        with open(f"{self.folder}/schema.toml", "w", encoding="utf-8") as file:
            file.write(fuzz.toml(*catalog))
        return file.name

    def hash_of(self, schema):
        from mi_client import Schema
        from mi_tools.meaning import hash_of

        return hash_of(Schema.read(schema))

    def test_a_refused_line_is_told_by_its_segment(self):
        for n, number in ((0, 4), (1, 4), (2, 2)):
            parts = [[START, insert("a")], [insert("b"), insert("c")], []]
            parts[n] = [*parts[n], insert("a")]
            self.split(*parts)
            status, said = self.check(program.program())
            self.assertEqual(status, 3)
            self.assertIn(f'{bases.segment_path(self.path, n + 1)}: line {number}: no change: {{"error":"unique","id":0,"index":"by_owner"', said)

    def test_all_lines_are_asked(self):
        """With the headers, in the order of the segments."""
        heard = f"{self.folder}/heard"
        with open(f"{self.folder}/hears", "w", encoding="ascii") as file:
            file.write(f"#!/bin/sh\ncat > {heard}\nsed 's/.*/{{\"ok\":true}}/' {heard}\n")
        os.chmod(file.name, 0o755)
        self.split(TAKEN[:3], [], TAKEN[3:], torn=b'{"cmd' + b"\0" * 70)
        status, said = self.check(file.name)
        self.assertEqual(status, 0, said)
        texts = [self.text(bases.segment_path(self.path, it)) for it in (1, 2, 3)]
        self.assertEqual(self.text(heard), b"".join(texts).partition(b'{"cmd\0')[0])
        with open(file.name, "a", encoding="ascii") as more:
            more.write("echo '{\"ok\":true}'\n")
        status, said = self.check(file.name)
        self.assertEqual((status, said.splitlines()[-1]), (4, f"{self.path}: {file.name} has answered 11 of 10 lines"))

    def test_more_segments_than_open_files(self):
        """As many as the limit that a user may raise lets in."""
        self.split(*([insert(f"player {n}")] for n in range(100)))
        words = [sys.executable, f"{TOP}/scripts/journal.py", "check", self.path, "--replay", program.program()]
        ran = subprocess.run(["sh", "-c", 'ulimit -S -n 50; exec "$@"', "sh", *words], capture_output=True, text=True, timeout=60)
        self.assertEqual((ran.returncode, ran.stdout.count("segments 1 to 100, 100 lines,"), ran.stderr), (0, 1, ""))

    def test_a_rebase_meanwhile(self):
        """Between the look at the base and that at the segments: no damage is told. Behind these the segments are open, and are read."""
        segments_of, files = bases.segments_of, []

        def rebased(*how):
            if not files:
                files.append(self.files())
                self.based(asked(*TAKEN[:1]), 2, 0)
            return segments_of(*how)

        self.split(TAKEN[:1], TAKEN[1:])
        with unittest.mock.patch("bases.segments_of", rebased):
            self.assertEqual(self.check(program.program()), (
                4, f"{self.path}: another base came while the journal was read, as by a rebase: read the journal again\n"))
        os.remove(f"{self.path}.base")
        self.split(TAKEN[:1], TAKEN[1:])
        with unittest.mock.patch("journal.check_schema", lambda *_: self.based(asked(*TAKEN[:1]), 2, 0)):
            self.assertIn("replayed, and each line is one of a journal", self.check(program.program())[1])

    def test_a_base_wants_a_service(self):
        """Nothing is asked then, and the service is named."""
        self.split(TAKEN[:1], TAKEN[1:])
        self.based(asked(*TAKEN[:1]), 2, 0)
        for it in (program.program(), "/bin/cat"):
            status, said = self.check(it)
            self.assertEqual((status, said), (2, f"{self.path}: it has a base, which mi_service alone reads, and {it} isn't that "
                                                 "(its --help names no --journal): name mi_service by --replay\n"))
        self.assertEqual(self.check(f"{self.folder}/none")[0], 4)


class OnAService(Segments):
    """The stand-in, started on a copy."""

    def setUp(self):
        super().setUp()
        self.service, self.temporary = STAND_IN, tempfile.TemporaryDirectory()
        self.addCleanup(self.temporary.cleanup)
        # (where the copies stand)
        patch = unittest.mock.patch("tempfile.tempdir", self.temporary.name)
        patch.start()
        self.addCleanup(patch.stop)

    def checked(self, status, *words):
        """What is said. The journal's files are as before, whoever has the newest one locked, and nothing is left of the copy."""
        before = self.files()
        newest = max(it for it in before if it.startswith("j") and not it.endswith(".base"))
        with open(f"{self.folder}/{newest}", "rb") as file:
            with contextlib.suppress(BlockingIOError):  # (a service that runs has it)
                fcntl.flock(file, fcntl.LOCK_EX | fcntl.LOCK_NB)
            got, said = self.check(self.service, *words)
        self.assertEqual((got, self.files(), os.listdir(self.temporary.name)), (status, before, []), said)
        return said

    def test_a_base_and_a_segment(self):
        """A base behind each line of the second segment, and behind none."""
        before, behind = TAKEN[:1], [insert("b"), insert("c"), line("erase", id=0), insert("a")]
        for covered in range(len(behind) + 1):
            self.split(before, behind, torn=b'{"cmd":"erase","id":1}' + b"\0" * 900)
            self.based(asked(*before, *behind[:covered]), 2, covered)
            rows = 1 + min(covered, 2) - (covered > 2) + (covered > 3)
            said = self.checked(0)
            self.assertIn(f"{self.path}: a base of {rows} rows, segment 2, {4 - covered} lines, schema {HASH}, ok as a file; the last 22 bytes", said)
            self.assertIn(f"{self.path}: replayed: {self.service} serves a copy of it\n", said)

    def test_several_segments_behind_a_base(self):
        self.split(TAKEN[:1], TAKEN[1:3], [], TAKEN[3:])
        self.based(asked(*TAKEN[:1]), 2, 0)
        self.assertIn("a base of 1 rows, segments 2 to 4, 6 lines, ", self.checked(0))
        os.remove(f"{self.path}.000003")
        self.assertEqual(self.checked(3), f"{self.path}: segment 3 is missing, and segment 4 is there\n")

    def test_a_journal_without_a_base(self):
        self.split(TAKEN)
        self.checked(0)
        self.split(TAKEN[:2], TAKEN[2:], [])
        self.checked(0)

    def test_a_line_that_the_service_refuses(self):
        """It is told by its segment, from the header on, with the lines that the base has."""
        for number, parts in ((3, ([], [insert("b"), insert("a")])), (4, ([], [insert("b"), insert("c"), line("erase", id=9)], [UNDO]))):
            self.split(*parts)
            self.based(asked(insert("a")) if number == 3 else asked(insert("b"), insert("c")), 2, 0 if number == 3 else 2)
            said = self.checked(3)
            self.assertIn(f"{self.path}: {self.service} refuses it: journal: segment 2 line {number}\n", said)

    def test_a_base_that_breaks_a_rule(self):
        """Two rows have one key of a unique index: the file is whole, and no service takes it."""
        self.split([], [])
        twice = Reference([fuzz.ACCOUNTS])
        table = twice.tables[0]
        table.rows, table.next, table.arrivals = {0: ["a", 1, False], 1: ["a", 1, False]}, 2, 2
        table.lists = [[0, 1] for _ in table.lists]
        self.based(twice, 2, 0)
        self.assertIn(f"{self.path}: {self.service} refuses it: journal: base\n", self.checked(3))

    def test_a_base_of_another_journal(self):
        self.split([insert("x")], [])
        self.based(asked(insert("x")), 2, 0)
        other = self.text(f"{self.path}.base")
        self.split([insert("a")], [])
        with open(f"{self.path}.base", "wb") as file:
            file.write(other)
        self.assertEqual(self.checked(3), f"{self.path}.000002: line 1: the header of another journal than the base's\n")

    def test_a_newest_segment_of_which_a_front_is_there(self):
        """As a kill leaves it: each front of the header, which a start completes, and of a line."""
        for has_base in (False, True):
            newest = self.split(TAKEN[:1], TAKEN[1:2], TAKEN[2:3])
            has_base and self.based(asked(*TAKEN[:1]), 2, 0)
            whole = self.text(newest)
            for size in (0, 1, 50, whole.find(b"\n"), whole.find(b"\n") + 1, len(whole) - 1, len(whole)):
                with open(newest, "wb") as file:
                    file.write(whole[:size])
                said = self.checked(0)
                self.assertIn(f" {2 - has_base + (size == len(whole))} lines, ", said)
        with open(newest, "wb") as file:
            file.write(b"x" + whole[1:50])
        self.assertEqual(self.checked(3), f"{newest}: line 1: no whole header\n")

    def test_another_schema(self):
        self.split([], [])
        self.based(asked(), 2, 0)
        shop = f"{TOP}/examples/shop.toml"
        said = self.checked(2, "--schema", shop)
        self.assertEqual(said, f"{self.path}: the journal is of another schema than {shop}: --schema FILE names its own\n")

    def test_a_service_that_ends_otherwise(self):
        self.split([], [])
        self.based(asked(), 2, 0)
        with open(f"{self.folder}/ends", "w", encoding="ascii") as file:
            file.write('#!/bin/sh\n[ "$1" = --help ] && exec echo --journal\necho "fault: memory" >&2\nexit 4\n')
        os.chmod(file.name, 0o755)
        self.service = file.name
        self.assertIn(f"{self.path}: {file.name} ended with status 4: fault: memory\n", self.checked(4))


class OnTheService(OnAService):
    """The service itself."""

    @classmethod
    def setUpClass(cls):
        cls.found = program.service()
        if not cls.found:
            raise unittest.SkipTest("neither the service nor rt, which compiles it, is there")

    def setUp(self):
        super().setUp()
        self.service = self.found

    def test_one_that_runs(self):
        """What it serves goes on; its own segments, and its base."""
        journal = {"journal": self.path, "extra": ("--segment-bytes", "4096")}
        with service.Service(self.found, **journal) as ran, ran.connect() as stream:
            for n in range(150):
                self.assertIn(b'"ok":true', service.asked(stream, insert(f"player {n}") + b"\n"))
            self.assertIn("segments 1 to 3, 150 lines, ", self.checked(0))
            self.assertEqual(self.check(program.program())[0], 0)
        subprocess.run([self.found, "--journal", self.path, "--rebase"], check=True, timeout=60)
        with service.Service(self.found, **journal) as ran, ran.connect() as stream:
            service.asked(stream, insert("last") + b"\n")
            self.assertIn("a base of 150 rows, segment 4, 1 lines, ", self.checked(0))
            self.assertEqual(service.asked(stream, line("size") + b"\n"), b'{"ok":true,"size":151}\n')


if __name__ == "__main__":
    unittest.main()
