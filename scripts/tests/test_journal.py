"""Journals: of random runs of the reference, whose lines are taken by what they changed; that the program, asked one, has the run's tables,
and a shorter one the same; which lines are damaged; and that nobody goes on with a file whose place another has taken."""
import contextlib
import copy
import fcntl
import io
import json
import os
import random
import shutil
import subprocess
import sys
import tempfile
import unittest
import unittest.mock

TOP = os.path.dirname(os.path.dirname(os.path.dirname(os.path.realpath(__file__))))
sys.path.insert(0, f"{TOP}/scripts")

from stress import fuzz  # noqa: E402
import journal  # noqa: E402
import program  # noqa: E402
from stress import service  # noqa: E402
from reference import Reference  # noqa: E402

HASH = "4a97872940a86388d00bd4dd133ac68c2bb50dead4fefa2fb1b161a892770f4b"
"""That of the built-in table, as `docs/OPERATING.md` has it."""
UNDO = b'{"cmd":"undo"}'
NOT_ASKED = "; its lines weren't asked (--replay PROGRAM asks them)"


def first_line(revision=0, schema=HASH):
    return json.dumps({"journal": 1, "revision": revision, "schema": schema}, separators=(",", ":")).encode() + b"\n"


def line(cmd, **members):
    return json.dumps({"cmd": cmd, **members}, separators=(",", ":")).encode()


def insert(owner):
    return line("insert", row={"owner": owner, "balance": 1, "vip": False})


START, SQUASH, UNDO_ALL, PUSH = (line(it) for it in ("start", "squash", "undo_all", "push"))


def commit(revision):
    return line("commit", revision=revision)


def tables(reference):
    return [(it.rows, it.lists, it.next, it.arrivals) for it in reference.tables]


def state(reference):
    """All that a database has: what an undo would restore too, and how many sessions are held."""
    old = [[(it.rows, it.lists, it.next, it.arrivals) for it in them] for them in reference.old]
    return tables(reference), old, reference.revision, reference.held


def random_run(seed, length=120):
    """A reference after a run of several connections, and the lines of its journal: each that changed anything, and an undo for each
    session of a holder that went away."""
    lines = fuzz.Lines(seed, share=0.02)
    catalog, pick = lines.catalog(), random.Random(seed)
    reference, kept = Reference(*catalog), []
    for _ in range(length):
        connection = pick.randint(1, 3)
        if pick.random() < 0.04:
            kept += [UNDO] * (reference.held if reference.holder == connection else 0)
            reference.close(connection)
            continue
        text = pick.choice([START, START, UNDO, PUSH, UNDO_ALL]) if pick.random() < 0.1 else lines.line(catalog[0])
        before = copy.deepcopy((state(reference), reference.holder))
        reference.feed(connection, text + b"\n")
        if (state(reference), reference.holder) != before:
            kept.append(text)
    return catalog, reference, kept


def asked(catalog, lines):
    """What one connection leaves that asks these lines."""
    reference = Reference(*catalog)
    for it in lines:
        reference.feed(1, it + b"\n")
    return reference


def dump_lines(catalog):
    """The lines that show each table: its rows, and each index in its order."""
    found = []
    for schema in catalog[0]:
        for index in schema.indexes:
            shows = {"sequenced": "list", "hashed": None}.get(index.kind, "range")
            found += [line(shows, table=schema.name, index=index.name)] if shows else []
    return [*found, line("revision")]


class Files(unittest.TestCase):
    def setUp(self):
        folder = tempfile.TemporaryDirectory()
        self.addCleanup(folder.cleanup)
        self.folder, self.path = folder.name, f"{folder.name}/j"

    def write(self, lines, revision=0, torn=b""):
        with open(self.path, "wb") as file:
            file.write(first_line(revision) + b"".join(it + b"\n" for it in lines) + torn)

    def text(self, path=None):
        with open(path or self.path, "rb") as file:
            return file.read()

    def ran(self, *words):
        """The status, and what is said."""
        out, err = io.StringIO(), io.StringIO()
        with contextlib.redirect_stdout(out), contextlib.redirect_stderr(err):
            status = journal.main([*words])
        return status, out.getvalue() + err.getvalue()

    def compacted(self, lines, revision=0):
        self.write(lines, revision)
        status, said = self.ran("compact", self.path)
        self.assertEqual(status, 0, said)
        first, *rest = self.text().split(b"\n")
        self.assertEqual(first + b"\n", first_line(revision))
        return rest[:-1]


class Compact(Files):
    def test_blocks_that_are_undone_go(self):
        a, b, c = map(insert, "abc")
        for lines, want in [
            ([], []),
            ([a, START, b, UNDO, c], [a, c]),
            ([START, a, START, b, UNDO, c], [START, a, c]),
            ([START, a, START, b, SQUASH, UNDO, c], [c]),
            ([START, a, SQUASH, b], [START, a, SQUASH, b]),
            ([START, a, START, b, UNDO_ALL, c], [c]),
            # (the commit ends the first session for good; only the second is undone)
            ([START, a, START, b, commit(1), UNDO, c], [START, a, commit(1), c]),
            ([START, a, commit(1), START, b, UNDO], [START, a, commit(1)]),
            # (the push lets go of the first session too)
            ([START, a, START, PUSH, b, UNDO, c], [START, a, PUSH, c]),
            ([START, PUSH, b, UNDO, c], [c]),
            ([START, PUSH, START, b, UNDO], [START, PUSH]),
            # (the session that was let go of is undone by whoever comes; then none is held)
            ([START, PUSH, UNDO, START, START, PUSH, b, UNDO, c], [START, PUSH, c]),
            # (the last start is refused)
            ([START] * 1025 + [UNDO], [START] * 1023),
            ([a, START, b], [a, START, b]),
        ]:
            self.assertEqual(self.compacted(lines), want, lines)

    def test_the_database_is_the_same(self):
        shorter = 0
        for seed in range(60):
            catalog, run, kept = random_run(seed)
            again = asked(catalog, kept)
            self.assertEqual(state(again), state(run), seed)
            with unittest.mock.patch("os.fsync"):
                new = self.compacted(kept, catalog[1])
                self.assertEqual(self.compacted(new, catalog[1]), new, seed)
            self.assertEqual(state(asked(catalog, new)), state(again), seed)
            shorter += len(new) < len(kept)
        self.assertGreater(shorter, 30)

    def test_it_is_a_new_file(self):
        self.write([START, UNDO], torn=b'{"cmd')
        os.chmod(self.path, 0o640)
        old = os.stat(self.path).st_ino
        new = f"{self.folder}/new"
        self.assertEqual(self.ran("compact", self.path, "--to", new)[0], 0)
        self.assertEqual((self.text(new), self.text()), (first_line(), first_line() + START + b"\n" + UNDO + b'\n{"cmd'))
        status, said = self.ran("compact", self.path)
        self.assertIn("the last 5 bytes are torn", said)
        self.assertEqual((status, self.text()), (0, first_line()))
        self.assertEqual(os.stat(self.path).st_mode & 0o777, 0o640)
        self.assertNotEqual(os.stat(self.path).st_ino, old)
        self.assertEqual(sorted(os.listdir(self.folder)), ["j", "new"])

    def test_room_is_left_out(self):
        a, room = insert("a"), b"\0" * 3_000
        for torn in (b"", b'{"cmd'):
            self.write([START, UNDO, a], torn=torn + room)
            status, said = self.ran("compact", self.path)
            self.assertEqual((status, self.text()), (0, first_line() + a + b"\n"), said)
            self.assertIn("; room: 3000 bytes\n", said)
        self.assertNotIn("room", self.ran("compact", self.path)[1])

    def test_one_that_is_in_use_stays(self):
        self.write([START, UNDO])
        with open(self.path, "rb") as file:
            fcntl.flock(file, fcntl.LOCK_EX)
            self.assertEqual(self.ran("compact", self.path), (4, f"{self.path}: in use by another program\n"))
        self.assertEqual(self.text(), first_line() + START + b"\n" + UNDO + b"\n")

    def test_one_whose_place_is_taken_meanwhile(self):
        new, flock, calls = f"{self.folder}/new", fcntl.flock, []

        def replaced(file, how):
            if not calls:
                os.rename(new, self.path)
            calls.append(how)
            flock(file, how)

        self.write([START, insert("b"), UNDO, insert("a")])
        os.rename(self.path, new)
        self.write([insert("old")])
        with unittest.mock.patch("fcntl.flock", replaced):
            self.assertEqual(self.ran("compact", self.path)[0], 0)
        self.assertEqual(self.text(), first_line() + insert("a") + b"\n")
        # (the old one, the one that took its place, and the one that is made)
        self.assertEqual(len(calls), 3)

    def test_one_in_use_keeps_its_place(self):
        new = f"{self.folder}/new"
        self.write([insert("used")])
        os.rename(self.path, new)
        self.write([START, UNDO])
        with open(new, "rb") as file:
            fcntl.flock(file, fcntl.LOCK_EX)
            self.assertEqual(self.ran("compact", self.path, "--to", new)[0], 4)
        self.assertEqual(self.text(new), first_line() + insert("used") + b"\n")

    def test_one_that_comes_meanwhile_keeps_its_name(self):
        new, write = f"{self.folder}/new", journal.write_without

        def begun(*how):
            with open(new, "xb") as file:
                file.write(first_line() + insert("acknowledged") + b"\n")
            write(*how)

        self.write([START, UNDO])
        with unittest.mock.patch("journal.write_without", begun):
            self.assertEqual(self.ran("compact", self.path, "--to", new)[0], 4)
        self.assertEqual(self.text(new), first_line() + insert("acknowledged") + b"\n")
        self.assertEqual(sorted(os.listdir(self.folder)), ["j", "new"])

    def test_an_unfinished_one_goes(self):
        self.write([START, UNDO])
        text = (
            "import os, runpy, signal, sys\n"
            "os.fsync = lambda _: os.kill(os.getpid(), signal.SIGTERM)\n"
            f"sys.path.insert(0, {TOP + '/scripts'!r})\n"
            f"sys.argv = ['journal.py', 'compact', {self.path!r}]\n"
            f"runpy.run_path({TOP + '/scripts/journal.py'!r}, run_name='__main__')\n"
        )
        self.assertEqual(subprocess.run([sys.executable, "-c", text]).returncode, 143)
        self.assertEqual(os.listdir(self.folder), ["j"])

    def test_links_are_followed(self):
        os.mkdir(f"{self.folder}/disk")
        real, link = f"{self.folder}/disk/j", self.path
        os.symlink(real, link)
        self.write([START, UNDO])
        self.assertEqual(self.ran("compact", link), (0, f"{real}: {len(first_line())} bytes, of {len(first_line() + START + UNDO) + 2}\n"))
        self.assertTrue(os.path.islink(link))
        self.assertEqual((self.text(real), os.listdir(f"{self.folder}/disk")), (first_line(), ["j"]))

    def test_nothing_but_a_file_is_replaced(self):
        self.write([START, UNDO])
        os.mkfifo(f"{self.folder}/pipe")
        held = os.open(f"{self.folder}/pipe", os.O_RDWR)
        self.addCleanup(os.close, held)
        for new in ("/dev/null" if os.getuid() else f"{self.folder}/pipe", self.folder, ""):
            self.assertEqual(self.ran("compact", self.path, "--to", new)[0], 4, new)
        self.assertEqual(self.text(), first_line() + START + b"\n" + UNDO + b"\n")
        self.assertEqual(sorted(os.listdir(self.folder)), ["j", "pipe"])

    def test_a_damaged_one_stays(self):
        self.write([START, b"{", UNDO])
        self.assertEqual(self.ran("compact", self.path), (3, f"{self.path}: line 3: no JSON\n"))
        self.assertEqual(os.listdir(self.folder), ["j"])
        self.assertEqual(self.text(), first_line() + START + b"\n{\n" + UNDO + b"\n")


class Check(Files):
    def test_a_sound_one(self):
        self.write([START, insert("a"), UNDO])
        self.assertEqual(self.ran("check", self.path), (0, f"{self.path}: 3 lines, schema {HASH}, ok as a file{NOT_ASKED}\n"))

    def test_a_look_up(self):
        """No journal has one, and a service refuses it."""
        for name in ("size", "revision", "get"):
            self.write([START, line(name, **({"id": 0} if name == "get" else {})), UNDO])
            self.assertEqual(self.ran("check", self.path), (3, f"{self.path}: line 3: a look-up, {name}, which no journal has\n"))
        self.write([line("reserve", changes=1, sessions=1)])
        self.assertEqual(self.ran("check", self.path)[0], 0)

    def test_the_verdict_says_what_was_looked_at(self):
        self.write([START, insert("a"), line("erase", id=7), UNDO])
        self.assertEqual(self.ran("check", self.path), (0, f"{self.path}: 4 lines, schema {HASH}, ok as a file{NOT_ASKED}\n"))
        status, said = self.ran("check", self.path, "--replay", program.program())
        self.assertEqual((status, said.splitlines()[0]), (3, f"{self.path}: 4 lines, schema {HASH}, ok as a file"))
        self.assertIn(f'{self.path}: line 4: no change: {{"error":"id"', said)

    def test_torn_at_each_byte(self):
        last = insert("b")
        for length in range(len(last) + 1):
            self.write([START], torn=last[:length])
            status, said = self.ran("check", self.path)
            torn = f"; the last {length} bytes are torn, and no line" if length else ""
            self.assertEqual((status, said), (0, f"{self.path}: 1 lines, schema {HASH}, ok as a file{torn}{NOT_ASKED}\n"))

    def test_room(self):
        for torn, room, note in [
            (b"", 1, "; room: 1 bytes"),
            (b"", 2_500_000, "; room: 2500000 bytes"),
            (b'{"cmd', 70_000, "; the last 5 bytes in front of room are torn, and no line; room: 70000 bytes"),
        ]:
            self.write([START], torn=torn + b"\0" * room)
            self.assertEqual(self.ran("check", self.path), (0, f"{self.path}: 1 lines, schema {HASH}, ok as a file{note}{NOT_ASKED}\n"))
            self.assertEqual(self.ran("stat", self.path)[1].splitlines()[0], f"{self.path}: 1 lines of 16 bytes, 16.0 each{note}")

    def test_room_that_is_written_over_meanwhile(self):
        """What is read is what was there at the beginning."""
        self.write([START], torn=b"\0" * 5_000)
        end_before = journal.end_before

        def late(handle, text):
            end = end_before(handle, text)
            with open(self.path, "r+b") as file:
                file.seek(end)
                file.write(insert("late") + b"\n")
            return end

        with unittest.mock.patch("journal.end_before", late):
            self.assertEqual(self.ran("check", self.path)[1],
                             f"{self.path}: 1 lines, schema {HASH}, ok as a file; room: 5000 bytes{NOT_ASKED}\n")

    def test_damaged_lines(self):
        for bad, why in [
            (b"", "no JSON"),
            (b'{"cmd":"undo"', "no JSON"),
            (b'{"cmd":"fly"}', "no command"),
            (b'{"cmd":"undo","id":1}', "no command"),
            (b" " * 65_537, "65537 bytes, and 65536 are the most"),
        ]:
            self.write([START, bad, UNDO])
            self.assertEqual(self.ran("check", self.path), (3, f"{self.path}: line 3: {why}\n"))

    def test_bytes_behind_zeros(self):
        for torn, room, lost in [(b"", 40, UNDO + b"\n"), (b'{"cmd', 3_000_000, b"x" + b"\0" * 50), (b"", 1, START)]:
            self.write([START], torn=torn + b"\0" * room + lost)
            before = self.text()
            for step in ("check", "compact", "stat"):
                status, said = self.ran(step, self.path)
                self.assertEqual(status, 3)
                self.assertIn(f"{self.path}: line 3: zeros, and {room + len(lost.rstrip(bytes(1)))} bytes up to the last", said)
            self.assertEqual(self.text(), before)
            new = f"{self.folder}/new"
            self.assertEqual(self.ran("copy", self.path, new)[0], 0)
            self.assertEqual(self.text(new), first_line() + START + b"\n")
            os.unlink(new)

    def test_a_carriage_return_is_no_damage(self):
        self.write([START + b"\r", UNDO])
        self.assertEqual(self.ran("check", self.path)[0], 0)

    def test_headers(self):
        for text, why in [
            (b"", "no whole header"),
            (first_line()[:-1], "no whole header"),
            (START + b"\n", "no header"),
            (b"\n", "no header, which is JSON"),
            (b'{"journal":2,"revision":0,"schema":""}\n', "a journal of format 2, and 1 is known"),
            (b'{"journal":1,"revision":0}\n', "a header has the members journal, revision and schema"),
            (b'{"journal":1,"revision":-1,"schema":""}\n', "a header has the members journal, revision and schema"),
            (first_line(schema="x" * 64), "its hash isn't of hexadecimal digits"),
            (first_line()[:-1] + b"\r\n", "a header that is written in another way, or has something behind it"),
            (first_line().replace(b":1", b":true"), "a header that is written in another way, or has something behind it"),
        ]:
            with open(self.path, "wb") as file:
                file.write(text)
            self.assertEqual(self.ran("check", self.path), (3, f"{self.path}: line 1: {why}\n"))

    def test_a_schema_that_nothing_looks_at(self):
        self.write([START])
        with self.assertRaises(SystemExit) as ended:
            self.ran("check", self.path, "--schema", "/no/such")
        self.assertEqual(ended.exception.code, 2)

    def test_another_schema_than_the_journals(self):
        """The program isn't asked then."""
        shop, none = f"{TOP}/examples/shop.toml", self.answers(0)
        for digest, words, name in [("a" * 64, [], "the built-in table accounts"), (HASH, ["--schema", shop], shop)]:
            with open(self.path, "wb") as file:
                file.write(first_line(schema=digest) + START + b"\n")
            said = f"{self.path}: the journal is of another schema than {name}: --schema FILE names its own\n"
            self.assertEqual(self.ran("check", self.path, "--replay", none, *words), (2, said))
        for file in ("none", "j"):
            status, said = self.ran("check", self.path, "--replay", none, "--schema", f"{self.folder}/{file}")
            self.assertEqual(status, {"none": 4, "j": 2}[file], said)
            self.assertIn(f"{self.folder}/{file}", said)

    def test_a_program_that_answers_too_few(self):
        self.write([START, UNDO])
        for program_, said in [("/bin/true", 0), (self.answers(2), 2), (self.answers(4), 4)]:
            status, text = self.ran("check", self.path, "--replay", program_)
            self.assertEqual((status, text.splitlines()[1:]), (4, [f"{self.path}: {program_} has answered {said} of 3 lines"]))
        self.assertEqual(self.ran("check", self.path, "--replay", self.answers(3))[0], 0)

    def answers(self, count):
        """A program that reads all and answers so many lines."""
        path = f"{self.folder}/answers{count}"
        with open(path, "w", encoding="ascii") as file:
            file.write("#!/bin/sh\ncat > /dev/null\n" + "echo '{\"ok\":true,\"revision\":1}'\n" * count)
        os.chmod(path, 0o755)
        return path

    def test_nobody_reads_on(self):
        self.write([START])
        reads, writes = os.pipe()
        os.close(reads)
        for words in (["stat", self.path], ["check", self.path]):
            whole, how = [sys.executable, f"{TOP}/scripts/journal.py", *words], {"stderr": subprocess.PIPE, "timeout": 60}
            ran = subprocess.run(whole, stdout=writes, env={**os.environ, "PYTHONUNBUFFERED": ""}, **how)
            self.assertEqual((ran.returncode, ran.stderr), (141, b""), words)
        os.close(writes)

    def test_no_file(self):
        self.assertEqual(self.ran("stat", f"{self.folder}/none")[0], 4)

    def test_progress(self):
        said = io.StringIO()
        with contextlib.redirect_stderr(said):
            progress = journal.Progress("reading", 8_000_000)
            progress.at(1_000_000)
            progress.next = 0
            progress.at(2_000_000)
            progress.at(3_000_000)
        self.assertEqual(said.getvalue(), "reading: 2 of 8 MB, 25 %\n")


class Copy(Files):
    def test_what_is_there(self):
        new = f"{self.folder}/new"
        for torn in (b"", b'{"cmd', b"\0" * 90_000, b'{"cmd' + b"\0" * 90_000):
            self.write([START, insert("a")], torn=torn)
            os.chmod(self.path, 0o640)
            with open(self.path, "rb") as file:
                fcntl.flock(file, fcntl.LOCK_EX)
                want = first_line() + START + b"\n" + insert("a") + b"\n"
                self.assertEqual(self.ran("copy", self.path, new), (0, f"{new}: {len(want)} bytes\n"))
            self.assertEqual((self.text(new), os.stat(new).st_mode & 0o777), (want, 0o640))
            self.assertEqual(self.text(), want + torn)
            self.assertEqual(self.ran("copy", self.path, new)[0], 4)
            self.assertEqual(self.text(new), want)
            os.unlink(new)

    def test_no_journal(self):
        with open(self.path, "wb") as file:
            file.write(b"\0" * 100)
        self.assertEqual(self.ran("copy", self.path, f"{self.folder}/new"), (3, f"{self.path}: line 1: no whole header\n"))
        self.assertEqual(self.ran("copy", f"{self.folder}/none", f"{self.folder}/new")[0], 4)
        self.assertEqual(os.listdir(self.folder), ["j"])


class Stat(Files):
    def test_counts(self):
        self.write([START, START, insert("a"), SQUASH, UNDO, insert("b"), START, START, commit(1), line("size")], torn=b"{")
        status, said = self.ran("stat", self.path)
        sizes = [len(it) + 1 for it in (START, START, insert("a"), SQUASH, UNDO, insert("b"), START, START, commit(1), line("size"))]
        self.assertEqual(status, 0)
        self.assertEqual(said.splitlines(), [
            f"{self.path}: 10 lines of {sum(sizes)} bytes, {sum(sizes) / 10:.1f} each; the last 1 bytes are torn, and no line",
            "           4 start",
            "           2 insert",
            "           1 squash",
            "           1 undo",
            "           1 commit",
            "           1 size, which changes nothing",
            "  sessions: 4 started, 1 undone, 1 squashed, 1 committed",
            "  open at the end: 1, of them held 1; at most 2 at once",
            f"  {sum(sizes[:5])} bytes are of blocks that were undone, {100 * sum(sizes[:5]) // sum(sizes)} %",
        ])


class OverTheProgram(Files):
    """The program asked a journal as its standard input."""

    def answers(self, catalog, path, lines):
        """The replies to these lines behind a journal."""
        with fuzz.start(program.program(), self.folder, catalog) as ran:
            out, err = ran.communicate(self.text(path) + b"".join(it + b"\n" for it in lines), timeout=60)
        self.assertEqual((ran.returncode, err), (0, b""))
        return out.splitlines()[-len(lines):]

    def test_a_journal_gives_the_tables(self):
        for seed in range(1000, 1020):
            catalog, run, kept = random_run(seed, 300)
            show, short = dump_lines(catalog), f"{self.folder}/short"
            self.write(kept, catalog[1])
            self.assertEqual(self.ran("compact", self.path, "--to", short)[0], 0)
            # (by the connection that holds the run's sessions, so that all replies are the same)
            want = run.feed(run.holder or 1, b"".join(it + b"\n" for it in show)).splitlines()
            for path in (self.path, short):
                self.assertEqual(self.answers(catalog, path, show), want, (seed, path))

    def test_a_line_that_no_journal_has_is_named(self):
        words = ("check", self.path, "--replay", program.program())
        self.write([START, insert("a"), UNDO, insert("a"), insert("a")])
        status, said = self.ran(*words)
        self.assertEqual(status, 3)
        self.assertIn('line 6: no change: {"error":"unique"', said)
        lost = [insert("a"), insert("b"), line("modify", id=1, set={"owner": "a"}), line("erase_key", index="by_owner", key=["c"])]
        self.write(lost)
        self.assertEqual(self.ran(*words)[0], 0)
        self.write([*lost, line("size")])
        self.assertIn("line 6: a look-up, size, which no journal has\n", self.ran(*words)[1])


class OverTheService(Files):
    """The service at its start."""

    @classmethod
    def setUpClass(cls):
        cls.compiler = shutil.which(os.environ.get("CC", "cc"))
        cls.path_of = program.service()
        if not cls.path_of:
            raise unittest.SkipTest("neither the service nor rt, which compiles it, is there")

    def asked(self, *lines, **how):
        """The replies of a service over the journal to these lines."""
        with service.Service(self.path_of, journal=self.path, **how) as ran, ran.connect() as stream, stream.makefile("rb") as replies:
            stream.sendall(b"".join(it + b"\n" for it in lines))
            return [replies.readline() for _ in lines]

    def test_a_file_whose_place_is_taken_meanwhile(self):
        if not self.compiler:
            self.skipTest("no C compiler")
        library, new = f"{self.folder}/replace.so", f"{self.folder}/new"
        source = f"{TOP}/scripts/tests/replace_at_lock.c"
        subprocess.run([self.compiler, "-O2", "-Wall", "-shared", "-fPIC", "-o", library, source], check=True)
        first = [b'{"id":0,"ok":true}\n', b'{"ok":true,"revision":1}\n', b'{"ok":true,"revision":0}\n']
        self.assertEqual(self.asked(insert("a"), START, UNDO), first)
        self.assertEqual(self.ran("compact", self.path, "--to", new)[0], 0)
        env = {"LD_PRELOAD": library, "REPLACE_FILE": self.path, "REPLACE_BY": new}
        self.assertEqual(self.asked(insert("b"), env=env), [b'{"id":1,"ok":true}\n'])
        self.assertFalse(os.path.exists(new))
        self.assertEqual(self.text().split(b"\n")[1:-1], [insert("a"), insert("b")])
        self.assertEqual(self.asked(line("size")), [b'{"ok":true,"size":2}\n'])


if __name__ == "__main__":
    unittest.main()
