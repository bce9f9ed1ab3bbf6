"""Checkpoints with a base: their parts, what a run of `mi_service --rebase` leaves of them, and members that are killed at each call. No service is
started."""
import asyncio
import contextlib
import itertools
import os
import signal
import sys
import threading
import time
import unittest
from typing import Callable, List, Tuple
from unittest import mock

import kit
from member_kit import LONG, checkpoints_in, put, script, text_in

from mi_replica import based
from mi_replica.based import Rebase, copied, join, parts_of, unpack
from mi_replica.checkpoint import Checkpoint, Folder, batches, digest_of
from mi_replica.front import Front
from mi_replica.own import Piped

BASE = b'{"base":1,"line":2,"segment":7}\n[0,"{\\"sha256\\":"]\n{"sha256":"00"}\n'
FIRST, SEGMENT = b'{"journal":1,"revision":0}\n', b'{"journal":2,"segment":7}\n'
LINES = [b'{"cmd":"%d"}\n' % n for n in range(5)]


def front(number: int) -> Front:
    return Front(number, f"{number:016x}")


class Parts(unittest.TestCase):
    def setUp(self) -> None:
        self.folder = kit.folder(self)
        self.path = put(f"{self.folder}/led.new.a", BASE + SEGMENT + b"".join(LINES))

    def test_where_they_stand(self) -> None:
        self.assertEqual(parts_of(self.path), (len(BASE), 7, 2, len(BASE + SEGMENT)))
        self.assertEqual([line for some in batches(self.path) for line in some], LINES[2:])
        self.assertEqual(parts_of(put(f"{self.folder}/b", FIRST + LINES[0])), (0, 1, 0, len(FIRST)))

    def test_files_and_back(self) -> None:
        os.mkdir(f"{self.folder}/j")
        unpack(self.path, f"{self.folder}/j/journal")
        self.assertEqual(sorted(os.listdir(f"{self.folder}/j")), ["journal.000007", "journal.base"])
        self.assertEqual(text_in(f"{self.folder}/j/journal.base"), BASE)
        put(f"{self.folder}/j/journal.000008", b'{"journal":2,"segment":8}\n')
        join(f"{self.folder}/j/journal", f"{self.folder}/again")
        self.assertEqual(text_in(f"{self.folder}/again"), text_in(self.path))

    def test_the_base_alone(self) -> None:
        unpack(self.path, f"{self.folder}/journal", is_base_alone=True)
        self.assertEqual(text_in(f"{self.folder}/journal.000007"), SEGMENT + b"".join(LINES[:2]))

    def test_lines_of_two_segments_are_not_joined(self) -> None:
        unpack(self.path, f"{self.folder}/journal")
        put(f"{self.folder}/journal.000008", b'{"journal":2,"segment":8}\n' + LINES[0])
        self.assertRaises(ValueError, join, f"{self.folder}/journal", f"{self.folder}/again")
        os.unlink(f"{self.folder}/journal.000008")
        put(f"{self.folder}/journal.000007", SEGMENT + bytes(9))
        self.assertRaises(ValueError, join, f"{self.folder}/journal", f"{self.folder}/again")

    def test_damaged_ones(self) -> None:
        changed = BASE.replace(b"7", b'"7"') + SEGMENT, BASE.replace(b"2", b"-2", 1) + SEGMENT
        for text in (b"", b"{}\n", SEGMENT, FIRST[:-1], BASE, BASE[:40], BASE + b"x\n", *changed):
            self.assertRaises(ValueError, parts_of, put(f"{self.folder}/b", text))

    def test_a_copy_stands_in_memory_or_beside(self) -> None:
        """Where there is no room in memory, or no such place; and what a killed member has left goes."""
        for memory in (kit.folder(self), f"{self.folder}/none", ""):
            with mock.patch.object(based, "MEMORY", memory or "/dev/full"):
                folder = copied(self.path)
                self.assertEqual(os.path.dirname(folder), memory if os.path.isdir(memory) else self.folder)
                self.assertEqual(sorted(os.listdir(folder)), ["journal.000007", "journal.base"])
                self.assertEqual(os.path.basename(folder).startswith("led.new."), not os.path.isdir(memory))
                Folder(self.folder, "led", "0a")
                self.assertFalse(os.path.exists(folder))
                put(self.path, BASE + SEGMENT + b"".join(LINES))

    def test_a_server_of_pipes_refuses_a_base(self) -> None:
        with self.assertRaisesRegex(ValueError, "which mi_service alone reads"):
            asyncio.run(Piped("/no/such/program", None).start(self.path))


class Rebases(unittest.TestCase):
    def setUp(self) -> None:
        self.notes: List[str] = []
        self.folder = kit.folder(self)
        self.path = put(f"{self.folder}/led.new.a", FIRST + b"".join(LINES))

    def stays(self, program: str) -> None:
        """What this program does to it leaves the file alone, and nothing beside it."""
        before = text_in(self.path)
        Rebase(program, None, self.notes.append)(self.path)
        self.assertEqual((text_in(self.path), os.listdir(self.folder)), (before, ["led.new.a"]))

    def test_one_that_fails_leaves_the_lines(self) -> None:
        for text, said in (("exit 4", "status 4"), ("kill -9 $$", "status -9"), ("exit 0", "No such file"), ("echo why >&2; exit 3", "3: why")):
            self.notes.clear()
            self.stays(script(self, text))
            self.assertIn(said, "".join(self.notes))
        self.stays(script(self, 'for it; do :; done; echo half > "$it.base.new"; exit 4'))

    def test_open_sessions_are_no_failure(self) -> None:
        self.stays(script(self, "echo journal: sessions: x >&2; exit 3"))
        self.assertEqual(self.notes, [])

    def test_no_program_and_no_room(self) -> None:
        self.stays("/no/such/program")
        with mock.patch("mi_replica.based.unpack", side_effect=OSError(28, "No space left on device")):
            self.stays(script(self, "exit 0"))
        self.assertEqual(len(self.notes), 2)

    def test_none_is_run_for_few_lines(self) -> None:
        put(self.path, BASE * 9 + SEGMENT)
        put(self.path, BASE.replace(b"\n{", b"\n[1]" * 99 + b"\n{", 1) + SEGMENT + LINES[0])
        self.stays("/no/such/program")
        self.assertEqual(self.notes, [])

    def test_one_ends_with_its_member(self) -> None:
        rebase = Rebase(script(self, "exec sleep 99"), None, self.notes.append)
        ran = threading.Thread(target=rebase, args=(self.path,))
        ran.start()
        while not rebase._ran:
            time.sleep(0.01)
        rebase.end()
        ran.join(LONG)
        self.assertFalse(ran.is_alive())
        rebase(self.path)
        self.assertEqual((text_in(self.path), os.listdir(self.folder), self.notes), (FIRST + b"".join(LINES), ["led.new.a"], []))


class Quick(Rebase):
    """One that makes a base at once: of lines it has their number."""

    def _is_done(self, journal: str) -> bool:
        count = b"%d" % sum(len(text_in(it).splitlines()) for it in (journal, f"{journal}.000007", f"{journal}.base") if os.path.exists(it))
        for it in (journal, f"{journal}.000007"):
            with contextlib.suppress(FileNotFoundError):
                os.unlink(it)
        put(f"{journal}.000007", SEGMENT)
        put(f"{journal}.base", BASE.replace(b'"line":2', b'"line":0').replace(b"[0", b"[" + count))
        return True


class Killed(unittest.TestCase):
    """A member is killed in front of each of the calls that change its folder. Nothing is synced here: the disk forgets nothing."""

    def begun(self) -> Tuple[Folder, Checkpoint]:
        folder = Folder(kit.folder(self), "led", "0a", Quick("", None, self.fail))
        return folder, folder.write(front(1), FIRST, [(1, LINES[0])])

    def killed(self, folder: Folder, act: Callable[[], object], nth: int) -> bool:
        """Whether this has as many calls: it was killed in front of that one, and begins anew."""
        events = itertools.count(1)

        def hook(event: str, _: object) -> None:
            if event in ("open", "os.rename", "os.remove", "os.mkdir", "os.rmdir", "os.listdir") and next(events) == nth:
                os.kill(os.getpid(), signal.SIGKILL)

        child = os.fork()
        if not child:
            with contextlib.suppress(BaseException):
                sys.addaudithook(hook)
                act()
            os._exit(0)
        return os.waitpid(child, 0)[1] != 0

    def each(self, act: Callable[[Folder, Checkpoint], object], numbers: Tuple[int, ...]) -> None:
        """Behind each kill there is a whole checkpoint, of one of these entries, and the next one is the only one."""
        for nth in range(1, 999):
            folder, first = self.begun()
            if not self.killed(folder, lambda folder=folder, first=first: act(folder, first), nth):
                break
            again = Folder(folder.path, "led", "0a", Quick("", None, self.fail))
            found = again.newest()
            self.assertIn(found and found.front.number, numbers)
            for it in again._all():
                it.check()
            self.assertEqual([it for it in os.listdir(folder.path) if ".new." in it], [])
            for number in (2, 3):
                made = again.write(front(number), FIRST, [(it, LINES[it - 1]) for it in range(1, number + 1)])
            self.assertEqual(checkpoints_in(folder.path), [os.path.basename(made.path)])
        self.assertGreater(nth, 3)
        self.assertLess(nth, 99)

    def test_while_it_writes_one(self) -> None:
        self.each(lambda folder, _: folder.write(front(2), FIRST, [(2, LINES[1] * 99)]), (1, 2))

    def test_while_it_takes_anothers(self) -> None:
        def take(folder: Folder, first: Checkpoint) -> None:
            with folder.new_file() as path:
                folder.keep(put(path, FIRST), front(2), digest_of(put(path, FIRST)))

        self.each(take, (1, 2))

    def test_while_it_sets_one_aside(self) -> None:
        def aside(folder: Folder, first: Checkpoint) -> None:
            put(f"{first.path}.older.damaged", b"")
            folder.set_aside(first)

        folder, first = self.begun()
        self.assertEqual(text_in(first.path), BASE.replace(b'"line":2', b'"line":0').replace(b"[0", b"[2") + SEGMENT)
        for nth in range(1, 99):
            folder, first = self.begun()
            if not self.killed(folder, lambda folder=folder, first=first: aside(folder, first), nth):
                break
            self.assertIn(Folder(folder.path, "led", "0a").newest(), (first, None))
            self.assertTrue(os.path.exists(first.path) != os.path.exists(f"{first.path}.damaged"))


if __name__ == "__main__":
    unittest.main()
