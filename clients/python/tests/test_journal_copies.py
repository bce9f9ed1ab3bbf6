"""Journals with a base, as the tools read them: by a service on a copy, and what becomes of that while others change the files. The service is that of
`test_service`; bases are written as in `test_journal_segments`."""
import contextlib
import fcntl
import os
import subprocess
import unittest
from typing import Any, Dict, Iterator, List, Optional, Tuple
from unittest import mock

import kit
from kit import ANN, BOB, TOP
from test_journal_segments import CID, HASH, NOBODY, PARTS, ROWS, START, Journals, bases, insert
from test_service import SERVICE, STAND_IN

from mi_client import Server
from mi_tools import journal_copies, opening
from mi_tools.journals import Gone


class Based(Journals):
    """With a base: a service is started on a copy."""

    def test_a_base_and_its_segments(self) -> None:
        for covered in (0, 1):
            for end in (b"", b'{"cmd":"erase","id":1}', b'{"cmd":"er' + b"\0" * 70_000):
                self.split([insert(ANN)], [insert(BOB)], [insert(CID), '{"cmd":"erase","id":1}'], torn=end)
                self.based(covered)
                rows = [{"id": 0, "row": ANN, "table": "accounts"}, {"id": 2, "row": CID, "table": "accounts"}]
                self.assertEqual(self.dumped(), rows)
        self.assertEqual(self.dumped("--program", SERVICE, MI_SERVICE=NOBODY), rows)
        self.assertIn("\n0,ann,50,false\n2,cid,50,false\n", self.ran("export", "--format", "csv").stdout.replace("\r", ""))
        self.assertIn('weltiyo_rows{table="accounts"} 2', self.ran("metrics").stdout)

    def test_the_orders_are_the_bases(self) -> None:
        """Bob comes first in the index `line`, and a later row behind both."""
        self.split([], [insert(BOB), insert({**CID, "balance": 1})])
        rows = {0: ("ann", 50, False), 1: ("bob", 7, True)}
        image = bases.Image("accounts", 2, 2, rows, [[0, 1], [1, 0], [0, 1], [0, 1], [1, 0]])
        header = self.read(self.path(2)).partition(b"\n")[0]
        self.write(bases.base_path(self.journal), bases.text_of(bases.Base(1, 0, HASH, 2, bases.sum_of(header), [image])))
        self.assertEqual([it["id"] for it in self.dumped("--order", "line")], [1, 0, 2])

    def test_what_is_held_at_the_end_is_undone(self) -> None:
        self.split([insert(ANN)], [START, insert(BOB)])
        self.based()
        self.assertEqual(self.dumped(), [{"id": 0, "row": ANN, "table": "accounts"}])

    def test_a_service_may_be_named_for_any_journal(self) -> None:
        self.split(*PARTS)
        self.assertEqual(self.dumped("--program", SERVICE), ROWS)
        self.split([*PARTS[0], *PARTS[1], *PARTS[2]])
        self.assertEqual(self.dumped("--program", SERVICE), ROWS)

    def test_a_program_that_is_no_service(self) -> None:
        self.split([], [])
        self.based()
        no_service = "it has a base, which mi_service alone reads, and {} isn't that (its --help names no --journal): name mi_service by {}"
        for it in (kit.program(), "/bin/cat"):
            self.refused(f"{self.journal}: {no_service.format(it, '--program')}", "--program", it, status=2)
        self.refused(f"{self.journal}: {no_service.format('/bin/cat', 'the variable MI_SERVICE')}", status=2, MI_SERVICE="/bin/cat")
        ran = self.ran("dump", "--program", NOBODY)
        self.assertEqual((ran.returncode, ran.stderr.partition(":")[2].partition(":")[0]), (1, f" there is no program {NOBODY}"))

    def test_the_service_beside_the_server(self) -> None:
        self.split([insert(ANN)], [insert(CID)])
        self.based()
        bare = {"MI_SERVICE": "", "MI_SERVER": f"{self.folder}/bin/mi_server", "PATH": os.environ["PATH"]}
        os.mkdir(f"{self.folder}/bin")
        self.write(bare["MI_SERVER"], b"#!/bin/sh\nexit 1\n")
        os.chmod(bare["MI_SERVER"], 0o755)
        with mock.patch("shutil.which", side_effect=lambda it: it if it == bare["MI_SERVER"] else None):
            with mock.patch.dict(os.environ, bare), self.assertRaises(opening.NoProgram) as none:
                opening.service_beside(bare["MI_SERVER"], self.journal)
        self.assertEqual(str(none.exception), f"{self.journal}: it has a base, which mi_service alone reads, and there is none beside {bare['MI_SERVER']}: "
                                              "name it by --program FILE or the variable MI_SERVICE")
        os.symlink(SERVICE, f"{self.folder}/bin/mi_service")
        self.assertEqual([it["row"]["owner"] for it in self.dumped(**bare)], ["ann", "cid"])

    def test_what_the_service_refuses(self) -> None:
        self.split([insert(ANN)], [insert(BOB), insert(ANN)], [])
        self.based(1)
        self.refused(f"{self.journal}: {SERVICE} refuses it: journal: segment 2 line 3")
        self.split([insert(ANN)], [], [])
        self.based()
        os.remove(self.path(2))
        self.refused(f"{self.journal}: {SERVICE} refuses it: journal: segment 2")
        self.split([insert(ANN)], [insert(BOB)], [])
        self.based()
        self.write(self.path(2), self.read(self.path(2)) + b'{"cmd')
        self.refused(f"{self.journal}: {SERVICE} refuses it: journal: segment 2")

    def test_a_base_that_the_service_refuses(self) -> None:
        self.split([insert(ANN)], [])
        self.based()
        kept = self.read(bases.base_path(self.journal))
        for torn in (kept[:-3], kept.replace(b'"ann"', b'"Ann"')):
            self.write(bases.base_path(self.journal), torn)
            self.refused(f"{self.journal}: {SERVICE} refuses it: journal: base")
        self.split([insert(BOB)], [])  # (so this is another journal's)
        self.write(bases.base_path(self.journal), kept)
        self.refused(f"{self.journal}: {SERVICE} refuses it: journal: base")
        for bad in (b"", b"\n", b"[]\n", b'{"base":2,"segment":2}\n', b'{"base":1,"segment":0}\n'):
            self.write(bases.base_path(self.journal), bad)
            self.refused(f"{self.journal}.base:1: no heading of a base of format 1")

    def test_another_schema_than_the_journals(self) -> None:
        self.split([], [])
        self.based()
        shop, faulty = f"{TOP}/examples/shop.toml", kit.written(self, 'table = "accounts"\nindex = 5')
        self.refused(f"{self.journal}: the journal is of another schema than {shop}: name the one that the service was started with by --schema FILE",
                     "--schema", shop, status=2)
        self.assertIn(f"weltiyo dump: {faulty}: this is no schema", self.ran("dump", "--schema", faulty).stderr)
        self.assertEqual(self.ran("dump", "--schema", f"{self.folder}/none").returncode, 1)

    def test_bytes_behind_zeros(self) -> None:
        """A start would cut them off without a word."""
        self.split([], [], torn=b"\0" * 50 + b"x" + b"\0" * 9)
        self.based()
        self.refused(f"{self.path(2)}: zeros, and 51 bytes up to the last that is none, which a start of the service would cut off")

    def test_a_journal_that_another_has_locked(self) -> None:
        self.split([insert(ANN)], [insert(BOB)])
        self.based()
        with open(self.path(2), "rb") as file:
            fcntl.flock(file, fcntl.LOCK_EX)
            self.assertEqual([it["row"]["owner"] for it in self.dumped()], ["ann", "bob"])

    def test_an_interrupt_leaves_nothing(self) -> None:
        self.split([], [])
        self.based()
        with mock.patch("tempfile.tempdir", self.temporary), mock.patch.object(journal_copies.Service, "listens", side_effect=KeyboardInterrupt):
            with self.assertRaises(KeyboardInterrupt):
                journal_copies.on_a_copy(SERVICE, self.journal, None)
        self.assertEqual(os.listdir(self.temporary), [])


class Copied(Journals):
    """While others change the journal's files."""

    def copied(self) -> Dict[str, bytes]:
        to = kit.folder(self)
        journal_copies.copy(self.journal, f"{to}/j")
        return {it: self.read(f"{to}/{it}") for it in sorted(os.listdir(to))}

    @contextlib.contextmanager
    def behind(self, count: int, change: Any) -> Iterator[None]:
        """Something changes once so many files have been copied."""
        made, copy_bytes = [], journal_copies.copy_bytes

        def copied(*how: Any) -> None:
            copy_bytes(*how)
            made.append(how)
            if len(made) == count:
                change()

        with mock.patch("mi_tools.journal_copies.copy_bytes", copied):
            yield

    def test_what_is_there(self) -> None:
        """The base, and the segments that it doesn't cover; of the newest the whole lines."""
        self.split(*PARTS, torn=b'{"cm' + b"\0" * 70)
        files = self.files()
        whole = files["shop.journal.000003"].partition(b'{"cm\0')[0]
        self.assertEqual(self.copied(), {"j": files["shop.journal"], "j.000002": files["shop.journal.000002"], "j.000003": whole})
        self.based()
        self.write(self.journal, files["shop.journal"])
        self.assertEqual(self.copied(), {"j.000002": files["shop.journal.000002"], "j.000003": whole, "j.base": self.files()["shop.journal.base"]})

    def test_a_segment_that_is_begun_meanwhile(self) -> None:
        self.split(*PARTS[:2])
        self.based()
        before = self.files()

        def goes_on() -> None:
            self.split(*PARTS)
            os.remove(self.journal)

        with self.behind(2, goes_on):
            self.assertEqual(self.copied(), {"j.000002": before["shop.journal.000002"], "j.base": before["shop.journal.base"]})

    def test_a_rebase_meanwhile(self) -> None:
        """Whenever another base takes the place of the copied one, or the first one comes."""
        def rebased() -> None:
            os.rename(bases.base_path(self.journal), f"{self.folder}/old")
            self.write(bases.base_path(self.journal), self.read(f"{self.folder}/old"))

        for count in (1, 2, 3):
            self.split(*PARTS)
            self.based()
            with self.behind(count, rebased), self.assertRaisesRegex(Gone, "^.*shop.journal.base: another one came while the journal was copied"):
                self.copied()
        with self.behind(2, lambda: os.remove(self.path(3))), self.assertRaisesRegex(Gone, f"^{self.path(3)}: it was taken away"):
            self.copied()
        os.remove(bases.base_path(self.journal))
        self.split(*PARTS)
        with self.behind(1, self.based), self.assertRaisesRegex(Gone, "another one came"):
            self.copied()

    def test_no_journal(self) -> None:
        self.assertEqual(self.copied(), {})


class OfAService(Journals):
    """One that runs, and whose files these are."""

    def started(self, *words: str) -> Server:
        with mock.patch("mi_client.server._option", side_effect=self.option(words)):
            server = Server(service=SERVICE, journal=self.journal, wait=60)
        self.addCleanup(server.close)
        return server

    def option(self, words: Tuple[str, ...]) -> Any:
        def made(name: str, value: Optional[str]) -> List[str]:
            return [] if value is None else [name, os.fspath(value), *(words if name == "--journal" else ())]

        return made

    @unittest.skipIf(SERVICE == STAND_IN, "the service isn't built: its stand-in begins no segment by itself")
    def test_it_goes_on(self) -> None:
        """Segments of its own, then a base of its own, each dumped while it serves, with a session that is held."""
        rows = [{**ANN, "owner": f"player {n}"} for n in range(150)]
        with self.started("--segment-bytes", "4096") as server, server.connect(60) as db:
            for it in rows:
                db.insert(it)
            self.assertTrue(os.path.exists(self.path(3)))
            self.assertEqual([it["row"] for it in self.dumped()], rows)
            db.begin()
            db.erase(0)
            self.assertEqual([it["row"] for it in self.dumped("--program", SERVICE)], rows)
            db.squash()
        subprocess.run([SERVICE, "--journal", self.journal, "--rebase"], check=True, timeout=60)
        with self.started() as server, server.connect(60) as db:
            db.insert(BOB)
            self.assertEqual([it["row"] for it in self.dumped()], [*rows[1:], BOB])
            self.assertEqual(db.insert(CID), 151)


if __name__ == "__main__":
    unittest.main()
