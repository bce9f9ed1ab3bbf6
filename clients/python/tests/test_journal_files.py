"""How a journal's files are called and how they stand, as status and metrics show it: of files in a folder, and of a service. The sizes and ages
are written down by hand."""
import contextlib
import fcntl
import io
import json
import os
import socketserver
import subprocess
import threading
import time
import unittest
from typing import Optional
from unittest import mock

import kit
from kit import ANN
from test_service import SERVICE, STAND_IN

from mi_client import Server, service_lines
from mi_client.schema import BUILT_IN
from mi_tools import cli, process
from mi_tools.journal_files import Base, Files, files_beside, files_of, journal_of
from mi_tools.journal_names import base_path, numbers_of, segment_path
from mi_tools.journals import Damaged
from mi_tools.top import Sample, Usage, prometheus, shown_status

FIRST = b'{"journal":1,"revision":0,"schema":"00"}\n'
TOLD = {"connections": [], "depth": 0, "holder": None, "journal": {"bytes": 119, "full": False, "room": 1196016, "segment": 3, "synced": 119},
        "ok": True, "tables": [], "uptime": 60, "version": "0.1.0"}


ANSWERS = {service_lines.STATUS_LINE: TOLD, service_lines.SCHEMA_LINE: {"ok": True, "schema": BUILT_IN},
           '{"cmd":"revision"}': {"depth": 0, "held": 0, "ok": True, "revision": 0}}


def compact(value: object) -> str:
    return json.dumps(value, separators=(",", ":"))


class Answering(socketserver.StreamRequestHandler):
    """A connection of what stands in for a service."""

    def handle(self) -> None:
        for line in self.rfile:
            self.wfile.write(f"{compact(ANSWERS[line.decode().strip()])}\n".encode())


def later(number: object) -> bytes:
    """The header of a later segment."""
    return json.dumps({"journal": 2, "previous": "00", "revision": 0, "schema": "00", "segment": number}).encode() + b"\n"


class InAFolder(unittest.TestCase):
    def setUp(self) -> None:
        self.folder = kit.folder(self)
        self.journal = f"{self.folder}/shop.journal"

    def write(self, path: str, data: bytes = b"", age: Optional[int] = None) -> str:
        with open(path, "wb") as file:
            file.write(data)
        if age is not None:
            os.utime(path, (time.time() - age,) * 2)
        return path

    def locked(self, path: str) -> Optional[str]:
        """What /proc has for a file that this process locks, as a service does."""
        handle = os.open(path, os.O_RDWR)
        self.addCleanup(os.close, handle)
        fcntl.flock(handle, fcntl.LOCK_EX)
        return process.locked_file(os.getpid())


class Names(InAFolder):
    def test_they_are_those_of_the_service(self) -> None:
        names = [segment_path("j", it) for it in (1, 2, 999_999, 1_000_000)]
        self.assertEqual((base_path("j"), names), ("j.base", ["j", "j.000002", "j.999999", "j.1000000"]))

    def test_the_segments_that_are_there(self) -> None:
        self.assertEqual(numbers_of(self.journal), [])
        for it in (".base", ".base.new", ".000000", ".000001", ".12", ".0000012", ".000002.bak", ".00000²", "s.000004"):
            self.write(self.journal + it)
        self.assertEqual(numbers_of(self.journal), [])
        for it in (".1000000", ".000010", ".000009", ""):
            self.write(self.journal + it)
        self.assertEqual(numbers_of(self.journal), [1, 9, 10, 1_000_000])
        with self.assertRaises(FileNotFoundError):
            numbers_of(f"{self.folder}/none/journal")

    def test_the_journal_of_a_segment(self) -> None:
        """The header tells the number, since the journal itself may be called as a segment is."""
        for name, header, wanted in (("shop", FIRST, "shop"), ("shop.000002", later(2), "shop"), ("shop.202401", FIRST, "shop.202401"),
                                     ("shop.202401.000003", later(3), "shop.202401"), ("moved", later(3), None), ("shop.000002", later(3), None)):
            found = journal_of(self.write(f"{self.folder}/{name}", header + b'{"cmd":"start"}\n'))
            self.assertEqual(found, wanted and f"{self.folder}/{wanted}")

    def test_what_is_no_segment(self) -> None:
        for header in (b"", b"mine\n", FIRST[:-1], later(2)[:-1], later(0), later("2"), later(True), later(None), b'{"journal":3,"segment":2}\n',
                       b" " * 5_000 + FIRST):
            with self.assertRaises(Damaged):
                journal_of(self.write(f"{self.folder}/shop.000002", header))
            self.assertIsNone(files_beside(f"{self.folder}/shop.000002"))


class Standing(InAFolder):
    def test_a_journal_of_one_file(self) -> None:
        self.write(self.journal, FIRST + b"\0" * 1_000)
        self.assertEqual(files_beside(self.locked(self.journal)), Files(1, 1, len(FIRST) + 1_000, None))

    def test_later_segments_and_a_base(self) -> None:
        newest = self.write(segment_path(self.journal, 4), later(4))
        self.write(segment_path(self.journal, 3), later(3) + b"\0" * 70)
        self.write(base_path(self.journal), b"12345", age=7_200)
        found = files_beside(self.locked(newest))
        self.assertEqual(found._replace(base=None), Files(2, 4, len(later(3) + later(4)) + 70))
        self.assertEqual(found.base.size, 5)
        self.assertIn(found.base.age, range(7_200, 7_260))

    def test_segments_that_the_base_covers(self) -> None:
        for number in (2, 3, 5):
            newest = self.write(segment_path(self.journal, number), later(number))
        locked = self.locked(newest)
        for first, covered in ((b'{"base":1,"line":0,"segment":5}\n', 2), (b'{"base":1,"line":7,"segment":3}\n', 1), (b"[]\n", 0), (b'{"segment":"5"}', 0)):
            self.write(base_path(self.journal), first)
            found = files_beside(locked) if not covered else files_of(self.journal)
            assert found
            self.assertEqual((found.segments, found.newest, found.covered), (3, 5, covered))
        self.assertIn("\nsegments: 3, of which the base covers 2, the newest is number 5, 70 B in all; base: none\n",
                      shown_status(TOLD, None, Files(3, 5, 70, None, 2)))

    def test_a_base_of_tomorrow_is_new(self) -> None:
        self.write(self.journal, FIRST)
        self.write(base_path(self.journal), b"12345", age=-86_400)
        self.assertEqual(files_of(self.journal).base, Base(5, 0))

    def test_files_that_go_meanwhile(self) -> None:
        """Between the listing of the folder and the look at each file."""
        self.write(self.journal, FIRST)
        self.write(segment_path(self.journal, 3), later(3))
        with mock.patch("mi_tools.journal_files.numbers_of", return_value=[1, 2, 3, 4]):
            self.assertEqual(files_of(self.journal), Files(2, 3, len(FIRST + later(3)), None))
            os.remove(self.journal)
            os.remove(segment_path(self.journal, 3))
            self.assertIsNone(files_of(self.journal))

    def test_files_that_cant_be_seen(self) -> None:
        locked = self.locked(self.write(self.journal, FIRST))
        self.assertIsNotNone(files_beside(locked))
        for name in ("numbers_of", "stat_of", "journal_of", "os.path.samefile"):
            with mock.patch(f"mi_tools.journal_files.{name}", side_effect=PermissionError):
                self.assertIsNone(files_beside(locked))
        for it in (None, f"/proc/{os.getpid()}/fd/none", f"{self.folder}/none", self.folder):
            self.assertIsNone(files_beside(it))

    def test_a_segment_without_its_name(self) -> None:
        """It was removed, or another file has taken its place."""
        locked = self.locked(self.write(self.journal, FIRST))
        os.rename(self.journal, f"{self.folder}/old")
        self.write(self.journal, FIRST)
        self.assertEqual(files_beside(locked), Files(1, 1, len(FIRST), None))
        os.remove(f"{self.folder}/old")
        self.assertIsNone(files_beside(locked))


class Shown(unittest.TestCase):
    def test_a_status(self) -> None:
        files = Files(2, 3, 1_048_700, Base(12_500, 183_845))
        self.assertEqual(shown_status(TOLD, 5_000, files).splitlines()[1:4], [
            "journal: 119 B, 119 B synced, 1.2 MB ahead, 5.0 kB free on its disk",
            "segments: 2, the newest is number 3, 1.0 MB in all; base: 12.5 kB, written 2 days, 3:04:05 ago", ""])
        self.assertIn("\nsegments: 1, the newest is number 1, 70 B in all; base: none\n", shown_status(TOLD, None, Files(1, 1, 70)))
        self.assertEqual(shown_status(TOLD, None, None).splitlines()[1:4],
                         ["journal: 119 B, 119 B synced, 1.2 MB ahead", "segments: the newest is number 3", ""])

    def test_a_status_of_a_former_service(self) -> None:
        former = {**TOLD, "journal": {"bytes": 119, "full": True, "synced": None}}
        self.assertEqual(shown_status(former, None, None).splitlines()[1:3], ["journal: 119 B; the disk is full: changes are refused", ""])

    def test_gauges(self) -> None:
        bare = Sample(0.0, [("a", 1)], 0, 0, "nobody", 1, Usage())
        self.assertNotRegex(prometheus(bare), "segment|files|base|room")
        text = prometheus(bare._replace(files=Files(2, 3, 4_000)))
        self.assertIn("# TYPE weltiyo_journal_segments gauge\nweltiyo_journal_segments 2\n", text)
        self.assertIn("# TYPE weltiyo_journal_files_bytes gauge\nweltiyo_journal_files_bytes 4000\n", text)
        self.assertNotIn("base", text)
        text = prometheus(bare._replace(ahead=1_196_016, segment=3))
        self.assertIn("# TYPE weltiyo_journal_room_bytes gauge\nweltiyo_journal_room_bytes 1196016\n", text)
        self.assertIn("# TYPE weltiyo_journal_segment gauge\nweltiyo_journal_segment 3\n", text)
        text = prometheus(bare._replace(files=Files(2, 3, 4_000, Base(0, 0))))
        self.assertIn("# TYPE weltiyo_base_bytes gauge\nweltiyo_base_bytes 0\n", text)
        self.assertIn("# TYPE weltiyo_base_age_seconds gauge\nweltiyo_base_age_seconds 0\n", text)


class Told(InAFolder):
    """What the tools write, of this process in the place of a service: it listens, and has a journal locked."""

    def setUp(self) -> None:
        super().setUp()
        server = socketserver.ThreadingTCPServer(("127.0.0.1", 0), Answering)
        self.addCleanup(server.server_close)
        threading.Thread(target=server.serve_forever, args=(0.01,)).start()
        self.addCleanup(server.shutdown)
        self.port = str(server.server_address[1])

    def said(self, *words: str) -> str:
        said = io.StringIO()
        with contextlib.redirect_stdout(said):
            self.assertEqual(cli.main([*words, "--connect", self.port]), 0)
        return said.getvalue()

    def test_files_that_are_seen(self) -> None:
        self.write(base_path(self.journal), b"12345", age=90_000)
        self.locked(self.write(segment_path(self.journal, 2), later(2) + b"\0" * 5_000))
        size = len(later(2)) + 5_000
        self.assertRegex(self.said("status"), "\nsegments: 1, the newest is number 2, 5.1 kB in all; base: 5 B, written 1 day, 1:0[0-9:]+ ago\n\n")
        figures = self.said("metrics")
        self.assertIn(f"\nweltiyo_journal_files_bytes {size}\n", figures)
        self.assertEqual([f"\nweltiyo_{it} " in figures for it in ("journal_segments", "base_bytes", "base_age_seconds")], [True] * 3)
        self.assertEqual(self.said("status", "--json"), f"{compact(TOLD)}\n")

    def test_files_that_are_not(self) -> None:
        self.assertEqual(self.said("status").splitlines()[1:4], ["journal: 119 B, 119 B synced, 1.2 MB ahead", "segments: the newest is number 3", ""])
        self.assertIn("\nweltiyo_journal_segment 3\n", self.said("metrics"))
        self.assertNotRegex(self.said("metrics"), "segments|files|base")
        self.assertEqual(self.said("status", "--json"), f"{compact(TOLD)}\n")


class OfAService(unittest.TestCase):
    def setUp(self) -> None:
        self.journal = f"{kit.folder(self)}/shop.journal"

    def started(self) -> Server:
        server = Server(service=SERVICE, journal=self.journal, wait=60)
        self.addCleanup(server.close)
        return server

    def rebase(self) -> None:
        subprocess.run([SERVICE, "--journal", self.journal, "--rebase"], check=True, timeout=60)

    def well(self, *words: str) -> str:
        ran = kit.ran(*words)
        self.assertEqual((ran.returncode, ran.stderr), (0, ""))
        return ran.stdout

    def test_before_and_behind_a_rebase(self) -> None:
        with self.started() as server, server.connect(60) as db:
            db.insert(ANN)
            self.assertEqual(files_beside(process.locked_file(server.process.pid)), Files(1, 1, os.path.getsize(self.journal)))
        self.rebase()
        with self.started() as server:
            found = files_beside(process.locked_file(server.process.pid))
            self.assertEqual(found._replace(base=None), Files(1, 2, os.path.getsize(segment_path(self.journal, 2))))
            self.assertEqual(found.base.size, os.path.getsize(base_path(self.journal)))
            self.assertLess(found.base.age, 600)

    @unittest.skipIf(SERVICE == STAND_IN, "the service isn't built: its stand-in tells no journal")
    def test_what_the_tools_write(self) -> None:
        self.started().close()
        self.rebase()
        with self.started() as server, server.connect(60) as db:
            port = str(server.port)
            self.assertRegex(self.well("metrics", "--connect", port), "\nweltiyo_journal_segments 1\n(?:#.*\n)*weltiyo_journal_files_bytes [1-9]")
            shown = self.well("status", "--connect", port)
            self.assertRegex(shown, "\nsegments: 1, the newest is number 2, [0-9.]+ [kM]?B in all; base: [0-9.]+ k?B, written 0:[0-9:]+ ago\n")
            told, own = json.loads(self.well("status", "--json", "--connect", port)), service_lines.status(db)
            self.assertEqual((list(told), told["journal"]), (list(own), own["journal"]))
            size = files_beside(process.locked_file(server.process.pid)).size
            self.assertEqual((own["journal"]["segment"], own["journal"]["room"]), (2, size - own["journal"]["bytes"]))

    def test_without_a_journal(self) -> None:
        with Server(service=SERVICE, wait=60) as server:
            self.assertNotIn("segments", self.well("status", "--connect", str(server.port), "--timeout", "50"))
            self.assertNotRegex(self.well("metrics", "--connect", str(server.port), "--timeout", "50"), "segments|files|base")


if __name__ == "__main__":
    unittest.main()
