"""Files that a dump or an export writes: the old one is there until the new one is whole, and a device or a pipe is written as it comes."""
import fcntl
import json
import os
import resource
import stat
import subprocess
import sys
import threading
import unittest
from typing import List

import kit
from kit import ANN

from mi_client.schema import BUILT_IN
from mi_tools.whole_files import replacing

HEADER = '{"journal":1,"revision":0,"schema":"4a97872940a86388d00bd4dd133ac68c2bb50dead4fefa2fb1b161a892770f4b"}'
COUNT = 40


class WholeFiles(unittest.TestCase):
    def setUp(self) -> None:
        self.folder = kit.folder(self)
        self.journal = f"{self.folder}/journal"
        rows = [{**ANN, "owner": f"{n:04}" + "x" * 500} for n in range(COUNT)]
        self.write(self.journal, "".join(f"{it}\n" for it in [HEADER, *(json.dumps({"cmd": "insert", "row": it}) for it in rows)]))
        self.want = "".join(
            json.dumps({"id": n, "row": dict(sorted(it.items())), "table": "accounts"}, separators=(",", ":")) + "\n" for n, it in enumerate(rows)
        )
        self.file, self.part = f"{self.folder}/rows.jsonl", f"{self.folder}/rows.jsonl.part"

    def write(self, path: str, text: str) -> None:
        with open(path, "w", encoding="utf-8") as file:
            file.write(text)

    def read(self, path: str) -> str:
        with open(path, encoding="utf-8") as file:
            return file.read()

    def ran(self, *words: str, most: int = -1) -> "subprocess.CompletedProcess[str]":
        """What the tool does where a file has no room beyond so many bytes."""
        whole = [sys.executable, "-m", "mi_client", *words, "--journal", self.journal]
        limit = (lambda: resource.setrlimit(resource.RLIMIT_FSIZE, (most, most))) if most >= 0 else None
        return subprocess.run(whole, capture_output=True, text=True, env=kit.environment(), timeout=60, preexec_fn=limit)

    def files(self) -> List[str]:
        return sorted(os.listdir(self.folder))

    def test_a_dump_that_breaks_off(self) -> None:
        """The old file stays, and what came is gone on with."""
        for old in (None, "an old one\n"):
            if old:
                self.write(self.file, old)
            ran = self.ran("dump", self.file, most=9_000)
            self.assertEqual(ran.returncode, 1)
            said = f"^weltiyo dump: .*File too large; {self.part} has the rows that came by then, and --resume goes on behind them\n$"
            self.assertRegex(ran.stderr, said)
            self.assertEqual((old, self.want[:9_000]), (self.read(self.file) if old else None, self.read(self.part)))
            ran = self.ran("dump", self.file, "--resume", most=15_000)
            self.assertEqual((ran.returncode, self.read(self.part)), (1, self.want[:15_000]))
            ran = self.ran("dump", self.file, "--resume")
            self.assertEqual((ran.returncode, self.read(self.file)), (0, self.want), ran.stderr)
            self.assertLess(int(ran.stderr.split()[0]), COUNT)
            self.assertEqual(self.files(), ["journal", "rows.jsonl"])

    def test_a_dump_that_is_killed(self) -> None:
        self.write(self.file, "an old one\n")
        words = [sys.executable, "-c", "import os, sys; from mi_tools import transfer, rowfiles; from mi_tools.cli import main\n"
                 "made, line = [], transfer.json_line\n"
                 "def dies(*it):\n    made.append(it)\n    if len(made) == 30: os.kill(os.getpid(), 9)\n    return line(*it)\n"
                 "transfer.json_line = dies\nmain(sys.argv[1:])", "dump", self.file, "--journal", self.journal]
        self.assertEqual(subprocess.run(words, capture_output=True, env=kit.environment(), timeout=60).returncode, -9)
        self.assertEqual(self.read(self.file), "an old one\n")
        self.assertTrue(self.want.startswith(self.read(self.part)) and self.read(self.part))
        self.assertEqual((self.ran("dump", self.file, "--resume").returncode, self.read(self.file)), (0, self.want))

    def test_an_export_that_breaks_off(self) -> None:
        """It isn't gone on with, so nothing of it stays."""
        for name in ("rows.csv", "rows.jsonl"):
            path = f"{self.folder}/{name}"
            self.write(path, "an old one\n")
            ran = self.ran("export", path, "--schema", kit.written(self, BUILT_IN), most=9_000)
            self.assertEqual((ran.returncode, self.read(path), os.path.exists(f"{path}.part")), (1, "an old one\n", False), ran.stderr)
            self.assertNotIn("resume", ran.stderr)

    def test_a_file_that_broke_off_without_a_part(self) -> None:
        """As one that a shell wrote: its rows are kept, and it is there until the new one is."""
        self.write(self.file, self.want[:10_000])
        ran = self.ran("dump", self.file, "--resume", most=12_000)
        self.assertEqual((ran.returncode, self.read(self.file)), (1, self.want[:10_000]))
        self.assertEqual((self.ran("dump", self.file, "--resume").returncode, self.read(self.file)), (0, self.want))

    def test_what_the_old_file_was(self) -> None:
        """Its mode stays, also while the new one is written, and so does a link to it."""
        link, far = f"{self.folder}/link", f"{kit.folder(self)}/far.jsonl"
        self.write(far, "an old one\n")
        os.symlink(os.path.relpath(far, self.folder), link)
        for mode in (0o640, 0o600, 0o4604):
            os.chmod(far, mode)
            self.assertEqual(self.ran("dump", link, most=9_000).returncode, 1)
            self.assertEqual([stat.S_IMODE(os.stat(it).st_mode) for it in (far, f"{far}.part")], [mode, mode])
            self.assertEqual(self.ran("dump", link).returncode, 0)
            self.assertEqual((stat.S_IMODE(os.stat(far).st_mode), os.path.islink(link), self.read(far)), (mode, True, self.want))
        os.unlink(far)
        self.assertEqual(self.ran("dump", link).returncode, 0)
        self.assertEqual((self.read(far), self.files()), (self.want, ["journal", "link"]))
        mask = os.umask(0)
        os.umask(mask)
        self.assertEqual(stat.S_IMODE(os.stat(far).st_mode), 0o666 & ~mask)

    def test_a_file_that_may_not_be_written(self) -> None:
        """Though its folder may. (To root every file may be written, so another user tries.)"""
        self.write(self.file, "an old one\n")
        os.chmod(self.file, 0o444)
        os.chmod(self.folder, 0o777)
        mine = os.geteuid()
        if mine == 0:
            os.seteuid(65_534)
        try:
            with self.assertRaises(PermissionError):
                with replacing(self.file):
                    pass
        finally:
            os.seteuid(mine)
        self.assertEqual((self.read(self.file), self.files()), ("an old one\n", ["journal", "rows.jsonl"]))

    def test_what_is_no_file(self) -> None:
        """A device, a pipe or the standard output is written as it is, and nothing is made beside it."""
        pipe, link = f"{self.folder}/pipe", f"{self.folder}/link"
        os.mkfifo(pipe)
        os.symlink("/dev/stdout", link)
        for name in ("/dev/stdout", "/dev/fd/1", "/proc/self/fd/1", link, "-"):
            ran = self.ran("dump", name)
            self.assertEqual((ran.returncode, ran.stdout), (0, self.want), ran.stderr)
        self.assertEqual(self.ran("dump", os.devnull).returncode, 0)
        self.assertTrue(stat.S_ISCHR(os.stat(os.devnull).st_mode))
        self.assertIn("No space left", self.ran("dump", "/dev/full").stderr)
        read: List[str] = []
        reader = threading.Thread(target=lambda: read.append(self.read(pipe)))
        reader.start()
        self.assertEqual(self.ran("dump", pipe).returncode, 0)
        reader.join()
        self.assertEqual((read, self.files()), ([self.want], ["journal", "link", "pipe"]))
        for folder in (self.folder, f"{self.folder}/"):
            self.assertIn("Is a directory", self.ran("dump", folder).stderr)
        os.symlink("round", f"{self.folder}/round")
        self.assertIn("symbolic links", self.ran("dump", f"{self.folder}/round").stderr)

    def test_two_at_once(self) -> None:
        with open(self.part, "w", encoding="ascii") as other:
            fcntl.flock(other, fcntl.LOCK_EX)
            ran = self.ran("dump", self.file)
            self.assertEqual((ran.returncode, ran.stderr), (1, f"weltiyo dump: {self.part} is being written by another run\n"))
        self.assertEqual((self.ran("dump", self.file).returncode, self.read(self.file)), (0, self.want))

    def test_a_part_that_is_a_link(self) -> None:
        """It isn't followed: somebody else may have made it."""
        other = f"{self.folder}/other"
        self.write(other, "of another\n")
        os.symlink(other, self.part)
        self.assertEqual((self.ran("dump", self.file).returncode, self.read(other), os.path.exists(self.file)), (1, "of another\n", False))

    def lines(self) -> str:
        return kit.written(self, "size\n", "lines.txt")

    def test_nobody_reads_on(self) -> None:
        """It ends as other programs do then, and says nothing."""
        csv = ["export", "--format", "csv", "--schema", kit.written(self, BUILT_IN)]
        source = ["--journal", self.journal]
        for words in (["dump", *source], [*csv, *source], ["export", *source], ["dump", "/dev/stdout", *source], ["top", "--every", "0.01", *source],
                      ["plot", "id", *source], ["--help"], ["dump", "--help"], ["--program", kit.program(), "--run", self.lines()]):
            reads, writes = os.pipe()
            os.close(reads)
            env = {**kit.environment(), "PYTHONUNBUFFERED": ""}
            ran = subprocess.run([sys.executable, "-m", "mi_client", *words], stdout=writes, stderr=subprocess.PIPE, text=True, env=env, timeout=60)
            os.close(writes)
            self.assertEqual((ran.returncode, ran.stderr), (141, ""), words)


if __name__ == "__main__":
    unittest.main()
