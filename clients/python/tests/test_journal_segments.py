"""Journals in segments, as the tools read them: a server is asked the lines of all. Headers and bases are written by `scripts/bases.py`, a second
reading of their formats; rows and lists are worked out by hand."""
import json
import os
import sys
import unittest
from typing import Any, Dict, List, Tuple

import kit
from kit import ANN, BOB, TOP
from test_service import SERVICE

from mi_tools.journals import Damaged, Gone, Lines

sys.path.insert(0, f"{TOP}/scripts")

import bases  # noqa: E402

HASH = "4a97872940a86388d00bd4dd133ac68c2bb50dead4fefa2fb1b161a892770f4b"
"""That of the built-in table, as `docs/OPERATING.md` has it."""
FIRST = b'{"journal":1,"revision":0,"schema":"' + HASH.encode() + b'"}\n'
START, UNDO = '{"cmd":"start"}', '{"cmd":"undo"}'
NOBODY = f"{TOP}/no/such/mi_service"


def insert(row: Dict[str, Any]) -> str:
    return json.dumps({"cmd": "insert", "row": row}, separators=(",", ":"))


CID = {**ANN, "owner": "cid"}
PARTS = ([insert(ANN), START], [insert(BOB), UNDO, insert(CID)], ['{"cmd":"erase","id":0}', insert(ANN)])
"""Behind the undo the next id is 1 again: cid has 1, and ann 2."""
ROWS = [{"id": 1, "row": CID, "table": "accounts"}, {"id": 2, "row": ANN, "table": "accounts"}]


class Journals(unittest.TestCase):
    def setUp(self) -> None:
        self.folder, self.temporary = kit.folder(self), kit.folder(self)
        self.journal, self.backup = f"{self.folder}/shop.journal", f"{self.folder}/backup.jsonl"
        self.write(self.backup, b"a backup\n")

    def path(self, number: int) -> str:
        return bases.segment_path(self.journal, number)

    def write(self, path: str, data: bytes) -> None:
        with open(path, "wb") as file:
            file.write(data)

    def read(self, path: str) -> bytes:
        with open(path, "rb") as file:
            return file.read()

    def split(self, *parts: List[str], torn: bytes = b"") -> None:
        """Segments of these lines, in the place of others."""
        for it in bases.numbers_of(self.journal):
            os.remove(self.path(it))
        text = FIRST
        for number, lines in enumerate(parts, 1):
            whole = text + "".join(f"{it}\n" for it in lines).encode()
            self.write(self.path(number), whole + (torn if number == len(parts) else b""))
            text = bases.segment_header(bases.sum_of(whole), number + 1, HASH)

    def based(self, covered: int = 0) -> None:
        """The base behind so many lines of segment 2: of ann alone, and of bob too, with the session open in front of both. It takes the place of the
        first segment."""
        rows: Dict[int, Tuple[object, ...]] = {0: ("ann", 50, False), **({1: ("bob", 7, True)} if covered else {})}
        image = bases.Image("accounts", len(rows), len(rows), rows, [list(rows), list(rows)[::-1], list(rows), list(rows)[::-1], list(rows)])
        header = self.read(self.path(2)).partition(b"\n")[0]
        self.write(bases.base_path(self.journal), bases.text_of(bases.Base(covered, 0, HASH, 2, bases.sum_of(header), [image])))
        os.remove(self.journal)

    def files(self) -> Dict[str, bytes]:
        return {it: self.read(f"{self.folder}/{it}") for it in sorted(os.listdir(self.folder)) if it.startswith("shop")}

    def ran(self, *words: str, **variables: str) -> Any:
        """What a tool does. The journal's files are as before, and nothing is left of a copy."""
        before = self.files()
        ran = kit.ran(*words, "--journal", self.journal, variables={"TMPDIR": self.temporary, "MI_SERVICE": SERVICE, **variables})
        self.assertEqual((self.files(), os.listdir(self.temporary)), (before, []), ran.stderr)
        return ran

    def dumped(self, *words: str, **variables: str) -> List[Any]:
        ran = self.ran("dump", *words, **variables)
        rows = [json.loads(it) for it in ran.stdout.splitlines()]
        self.assertEqual((ran.returncode, ran.stderr), (0, f"{len(rows)} rows written\n"))
        return rows

    def refused(self, said: str, *words: str, status: int = 1, **variables: str) -> None:
        """A dump that is refused so, and leaves the file that it was to write."""
        ran = self.ran("dump", self.backup, *words, **variables)
        self.assertEqual((ran.returncode, ran.stdout, ran.stderr), (status, "", f"weltiyo dump: {said}\n"))
        self.assertEqual(self.read(self.backup), b"a backup\n")


class Several(Journals):
    """Without a base: a server is asked the lines."""

    def test_all_segments(self) -> None:
        """No service is needed."""
        for end in (b"", b'{"cmd":"erase","id":1}', b'{"cmd":"er' + b"\0" * 70_000, b"\0" * 1_100_000):
            self.split(*PARTS, torn=end)
            self.assertEqual(self.dumped(MI_SERVICE=NOBODY), ROWS)
        self.split([*PARTS[0], *PARTS[1]], [], PARTS[2], [])
        self.assertEqual(self.dumped(), ROWS)
        self.assertIn("\n1,cid,50,false\n2,ann,50,false\n", self.ran("export", "--format", "csv").stdout.replace("\r", ""))
        self.assertIn('weltiyo_rows{table="accounts"} 2', self.ran("metrics").stdout)

    def test_what_is_held_at_the_end_is_undone(self) -> None:
        self.split(PARTS[0], PARTS[1][:1])
        self.assertEqual(self.dumped(), [{"id": 0, "row": ANN, "table": "accounts"}])

    def test_a_damaged_line_is_told_by_its_segment(self) -> None:
        for bad, why in (('{"cmd":"erase","id":7}', 'no line of a journal of this schema; the server answers {"error":"id","ok":false}'), ("", "an empty line"),
                         ('{"cmd":"size"}', 'no line of a journal of this schema; the server answers {"ok":true,"size":1}')):
            self.split(PARTS[0], [bad, *PARTS[1]], PARTS[2])
            self.refused(f"{self.path(2)}:2: {why}")
            self.split(PARTS[0], [], [*PARTS[1][:2], bad])
            self.refused(f"{self.path(3)}:4: {why}")
        self.split([*PARTS[0], insert(ANN)], PARTS[1])
        self.refused(f'{self.journal}:4: no line of a journal of this schema; the server answers {{"error":"unique","id":0,"index":"by_owner","ok":false}}')

    def test_a_segment_that_is_missing(self) -> None:
        self.split(*PARTS, [])
        kept = self.files()
        for missing in (1, 2, 3):
            os.remove(self.path(missing))
            self.refused(f"{self.path(missing)}: this segment is missing, and segment {missing + 1} is there")
            self.write(self.path(missing), kept[os.path.basename(self.path(missing))])
        self.assertEqual(self.dumped(), ROWS)

    def test_a_segment_of_another_journal(self) -> None:
        """Or one that was changed, though its lines could be done."""
        other = "no header that goes on with the segment before it: one of the two is another journal's, or was changed"
        self.split(*PARTS)
        third = self.read(self.path(3))
        self.split(PARTS[0], [insert(BOB), UNDO, insert({**CID, "balance": 51})], PARTS[2])
        self.write(self.path(3), third)
        self.refused(f"{self.path(3)}:1: {other}")
        self.split(*PARTS)
        self.write(self.path(3), self.read(self.path(2)))
        self.refused(f"{self.path(3)}:1: {other}")
        for old, new in ((HASH, "0" * 64), ('"revision":0', '"revision":5'), ('"segment":2', '"segment":3'), ('"journal":2', '"journal":1')):
            self.split(PARTS[0], [])
            self.write(self.path(2), self.read(self.path(2)).replace(old.encode(), new.encode()))
            self.refused(f"{self.path(2)}:1: {other}")
        self.write(self.path(2), b"\n")
        self.refused(f"{self.path(2)}:1: {other}")

    def test_a_torn_end_in_the_middle(self) -> None:
        for end in (b'{"cmd', b"\0" * 70):
            self.split(*PARTS)
            self.write(self.path(2), self.read(self.path(2)) + end)
            self.refused(f"{self.path(2)}: a torn line or room stands at its end, and a later segment is there")

    def test_a_newest_segment_of_which_a_front_is_there(self) -> None:
        self.split(*PARTS[:2], [])
        whole = self.read(self.path(3))
        for size in (0, 1, 100, len(whole) - 1, len(whole)):
            self.write(self.path(3), whole[:size])
            self.assertEqual([it["row"]["owner"] for it in self.dumped()], ["ann", "cid"])
        self.write(self.path(3), b'{"journal":3')
        self.refused(f"{self.path(3)}:1: no header that goes on with the segment before it: one of the two is another journal's, or was changed")

    def test_bytes_behind_zeros(self) -> None:
        self.split(*PARTS, torn=b"\0" * 5_000 + b'{"cmd":"undo"}\n' + b"\0" * 9)
        self.refused(f"{self.path(3)}:4: zeros, and 5015 bytes up to the last that is none, which a start of the service would cut off")

    def test_a_segment_that_is_begun_meanwhile(self) -> None:
        """What is read is a front: of the newest segment that was there the lines that it had when it was reached."""
        self.split(*PARTS[:2], torn=b"\0" * 200)
        lines = Lines(self.journal)
        came = iter(lines)
        first = next(came)
        self.split(PARTS[0], [*PARTS[1], "late"], PARTS[2])
        self.assertEqual([first, *came], [f"{it}\n".encode() for it in [*PARTS[0], *PARTS[1], "late"]])
        self.assertEqual([lines.place(it) for it in (0, 1, 2, 5)],
                         [f"{self.journal}:2", f"{self.journal}:3", f"{self.path(2)}:2", f"{self.path(2)}:5"])

    def test_a_rebase_meanwhile(self) -> None:
        """It takes segments away that weren't reached yet; or all, before the first was."""
        self.split(*PARTS)
        came = iter(Lines(self.journal))
        next(came)
        self.based()
        os.remove(self.path(2))
        with self.assertRaisesRegex(Gone, f"^{self.path(2)}: it was taken away while the journal was read, as by a rebase: read the journal again$"):
            list(came)
        with self.assertRaisesRegex(Gone, f"^{self.journal}.base: it came while the journal was read, as by a rebase"):
            Lines(self.journal)
        self.split(*PARTS)
        os.remove(bases.base_path(self.journal))
        lines = Lines(self.journal)
        self.based()
        with self.assertRaisesRegex(Gone, f"^{self.journal}: it was taken away"):
            list(lines)

    def test_none_of_its_files_is_one_to_write(self) -> None:
        self.split(*PARTS)
        for has_base in (False, True):
            if has_base:
                self.based()
            for it in (self.path(2), self.path(3), *([bases.base_path(self.journal)] if has_base else [])):
                ran = self.ran("dump", it)
                self.assertEqual(ran.returncode, 2)
                self.assertIn("the journal is read, and isn't the file to write", ran.stderr)

    def test_no_journal(self) -> None:
        for missing in (self.journal, f"{self.folder}/none/journal"):
            with self.assertRaises(FileNotFoundError):
                Lines(missing)
        self.split([], [])
        os.remove(self.journal)
        with self.assertRaisesRegex(Damaged, "shop.journal: this segment is missing, and segment 2 is there"):
            Lines(self.journal)


if __name__ == "__main__":
    unittest.main()
