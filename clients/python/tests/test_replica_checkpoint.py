"""Checkpoints of a ledger's members, and what a folder with others does."""
import os
import subprocess
import sys
import unittest

import kit

from mi_replica.checkpoint import TOOL, Damaged, Folder, batches, digest_of, header
from mi_replica.front import Front
from mi_replica.log import OtherLedger
from mi_replica.member import schema_hash

HEADER = header(0, schema_hash(None))
INSERT = b'{"cmd":"insert","row":{"owner":"%s","balance":1,"vip":false}}\n'


def front(number: int) -> Front:
    """Up to where a log of this test goes that has so many entries."""
    return Front(number, f"{number:016x}")


class Checkpoints(unittest.TestCase):
    def test_one_grows_by_entries_and_the_newest_is_kept(self) -> None:
        path = kit.folder(self)
        with open(f"{path}/led.new.torn", "w", encoding="utf-8"):
            pass
        folder = Folder(path, "led", "0a")
        self.assertEqual((folder.newest(), os.listdir(path)), (None, []))
        folder.write(front(2), HEADER, [(1, INSERT % b"a"), (2, INSERT % b"b")])
        with self.assertRaises(Damaged):
            folder.write(front(4), HEADER, [(4, INSERT % b"d")])
        # (an entry that is there already isn't put in again)
        made = folder.write(front(5), HEADER, [(2, INSERT % b"b"), (3, b'{"cmd":"start"}\n' + INSERT % b"c"), (4, b'{"cmd":"undo"}\n'), (5, INSERT % b"d")])
        self.assertEqual((folder.newest(), made.front, made.digest), (made, front(5), digest_of(made.path)))
        self.assertEqual(os.listdir(path), [f"led.0a.{5:020}.{5:016}.{made.digest}.journal"])
        found = [line for some in batches(made.path) for line in some]
        block = [] if os.path.isfile(TOOL) else [b'{"cmd":"start"}\n', INSERT % b"c", b'{"cmd":"undo"}\n']
        self.assertEqual(found, [INSERT % b"a", INSERT % b"b", *block, INSERT % b"d"])

    def test_none_is_made_of_one_that_was_changed(self) -> None:
        path = kit.folder(self)
        folder = Folder(path, "led", "0a")
        made = folder.write(front(2), HEADER, [(1, INSERT % b"a"), (2, INSERT % b"b")])
        made.check()
        for text in (HEADER + INSERT % b"a", HEADER + INSERT % b"b" + INSERT % b"a"):
            with open(made.path, "wb") as file:
                file.write(text)
            self.assertRaises(Damaged, made.check)
            with self.assertRaises(Damaged):
                folder.write(front(3), HEADER, [(3, INSERT % b"c")])
            self.assertEqual([f"{path}/{it}" for it in os.listdir(path)], [made.path])

    def test_one_of_another_digest_is_not_kept(self) -> None:
        path = kit.folder(self)
        folder = Folder(path, "led", "0a")
        for digest, is_kept in (("0" * 16, False), (digest_of(os.devnull), True)):
            with folder.new_file() as made:
                if is_kept:
                    folder.keep(made, front(1), digest)
                else:
                    self.assertRaises(ValueError, folder.keep, made, front(1), digest)
            self.assertEqual(len(os.listdir(path)), int(is_kept))

    def test_one_whose_place_anothers_took_stays_aside(self) -> None:
        path = kit.folder(self)
        folder = Folder(path, "led", "0a")
        for number in (1, 2):
            mine = folder.write(front(number), HEADER, [(at, INSERT % b"%d" % at) for at in (1, 2)])
            with folder.new_file() as made:
                taken = folder.keep(made, front(9), digest_of(os.devnull))
            self.assertEqual(sorted(os.listdir(path)), sorted(map(os.path.basename, (f"{mine.path}.replaced", taken.path))))
            self.assertEqual(folder.newest(), taken)
            os.unlink(taken.path)

    @unittest.skipUnless(os.path.isfile(TOOL), "needs scripts/journal.py")
    def test_one_is_a_journal(self) -> None:
        folder = Folder(kit.folder(self), "led", "0a")
        made = folder.write(front(1), HEADER, [(1, INSERT % b"a")])
        words = [sys.executable, TOOL, "check", made.path, "--replay", kit.program()]
        ran = subprocess.run(words, capture_output=True, text=True, timeout=60)
        self.assertEqual(ran.returncode, 0, ran.stderr)

    def test_damaged_ones_are_refused(self) -> None:
        for text in (b"", b"no header\n", HEADER + b"torn", HEADER + b"\n", HEADER + INSERT % b"a" + b"\r\n"):
            path = f"{kit.folder(self)}/it"
            with open(path, "wb") as file:
                file.write(text)
            self.assertRaises(ValueError, lambda path=path: list(batches(path)))

    def test_those_of_another_ledger_are_refused(self) -> None:
        path = kit.folder(self)
        made = Folder(path, "led", "0a").write(front(1), HEADER, [(1, INSERT % b"a")])
        for name, identity, is_well in (("led", "0a", True), ("led-2", "0b", True), ("led", "0b", False)):
            if is_well:
                self.assertEqual(Folder(path, name, identity).newest(), made if name == "led" else None)
            else:
                self.assertRaises(OtherLedger, Folder, path, name, identity)
        for name in (f"led.0a.{1:020}.journal", f"led.{1:020}.journal"):  # (without sums, and without any identity)
            os.rename(made.path, f"{path}/{name}")
            self.assertRaises(OtherLedger, Folder, path, "led", "0a")
            os.rename(f"{path}/{name}", made.path)

    def test_schemas_are_told_apart(self) -> None:
        one, other = kit.written(self, "a"), kit.written(self, "b")
        self.assertEqual(len({schema_hash(None), schema_hash(one), schema_hash(other)}), 3)


if __name__ == "__main__":
    unittest.main()
