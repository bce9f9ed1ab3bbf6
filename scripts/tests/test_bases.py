"""Bases and segments, made here from the reference's tables by the format: what is read of them, and which ones are damaged."""
import contextlib
import hashlib
import io
import os
import sys
import tempfile
import unittest

TOP = os.path.dirname(os.path.dirname(os.path.dirname(os.path.realpath(__file__))))
sys.path.insert(0, f"{TOP}/scripts")
sys.path.insert(0, f"{TOP}/scripts/tests")

import bases  # noqa: E402
import journal  # noqa: E402
from reference import Reference  # noqa: E402
from stress import fuzz  # noqa: E402
from test_journal import HASH, START, UNDO, first_line, insert, line  # noqa: E402

TYPES = [["text", "int", "flag"]]


def text_of_base(reference, number=1, segment=2, total="b" * 64, schema=HASH):
    """A base by hand: values of the definitions, one line after another."""
    lines = [bases.compact({"base": 1, "line": number, "revision": reference.revision, "schema": schema, "segment": segment, "sum": total})]
    for table in reference.tables:
        lines.append(bases.compact({"arrivals": table.arrivals, "next": table.next, "rows": len(table.rows), "table": table.schema.name}))
        lines += [bases.compact([id, *table.rows[id]]) for id in sorted(table.rows)]
        lines += [bases.compact(table.view(x)) for x in range(1, len(table.lists))]
    text = b"".join(it + b"\n" for it in lines)
    return text + bases.compact({"sha256": hashlib.sha256(text).hexdigest()}) + b"\n"


def asked(*lines):
    reference = Reference([fuzz.ACCOUNTS])
    for it in lines:
        reference.feed(1, it + b"\n")
    return reference


def accounts():
    """Ids with gaps, equals whose order isn't that of their ids, a moved row."""
    return asked(insert("a"), insert("b"), insert("c"), line("erase", id=1), line("replace", id=0, row={"owner": "a", "balance": 2, "vip": True}),
                 line("replace", id=0, row={"owner": "a", "balance": 1, "vip": False}), line("relocate", index="line", id=0, before=None), insert("ü"))


def later_header(previous, number, schema=HASH, revision=0):
    return bases.compact({"journal": 2, "previous": previous, "revision": revision, "schema": schema, "segment": number}) + b"\n"


class Bases(unittest.TestCase):
    def test_tables_are_read_as_they_were_written(self):
        reference = accounts()
        base = bases.read_base(text_of_base(reference), TYPES)
        self.assertTrue(bases.shows_same(base.tables[0], reference.tables[0]))
        self.assertEqual((base.line, base.segment, base.revision, base.sum), (1, 2, 0, "b" * 64))
        self.assertEqual(base.tables[0].lists[1], [2, 0, 3])
        self.assertFalse(bases.shows_same(base.tables[0], asked(insert("a")).tables[0]))

    def test_an_order_of_equals_counts(self):
        reference = accounts()
        image = bases.read_base(text_of_base(reference)).tables[0]
        # (the index by owner is hashed and unique: no order shows in it)
        for x, ids in list(enumerate(image.lists))[1:]:
            turned = image._replace(lists=[*image.lists[:x], ids[::-1], *image.lists[x + 1:]])
            self.assertFalse(bases.shows_same(turned, reference.tables[0]), x)

    def test_each_torn_base_is_told(self):
        text = text_of_base(accounts())
        for size in range(len(text)):
            with self.assertRaises(bases.BadBase):
                bases.read_base(text[:size])

    def test_each_changed_byte_is_told(self):
        text = text_of_base(accounts())
        for at in range(len(text)):
            with self.assertRaises(bases.BadBase):
                bases.read_base(text[:at] + bytes([text[at] ^ 1]) + text[at + 1:])

    def test_rows_fit_their_columns(self):
        with self.assertRaisesRegex(bases.BadBase, "line 3: a row that doesn't fit"):
            bases.read_base(text_of_base(accounts()), [["text", "text", "flag"]])


class Chains(unittest.TestCase):
    def setUp(self):
        folder = tempfile.TemporaryDirectory()
        self.addCleanup(folder.cleanup)
        self.folder = folder.name
        self.path = f"{self.folder}/shop.journal"

    def write(self, name, *parts):
        with open(f"{self.folder}/{name}", "wb") as file:
            file.write(b"".join(parts))
        return b"".join(parts)

    def three(self):
        """Three segments, and a base behind two lines of the second."""
        first = self.write("shop.journal", first_line(), insert("a") + b"\n", START + b"\n")
        second = self.write("shop.journal.000002", later_header(bases.sum_of(first), 2), UNDO + b"\n", insert("b") + b"\n", insert("c") + b"\n")
        third = self.write("shop.journal.000003", later_header(bases.sum_of(second), 3), START + b"\n", b'{"cmd":"un')
        reference = asked(insert("a"), START, UNDO, insert("b"))
        self.write("shop.journal.base", text_of_base(reference, 2, 2, bases.sum_of(second.split(b"\n")[0])))
        return first, second, third

    def ran(self, *words):
        said, errors = io.StringIO(), io.StringIO()
        with contextlib.redirect_stdout(said), contextlib.redirect_stderr(errors):
            status = journal.main(list(words))
        return status, said.getvalue(), errors.getvalue()

    def test_segments_are_read_behind_the_base(self):
        self.three()
        status, said, _ = self.ran("check", self.path)
        self.assertEqual(status, 0)
        self.assertIn("a base of 2 rows, segments 2 to 3, 2 lines,", said)
        self.assertIn("the last 10 bytes are torn", said)
        _, said, _ = self.ran("stat", self.path)
        self.assertIn("open at the end: 1, of them held 1", said)
        os.remove(self.path)
        self.assertEqual(self.ran("check", self.path)[0], 0, "the base has all of the first segment")

    def test_segments_that_the_base_covers_are_left_alone(self):
        """Whatever they have, and whichever of them are there; a copy is without them."""
        first, second, third = self.three()
        for name, data in (("shop.journal.000006", second), ("shop.journal.000007", third)):
            self.write(name, data)
        second = self.write("shop.journal.000006", later_header("a" * 64, 6), insert("b") + b"\n", insert("c") + b"\n")
        self.write("shop.journal.000007", later_header(bases.sum_of(second), 7), START + b"\n")
        self.write("shop.journal.base", text_of_base(asked(insert("a"), insert("b")), 1, 6, bases.sum_of(second.split(b"\n")[0])))
        os.remove(f"{self.path}.000002")
        status, said, _ = self.ran("check", self.path)
        self.assertEqual((status, said.count("a base of 2 rows, segments 6 to 7, 2 lines,")), (0, 1))
        self.assertIn("; the base has segments 1, 3 too, not looked at", said)
        os.remove(self.path)
        self.assertIn("; the base has segment 3 too, not looked at\n", self.ran("stat", self.path)[1])
        self.assertEqual(self.ran("copy", self.path, f"{self.folder}/copy")[0], 0)
        self.assertEqual(sorted(it for it in os.listdir(self.folder) if it.startswith("copy")), ["copy.000006", "copy.000007", "copy.base"])
        os.remove(f"{self.path}.000006")
        self.assertEqual(self.ran("check", self.path)[::2], (3, f"{self.path}: segment 6 is missing, and segment 7 is there\n"))

    def test_without_the_base_all_are_read(self):
        self.three()
        os.remove(f"{self.path}.base")
        self.assertIn("segments 1 to 3, 6 lines,", self.ran("check", self.path)[1])

    def test_a_missing_a_doubled_and_a_foreign_segment_are_told(self):
        first, second, third = self.three()
        os.remove(f"{self.path}.000002")
        self.assertEqual(self.ran("check", self.path)[::2], (3, f"{self.path}: segment 2 is missing, and segment 3 is there\n"))
        self.write("shop.journal.000002", third)
        self.assertEqual(self.ran("check", self.path)[0], 3)
        self.write("shop.journal.000002", second)
        self.write("shop.journal.000003", later_header("c" * 64, 3), START + b"\n")
        status, _, error = self.ran("check", self.path)
        self.assertEqual((status, error), (3, f"{self.path}.000003: line 1: the sum of another segment than the one before it\n"))
        self.write("shop.journal.000002", later_header(bases.sum_of(first), 2, schema="d" * 64), UNDO + b"\n")
        self.assertIn("the header of another journal than the base's", self.ran("check", self.path)[2])

    def test_a_damaged_line_names_its_segment(self):
        _, second, _ = self.three()
        changed = self.write("shop.journal.000002", second, b"{}\n")
        self.write("shop.journal.000003", later_header(bases.sum_of(changed), 3))
        self.assertEqual(self.ran("check", self.path)[::2], (3, f"{self.path}.000002: line 5: no command\n"))

    def test_a_torn_end_in_the_middle_is_damage(self):
        _, second, _ = self.three()
        self.write("shop.journal.000002", second, b'{"cmd"')
        status, _, error = self.ran("check", self.path)
        self.assertEqual((status, error), (3, f"{self.path}.000002: line 1: a torn end or room, and a later segment is there\n"))

    def test_a_torn_base_is_told(self):
        self.three()
        with open(f"{self.path}.base", "r+b") as file:
            file.truncate(os.path.getsize(f"{self.path}.base") - 3)
        status, _, error = self.ran("check", self.path)
        self.assertEqual(status, 3)
        self.assertTrue(error.startswith(f"{self.path}.base: line "), error)

    def test_a_copy_has_base_and_segments(self):
        self.three()
        self.assertEqual(self.ran("copy", self.path, f"{self.folder}/copy")[0], 0)
        self.assertEqual(sorted(it for it in os.listdir(self.folder) if it.startswith("copy")), ["copy.000002", "copy.000003", "copy.base"])
        self.assertEqual(self.ran("check", f"{self.folder}/copy")[0], 0)

    def test_compact_is_of_one_file(self):
        """Of others it says what makes them shorter, and makes nothing."""
        self.three()
        said = f"{self.path}: it has a base or later segments: mi_service --rebase makes it shorter\n"
        for gone in (None, "shop.journal.base", "shop.journal", "shop.journal.000002"):
            gone and os.remove(f"{self.folder}/{gone}")
            before = sorted(os.listdir(self.folder))
            self.assertEqual(self.ran("compact", self.path), (2, "", said))
            self.assertEqual(sorted(os.listdir(self.folder)), before)


if __name__ == "__main__":
    unittest.main()
