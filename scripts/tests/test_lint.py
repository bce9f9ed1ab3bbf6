"""The places of faults in schemas. That the first word is the program's is tried on documents with a line lost, doubled or changed."""
import os
import random
import subprocess
import sys
import tempfile
import unittest

TOP = os.path.dirname(os.path.dirname(os.path.dirname(os.path.realpath(__file__))))
sys.path.insert(0, f"{TOP}/scripts")

import program  # noqa: E402
import schema_lint  # noqa: E402
from schema_lint import toml_places  # noqa: E402

COLUMN = 'table = "t"\ncolumn = [{name = "a", type = "int"}]\n'

# A document, the word of its first fault, and the line.
FAULTS = [
    ("table =", "toml", 1),
    (COLUMN + "x = 'a\n", "toml", 3),
    (COLUMN + "table = 'u'\n", "toml", 3),
    ("", "shape", 1),
    ('table = "t"\n[[column]]\nname = "a"\ntype = "int"\nmax_rows = 5\n', "shape", 5),
    ("format = 3\n" + COLUMN, "shape", 1),
    ('table = "t"\ncolumn = [{name = "a"}]\n', "shape", 2),
    ('table = "T"\ncolumn = [{name = "a", type = "float"}]\n', "name", 1),
    ('table = "t"\ncolumn = [{name = "id", type = "float"}]\n', "name", 2),
    ('table = "t"\ncolumn = [\n  {name = "a", type = "int"},\n  {name = "a", type = "text"},\n]\n', "twice", 4),
    ('table = "t"\ncolumn = [{name = "a", type = "float"}]\n', "type", 2),
    (COLUMN + 'index = [{name = "i", kind = "btree", key = ["a"]}]\n', "kind", 3),
    (COLUMN + 'index = [{name = "i", kind = "hashed", key = ["-a"]}]\n', "key", 3),
    (COLUMN + '[[index]]\nname = "i"\nkind = "sequenced"\nkey = ["a"]\n', "key", 6),
    (COLUMN + '[[index]]\nname = "i"\nkind = "ordered"\nkey = ["b"]\n', "key", 6),
    (COLUMN + '[[index]]\nname = "i"\nkind = "ordered"\n', "key", 3),
    ('table = "t"\ncolumn = []\n', "limit", 2),
    ("max_rows = 0\n" + COLUMN, "number", 1),
    ("first_id = -1\n" + COLUMN, "number", 1),
    ('format = 2\n[[table]]\nname = "a"\ncolumn = [{name = "k", type = "int"}]\nfirst_revision = 1\n', "shape", 5),
    ("format = 2\ntable = []\n", "limit", 2),
]

# A document with one slip, and all that is said of it.
SLIPS = [
    ('table = "t"\ncolumns = [{name = "a", type = "int"}, {name = "b", type = "int"}]\n'
     'index = [{name = "i", kind = "ordered", key = ["a", "b"]}, {name = "j", kind = "ranked", key = ["-b"]}]\n',
     ["2: columns is unknown here; `column` is meant?"]),
    ('table = "t"\n[[column]]\nnane = "a"\ntype = "int"\n[[index]]\nname = "i"\nkind = "hashed"\nkey = ["a"]\n',
     ["3: column[1].nane is unknown here; `name` is meant?"]),
    ('table = "t"\n[[index]]\nname = "i"\nkind = "hashed"\nkey = ["a"]\n', ["1: column is missing"]),
    ('[[table]]\nname = "a"\ncolumn = [{name = "k", type = "int"}]\n',
     ["1: format is missing: a schema of several tables, `[[table]]`, has `format = 2` above the first of them"]),
    ('[[table]]\nname = "a"\nformat = 2\ncolumn = [{name = "k", type = "int"}]\n',
     ["1: format is missing: a schema of several tables, `[[table]]`, has `format = 2` above the first of them",
      "3: table[1].format is unknown here: below `[[..]]` it belongs to table[1], so move it above the first of these; known are name, column, index,"
      " first_id, first_arrival, max_rows"]),
    ("format = 2\n" + COLUMN,
     ["2: table is a text, and an array is wanted: a schema of one table has no `format = 2`, and one of several has `[[table]]` with a `name` for each"]),
    (COLUMN + '[[index]]\nname = "i"\nkind = "ordered"\n', ["3: index[1] (i).key is missing; an ordered index has one"]),
    (COLUMN + '[[index]]\nname = "i"\nkind = "ranked"\n', ["3: index[1] (i).key is missing; a ranked index has one"]),
]

CHANGES = [('"int"', '"float"'), ("unique = true", "unique = 1"), ('"ordered"', '"btree"'), ('"-', '"--'), ("=", ""), ('"', ""), ("1000", "-1"),
           ('"ranked"', '"sequenced"'), ('"ranked"', '"hashed"'), ('"by_', '"B_'), ('name = "', 'name = "x'), ("[[index]]", "[[column]]"),
           ("[[table.index]]", "[[index]]"), ("true", "tru"), ("]", ""), ("{", "["), ('"name"', '"owner"'), ("format = 2", "format = 1"), ('"stock"', '"id"')]


def word_of(path, text, folder):
    with open(f"{folder}/schema.toml", "w", encoding="utf-8") as file:
        file.write(text)
    ran = subprocess.run([path, "--check", "--schema", f"{folder}/schema.toml"], capture_output=True, text=True)
    return "ok" if ran.returncode == 0 else ran.stderr.strip().replace("schema: ", "", 1)


class Lint(unittest.TestCase):
    def setUp(self):
        self.path = os.environ.get("MI_SERVER") or program.program()
        self.folder = tempfile.mkdtemp()
        self.addCleanup(lambda: subprocess.run(["rm", "-r", self.folder]))

    def test_places(self):
        for text, word, line in FAULTS:
            found = schema_lint.places(text.encode())
            self.assertEqual((found[0][0], found[0][1]), (word, line), f"{text}\n{found}")
            self.assertEqual(word_of(self.path, text, self.folder), word, text)
        self.assertEqual(schema_lint.places(b"x" * 65_537)[0][0], "file")
        self.assertEqual(schema_lint.places(COLUMN.encode() + b"#\xff\n")[0][:2], ("toml", 3))

    def test_a_slip_is_said_once(self):
        for text, want in SLIPS:
            found = schema_lint.places(text.encode())
            said = [f"{line}: {member} {what}" for _, line, member, what in found]
            self.assertEqual(said, want, text)
            self.assertEqual(word_of(self.path, text, self.folder), found[0][0], text)

    def test_the_first_word_is_the_program_s(self):
        texts = []
        for name in ("accounts", "shop"):
            with open(f"{TOP}/examples/{name}.toml", encoding="utf-8") as file:
                texts.append(file.read())
        pick = random.Random(1)
        for _ in range(int(os.environ.get("LINT_CASES", "150"))):
            text = damaged(pick, pick.choice(texts))
            found = schema_lint.places(text.encode())
            self.assertEqual(found[0][0] if found else "ok", word_of(self.path, text, self.folder), text)

    def test_a_byte_that_is_no_utf8(self):
        said = "the byte 0xE9, number 6 of the line, isn't UTF-8"
        self.assertEqual(schema_lint.places(COLUMN.encode() + b"# caf\xe9\n"), [("toml", 3, "the document", said)])
        with open(f"{self.folder}/s.toml", "wb") as file:
            file.write(COLUMN.encode() + b"# caf\xe9\n")
        words = [sys.executable, f"{TOP}/scripts/schema_lint.py", "--program", self.path, f"{self.folder}/s.toml"]
        ran = subprocess.run(words, capture_output=True, text=True)
        self.assertEqual((ran.returncode, ran.stdout.splitlines()[1]), (3, f"{self.folder}/s.toml:3: the document: {said}"))

    def test_the_script_names_member_and_line(self):
        with open(f"{self.folder}/s.toml", "w", encoding="utf-8") as file:
            file.write(COLUMN + '\n[[index]]\nname = "by_a"\nkind = "btree"\nkey = ["b"]\n')
        words = [sys.executable, f"{TOP}/scripts/schema_lint.py", "--program", self.path, f"{self.folder}/s.toml", f"{TOP}/examples/shop.toml"]
        ran = subprocess.run(words, capture_output=True, text=True)
        self.assertEqual(ran.returncode, 3)
        self.assertIn("s.toml: schema: kind\n", ran.stdout)
        self.assertIn("s.toml:6: index[1] (by_a).kind: `btree` is no kind", ran.stdout)
        self.assertIn("shop.toml: ok\n", ran.stdout)


def damaged(pick, text):
    lines = text.split("\n")
    for _ in range(pick.randint(1, 2)):
        at = pick.randrange(len(lines))
        how = pick.randint(0, 4)
        if how == 0:
            del lines[at]
        elif how == 1:
            lines.insert(at, pick.choice(lines))
        else:
            old, new = pick.choice(CHANGES)
            fitting = [n for n, it in enumerate(lines) if old in it and not it.startswith("#")]
            if fitting:
                at = pick.choice(fitting)
                lines[at] = lines[at].replace(old, new, 1)
    return "\n".join(lines)


class Places(unittest.TestCase):
    """Documents that TOML has, each with its members."""

    def test_values(self):
        text = 'a = """x\ny"""\nb = [1, # one\n  0x1F, 1_000]\nc.d = true\n"e f" = {g = \'h\', i = 1979-05-27 07:32:00Z}\n[j]\nk = 1.5\n[[l.m]]\nn = -1\n'
        root = toml_places.read(text.encode()).value
        self.assertEqual(root["a"].value, "x\ny")
        self.assertEqual([(it.value, it.line) for it in root["b"].value], [(1, 3), (31, 4), (1000, 4)])
        self.assertEqual(root["c"].value["d"].value, True)
        self.assertEqual((root["e f"].value["g"].value, root["e f"].value["i"].kind), ("h", "other"))
        self.assertEqual((root["j"].value["k"].kind, root["l"].value["m"].value[0].value["n"].line), ("other", 10))

    def test_faults(self):
        for text, line in [
            ("a = 1\na = 2\n", 2), ("a = 1 b = 2\n", 1), ("\n[a\n", 2), ("a = [1\n2]\n", 2), ("a.b = 1\na = 2\n", 2), ("a = 99999999999999999999\n", 1),
        ]:
            with self.assertRaises(toml_places.Fault) as caught:
                toml_places.read(text.encode())
            self.assertEqual(caught.exception.line, line, text)


class Programs(unittest.TestCase):
    def test_one_that_checks_nothing(self):
        for program_ in ("/bin/true", "/bin/false", TOP, "/no/such"):
            words = [sys.executable, f"{TOP}/scripts/schema_lint.py", "--program", program_, f"{TOP}/examples/shop.toml"]
            ran = subprocess.run(words, capture_output=True, text=True)
            self.assertEqual((ran.returncode, ran.stdout, len(ran.stderr.splitlines())), (2, "", 1), program_)


if __name__ == "__main__":
    unittest.main()
