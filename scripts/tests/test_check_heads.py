"""Which files are to open with what they are, and which definitions are to be named: on crates that are made here."""
import contextlib
import io
import os
import sys
import tempfile
import unittest
import unittest.mock

TOP = os.path.dirname(os.path.dirname(os.path.dirname(os.path.realpath(__file__))))
sys.path.insert(0, f"{TOP}/scripts")

import check_heads  # noqa: E402

WELL = {
    "crates/mi_one/src/lib.rt": "//! What it is.\n",
    "crates/mi_one/proofs/OneLemmas.antt": "-- What it proves.\n-- Cited by `one`.\n",
    "crates/mi_one/proofs/Lib.antt": "pub mod OneLemmas\n",
    "crates/mi_one/proofs/one/Answers.antt": "-- What it proves.\nuse Rattle.mi_one.proofs.OneLemmas.{it}\n",
    "crates/mi_one/proofs/one/Invariants.antt": "'row = refl\n",
    "crates/mi_one/specs/Shape.antt": "-- What it defines.\n",
    "docs/DEFINITIONS.md": "## Words (`mi_one/specs`)\n\n| `Shape` | its shape |\n",
}


class Heads(unittest.TestCase):
    def said(self, **changed):
        """The status, and what is said, where these files have other texts."""
        with tempfile.TemporaryDirectory() as folder:
            for name, text in {**WELL, **changed}.items():
                os.makedirs(os.path.dirname(f"{folder}/{name}"), exist_ok=True)
                with open(f"{folder}/{name}", "w", encoding="utf-8") as file:
                    file.write(text)
            said = io.StringIO()
            with unittest.mock.patch.object(check_heads, "TOP", folder), contextlib.redirect_stdout(said):
                return check_heads.main([]), said.getvalue()

    def test_all_is_well(self):
        self.assertEqual(self.said(), (0, ""))

    def test_a_file_without_a_head(self):
        for name in ("crates/mi_one/src/lib.rt", "crates/mi_one/proofs/OneLemmas.antt", "crates/mi_one/proofs/one/Answers.antt"):
            status, said = self.said(**{name: "use it\n"})
            self.assertEqual((status, said.splitlines()[0]), (1, f"{name}: it doesn't open with what it is"))

    def test_who_cites_it(self):
        lemmas, more = "crates/mi_one/proofs/OneLemmas.antt", "crates/mi_one/proofs/two/Answers.antt"
        told = f"{lemmas}: its head doesn't say who cites it; `check_heads.py --mend` writes it\n"
        self.assertEqual(self.said(**{lemmas: "-- What it proves.\n"}), (1, told))
        self.assertEqual(self.said(**{more: "-- Two.\nuse Rattle.mi_one.proofs.OneLemmas.{it}\n"}), (1, told))
        status, said = self.said(**{"crates/mi_one/proofs/one/Answers.antt": "-- What it proves.\n"})
        self.assertEqual((status, said), (1, f"{told}{lemmas}: nobody cites it\n"))

    def test_crates_above(self):
        """A crate that cites it may be left out where something else is named, and one that doesn't may not be named."""
        lemmas, above = "crates/mi_one/proofs/OneLemmas.antt", "crates/mi_two/proofs/two/Answers.antt"
        cites = {above: "-- Two.\nuse Rattle.mi_one.proofs.OneLemmas.{it}\n"}
        self.assertEqual(self.said(**cites), (0, ""))
        self.assertEqual(self.said(**cites, **{lemmas: "-- What it proves.\n-- Cited by `one` and `mi_two`.\n"}), (0, ""))
        told = f"{lemmas}: its head doesn't say who cites it; `check_heads.py --mend` writes it\n"
        self.assertEqual(self.said(**cites, **{lemmas: "-- What it proves.\n-- Cited by `one` and `mi_three`.\n"}), (1, told))
        alone = {**cites, "crates/mi_one/proofs/one/Answers.antt": "-- What it proves.\n", lemmas: "-- What it proves.\n-- Nobody cites it.\n"}
        self.assertEqual(self.said(**alone), (1, told))

    def test_lines_of_who_cites(self):
        some = {("mi_one", "a::one"), ("mi_one", "TwoLemmas"), ("mi_two", "b::two")}
        self.assertEqual(check_heads.cited_line("mi_one", some), "-- Cited by `a::one`, `TwoLemmas` and `mi_two`.")
        many = {("mi_one", f"f{n}") for n in range(7)}
        self.assertEqual(check_heads.cited_line("mi_one", many), "-- Cited by `f0`, `f1`, `f2`, `f3`, `f4` and 2 more.")
        text = "-- What it proves,\n-- in words.\n-- Cited by `old`.\nuse it\n"
        self.assertEqual(check_heads.with_cited(text, "-- Cited by `new`."), text.replace("old", "new"))

    def test_definitions_that_are_not_named(self):
        status, said = self.said(**{"docs/DEFINITIONS.md": "## Words (`mi_one/specs`)\n"})
        self.assertEqual((status, said), (1, "crates/mi_one/specs/Shape.antt: docs/DEFINITIONS.md doesn't name it\n"))

    def test_a_name_of_no_file(self):
        status, said = self.said(**{"docs/DEFINITIONS.md": WELL["docs/DEFINITIONS.md"] + "| `Form` | its form |\n"})
        self.assertEqual((status, said), (1, "docs/DEFINITIONS.md: names Form, which isn't in the definitions of mi_one\n"))

    def test_names_behind_their_crate(self):
        self.assertEqual(self.said(**{"docs/DEFINITIONS.md": "- `mi_one/Shape`: its shape\n"}), (0, ""))
        status, said = self.said(**{"docs/DEFINITIONS.md": "- `mi_one/Shape`: its shape\n- `mi_one/Form`: its form\n"})
        self.assertEqual((status, said), (1, "docs/DEFINITIONS.md: names Form, which isn't in the definitions of mi_one\n"))


if __name__ == "__main__":
    unittest.main()
