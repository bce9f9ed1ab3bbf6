"""What counts as a sentence of a document or of a comment, and how many words it has."""
import contextlib
import io
import os
import sys
import tempfile
import unittest
import unittest.mock

TOP = os.path.dirname(os.path.dirname(os.path.dirname(os.path.realpath(__file__))))
sys.path.insert(0, f"{TOP}/scripts")

import check_sentences  # noqa: E402

LONG = "word " * 41


class Sentences(unittest.TestCase):
    def counts(self, text):
        """The words of each sentence of a document."""
        paragraphs = check_sentences.paragraphs_of(text.split("\n"))
        return [check_sentences.words_in(it) for paragraph in paragraphs for it in check_sentences.sentences_of(paragraph)]

    def test_what_ends_a_sentence(self):
        self.assertEqual(self.counts("One two. Three four five! `a b` six? (Seven.)"), [2, 3, 2, 1])
        self.assertEqual(self.counts("It takes 1.5 s, or `x.y. Z`, and so on .. Then"), [10])
        self.assertEqual(self.counts("One\ntwo.\n\nThree"), [2, 1])

    def test_items_of_a_list(self):
        self.assertEqual(self.counts("Here:\n\n- one two\n- three\n  four\n1. five"), [1, 2, 2, 1])

    def test_what_does_not_count(self):
        text = f"# {LONG}\n\n| {LONG} |\n\n```\n{LONG}\n```\n\n    {LONG}\n\nOne [two three](four.md#five), ![six](seven.svg)."
        self.assertEqual(self.counts(text), [4])

    def ran(self, name, text, *words):
        with tempfile.TemporaryDirectory() as folder:
            os.mkdir(f"{folder}/src")
            file = f"{folder}/src/{name}"
            with open(file, "w", encoding="utf-8") as it:
                it.write(text)
            said = io.StringIO()
            with contextlib.redirect_stdout(said), contextlib.redirect_stderr(io.StringIO()):
                status = check_sentences.main([*words, folder if words else file])
            return status, said.getvalue()

    def test_a_document_that_fails(self):
        self.assertEqual(self.ran("a.md", "word " * 21)[0], 1)
        self.assertEqual(self.ran("a.md", "word " * 20)[0], 0)
        status, said = self.ran("a.md", f"One. Two. Three. Four. {LONG.strip()}".replace("word", "Word", 1))
        self.assertEqual(status, 1)
        self.assertIn("\n  41: Word word", said)

    def test_comments(self):
        text = f"//! One two.\n// {LONG}\nfn a() {{}}\n    /// Three\n    /// four.\n/// ```\n/// {LONG}\n/// ```\nlet b = 1; // {LONG}\n"
        status, said = self.ran("a.rt", text, "--sources", "--all")
        self.assertEqual((status, said.partition(": ")[2].partition("\n")[0]), (0, "2 sentences, 2.0 words in the mean, 2 at most"))
        status, said = self.ran("a.antt", f"-- One two.\n-- Three.\npub mod a\n-- {LONG}\n", "--sources", "--all")
        self.assertEqual((status, said.partition(": ")[2].partition("\n")[0]), (0, "2 sentences, 1.5 words in the mean, 2 at most"))
        self.assertEqual(self.ran("a.rt", f"//! {LONG}\n", "--sources")[0], 1)

    def test_lines_of_names(self):
        text = f"-- One two.\n--     name, other      {LONG}\n--   third  {LONG}\n-- Three.\n"
        status, said = self.ran("a.antt", text, "--sources", "--all")
        self.assertEqual((status, said.partition(": ")[2].partition("\n")[0]), (0, "2 sentences, 1.5 words in the mean, 2 at most"))

    def test_mean_of_a_source_file(self):
        sentence = "//! Word" + " word" * 20 + ".\n"
        self.assertEqual(self.ran("a.rt", sentence * 4, "--sources")[0], 0)
        self.assertEqual(self.ran("a.rt", sentence * 5, "--sources")[0], 1)

    def test_nothing_to_read(self):
        self.assertEqual(self.ran("a.md", "# A head\n")[0], 2)


class Later(unittest.TestCase):
    """Source files that may fail yet: the list of them grows shorter alone."""

    def judged(self, sentence, listed):
        """The status for a file with this sentence, and what is said."""
        with tempfile.TemporaryDirectory() as folder:
            os.makedirs(f"{folder}/crates/mi_one/src")
            with open(f"{folder}/crates/mi_one/src/a.rt", "w", encoding="utf-8") as it:
                it.write(f"//! {sentence}\n")
            with open(f"{folder}/later.txt", "w", encoding="utf-8") as it:
                it.write(f"# A comment.\n{listed}\n")
            said = io.StringIO()
            changed = unittest.mock.patch.multiple(check_sentences, TOP=folder, LATER=f"{folder}/later.txt")
            with changed, contextlib.redirect_stdout(said):
                return check_sentences.main(["--sources"]), said.getvalue()

    def test_one_that_fails(self):
        self.assertEqual(self.judged(LONG, "crates/mi_one/src/a.rt")[0], 0)
        self.assertEqual(self.judged(LONG, "")[0], 1)

    def test_one_that_passes(self):
        status, said = self.judged("One.", "crates/mi_one/src/a.rt")
        self.assertEqual(status, 1)
        self.assertIn("take it out of later.txt", said)

    def test_one_that_is_not_there(self):
        status, said = self.judged("One.", "crates/mi_one/src/b.rt")
        self.assertEqual(status, 1)
        self.assertIn("crates/mi_one/src/b.rt: later.txt names it", said)


if __name__ == "__main__":
    unittest.main()
