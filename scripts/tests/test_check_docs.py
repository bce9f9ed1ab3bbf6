"""What `check_docs.py` takes for tests that passed, and what it tells as skipped: on tests and a script that are made here."""
import os
import sys
import tempfile
import unittest
import unittest.mock

TOP = os.path.dirname(os.path.dirname(os.path.dirname(os.path.realpath(__file__))))
sys.path.insert(0, f"{TOP}/scripts")

import check_docs  # noqa: E402

TESTS = """
import unittest

class Some(unittest.TestCase):
    def test_one(self):
        '''It has a line of its own.'''
        self.assertEqual({0}, 1)

    @unittest.skip("it isn't there")
    def test_two(self):
        '''It has one too.'''

    @unittest.skip("it isn't there")
    def test_three(self):
        pass

    def test_four(self):
        self.skipTest("no place")
"""


class Told(unittest.TestCase):
    def setUp(self):
        folder = tempfile.TemporaryDirectory()
        self.addCleanup(folder.cleanup)
        self.folder = folder.name
        os.mkdir(f"{self.folder}/scripts")
        changed = unittest.mock.patch.object(check_docs, "TOP", self.folder)
        changed.start()
        self.addCleanup(changed.stop)
        self.documents = check_docs.Documents("/no/program", self.folder)

    def write(self, name, text):
        with open(f"{self.folder}/scripts/{name}", "w", encoding="utf-8") as file:
            file.write(text)

    def test_skips_are_told(self):
        self.write("test_some.py", TESTS.format(1))
        self.documents.tests(f"{self.folder}/scripts")
        self.assertEqual(sorted(self.documents.skipped), ["scripts, 1 of its tests: no place", "scripts, 2 of its tests: it isn't there"])

    def test_a_failure(self):
        self.write("test_some.py", TESTS.format(2))
        with self.assertRaisesRegex(check_docs.Differs, "AssertionError: 2 != 1"):
            self.documents.tests(f"{self.folder}/scripts")

    def test_no_tests_are_a_failure(self):
        with self.assertRaisesRegex(check_docs.Differs, "no test was run|Ran 0 tests|NO TESTS RAN"):
            self.documents.tests(f"{self.folder}/scripts")

    def test_parts_that_are_left_out_are_told(self):
        os.mkdir(f"{self.folder}/scripts/stress")
        self.write("stress/__main__.py", "print('one: all is well')\nprint('two: left out: it needs more')\n")
        self.documents.short("parts")
        self.assertEqual(self.documents.skipped, ["scripts/stress parts, two: left out: it needs more"])

    def test_sentences_of_documents_and_of_comments(self):
        for words in ([], ["--sources"]):
            self.write("check_sentences.py", f"import sys\nsys.exit(sys.argv[1:] == {words})\n")
            with self.assertRaises(check_docs.Differs, msg=words):
                self.documents.sentences()
        self.write("check_sentences.py", "")
        self.documents.sentences()

    def documented(self, text):
        """How many checks of a document passed and failed."""
        self.write("it.md", text)
        self.documents.document(f"{self.folder}/scripts/it.md")
        return self.documents.passed, self.documents.failed

    def test_fences_that_nothing_would_check(self):
        for fence in ("  ```", "~~~", "   ~~~"):
            self.documents.passed = self.documents.failed = 0
            self.assertEqual(self.documented(f"{fence}replies\n> x\ny\n{fence}\n"), (0, 1), fence)

    def test_links_to_headings(self):
        self.write("other.md", "# What `it` says, and doesn't\n")
        for link, counts in (("#one-two", (1, 0)), ("other.md#what-it-says-and-doesnt", (1, 0)), ("#one", (0, 1)), ("other.md#one-two", (0, 1))):
            self.documents.passed = self.documents.failed = 0
            self.assertEqual(self.documented(f"# One two\n\n[there]({link})\n"), counts, link)

    def test_an_output_of_what_is_not_run(self):
        self.assertEqual(self.documented("```bash\necho one\n```\n\n```output\ntwo\n```\n"), (1, 1))


if __name__ == "__main__":
    unittest.main()
