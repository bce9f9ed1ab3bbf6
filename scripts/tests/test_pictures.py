"""Pictures of the documents: what a text draws, and that each stored picture is what its text gives."""
import contextlib
import io
import os
import sys
import unittest
import xml.dom.minidom

TOP = os.path.dirname(os.path.dirname(os.path.dirname(os.path.realpath(__file__))))
sys.path.insert(0, f"{TOP}/scripts")

import pictures  # noqa: E402


class Pictures(unittest.TestCase):
    def drawn(self, *lines):
        """The elements behind the style sheet and the page, as names with their classes and texts."""
        made = xml.dom.minidom.parseString(pictures.picture("\n".join(["size 100 50", *lines])))
        found = [it for it in made.documentElement.childNodes if it.nodeType == it.ELEMENT_NODE][3:]
        return [(it.tagName, it.getAttribute("class"), it.firstChild.data if it.firstChild else "") for it in found]

    def test_a_box(self):
        self.assertEqual(
            self.drawn("box 0 0 80 40 soft | *a* | ~b~ | c \\| <d>"),
            [("rect", "soft", ""), ("text", "middle bold", "a"), ("text", "middle old cut", "b"), ("text", "middle", "c | <d>")],
        )

    def test_a_row(self):
        self.assertEqual([it[0] for it in self.drawn("row 0 0 80 20 strong | a | b")], ["rect", "text", "path", "text"])

    def test_an_arrow_ends_at_its_last_point(self):
        self.assertIn('<path d="M30 5 L22.0 9.0 L22.0 1.0z" class="head"/>', pictures.picture("size 100 50\narrow 0 5 30 5"))

    def test_what_is_no_line(self):
        for line in ("circle 1 2 3", "box 1 2 3 | a", "box 1 2 3 4", "text 1 2 | a | b", "arrow 1 2 3", "box 1 2 3 4 blue | a"):
            with self.assertRaisesRegex(pictures.Wrong, "line 2: "):
                pictures.picture(f"size 100 50\n{line}")

    def test_both_themes(self):
        made = pictures.picture("size 100 50")
        self.assertIn(f".page{{fill:{pictures.LIGHT['page']}}}", made)
        self.assertIn(f"@media (prefers-color-scheme:dark){{.page{{fill:{pictures.DARK['page']}}}", made)

    def test_the_stored_pictures(self):
        said = io.StringIO()
        with contextlib.redirect_stdout(said):
            self.assertEqual(pictures.main(["--check"]), 0, said.getvalue())


if __name__ == "__main__":
    unittest.main()
