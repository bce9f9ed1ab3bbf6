#!/usr/bin/env python3
"""Whether prose is easy to read: how many words a sentence has, in the mean of each file and at most.

    check_sentences.py [--all] [FILE.md ..]
    check_sentences.py --sources [--all] [FOLDER ..]

The first form reads documents: those that are named, else README, CONTRIBUTING, SECURITY, CHANGELOG, `docs/*.md`, and the READMEs of the bench
and of the clients. Tables, code blocks and headings don't count. The second form reads the comments of source files: rustdoc (`//!` and
`///`) of `crates/*/src/**/*.rt`, and the lines `-- ..` that open an `.antt` file. There the lines of names with what they are, which are
indented, count as a table.

A file fails whose mean is above 20 words, or which has a sentence of more than 40. The mean of a source file counts from five sentences on.
Each that fails is named on a line of its own, and each sentence that is too long below it. --all names the files that pass, too. Of source
files those that `scripts/long_sentences.txt` names may fail; where one of them passes, it is to be taken out. The last line is 'N files pass,
M fail; ..'; the status is 1 where one fails, 2 where nothing was read.

A piece of code in backquotes is one word, and of a link the text counts. A sentence ends at `.`, `!` or `?` before white space and a
capital, a digit, a bracket or a piece of code; at the end of a paragraph; and at the end of an item of a list."""
import argparse
import glob
import os
import re
import sys

TOP = os.path.dirname(os.path.dirname(os.path.abspath(__file__)))
MEAN, LONGEST = 20, 40
FEWEST = 5
"""So many sentences of a source file have a mean that counts."""
LATER = f"{TOP}/scripts/long_sentences.txt"
FENCE = re.compile(r"^\s*(`{3,}|~{3,})")
ITEM = re.compile(r"^\s*(?:[-*+]|\d+\.)\s+")
CODE = re.compile(r"(`+)(?!`).+?(?<!`)\1(?!`)")
LINK = re.compile(r"!?\[((?:[^\[\]]|\[[^\]]*\])*)\]\([^)]*\)")
END = re.compile(r"(?<![.\s])[.!?][)\"'*_\u201d]*\s+(?=[(\"'*_\u201c]*[A-Z0-9\u2026])")
WORD = re.compile(r"\w")
TABLE = re.compile(r"--\s{3}")
"""A line of names with what they are, in the comment that opens an `.antt` file."""


def paragraphs_of(lines):
    """The paragraphs of a text in Markdown, each as one line: without headings, tables and code."""
    found, now, fence, blank = [], [], None, True

    def end():
        if now:
            found.append(" ".join(now))
            now.clear()

    for line in lines:
        fenced = FENCE.match(line)
        if fence:
            if fenced and line.strip().startswith(fence) and not line.strip().strip(fence[0]):
                fence = None
            continue
        if fenced:
            end()
            fence = fenced[1]
        elif not line.strip() or line.lstrip().startswith(("#", "|", "<!--")):
            end()
        elif blank and not now and line.startswith("    ") and not ITEM.match(line):
            pass
        else:
            item = ITEM.match(line)
            if item:
                end()
            now.append(line[item.end():].strip() if item else line.strip())
        blank = not line.strip() or blank and line.startswith("    ")
    end()
    return found


def sentences_of(paragraph):
    """The sentences of a paragraph, with `CODE` in the place of each piece of code."""
    text = LINK.sub(lambda it: it[1], CODE.sub("CODE", paragraph))
    return [it for it in (part.strip() for part in END.sub("\n", text).split("\n")) if WORD.search(it)]


def words_in(sentence):
    return sum(1 for it in sentence.split() if WORD.search(it))


def comments_of(file):
    """The lines of the prose of a source file: its rustdoc, or the comment that opens it."""
    with open(file, encoding="utf-8") as it:
        lines = it.read().split("\n")
    if file.endswith(".antt"):
        head = []
        for line in lines:
            if not line.startswith("--"):
                break
            head.append("" if TABLE.match(line) else line[2:].strip())
        return head
    found, before = [], None
    for line in lines:
        mark = re.match(r"\s*(//[/!])( ?)(.*)$", line)
        if not mark or mark[1] != before:
            found.append("")
        before = mark[1] if mark else None
        if mark:
            found.append(mark[3])
    return found


def documents():
    names = ["README.md", "CONTRIBUTING.md", "SECURITY.md", "CHANGELOG.md", "bench/README.md"]
    return [f"{TOP}/{it}" for it in names] + sorted(glob.glob(f"{TOP}/docs/*.md")) + sorted(glob.glob(f"{TOP}/clients/*/README.md"))


def sources(folders):
    for folder in folders or [f"{TOP}/crates"]:
        for at, inner, names in os.walk(folder):
            inner[:] = sorted(it for it in inner if it != "out")
            for name in sorted(names):
                if name.endswith(".antt") or name.endswith(".rt") and "src" in at.split(os.sep):
                    yield os.path.join(at, name)


def read(file):
    if not file.endswith(".md"):
        return comments_of(file)
    with open(file, encoding="utf-8") as it:
        return it.read().split("\n")


def counted(file):
    """Each sentence of a file, with its number of words."""
    return [(words_in(it), it) for paragraph in paragraphs_of(read(file)) for it in sentences_of(paragraph)]


def put_off():
    """The source files that may fail yet."""
    with open(LATER, encoding="utf-8") as it:
        return {line.strip() for line in it if line.strip() and not line.startswith("#")}


class Judged:
    """How many files pass and fail, of how many sentences, and how many of these are too long; `later` are files that may fail yet."""

    def __init__(self, later, names_all):
        self.later, self.names_all, self.seen = later, names_all, set()
        self.passed = self.failed = self.late = self.too_long = self.total = 0

    def file(self, file):
        found, name = counted(file), os.path.relpath(file, TOP)
        if not found:
            return
        mean, longest = sum(n for n, _ in found) / len(found), max(n for n, _ in found)
        well = longest <= LONGEST and (mean <= MEAN or not file.endswith(".md") and len(found) < FEWEST)
        self.total += len(found)
        self.too_long += sum(n > LONGEST for n, _ in found)
        if name in self.later:
            self.seen.add(name)
            self.listed(name, well)
            return
        self.passed, self.failed = self.passed + well, self.failed + (not well)
        if self.names_all or not well:
            print(f"{name}: {len(found)} sentences, {mean:.1f} words in the mean, {longest} at most")
        for n, it in found:
            if n > LONGEST:
                print(f"  {n}: {it[:160]}")

    def listed(self, name, well):
        """A file that may fail yet: it is to be taken out of the list where it doesn't."""
        self.late, self.failed = self.late + (not well), self.failed + well
        if well:
            print(f"{name}: it passes, so take it out of {os.path.relpath(LATER, TOP)}")

    def missing(self):
        """The files that may fail yet and weren't read."""
        for name in sorted(self.later - self.seen):
            self.failed += 1
            print(f"{name}: {os.path.relpath(LATER, TOP)} names it, and it has no sentence")


def main(given):
    parser = argparse.ArgumentParser(description=__doc__, formatter_class=argparse.RawDescriptionHelpFormatter)
    parser.add_argument("--sources", action="store_true")
    parser.add_argument("--all", action="store_true")
    parser.add_argument("files", nargs="*")
    options = parser.parse_args(given)
    judged = Judged(put_off() if options.sources else set(), options.all)
    for file in sources(options.files) if options.sources else options.files or documents():
        judged.file(file)
    if options.sources and not options.files:
        judged.missing()
    if not judged.total:
        print("no sentence was read", file=sys.stderr)
        return 2
    late = f", {judged.late} of {os.path.relpath(LATER, TOP)}" if judged.late else ""
    print(f"{judged.passed} files pass, {judged.failed} fail{late}; {judged.too_long} of {judged.total} sentences are longer than {LONGEST} words")
    return 1 if judged.failed else 0


if __name__ == "__main__":
    sys.exit(main(sys.argv[1:]))
