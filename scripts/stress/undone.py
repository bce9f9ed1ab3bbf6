"""Whether undoing gives back what was there: start, anything, undo.

    stress undone [--seed N] [--cases N] [--program FILE]

A case is a random catalog with some lines before; then each look-up of every table; then one to five sessions with some sixty random lines among
them (changes, refused and damaged ones, further sessions that are squashed and undone); then as many undos as sessions are open more than before,
none of which may be refused; then the same look-ups, whose replies must be the same bytes: each record, each index from both ends, each key's
records and count, each rank, the id that an insert would get, the revision and the number of sessions. All replies are compared with those of
`reference.py` besides."""
import argparse
import itertools
import json
import os
import re
import shutil
import sys
import time

from stress import fuzz
import program
from reference import LAST, Reference

BEFORE = 60
WITHIN = 60
MOST_STARTS = 5
ENDS = re.compile(rb"undo|squash|commit|push")
"""What a line has that may end a session, or let go of it."""


def line(said):
    return json.dumps(said, separators=(",", ":")).encode()


class Case:
    """The lines of a case, made beside the reference, which says how many sessions are open."""

    def __init__(self, seed):
        self.made = fuzz.Lines(seed, 0.1)
        self.catalog = self.made.catalog()
        self.reference = Reference(*self.catalog)
        self.lines, self.want, self.questions = [], [], {}

    def ask(self, text):
        """A line, which has a reply if it isn't empty."""
        self.lines.append(text)
        self.want.append(self.reference.feed(1, text + b"\n"))

    def look_ups(self):
        """All look-ups; where their replies begin and end. (An insert that is taken back shows the next id.)"""
        at = sum(it != b"" for it in self.want)
        for schema in self.catalog[0]:
            for said in self.questions.setdefault(schema.name, [*looked_up(self.made, schema)]):
                self.ask(line({"table": schema.name, **said}))
            self.ask(b'{"cmd":"start"}')
            if json.loads(self.want[-1])["ok"]:
                self.ask(line({"cmd": "insert", "table": schema.name, "row": unlike(schema)}))
                self.ask(b'{"cmd":"undo"}')
        self.ask(b'{"cmd":"revision"}')
        return at, sum(it != b"" for it in self.want)

    def anything(self):
        """Sessions with random lines, and their undos. Answers where the undos' replies begin and end."""
        base = len(self.reference.old)
        for _ in range(self.made.random.randint(1, MOST_STARTS)):
            self.ask(b'{"cmd":"start"}')
            for _ in range(self.made.random.randint(0, WITHIN // 2)):
                self.within(base)
        at = sum(it != b"" for it in self.want)
        for _ in range(len(self.reference.old) - base):
            self.ask(b'{"cmd":"undo"}')
        return at, sum(it != b"" for it in self.want)

    def within(self, base):
        """A random line, unless no session is open (revisions are spent), or it would end one that was open before."""
        text, opened = self.made.line(self.catalog[0]), len(self.reference.old) - base
        if ENDS.search(text):
            text = self.made.random.choice([b'{"cmd":"undo"}', b'{"cmd":"squash"}'])
            opened -= 1
        if opened > 0:
            self.ask(text)


def unlike(schema):
    """A row that fits and that no other line has."""
    values = {"int": LAST - 77, "text": "of this look-up alone", "flag": True}
    return {name: values[kind] for name, kind in schema.columns}


def keys(made, schema, index):
    """The keys of an index that may be there, some of them."""
    if index.is_id:
        return [[n] for n in range(schema.first_id, min(schema.first_id + 5, LAST))]
    values = {"int": made.numbers, "text": made.texts, "flag": [False, True]}
    choices = [values[schema.columns[column][1]][:6] for column, _ in index.parts]
    return [list(it) for it in itertools.islice(itertools.product(*choices), 40)]


def looked_up(made, schema):
    """Each look-up of a table."""
    ids = [n for n in range(schema.first_id, schema.first_id + made.inserts[schema.name] + 2) if n <= LAST]
    yield {"cmd": "size"}
    yield from ({"cmd": "get", "id": n} for n in ids)
    for index in schema.indexes:
        of = {"index": index.name}
        if index.kind == "sequenced":
            yield {"cmd": "list", **of}
            continue
        for key in keys(made, schema, index):
            yield {"cmd": "find", **of, "key": key}
            yield {"cmd": "count", **of, "key": key}
            if index.kind in ("ranked", "id"):
                yield {"cmd": "lower_rank", **of, "key": key}
                yield {"cmd": "upper_rank", **of, "key": key}
        if index.kind != "hashed":
            yield {"cmd": "range", **of}
            yield {"cmd": "range", **of, "reverse": True}
        if index.kind in ("ranked", "id"):
            yield from ({"cmd": "rank", **of, "id": n} for n in ids)


def differs(path, case, before, undos, after):
    """How the replies to a case differ from what they should be, if they do."""
    whole = b"\n".join(case.lines) + b"\n"
    ran = fuzz.start(path, fuzz.FOLDER, case.catalog)
    got, said = ran.communicate(whole, timeout=300)
    if ran.returncode:
        return f"the program ended with status {ran.returncode}: {said.decode(errors='replace')}"
    want = b"".join(case.want)
    if got != want:
        return fuzz.first_difference(want, got)
    replies = got.split(b"\n")
    if replies[slice(*before)] != replies[slice(*after)]:
        pairs = zip(replies[slice(*before)], replies[slice(*after)])
        return "a look-up differs behind the undos:\n  before {}\n  after  {}".format(*next(it for it in pairs if it[0] != it[1]))
    if not all(b'"ok":true' in it for it in replies[slice(*undos)]):
        return "an undo is refused"
    return None


def main():
    parser = argparse.ArgumentParser()
    parser.add_argument("--seed", type=int, default=1)
    parser.add_argument("--cases", type=int, default=100)
    parser.add_argument("--program")
    options = parser.parse_args()
    path = options.program or program.program()
    os.makedirs(fuzz.FOLDER, exist_ok=True)
    began, lines, look_ups, undos = time.monotonic(), 0, 0, 0
    for n in range(options.cases):
        case = Case(f"{options.seed}/{n}")
        for _ in range(case.made.random.randint(0, BEFORE)):
            case.ask(case.made.line(case.catalog[0]))
        before = case.look_ups()
        undone = case.anything()
        after = case.look_ups()
        found = differs(path, case, before, undone, after)
        if found:
            with open(f"{fuzz.FOLDER}/lines.txt", "wb") as file:
                file.write(b"\n".join(case.lines))
            sys.exit(f"seed {options.seed}, case {n}: {found}\nthe case is in {os.path.relpath(fuzz.FOLDER)}: schema.toml, lines.txt")
        lines, look_ups, undos = lines + len(case.lines), look_ups + after[1] - after[0], undos + undone[1] - undone[0]
    shutil.rmtree(fuzz.FOLDER)
    seconds = time.monotonic() - began
    print(
        f"{options.cases} cases of seed {options.seed}, {lines} lines: {undos} undos, none of them refused, gave back what each of {look_ups} look-ups"
        f" had said ({program.title(path)}, {seconds:.0f} s)"
    )
