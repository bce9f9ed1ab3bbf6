"""Reads a TOML document and keeps for each member and value the line that it stands on. The client reads schemas by it, and
the linter says where one is at fault; what a document means for the server is the server's own reading."""
from __future__ import annotations

import re
from typing import Any, List, NoReturn, Optional

from mi_client.utf8 import fault_of

BARE = re.compile(r"[A-Za-z0-9_-]+")
NUMBER = re.compile(r"[+-]?(0x[0-9A-Fa-f_]+|0o[0-7_]+|0b[01_]+|[0-9][0-9_]*)(?![0-9A-Za-z_.:+-])")
OTHER = re.compile(r"[0-9A-Za-z_.:+-]+(?: [0-9]{2}:[0-9A-Za-z_.:+-]+)?")
ESCAPES = {"b": "\b", "t": "\t", "n": "\n", "f": "\f", "r": "\r", '"': '"', "\\": "\\", "e": "\x1b"}


class Fault(Exception):
    """Why a text is no TOML document, and the line where that shows, from 1."""

    def __init__(self, line: int, why: str) -> None:
        super().__init__(why)
        self.line, self.why = line, why


class Node:
    """A value, its kind (table, array, text, number, boolean, other) and its line."""

    def __init__(self, kind: str, value: Any, line: int) -> None:
        self.kind, self.value, self.line = kind, value, line
        self.is_open = kind in ("table", "array")
        self.is_headed = False


class Reader:
    def __init__(self, text: str) -> None:
        self.text, self.at = text, 0

    def line(self) -> int:
        return self.text.count("\n", 0, self.at) + 1

    def fail(self, why: str) -> NoReturn:
        raise Fault(self.line(), why)

    def skip(self, newlines: bool = False) -> None:
        """Passes over blanks and comments, and over newlines where they mean nothing."""
        while self.at < len(self.text):
            it = self.text[self.at]
            if it in " \t" or newlines and it in "\r\n":
                self.at += 1
            elif it == "#":
                end = self.text.find("\n", self.at)
                self.at = len(self.text) if end < 0 else end
            else:
                return

    def takes(self, what: str) -> bool:
        if self.text.startswith(what, self.at):
            self.at += len(what)
            return True
        return False

    def end_of_line(self) -> None:
        self.skip()
        if self.at < len(self.text) and not (self.takes("\n") or self.takes("\r\n")):
            self.fail("something stands behind the end of the value or header")

    # Keys

    def part(self) -> str:
        if self.text.startswith(('"', "'"), self.at):
            return self.string()
        found = BARE.match(self.text, self.at)
        if not found:
            self.fail("a member's name was expected: letters, digits, `_` or `-`")
        self.at = found.end()
        return found[0]

    def path(self) -> List[str]:
        parts = [self.part()]
        self.skip()
        while self.takes("."):
            self.skip()
            parts.append(self.part())
            self.skip()
        return parts

    # Values

    def string(self) -> str:
        quote = self.text[self.at]
        if self.takes(quote * 3):
            self.takes("\n") or self.takes("\r\n")
            end = quote * 3
        else:
            self.at += 1
            end = quote
        out = []
        while not self.text.startswith(end, self.at):
            if self.at >= len(self.text) or len(end) == 1 and self.text[self.at] == "\n":
                self.fail("the text has no closing quotation mark")
            it = self.text[self.at]
            self.at += 1
            out.append(self.escape(len(end) == 3) if it == "\\" and quote == '"' else it)
        self.at += len(end)
        while len(end) == 3 and self.takes(quote):
            out.append(quote)
        return "".join(out)

    def escape(self, is_long: bool) -> str:
        it = self.text[self.at:self.at + 1]
        self.at += 1
        if it in ESCAPES:
            return ESCAPES[it]
        size = {"u": 4, "U": 8, "x": 2}.get(it)
        if size and re.fullmatch(r"[0-9A-Fa-f]+", self.text[self.at:self.at + size] or "!"):
            code = int(self.text[self.at:self.at + size], 16)
            self.at += size
            if code < 0x110000 and not 0xD800 <= code < 0xE000:
                return chr(code)
        if is_long and it.isspace():
            while self.text[self.at:self.at + 1].isspace():
                self.at += 1
            return ""
        self.fail("no such escape in a text")

    def value(self) -> Node:
        line = self.line()
        if self.text.startswith(('"', "'"), self.at):
            return Node("text", self.string(), line)
        if self.takes("["):
            return self.array(line)
        if self.takes("{"):
            return self.inline(line)
        for word, it in (("true", True), ("false", False)):
            if re.match(word + r"(?![\w.:+-])", self.text[self.at:]):
                self.at += len(word)
                return Node("boolean", it, line)
        found = NUMBER.match(self.text, self.at)
        if found:
            self.at = found.end()
            digits = found[0].replace("_", "")
            number = int(digits, 0) if re.match(r"[+-]?0[xob]", digits) else int(digits)
            if not -(2**63) <= number < 2**63:
                self.fail("the number doesn't fit 64 bits")
            return Node("number", number, line)
        found = OTHER.match(self.text, self.at)
        if not found or not re.match(r"[+-]?([0-9]|inf|nan)", found[0]):
            self.fail("a value was expected: a text in quotation marks, a number, true, false, [..] or {..}")
        self.at = found.end()
        return Node("other", found[0], line)

    def array(self, line: int) -> Node:
        items = []
        self.skip(newlines=True)
        while not self.takes("]"):
            items.append(self.value())
            self.skip(newlines=True)
            if not self.takes(",") and not self.text.startswith("]", self.at):
                self.fail("the array has no closing `]`, or lacks a comma")
            self.skip(newlines=True)
        made = Node("array", items, line)
        made.is_open = False
        return made

    def inline(self, line: int) -> Node:
        made = Node("table", {}, line)
        self.skip(newlines=True)
        while not self.takes("}"):
            self.member(made)
            self.skip(newlines=True)
            if not self.takes(",") and not self.text.startswith("}", self.at):
                self.fail("the inline table has no closing `}`, or lacks a comma")
            self.skip(newlines=True)
        close(made)
        return made

    def member(self, table: Node) -> None:
        """One `name = value`."""
        line, path = self.line(), self.path()
        self.skip()
        if not self.takes("="):
            self.fail(f"`{'.'.join(path)}` has no `=`")
        self.skip()
        value = self.value()
        for part in path[:-1]:
            table = table.value.setdefault(part, Node("table", {}, line))
            if table.kind != "table" or not table.is_open:
                raise Fault(line, f"`{part}` is no table that members can be added to")
        if path[-1] in table.value:
            raise Fault(line, f"`{path[-1]}` stands twice; the first is in line {table.value[path[-1]].line}")
        value.line = line if value.kind not in ("table", "array") else value.line
        table.value[path[-1]] = value

    # Documents

    def header(self, root: Node) -> Node:
        is_array = self.takes("[[")
        if not is_array:
            self.at += 1
        line = self.line()
        self.skip()
        path = self.path()
        if not self.takes("]]" if is_array else "]"):
            self.fail("the header has no closing bracket")
        table = root
        for part in path[:-1]:
            table = table.value.setdefault(part, Node("table", {}, line))
            if table.kind == "array" and table.is_open:
                table = table.value[-1]
            if table.kind != "table" or not table.is_open:
                raise Fault(line, f"`{part}` is no table that members can be added to")
        found: Optional[Node] = table.value.get(path[-1])
        if is_array:
            found = found or table.value.setdefault(path[-1], Node("array", [], line))
            if found.kind != "array" or not found.is_open:
                raise Fault(line, f"`{path[-1]}` is there already, in line {found.line}, and is no array of `[[{path[-1]}]]`")
            found.value.append(Node("table", {}, line))
            made: Node = found.value[-1]
            return made
        if found and (found.kind != "table" or found.is_headed or not found.is_open):
            raise Fault(line, f"`{path[-1]}` is there already, in line {found.line}")
        found = found or table.value.setdefault(path[-1], Node("table", {}, line))
        found.is_headed = True
        return found

    def document(self) -> Node:
        root = Node("table", {}, 1)
        table = root
        self.skip(newlines=True)
        while self.at < len(self.text):
            if self.text.startswith("[", self.at):
                table = self.header(root)
            else:
                self.member(table)
            self.end_of_line()
            self.skip(newlines=True)
        return root


def close(node: Node) -> None:
    """Nothing is added to an inline table once it stands."""
    node.is_open = False
    for it in node.value.values() if node.kind == "table" else node.value if node.kind == "array" else []:
        if it.kind in ("table", "array"):
            close(it)


def read(data: bytes) -> Node:
    """The document's table with lines. Raises Fault."""
    try:
        text = data.decode("utf-8")
    except UnicodeDecodeError as error:
        begin = data.rfind(b"\n", 0, error.start) + 1
        raise Fault(data.count(b"\n", 0, error.start) + 1, fault_of(data[begin:error.start + 1], error.start - begin)) from None
    reader = Reader(text[1:] if text.startswith("\ufeff") else text)
    for n, line in enumerate(reader.text.split("\n"), 1):
        line = line[:-1] if line.endswith("\r") else line
        if re.search(r"[\x00-\x08\x0b-\x1f\x7f]", line):
            raise Fault(n, "a control character")
    return reader.document()
