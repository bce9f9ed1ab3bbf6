#!/usr/bin/env python3
"""Asks the library by each of its bindings what the program is asked: the replies must be the same bytes.

    embedded.py [--program FILE] [--library FOLDER] [--lines N] [--seed N] [--memory]

Each binding (C with the archive, C++ with the shared object, Rust, Python) answers the lines of the examples and N random ones, as
`stress/fuzz.py` makes them, over the same schemas; then its own tests run. One whose compiler isn't there is skipped by its name. The text that
the library tells of its built-in schema is given to the program, which must answer alike. --memory runs the tests in C and the examples under
AddressSanitizer and valgrind besides, and refuses each request for memory in turn. The library is that of `make lib`;
where none is built this ends with status 0 and says so. The last line is 'N passed, M failed'."""
import argparse
import glob
import os
import shutil
import subprocess
import sys
import tempfile

from stress import fuzz
import library
import program

TOP = program.TOP
CLIENTS = f"{TOP}/clients"
LONGEST_RUN = 120
STRICT = ["-Wall", "-Wextra", "-Werror", "-pedantic"]
# What valgrind is to tell of: errors, and blocks that are left, reached or not.
VALGRIND = ["valgrind", "-q", "--error-exitcode=9", "--leak-check=full", "--show-leak-kinds=all", "--errors-for-leak-kinds=all"]
# The tests in C that print `ok`, and what valgrind watches of each: it takes fifty times as long.
C_TESTS = ("calls", "edges", "typed")
CPP_TESTS = ("sessions", "tables")
PYTHON_TESTS = ("test_embedded", "test_embedded_values", "test_embedded_cursors")
# The examples, which print what is stored beside them; one in C++ stands in docs/COMING_FROM.md too.
C_EXAMPLES, CPP_EXAMPLES, SHOWN = ("unwind", "ranges"), ("accounts", "container"), "container"
WATCHED_COMMANDS = {"calls": [], "edges": [], "typed": ["2000"]}
# Lines beside the examples' whose requests are refused: an index grows, rows are moved and shown, and sessions are undone over all of it.
REFUSED_ROWS = 40


class Differs(Exception):
    """What came isn't what was wanted."""


class Case:
    """Lines, and what the program answers to them."""

    def __init__(self, name, schema, lines, wanted):
        self.name, self.schema, self.lines, self.wanted = name, schema, lines, wanted


def answered(words, lines, env=None):
    """What a program writes that is given these lines."""
    ran = subprocess.run(words, input=lines, capture_output=True, timeout=LONGEST_RUN, env=env)
    if ran.returncode:
        raise Differs(f"{words[0]} ended with {ran.returncode}: {ran.stderr.decode(errors='replace')}")
    return ran.stdout


def example_cases():
    """The examples, with their stored replies."""
    for file in sorted(glob.glob(f"{TOP}/examples/*.txt")):
        schema = f"{file[:-4]}.toml"
        schema = schema if os.path.isfile(schema) else None
        with open(file, "rb") as lines, open(f"{file[:-4]}.out", "rb") as stored:
            yield Case(os.path.basename(file), schema, lines.read(), stored.read())


def random_cases(path, folder, seed, count):
    """Random lines over random schemas, and the program's replies."""
    for n in range(-(-count // fuzz.CASE_LINES)):
        made = fuzz.Lines(seed * 1_000_000 + n)
        schemas, first_revision = made.catalog()
        lines = b"".join(made.line(schemas) + b"\n" for _ in range(fuzz.CASE_LINES))
        schema = f"{folder}/{n}.toml"
        with open(schema, "w", encoding="utf-8") as file:
            file.write(fuzz.toml(schemas, first_revision))
        yield Case(f"seed {seed}, case {n}", schema, lines, answered([path, "--schema", schema], lines))


class Bindings:
    def __init__(self, folder, made):
        """`folder` takes what is compiled, `made` has the library."""
        self.folder, self.made = folder, made
        self.cc, self.cxx = os.environ.get("CC", "cc"), os.environ.get("CXX", "c++")
        self.passed, self.failed, self.skipped = 0, 0, []
        self.env = {
            **os.environ, "PYTHONPATH": f"{CLIENTS}/python", "WELTIYO_LIBRARY": f"{made}/libweltiyo.so",
            "WELTIYO_LIBRARY_DIR": made, "CARGO_TARGET_DIR": f"{folder}/cargo", "CARGO_NET_OFFLINE": "true",
        }

    def check(self, name, call, *args):
        try:
            call(*args)
            self.passed += 1
        except (Differs, OSError, subprocess.SubprocessError) as error:
            self.failed += 1
            print(f"{name}: {error}", flush=True)

    def has(self, name, *tools):
        """Whether the tools are there; else the part is skipped by its name."""
        lacking = [it for it in tools if not shutil.which(it)]
        if lacking:
            self.skipped.append(f"{name} needs {', '.join(lacking)}")
        return not lacking

    def run(self, words, cwd=None):
        ran = subprocess.run(words, cwd=cwd, env=self.env, capture_output=True, text=True, timeout=LONGEST_RUN)
        if ran.returncode:
            raise Differs(f"{' '.join(words[:3])} ended with {ran.returncode}: {ran.stdout}{ran.stderr}")
        return ran.stdout

    def compiled(self, source, *words, compiler=None):
        """A program of C, linked with the archive."""
        to = f"{self.folder}/{os.path.basename(source)[:-2]}{len(os.listdir(self.folder))}"
        self.run([compiler or self.cc, "-std=c99", *STRICT, "-O1", "-g", f"-I{self.made}", source, f"{self.made}/libweltiyo.a", "-o", to, *words])
        return to

    def compiled_cpp(self, source, *words, compiler=None):
        """A program of C++, linked with the shared object."""
        to = f"{self.folder}/{os.path.basename(source)[:-4]}_cpp{len(os.listdir(self.folder))}"
        self.run([compiler or self.cxx, "-std=c++17", *STRICT, "-O1", f"-I{self.made}", f"-I{CLIENTS}/cpp", source, f"-L{self.made}", "-lweltiyo", f"-Wl,-rpath,{self.made}", "-o", to, *words])
        return to

    def prints(self, wanted, *words):
        came = self.run(list(words))
        if came != wanted:
            raise Differs(f"it prints\n{came}")

    def compare(self, words, case):
        came = answered([*words, case.schema] if case.schema else words, case.lines, self.env)
        if came != case.wanted:
            raise Differs(fuzz.first_difference(case.wanted, came))

    def answers(self, name, words, cases):
        for case in cases:
            self.check(f"{name}, {case.name}", self.compare, words, case)

    # The bindings

    def c(self, cases):
        if not self.has("clients/c", self.cc):
            return
        to = self.compiled(f"{CLIENTS}/c/tests/answers.c")
        self.answers("clients/c", [to], cases)
        self.answers("clients/c, in parts", [to, "--parts"], cases[:5])
        for name in C_TESTS:
            self.check(f"clients/c/tests/{name}.c", self.prints, "ok\n", self.compiled(f"{CLIENTS}/c/tests/{name}.c"))
        for name in C_EXAMPLES:
            self.check(f"clients/c/{name}.c", self.prints, printed("c", name), self.compiled(f"{CLIENTS}/c/{name}.c", "-Wconversion"))

    def cpp(self, cases):
        if not self.has("clients/cpp", self.cxx):
            return
        self.answers("clients/cpp", [self.compiled_cpp(f"{CLIENTS}/cpp/tests/answers.cpp")], cases)
        for name in CPP_TESTS:
            self.check(f"clients/cpp/tests/{name}.cpp", self.prints, "ok\n", self.compiled_cpp(f"{CLIENTS}/cpp/tests/{name}.cpp"))
        for name in CPP_EXAMPLES:
            self.check(f"clients/cpp/{name}.cpp", self.side_by_side, name)

    def side_by_side(self, name):
        """A program that does what one of chainbase's does: it prints what is stored. The page shows one with what it prints."""
        wanted = printed("cpp", name)
        with open(f"{CLIENTS}/cpp/{name}.cpp", encoding="utf-8") as source:
            text = source.read()
        self.prints(wanted, self.compiled_cpp(f"{CLIENTS}/cpp/{name}.cpp", "-Wconversion"))
        if name != SHOWN:
            return
        with open(f"{TOP}/docs/COMING_FROM.md", encoding="utf-8") as file:
            page = file.read()
        if f"```cpp\n{text}```" not in page or f"```\n{wanted}```" not in page:
            raise Differs("docs/COMING_FROM.md has another program, or another output")

    def rust(self, cases):
        if not self.has("clients/rust", "cargo", "rustc"):
            return
        self.run(["cargo", "build", "--quiet", "--offline", "--example", "answers"], f"{CLIENTS}/rust")
        self.answers("clients/rust", [f"{self.folder}/cargo/debug/examples/answers"], cases)
        self.check("clients/rust, its tests", self.run, ["cargo", "test", "--quiet", "--offline"], f"{CLIENTS}/rust")

    def python(self, cases):
        self.answers("clients/python", [sys.executable, f"{CLIENTS}/python/tests/answers.py"], cases)
        words = [sys.executable, "-m", "unittest", *PYTHON_TESTS]
        self.check(f"{', '.join(PYTHON_TESTS)} of clients/python/tests", self.run, words, f"{CLIENTS}/python/tests")

    def schema_text(self, path):
        """The program answers the lines of the built-in table alike over the text that the library tells of it."""
        written = "import sys, mi_client; sys.stdout.write(mi_client.Embedded.open().schema_text())"
        schema = f"{self.folder}/built_in.toml"
        with open(schema, "w", encoding="utf-8") as file:
            file.write(self.run([sys.executable, "-c", written]))
        for case in example_cases():
            if not case.schema:
                self.check(f"the text of the built-in schema, {case.name}", self.compare, [path, "--schema", schema], case)

    # Memory

    def sanitized(self, cases):
        if not self.has("AddressSanitizer", "clang"):
            return
        words = ["-fsanitize=address,undefined", "-fno-sanitize-recover=all", "-fno-omit-frame-pointer"]
        for name in C_TESTS:
            to = self.compiled(f"{CLIENTS}/c/tests/{name}.c", *words, compiler="clang")
            self.check(f"{name}.c under AddressSanitizer", self.prints, "ok\n", to)
        to = self.compiled(f"{CLIENTS}/c/tests/answers.c", *words, compiler="clang")
        self.answers("answers.c under AddressSanitizer", [to], cases)
        for name in C_EXAMPLES:
            to = self.compiled(f"{CLIENTS}/c/{name}.c", *words, compiler="clang")
            self.check(f"clients/c/{name}.c under AddressSanitizer", self.prints, printed("c", name), to)
        if not self.has("AddressSanitizer of C++", "clang++"):
            return
        for name in CPP_EXAMPLES:
            to = self.compiled_cpp(f"{CLIENTS}/cpp/{name}.cpp", *words, compiler="clang++")
            self.check(f"clients/cpp/{name}.cpp under AddressSanitizer", self.prints, printed("cpp", name), to)
        for name in CPP_TESTS:
            to = self.compiled_cpp(f"{CLIENTS}/cpp/tests/{name}.cpp", *words, compiler="clang++")
            self.check(f"{name}.cpp under AddressSanitizer", self.prints, "ok\n", to)

    def watched(self, cases):
        if not self.has("valgrind", "valgrind", self.cc):
            return
        for name in C_TESTS:
            to = self.compiled(f"{CLIENTS}/c/tests/{name}.c")
            self.check(f"{name}.c under valgrind", self.prints, "ok\n", *VALGRIND, to, *WATCHED_COMMANDS[name])
        to = self.compiled(f"{CLIENTS}/c/tests/answers.c")
        self.answers("answers.c under valgrind", [*VALGRIND, to], cases)
        for name in C_EXAMPLES:
            self.check(f"clients/c/{name}.c under valgrind", self.prints, printed("c", name), *VALGRIND, self.compiled(f"{CLIENTS}/c/{name}.c"))
        if not self.has("valgrind of C++", self.cxx):
            return
        for name in CPP_EXAMPLES:
            to = self.compiled_cpp(f"{CLIENTS}/cpp/{name}.cpp")
            self.check(f"clients/cpp/{name}.cpp under valgrind", self.prints, printed("cpp", name), *VALGRIND, to)
        for name in CPP_TESTS:
            to = self.compiled_cpp(f"{CLIENTS}/cpp/tests/{name}.cpp")
            self.check(f"{name}.cpp under valgrind", self.prints, "ok\n", *VALGRIND, to)

    def refused(self):
        if not self.has("requests for memory refused", self.cc):
            return
        for name, lines in (("faults", refused_lines()), ("typed_faults", b"")):
            to = self.compiled(f"{CLIENTS}/c/tests/{name}.c", "-Wl,--wrap=malloc,--wrap=realloc")
            self.check(f"clients/c/tests/{name}.c", self.refuses, to, lines)

    @staticmethod
    def refuses(to, lines):
        print(f"  {answered([to], lines).decode()}", end="", flush=True)


def printed(language, name):
    """What is stored beside an example: what it prints."""
    with open(f"{CLIENTS}/{language}/{name}.out", encoding="utf-8") as file:
        return file.read()


def refused_lines():
    """Lines over the built-in table: rows, changes in sessions that are undone, squashed and committed, and look-ups."""
    lines = []
    for n in range(REFUSED_ROWS):
        lines.append(f'{{"cmd":"insert","row":{{"owner":"{"ab" * n}","balance":{n * 7919 % 101},"vip":{"true" if n % 3 else "false"}}}}}')
        if n % 10 == 3:
            lines.append('{"cmd":"start"}')
            lines.append(f'{{"cmd":"modify","id":{n // 2},"add":{{"balance":5}}}}')
            lines.append(f'{{"cmd":"replace","id":{n // 3},"row":{{"owner":"r{n}","balance":-1,"vip":true}}}}')
            lines.append('{"cmd":"erase_key","index":"by_vip","key":[false]}')
            lines.append('{"cmd":"start"}')
            lines.append('{"cmd":"relocate","index":"line","id":1}')
            lines.append(f'{{"cmd":"erase","id":{n}}}')
            lines += ['{"cmd":"squash"}', '{"cmd":"size"}', '{"cmd":"undo"}']
        if n % 10 == 7:
            lines += ['{"cmd":"start"}', f'{{"cmd":"erase","id":{n - 5}}}', '{"cmd":"commit","revision":1000}', '{"cmd":"revision"}']
    lines += ['{"cmd":"reserve","changes":500,"sessions":20}', '{"cmd":"range","index":"by_balance","limit":30}']
    lines += ['{"cmd":"start"}', '{"cmd":"start"}', '{"cmd":"erase","id":0}', '{"cmd":"undo_all"}', '{"cmd":"list","index":"line"}']
    return "".join(f"{it}\n" for it in lines).encode()


def options_of():
    parser = argparse.ArgumentParser(description=__doc__, formatter_class=argparse.RawDescriptionHelpFormatter)
    parser.add_argument("--program", metavar="FILE")
    parser.add_argument("--library", metavar="FOLDER")
    parser.add_argument("--lines", type=int, default=10_000, metavar="N")
    parser.add_argument("--seed", type=int, default=1, metavar="N")
    parser.add_argument("--memory", action="store_true")
    return parser.parse_args()


def main():
    options = options_of()
    made = os.path.abspath(options.library) if options.library else library.path()
    if not made:
        print("skipped: no library is built; `make lib` makes it")
        return 0
    path = os.path.abspath(options.program or program.program())
    print(f"the library of {os.path.relpath(made)}, beside {program.title(path)}", flush=True)
    with tempfile.TemporaryDirectory(prefix="embedded-") as folder:
        os.mkdir(f"{folder}/schemas")
        os.mkdir(f"{folder}/made")
        cases = [*example_cases(), *random_cases(path, f"{folder}/schemas", options.seed, options.lines)]
        parts = Bindings(f"{folder}/made", made)
        for part in (parts.c, parts.cpp, parts.rust, parts.python):
            part(cases)
        parts.schema_text(path)
        if options.memory:
            parts.sanitized(cases)
            parts.watched(cases[:5])
            parts.refused()
    for it in parts.skipped:
        print(f"skipped: {it}")
    print(f"{parts.passed} passed, {parts.failed} failed")
    return 1 if parts.failed else 0


if __name__ == "__main__":
    sys.exit(main())
