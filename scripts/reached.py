#!/usr/bin/env python3
"""What of the definitions random lines and the examples reach, by their second reading in Python.

    reached.py [--seed N] [--lines N] [--damaged SHARE]

`reference.py` reads the definitions a second time, a function for each, so a part of it that no line has run is a clause that no random
line was compared on. It is run on the lines of `examples/` and on those that `stress/fuzz.py` makes of the seed, by one connection and, each
third case, by three that are closed in the end; no program runs. A part is an instruction of Python's, so one side of an `and`, of an
`or` or of a choice within a line counts too. It prints how many were run, and each line of `reference.py` with a part that wasn't;
status 1 where there is one."""
import argparse
import dis
import glob
import sys
import types

import program

SILENT = (
    "RESUME", "RETURN_GENERATOR", "COPY_FREE_VARS", "MAKE_CELL", "CACHE", "NOP", "PRECALL", "EXTENDED_ARG", "POP_TOP", "PUSH_EXC_INFO", "RERAISE",
    "COPY", "POP_EXCEPT", "UNPACK_EX", "JUMP_FORWARD", "JUMP_BACKWARD", "CHECK_EXC_MATCH", "POP_JUMP_FORWARD_IF_FALSE_OR_NONE",
)
"""Instructions that say nothing by themselves: those that a function begins with, fillers, and what carries an error on."""
CONNECTIONS = 3


FILE = f"{program.TOP}/scripts/reference.py"


class Watch:
    """Notes which instructions of `reference.py` run, from its first on."""

    def __init__(self):
        self.ran = {}

    def enter(self, frame, _event, _arg):
        if frame.f_code.co_filename != FILE:
            return None
        frame.f_trace_lines, frame.f_trace_opcodes = False, True
        self.ran.setdefault(place_of(frame.f_code), set()).add(-1)
        return self.step

    def step(self, frame, event, _arg):
        if event == "opcode":
            self.ran[place_of(frame.f_code)].add(frame.f_lasti)
        return self.step

    def __enter__(self):
        sys.settrace(self.enter)
        return self

    def __exit__(self, *_):
        sys.settrace(None)


def place_of(code):
    return code.co_name, code.co_firstlineno, code.co_code


def functions(code):
    """The code of each function below this one; what a module or a class runs once, as it is read, is no part of a definition."""
    for it in code.co_consts:
        if isinstance(it, types.CodeType):
            if it.co_flags & 0x02:  # (a function has names of its own, and a class hasn't)
                yield it
            yield from functions(it)


def answer_examples(fuzz, reference):
    for file in sorted(glob.glob(f"{program.TOP}/examples/*.txt")):
        told = reference.Reference([fuzz.ACCOUNTS])
        with open(file, "rb") as lines:
            told.feed(0, lines.read())
        told.close(0)


def answer_case(reference, made, count, several):
    schemas, first_revision = made.catalog()
    told = reference.Reference(schemas, first_revision)
    for left in reversed(range(count)):
        # (what stands behind the last newline becomes a line where its connection is closed)
        told.feed(made.random.randrange(CONNECTIONS) if several else 0, made.line(schemas) + b"\n" * (left > 0))
    for connection in range(CONNECTIONS if several else 1):
        told.close(connection)


def missed(watch):
    """How many instructions there are, and for each line those that didn't run."""
    with open(FILE, encoding="utf-8") as file:
        text = file.read()
    total, left = 0, {}
    for code in functions(compile(text, FILE, "exec")):
        ran = watch.ran.get(place_of(code), set())
        for it in dis.get_instructions(code):
            if it.opname in SILENT:
                continue
            total += 1
            if it.offset not in ran:
                left.setdefault(it.positions.lineno or code.co_firstlineno, []).append(it)
    return total, left, text.splitlines()


def main():
    parser = argparse.ArgumentParser(description=__doc__, formatter_class=argparse.RawDescriptionHelpFormatter)
    parser.add_argument("--seed", type=int, default=1)
    parser.add_argument("--lines", type=int, default=2000)
    parser.add_argument("--damaged", type=float, default=0.07)
    options = parser.parse_args()
    if sys.version_info < (3, 11):
        sys.exit("reached.py: needs Python 3.11, whose instructions say where they stand")
    asked, case = 0, 0
    with Watch() as watch:
        import reference
        from stress import fuzz

        answer_examples(fuzz, reference)
        while asked < options.lines:
            count = min(fuzz.CASE_LINES, options.lines - asked)
            answer_case(reference, fuzz.Lines(f"{options.seed}/{case}", options.damaged), count, case % 3 == 0)
            asked, case = asked + count, case + 1
    total, left, lines = missed(watch)
    for number in sorted(left):
        print(f"reference.py:{number}: {len(left[number])} not run: {lines[number - 1].strip()}")
    ran = total - sum(map(len, left.values()))
    print(f"{asked} lines of seed {options.seed} and the examples: {ran} of {total} instructions of the second reading were run")
    return 1 if left else 0


if __name__ == "__main__":
    sys.exit(main())
