#!/usr/bin/env python3
"""Whether files open with what they are: each source file with a head, each file of lemmas, laws or answers with what it proves, in words;
whether each file of lemmas or laws says who cites it; and whether `docs/DEFINITIONS.md` names each file of definitions.

    check_heads.py [FOLDER ..]
    check_heads.py --mend           writes who cites each file of lemmas or laws, as it is now

A source file of a crate (`crates/*/src/**/*.rt`) opens with `//!`. The files `crates/*/proofs/*.antt`, but for `Lib.antt`, and
`crates/*/proofs/**/Answers.antt` open with a line `-- ..`. The last line of the head of the former is `-- Cited by ..`: functions, lemmas and
definitions of its crate, five at most, and other crates, of which some may be left out. A file of definitions (`crates/*/specs/X.antt`, but for
those of tests) stands in the document as `X` in backquotes, by its crate, or as `crate/X`; and what stands there so is a file. Each that lacks
this is named on a line of its own; the
status is 1 then, else 0. Without folders all crates are looked at. Where a folder has no such file the status is 2."""
import os
import re
import sys

TOP = os.path.dirname(os.path.dirname(os.path.abspath(__file__)))
OPENS = {".rt": "//! ", ".antt": "-- "}
"""How a file of this ending opens."""
CODE = re.compile(r"`([^`]+)`")
NAME = re.compile(r"[A-Z]\w*$")
OF = re.compile(r"`(\w+)` of `(\w+)")
CITES = re.compile(r"(?:\bRattle\.(\w+)\.proofs\.|\bcrate::proofs::)(\w+)")
CITED = re.compile(r"-- (Cited by .*|Nobody cites it)\.$")
MOST_NAMED, LONGEST_LINE = 5, 140


def files_in(folder):
    """The source files of a crate, and its files of lemmas, laws and answers, in the order of their names."""
    for at, folders, names in os.walk(folder):
        folders.sort()
        folders[:] = [it for it in folders if it != "out"]
        for name in sorted(names):
            is_lemmas = at == os.path.join(folder, "proofs") and name.endswith(".antt") and name != "Lib.antt"
            if name.endswith(".rt") or name == "Answers.antt" or is_lemmas:
                yield os.path.join(at, name)


def lacks_head(file):
    with open(file, encoding="utf-8") as it:
        return not it.readline().startswith(OPENS[os.path.splitext(file)[1]])


def lemmas_in(crates):
    """The files of lemmas and laws of all crates, each by its crate and its name."""
    found = {}
    for crate in sorted(os.listdir(crates)):
        for file in files_in(f"{crates}/{crate}"):
            if os.path.dirname(file) == f"{crates}/{crate}/proofs":
                found[crate, os.path.basename(file)[:-5]] = file
    return found


def citer(crates, file):
    """The crate of a file, and how one that it cites names it: a function by its module or type, a file of lemmas or definitions by its own name."""
    crate, kind, *inside = os.path.relpath(file, crates).split(os.sep)
    name = os.path.splitext(inside[-1])[0]
    if kind == "src":
        return crate, "::".join([*inside[:-1], name])
    return crate, "::".join(inside[-3:-1]) if len(inside) > 1 else name


def citers(crates):
    """Who cites each file of lemmas or laws: a list of crates with names."""
    found = {it: set() for it in lemmas_in(crates)}
    for at, folders, names in os.walk(crates):
        folders[:] = sorted(it for it in folders if it not in ("out", "must-fail", "further-edits"))
        for name in sorted(names):
            file = os.path.join(at, name)
            if not name.endswith((".antt", ".rt")) or name == "Lib.antt":
                continue
            with open(file, encoding="utf-8") as it:
                text = it.read()
            own = os.path.relpath(file, crates).split(os.sep)[0]
            for crate, lemmas in {(it[0] or own, it[1]) for it in CITES.findall(text)}:
                if (crate, lemmas) in found and found_file(crates, crate, lemmas) != file:
                    found[crate, lemmas].add(citer(crates, file))
    return found


def found_file(crates, crate, lemmas):
    return os.path.join(crates, crate, "proofs", f"{lemmas}.antt")


def told_in(text, crate, citing):
    """Those of the citing that a file's head is to tell: all of its own crate, and those of the other crates that it names, one at least. A crate
    may be left out, since its name in the head has every crate above proved again."""
    line = next((it for it in text.split("\n") if CITED.match(it)), "")
    named = {(of, name) for of, name in citing if of == crate or f"`{of}`" in line}
    return named or citing


def cited_line(crate, citing):
    """The line of a head that says who cites it, with as many names as it has room for."""
    own = sorted({name for of, name in citing if of == crate}, key=lambda it: ("::" not in it, it))
    others = [f"`{it}`" for it in sorted({of for of, _ in citing} - {crate})]
    lines = [line_naming([f"`{it}`" for it in own[:most]], len(own) - most, others) for most in range(MOST_NAMED, 0, -1)]
    return next((it for it in lines if len(it) <= LONGEST_LINE), lines[-1])


def line_naming(names, more, others):
    """The line that names these, says how many more there are of the same crate, and names other crates."""
    parts = names + ([f"{more} more"] if more > 0 else []) + others
    if not parts:
        return "-- Nobody cites it."
    return "-- Cited by " + (", ".join(parts[:-1]) + " and " if parts[1:] else "") + parts[-1] + "."


def with_cited(text, line):
    """A file's text with this line at the end of its head."""
    lines = text.split("\n")
    end = next(n for n, it in enumerate(lines) if not it.startswith("--"))
    head = [it for it in lines[:end] if not CITED.match(it)]
    return "\n".join([*head, line, *lines[end:]])


def uncited(crates, mend):
    """The files whose heads don't say who cites them, as it is; they do then, with `mend`. And those that nobody cites."""
    wrong, unused = [], []
    for (crate, lemmas), citing in citers(crates).items():
        file = found_file(crates, crate, lemmas)
        with open(file, encoding="utf-8") as it:
            text = it.read()
        wanted = with_cited(text, cited_line(crate, told_in(text, crate, citing)))
        if not citing:
            unused.append(file)
        if wanted != text:
            wrong.append(file)
            if mend:
                with open(file, "w", encoding="utf-8") as it:
                    it.write(with_cited(text, cited_line(crate, citing)))
    return wrong, unused


def definitions_in(folder):
    """The files of definitions of a crate that isn't of tests alone, each as the crate and the name."""
    crate, specs = os.path.basename(os.path.abspath(folder)), os.path.join(folder, "specs")
    if crate.startswith("test_") or not os.path.isdir(specs):
        return []
    return [(crate, it[:-5]) for it in sorted(os.listdir(specs)) if it.endswith(".antt") and it != "Lib.antt"]


def named_in(text, crates):
    """Which files of definitions a text names, each as a crate and a name; and each name with the crates one of which is to have it.

    A row of a table names files of the crates in its first cell; where there are none, of those in the last line above that has some. In other
    lines a name is of the crates that were named last before it, or of the one behind `of`."""
    named, wanted, above = set(), [], []
    for line in text.split("\n"):
        is_row = line.startswith("|")
        words = CODE.findall(line.split("|")[1] if is_row else line)
        here = [it.partition("/")[0] for it in words if it.partition("/")[0] in crates]
        wanted += [(it, here or above if is_row else here) for it in words if NAME.match(it)]
        wanted += [(name, [crate]) for crate, _, name in (it.partition("/") for it in words) if crate in crates and NAME.match(name)]
        if is_row:
            named |= {(crate, it) for crate in here or above for it in words}
            continue
        before, follows = [], False
        for word in words:
            crate, _, rest = word.partition("/")
            if crate in crates:
                before = [*before, crate] if follows else [crate]
                named.add((crate, rest.rpartition("/")[2]))
            else:
                named |= {(it, word) for it in before}
            follows = crate in crates
        named |= {(crate, name) for name, crate in OF.findall(line)}
        above = here or above
    return named, wanted


def main(given):
    crates = f"{TOP}/crates"
    if given == ["--mend"]:
        wrong, unused = uncited(crates, True)
        print(f"{len(wrong)} files were mended" + "".join(f"\nnobody cites {os.path.relpath(it, TOP)}" for it in unused))
        return 0
    folders = given or [f"{crates}/{name}" for name in sorted(os.listdir(crates))]
    empty = [it for it in folders if not any(files_in(it))]
    for folder in empty:
        print(f"{folder}: no source file and no file of answers is there", file=sys.stderr)
    if empty:
        return 2
    missing = [file for folder in folders for file in files_in(folder) if lacks_head(file)]
    for file in missing:
        print(f"{os.path.relpath(file, TOP)}: it doesn't open with what it is")
    with open(f"{TOP}/docs/DEFINITIONS.md", encoding="utf-8") as it:
        text = it.read()
    named, wanted = named_in(text, set(os.listdir(crates)))
    unnamed = [it for folder in folders for it in definitions_in(folder) if it not in named]
    for crate, name in unnamed:
        print(f"crates/{crate}/specs/{name}.antt: docs/DEFINITIONS.md doesn't name it")
    absent = [(name, of) for name, of in wanted if of and not any(os.path.isfile(f"{crates}/{it}/specs/{name}.antt") for it in of)]
    for name, of in absent:
        print(f"docs/DEFINITIONS.md: names {name}, which isn't in the definitions of {', '.join(of)}")
    wrong, unused = ([], []) if given else uncited(crates, False)
    for file in wrong:
        print(f"{os.path.relpath(file, TOP)}: its head doesn't say who cites it; `check_heads.py --mend` writes it")
    for file in unused:
        print(f"{os.path.relpath(file, TOP)}: nobody cites it")
    return 1 if missing or unnamed or absent or wrong or unused else 0


if __name__ == "__main__":
    sys.exit(main(sys.argv[1:]))
