#!/usr/bin/env python3
"""Wrong bodies that the gate doesn't try each time.

    further_edits.py [NAME..]             tries the wrong bodies of these crates, of all if none is named, the gate's and the further ones
    further_edits.py --together [NAME..]  the same, several in one check: some times quicker, and what isn't clear then is tried alone
    further_edits.py --check              whether each further one still applies: each old text stands once in its file. It proves nothing

The gate tries the edits in `crates/NAME/must-fail`. What stands in `crates/NAME/further-edits` has the same form, turns what an edit of the
gate turns in another way or in a call that mirrors it, or a clause that a crate above is proved with, and is tried here. The further ones are
copied beside the others for the time of a run, under names that begin with `further-`.

A function is proved by the contracts of those that it calls, not by their bodies. So --together puts at most one edit of a function into a
check of a copy, and reads off which functions aren't proved for their own goals. Edits outside of functions, or of two, are tried alone.

Status 1 where one doesn't apply or was proved, 2 where a name is no crate's."""
import argparse
import glob
import os
import re
import shutil
import subprocess
import sys
import tempfile
import typing

import program

PART = re.compile(r"^(file|old|new): ?(.*)$")
# The head of a function, and that of what it stands in, as `rt fmt` writes them.
FUNCTION = re.compile(r"^( *)(?:pub(?:\(\w+\))? )?fn (\w+)")
IMPL = re.compile(r"^impl(?:<.*?>)? (?:(\w+)(?:<.*>)? for )?(\w+)")
# What a check says of a function, and the words by which that says nothing of its own goals.
VERDICT = re.compile(r"^fn (\S+): (proved$|not proved|no proof)(.*)")
OF_ANOTHER = re.compile(r"it calls|it waits for|which is not proved|is not checked")


class Edit(typing.NamedTuple):
    """An edit of a crate: its file, its pairs of old and new texts by source, and the one function that it is in, if it is in one."""

    path: str
    pairs: tuple
    function: typing.Optional[tuple]


def crates():
    """The crates that have further edits."""
    return sorted(os.path.basename(os.path.dirname(it)) for it in glob.glob(f"{program.TOP}/crates/*/further-edits"))


def edits(name, folder="further-edits"):
    return sorted(glob.glob(f"{program.TOP}/crates/{name}/{folder}/*.edit"))


def fault(name, path):
    """Why an edit doesn't apply to the crate's sources as they stand, or None. Pairs apply to what the earlier ones made."""
    texts, source, old, pairs = {}, None, None, 0
    with open(path, encoding="utf-8") as file:
        for line in file.read().splitlines():
            found = PART.match(line)
            if not found:
                return f"a line that is none of an edit: {line}"
            kind, said = found.groups()
            if kind == "file":
                source = f"{program.TOP}/crates/{name}/{said}"
                if not os.path.isfile(source):
                    return f"no file {said}"
                if source not in texts:
                    with open(source, encoding="utf-8") as read:
                        texts[source] = read.read()
            elif source is None:
                return "no file is named first"
            elif kind == "old":
                old = said
                if texts[source].count(old) != 1:
                    return f"stands {texts[source].count(old)} times: {old}"
            elif old is None:
                return "a new text without an old one"
            else:
                texts[source], old, pairs = texts[source].replace(old, said), None, pairs + 1
    if old is not None:
        return "an old text without a new one"
    return None if pairs else "no old and new text"


def check():
    """Whether there are some and all apply; prints those that don't."""
    found = [(path, fault(name, path)) for name in crates() for path in edits(name)]
    for path, why in found:
        if why:
            print(f"{os.path.relpath(path, program.TOP)}: {why}")
    return bool(found) and not any(why for _, why in found)


def function_of(text, at):
    """The function whose body has this place of a source, as the last words of its path in a check: its own name behind that of its type."""
    lines = text[:at].splitlines()
    inside = len(lines[-1]) - len(lines[-1].lstrip()) if lines else 0
    for number in range(len(lines) - 1, -1, -1):
        head = FUNCTION.match(lines[number])
        if head and len(head[1]) < inside:
            owner = next((IMPL.match(it) for it in reversed(lines[:number]) if IMPL.match(it) or it == "}"), None) if head[1] else None
            kind = f"{owner[2]}{owner[1] or ''}::" if owner else ""
            return number, f"{kind}{head[2]}"
        if lines[number] and not lines[number].startswith((" ", "}", ")", "where", "{")):
            return None
    return None


def read_edit(name, path):
    """An edit that applies."""
    pairs, source, old, places = [], None, None, set()
    with open(path, encoding="utf-8") as file:
        for kind, said in (PART.match(it).groups() for it in file.read().splitlines()):
            if kind == "file":
                source = said
            elif kind == "old":
                old = said
            else:
                pairs.append((source, old, said))
    for source, old, _ in pairs:
        with open(f"{program.TOP}/crates/{name}/{source}", encoding="utf-8") as file:
            text = file.read()
        # (a later pair may apply to what an earlier one made)
        place = function_of(text, text.find(old) + len(old)) if source.startswith("src/") and old in text else None
        places.add((source, *place) if place else None)
    return Edit(path, tuple(pairs), places.pop() if len(places) == 1 else None)


def batches(given):
    """Edits in as few lists as do, no two of which are of one function; and those that no list has."""
    alone, lists = [], []
    for it in given:
        if it.function is None:
            alone.append(it)
            continue
        free = next((one for one in lists if all(other.function != it.function for other in one)), None)
        if free is None:
            lists.append([it])
        else:
            free.append(it)
    return lists, alone


def verdicts(said):
    """What a check says of each function: whether it is proved, or None where that isn't its own doing."""
    found = {}
    for line in said.splitlines():
        it = VERDICT.match(line)
        if it:
            found[it[1]] = True if it[2] == "proved" else None if OF_ANOTHER.search(it[3]) else False
    return found


def verdict_of(name, edit, found):
    """Whether the edited function is proved, or None where that isn't known."""
    _, _, function = edit.function
    of = [told for path, told in found.items() if path.startswith(f"{name}::") and path.endswith(f"::{function}")]
    return of[0] if len(of) == 1 else None


def write_over(top, name, batch):
    """Writes the edits into a copy's sources, and gives those that stand there then."""
    texts, taken = {}, []
    for edit in batch:
        made = dict(texts)
        for source, old, new in edit.pairs:
            if source not in made:
                with open(f"{top}/crates/{name}/{source}", encoding="utf-8") as file:
                    made[source] = file.read()
            if made[source].count(old) != 1:
                break
            made[source] = made[source].replace(old, new)
        else:
            texts = made
            taken.append(edit)
    for source, text in texts.items():
        with open(f"{top}/crates/{name}/{source}", "w", encoding="utf-8") as file:
            file.write(text)
    return taken


def linked(one, other):
    """Copies what a check kept: what was proved by links, since a check replaces such a file and changes none."""
    try:
        if one.endswith(".oantt"):
            os.link(one, other)
            return other
    except OSError:
        pass
    return shutil.copy2(one, other)


def copy_of(top, room, name):
    """A copy of a tree's sources, with what its check of the crate kept."""
    for it in ("crates.txt", "HANDLES"):
        shutil.copy2(f"{top}/{it}", f"{room}/{it}")
    without = shutil.ignore_patterns("out", "must-fail", "further-edits")
    shutil.copytree(f"{top}/crates", f"{room}/crates", ignore=without)
    for it in os.listdir(f"{top}/crates"):
        if os.path.isdir(f"{top}/crates/{it}/out"):
            shutil.copytree(f"{top}/crates/{it}/out", f"{room}/crates/{it}/out", copy_function=linked, symlinks=True)
    return room


def checked(rt, top, name):
    how = {"stdin": subprocess.DEVNULL, "stdout": subprocess.PIPE, "stderr": subprocess.STDOUT, "text": True, "errors": "replace"}
    return subprocess.run([rt, "check"], cwd=f"{top}/crates/{name}", **how)


def judged(rt, seed, top, name, batch):
    """What a check of these edits together says of each: whether its function is proved, or None where that isn't known."""
    os.mkdir(top)
    taken = write_over(copy_of(seed, top, name), name, batch)
    found = verdicts(checked(rt, top, name).stdout)
    shutil.rmtree(top)
    return {it: verdict_of(name, it, found) if it in taken else None for it in batch}


def judged_in_rounds(rt, seed, room, name, given):
    """The edits whose functions are still proved, and those of which nothing is known. What isn't known for a callee's sake is tried
    again behind it, without it."""
    missed, number = [], 0
    lists, alone = batches(given)
    while lists:
        again = []
        for batch in lists:
            number += 1
            told = judged(rt, seed, f"{room}/{number}", name, batch)
            missed += [it for it in batch if told[it]]
            again += [it for it in batch if told[it] is None]
            print(f"{name}: {sum(it is False for it in told.values())} of {len(batch)} refused in check {number}", flush=True)
        if len(again) == sum(map(len, lists)):
            return missed, alone + again
        lists, _ = batches(again)
    return missed, alone


def tried_together(rt, name):
    """Tries a crate's edits, several in one check; whether each was refused."""
    given = [read_edit(name, it) for it in edits(name, "must-fail") + edits(name)]
    with tempfile.TemporaryDirectory(prefix="edits-") as room:
        os.mkdir(f"{room}/seed")
        seed = copy_of(program.TOP, f"{room}/seed", name)
        if checked(rt, seed, name).returncode:
            print(f"{name}: it isn't proved as it stands")
            return False
        missed, alone = judged_in_rounds(rt, seed, room, name, given)
        for it in missed:
            print(f"{os.path.relpath(it.path, program.TOP)}: NOT REFUSED: its function is still proved")
        print(f"{name}: {len(given)} edits, {len(alone)} of them to be tried alone", flush=True)
        return not missed and (not alone or tried_alone(rt, seed, name, alone))


def tried_alone(rt, top, name, given):
    """Tries edits by `rt must-fail` in a copy; whether each was refused."""
    os.mkdir(f"{top}/crates/{name}/must-fail")
    for it in given:
        further = "further-" if os.path.basename(os.path.dirname(it.path)) == "further-edits" else ""
        shutil.copyfile(it.path, f"{top}/crates/{name}/must-fail/{further}{os.path.basename(it.path)}")
    return subprocess.run([rt, "must-fail", name], cwd=top).returncode == 0


def tried(rt, name):
    """Tries a crate's edits, the gate's too; whether each was refused."""
    copies = []
    try:
        for path in edits(name):
            copy = f"{program.TOP}/crates/{name}/must-fail/further-{os.path.basename(path)}"
            copies.append(copy)
            os.makedirs(os.path.dirname(copy), exist_ok=True)
            shutil.copyfile(path, copy)
        return subprocess.run([rt, "must-fail", name], cwd=program.TOP).returncode == 0
    finally:
        for copy in copies:
            if os.path.exists(copy):
                os.remove(copy)
        folder = f"{program.TOP}/crates/{name}/must-fail"
        if os.path.isdir(folder) and not os.listdir(folder):
            os.rmdir(folder)


def main(given=None):
    parser = argparse.ArgumentParser()
    parser.add_argument("--check", action="store_true")
    parser.add_argument("--together", action="store_true")
    parser.add_argument("names", nargs="*", metavar="NAME")
    options = parser.parse_args(given)
    unknown = [it for it in options.names if not os.path.isdir(f"{program.TOP}/crates/{it}")]
    if unknown:
        parser.error(f"no crate of this name: {', '.join(unknown)}")
    if options.check:
        return 0 if check() else 1
    if not check():
        return 1
    rt = program.needed_toolchain()
    way = tried_together if options.together else tried
    return 0 if all([way(rt, it) for it in options.names or crates()]) else 1


if __name__ == "__main__":
    sys.exit(main())
