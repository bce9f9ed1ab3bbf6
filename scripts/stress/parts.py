"""Scripts of several parts, as `crash.py` and `crowd.py`: their options, and the run of one part or of all, each in a folder of its own."""
import argparse
import os
import shutil
import tempfile

import program
from stress import service


def parser_of(text, parts):
    """A parser of the options that such scripts share."""
    parser = argparse.ArgumentParser(description=text, formatter_class=argparse.RawDescriptionHelpFormatter)
    parser.add_argument("--part", choices=list(parts))
    parser.add_argument("--short", action="store_true")
    parser.add_argument("--seed", type=int, default=1)
    parser.add_argument("--program", metavar="FILE")
    return parser


def run(name, parts, options, faults):
    """Runs the part that is named, or all, and prints what each says. The first that ends by one of `faults` is the last, and its folder is
    left; the status is 1 then, else 0."""
    path = service.needed(options.program)
    home = f"{program.TOP}/out/{name}"
    os.makedirs(home, exist_ok=True)
    for part in [options.part] if options.part else parts:
        folder = tempfile.mkdtemp(dir=home, prefix=f"{part}-")
        try:
            print(f"{part}: {parts[part](path, options, folder)}", flush=True)
        except faults as why:
            print(f"{name}: {part}, seed {options.seed}: {why}\nwhat it left is below {os.path.relpath(folder)}", flush=True)
            return 1
        shutil.rmtree(folder)
    return 0
