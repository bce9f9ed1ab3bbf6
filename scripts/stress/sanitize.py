"""Runs the tests of the pool of nodes under AddressSanitizer, and with each of the first requests for memory refused.

    stress sanitize [--short] [--refuse N]

The tests of `test_storage` are compiled without any proof, once: `rt try` builds such a program with AddressSanitizer, which stops at
an access outside of a block, to a block that was freed, and at a block that is freed twice. Each test of the pool is run by
itself with LeakSanitizer too, which tells of blocks that nobody freed. Then each test that expects a refusal is run with
its request 1, 2, .. N for memory refused (all that it makes, or N of them), by `refuse_memory.c`, under the same two. --short leaves out
the tests of SLOW, which make a hundred chunks. The last line says how it ran; the exit status is 0 where all was well.
It is a second look at the functions of `mi_node` that hold raw pointers, which are proved by hand. It needs `rt` and a C compiler."""
import argparse
import os
import re
import subprocess
import tempfile
import time

import program
from stress.fault_runs import compiled_library

FOLDER = f"{program.TOP}/crates/test_storage"
POOLS = ("tests::pool::", "tests::growth::", "tests::ids::")
REFUSED = (
    "tests::pool::a_refused_take_gives_the_value_back",
    "tests::growth::a_refused_growth_changes_nothing",
    "tests::ids::refused_room_leaves_the_ids",
)
SLOW = ("tests::growth::a_hundred_chunks_are_freed",)
# Each test in a process of its own, which ends with this status where something is found.
FOUND = 23
OPTIONS = f"detect_leaks=1:halt_on_error=1:exitcode={FOUND}"


def compile_tests(folder):
    """The tests as a program, which is there only while `rt try` runs it: so it is copied then, and `rt` is ended. Answers its file."""
    words = [program.needed_toolchain(), "try", "--test", "--seconds", "600"]
    made = f"{folder}/tests"
    with open(f"{folder}/log", "w+", encoding="utf-8", errors="replace") as log:
        how = {"cwd": FOLDER, "stdin": subprocess.DEVNULL, "stdout": log, "stderr": log}
        ran, is_copied = subprocess.Popen(words, env={**os.environ, "TMPDIR": folder}, **how), False
        while ran.poll() is None and not is_copied:
            time.sleep(0.05)
            is_copied = program.copy_once_it_lists(folder, made)
        ran.terminate()
        ran.wait()
        log.seek(0)
        if not is_copied:
            program.stop("`rt try --test` gave no program: " + log.read()[-2000:])
    return made


def listed(tests):
    """The names of the tests of the pool, and of the map that lies beside it."""
    names = re.findall(r"^(\S+): test$", subprocess.run([tests, "--list"], capture_output=True, text=True).stdout, re.M)
    return [it for it in names if it.startswith(POOLS)]


def run(tests, name, env=()):
    """Runs one test. Answers what is wrong, or None."""
    ran = subprocess.run([tests, name], env={**os.environ, "ASAN_OPTIONS": OPTIONS, **dict(env)}, capture_output=True, text=True, errors="replace")
    if ran.returncode == 0 and "test result: ok" in ran.stdout + ran.stderr:
        return None
    return f"status {ran.returncode}\n{(ran.stdout + ran.stderr)[-2000:]}"


def refuse(tests, name, number, log):
    """Runs one test with one of its requests for memory refused. Answers what is wrong, or None; and how many requests there were."""
    env = {"LD_PRELOAD": compiled_library(), "REFUSE_LOG": log, "REFUSE_REQUEST": str(number)}
    fault = run(tests, name, env)
    with open(log, encoding="ascii") as file:
        said = file.read()
    counts = re.search(r"requests (\d+) refused (\d+)", said)
    if not counts or "turned" not in said:
        program.stop("the requests of the tests don't come to refuse_memory.c: " + said)
    if fault is None and int(counts[2]) != (number > 0):
        fault = f"{counts[2]} requests were refused"
    return fault, int(counts[1])


def refuse_all(tests, name, most, log):
    """The same with each in turn. Answers how many requests were refused and how many runs weren't well."""
    fault, requests = refuse(tests, name, 0, log)
    if fault is not None or requests == 0:
        print(f"{name}, {requests} requests, none refused: {fault}", flush=True)
        return 0, 1
    count, wrong = min(requests, most), 0
    for number in range(1, count + 1):
        fault, _ = refuse(tests, name, number, log)
        wrong += fault is not None
        if fault is not None:
            print(f"{name}, request {number} refused: {fault}", flush=True)
    print(f"{name}, each of {count} of {requests} requests refused: {'well' if not wrong else f'{wrong} faults'}", flush=True)
    return count, wrong


def run_all(tests, names):
    """Runs each test by itself. Answers how many weren't well."""
    with open(tests, "rb") as file:
        if b"AddressSanitizer" not in file.read():
            program.stop("the program was built without AddressSanitizer")
    wrong = 0
    for name in names:
        fault = run(tests, name)
        wrong += fault is not None
        print(f"{name}: {'well' if fault is None else fault}", flush=True)
    return wrong


def main():
    words = argparse.ArgumentParser(description=__doc__.splitlines()[0])
    words.add_argument("--short", action="store_true", help="without the tests that make a hundred chunks")
    words.add_argument("--refuse", type=int, default=1000, metavar="N", help="how many requests of a test are refused in turn at most (1000)")
    words = words.parse_args()
    began, refused = time.monotonic(), 0
    with tempfile.TemporaryDirectory() as folder:
        program.say("compiling the tests of test_storage without any proof, with AddressSanitizer")
        tests = compile_tests(folder)
        program.say(f"compiled in {time.monotonic() - began:.0f} seconds")
        names = listed(tests)
        if not {*REFUSED, *SLOW} <= set(names):
            program.stop("the tests that expect a refusal, or the slow ones, aren't there")
        names = [it for it in names if not words.short or it not in SLOW]
        wrong = run_all(tests, names)
        for name in REFUSED:
            count, faults = refuse_all(tests, name, words.refuse, f"{folder}/refused")
            refused, wrong = refused + count, wrong + faults
    took = f"{time.monotonic() - began:.0f} seconds"
    print(f"{len(names)} tests under AddressSanitizer with leaks looked for, {refused} requests refused in turn: {wrong} faults, {took}")
    raise SystemExit(1 if wrong else 0)
