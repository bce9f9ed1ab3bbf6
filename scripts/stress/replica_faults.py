"""Faults that are put into copies of the members' program, and whether `replica_test.py` finds each. Of these five two were found:
docs/OPERATING.md says which, and what came of the others.

    stress replica-faults --program FILE [NAME ..]

The last line is 'N found, M not'; the status is 0 where all are found."""
import argparse
import shutil
import subprocess
import sys
import tempfile

import program
from stress import replica_kit

FAULTS = {
    "reply-before-commit": (
        "leading.py", "while replies and replies[0].needs <= self._committed and", "while replies and", "stop leader",
    ),
    "look-up-without-lease": ("leading.py", " and (holds or not replies[0].is_look)", "", "stop leader"),
    "nothing-is-compared": (
        "log.py", '"compare": [is_new(key), is_made_at(self._leader, term.number), is_value(self._front, front.written())],', '"compare": [],',
        "stop leader",
    ),
    "unanswered-is-done": (
        "log.py", "                await asyncio.sleep(AGAIN_SECONDS)\n\n    # Members", '                return {"succeeded": True}\n\n    # Members',
        "kill etcd,stop etcd",
    ),
    "entry-is-passed-over": (
        "following.py", "for _, entry in taken for line", "for front, entry in taken if front.number % 40 for line", "kill leader,kill member",
    ),
}
FAILURES = 12


def is_found(name, path):
    """Whether the test finds that something differs."""
    file, old, new, kinds = FAULTS[name]
    with tempfile.TemporaryDirectory(prefix="replica-") as folder:
        shutil.copytree(f"{program.TOP}/clients/python", f"{folder}/python", ignore=shutil.ignore_patterns("__pycache__", "tests"))
        source = f"{folder}/python/mi_replica/{file}"
        with open(source, encoding="utf-8") as it:
            text = it.read()
        if text.count(old) != 1:
            raise SystemExit(f"{name}: what it replaces stands {text.count(old)} times in {file}")
        with open(source, "w", encoding="utf-8") as it:
            it.write(text.replace(old, new))
        words = [sys.executable, f"{program.TOP}/scripts/stress", "replicas", "--failures", str(FAILURES), "--kinds", kinds, "--program", path]
        ran = subprocess.run([*words, "--client", f"{folder}/python"], capture_output=True, text=True, timeout=900, preexec_fn=replica_kit.end_with_parent)
    last = (ran.stdout.splitlines() or ran.stderr.splitlines() or ["nothing"])[-1]
    is_it = ran.returncode == 1 and last.startswith("Differs: ")
    print(f"{name}: {'found' if is_it else 'NOT FOUND'}: {last[:200]}", flush=True)
    return is_it


def main():
    parser = argparse.ArgumentParser(description=__doc__, formatter_class=argparse.RawDescriptionHelpFormatter)
    parser.add_argument("--program", required=True)
    parser.add_argument("names", nargs="*", default=list(FAULTS))
    options = parser.parse_args()
    found = [is_found(it, options.program) for it in options.names]
    print(f"{found.count(True)} found, {found.count(False)} not")
    return 0 if all(found) else 1
