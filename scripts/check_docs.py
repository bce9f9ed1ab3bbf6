#!/usr/bin/env python3
"""Runs what the documents print: each command line must get the reply that stands under it, byte for byte.

    check_docs.py [--program FILE] [--quick] [FILE.md ..]

Fenced blocks are known by the first word behind the fence:

    replies [NAME.toml] [continued]   `> LINE` is asked and the lines under it are the replies; `2> LINE` asks connection 2 of
                                      several. NAME.toml is an example or a schema printed before; without it the built-in
                                      one is served. `continued` goes on with the server of the block before.
    toml NAME.toml [fault=WORD]       a schema, on which --check says `ok` or this fault
    sh, python, js                    is run where the next block is `output`, which is what it prints; python is run always, and
                                      js where node is there
    output                            see above

A block with a command line in any other form is an error, so that none stays unchecked. Then the examples are run against
their stored replies (`examples/NAME.out`), and the tests of the client and of the scripts. --quick leaves the tests out. What was
left out, of the tests too, is told in lines that begin with 'skipped: '. The last line is 'N passed, M failed'."""
import argparse
import collections
import concurrent.futures
import glob
import os
import re
import shutil
import signal
import subprocess
import sys
import tempfile
import threading

import library
import program
from stress import service
from stress import webdriver

TOP = program.TOP
sys.path.insert(0, f"{TOP}/clients/python")
from mi_client import Database, Ended, Server  # noqa: E402

FENCE = re.compile(r"^(`{3,})(.*)$")
OTHER_FENCE = re.compile(r"^(\s+`{3,}|\s*~{3,})")
COMMAND = re.compile(r'^\s*(\d*>\s*)?\{\s*"cmd"')
ASKED = re.compile(r"^(\d*)> (.*)$")
HEADING = re.compile(r"^#+ (.*)$", re.MULTILINE)
ANCHOR = re.compile(r"\]\(([^)#:\s]*)#([^)\s]+)\)")
RAN = re.compile(r"^Ran (\d+) tests? in ", re.MULTILINE)
SKIPPED = re.compile(r"(?:^|\.\.\. )skipped (['\"])(.*)\1$", re.MULTILINE)
LONGEST_RUN = 120
PORT = "8000"
"""The port that documents use; a free one takes its place."""


class Differs(Exception):
    """What was printed isn't what came."""


class Block:
    def __init__(self, file, line, words, text):
        self.file, self.line, self.words, self.text = file, line, words, text
        self.place = f"{os.path.relpath(file, TOP)}:{line}"

    def kind(self):
        return self.words[0] if self.words else ""


def blocks_of(file):
    with open(file, encoding="utf-8") as it:
        lines = it.read().split("\n")
    found, at = [], 0
    while at < len(lines):
        fence = FENCE.match(lines[at])
        if not fence:
            if OTHER_FENCE.match(lines[at]):
                raise Differs(f"line {at + 1}: a fence that is indented or isn't of backquotes, so nothing checks it")
            at += 1
            continue
        end = at + 1
        while end < len(lines) and lines[end].strip() != fence[1]:
            end += 1
        found.append(Block(file, at + 1, fence[2].split(), lines[at + 1:end]))
        at = end + 1
    return found


def anchors_of(file):
    """The names by which links lead to the headings of a document."""
    with open(file, encoding="utf-8") as it:
        return {re.sub(r"[^\w\- ]", "", heading.lower()).replace(" ", "-") for heading in HEADING.findall(it.read())}


class Talk:
    """The connections that a block of replies speaks of."""

    def __init__(self, path, schema, count):
        self.server = None
        if count == 0:
            self.connections = {"": Database.start(path, schema)}
        else:
            self.server = Server(path, clients=count, schema=schema)
            self.connections = {str(n + 1): self.server.connect(60) for n in range(count)}
        self.names = list(self.connections)
        self.next = 0

    def ask(self, name, line):
        """The reply. Those whose turn comes first pass it on."""
        while self.names[self.next] != name:
            self.connections[self.names[self.next]].pass_turn()
            self.next = (self.next + 1) % len(self.names)
        self.next = (self.next + 1) % len(self.names)
        return self.connections[name].ask_line(line)

    def close(self):
        for it in self.connections.values():
            it.close()
        if self.server:
            self.server.__exit__()


def connections_in(text):
    asked = [ASKED.match(it) for it in text]
    return max([int(it[1]) for it in asked if it and it[1]], default=0)


class Documents:
    def __init__(self, path, folder):
        self.path, self.folder = path, folder
        self.talk, self.passed, self.failed, self.skipped = None, 0, 0, []
        self.counting = threading.Lock()

    def check(self, place, call, *args):
        why = None
        try:
            call(*args)
        except (Differs, Ended, OSError, subprocess.TimeoutExpired, ValueError) as error:
            why = error
        with self.counting:
            self.passed += why is None
            self.failed += why is not None
            if why is not None:
                print(f"{place}: {why}", flush=True)

    def side_by_side(self, *calls):
        """Calls that wait for one another at no point."""
        with concurrent.futures.ThreadPoolExecutor(len(calls)) as pool:
            for it in [pool.submit(it) for it in calls]:
                it.result()

    def schema(self, name):
        for folder in (self.folder, f"{TOP}/examples"):
            if os.path.isfile(f"{folder}/{name}"):
                return f"{folder}/{name}"
        raise Differs(f"no schema {name} was printed before")

    # Blocks

    def replies(self, block):
        schemas = [it for it in block.words[1:] if it.endswith(".toml")]
        if "continued" not in block.words:
            self.end_talk()
            self.talk = Talk(self.path, self.schema(schemas[0]) if schemas else None, connections_in(block.text))
        if not self.talk:
            raise Differs("nothing to continue")
        asked = None
        for n, line in enumerate(block.text, 1):
            found = ASKED.match(line)
            if found:
                if asked is not None:
                    raise Differs(f"line {n}: the command before has no reply under it")
                asked = self.talk.ask(found[1], found[2])
            elif line and asked is None:
                raise Differs(f"line {n}: a reply that nothing asked for")
            elif line:
                if line != asked:
                    raise Differs(f"line {n}\n  printed {line}\n  came    {asked}")
                asked = None
        if asked is not None:
            raise Differs("the last command has no reply under it")

    def end_talk(self):
        if self.talk:
            self.talk.close()
        self.talk = None

    def toml(self, block):
        name = block.words[1]
        fault = next((it[6:] for it in block.words if it.startswith("fault=")), None)
        with open(f"{self.folder}/{name}", "w", encoding="utf-8") as file:
            file.write("\n".join(block.text) + "\n")
        ran = self.run([self.path, "--check", "--schema", f"{self.folder}/{name}"])
        wanted = (3, "", f"schema: {fault}\n") if fault else (0, "ok\n", "")
        if (ran.returncode, ran.stdout, ran.stderr) != wanted:
            raise Differs(f"--check ended with {ran.returncode}: {ran.stdout}{ran.stderr}")

    def run(self, words):
        env = {**os.environ, "PATH": f"{self.folder}/bin:{os.environ['PATH']}", "PYTHONPATH": f"{TOP}/clients/python", "MI_SERVER": self.path}
        pipes = {"stdin": subprocess.DEVNULL, "stdout": subprocess.PIPE, "stderr": subprocess.PIPE}
        with subprocess.Popen(words, cwd=self.folder, env=env, text=True, start_new_session=True, **pipes) as ran:
            try:
                out, errors = ran.communicate(timeout=LONGEST_RUN)
            except subprocess.TimeoutExpired:
                # (a server that it started in the background would hold the pipes)
                os.killpg(ran.pid, signal.SIGKILL)
                raise
        return subprocess.CompletedProcess(words, ran.returncode, out, errors)

    def code(self, block, wanted):
        text = "\n".join(block.text).replace(PORT, str(program.free_port())).replace("crates/mi_server/out/mi_server", "mi_server")
        words = {"python": [sys.executable, "-c"], "js": ["node", "-e"]}.get(block.kind(), ["bash", "-e", "-c"])
        ran = self.run([*words, text])
        if ran.returncode:
            raise Differs(f"ended with {ran.returncode}: {ran.stderr}")
        if wanted is not None and ran.stdout.rstrip("\n") != "\n".join(wanted.text):
            raise Differs("it prints\n" + ran.stdout)

    def block(self, block, following):
        kind = block.kind()
        wanted = following if following and following.kind() == "output" else None
        if kind == "replies":
            self.check(block.place, self.replies, block)
        elif kind == "toml" and len(block.words) > 1:
            self.check(block.place, self.toml, block)
        elif kind == "python" or kind in ("sh", "js") and wanted:
            needs = [it[6:] for it in block.words if it.startswith("needs=")] + ["node"] * (kind == "js")
            lacking = [it for it in needs if not shutil.which(it)]
            if lacking:
                self.skipped.append(f"{block.place} needs {', '.join(lacking)}")
            else:
                self.check(block.place, self.code, block, wanted)
        elif kind not in ("output", "sh") and any(map(COMMAND.match, block.text)):
            self.check(block.place, self.unknown, block)

    def unknown(self, block):
        raise Differs("a command line in a block that isn't `replies`, so nothing checks it")

    def not_run(self, block):
        raise Differs("an output of nothing that is run, so nothing checks it")

    def document(self, file):
        print(f"== {os.path.relpath(file, TOP)}", flush=True)
        try:
            blocks = blocks_of(file)
        except Differs as error:
            self.failed += 1
            print(f"{os.path.relpath(file, TOP)}: {error}")
            return
        for before, block, following in zip([None, *blocks], blocks, [*blocks[1:], None]):
            self.block(block, following)
            if block.kind() == "output" and (not before or before.kind() not in ("sh", "python", "js")):
                self.check(block.place, self.not_run, block)
        self.end_talk()
        self.check(os.path.relpath(file, TOP), self.paths, file)

    def paths(self, file):
        """The files of the repository that a document names are there, and the headings that it links to."""
        with open(file, encoding="utf-8") as it:
            text = it.read()
        named = set(re.findall(r"`((?:docs|examples|scripts|clients|\.ci)/[\w./-]+)`", text))
        named |= {os.path.relpath(os.path.normpath(f"{os.path.dirname(os.path.abspath(file))}/{it}"), TOP) for it in re.findall(r"\]\(([^)#:]+)(?:#[^)]*)?\)", text)}
        lacking = sorted(it for it in named if not os.path.exists(f"{TOP}/{it}"))
        for path, anchor in ANCHOR.findall(text):
            linked = os.path.normpath(f"{os.path.dirname(os.path.abspath(file))}/{path}") if path else file
            if linked.endswith(".md") and os.path.exists(linked) and anchor not in anchors_of(linked):
                lacking.append(f"{path}#{anchor}")
        if lacking:
            raise Differs(f"names what isn't there: {', '.join(lacking)}")

    # Examples

    def example(self, lines, schema, stored):
        words = [self.path] + (["--schema", schema] if schema else [])
        with open(lines, "rb") as file, open(stored, "rb") as out:
            ran = subprocess.run(words, stdin=file, capture_output=True, timeout=LONGEST_RUN)
            if ran.returncode or ran.stderr:
                raise Differs(f"ended with {ran.returncode}: {ran.stderr.decode()}")
            for n, (want, got) in enumerate(zip(out.read().splitlines(), ran.stdout.splitlines()), 1):
                if want != got:
                    raise Differs(f"reply {n}\n  stored {want.decode()}\n  came   {got.decode()}")
            out.seek(0)
            if out.read() != ran.stdout:
                raise Differs("the stored replies are more or fewer")

    def clients(self, script, stored):
        """An example in Python that connects to two clients' worth of a server."""
        port = str(program.free_port())
        with subprocess.Popen([self.path, "--listen", port, "--clients", "2"]) as server:
            try:
                ran = self.run([sys.executable, script, port])
                server.wait(10)
            finally:
                server.kill()
        with open(stored, encoding="utf-8") as file:
            if ran.returncode or ran.stdout != file.read():
                raise Differs(f"ended with {ran.returncode}, and printed\n{ran.stdout}{ran.stderr}")

    def examples(self):
        print("== examples", flush=True)
        for lines in sorted(glob.glob(f"{TOP}/examples/*.txt")):
            name = lines[:-4]
            schema = f"{name}.toml" if os.path.isfile(f"{name}.toml") else None
            self.check(os.path.relpath(lines, TOP), self.example, lines, schema, f"{name}.out")
        for script in sorted(glob.glob(f"{TOP}/examples/*.py")):
            self.check(os.path.relpath(script, TOP), self.clients, script, f"{script[:-3]}.out")
        for schema in sorted(glob.glob(f"{TOP}/examples/*.toml")):
            self.check(os.path.relpath(schema, TOP), self.is_sound, schema)

    def is_sound(self, schema):
        ran = self.run([self.path, "--check", "--schema", schema])
        if ran.stdout != "ok\n":
            raise Differs(ran.stderr.strip())

    # Tests

    def of_clients(self):
        self.check("clients/python/tests", self.tests, f"{TOP}/clients/python/tests")
        self.node()
        self.bindings()

    def of_scripts(self):
        self.check("scripts/tests", self.tests, f"{TOP}/scripts/tests")
        self.check("scripts/stress fuzz", self.stress, "fuzz", "--lines", "600")
        self.check("scripts/stress stall", self.stress, "stall")

    def tests(self, folder):
        """The tests of a folder, one at least; those that are skipped are told by why."""
        env = {**os.environ, "MI_SERVER": self.path}
        ran = subprocess.run(
            [sys.executable, "-m", "unittest", "discover", "-v", "-s", folder], env=env, capture_output=True, text=True, timeout=1200
        )
        count = RAN.search(ran.stderr)
        if ran.returncode:
            # (behind the line of each test)
            raise Differs(ran.stderr.partition("=" * 70)[2] or ran.stderr)
        if not count or count[1] == "0":
            raise Differs(f"no test was run: {ran.stderr}")
        for why, skipped in collections.Counter(it[1] for it in SKIPPED.findall(ran.stderr)).items():
            self.skipped.append(f"{os.path.relpath(folder, TOP)}, {skipped} of its tests: {why}")

    def node(self):
        """The tests of the Node client, where node is there and has what they need."""
        found = shutil.which("node")
        version = subprocess.run([found, "--version"], capture_output=True, text=True).stdout.strip() if found else ""
        if found and int(version[1:].split(".")[0]) >= 18:
            self.check("clients/node/test.js", self.node_tests, found)
        else:
            self.skipped.append(f"clients/node/test.js needs node of version 18 or later; {version or 'none'} is there")

    def node_tests(self, node):
        ran = self.run([node, f"{TOP}/clients/node/test.js"])
        if ran.returncode:
            raise Differs(ran.stdout + ran.stderr)

    def bindings(self):
        """The bindings of the library, where it is built: each answers as the program does."""
        if library.path():
            self.check("scripts/embedded.py", self.embedded)
        else:
            self.skipped.append("scripts/embedded.py needs the library, which `make lib` makes")

    def embedded(self):
        words = [sys.executable, f"{TOP}/scripts/embedded.py", "--program", self.path]
        ran = subprocess.run(words, stdin=subprocess.DEVNULL, capture_output=True, text=True, timeout=900)
        lines = ran.stdout.splitlines()
        self.skipped += [it.partition(" ")[2] for it in lines if it.startswith("skipped: ")]
        if ran.returncode:
            raise Differs(ran.stdout + ran.stderr)

    def services(self):
        """The short forms of what tries the service, where it is there, and of what tries members of one ledger, where etcd is."""
        if service.is_there():
            self.check("scripts/stress crash", self.short, "crash")
            self.check("scripts/stress crowd", self.short, "crowd")
        else:
            self.skipped.append("scripts/stress crash and crowd need the service, which `make service` builds")
        if shutil.which("etcd"):
            self.check("scripts/stress replicas", self.short, "replicas", "--program", self.path)
        else:
            self.skipped.append("scripts/stress replicas needs etcd, which `apt-get install etcd-server` brings")

    def window(self):
        """The short form of what tries the window in a browser, where one is there, and the service or what stands in for it."""
        lacks = webdriver.lacking()
        if lacks:
            self.skipped.append(f"scripts/stress window needs {' and '.join(lacks)}, which `apt-get install {' '.join(lacks)}` brings")
        else:
            self.check("scripts/stress window", self.short, "window")

    def short(self, name, *words):
        """The short form of a command of `scripts/stress` that has one; the parts that it leaves out are told."""
        env = {**os.environ, "MI_SERVER": self.path}
        words = [sys.executable, f"{TOP}/scripts/stress", name, "--short", *words]
        ran = subprocess.run(words, env=env, stdin=subprocess.DEVNULL, capture_output=True, text=True, timeout=900)
        if ran.returncode:
            raise Differs(ran.stdout + ran.stderr)
        self.skipped += [f"scripts/stress {name}, {it}" for it in ran.stdout.splitlines() if "left out" in it]

    def heads(self):
        """Whether each source file and each file of answers opens with what it is."""
        ran = self.run([sys.executable, f"{TOP}/scripts/check_heads.py"])
        if ran.returncode:
            raise Differs(ran.stdout + ran.stderr)

    def sentences(self):
        """Whether the sentences of the documents, and of the comments of source files, are short enough."""
        for words in ([], ["--sources"]):
            ran = self.run([sys.executable, f"{TOP}/scripts/check_sentences.py", *words])
            if ran.returncode:
                raise Differs(ran.stdout + ran.stderr)

    def pictures(self):
        """Whether each picture is what its text gives."""
        ran = self.run([sys.executable, f"{TOP}/scripts/pictures.py", "--check"])
        if ran.returncode:
            raise Differs(ran.stdout + ran.stderr)

    def further_edits(self):
        """Whether each wrong body that the gate leaves out still applies."""
        ran = self.run([sys.executable, f"{TOP}/scripts/further_edits.py", "--check"])
        if ran.returncode:
            raise Differs(ran.stdout + ran.stderr)

    def stress(self, name, *words):
        ran = self.run([sys.executable, f"{TOP}/scripts/stress", name, "--program", self.path, *words])
        if ran.returncode:
            raise Differs(ran.stdout + ran.stderr)


def main():
    parser = argparse.ArgumentParser()
    parser.add_argument("--program")
    parser.add_argument("--quick", action="store_true")
    parser.add_argument("files", nargs="*")
    options = parser.parse_args()
    path = os.path.abspath(options.program) if options.program else program.program()
    print(f"with {program.title(path)}")
    files = options.files or [f"{TOP}/{it}" for it in ("README.md", "CONTRIBUTING.md")]
    if not options.files:
        files += sorted(glob.glob(f"{TOP}/docs/*.md")) + sorted(glob.glob(f"{TOP}/clients/*/README.md"))
    with tempfile.TemporaryDirectory(prefix="check-docs-") as folder:
        os.mkdir(f"{folder}/bin")
        os.symlink(path, f"{folder}/bin/mi_server")
        for it in ("examples", "scripts", "clients"):
            os.symlink(f"{TOP}/{it}", f"{folder}/{it}")
        checks = Documents(path, folder)
        for file in files:
            checks.document(file)
        if not options.files:
            checks.examples()
        if not options.files and not options.quick:
            print("== tests", flush=True)
            checks.side_by_side(checks.of_clients, checks.of_scripts)
            checks.services()
            checks.window()
            checks.check("scripts/check_heads.py", checks.heads)
            checks.check("scripts/check_sentences.py", checks.sentences)
            checks.check("scripts/pictures.py --check", checks.pictures)
            checks.check("scripts/further_edits.py --check", checks.further_edits)
    for it in checks.skipped:
        print(f"skipped: {it}")
    print(f"{checks.passed} passed, {checks.failed} failed", flush=True)
    return 1 if checks.failed else 0


if __name__ == "__main__":
    sys.exit(main())
