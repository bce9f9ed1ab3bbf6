"""A service that a script starts: `mi_service`, which serves connections without end and keeps a journal. It ends with the script.

The program is MI_SERVICE where that is set, else the one that this script was installed with, else `crates/mi_service/out/mi_service`."""
import json
import os
import re
import resource
import select
import signal
import socket
import subprocess
import sys
import tempfile
import time

import program
from stress.fuzz import toml

NAME = "mi_service"
LISTENS = re.compile(rb"127\.0\.0\.1:(\d+)")
WAIT = 300
"""Seconds that anything may take here that isn't a long replay."""
MOST = 64
"""Connections that are served at once."""
STATUS = b'{"service":"status"}\n'
NO_LIMIT = resource.getrlimit(resource.RLIMIT_FSIZE)[1]
"""How long a file may be at most here, in bytes, where it isn't limited further."""
SANITIZER = {"ASAN_OPTIONS": "quarantine_size_mb=0:thread_local_quarantine_size_kb=0:verify_asan_link_order=0"}
"""For a program that was compiled without proofs, whose allocator is the sanitizer's: it keeps nothing that was freed, and takes libraries
that are loaded before it."""


def path():
    """Where the program is, whether it is there or not."""
    named = os.environ.get("MI_SERVICE")
    if named:
        return os.path.abspath(named)
    if not os.path.isfile(f"{program.TOP}/crates.txt"):
        return os.path.realpath(f"{program.TOP}/../../bin/{NAME}")
    return f"{program.TOP}/crates/{NAME}/out/{NAME}"


def is_there():
    return os.access(path(), os.X_OK)


def needed(named=None):
    """The program of this name, or the one that is looked for. Ends, with what is needed, where it isn't there."""
    found = os.path.abspath(named) if named else path()
    if not os.access(found, os.X_OK):
        sys.exit(f"{os.path.relpath(found)} isn't there: `rt run` in crates/{NAME} builds it, and MI_SERVICE=FILE takes another one")
    return found


class Ended(Exception):
    """The service has ended where it was to serve: its status, and what it said."""

    def __init__(self, status, said):
        super().__init__(f"the service ended with status {status}: {said}")
        self.status, self.said = status, said


def limit_files(process, size):
    """No file that a process writes grows beyond so many bytes from now on."""
    resource.prlimit(process, resource.RLIMIT_FSIZE, (size, NO_LIMIT))


def prepared(largest_file):
    """What is done in the child before it is the service: it ends with the script, and no file of it grows beyond a size."""

    def prepare():
        program.end_with_parent()
        if largest_file is not None:
            # (a write beyond it fails then, as one to a full disk does, in place of ending the process)
            signal.signal(signal.SIGXFSZ, signal.SIG_IGN)
            limit_files(os.getpid(), largest_file)

    return prepare


class Service:
    """A service on a free port. It listens once it is made, else `Ended` is raised."""

    def __init__(self, named, schema=None, journal=None, sync=None, largest_file=None, env=None, wait=WAIT, extra=(), port=0):
        """`schema` and `journal` are files; `port` is one that is free, or 0 for any; no file may grow beyond `largest_file` bytes; `env` is put to the environment."""
        words = [named, "--listen", str(port), *extra]
        for name, value in (("--schema", schema), ("--journal", journal), ("--sync", sync)):
            words += [name, value] if value is not None else []
        self.said = tempfile.TemporaryFile()
        how = {"stdin": subprocess.DEVNULL, "stdout": subprocess.PIPE, "stderr": self.said, "bufsize": 0}
        self.process = subprocess.Popen(words, env={**os.environ, **SANITIZER, **(env or {})}, preexec_fn=prepared(largest_file), **how)
        try:
            self.port = self.listening(time.monotonic() + wait)
        except BaseException:
            self.stop()
            raise

    def listening(self, end):
        """The port that it says that it listens on."""
        heard = b""
        while True:
            ready = select.select([self.process.stdout], [], [], max(0, end - time.monotonic()))[0]
            if not ready:
                raise Ended(None, f"it says not that it listens, but {heard!r}")
            more = self.process.stdout.read(4096)
            heard += more
            if not more:
                raise Ended(*self.ended())
            found = LISTENS.search(heard)
            if found and b"\n" in heard:
                return int(found[1])

    def __enter__(self):
        return self

    def __exit__(self, *_):
        self.stop()

    def connect(self, receive=None):
        """A connection; with `receive`, one whose system keeps so many bytes that aren't read."""
        stream = socket.socket()
        if receive:
            stream.setsockopt(socket.SOL_SOCKET, socket.SO_RCVBUF, receive)
        stream.setsockopt(socket.IPPROTO_TCP, socket.TCP_NODELAY, 1)
        stream.settimeout(WAIT)
        stream.connect(("127.0.0.1", self.port))
        return stream

    def settle(self):
        """Waits until nobody is connected: what those that have left had sent is done then, and stands in the journal."""
        end = time.monotonic() + WAIT
        with self.connect() as stream:
            while len(json.loads(asked(stream, STATUS))["connections"]) > 1:
                if time.monotonic() > end:
                    raise TimeoutError(f"connections that have left were still there after {WAIT} s")
                time.sleep(0.01)

    def memory(self):
        """Its memory, in kB."""
        with open(f"/proc/{self.process.pid}/status", encoding="ascii") as file:
            return next(int(line.split()[1]) for line in file if line.startswith("VmRSS"))

    def seconds(self):
        """Its processor time."""
        return seconds_of(self.process.pid)

    def ended(self, wait=WAIT):
        """Waits until it has ended; its status, and what it said on standard error."""
        status = self.process.wait(wait)
        self.said.seek(0)
        return status, self.said.read().decode(errors="replace").strip()

    def kill(self, how=signal.SIGKILL):
        self.process.send_signal(how)
        self.process.wait(WAIT)

    def stop(self):
        """Ends it in any case."""
        if self.process.poll() is None:
            self.process.kill()
        self.process.wait(WAIT)
        self.process.stdout.close()
        self.said.close()


def seconds_of(number):
    """The processor time of a process."""
    with open(f"/proc/{number}/stat", encoding="ascii") as file:
        fields = file.read().rpartition(")")[2].split()
    return (int(fields[11]) + int(fields[12])) / os.sysconf("SC_CLK_TCK")


def written_schema(folder, schemas, first_revision=0, name="schema.toml"):
    """The file of a schema."""
    file_name = f"{folder}/{name}"
    with open(file_name, "w", encoding="utf-8") as file:
        file.write(toml(schemas, first_revision))
    return file_name


def asked(stream, text, count=None):
    """Sends bytes, and answers as many lines of replies as they have lines."""
    stream.sendall(text)
    wanted, got = text.count(b"\n") if count is None else count, b""
    while got.count(b"\n") < wanted:
        more = stream.recv(1 << 16)
        if not more:
            raise EOFError(f"the connection ended behind {len(got)} bytes of replies")
        got += more
    return got
