"""Three members of etcd and three members of a ledger on this machine, for tests and measurements: each a process of its own below one
temporary folder, on free ports, and all ended with the program that started them."""
import asyncio
import ctypes
import glob
import json
import os
import shutil
import signal
import socket
import subprocess
import sys
import tempfile
import threading
import time
import urllib.request

import program

CLIENT = f"{program.TOP}/clients/python"
sys.path.insert(0, CLIENT)
from mi_replica.etcd import Rejected, Unreachable  # noqa: E402
from mi_replica.front import Front  # noqa: E402
from mi_replica.log import Log  # noqa: E402

LONGEST_START = 120
RECORD_SECONDS = 0.25


class Stuck(Exception):
    """Something that was to come didn't come in time."""


def end_with_parent():
    """In a child: it is killed where this program ends, however that comes, and also where it is stopped."""
    ctypes.CDLL(None).prctl(1, signal.SIGKILL)


def until(what, found, seconds, pause=0.05):
    """Waits for an answer that isn't empty. Raises Stuck."""
    end = time.monotonic() + seconds
    while True:
        answer = found()
        if answer:
            return answer
        if time.monotonic() > end:
            raise Stuck(f"{what}: not within {seconds} s")
        time.sleep(pause)


class Process:
    """A program that can be killed, stopped and started again. It is to be started by the main thread."""

    def __init__(self, name, words, folder, env=None):
        self.name, self._words, self._env = name, words, env
        self._log = f"{folder}/{name}.log"
        self.ran, self.is_stopped = None, False
        self.start()

    def start(self):
        with open(self._log, "ab") as log:
            how = {"stdin": subprocess.DEVNULL, "stdout": log, "stderr": log, "start_new_session": True}
            self.ran = subprocess.Popen(self._words, env=self._env, preexec_fn=end_with_parent, **how)

    def kill(self):
        self.ran.kill()
        self.ran.wait()
        self.is_stopped = False

    def end(self):
        """By the signal that asks it to end."""
        self.ran.terminate()
        try:
            self.ran.wait(10)
        except subprocess.TimeoutExpired:
            self.kill()

    def stop(self):
        self.ran.send_signal(signal.SIGSTOP)
        self.is_stopped = True

    def go_on(self):
        self.ran.send_signal(signal.SIGCONT)
        self.is_stopped = False

    def is_there(self):
        return self.ran.poll() is None

    def said(self):
        with open(self._log, encoding="utf-8", errors="replace") as log:
            return log.read()


class Etcds:
    """Three members of etcd."""

    def __init__(self, folder):
        ports = [program.free_port() for _ in range(6)]
        self.urls = [f"http://127.0.0.1:{it}" for it in ports[:3]]
        peers = [f"http://127.0.0.1:{it}" for it in ports[3:]]
        cluster = ",".join(f"e{n}={it}" for n, it in enumerate(peers))
        self.all = []
        for n in range(3):
            words = ["etcd", "--name", f"e{n}", "--data-dir", f"{folder}/e{n}", "--initial-cluster", cluster, "--log-level", "error"]
            words += ["--listen-client-urls", self.urls[n], "--advertise-client-urls", self.urls[n]]
            words += ["--listen-peer-urls", peers[n], "--initial-advertise-peer-urls", peers[n]]
            self.all.append(Process(f"e{n}", words, folder))
        for n in range(3):
            self.wait(n)

    def wait(self, n):
        """Until this one serves."""
        until(f"etcd e{n}", lambda: self._is_well(n), LONGEST_START)

    def _is_well(self, n):
        try:
            with urllib.request.urlopen(f"{self.urls[n]}/health", timeout=2) as answer:
                return json.load(answer)["health"] == "true"
        except (OSError, ValueError):
            return False


class Way(threading.Thread):
    """A member's way to etcd, which can be cut: then nothing passes, and nothing is told. What was sent meanwhile passes once it is mended."""

    def __init__(self, urls):
        super().__init__(daemon=True)
        self._urls, self._begun = urls, threading.Event()
        self.urls = []
        self.start()
        self._begun.wait(LONGEST_START)

    def run(self):
        asyncio.run(self._run())

    async def _run(self):
        self._loop, self._passes = asyncio.get_running_loop(), asyncio.Event()
        self._passes.set()
        for url in self._urls:
            server = await asyncio.start_server(self._serve_to(int(url.rpartition(":")[2])), "127.0.0.1", 0)
            self.urls.append(f"http://127.0.0.1:{server.sockets[0].getsockname()[1]}")
        self._begun.set()
        await asyncio.Event().wait()

    def _serve_to(self, port):
        async def serve(reader, writer):
            try:
                await self._passes.wait()
                back, there = await asyncio.open_connection("127.0.0.1", port)
            except OSError:
                return writer.transport.abort()
            await asyncio.gather(self._pump(reader, there), self._pump(back, writer))

        return serve

    async def _pump(self, reader, writer):
        try:
            while True:
                data = await reader.read(1 << 16)
                await self._passes.wait()
                if not data:
                    break
                writer.write(data)
                await writer.drain()
        except OSError:
            pass
        writer.transport.close()

    def cut(self):
        self._loop.call_soon_threadsafe(self._passes.clear)

    def mend(self):
        self._loop.call_soon_threadsafe(self._passes.set)


def asked(port, line, seconds=3.0):
    """The reply of whoever listens there to one line, or None."""
    try:
        with socket.create_connection(("127.0.0.1", port), seconds) as it:
            it.settimeout(seconds)
            it.sendall(line + b"\n")
            with it.makefile("rb") as reader:
                return reader.readline() or None
    except OSError:
        return None


class Members:
    """Three members of one ledger. Each has a folder of its own, and, where they are to be cut off at times, a way of its own to etcd."""

    def __init__(self, name, urls, path, folder, *more, client=None, are_cut=False):
        self.name, self.urls = name, urls
        self.ports = [program.free_port() for _ in range(3)]
        self.folder, self.all = folder, []
        env = {**os.environ, "PYTHONPATH": client or CLIENT, "PYTHONDONTWRITEBYTECODE": "1"}
        self.ways = [Way(urls[n:] + urls[:n]) if are_cut else None for n in range(3)]
        for n, port in enumerate(self.ports):
            reached = self.ways[n].urls if are_cut else urls[n:] + urls[:n]
            words = [sys.executable, "-m", "mi_replica", "--etcd", ",".join(reached), "--name", name, "--program", path]
            words += ["--listen", str(port), *(it.replace("FOLDER", f"{folder}/{name}-m{n}") for it in more)]
            self.all.append(Process(f"{name}-m{n}", words, folder, env))

    def forget(self, member):
        """Removes what a member has on its disk."""
        shutil.rmtree(f"{self.folder}/{member.name}", ignore_errors=True)

    def with_bases(self):
        """How many members have a checkpoint with a base."""
        return sum(bool(glob.glob(f"{glob.escape(self.folder)}/{it.name}/*.checkpoint")) for it in self.all)

    def status(self, n):
        """What a member says of itself, or None."""
        if self.all[n].is_stopped:
            return None
        reply = asked(self.ports[n], b'{"cmd":"member"}')
        return json.loads(reply) if reply else None

    def leader(self):
        """The number of the one that says it leads, or None; of two, the one of the later term."""
        said = [(it["term"], n) for n, it in ((n, self.status(n)) for n in range(3)) if it and it["role"] == "leader"]
        return max(said)[1] if said else None

    def wait_for_leader(self):
        return until("a leader", lambda: (self.leader() or 0) + 1 if self.leader() is not None else None, LONGEST_START) - 1

    def wait_until_equal(self, number):
        """Until each has applied this entry."""
        for n in range(3):
            until(f"member {n} at entry {number}", lambda n=n: (self.status(n) or {"applied": -1})["applied"] >= number, LONGEST_START)

    def close(self):
        for it in self.all:
            it.kill()


class Recorder(threading.Thread):
    """Reads a ledger's log from etcd all the while, so that the whole of it is known though entries leave it."""

    def __init__(self, name, urls):
        super().__init__(daemon=True)
        self._name, self._urls, self._ends = name, urls, threading.Event()
        self.entries, self.gap, self.first = [], None, 1
        self._front = None

    def run(self):
        asyncio.run(self._run())

    async def _run(self):
        log = Log(self._urls, self._name)
        is_last = False
        while not is_last:
            is_last = self._ends.is_set()
            try:
                while await self._read(log):
                    pass
            except (Unreachable, Rejected):
                is_last = False
            await asyncio.sleep(RECORD_SECONDS)
        log.close()

    async def _read(self, log):
        """Whether there is more."""
        found = await log.read(len(self.entries))
        self.first = found.first
        for it in found.entries:
            self._front = self._front or Front(0, it.before)
            if (it.number, it.before) != (self._front.number + 1, self._front.sum):
                self.gap = self.gap or f"entry {self._front.number + 1} has left the log before it was read, or stands on others: it has {it.number}"
                return False
            self._front = self._front.with_entry(it.lines)
            self.entries.append(it.lines)
        return found.more

    def end(self):
        """The whole log, once nothing is appended any more."""
        self._ends.set()
        self.join(LONGEST_START)
        if self.gap or self.is_alive():
            raise Stuck(self.gap or "the log could not be read")
        return self.entries


class Folder:
    """A temporary folder, whose logs are kept where a test failed."""

    def __enter__(self):
        self.path = tempfile.mkdtemp(prefix="replica-")
        return self.path

    def __exit__(self, kind, error, trace):
        if kind is None:
            shutil.rmtree(self.path, ignore_errors=True)
        else:
            print(f"left as it is: {self.path}", file=sys.stderr)
