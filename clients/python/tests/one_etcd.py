"""etcd itself, of one member, where it is installed: a process, and its data in a folder."""
import json
import shutil
import socket
import subprocess
import tempfile
import time
import unittest
import urllib.request
from typing import Optional

LONGEST_START = 60.0
needs_etcd = unittest.skipUnless(shutil.which("etcd"), "needs etcd")


class OneEtcd:
    def __init__(self) -> None:
        ports = []
        for _ in range(2):
            with socket.socket() as it:
                it.bind(("127.0.0.1", 0))
                ports.append(it.getsockname()[1])
        self.url, self._peer = (f"http://127.0.0.1:{it}" for it in ports)
        self._folder = tempfile.TemporaryDirectory()
        self._ran: Optional["subprocess.Popen[bytes]"] = None
        self.start()

    def start(self) -> None:
        words = ["etcd", "--name", "e", "--data-dir", f"{self._folder.name}/now", "--log-level", "error", "--initial-cluster", f"e={self._peer}"]
        words += ["--listen-client-urls", self.url, "--advertise-client-urls", self.url]
        words += ["--listen-peer-urls", self._peer, "--initial-advertise-peer-urls", self._peer]
        self._ran = subprocess.Popen(words, stdin=subprocess.DEVNULL, stdout=subprocess.DEVNULL, stderr=subprocess.DEVNULL)
        end = time.monotonic() + LONGEST_START
        while time.monotonic() < end and not self._is_well():
            time.sleep(0.1)

    def stop(self) -> None:
        if self._ran:
            self._ran.terminate()
            self._ran.wait()

    def save(self) -> None:
        """Copies its data, while it is stopped."""
        self.stop()
        shutil.copytree(f"{self._folder.name}/now", f"{self._folder.name}/saved")
        self.start()

    def put_back(self) -> None:
        """Begins again with the data that was copied."""
        self.stop()
        shutil.rmtree(f"{self._folder.name}/now")
        shutil.copytree(f"{self._folder.name}/saved", f"{self._folder.name}/now")
        self.start()

    def close(self) -> None:
        self.stop()
        self._folder.cleanup()

    def _is_well(self) -> bool:
        try:
            with urllib.request.urlopen(f"{self.url}/health", timeout=2) as answer:
                return bool(json.load(answer)["health"] == "true")
        except (OSError, ValueError):
            return False
