"""What the tests share: the program (the one that MI_SERVER names, else what `scripts/program.py path` finds or compiles), rows,
servers that end with their test, and a library that stands in for the one of `make lib`."""
from __future__ import annotations

import atexit
import functools
import os
import shutil
import subprocess
import sys
import tempfile
import unittest
from typing import Any, Dict, Optional

HERE = os.path.dirname(os.path.realpath(__file__))
CLIENT = os.path.dirname(HERE)
TOP = os.path.dirname(os.path.dirname(CLIENT))
sys.path.insert(0, CLIENT)

from mi_client import Database, Schema  # noqa: E402, F401

ANN: Dict[str, Any] = {"owner": "ann", "balance": 50, "vip": False}
BOB: Dict[str, Any] = {"owner": "bob", "balance": 7, "vip": True}


def program() -> str:
    named = os.environ.get("MI_SERVER")
    if not named:
        words = [sys.executable, f"{TOP}/scripts/program.py", "path"]
        named = os.environ["MI_SERVER"] = subprocess.run(words, check=True, capture_output=True, text=True).stdout.strip()
    return named


@functools.lru_cache(maxsize=None)
def stand_in() -> str:
    """The folder of a library that is made of clients/cpp/tests/stand_in.cpp. Skips the test where no compiler is there."""
    words = [compiler("CXX", "c++"), "-std=c++17", "-shared", "-fPIC", f"-I{TOP}/clients/c", f"{TOP}/clients/cpp/tests/stand_in.cpp"]
    made = tempfile.TemporaryDirectory()
    atexit.register(made.cleanup)
    subprocess.run([*words, "-o", f"{made.name}/libweltiyo.so"], check=True)
    return made.name


def compiler(variable: str, usual: str) -> str:
    """The compiler that a variable of the environment names. Skips the test where it isn't there."""
    named = os.environ.get(variable, usual)
    if not shutil.which(named):
        raise unittest.SkipTest(f"no compiler is there: {named}")
    return named


def folder(test: unittest.TestCase) -> str:
    made = tempfile.TemporaryDirectory()
    test.addCleanup(made.cleanup)
    return made.name


def written(test: unittest.TestCase, text: str, name: str = "schema.toml") -> str:
    path = f"{folder(test)}/{name}"
    with open(path, "w", encoding="utf-8") as file:
        file.write(text)
    return path


def start(test: unittest.TestCase, schema: Optional[str] = None) -> Database:
    """A server of its own over the tables of a schema's text."""
    db = Database.start(program(), written(test, schema) if schema else None)
    test.addCleanup(db.close)
    return db


def environment() -> Dict[str, str]:
    return {**os.environ, "PYTHONPATH": CLIENT, "MI_SERVER": program()}


def ran(*words: str, typed: str = "", variables: Optional[Dict[str, str]] = None) -> "subprocess.CompletedProcess[str]":
    """What `python3 -m mi_client` does with these words; `variables` are those of its environment that are to be others."""
    env = {**environment(), **(variables or {})}
    return subprocess.run([sys.executable, "-m", "mi_client", *words], input=typed, capture_output=True, text=True, env=env, timeout=60)
