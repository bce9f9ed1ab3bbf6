"""The command `weltiyo`: the prompt, and the tools by their names. `python3 -m mi_client` hands on to it."""
from __future__ import annotations

import contextlib
import importlib
import os
import signal
import sys
from typing import List, Optional

import mi_client

TOOLS = {
    "prompt": ("prompt", "main", "asks commands by lines: history, completion, help (this is meant where no tool is named)"),
    "dump": ("transfer", "main_dump", "writes the rows of all tables as JSON lines"),
    "load": ("transfer", "main_load", "inserts the rows that dump has written"),
    "export": ("transfer", "main_export", "writes the rows of a table as CSV or JSON lines"),
    "import": ("transfer", "main_import", "inserts the rows of a CSV file or of JSON lines"),
    "top": ("top", "main", "shows a running server: rows, memory, bytes a second, sessions and who holds them"),
    "metrics": ("top", "main_metrics", "the same once, as text that Prometheus reads"),
    "status": ("top", "main_status", "shows the connections of a running service, and who of them holds sessions"),
    "plot": ("plot", "main", "draws how an index is distributed, or a column along a ranked index"),
    "web": ("web", "main", "shows the tables of a running server in a browser"),
}
"""Each tool with its module, the function that takes the words behind its name, and a line on it."""


def usage() -> str:
    width = max(map(len, TOOLS))
    lines = [f"  {name:{width}}  {about}" for name, (_, _, about) in TOOLS.items()]
    return "\n".join(["usage: weltiyo [TOOL] [OPTION ..]", "", *lines, "", "`weltiyo TOOL --help` says more; `weltiyo --version` the version"])


def main(words: Optional[List[str]] = None) -> int:
    try:
        status = ran(sys.argv[1:] if words is None else words)
        sys.stdout.flush()
        return status
    except SystemExit:
        with contextlib.suppress(BrokenPipeError):
            sys.stdout.flush()
            raise
        return broken_pipe()
    except BrokenPipeError:
        return broken_pipe()


def broken_pipe() -> int:
    """The status where nobody reads on, as of `| head`: that of a program which the signal ends. Nothing is said, neither at Python's own end."""
    with contextlib.suppress(OSError, ValueError):
        os.dup2(os.open(os.devnull, os.O_WRONLY), sys.stdout.fileno())
    return 128 + signal.SIGPIPE


def ran(words: List[str]) -> int:
    """What the tool that is named answers. Raises SystemExit, and BrokenPipeError."""
    if words[:1] == ["--version"]:
        print(f"weltiyo {mi_client.__version__}")
        return 0
    if words[:1] in (["help"], ["--help"], ["-h"]):
        print(usage())
        return 0
    tool = words[0] if words and words[0] in TOOLS else "prompt"
    if tool == "prompt" and words and not words[0].startswith("-") and words[0] not in TOOLS:
        print(f"weltiyo: there is no tool {words[0]}\n\n{usage()}", file=sys.stderr)
        return 2
    module, function, _ = TOOLS[tool]
    run = getattr(importlib.import_module(f"mi_tools.{module}"), function)
    status: int = run(words[1:] if words and words[0] == tool else words)
    return status
