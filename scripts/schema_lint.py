#!/usr/bin/env python3
"""Checks schemas and names the members and lines at fault: the linter of the Python tools, `weltiyo-lint`, by the checkout's own program.

    schema_lint.py [--program FILE] SCHEMA.toml .."""
import sys

import program

sys.path.insert(0, f"{program.TOP}/clients/python")
from mi_client import toml_places  # noqa: E402, F401
from mi_tools.lint import main, places  # noqa: E402, F401

if __name__ == "__main__":
    sys.exit(main(program.program))
