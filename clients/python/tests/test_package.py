"""The package: pip without network, hints, and the house's rules for files."""
import ast
import glob
import importlib
import importlib.util
import inspect
import os
import shutil
import subprocess
import sys
import typing
import unittest
import venv
from typing import Set

import kit

import mi_client
from mi_tools import web_http

PACKAGES = ["mi_client", "mi_tools", "mi_replica"]
MODULES = sorted(it for package in PACKAGES for it in glob.glob(f"{kit.CLIENT}/{package}/*.py"))
LINTER = f"{kit.CLIENT}/mi_tools/lint.py"
"""It has no hints."""
INSTALLED = ["README.md", "pyproject.toml", "build_backend.py"]
"""What `make install` copies beside the modules and py.typed."""


class Pip(unittest.TestCase):
    def test_in_a_fresh_environment(self) -> None:
        """From a checkout, from an installed tree, and as a link to a checkout; nothing is fetched, and nothing is left behind."""
        if not importlib.util.find_spec("pip"):
            self.skipTest("this Python has no pip")
        folder = kit.folder(self)
        venv.create(f"{folder}/venv", symlinks=True)
        for it in INSTALLED:
            os.makedirs(f"{folder}/share", exist_ok=True)
            shutil.copy(f"{kit.CLIENT}/{it}", f"{folder}/share/")
        for it in [*MODULES, web_http.PAGE, *(f"{kit.CLIENT}/{package}/py.typed" for package in PACKAGES)]:
            os.makedirs(f"{folder}/share/{os.path.basename(os.path.dirname(it))}", exist_ok=True)
            shutil.copy(it, f"{folder}/share/{os.path.basename(os.path.dirname(it))}/")
        schema = f"{kit.TOP}/examples/shop.toml"
        before = sorted(os.listdir(kit.CLIENT))
        for words in [[kit.CLIENT], [f"{folder}/share"], ["-e", kit.CLIENT]]:
            with self.subTest(words):
                self.pip(folder, "install", "--no-index", "--no-compile", "--force-reinstall", *words)
                self.assertEqual(self.run_in(folder, "weltiyo", "--version"), f"weltiyo {mi_client.__version__}\n")
                said = self.run_in(folder, "weltiyo", typed='{"cmd":"size"}\n')
                self.assertEqual(said, '{"ok":true,"size":0}\n')
                self.assertEqual(self.run_in(folder, "weltiyo-lint", schema), f"{schema}: ok\n")
                self.assertIn("--etcd URL,..", self.run_in(folder, "weltiyo-replica", "--help"))
                code = "import mi_client, os; print(os.path.exists(os.path.dirname(mi_client.__file__) + '/py.typed'), mi_client.__version__)"
                self.assertEqual(self.run_in(folder, "python", "-c", code), f"True {mi_client.__version__}\n")
                code = "from mi_tools import web_http; print(open(web_http.PAGE).read().startswith('<!DOCTYPE html>'))"
                self.assertEqual(self.run_in(folder, "python", "-c", code), "True\n")
        self.pip(folder, "uninstall", "--yes", "weltiyo")
        self.assertFalse(os.path.exists(f"{folder}/venv/bin/weltiyo"))
        self.assertEqual([it for it in sorted(os.listdir(kit.CLIENT)) if it not in before and it != "__pycache__"], [])

    def pip(self, folder: str, *words: str) -> None:
        """The pip of this Python, at work in the new environment (a pip of its own would take ten seconds more)."""
        how = [sys.executable, "-m", "pip", "--python", f"{folder}/venv/bin/python", "--disable-pip-version-check", "--quiet"]
        ran = subprocess.run([*how, *words], cwd=folder, capture_output=True, text=True, timeout=120)
        self.assertEqual(ran.returncode, 0, ran.stderr)

    def run_in(self, folder: str, program: str, *words: str, typed: str = "") -> str:
        env = {name: it for name, it in kit.environment().items() if name != "PYTHONPATH"}
        how = {"cwd": folder, "env": env, "capture_output": True, "text": True, "timeout": 120, "input": typed}
        ran = subprocess.run([f"{folder}/venv/bin/{program}", *words], **how)  # type: ignore[call-overload]
        self.assertEqual((ran.returncode, ran.stderr), (0, ""), words)
        return str(ran.stdout)

    def test_one_version(self) -> None:
        with open(f"{kit.CLIENT}/pyproject.toml", encoding="utf-8") as file:
            self.assertIn(f'version = "{mi_client.__version__}"\n', file.read())


class Layers(unittest.TestCase):
    """The client knows no tool, and the tools no member of a ledger, so who embeds the client reads its modules alone."""

    ABOVE = {"mi_client": {"mi_tools", "mi_replica"}, "mi_tools": {"mi_replica"}}
    HANDS_ON = f"{kit.CLIENT}/mi_client/__main__.py"
    """The command `python3 -m mi_client`, which no module may import."""

    def imported(self, text: str) -> Set[str]:
        """The modules that a module imports anywhere, by their whole names."""
        found: Set[str] = set()
        for it in ast.walk(ast.parse(text)):
            if isinstance(it, ast.Import):
                found.update(name.name for name in it.names)
            elif isinstance(it, ast.ImportFrom):
                self.assertEqual(it.level, 0, text)
                found.update([str(it.module), *(f"{it.module}.{name.name}" for name in it.names)])
        return found

    def test_the_reading_of_imports(self) -> None:
        text = "import os\nif os:\n    import mi_tools.show as s, re\ndef f():\n    from mi_client import calls, __main__\n"
        self.assertEqual(self.imported(text), {"os", "re", "mi_tools.show", "mi_client", "mi_client.calls", "mi_client.__main__"})

    def test_none_imports_what_stands_above_it(self) -> None:
        for path in (it for it in MODULES if it != self.HANDS_ON):
            package = os.path.basename(os.path.dirname(path))
            with open(path, encoding="utf-8") as file:
                text = file.read()
            found = self.imported(text)
            self.assertEqual({it for it in found if it.split(".")[0] in self.ABOVE.get(package, ())}, set(), path)
            self.assertNotIn("mi_client.__main__", found, path)
            if package == "mi_client":  # (nor by a text)
                self.assertEqual(found & {"importlib", "runpy"}, set(), path)
                self.assertNotIn("__import__", text, path)


class Sources(unittest.TestCase):
    def test_every_function_has_hints(self) -> None:
        lacking = []
        for path in [*(it for it in MODULES if it != LINTER), f"{kit.CLIENT}/build_backend.py"]:
            with open(path, encoding="utf-8") as file:
                tree = ast.parse(file.read(), path, feature_version=(3, 9))
            for it in ast.walk(tree):
                if isinstance(it, (ast.FunctionDef, ast.AsyncFunctionDef)):
                    args = [*it.args.posonlyargs, *it.args.args, *it.args.kwonlyargs, it.args.vararg, it.args.kwarg]
                    bare = [arg.arg for arg in args if arg and arg.annotation is None and arg.arg not in ("self", "cls")]
                    if bare or it.returns is None:
                        lacking.append(f"{os.path.basename(path)}:{it.lineno} {it.name} {bare}")
        self.assertEqual(lacking, [])

    def test_every_hint_names_what_is_there(self) -> None:
        for path in MODULES:
            name = os.path.basename(path)[:-3]
            if name in ("__main__", "lint"):
                continue
            module = importlib.import_module(f"{os.path.basename(os.path.dirname(path))}.{name}")
            kinds = [it for it in vars(module).values() if inspect.isclass(it) and it.__module__ == module.__name__]
            for it in [module, *kinds]:
                for what in vars(it).values():
                    what = getattr(what, "__func__", what)
                    if inspect.isfunction(what) and what.__module__ == module.__name__ and not hasattr(what, "__wrapped__"):
                        if name != "dialect" or what.__name__ != "sent_by":  # (which has hints that checkers alone know)
                            typing.get_type_hints(what)

    def test_files_are_small_and_say_what_they_are(self) -> None:
        for path in [*MODULES, *glob.glob(f"{kit.HERE}/*.py"), f"{kit.CLIENT}/build_backend.py"]:
            with open(path, encoding="utf-8") as file:
                text = file.read()
            self.assertLessEqual(text.count("\n"), 400, path)
            self.assertLessEqual(max(map(len, text.split("\n"))), 160, path)
            self.assertTrue(ast.get_docstring(ast.parse(text)), path)

    def test_nothing_is_run_that_was_made_of_texts(self) -> None:
        for path in MODULES:
            with open(path, encoding="utf-8") as file:
                named = {it.id for it in ast.walk(ast.parse(file.read())) if isinstance(it, ast.Name)}
            self.assertEqual(named & {"eval", "exec", "compile"}, set(), path)

    def test_a_checker_agrees(self) -> None:
        """mypy or pyright, where one is there."""
        words = [sys.executable, "-m", "mypy"] if importlib.util.find_spec("mypy") else [shutil.which("mypy") or shutil.which("pyright") or ""]
        if not words[0]:
            self.skipTest("neither mypy nor pyright is there")
        strict = ["--strict", "--python-version", "3.9"] if "mypy" in words[-1] else []
        folders = [f"{kit.CLIENT}/{it}" for it in PACKAGES]
        ran = subprocess.run([*words, *strict, *folders], capture_output=True, text=True, timeout=300)
        self.assertEqual(ran.returncode, 0, ran.stdout)


if __name__ == "__main__":
    unittest.main()
