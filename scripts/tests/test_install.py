"""What `make install` copies: that it works from there, has no broken link, and has pages and completion that can be read."""
import glob
import os
import re
import shutil
import subprocess
import sys
import tempfile
import unittest

TOP = os.path.dirname(os.path.dirname(os.path.dirname(os.path.realpath(__file__))))
sys.path.insert(0, f"{TOP}/scripts")

import program  # noqa: E402

LINK = re.compile(r"\]\(([^)#:]+)(?:#[^)]*)?\)")
COMMANDS = ("mi_server", "mi_service", "weltiyo", "weltiyo-lint")


def offered_by_zsh(text, tool):
    """The options of a tool in the text of the completion: its own, or the prompt's where it has none, and those of the lists that it names."""
    whole = re.MULTILINE | re.DOTALL
    own = (re.search(rf"^ {{12}}{tool}\)(.*?);;", text, whole) or re.search(r"^ {12}\*\)(.*?);;", text, whole))[1]
    lists = [re.search(rf"^{name}=\((.*?)\)$", text, whole)[1] for name in ("all", "rows", "source", "ids") if f"${name}" in own]
    return set(re.findall(r"(--[a-z-]+)[\[}]", "".join([own, *lists])))


class Installed(unittest.TestCase):
    @classmethod
    def setUpClass(cls):
        cls.top = tempfile.mkdtemp()
        cls.addClassCleanup(shutil.rmtree, cls.top)
        cls.root = f"{cls.top}/usr"
        cls.env = {it: value for it, value in os.environ.items() if it not in ("MI_SERVER", "MAKEFLAGS", "MFLAGS", "MAKELEVEL", "PYTHONPATH")}
        words = ["make", "-C", TOP, "install", f"DESTDIR={cls.top}", "PREFIX=/usr", f"PROGRAM={program.program()}"]
        ran = subprocess.run(words, env=cls.env, capture_output=True, text=True)
        assert ran.returncode == 0, ran.stderr

    def ran(self, *words, asked="", cwd=None):
        return subprocess.run(words, env=self.env, input=asked, capture_output=True, text=True, cwd=cwd or self.top, timeout=60)

    def test_no_link_is_broken(self):
        broken = []
        documents = glob.glob(f"{self.root}/share/weltiyo/**/*.md", recursive=True)
        for document in documents:
            with open(document, encoding="utf-8") as file:
                named = set(LINK.findall(file.read()))
            broken += [(os.path.relpath(document, self.root), it) for it in named if not os.path.exists(f"{os.path.dirname(document)}/{it}")]
        self.assertGreater(len(documents), 8)
        self.assertEqual(broken, [])

    def test_the_programs_work(self):
        said = self.ran(f"{self.root}/bin/weltiyo", asked='{"cmd":"size"}\n')
        self.assertEqual((said.returncode, said.stdout), (0, '{"ok":true,"size":0}\n'), said.stderr)
        with open(f"{self.top}/bad.toml", "w", encoding="utf-8") as file:
            file.write("table = 1\n")
        said = self.ran(f"{self.root}/bin/weltiyo-lint", "bad.toml", f"{self.root}/share/weltiyo/examples/shop.toml")
        self.assertEqual(said.returncode, 3, said.stderr)
        self.assertIn("bad.toml:1: table is a whole number, and a text is wanted", said.stdout)
        self.assertIn("shop.toml: ok", said.stdout)
        # (a link to a program elsewhere on the PATH)
        os.symlink(f"{self.root}/bin/weltiyo", f"{self.top}/prompt")
        self.assertEqual(self.ran(f"{self.top}/prompt", asked='{"cmd":"size"}\n').stdout, '{"ok":true,"size":0}\n')

    def test_the_scripts_have_what_they_import(self):
        for name in sorted(it for it in os.listdir(f"{self.root}/share/weltiyo/scripts") if it.endswith(".py")):
            said = self.ran(sys.executable, "-c", f"import {name[:-3]}", cwd=f"{self.root}/share/weltiyo/scripts")
            self.assertEqual((said.returncode, said.stderr), (0, ""), name)

    def test_no_module_of_the_current_folder_is_taken(self):
        """In one whose modules have the names of those that the programs import, and would end them."""
        folder = f"{self.top}/here"
        os.mkdir(folder)
        for name in ("json", "csv", "argparse", "subprocess", "typing", "socket", "re", "runpy", "program", "mi_client", "mi_tools"):
            with open(f"{folder}/{name}.py", "w", encoding="utf-8") as file:
                file.write("raise SystemExit('the current folder was looked at')\n")
        said = self.ran(f"{self.root}/bin/weltiyo", asked='{"cmd":"size"}\n', cwd=folder)
        self.assertEqual((said.returncode, said.stdout), (0, '{"ok":true,"size":0}\n'), said.stderr)
        for words in (["weltiyo", "top", "--help"], ["weltiyo", "import", "--help"], ["weltiyo", "plot", "--help"], ["weltiyo-lint", "--help"]):
            said = self.ran(f"{self.root}/bin/{words[0]}", *words[1:], cwd=folder)
            self.assertEqual((said.returncode, said.stderr), (0, ""), words)
        said = self.ran("env", "PYTHONSAFEPATH=1", f"{self.root}/bin/weltiyo", "--version", cwd=folder)
        self.assertEqual((said.returncode, said.stderr), (0, ""))

    def test_each_has_a_page(self):
        for name in COMMANDS:
            page = f"{self.root}/share/man/man1/{name}.1"
            self.assertTrue(os.path.isfile(page))

    @unittest.skipUnless(shutil.which("groff"), "groff isn't there")
    def test_groff_takes_each_page(self):
        for name in COMMANDS:
            said = self.ran("groff", "-man", "-Tutf8", "-ww", f"{self.root}/share/man/man1/{name}.1")
            self.assertEqual((said.returncode, said.stderr), (0, ""))

    def test_the_page_has_each_option(self):
        with open(f"{self.root}/share/man/man1/mi_server.1", encoding="utf-8") as file:
            page = file.read().replace("\\-", "-")
        listed = set(re.findall(r"--\w+", self.ran(f"{self.root}/bin/mi_server", "--help").stderr))
        self.assertTrue(listed)
        self.assertEqual({it for it in listed if it not in page}, set())

    def test_the_python_programs_pages_have_their_options(self):
        """And no others: each stands at the head of a paragraph."""
        for name, more in (("weltiyo", {"--version"}), ("weltiyo-lint", set())):
            words = ("prompt", "--help") if name == "weltiyo" else ("--help",)
            listed = set(re.findall(r"--[a-z-]+", self.ran(f"{self.root}/bin/{name}", *words).stdout))
            with open(f"{self.root}/share/man/man1/{name}.1", encoding="utf-8") as file:
                heads = re.findall(r"^\.TP\n(.*)$", file.read().replace("\\-", "-"), re.MULTILINE)
            self.assertEqual(set(re.findall(r"--[a-z-]+", " ".join(heads))), listed | more, name)

    def test_the_service_s_options_are_everywhere(self):
        """Its page, and both completions, by the options that its words are read by."""
        listed = {"--help"}
        for name in ("words", "move_words"):
            with open(f"{TOP}/crates/mi_serving/src/{name}.rt", encoding="utf-8") as file:
                listed |= {f"--{it}" for it in re.findall(r'arg\((?:option|number|flag)\(\s*alloc,\s*"([\w-]+)"', file.read())}
        self.assertEqual(len(listed), 12)
        with open(f"{self.root}/share/man/man1/mi_service.1", encoding="utf-8") as page, \
                open(f"{self.root}/share/zsh/site-functions/_weltiyo", encoding="utf-8") as by_zsh:
            for text in (page.read().replace("\\-", "-"), by_zsh.read()):
                self.assertEqual({it for it in listed if it not in text}, set())
        self.assertEqual(set(self.completed("mi_service", "-")), listed)

    def completed(self, *words):
        """What bash offers for the last of these words."""
        text = 'source "$1"; shift; COMP_WORDS=("$@"); COMP_CWORD=$(($# - 1)); _weltiyo "$1"; printf "%s\\n" "${COMPREPLY[@]}"'
        file = f"{self.root}/share/bash-completion/completions/{os.path.basename(words[0])}"
        return self.ran("bash", "--norc", "-c", text, "bash", file, *words).stdout.split()

    def test_completion_by_bash(self):
        listed = set(re.findall(r"--\w+", self.ran(f"{self.root}/bin/mi_server", "--help").stderr))
        self.assertEqual(set(self.completed("mi_server", "")), listed)
        self.assertEqual(self.completed("mi_server", "--li"), ["--listen"])
        examples = f"{self.root}/share/weltiyo/examples"
        self.assertEqual(self.completed("/usr/bin/mi_server", "--schema", f"{examples}/sh"), [f"{examples}/shop.toml"])
        self.assertEqual(self.completed("mi_service", "--j"), ["--journal"])
        self.assertEqual(self.completed("mi_service", "--sync", "t"), ["turn"])
        self.assertEqual(self.completed("weltiyo-lint", f"{examples}/a"), [f"{examples}/accounts.toml"])
        self.assertEqual(self.completed("weltiyo", "--c"), ["--connect"])
        self.assertEqual(self.completed("weltiyo", "m"), ["metrics"])
        self.assertEqual(self.completed("weltiyo", "export", "--format", "c"), ["csv"])
        # (tools and --version are taken as the first word alone)
        for before in (["--connect", "8000"], ["--tables"]):
            self.assertEqual(set(self.completed("weltiyo", *before, "")), set(self.completed("weltiyo", "prompt", "")), before)
        self.assertIn("--version", self.completed("weltiyo", "--v"))

    def test_completion_has_each_tool_s_options(self):
        said = self.ran(f"{self.root}/bin/weltiyo", "--help").stdout
        tools = re.findall(r"^  (\w+) ", said, re.MULTILINE)
        self.assertIn("prompt", tools)
        self.assertEqual({it for it in self.completed("weltiyo", "") if it[0] != "-"}, set(tools))
        with open(f"{self.root}/share/zsh/site-functions/_weltiyo", encoding="utf-8") as file:
            by_zsh = file.read()
        for tool in tools:
            listed = set(re.findall(r"^  (?:-h, )?(--[a-z-]+)", self.ran(f"{self.root}/bin/weltiyo", tool, "--help").stdout, re.MULTILINE))
            self.assertEqual(set(self.completed("weltiyo", tool, "-")), listed, tool)
            self.assertEqual(offered_by_zsh(by_zsh, tool), listed, tool)

    @unittest.skipUnless(shutil.which("zsh"), "zsh isn't there")
    def test_completion_by_zsh(self):
        """It can be read, and stands for each program."""
        file = f"{self.root}/share/zsh/site-functions/_weltiyo"
        self.assertEqual(self.ran("zsh", "-n", file).returncode, 0)
        text = f'fpath=({self.root}/share/zsh/site-functions $fpath); autoload -Uz compinit; compinit -u -D; print -l $_comps[mi_server] $_comps[mi_service] $_comps[weltiyo-lint]'
        self.assertEqual(self.ran("zsh", "-f", "-c", text).stdout.split(), ["_weltiyo"] * 3)


if __name__ == "__main__":
    unittest.main()
