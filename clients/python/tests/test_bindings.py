"""The bindings of C, C++ and Rust where the library isn't built: all of their sources compile, and what they do with handles and pages is right
over a library that stands in for it, clients/cpp/tests/stand_in.cpp, which ends a process that gives it a handle that isn't open."""
import glob
import os
import shutil
import subprocess
import tempfile
import unittest

import kit

CLIENTS = f"{kit.TOP}/clients"
STRICT = ["-Wall", "-Wextra", "-Werror", "-pedantic"]
HEADERS = [f"-I{CLIENTS}/c", f"-I{CLIENTS}/cpp"]
LONGEST_RUN = 120


class Binding(unittest.TestCase):
    def ran(self, *words, **how):
        """What a program writes that is to end with 0."""
        ran = subprocess.run(words, capture_output=True, text=True, timeout=LONGEST_RUN, **how)
        self.assertEqual(ran.returncode, 0, f"{' '.join(words)}: {ran.stdout}{ran.stderr}")
        return ran.stdout


class C(Binding):
    def test_it_compiles(self):
        sources = glob.glob(f"{CLIENTS}/c/**/*.c", recursive=True)
        self.assertTrue(sources)
        self.ran(kit.compiler("CC", "cc"), "-std=c99", *STRICT, "-fsyntax-only", *HEADERS, *sources)


class Cpp(Binding):
    def test_it_compiles(self):
        # (but for those that are compiled below)
        others = {f"{CLIENTS}/cpp/tests/{it}.cpp" for it in ("moves", "stand_in", "chainbase_accounts")}
        sources = set(glob.glob(f"{CLIENTS}/cpp/**/*.cpp", recursive=True)) - others
        self.assertTrue(sources)
        self.ran(kit.compiler("CXX", "c++"), "-std=c++20", *STRICT, "-fsyntax-only", *HEADERS, *sources)

    def test_moves(self):
        made, library = f"{kit.folder(self)}/moves", kit.stand_in()
        words = [kit.compiler("CXX", "c++"), "-std=c++17", *STRICT, *HEADERS, f"{CLIENTS}/cpp/tests/moves.cpp"]
        self.ran(*words, f"-L{library}", "-lweltiyo", f"-Wl,-rpath,{library}", "-o", made)
        self.assertEqual(self.ran(made), "ok\n")

    def test_the_program_of_chainbase(self):
        """The page that has it beside ours shows this program. It runs over Boost's containers and a stand-in for chainbase."""
        path, compiler = f"{CLIENTS}/cpp/tests/chainbase_accounts", kit.compiler("CXX", "c++")
        with open(f"{path}.cpp", encoding="utf-8") as source, open(f"{kit.TOP}/docs/COMING_FROM.md", encoding="utf-8") as page:
            self.assertIn(f"```cpp\n{source.read()}```", page.read())
        words = [compiler, "-std=c++17", "-fsyntax-only", "-include", "boost/multi_index_container.hpp", "-xc++", "/dev/null"]
        if subprocess.run(words, capture_output=True).returncode:
            self.skipTest("Boost's containers aren't there: `apt-get install libboost-dev` brings them")
        made = f"{kit.folder(self)}/accounts"
        self.ran(compiler, "-std=c++17", *STRICT, f"-I{CLIENTS}/cpp/tests", f"{path}.cpp", "-o", made)
        with open(f"{path}.out", encoding="utf-8") as out:
            self.assertEqual(self.ran(made), out.read())


@unittest.skipUnless(shutil.which("cargo") and shutil.which("rustc"), "cargo and rustc aren't there")
class Rust(Binding):
    @classmethod
    def setUpClass(cls):
        cls.library = kit.stand_in()
        made = tempfile.TemporaryDirectory()
        cls.addClassCleanup(made.cleanup)
        # (cargo writes beside what it builds)
        cls.crate = shutil.copytree(f"{CLIENTS}/rust", f"{made.name}/crate", ignore=shutil.ignore_patterns("target", "Cargo.lock"))
        cls.target = f"{made.name}/target"

    def cargo(self, verb, *words, **variables):
        env = {it: value for it, value in os.environ.items() if it not in ("WELTIYO_LIBRARY_DIR", "PKG_CONFIG_PATH")}
        env.update(variables, LD_LIBRARY_PATH=self.library, CARGO_TARGET_DIR=self.target, CARGO_NET_OFFLINE="true")
        self.ran("cargo", verb, "--quiet", "--offline", *words, cwd=self.crate, env=env)

    def test_it_compiles(self):
        self.cargo("check", "--all-targets", WELTIYO_LIBRARY_DIR=self.library)

    @unittest.skipUnless(shutil.which("cargo-clippy"), "clippy isn't there")
    def test_it_is_well_with_clippy(self):
        self.cargo("clippy", "--all-targets", "--", "-D", "warnings", WELTIYO_LIBRARY_DIR=self.library)

    def test_moves(self):
        self.cargo("test", "--test", "moves", WELTIYO_LIBRARY_DIR=self.library)

    def test_the_library_is_looked_for_again_where_pkg_config_looks_elsewhere(self):
        folder = kit.folder(self)
        with open(f"{folder}/pkg-config", "w", encoding="ascii") as file:
            file.write('#!/bin/sh\necho "$PKG_CONFIG_PATH"\n')
        os.chmod(file.name, 0o755)
        for wanted in (f"{folder}/one", f"{folder}/two"):
            os.mkdir(wanted)
            self.cargo("check", PATH=f"{folder}:{os.environ['PATH']}", PKG_CONFIG_PATH=wanted)
            said = max(glob.glob(f"{self.target}/debug/build/weltiyo-*/output"), key=os.path.getmtime)
            with open(said, encoding="utf-8") as file:
                self.assertIn(f"cargo:rustc-link-search=native={wanted}\n", file.read())


if __name__ == "__main__":
    unittest.main()
