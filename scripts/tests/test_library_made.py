"""That the library can be built, copied, installed and packed wherever it is to stand: in a copy of this tree, by a command `rt` that is made
here and whose library has one call."""
import glob
import os
import re
import shlex
import shutil
import subprocess
import sys
import tarfile
import tempfile
import unittest

TOP = os.path.dirname(os.path.dirname(os.path.dirname(os.path.realpath(__file__))))
COMPILER = os.environ.get("CC", "cc")
NEEDED = (shlex.split(COMPILER)[0], "ar", "make")
LACKING = ", ".join(it for it in NEEDED if not shutil.which(it))
LIBRARY = "without the library, which isn't there or isn't up to date: `make lib` makes it"
SERVICE = "without mi_service, which isn't there or isn't up to date: `make service` makes it"

# It proves nothing; `lib` makes an archive of the call, `doc` says where the rest is that the call needs, and `run` makes a program.
RT = """#!/bin/sh
case "$1" in
    doc) echo "$FAKE/doc" ;;
    lib) mkdir -p out && cp "$FAKE/calls.a" out/libweltiyo.a ;;
    run) cp /bin/true "out/$(basename "$PWD")" ;;
esac
"""
CALLS = """#include "weltiyo.h"
int of_the_kit(void);
void weltiyo_close(weltiyo_db *handle) { if (handle) of_the_kit(); }
"""
USE = """#include <weltiyo.h>
int main(void) { weltiyo_close(0); return 7; }
"""


@unittest.skipIf(LACKING, f"{LACKING} isn't there")
class Made(unittest.TestCase):
    @classmethod
    def setUpClass(cls):
        cls.top = os.path.realpath(tempfile.mkdtemp())
        cls.addClassCleanup(shutil.rmtree, cls.top)
        # (as from a shell, also where make runs this)
        outside = {name: it for name, it in os.environ.items() if not name.startswith(("MAKEFLAGS", "MFLAGS", "MAKELEVEL", "PKG_CONFIG"))}
        cls.env = {**outside, "FAKE": cls.top, "RT": f"{cls.top}/rt", "PYTHON": sys.executable}
        cls.write("rt", RT)
        os.chmod(f"{cls.top}/rt", 0o755)
        cls.tree = f"{cls.top}/tree"
        for it in ("docs", "bench", "examples", "clients", "scripts"):
            shutil.copytree(f"{TOP}/{it}", f"{cls.tree}/{it}", ignore=shutil.ignore_patterns("tests", "target", "__pycache__"))
        for it in (f"{TOP}/Makefile", *glob.glob(f"{TOP}/*.md")):
            shutil.copy(it, cls.tree)
        for it in ("mi_server", "mi_service", "weltiyo"):
            cls.write(f"tree/crates/{it}/src/lib.rt", "")
        cls.write("tree/crates.txt", "mi_server:\nmi_service:\nweltiyo:\n")
        cls.write("tree/clients/c/weltiyo.map", "{ global: weltiyo_close; local: *; };\n")
        cls.write("use.c", USE)
        cls.archive("calls.a", CALLS)
        cls.archive("c/liblibc_c.a", "int of_the_kit(void) { return 1; }\n")
        ran = cls.make(cls.tree, "lib")
        assert ran.returncode == 0, ran.stderr

    @classmethod
    def write(cls, name, text):
        os.makedirs(os.path.dirname(f"{cls.top}/{name}"), exist_ok=True)
        with open(f"{cls.top}/{name}", "w", encoding="utf-8") as file:
            file.write(text)

    @classmethod
    def archive(cls, name, text):
        cls.write(f"{name}.c", text)
        file = f"{cls.top}/{name}"
        subprocess.run([*shlex.split(COMPILER), "-fPIC", f"-I{TOP}/clients/c", "-c", f"{file}.c", "-o", f"{file}.o"], check=True)
        subprocess.run(["ar", "rcs", file, f"{file}.o"], check=True)

    @classmethod
    def make(cls, tree, *words):
        return subprocess.run(["make", "-C", tree, *words], env=cls.env, capture_output=True, text=True, timeout=60)

    def copied(self, name="copy"):
        """The tree elsewhere, with what was built in it."""
        folder = tempfile.mkdtemp(dir=self.top)
        return shutil.copytree(self.tree, f"{folder}/{name}", symlinks=True)

    def path(self, tree):
        """The folder of the library, where it is up to date."""
        ran = subprocess.run([sys.executable, f"{tree}/scripts/library.py", "path"], env=self.env, capture_output=True, text=True, timeout=60)
        self.assertEqual(ran.returncode, 0, ran.stderr)
        return ran.stdout.strip()

    def told(self, folder, *words):
        """What pkg-config tells of the library by the weltiyo.pc of a folder."""
        env = {**self.env, "PKG_CONFIG_PATH": folder}
        return subprocess.run(["pkg-config", *words, "weltiyo"], env=env, capture_output=True, text=True, check=True, timeout=60).stdout

    def is_used(self, folder, include, lib):
        """A program that asks for its flags finds the header and the library there, and so do those that ask for the folder alone."""
        flags = shlex.split(self.told(folder, "--cflags", "--libs"))
        self.assertEqual([(it[:2], os.path.realpath(it[2:])) for it in flags[:2]], [("-I", include), ("-L", lib)])
        self.assertEqual(flags[2:], ["-lweltiyo"])
        made = f"{tempfile.mkdtemp(dir=self.top)}/use"
        subprocess.run([*shlex.split(COMPILER), f"{self.top}/use.c", *flags, f"-Wl,-rpath,{lib}", "-o", made], check=True, timeout=60)
        self.assertEqual(subprocess.run([made], timeout=60).returncode, 7)
        self.assertEqual(os.path.realpath(self.told(folder, "--variable=libdir").strip().replace("\\ ", " ")), lib)

    def test_a_path_with_a_space(self):
        tree = self.copied("a copy")
        shutil.rmtree(f"{tree}/out")
        ran = self.make(tree, "lib")
        self.assertEqual(ran.returncode, 0, ran.stderr)
        self.assertEqual(sorted(os.listdir(f"{tree}/out/library")), sorted(os.listdir(f"{self.tree}/out/library")))

    @unittest.skipUnless(shutil.which("pkg-config"), "pkg-config isn't there")
    def test_a_copied_tree_has_its_own_library(self):
        for name in ("copy", "a copy"):
            made = f"{self.copied(name)}/out/library"
            self.assertEqual(self.path(os.path.dirname(os.path.dirname(made))), made)
            self.is_used(made, made, made)

    def test_a_library_without_its_links_is_not_fresh(self):
        for name in ("libweltiyo.so", "libweltiyo.so.0"):
            tree = self.copied()
            self.assertEqual(self.path(tree), f"{tree}/out/library")
            os.remove(f"{tree}/out/library/{name}")
            self.assertEqual(self.path(tree), "", name)
            ran = self.make(tree, "install", "PROGRAM=/bin/true", f"DESTDIR={tree}/put", "PREFIX=/usr")
            self.assertEqual((ran.returncode, ran.stderr), (0, ""))
            self.assertIn(LIBRARY, ran.stdout)
            os.symlink("/nowhere", f"{tree}/out/library/{name}")
            self.assertEqual(self.path(tree), "", name)
            self.assertEqual(self.make(tree, "lib").returncode, 0)
            self.assertEqual(self.path(tree), f"{tree}/out/library")

    def test_modes_are_fixed(self):
        """Whatever those of the sources are, and the user's umask: what is there is read by all, and there a second time too."""
        tree = self.copied()
        shutil.rmtree(f"{tree}/out")
        os.chmod(f"{tree}/clients/c/weltiyo.h", 0o600)
        text = 'umask 077 && make -C "$1" lib && make -C "$1" install PROGRAM=/bin/true DESTDIR="$1/put" PREFIX=/usr'
        for _ in range(2):
            ran = subprocess.run(["sh", "-c", text, "sh", tree], env=self.env, capture_output=True, text=True, timeout=60)
            self.assertEqual(ran.returncode, 0, ran.stderr)
        self.assertTrue(os.path.isfile(f"{tree}/put/usr/lib/libweltiyo.so"))
        self.assertTrue(os.path.isfile(f"{tree}/put/usr/lib/pkgconfig/weltiyo.pc"))
        wrong = {}
        for folder, folders, files in os.walk(f"{tree}/put"):
            for it in (*folders, *files):
                path = f"{folder}/{it}"
                mode = os.lstat(path).st_mode & 0o7777
                runs = it in folders or "/bin/" in path or ".so." in path
                if not os.path.islink(path) and mode != (0o755 if runs else 0o644):
                    wrong[path] = oct(mode)
        self.assertEqual(wrong, {})

    def unpacked(self, tree):
        """The lines of `make dist`, and what its archive has, unpacked elsewhere."""
        ran = self.make(tree, "dist", "PROGRAM=/bin/true")
        self.assertEqual((ran.returncode, ran.stderr), (0, ""))
        folder = tempfile.mkdtemp(dir=self.top)
        with tarfile.open(f"{tree}/out/weltiyo.tar.gz") as file:
            file.extractall(folder, **({"filter": "tar"} if hasattr(tarfile, "tar_filter") else {}))
        lines = [it for it in ran.stdout.splitlines() if not re.match(r"make(\[\d+\])?: ", it)]
        return lines, f"{folder}/weltiyo"

    @unittest.skipUnless(shutil.which("pkg-config"), "pkg-config isn't there")
    def test_an_unpacked_archive_is_used_where_it_stands(self):
        _, put = self.unpacked(self.copied())
        self.is_used(f"{put}/lib/pkgconfig", f"{put}/include", f"{put}/lib")

    def test_a_dist_tells_what_it_leaves_out(self):
        tree, made = self.copied(), "made out/weltiyo.tar.gz"
        lines, put = self.unpacked(tree)
        self.assertEqual(lines, [SERVICE, made])
        self.assertTrue(os.path.isfile(f"{put}/lib/libweltiyo.a"))
        shutil.rmtree(f"{tree}/out")
        lines, put = self.unpacked(tree)
        self.assertEqual(lines, [SERVICE, LIBRARY, made])
        self.assertFalse(os.path.exists(f"{put}/lib"))
        words = [sys.executable, f"{tree}/scripts/program.py", "build", "mi_service"]
        subprocess.run(words, env=self.env, stderr=subprocess.DEVNULL, check=True, timeout=60)
        self.assertEqual(self.make(tree, "lib").returncode, 0)
        lines, put = self.unpacked(tree)
        self.assertEqual(lines, [made])
        self.assertTrue(os.path.isfile(f"{put}/bin/mi_service"))


if __name__ == "__main__":
    unittest.main()
