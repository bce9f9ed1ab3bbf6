#!/usr/bin/env python3
"""Proves and builds the library that programs take into their own process.

    library.py build     proves what it stands on and makes out/library, where it isn't up to date
    library.py path      prints the folder of the library where it is up to date, and nothing else
    library.py proved    says what is needed where it isn't there or isn't up to date, and proves nothing
    library.py install ROOT
                         copies it below ROOT; where it isn't up to date, says so and copies nothing

The folder has `libweltiyo.a`, `libweltiyo.so` with its versions, the headers and `weltiyo.pc`. It is up to date where its files
and links are those that `build` made from the sources that stand here now: a stamp in it has the digests of both. It may be moved, and so may
ROOT: weltiyo.pc finds the rest from its own folder on. `build` needs `rt`, `ar`, and a C compiler for the shared object (CC, else cc). It
writes to crates/*/out by way of `rt`, and to out/library."""
import os
import shlex
import shutil
import subprocess
import sys

import program

TOP = program.TOP
NAME = "weltiyo"
FOLDER = f"{TOP}/crates/{NAME}"
MADE = f"{TOP}/out/library"
STAMP = f"{MADE}/proved.stamp"
VERSION = "0.1.0"
MAJOR = VERSION.partition(".")[0]
ARCHIVE, SHARED, SONAME = "libweltiyo.a", f"libweltiyo.so.{VERSION}", f"libweltiyo.so.{MAJOR}"
LINKS = ((SONAME, SHARED), ("libweltiyo.so", SONAME))
HEADERS = (f"{TOP}/clients/c/weltiyo.h", f"{TOP}/clients/cpp/weltiyo.hpp", f"{TOP}/clients/cpp/weltiyo_tables.hpp")
EXPORTS = f"{TOP}/clients/c/weltiyo.map"


def made_from():
    """The digest of all that the library is made from."""
    return program.digest_of([*program.sources(top=NAME), *HEADERS, EXPORTS], beside().encode())


def stamp(sources):
    """What the stamp has. Raises OSError where a file or a link isn't there."""
    files = [f"{MADE}/{it}" for it in (ARCHIVE, SHARED, *map(os.path.basename, HEADERS), "weltiyo.pc")]
    links = "".join(f"{name} {os.readlink(f'{MADE}/{name}')}\n" for name, _ in LINKS)
    return f"sources {sources}\nlibrary {program.digest_of(files, links.encode())}\n"


def is_fresh():
    """Whether the library is there: the one that was built from just these sources, once they were proved."""
    if not os.path.isfile(STAMP):
        return False
    with open(STAMP, encoding="ascii", errors="replace") as file:
        try:
            return file.read() == stamp(made_from())
        except OSError:
            return False


def path():
    """The folder of the library where it is up to date, else None."""
    return MADE if is_fresh() else None


def needed(folder=None):
    """This folder, or that of the library where it is up to date. Ends, with what is needed, where there is neither."""
    found = os.path.abspath(folder) if folder else path()
    if not found:
        sys.exit("no library is built; `make lib` makes it")
    return found


def config(include, lib):
    """What pkg-config is told: the folders of the headers and of the library. They go out from ${pcfiledir}, the folder of the file that this
    stands in, so that what is copied or unpacked elsewhere is found there."""
    return (
        f"includedir={include}\nlibdir={lib}\n\n"
        "Name: weltiyo\nDescription: an in-memory table server, in the process of its caller\n"
        f"Version: {VERSION}\nCflags: -I${{includedir}}\nLibs: -L${{libdir}} -lweltiyo\n"
    )


def beside():
    """What it is told in out/library, where all is in one folder."""
    return config("${pcfiledir}", "${pcfiledir}")


def installed():
    """What it is told in lib/pkgconfig."""
    return config("${pcfiledir}/../../include", "${pcfiledir}/..")


def kit(rt):
    """The folder of the toolchain, which has the C part of its allocator."""
    said = subprocess.run([rt, "doc"], capture_output=True, text=True, check=True).stdout.strip()
    return os.path.dirname(said)


def run(words, **how):
    with program.started(words, **how) as ran:
        if ran.wait():
            program.stop(f"`{shlex.join(words)}` ended with {ran.returncode}")


def merged(rt, to):
    """The archive of `rt lib`, with the part of the toolchain's that takes memory from malloc, so that a C linker needs no other file."""
    # (a script of `ar` has no paths with spaces, so it is told names alone)
    folder, name = os.path.split(to)
    parts = {"calls.a": f"{FOLDER}/out/lib{NAME}.a", "memory.a": f"{kit(rt)}/c/liblibc_c.a"}
    for it, of in parts.items():
        os.symlink(os.path.abspath(of), f"{folder}/{it}")
    script = "".join([f"CREATE {name}\n", *[f"ADDLIB {it}\n" for it in parts], "SAVE\nEND\n"])
    subprocess.run(["ar", "-M"], cwd=folder, input=script, text=True, check=True)
    for it in parts:
        os.remove(f"{folder}/{it}")


def linked(archive, to):
    """A shared object that exports the calls and nothing else."""
    compiler = shlex.split(os.environ.get("CC", "cc"))
    run([
        *compiler, "-shared", "-o", to, f"-Wl,-soname,{SONAME}", f"-Wl,--version-script={EXPORTS}", "-Wl,--gc-sections", "-Wl,-z,defs",
        "-Wl,-z,relro,-z,now", "-Wl,--whole-archive", archive, "-Wl,--no-whole-archive",
    ])


def put_together(rt):
    """Makes the folder from the archive that `rt lib` made."""
    folder = f"{MADE}.new"
    shutil.rmtree(folder, ignore_errors=True)
    os.makedirs(folder)
    merged(rt, f"{folder}/{ARCHIVE}")
    linked(f"{folder}/{ARCHIVE}", f"{folder}/{SHARED}")
    for name, to in LINKS:
        os.symlink(to, f"{folder}/{name}")
    for it in HEADERS:
        shutil.copy(it, folder)
    with open(f"{folder}/weltiyo.pc", "w", encoding="utf-8") as file:
        file.write(beside())
    shutil.rmtree(MADE, ignore_errors=True)
    os.rename(folder, MADE)


def build():
    """Proves and builds the library where it isn't up to date."""
    if is_fresh():
        return
    rt = program.needed_toolchain()
    sources = made_from()
    os.makedirs(f"{FOLDER}/out", exist_ok=True)
    with open(f"{FOLDER}/out/build.txt", "w", encoding="utf-8") as log:
        well = program.prove_crates(rt, log, NAME)
        if well:
            program.say("all proved; compiling")
            log.flush()
            with program.started([rt, "lib"], cwd=FOLDER, stdout=log, stderr=log) as ran:
                well = ran.wait() == 0 and os.path.isfile(f"{FOLDER}/out/lib{NAME}.a")
    if not well:
        with open(log.name, encoding="utf-8", errors="replace") as file:
            sys.stderr.writelines(file.readlines()[-20:])
        program.stop(f"the library was not built; the whole log is {os.path.relpath(log.name)}")
    put_together(rt)
    with open(STAMP, "w", encoding="ascii") as file:
        file.write(stamp(sources))
    program.say(f"made {os.path.relpath(MADE)}")


def need_proved():
    """Ends, with what is needed, where the library isn't there. It proves nothing by itself."""
    if not is_fresh():
        why = "isn't what was proved from these sources" if os.path.isdir(MADE) else "isn't there"
        program.stop(f"the library {why}. `make lib` proves and builds it first, with `rt`, the command of the Rattle toolchain")


def cleared(path):
    """This path, where nothing stands any more."""
    if os.path.lexists(path):
        os.remove(path)
    return path


def put(source, to, mode):
    """Copies a file in place of what is there. It has this mode, whatever that of the source is."""
    shutil.copyfile(source, cleared(to))
    os.chmod(to, mode)


def install(root):
    """Copies the library where it is up to date. The modes are fixed, so that what one user installs others can read."""
    if not is_fresh():
        print("without the library, which isn't there or isn't up to date: `make lib` makes it")
        return
    os.umask(0o022)
    for folder in ("include", "lib/pkgconfig"):
        os.makedirs(f"{root}/{folder}", exist_ok=True)
    for it in map(os.path.basename, HEADERS):
        put(f"{MADE}/{it}", f"{root}/include/{it}", 0o644)
    put(f"{MADE}/{ARCHIVE}", f"{root}/lib/{ARCHIVE}", 0o644)
    put(f"{MADE}/{SHARED}", f"{root}/lib/{SHARED}", 0o755)
    for name, to in LINKS:
        os.symlink(to, cleared(f"{root}/lib/{name}"))
    with open(cleared(f"{root}/lib/pkgconfig/weltiyo.pc"), "w", encoding="utf-8") as file:
        file.write(installed())
    print(f"and the library: {root}/lib/libweltiyo.*, {root}/include/weltiyo.h, weltiyo.hpp, weltiyo_tables.hpp")


def main(verb="", *words):
    if verb == "build":
        build()
    elif verb == "path":
        print(path() or "", end="\n" if path() else "")
    elif verb == "proved":
        need_proved()
    elif verb == "install" and len(words) == 1:
        install(*words)
    else:
        program.stop(__doc__)


if __name__ == "__main__":
    main(*sys.argv[1:])
