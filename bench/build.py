"""Builds the peers from Debian's packages, where these are installed, and says what is missing where they aren't."""
import glob
import os
import shutil
import subprocess
import sys
import typing

FOLDER = os.path.dirname(os.path.realpath(__file__))
TOP = os.path.dirname(FOLDER)
OUT = f"{TOP}/out/bench"



class Peer(typing.NamedTuple):
    """What a peer is made of: its sources, the headers that it needs with their packages, and the libraries."""

    sources: typing.List[str]
    headers: typing.Dict[str, str]
    libraries: typing.List[str]


BOOST = {"boost/multi_index_container.hpp": "libboost-dev"}
SIMDJSON = {"simdjson.h": "libsimdjson-dev"}
SQLITE = {"sqlite3.h": "libsqlite3-dev"}
LMDB = {"lmdb.h": "liblmdb-dev"}
PEERS = {
    "container_peer": Peer(["container_peer.cpp"], BOOST, []),
    "boost_peer": Peer(["boost_peer.cpp"], {**BOOST, **SIMDJSON}, ["-lsimdjson"]),
    "sqlite_peer": Peer(["sqlite_peer.cpp"], {**SQLITE, **SIMDJSON}, ["-lsimdjson", "-lsqlite3"]),
    # (the library stands in a folder that `peer` is told)
    "embedded_ours": Peer(["embedded.cpp", "embedded_ours.cpp"], {}, []),
    "embedded_boost": Peer(["embedded.cpp", "embedded_boost.cpp"], BOOST, []),
    "embedded_sqlite": Peer(["embedded.cpp", "embedded_sqlite.cpp"], SQLITE, ["-lsqlite3"]),
    "embedded_lmdb": Peer(["embedded.cpp", "embedded_lmdb.cpp"], LMDB, ["-llmdb"]),
}
FLAGS = ["-std=c++17", "-O2", "-DNDEBUG", "-Wall", "-Wextra"]


class Missing(Exception):
    """Why a peer can't be built."""


def compiler():
    found = shutil.which(os.environ.get("CXX", "g++")) or shutil.which("c++")
    if not found:
        raise Missing("no C++ compiler (apt-get install g++)")
    return found


def has_header(cxx, name):
    words = [cxx, "-E", "-x", "c++", "-", "-o", os.devnull]
    return subprocess.run(words, input=f"#include <{name}>\n".encode(), stderr=subprocess.DEVNULL).returncode == 0


def is_fresh(made, sources):
    """Whether a program is there and no older than its sources and the headers that peers share."""
    parts = [*sources, *glob.glob(f"{FOLDER}/*.hpp")]
    return os.path.isfile(made) and all(os.path.getmtime(it) <= os.path.getmtime(made) for it in parts)


def peer(name, library=None):
    """The path of a peer, built where it is older than its sources, or over the library in this folder. `Missing` where it can't be."""
    made, about = f"{OUT}/{name}", PEERS[name]
    sources = [f"{FOLDER}/{it}" for it in about.sources]
    if not library and is_fresh(made, sources):
        return made
    cxx = compiler()
    packages = sorted({package for header, package in about.headers.items() if not has_header(cxx, header)})
    if packages:
        raise Missing(f"not installed (apt-get install {' '.join(packages)})")
    os.makedirs(OUT, exist_ok=True)
    print(f"compiling {name}", file=sys.stderr, flush=True)
    with_library = [f"-I{library}", f"{library}/libweltiyo.a"] if library else []
    ran = subprocess.run([cxx, *FLAGS, "-o", f"{made}.new", *sources, *with_library, *about.libraries], stderr=subprocess.PIPE, text=True)
    if ran.returncode:
        raise Missing("doesn't compile: " + (ran.stderr.strip().splitlines() or ["no message"])[0])
    # (warnings)
    sys.stderr.write(ran.stderr)
    os.replace(f"{made}.new", made)
    return made


def redis_server():
    found = shutil.which("redis-server")
    if not found:
        raise Missing("not installed (apt-get install redis-server)")
    return found


def version(words):
    return subprocess.run(words, capture_output=True, text=True).stdout.strip()
