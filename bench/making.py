"""Builds what the measurements need, for release, into target/bench: the library, the crate, the walk, and the programs around them."""
import functools
import os
import shutil

import building
from building import Failed, output
from paths import BENCH, ROOT

MADE = os.path.join(ROOT, "target", "bench")

# a tool, and what has it
TOOLS = {
    "rt": "the Rattle toolchain that .ci/kit names", "cargo": "Rust's toolchain", "cc": "Debian's package gcc",
    "nm": "Debian's package binutils", "ar": "Debian's package binutils", "objcopy": "Debian's package binutils",
    "valgrind": "Debian's package valgrind",
}
WARNINGS = ["-Wall", "-Wextra", "-Werror"]
RELEASE = ["-O3"]
SHIFTS = (0, 16, 32, 48)  # bytes; functions begin at multiples of sixteen, and a line of the cache has sixty-four
CHECKED = ["-O1", "-g", "-fsanitize=address,undefined", "-fno-sanitize-recover=all"]
INCLUDE = ["-I", os.path.join(ROOT, "include"), "-I", os.path.join(ROOT, "tools"), "-I", BENCH]


def need(*tools):
    for tool in tools:
        if not shutil.which(tool):
            raise Failed(f"'{tool}' is missing: install {TOOLS[tool]}")


def at(*path):
    return os.path.join(BENCH, *path)


def made(*path):
    where = os.path.join(MADE, *path)
    os.makedirs(os.path.dirname(where), exist_ok=True)
    return where


@functools.cache
def library():
    return building.archive()


@functools.cache
def crate():
    """The folder with what cargo makes of bench/crate: a static library, and a program that is fed datagrams."""
    building.check_crate()
    env = {**os.environ, "CARGO_TARGET_DIR": made("crate")}
    output(["cargo", "build", "--release", "--offline", "--locked", "--quiet"], "cargo build", cwd=at("crate"), env=env)
    return made("crate", "release")


def with_crate():
    """The crate's static library, and what it needs."""
    return [os.path.join(crate(), "libbench_crate.a"), "-lpthread", "-ldl", "-lm"]


def compiled(name, sources, libraries, options=()):
    """A program of these sources; answers its path."""
    path = made(name)
    output(["cc", "-std=gnu11", *WARNINGS, *INCLUDE, *options, *sources, *libraries, "-o", path], f"compiling {name}")
    return path


def measure(before=None):
    """The program that measures, once for each place that its code is moved to; with `before`, the path of another build's library, it has
    that as a contestant too."""
    tools = [os.path.join(ROOT, "tools", name) for name in ("layouts.c", "names.c")]
    sources = [at(name) for name in ("shift.c", "measure.c", "contestants.c", "walk.c")] + tools
    libraries = [library(), *with_crate(), "-Wl,-z,now"]
    name, options = "measure", list(RELEASE)
    if before is not None:
        other = made("before", "liblatchplume.a")
        output(["objcopy", "--prefix-symbols=before_", before, other], f"objcopy {before}")
        name, options, libraries = "measure-against", ["-DBEFORE", *RELEASE], [other, *libraries]
    return [compiled(f"{name}-{shift}", sources, libraries, [f"-DSHIFT={shift}", *options]) for shift in SHIFTS]


def feed():
    return compiled("feed", [at("feed.c")], [library()], RELEASE)


def check(options, name):
    return compiled(name, [at("check.c"), at("walk.c")], [library()], options)


def texts(options, name):
    return compiled(name, [at("texts.c"), at("walk.c")], [library(), *with_crate()], options)


def judge():
    """The oracle's judge, over an archive whose decode and decode_run are the walk's."""
    archive, walk = made("walked", "liblatchplume.a"), made("walked", "walk.o")
    names = ("decode", "decode_run")
    hidden = [word for name in names for word in ("--redefine-sym", f"latchplume_{name}=library_{name}")]
    output(["objcopy", *hidden, library(), archive], "objcopy")
    renamed = [f"-Dwalk_{name}=latchplume_{name}" for name in names]
    output(["cc", "-std=gnu11", *WARNINGS, *INCLUDE, *RELEASE, *renamed, "-c", at("walk.c"), "-o", walk], "compiling walk.c")
    output(["ar", "rs", archive, walk], "ar")
    return building.cargo(os.path.join(ROOT, "oracle"), made("judge"), archive)
