"""Builds what AFL++ runs: the library with its edges counted, the comparison of oracle/ over it, and the harness."""
import importlib.machinery
import importlib.util
import os
import sys

HERE = os.path.dirname(os.path.abspath(__file__))
ROOT = os.path.dirname(HERE)
MADE = os.path.join(ROOT, "target", "fuzz")
sys.path.insert(0, os.path.join(ROOT, "oracle"))
import building

# Each edge of the library tells AFL++ when it is taken, and each comparison what it compares.
COUNTED = "-fsanitize-coverage=trace-pc-guard,trace-cmp"


def script(*path):
    """A script of this repository as a module."""
    loader = importlib.machinery.SourceFileLoader("_".join(path), os.path.join(ROOT, *path))
    module = importlib.util.module_from_spec(importlib.util.spec_from_loader(loader.name, loader))
    loader.exec_module(module)
    return module


def library():
    """What ./build compiles, compiled once more with the edges counted."""
    build = script("build")
    made = os.path.join(MADE, "liblatchplume.a")
    try:
        kit = build.Kit()
        with build.one_at_a_time():
            build.compile_all(kit, build.MACHINE, made, [COUNTED])
    except build.Failed as trouble:
        raise building.Failed(str(trouble)) from None
    return made


def harness():
    """The program; only the library's own edges count in it."""
    building.need("afl-clang-fast", "Debian's package afl++")
    os.makedirs(MADE, exist_ok=True)
    words = ["rustc", "--lib", "--package", "judge", "--crate-type", "staticlib"]
    judge = os.path.join(building.made_by_cargo(words, building.HERE, os.path.join(MADE, "judge"), library()), "libjudge.a")
    unseen, made = os.path.join(MADE, "unseen"), os.path.join(MADE, "harness")
    with open(unseen, "w") as f:
        f.write("src: harness.c\n")
    words = ["afl-clang-fast", "-O2", "-Wall", "-Wextra", "-Werror", os.path.join(HERE, "harness.c"), judge, "-lpthread", "-ldl", "-lm"]
    building.output([*words, "-o", made], "afl-clang-fast", env={**os.environ, "AFL_LLVM_DENYLIST": unseen, "AFL_QUIET": "1"})
    return made
