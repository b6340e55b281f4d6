"""The programs of this folder, built over the library, for the machine at hand: the toolchain runs on x86-64 alone."""
import functools
import os
import platform
import shutil
import subprocess
import sys

COST = os.path.dirname(os.path.abspath(__file__))
ROOT = os.path.dirname(os.path.dirname(COST))
TARGET = os.path.join(ROOT, "target")
MACHINE = platform.machine()
sys.path.append(os.path.join(ROOT, "tests"))
from library import Failed, archive

FLAGS = ["-O2", "-Wall", "-Wextra", "-Werror", "-I", os.path.join(ROOT, "include")]


def fail(said):
    print(f"tests/cost/run: {said}", file=sys.stderr)
    sys.exit(2)


def need(*tools):
    for tool in tools:
        if not shutil.which(tool):
            fail(f"no {tool} on the path")


def run(words, **more):
    """What the command writes."""
    try:
        ran = subprocess.run(words, capture_output=True, **more)
    except OSError as e:
        fail(f"cannot run {os.path.basename(words[0])}: {e.strerror}")
    if ran.returncode:
        said = (ran.stderr + ran.stdout).decode("utf-8", "replace").strip().split("\n")
        why = next((line for line in said if "error" in line), said[-1])
        fail(f"{os.path.basename(words[0])} failed with status {ran.returncode}: {why}")
    return ran.stdout


@functools.cache
def library(processor=MACHINE):
    """The library's archive for a processor."""
    try:
        return archive("--target", processor)
    except Failed as trouble:
        fail(trouble)


def made(folder, name):
    """Where something that is made here goes."""
    os.makedirs(os.path.join(TARGET, folder), exist_ok=True)
    return os.path.join(TARGET, folder, name)


def program(name, *options):
    """The words that run a program of this folder."""
    path = made("cost", name)
    run(["cc", *FLAGS, os.path.join(COST, name + ".c"), library(), "-o", path, *options])
    return [path]
