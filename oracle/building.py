"""Builds the comparison: the crate's files as published, the glue, the library's archive, and the declarations held to the header."""
import hashlib
import os
import shutil
import subprocess
import sys

HERE = os.path.dirname(os.path.abspath(__file__))
ROOT = os.path.dirname(HERE)
MADE = os.path.join(ROOT, "target", "oracle")
sys.path.append(os.path.join(ROOT, "tests"))
from library import Failed, archive


def output(words, what, **more):
    """What a command prints; its last line is the reason where it fails."""
    ran = subprocess.run(words, stdout=subprocess.PIPE, stderr=subprocess.PIPE, **more)
    if ran.returncode:
        lines = (ran.stderr or ran.stdout).decode("utf-8", "replace").strip().split("\n")
        errors = [line for line in lines if "error" in line] or lines[-1:]
        raise Failed(f"{what} failed: {errors[0]}")
    return ran.stdout.decode()


def check_crate():
    """The seven files and their licence are those that were published, and the eighth is what they give."""
    with open(os.path.join(HERE, "crate.sha256")) as f:
        pinned = dict(reversed(line.split()) for line in f)
    for name, expected in pinned.items():
        with open(os.path.join(HERE, "crate", name), "rb") as f:
            if hashlib.sha256(f.read()).hexdigest() != expected:
                raise Failed(f"oracle/crate/{name} is not the published file")
    found = {os.path.relpath(os.path.join(folder, name), os.path.join(HERE, "crate"))
             for folder, _, names in os.walk(os.path.join(HERE, "crate")) for name in names}
    if found != set(pinned):
        raise Failed(f"oracle/crate has other files than oracle/crate.sha256 lists: {', '.join(sorted(found ^ set(pinned)))}")
    with open(os.path.join(HERE, "glue", "record_counters.rs")) as f:
        if f.read() != output([os.path.join(HERE, "glue", "derive")], "oracle/glue/derive"):
            raise Failed("oracle/glue/record_counters.rs is not what oracle/glue/derive prints")


def need(tool, package):
    if not shutil.which(tool):
        raise Failed(f"'{tool}' is missing: install {package}")


def need_tools():
    need("cargo", "Rust's toolchain")
    need("cc", "Debian's package gcc")


def made_by_cargo(words, source, made, library):
    """Runs cargo on the sources in a folder; answers the folder with what was made."""
    need_tools()
    env = {**os.environ, "CARGO_TARGET_DIR": made, "LATCHPLUME_ARCHIVE": library}
    output(["cargo", *words, "--release", "--offline", "--quiet"], "cargo " + words[0], cwd=source, env=env)
    return os.path.join(made, "release")


def cargo(source, made, library):
    """Builds the comparison from the sources in a folder; answers the program."""
    return os.path.join(made_by_cargo(["build"], source, made, library), "judge")


def check_declarations(judge, include=os.path.join(ROOT, "include")):
    """Rust's declarations of the library are the header's."""
    checks = output([judge, "--c-checks"], "judge --c-checks")
    words = ["cc", "-std=c11", "-Wall", "-Wextra", "-Werror", "-fsyntax-only", "-I", include, "-x", "c", "-"]
    output(words, "oracle/judge/src/library.rs against include/latchplume.h", input=checks.encode())


def judge():
    """The program, built from what is there; what is missing is told before the library is proved."""
    need_tools()
    check_crate()
    program = cargo(HERE, MADE, archive())
    check_declarations(program)
    return program


def failed(trouble):
    print(f"oracle: {trouble}", file=sys.stderr)
    sys.exit(2)
