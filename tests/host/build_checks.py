"""./build: what it makes, for this machine and for the other processor, and what it says where the words are off."""
import os
import subprocess

import building
import library_checks

# the processors that can be made, each with the number that an ELF file names it by
PROCESSORS = {"x86_64": 62, "aarch64": 183}
USAGE = "; ./build --help tells how it is used"


def build(*words):
    ran = subprocess.run([building.at("build"), *words], capture_output=True, text=True)
    return ran.returncode, ran.stdout, ran.stderr


def processor_of(path):
    """The number in the header of an ELF file, or of the first one in an archive."""
    with open(path, "rb") as f:
        data = f.read()
    at = data.index(b"\x7fELF") + 18
    return int.from_bytes(data[at:at + 2], "little")


def made(checks, into, processor):
    """Both libraries, in a folder: of this processor, and with the functions that the header declares and no other."""
    expected = [os.path.join(into, name) for name in ("liblatchplume.a", "liblatchplume.so")]
    checks.same(f"./build for {processor}", (0, "".join(path + "\n" for path in expected), ""), build("--target", processor, "--into", into))
    checks.same(f"./build for {processor}: files", ["liblatchplume.a", "liblatchplume.so", "liblatchplume.so.0"], sorted(os.listdir(into)))
    checks.same(f"./build for {processor}: the link", "liblatchplume.so.0", os.readlink(expected[1]))
    for path, options in zip(expected, ([], ["-D"])):
        checks.same(f"./build for {processor}: the processor", PROCESSORS[processor], processor_of(path))
        checks.same(f"./build for {processor}: functions", building.declared(), sorted(building.exported(path, *options)))


def shared(checks, into):
    """Every function, called through the shared library."""
    options = [*building.PLAIN, f"-Wl,-rpath,{into}"]
    building.program("calls-shared", building.calls_sources(), os.path.join(into, "liblatchplume.so"), options)
    library_checks.check(checks, library_checks.script(25), "calls-shared")


def troubles(checks):
    """One line, and status 2."""
    only = "x86_64 and aarch64 can; ./build --help says what is missing for another"
    for words, said in (
        (["--target", "riscv64"], f"riscv64 cannot be made: {only}"), (["--target", ""], f" cannot be made: {only}"),
        (["--target"], "argument --target: expected one argument" + USAGE), (["--stat"], "unrecognized arguments: --stat" + USAGE),
        (["host"], "unrecognized arguments: host" + USAGE), (["--into", ""], "--into takes a folder"),
        (["--into", "/dev/null"], "/dev/null: File exists"), (["--into", "/dev/null/x"], "/dev/null/x: Not a directory"),
    ):
        checks.same(f"./build {' '.join(words)}", (2, "", f"build: {said}\n"), build(*words))
    status, out, said = build("--help")
    checks.same("./build --help", (0, True, ""), (status, "usage: ./build " in out, said))


def check_all(checks, room):
    for processor in PROCESSORS:
        into = os.path.join(room, "built", processor)
        made(checks, into, processor)
        if processor == os.uname().machine:
            shared(checks, into)
    one = os.path.join(room, "built", "one")
    checks.same("./build --shared", (0, os.path.join(one, "liblatchplume.so") + "\n", ""), build("--shared", "--into", one))
    checks.same("./build --shared: files", ["liblatchplume.so", "liblatchplume.so.0"], sorted(os.listdir(one)))
    troubles(checks)
