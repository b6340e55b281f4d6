"""The header, the command, the collector and the caller, compiled: plain, and with the compiler's checks of every access."""
import concurrent.futures
import functools
import glob
import os
import re
import shutil
import subprocess
import sys

ROOT = os.path.dirname(os.path.dirname(os.path.dirname(os.path.abspath(__file__))))
INTO = os.path.join(ROOT, "target", "host")
sys.path.append(os.path.join(ROOT, "tests"))
from library import Failed, archive

LIBRARY = None  # the path of the archive, once `prepare` has been called
WARNINGS = ["-Wall", "-Wextra", "-Werror"]
PLAIN = ["-O2"]
CHECKED = ["-O1", "-g", "-fsanitize=address,undefined", "-fno-sanitize-recover=all", "-fno-omit-frame-pointer"]

# looking for leaks takes some seconds a run on some machines; what the command keeps, it keeps until its end
ENVIRONMENT = {"ASAN_OPTIONS": "detect_leaks=0"}


def at(*path):
    return os.path.join(ROOT, *path)


def made(name):
    return os.path.join(INTO, name)


def run(words, folder=ROOT):
    ran = subprocess.run(words, stdin=subprocess.DEVNULL, stdout=subprocess.PIPE, stderr=subprocess.STDOUT, text=True, cwd=folder)
    if ran.returncode != 0:
        raise Failed(" ".join(words) + "\n" + ran.stdout.strip())
    return ran.stdout


def listings():
    """The proved listing programs: as `rt ci` left them, and else, or where a source is newer, by `rt run`, which proves and builds them."""
    newest = max(os.path.getmtime(source) for source in glob.glob(at("crates", "*", "src", "**", "*.rt"), recursive=True))
    for name in ("listing", "listing_run"):
        program = at("crates", name, "out", name)
        if not os.path.exists(program) or os.path.getmtime(program) < newest:
            run(["rt", "run"], at("crates", name))


def prepare():
    """The library for this machine, and the proved listing programs."""
    global LIBRARY
    for tool, package in (("gcc", "gcc"), ("g++", "g++"), ("nm", "binutils")):
        if not shutil.which(tool):
            raise Failed(f"'{tool}' is missing: install Debian's package {package}")
    if subprocess.run(["gcc", "-E", "-"], input=b"#include <pcap/pcap.h>\n", capture_output=True).returncode:
        raise Failed("libpcap's header is missing: install Debian's package libpcap-dev")
    LIBRARY = archive()
    listings()


def exported(library, *options):
    """The names of a library's functions."""
    listed = subprocess.run(["nm", "--defined-only", "-g", *options, library], stdout=subprocess.PIPE, text=True, check=True).stdout
    return re.findall(r" T (latchplume_\w+)", listed)


def declared():
    """The names of the functions that the header declares and does not define."""
    with open(at("include", "latchplume.h")) as f:
        return sorted(re.findall(r"^latchplume_\w+ (latchplume_\w+)\([^;{]*;$", f.read(), re.M))


def tool_sources(without):
    return [s for s in sorted(glob.glob(at("tools", "*.c"))) if os.path.basename(s) != without]


def calls_sources():
    return [at("tests", "host", "calls.c"), at("tools", "layouts.c"), at("tools", "names.c")]


def program(name, sources, archive, options, include=at("include")):
    libraries = ["-lpcap"] if at("tools", "packets.c") in sources else []
    run(["gcc", "-std=gnu11", *options, *WARNINGS, "-I" + include, "-I" + at("tools"), *sources, archive, *libraries, "-o", made(name)])


def header_alone(words, suffix):
    """The header compiles with nothing but itself."""
    source = made("alone" + suffix)
    with open(source, "w") as f:
        f.write('#include "latchplume.h"\n#include "latchplume.h"\nint main(void) { return 0; }\n')
    run([*words, "-pedantic", *WARNINGS, "-I" + at("include"), "-c", source, "-o", source + ".o"])


def jobs(archive):
    """Each thing to build, by what it shows."""
    yield "the header is C99", lambda: header_alone(["gcc", "-std=c99"], ".c")
    yield "the header is C++17", lambda: header_alone(["g++", "-std=c++17"], ".cc")
    if shutil.which("clang"):
        yield "the header is C99 for clang", lambda: header_alone(["clang", "-std=c99"], ".clang.c")
    programs = {"calls": calls_sources(), "collector": [at("examples", "collector.c")], "latchplume": tool_sources("no_packets.c")}
    for kind, options in (("", PLAIN), ("-checked", CHECKED)):
        for name, sources in programs.items():
            yield name + kind, functools.partial(program, name + kind, sources, archive, options)
    yield "latchplume-bare", functools.partial(program, "latchplume-bare", tool_sources("packets.c"), archive, PLAIN)


def build_all(checks, archive):
    """False where something is missing without which the rest cannot be tried."""
    os.makedirs(INTO, exist_ok=True)
    with concurrent.futures.ThreadPoolExecutor(max_workers=2) as pool:
        waiting = [(name, pool.submit(job)) for name, job in jobs(archive)]
        said = {name: str(one.exception() or "") for name, one in waiting}
    for name, trouble in said.items():
        checks.same(f"building {name}", "", trouble)
    if any(said.values()):
        print("tests/host/run: not everything could be built, so nothing is run", file=sys.stderr)
    return not any(said.values())
