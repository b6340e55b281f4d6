"""The most stack that each object of the x86-64 archive can need, from its machine code: the frames along its deepest chain of calls."""
import re
import shutil
import subprocess

import build
from library import MAX_DEPTH

# what a function that calls nothing may use below its stack pointer
RED_ZONE = 128
# A function that calls itself does so for a record in a record: each level down to 1, and the call that finds no level left.
AGAIN = MAX_DEPTH + 1


def listing():
    for tool in ("objdump", "x86_64-linux-gnu-objdump", "llvm-objdump"):
        if shutil.which(tool):
            ran = subprocess.run([tool, "-dr", "-M", "intel", "--no-show-raw-insn", build.library("x86_64")], capture_output=True)
            if ran.returncode == 0 and b"rsp" in ran.stdout:
                return ran.stdout.decode()
    return build.fail("no objdump on the path that lists x86-64 code (objdump, x86_64-linux-gnu-objdump or llvm-objdump)")


def functions(listed):
    """The lines of each function."""
    parts = re.split(r"^[0-9a-f]+ <(.+)>:\n", listed, flags=re.M)
    return dict(zip(parts[1::2], (part.split("\n") for part in parts[2::2])))


def objects():
    """By the crate that it exports, the functions of each object: both may have one of the same name."""
    parts = re.split(r"^(\w+)\.o:\s+file format .*\n", listing(), flags=re.M)
    return {crate: functions(listed) for crate, listed in zip(parts[1::2], parts[2::2])}


def frame(name, lines):
    """The bytes of one activation: the return address, what is pushed, and the locals."""
    size = 8
    for line in lines:
        code = line.split(":", 1)[-1].strip()
        if code.startswith("push"):
            size += 8
        elif m := re.fullmatch(r"sub\s+rsp, ?(0x[0-9a-f]+|\d+)", code):
            size += int(m.group(1), 0)
        elif re.match(r"(?!add|cmp|test)\w+\s+rsp\b", code):
            build.fail(f"{name} moves its stack pointer in a way that is not known here: {code}")
    return size


def callees(name, lines, known):
    """What a function calls, or goes on as: by the address itself, or by the relocation below the instruction."""
    found = set()
    for line, below in zip(lines, lines[1:] + [""]):
        moved = re.search(r"R_X86_64_\w+\s+(?:\.text\.)?(.+?)(?:[-+]0x[0-9a-f]+)?$", below)
        code = line.split(":", 1)[-1].strip()
        here = re.search(r"<(.+?)(\+0x[0-9a-f]+)?>$", code)
        target = moved.group(1) if moved else here and not here.group(2) and here.group(1)
        if target in known and re.match(r"call|jmp", code):
            found.add(target)
        elif code.startswith("call"):
            build.fail(f"{name} calls something that is not known here: {code}")
    return found


def deepest(crate):
    """Of one object the bytes of the deepest chain, and its functions."""
    code = objects().get(crate, {})
    if not any(name.startswith("latchplume_decode") for name in code):
        build.fail(f"objdump lists no {crate} in the x86-64 archive")
    sizes = {name: frame(name, lines) for name, lines in code.items()}
    calls = {name: callees(name, lines, code) for name, lines in code.items()}

    def below(chain):
        ends = [below(chain + [name]) for name in sorted(calls[chain[-1]]) if chain.count(name) < AGAIN]
        return max(ends, default=(sum(sizes[name] for name in chain) + RED_ZONE, chain))

    return max(below([name]) for name in code if name.startswith("latchplume_"))
