"""The example in the header's first comment, taken out of it, examples/first.c and examples/relay.c: compiled, linked and run. And what README.md shows,
word for word."""
import re
import subprocess

import building
import captures
import encoder
import library
import tool_checks

AROUND = """
#include "latchplume.h"
#include <stdio.h>

static int refuse(uint32_t code, size_t at)
{
    printf("refused %u at %u\\n", (unsigned)code, (unsigned)at);
    return 1;
}

static void use_packet(const uint8_t *bytes, size_t count)
{
    for (size_t i = 0; i < count; i++)
        printf("%02x", bytes[i]);
    printf("\\n");
}

ARRAYS

static int receive(size_t n)
{
STATEMENTS
    return 0;
}

int main(void)
{
    return receive(fread(data, 1, sizeof data, stdin));
}
"""


def source():
    """The example's arrays, which go outside, and its statements, which go into a function."""
    with open(building.at("include", "latchplume.h")) as f:
        comment = f.read().partition("*/")[0]
    lines = re.findall(r"^ \*     (.*)$", comment, re.M)
    arrays = [line for line in lines if re.match(r"uint\d+_t \w+\[", line)]
    statements = [line for line in lines if line not in arrays]
    return AROUND.replace("ARRAYS", "\n".join("static " + line for line in arrays)).replace("STATEMENTS", "\n".join(statements))


def build(words, suffix):
    path = building.made("example" + suffix)
    with open(path, "w") as f:
        f.write(source())
    building.run([*words, "-pedantic", *building.WARNINGS, "-I" + building.at("include"), path, building.LIBRARY, "-o", path + ".program"])
    return path + ".program"


def check_header(checks, rng):
    packet = captures.ethernet(captures.ipv4(b"example"))
    wire = encoder.Wire(rng)
    put = [wire.put_record(encoder.Body("extended_switch", rng)), wire.put_record(encoder.Body("sampled_header", rng, header=packet))]
    wire.datagram([wire.put_sample("flow_sample", put)])
    for words, suffix in ((["gcc", "-std=c99"], ".c"), (["g++", "-std=c++17"], ".cc")):
        program = build(words, suffix)
        for data, expected in ((wire.data, packet.hex() + "\n"), (tool_checks.SHORT, ""), (encoder.word(4), "refused 3 at 0\n")):
            ran = subprocess.run([program], input=bytes(data), capture_output=True)
            checks.same(f"the header's example, {words[1]}", expected, ran.stdout.decode())


def example(name):
    """The program of an example's name."""
    program, source = building.made(name), building.at("examples", name + ".c")
    building.run(["gcc", "-std=c99", "-pedantic", *building.WARNINGS, "-I" + building.at("include"), source, building.LIBRARY, "-o", program])
    return program


def check_first(checks, rng, words=None):
    """A user's first program, or what these words run: a sampled header's bytes, and an SSID whose control character does not get through."""
    words = words or [example("first")]
    packet, wire = captures.ethernet(captures.ipv4(b"first")), encoder.Wire(rng)
    bodies = encoder.Body("sampled_header", rng, header=packet), encoder.Body("extended_80211_rx", rng, ssid="guest\x1b[2J")
    wire.datagram([wire.put_sample("flow_sample", [wire.put_record(body) for body in bodies])])
    for data, expected in ((wire.data, packet.hex() + "\nguest.[2J\n"), (encoder.word(4), "refused with code 3 at byte 0\n")):
        ran = subprocess.run(words, input=bytes(data), capture_output=True)
        checks.same("examples/first.c", expected, ran.stdout.decode())


def check_relay(checks, rng):
    """A relay's records are the bytes that were put in, with format word, length word and pad, and those of one depth alone."""
    program = example("relay")
    for _ in range(20):
        wire, _ = encoder.any_datagram(rng)
        records = [tool_checks.whole_of(wire.data, row) for row in wire.rows if row[0] == 2 and row[5] == 1]
        ran = subprocess.run([program], input=bytes(wire.data), capture_output=True)
        checks.same("examples/relay.c", (0, b"".join(records), b""), (ran.returncode, ran.stdout, ran.stderr))
    ran = subprocess.run([program], input=encoder.word(4), capture_output=True)
    checks.same("examples/relay.c: a refusal", (1, b"", b"refused with code 3 at byte 0\n"), (ran.returncode, ran.stdout, ran.stderr))


def sessions(text):
    """Each command that an indented `$` shows, with the lines below it."""
    for shown in re.findall(r"^    \$ (.*\n(?:    (?!\$ ).*\n)*)", text, re.M):
        command, *lines = shown.splitlines()
        yield command, "".join(line[4:] + "\n" for line in lines)


def check_readme(checks):
    """Its commands print what it says, its loops stand in the examples as they stand there, and its sizes are the header's."""
    with open(building.at("README.md")) as f:
        text = f.read()
    for said in (f"| 1 | the input is longer than {library.MAX_INPUT:,} bytes |", f"| 5 | an opaque's length is above {library.MAX_OPAQUE:,} |",
                 f"| 8 | a record would begin at depth {library.MAX_DEPTH + 1} |"):
        checks.holds(f"README.md has the line {said}", said in text)
    found = list(sessions(text))
    checks.holds("README.md shows commands with what they print", found)
    for command, expected in found:
        ran = subprocess.run(command, shell=True, cwd=building.ROOT, capture_output=True, text=True)
        checks.same(f"README.md: {command}", (expected, ""), (ran.stdout, ran.stderr))
    with open(building.at("examples", "relay.c")) as f:
        relay = [line.strip() for line in f]
    loop = [line.strip() for line in next(block for block in re.findall(r"```c\n(.*?)```", text, re.S) if "latchplume_whole" in block).splitlines()]
    checks.holds("README.md: the relay's loop is that of examples/relay.c", any(relay[i:i + len(loop)] == loop for i in range(len(relay))))


def check_all(checks, rng):
    check_header(checks, rng)
    check_first(checks, rng)
    check_relay(checks, rng)
    check_readme(checks)
