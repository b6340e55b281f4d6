"""The command, on files, pipes and captures."""
import glob
import os
import random
import re
import shutil
import subprocess
import unicodedata

import building
import captures
import encoder
import ethernet_checks
import fault_checks
import trees

# a datagram without samples, and its listing
SHORT = encoder.word(5) + encoder.word(0) * 5
SHORT_LISTED = "code=0 at=24 steps=6 descriptors=1\nkind=0 format=0 start=0 length=24 parent=4294967295 depth=0 first=0\n"
USAGE = "; latchplume --help tells how it is used"
# the words for each mode
OPTIONS = {encoder.MEMO: [], encoder.BASE: ["--base"]}


class Tool:
    """The command under one name, run in a folder of its own."""

    def __init__(self, checks, room, program):
        self.checks, self.room, self.program = checks, room, program

    def run(self, *words, data=b"", locale="C.UTF-8", raw=False):
        environment = {**os.environ, "LC_ALL": locale, **building.ENVIRONMENT}
        ran = subprocess.run([self.program, *words], input=data, capture_output=True, env=environment, cwd=self.room)
        return ran.returncode, ran.stdout if raw else ran.stdout.decode(), ran.stderr.decode()

    def file(self, name, data):
        with open(os.path.join(self.room, name), "wb") as f:
            f.write(data)
        return name

    def same(self, what, expected, *words, **how):
        self.checks.same(f"latchplume {' '.join(words)}: {what}", expected, self.run(*words, **how))


def listed(program, data, *words):
    """What the proved program prints."""
    ran = subprocess.run([building.at("tests", "program"), program, *words], input=data, capture_output=True)
    return ran.stdout.decode() if ran.returncode == 0 else f"status {ran.returncode}: {ran.stderr.decode()}"


def status_of(listing):
    return 0 if listing.startswith("code=0 ") else 1


def real():
    """The captures from outside, by name."""
    for path in sorted(glob.glob(building.at("tests", "captures", "*", "*.bin"))):
        with open(path, "rb") as f:
            yield os.path.relpath(path, building.at("tests", "captures")), f.read()


def damaged(data, rng):
    """One byte changed, or the end cut off."""
    data = bytearray(data)
    if rng.random() < 0.3:
        return bytes(data[:rng.randrange(len(data))])
    data[rng.randrange(len(data))] = rng.getrandbits(8)
    return bytes(data)


def same_listing(tool, what, expected, *words, **how):
    """What is printed, the status, and whether there are words beside it: a string's fault has some."""
    status, out, said = tool.run(*words, **how)
    tool.checks.same(f"latchplume {' '.join(words)}: {what}", (status_of(expected), expected, expected.startswith("code=7 ")), (status, out, said != ""))


def against_the_listing(tool, rng):
    """list and run print what the proved programs print, in both modes."""
    all_real = list(real())
    inputs = all_real + [("damaged " + name, damaged(data, rng)) for name, data in rng.sample(all_real, 30)]
    inputs += [("made", bytes(encoder.any_datagram(rng, mode=mode)[0].data)) for mode in encoder.MODES for _ in range(10)]
    inputs += [("an Ethernet record", bytes(one.wire.data)) for one in ethernet_records(rng, 0)]
    for what, data in inputs:
        for words in OPTIONS.values() if 0 < len(data) <= 8192 else ():
            same_listing(tool, what, listed("listing", data, *words), "list", *words, tool.file("one", data))
    runs = [b"".join(one for _, one in rng.sample(all_real, 3)) for _ in range(12)]
    runs = [data if rng.random() < 0.5 else damaged(data, rng) for data in runs] + [bytes(one.wire.data) for one in ethernet_records(rng, 1)]
    for data, words in [(data, words) for data in runs for words in OPTIONS.values()]:
        expected = listed("listing_run", data, *words)
        same_listing(tool, "a run", expected, "run", *words, tool.file("several", data))
        same_listing(tool, "a run through a pipe", expected, "run", *words, "-", data=data)


def real_shown(tool):
    """show takes every real datagram, and refuses the ones that the listing refuses."""
    for what, data in real():
        status, out, said = tool.run("show", tool.file("one", data))
        answer = tool.run("list", "one")[1].split("\n")[0]
        tool.checks.same(f"show {what}: status", (status_of(answer), ""), (status, said))
        if not status:
            heads = re.findall(r"^ *(?:datagram|sample|record|counter record|PDU) \d+: ", out, re.M)
            tool.checks.same(f"show {what}: one head for each descriptor", answer.split("descriptors=")[1], str(len(heads)))


def troubles(tool):
    """One clear line, and status 2, for what is no input."""
    empty = "code=2 at=0 steps=0 descriptors=0\n"
    long = "code=1 at=0 steps=0 descriptors=0\n"
    tool.same("no file", (2, "", "latchplume: nowhere: there is no such file\n"), "show", "nowhere")
    tool.same("a folder", (2, "", "latchplume: .: is a folder, not a file\n"), "list", ".")
    tool.same("empty", (2, empty, "latchplume: nothing: is empty\n"), "list", tool.file("nothing", b""))
    tool.same("empty", (2, "", "latchplume: nothing: is empty\n"), "show", "nothing")
    tool.same("empty", (2, "code=0 at=0 steps=0 descriptors=0\n", "latchplume: nothing: is empty\n"), "run", "nothing")
    tool.same("empty", (2, empty, "latchplume: standard input: is empty\n"), "list", "-")
    most = tool.file("most", SHORT + bytes(encoder.MAX_INPUT - 24))
    tool.same("the longest", (0, SHORT_LISTED, ""), "list", most)
    tool.same("the longest", (1, "code=3 at=24 steps=6 descriptors=0\n", ""), "run", most)
    more = tool.file("more", SHORT + bytes(encoder.MAX_INPUT - 23))
    for command in ("list", "run"):
        tool.same("too long", (2, long, f"latchplume: more: is longer than {encoder.MAX_INPUT:,} bytes\n"), command, more)
    shown = f"datagram 1: refused: code 1: input longer than {encoder.MAX_INPUT:,}\n  position: 0, after 0 items that were read\n"
    tool.same("too long", (2, shown, f"latchplume: more: is longer than {encoder.MAX_INPUT:,} bytes\n"), "show", more)
    pipe = SHORT + bytes(encoder.MAX_INPUT + 5000)
    tool.same("too long", (2, long, f"latchplume: standard input: is longer than {encoder.MAX_INPUT:,} bytes\n"), "list", "-", data=pipe)


def usages(tool):
    port = "--port takes a number from 1 to 65535"
    for words, said in (
        ("", "list, run, show or cut is missing"), ("list", "a file is missing"), ("look one", "there is no command look"),
        ("list one two", "one file at a time, and here is another: two"), ("show --prot 1 one", "there is no option --prot"),
        ("show --bas one", "there is no option --bas"), ("list --base=1 one", "there is no option --base=1"), ("run --memo one", "there is no option --memo"),
        ("cut one", "the index of a descriptor is missing"), ("cut one -1", "there is no option -1"),
        ("cut one 0x1", "an index is a number from 0 on, and not 0x1"), ("cut one 0 1", "one file at a time, and here is another: 1"),
        ("cut one " + "9" * 30, "an index is a number from 0 on, and not " + "9" * 30), ("list --packet 1 one", "there is no option --packet"),
        ("cut --packet 0 one 0", "--packet takes a number from 1 on"), ("cut one 0 --packet", "--packet takes a number from 1 on"),
        ("list --pads one", "there is no option --pads"), ("show one --port", port), ("show --port 65536 one", port), ("show --port 0 one", port), ("show --port 6x one", port),
    ):
        tool.same("usage", (2, "", f"latchplume: {said}{USAGE}\n"), *words.split())
    status, out, said = tool.run("--help")
    tool.checks.same("--help", (0, "", True), (status, said, out.startswith("usage: latchplume list")))
    with open(building.at("include", "latchplume.h")) as f:
        release = re.search(r'^#define LATCHPLUME_RELEASE "(.*)"$', f.read(), re.M).group(1)
    tool.same("the release", (0, f"latchplume {release}\n", ""), "--version")
    tool.file("-odd", SHORT)
    tool.same("a name with a dash", (0, tool.run("list", "./-odd")[1], ""), "list", "--", "-odd")


def refusals(tool, rng):
    """show says what is wrong and marks the byte, for each code that a datagram can be refused with."""
    for name in ("header", "extended_router", "sampled_header", "extended_80211_rx"):
        wire, _, body, base, steps = trees.wire_of(rng, name)
        for item, offset, code, raw, bad in body.faults:
            data = bytearray(wire.data)
            data[base + offset:base + offset + len(raw)] = raw
            status, out, said = tool.run("show", tool.file("bad", data))
            tool.checks.same(f"show code {code}", (1, ""), (status, said))
            trees.refusal_shown(tool.checks, out, data, code, base + bad, steps + item)
    trees.refusal_shown(tool.checks, tool.run("show", tool.file("bad", SHORT[:22]))[1], SHORT[:22], 2, 20, 5)
    trees.refusal_shown(tool.checks, tool.run("show", tool.file("bad", SHORT[:16]))[1], SHORT[:16], 2, 16, 4)
    left = tool.run("show", tool.file("bad", SHORT + b"abc"))
    tool.checks.same("show: bytes left over", (1, True), (left[0], left[1].startswith("datagram 1: 24 bytes at 0\n")))
    trees.refusal_shown(tool.checks, left[1][left[1].index("datagram 2"):], SHORT + b"abc", 2, 24, 0)


def pads_shown(tool, rng):
    """show --pads tells every pad with a byte that is not zero, and no other; without it none is told."""
    for _ in range(40):
        wire, _ = encoder.any_datagram(rng)
        expected = sorted(f"{pad.hex(' ')} at {start}" for start, pad in wire.pads if any(pad))
        status, out, said = tool.run("show", "--pads", tool.file("pads", wire.data))
        tool.checks.same("show --pads", (0, expected, ""), (status, sorted(re.findall(r"^ +pad: (.*)$", out, re.M)), said))
        tool.checks.same("show: pads are told where they are asked for", re.sub(r"^ +pad: .*\n", "", out, flags=re.M), tool.run("show", "pads")[1])


def trees_shown(tool, rng):
    """Every field that the encoder put in stands in the tree, in order and by its name."""
    for number in range(90):
        mode = encoder.MODES[number % 2]
        wire, _ = encoder.any_datagram(rng, mode=mode)
        if number % 3 == 0:
            encoder.any_datagram(rng, wire)
        status, out, said = tool.run("show", "--full", *OPTIONS[mode], tool.file("tree", wire.data))
        tool.checks.same(f"show: status, {mode}", (0, ""), (status, said))
        tool.checks.same(f"show: the fields, {mode}", trees.expected_fields(wire), trees.fields_of(out))
    for name, given, lines in trees.EXAMPLES:
        for mode, words in OPTIONS.items():
            wire = trees.wire_with(rng, name, given, mode)
            out = tool.run("show", *words, tool.file("tree", wire.data))[1]
            for line in lines:
                tool.checks.same(f"show {name}, {mode}: {line}", True, line in [one.strip() for one in out.split("\n")])


def whole_of(data, row):
    """The bytes of a descriptor, from its first byte to the end of its pad."""
    return bytes(data[row[6]:row[2] + row[3] + encoder.pads(row[3])])


def cuts(tool, rng):
    """cut writes each descriptor's bytes as the encoder put them in, of one datagram and of several."""
    for number in range(12):
        wire, _ = encoder.any_datagram(rng)
        for _ in range(number % 3):
            encoder.any_datagram(rng, wire)
        behind = rng.randbytes(rng.randint(1, 3))
        tool.file("several", wire.data + behind)
        for index, row in enumerate(wire.rows):
            tool.same("its bytes", (0, whole_of(wire.data, row), ""), "cut", "several", str(index), raw=True)
        said = f"latchplume: several: has no descriptor {len(wire.rows)}: the last one is {len(wire.rows) - 1}\n"
        tool.same("past the last", (2, b"", said), "cut", "several", str(len(wire.rows)), raw=True)


def cuts_read_back(tool, rng):
    """A record that was cut out, as the one record of a sample that is made here, shows the same fields."""
    for mode, name in [(mode, name) for mode in encoder.MODES for name in encoder.RECORDS + encoder.COUNTERS]:
        body = encoder.Body(name, rng, mode)
        if name in encoder.COUNTERS:
            wire, form, before = encoder.of_one_record(rng, body, rng.choice(encoder.COUNTER_SAMPLES)), 2, (0, 0, 1)
        else:
            wire, form, before = encoder.of_one_record(rng, body, depth=rng.randint(1, encoder.MAX_DEPTH)), 1, (0, 0, 0, 0, 0, 0, 0, 1)
        status, cut, said = tool.run("cut", *OPTIONS[mode], tool.file("one", wire.data), str(len(wire.rows) - 1), raw=True)
        tool.checks.same(f"cut {name}: status", (0, ""), (status, said))
        sample = b"".join(map(encoder.word, (form, 4 * len(before) + len(cut), *before))) + cut
        status, out, said = tool.run("show", "--full", *OPTIONS[mode], tool.file("made", SHORT[:20] + encoder.word(1) + sample))
        shapes = (field.partition(":") for field in encoder.LAYOUTS[name][2].split())
        expected = [(field, trees.spoken(body, field, shape, body.fields[field])) for field, _, shape in shapes]
        tool.checks.same(f"show a {name} that was cut out: status", (0, ""), (status, said))
        tool.checks.same(f"show a {name} that was cut out", expected, [one[1:] for one in trees.fields_of(out)][-len(expected):])


def ethernet_records(rng, around):
    """Sampled Ethernet records whose lengths tell the modes apart, and others."""
    for length in (0, 4, 12, 19, 20, 23, 24, 40):
        for depth in ethernet_checks.DEPTHS:
            yield ethernet_checks.Record(rng, rng.randbytes(length), depth, rng.choice(ethernet_checks.SAMPLES), around)


def listing(code, at, steps, rows):
    lines = [f"code={code} at={at} steps={steps} descriptors={len(rows)}"]
    lines += ["kind=%d format=%d start=%d length=%d parent=%d depth=%d first=%d" % row for row in rows]
    return "".join(line + "\n" for line in lines)


def bases(tool, rng):
    """list, run, show and cut with --base and without, over the same bytes: what the encoder reads in each mode."""
    for one in ethernet_records(rng, 0):
        tool.file("bare", one.wire.data)
        tool.file("capture", captures.pcap([captures.ipv4(captures.udp(bytes(one.wire.data)))], captures.RAW))
        for mode, words in OPTIONS.items():
            code, at, steps = one.decoded(mode)
            expected, counted = listing(code, at, steps, [] if code else one.wire.rows), "1 packets: 1 datagrams, 0 cut, 0 fragments, 0 others\n"
            tool.same("a datagram", (bool(code), expected, ""), "list", *words, "bare")
            tool.same("a packet", (bool(code), f"packet 1\n{expected}{counted}", ""), "list", *words, "capture")
    for one in ethernet_records(rng, 1):
        tool.file("several", one.wire.data)
        for mode, words in OPTIONS.items():
            tool.same("a run", (0, listing(*one.ran(mode)), ""), "run", *words, "several")
            shown(tool, one, mode, words, "several")
            cut_by(tool, one, mode, words, "several")


def shown(tool, one, mode, words, name):
    """The record's fields in the tree, or where the datagram is refused."""
    code, at, _ = one.read(mode)
    status, out, said = tool.run("show", *words, name)
    if code:
        tool.checks.same(f"show {name}, {mode}", (1, True, ""), (status, f"  position: {at}, after " in out, said))
        return
    values = dict(part.split("=") for part in encoder.ethernet_values(one.payload, mode).split())
    expected = [values["length"], *(bytes.fromhex(values[field]).hex(":") for field in ("src_mac", "dst_mac")), values["eth_type"]]
    got = [value for _, field, value in trees.fields_of(out) if field in values]
    tool.checks.same(f"show {name}, {mode}", (0, expected, ""), (status, got, said))


def cut_by(tool, one, mode, words, name):
    """The record's bytes; where its datagram is refused, the run before it has no such descriptor."""
    index, last = one.wire.rows.index(one.row), one.first[1] - 1
    there = (0, whole_of(one.wire.data, one.row), "")
    missing = (2, b"", f"latchplume: {name}: has no descriptor {index}: the last one is {last}\n")
    tool.same("a record", missing if one.read(mode)[0] else there, "cut", *words, name, str(index), raw=True)


def cut_troubles(tool):
    """One clear line, and nothing written, where there is nothing to cut out."""
    capture = captures.pcap([captures.ipv4(captures.udp(b"")), captures.ipv4(captures.udp(SHORT)), captures.ipv4(captures.udp(SHORT[:20]))], captures.RAW)
    tool.file("capture", capture)
    tool.file("one", SHORT)
    tool.file("bad", SHORT[:22])
    tool.file("nothing", b"")
    tool.file("more", SHORT + bytes(encoder.MAX_INPUT))
    cut = "an item passes the end of what encloses it"
    for status, words, said in (
        (2, "nowhere 0", "nowhere: there is no such file"), (2, "nothing 0", "nothing: is empty"), (1, "bad 0", f"bad: is refused: code 2: {cut}, at 20"),
        (2, "one 1", "one: has no descriptor 1: the last one is 0"), (2, "more 0", f"more: is longer than {encoder.MAX_INPUT:,} bytes"),
        (2, "--packet 1 one 0", "one: is no capture, and has no packet 1"), (2, "capture 0", "capture: is a capture: --packet says which of its packets"),
        (2, "--packet 4 capture 0", "capture: has no UDP packet 4 to port 6343 (--port names another)"),
        (2, "--packet 2 --port 1 capture 0", "capture: has no UDP packet 2 to port 1 (--port names another)"),
        (1, "--packet 3 capture 0", f"capture: is refused: code 2: {cut}, at 20"),
    ):
        tool.same("a trouble", (status, b"", f"latchplume: {said}\n"), "cut", *words.split(), raw=True)
    tool.same("out of a packet", (0, SHORT, ""), "cut", "--packet", "2", "capture", "0", raw=True)
    tool.same("from a pipe", (0, SHORT, ""), "cut", "-", "0", data=SHORT, raw=True)


def harmless(character):
    return character == "\n" or (character.isprintable() and unicodedata.category(character) not in ("Cc", "Cf", "Cs", "Co", "Cn", "Zl", "Zp"))


def nothing_raw(tool, rng):
    """No character that a terminal obeys, hides or turns around comes out as it came in."""
    bad = [c for c in map(chr, range(0x110000)) if unicodedata.category(c) in ("Cc", "Cf", "Zl", "Zp", "Co", "Zs") and c != " "]
    chosen = [c for c in bad if ord(c) < 0xe000] + rng.sample([c for c in bad if ord(c) >= 0xe000], 200)
    for locale in ("C.UTF-8", "C"):
        for i in range(0, len(chosen), 60):
            part = "".join(chosen[i:i + 60])
            wire = trees.wire_with(rng, "extended_80211_rx", {"ssid": part})
            status, out, _ = tool.run("show", "--full", tool.file("ssid", wire.data), locale=locale)
            escaped = "".join({"\n": "\\n", "\t": "\\t"}.get(c, "\\u{%x}" % ord(c)) for c in part)
            got = status, f'ssid: "{escaped}"' in out, all(map(harmless, out))
            tool.checks.same(f"an SSID of bad characters in {locale}", (0, True, True), got)
    wire = trees.wire_with(rng, "extended_80211_rx", {"ssid": "Zürich \"日本\" \\ 😀"})
    tool.file("ssid", wire.data)
    for locale, line in (("C.UTF-8", r'ssid: "Zürich \"日本\" \\ 😀"'), ("C", r'ssid: "Z\u{fc}rich \"\u{65e5}\u{672c}\" \\ \u{1f600}"')):
        tool.checks.same(f"an SSID in {locale}", True, line + "\n" in tool.run("show", "ssid", locale=locale)[1])


def long_fields(tool, rng):
    """A long field is cut, and said to be; --full prints all of it."""
    wire = trees.wire_with(rng, "extended_vlan_tunnel", {"stack": list(range(300))})
    tool.file("long", wire.data)
    cut, full = tool.run("show", "long")[1], tool.run("show", "--full", "long")[1]
    tool.checks.same("a long list", (True, False, True), ("and 44 more\n" in cut, "  299 (" in cut, "  299 (" in full))
    wire = trees.wire_with(rng, "extended_url", {"url": "é" * 200})
    cut, full = tool.run("show", tool.file("long", wire.data))[1], tool.run("show", "--full", "long")[1]
    tool.checks.same("a long string", (True, True), ('"' + "é" * 128 + '" and 144 more bytes\n' in cut, "é" * 200 in full))
    wire = trees.wire_with(rng, "sampled_header", {"header": bytes(300)})
    cut, full = tool.run("show", tool.file("long", wire.data))[1], tool.run("show", "--full", "long")[1]
    tool.checks.same("long bytes", (True, 16, 19), ("and 44 more bytes\n" in cut, cut.count(": " + " 00" * 4), full.count(": " + " 00" * 4)))


def fake(room, name, text):
    """A folder with a program of this name in it."""
    folder = os.path.join(room, "fake")
    os.makedirs(folder, exist_ok=True)
    path = os.path.join(folder, name)
    with open(path, "w") as f:
        f.write("#!/bin/sh\n" + text)
    os.chmod(path, 0o755)
    return folder


def before_anything_is_built(checks, room, command):
    """In a folder with the script and the files that it is made of, and with neither rt nor a compiler on the path, the script helps all the
    same, as the command does, and says in one line what is off."""
    alone = os.path.join(room, "alone")
    for folder in ("tools", "include"):
        shutil.copytree(building.at(folder), os.path.join(alone, folder))
    for name in ("latchplume", "build", "crates.txt"):
        shutil.copy(building.at(name), alone)
    tool, before = Tool(checks, room, os.path.join(alone, "latchplume")), os.environ["PATH"]
    for name in ("sh", "sed", "dirname", "find", "head", "cat", "mkdir", "mktemp", "rm", "env", "python3"):
        os.makedirs(os.path.join(room, "few"), exist_ok=True)
        os.symlink(shutil.which(name), os.path.join(room, "few", name))
    os.environ["PATH"] = os.path.join(room, "few")
    try:
        for words in (["--help"], ["show", "--help"], ["--version"]):
            tool.same("before anything is built", command.run(*words), *words)
        for words, said in (([], "list, run, show or cut is missing"), (["look"], "there is no command look")):
            tool.same("before anything is built", (2, "", f"latchplume: {said}{USAGE}\n"), *words)
        tool.same("no compiler", (2, "", "latchplume: a C compiler is missing: apt-get install gcc libc6-dev\n"), "list", "one")
        os.symlink("/bin/true", os.path.join(room, "few", "cc"))
        status, out, said = tool.run("list", "one")
        checks.same("latchplume list: no toolchain", (2, "", True), (status, out, said.startswith("build: no rt on the path: ")))
    finally:
        os.environ["PATH"] = before
    left = sorted(os.listdir(alone))
    checks.same("what is left there", ["build", "crates.txt", "include", "latchplume", "target", "tools"], left)


def the_script(checks, room):
    """./latchplume builds what is missing, here without libpcap at first, and says nothing of it where all is well."""
    tool = Tool(checks, room, building.at("latchplume"))
    built = building.at("target", "command", "latchplume")
    one, capture = tool.file("one", SHORT), tool.file("capture", captures.pcap([captures.ipv4(captures.udp(SHORT))], captures.RAW))
    missing = "latchplume: libpcap is missing, so pcap files are not read: apt-get install libpcap-dev\n"
    if os.path.exists(built):
        os.remove(built)
    fake(room, "cc", 'case "$*" in "-E -") exit 1 ;; esac\nexec gcc "$@"\n')
    before = os.environ["PATH"]
    os.environ["PATH"] = fake(room, "id", "echo 1000\n") + ":" + before
    try:
        tool.same("built without libpcap", (0, SHORT_LISTED, missing), "list", one)
        tool.same("not built again", (0, SHORT_LISTED, ""), "list", one)
    finally:
        os.environ["PATH"] = before
    tool.same("built with libpcap", (0, f"packet 1\n{SHORT_LISTED}1 packets: 1 datagrams, 0 cut, 0 fragments, 0 others\n", ""), "list", capture)
    status, out, said = tool.run("show", building.at("tests", "captures", "ovs-agent-v4", "0001.bin"))
    checks.same("latchplume show: a real datagram", (0, True, ""), (status, "agent_address: 127.0.0.1" in out, said))
    tool.same("no file", (2, "", "latchplume: nowhere: there is no such file\n"), "list", "nowhere")


def check_all(checks, room):
    rng = random.Random(7)
    against_the_listing(Tool(checks, room, building.made("latchplume")), rng)
    tool = Tool(checks, room, building.made("latchplume-checked"))
    for part in (real_shown, troubles, usages, cut_troubles):
        part(tool)
    for part in (refusals, fault_checks.check, pads_shown, trees_shown, cuts, cuts_read_back, bases, nothing_raw, long_fields):
        part(tool, rng)
    before_anything_is_built(checks, room, Tool(checks, room, building.made("latchplume")))
    the_script(checks, room)
