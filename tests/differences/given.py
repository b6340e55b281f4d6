"""What the library, the crate and tshark give for inputs, in the words of a claim about them."""
import re
import resource

import crate
import figures
import tshark
from encoder import BASE, MEMO
from recipes import Unreadable

LITTLE = 16 << 20  # 16 MiB
IN_BASE = "base: "  # before a claim about the base mode


class Given:
    """Inputs, each with a row that it is for. All but what may end the crate's process are asked together."""

    def __init__(self, inputs):
        every = list(dict.fromkeys(one for _, one in inputs))
        asked = {MEMO: every, BASE: list({one for row, one in inputs if row.asks_base()})}
        self.ones = {mode: dict(zip(asked[mode], figures.decoded(asked[mode], call))) for mode, call in figures.DECODE.items()}
        self.runs = {mode: dict(zip(asked[mode], figures.decoded(asked[mode], call))) for mode, call in figures.RUN.items()}
        alone = {one for row, one in inputs if row.alone()}
        together = [one for one in every if one not in alone]
        self.told = dict(zip(together, crate.told(together)))
        of_tshark = list({one for row, one in inputs if row.asks_tshark()})
        self.readings = dict(zip(of_tshark, tshark.read([bytes.fromhex(one) for one in of_tshark])))

    def like(self, claim, who, one):
        """What is given, put as the claim puts it."""
        return {"crate": self.by_crate, "here": self.here, "others": self.by_tshark}[who](claim, one)

    def here(self, claim, one):
        if claim.startswith(IN_BASE):
            return IN_BASE + self.by_library(claim[len(IN_BASE):], one, BASE)
        return self.by_library(claim, one, MEMO)

    def by_library(self, claim, one, mode):
        answer, run = self.ones[mode][one], self.runs[mode][one]
        if claim.startswith("run: "):
            return run_like(claim, run.code, sum(row[0] == 0 for row in run.rows), f" at {run.at}")
        if claim.endswith(" in 16 MiB"):
            limited, = figures.decoded([one], figures.DECODE[mode], preexec_fn=little_memory)
            return f"{limited.code} at {limited.at} in 16 MiB"
        if claim.endswith(" needed"):
            return self.with_room(claim, one, mode)
        if claim.endswith(" steps"):
            return f"{answer.steps} steps"
        if re.fullmatch(r"\d+( at \d+)?", claim):
            return f"{answer.code} at {answer.at}" if " at " in claim else str(answer.code)
        return self.value(claim, one, mode)

    def with_room(self, claim, one, mode):
        words = int(re.search(r" in (\d+) words", claim).group(1))
        answer = figures.answer_of(figures.called([f"data {one}", f"{figures.DECODE[mode]} {words}"])[0])
        return f"{answer.code} in {words} words, {answer.needed} needed"

    def value(self, claim, one, mode):
        """A field of the last descriptor that has it; or that the last descriptor is not opened."""
        rows = self.ones[mode][one].rows
        nodes, = figures.ours([(bytes.fromhex(one), rows)], mode) if rows else [[]]
        if claim == "raw":
            return "raw" if nodes and not nodes[-1].name else "not raw"
        name = claim.partition("=")[0]
        values = [shown(node.fields[name]) for node in nodes if name in node.fields]
        return f"{name}={values[-1]}" if values else f"no {name}"

    def by_crate(self, claim, one):
        if claim.startswith("ends"):
            return claim if crate.ends(one, LITTLE if "16 MiB" in claim else None) else "does not end"
        rendered, run = self.told[one] if one in self.told else crate.told([one], "--outcome")[0]
        if claim.startswith("run: "):
            value = crate.parsed(run)
            return run_like(claim, crate.code_of(value), value.parts[0], "")
        if claim.isdigit():
            return str(crate.code_of(crate.parsed(rendered)))
        return claim if claim in rendered else rendered[:400]

    def by_tshark(self, claim, one):
        reading = self.readings[one]
        m = re.fullmatch(r"tshark (no )?([\w.]+?)(?:=(\w*))?(?: at (\d+))?", claim)
        if claim in ("tshark accepts", "tshark malformed", "tshark no sFlow"):
            return "tshark " + ("no sFlow" if not reading.taken else "malformed" if reading.malformed else "accepts")
        if not m:
            raise Unreadable(f"'{claim}' is no claim about tshark")
        named = [(at, value) for (at, name), value in sorted(reading.fields.items()) if name == m[2] and (not m[4] or at == int(m[4]))]
        if not named:
            return f"tshark no {m[2]}" + (f" at {m[4]}" if m[4] else "")
        return f"tshark {m[2]}={shown(named[-1][1])}" + (f" at {named[-1][0]}" if m[4] else "")


def run_like(claim, code, datagrams, place):
    if code == 0 and "datagram" in claim:
        return f"run: {datagrams} datagram" + ("" if datagrams == 1 else "s")
    return f"run: {code}{place if ' at ' in claim else ''}"


def shown(value):
    if isinstance(value, bytes):
        return value.hex()
    return f"{value[0]}/{shown(value[1])}" if isinstance(value, tuple) else str(value)


def little_memory():
    resource.setrlimit(resource.RLIMIT_AS, (LITTLE, LITTLE))
