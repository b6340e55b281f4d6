"""The library in the base mode against the crate: the kind of refusal, every descriptor but for its place, every field, every raw payload."""
import crate
import figures
from encoder import BASE


def check(checks, captures):
    answers = figures.decoded([one.data.hex() for one in captures], figures.DECODE[BASE])
    read = figures.ours([(one.data, answer.rows) for one, answer in zip(captures, answers)], BASE)
    told = crate.told(one.data.hex() for one in captures)
    for one, answer, ours, (shown, _) in zip(captures, answers, read, told):
        value = crate.parsed(shown)
        if checks.same(f"{one.name}: the crate's code", crate.code_of(value), answer.code) and answer.code == 0:
            against(checks, one.name, crate.nodes(value.parts[0]), ours)


def against(checks, name, nodes, all_ours):
    if not checks.same(f"{name}: how many descriptors the crate's structure has", len(nodes), len(all_ours)):
        return
    for index, (theirs, ours) in enumerate(zip(nodes, all_ours)):
        what = f"{name}: descriptor {index}"
        checks.same(f"{what}: kind, format, parent and depth by the crate", theirs.place, ours.place)
        checks.same(f"{what}: fields by the crate", theirs.fields, ours.fields)
        if theirs.raw is not None:
            checks.same(f"{what}: payload by the crate", theirs.raw, ours.raw)
