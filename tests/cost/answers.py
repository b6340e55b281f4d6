"""What calls answer and leave in the store, and how deep they write the stack, as they run and in the code."""
import struct

import build
import cases
import frames

MOST_STACK = 16384
HEAD = struct.Struct("<5QI16s4I4x")  # as answers.c writes it
MODES = {"": "host_c", "_base": "host_base_c"}  # how the calls of a mode end, and the crate that exports them


def ask(command, asked):
    """For each case what is shown, and the bytes of stack that were written."""
    sent = [struct.pack("<3I", cases.CALLS.index(c.call), c.room, len(c.data)) + c.data for c in asked]
    said = build.run(command, input=b"".join(sent))
    at, out = 0, []
    for c in asked:
        code, place, steps, needed, stack, *header = HEAD.unpack_from(said, at)
        store = struct.unpack_from(f"<{c.room + cases.SPARE}I", said, at + HEAD.size)
        at += HEAD.size + 4 * len(store)
        out.append((cases.Shown(code, place, steps, needed, tuple(header), store), stack))
    return out


def difference(case, shown):
    """The first field that is not as expected."""
    for name, expected, got in zip(shown._fields, case.expected, shown):
        if expected is None or expected == got:
            continue
        if name == "store":
            name, expected, got = next((f"store word {i}", e, g) for i, (e, g) in enumerate(zip(expected, got)) if e != g)
        return f"{case.call} of {len(case.data)} bytes with a store of {case.room} words: {name} is {got}, not {expected}"
    return None


def commands():
    yield build.MACHINE, build.program("answers")


def figures():
    asked = list(cases.all_cases())
    groups = list(dict.fromkeys(c.group for c in asked))
    for machine, command in commands():
        answered = ask(command, asked)
        for group in groups:
            found = [difference(c, shown) for c, (shown, _) in zip(asked, answered) if c.group == group]
            wrong = [said for said in found if said]
            yield not wrong, "; ".join([f"answers on {machine}: {group}: {len(wrong)} of {len(found)} calls wrong, at most 0", *wrong[:1]])
        for end, crate in MODES.items():
            depths = [stack for c, (_, stack) in zip(asked, answered) if c.call.endswith("_base") == bool(end)]
            yield max(depths) <= MOST_STACK, f"stack on {machine}: {max(depths)} bytes written by the deepest of {len(depths)} calls of {crate}, at most {MOST_STACK}"
    for crate in MODES.values():
        size, chain = frames.deepest(crate)
        yield size <= MOST_STACK, f"stack on x86_64: {size} bytes in the frames of the deepest chain of calls of {crate}, {len(chain)} of them, at most {MOST_STACK}"
