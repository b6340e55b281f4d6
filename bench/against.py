"""The library beside another build of it, in one process: whether a change has cost time."""
import making
import measuring
import workloads

ROUNDS = 200
MOST = 1.04  # of the time before


def lines(archive, cases):
    """A line for each case, and whether it is within the bound."""
    programs = making.measure(archive)
    for case in [*cases, *workloads.usual_mib_cases()]:
        got = measuring.times(programs, case, ("ours", "before"), ROUNDS)
        ratio = got.over("ours", "before")
        yield ratio <= MOST, f"case={case.name} ours={got['ours']:.1f} before={got['before']:.1f} ours/before={ratio:.3f}, at most {MOST}"
    for name, got in measuring.all_instructions(programs, cases, ("ours", "before")):
        yield True, f"instructions case={name} ours={got['ours']:.1f} before={got['before']:.1f} ours/before={got.over('ours', 'before'):.3f}"
