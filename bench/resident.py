"""What the two processes held, in lines and as a picture."""
import feeding
from library import MAX_DEPTH
from picture import LogScale, Picture

OURS, CRATE = "#111111", "#c8442b"


def expected():
    """Of all datagrams, how many hold an aggregation deeper than any that is read, which is refused."""
    return sum(step.deep * feeding.BLOCKS for step in feeding.STEPS if step.depth > MAX_DEPTH)


def lines(ours, crate):
    """For each step the most that was resident in it."""
    for number, step in enumerate(feeding.STEPS):
        most = [max(look.most for look in fed.looks if look.step == number) for fed in (ours, crate)]
        now = [fed.looks[(number + 1) * len(fed.looks) // len(feeding.STEPS) - 1].now for fed in (ours, crate)]
        yield (f"step={number + 1} nesting={step.depth} largest={max(step.large, 64 + 16 * step.depth)} ours={most[0]} crate={most[1]} "
               f"ours-after={now[0]} crate-after={now[1]} KiB")


def judged(ours):
    held = {look.most for look in ours.looks} | {look.now for look in ours.looks}
    yield len(held) == 1, f"resident memory of ours, all through: {min(held)} to {max(held)} KiB, which must be the same"
    refused = expected()
    counted = [feeding.DATAGRAMS - refused, refused]
    yield ours.counts == counted, f"ours accepted {ours.counts[0]:,} and refused {ours.counts[1]:,} of them, as it must"


def of_crate(crate):
    most, last = max(look.most for look in crate.looks), crate.looks[-1].now
    return (f"the crate: up to {most} KiB resident, {last} at the end; {crate.counts[0]:,} accepted, {crate.counts[1]:,} refused; "
            f"{crate.counts[2]:,} calls of the allocator")


def steps_below(picture, across, y):
    """Where each step begins, and how deep its aggregations are."""
    each = feeding.BLOCKS * feeding.BLOCK
    for number, step in enumerate(feeding.STEPS):
        picture.text(across(number * each + each / 2), y, str(step.depth), 10, "middle", "#555")


def draw(ours, crate, path):
    left, right, top, bottom = 80, 860, 80, 400
    picture = Picture(900, 490, "Resident memory of the decoder and of the Rust crate over two million datagrams")
    most = max(look.most for look in crate.looks)
    low = min(look.now for look in ours.looks + crate.looks)
    up = LogScale(low / 2 / 1024, most * 1.5 / 1024, bottom, top)

    def across(datagrams):
        return left + (right - left) * datagrams / feeding.DATAGRAMS

    picture.text(20, 30, "Resident memory while the same two million datagrams are decoded (MiB, log scale)", 16, weight="bold")
    for tick in up.ticks():
        picture.line(left, up(tick), right, up(tick), "#ddd")
        picture.text(left - 8, up(tick) + 4, f"{tick:g}", 12, "end", "#555")
    for million in (0, 0.5, 1, 1.5, 2):
        picture.text(across(million * 1e6), bottom + 40, f"{million:g} million", 12, "middle", "#555")
    for number in range(len(feeding.STEPS) + 1):
        x = across(number * feeding.BLOCKS * feeding.BLOCK)
        picture.line(x, top, x, bottom + 6, "#eee")
    steps_below(picture, across, bottom + 18)
    picture.text(left - 8, bottom + 18, "nesting", 10, "end", "#555")
    for x, colour, called in ((20, CRATE, "the Rust crate"), (170, OURS, "Latchplume")):
        picture.line(x, 52, x + 22, 52, colour, 3)
        picture.text(x + 28, 57, called)
    for looks, colour in ((crate.looks, CRATE), (ours.looks, OURS)):
        picture.path([(across(look.datagrams), up(look.most / 1024)) for look in looks], colour, 2.5)
        picture.text(right, up(looks[-1].most / 1024) - 8, f"{looks[-1].most / 1024:.3g} MiB", 13, "end", colour, "bold")
    said = f"Nesting: how deep the aggregations of a step are; Latchplume refuses those beyond {MAX_DEPTH}. No datagram is longer than 65,535 bytes."
    picture.text(20, 462, said, 12, fill="#555")
    picture.text(20, 480, "Made by bench/memory.", 12, fill="#555")
    picture.write(path)
