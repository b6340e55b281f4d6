"""What the speeds have to reach, and their picture."""
import workloads
from picture import LogScale, Picture

LEAST_OF_CRATE = 10
MOST_OF_WALK = 1.25
MOST_OF_SIXTEEN = 17
MOST_OF_WALK_GROWTH = 1.02
MOST_OF_STD = 2
MOST_OF_ACCEPTED = 2

# who, its colour, and what it is called in the picture
SHOWN = (
    ("floor", "#9a9a9a", "reading the bytes once"), ("walk", "#2a78b5", "walk in C"), ("ours", "#111111", "decode"),
    ("fields", "#4f9a44", "decode and every field reading"), ("crate", "#c8442b", "the Rust crate"),
)


def in_time(what, small, big):
    """16 MiB over 1 MiB: at most so much, or, where the walk grows by more than that too, which is the caches' doing, as much as the walk."""
    ratio, beside = big["ours"] / small["ours"], big.over("ours", "walk") / small.over("ours", "walk")
    said = f"{ratio:.2f}, at most {MOST_OF_SIXTEEN}, or {MOST_OF_WALK_GROWTH} times the walk's growth, of which it is {beside:.2f}"
    return ratio <= MOST_OF_SIXTEEN or beside <= MOST_OF_WALK_GROWTH, f"target: 16 MiB over 1 MiB of {what} in time is {said}"


def in_instructions(small, big):
    ratio = big["ours"] / small["ours"]
    return ratio <= MOST_OF_SIXTEEN, f"target: mib16/mib1 in instructions is {ratio:.2f}, at most {MOST_OF_SIXTEEN}"


def refusals(endings):
    """A string that goes bad at its end, against the same one accepted."""
    for name, ratios in endings.items():
        for what, ratio in ratios.items():
            said = f"target: refused/accepted on {name} in {what} is {ratio:.2f}, at most {MOST_OF_ACCEPTED}"
            yield ratio <= MOST_OF_ACCEPTED, said


def targets(cases, times, counts, texts, growth, endings):
    for name in ("typical", "nested", "counters"):
        ratio = times[name].over("crate", "ours")
        yield ratio >= LEAST_OF_CRATE, f"target: crate/ours on {name} is {ratio:.2f}, at least {LEAST_OF_CRATE}"
    for case in cases:
        ratio = times[case.name].over("ours", "walk")
        yield ratio <= MOST_OF_WALK, f"target: ours/walk on {case.name} is {ratio:.2f}, at most {MOST_OF_WALK}"
    yield in_time("small records", times["mib1"], times["mib16"])
    yield in_time("typical samples", *growth)
    yield in_instructions(counts["mib1"], counts["mib16"])
    for name in workloads.TEXTS:
        ratio = texts[name].over("ours", "std")
        yield ratio <= MOST_OF_STD, f"target: ours/std on {name} is {ratio:.2f}, at most {MOST_OF_STD}"
    yield from refusals(endings)


def duration(ns):
    for size, unit in ((1e6, "ms"), (1e3, "µs")):
        if ns >= 10 * size:
            return f"{ns / size:,.0f} {unit}"
    return f"{ns:,.0f} ns"


def draw_row(picture, scale, y, got):
    """A case's dots, with a number at the walk's and at the crate's."""
    for who, colour, _ in SHOWN:
        picture.dot(scale(got[who] / got["ours"]), y, colour)
    walk, crate = got["walk"] / got["ours"], got["crate"] / got["ours"]
    picture.text(scale(walk) - 9, y - 6, f"{walk:.2f}x", 11, "end", "#2a78b5")
    picture.text(scale(crate) + 9, y - 6, f"{crate:.3g}x", 11, "start", "#c8442b")


def draw(times, path):
    """For each case a row of dots: each contestant's time as a multiple of decode's."""
    left, right, top, row = 190, 850, 96, 34
    bottom = top + row * len(times)
    picture = Picture(900, bottom + 60, "Times of the decoder, the Rust crate and a walk in C")
    multiples = [got[who] / got["ours"] for got in times.values() for who, _, _ in SHOWN]
    scale = LogScale(min(0.05, *multiples), max(50, *multiples), left, right)
    picture.text(20, 30, "Time for one input, as a multiple of decode's (less is quicker; log scale)", 16, weight="bold")
    x = 20
    for _, colour, called in SHOWN:
        picture.dot(x + 5, 52, colour)
        picture.text(x + 15, 57, called)
        x += 45 + 7.3 * len(called)
    for tick in scale.ticks():
        picture.line(scale(tick), top - 10, scale(tick), bottom, "#111" if tick == 1 else "#ddd")
        picture.text(scale(tick), bottom + 20, f"{tick:g}x", 12, "middle", "#555")
    for bound, colour in ((1 / MOST_OF_WALK, "#2a78b5"), (LEAST_OF_CRATE, "#c8442b")):
        picture.line(scale(bound), top - 10, scale(bound), bottom, colour, dash="4 4")
    for index, (name, got) in enumerate(times.items()):
        y = top + row * index + row / 2
        picture.text(20, y + 5, name, weight="bold")
        picture.text(left - 20, y + 5, duration(got["ours"]), 12, "end", "#555")
        picture.line(left, y, right, y, "#eee")
        draw_row(picture, scale, y, got)
    said = "Beside its name what decode takes: a datagram, and of late, mib1 and mib16 the input. Dashed: the targets. Made by bench/run."
    picture.text(20, bottom + 46, said, 12, fill="#555")
    picture.write(path)
