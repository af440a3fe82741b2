"""Instances of `cts`, their canonical text by docs/FORMATS.md, and random ones. It shares nothing with the product."""

import dataclasses
import typing

# Lengths are in nm, capacitances in zF, resistances in µΩ and times in 10^-27 s.
UM, FF, OHM, PS = 10**3, 10**6, 10**6, 10**15
# The greatest coordinate.
FARTHEST = 10**8
# The places of the numbers of each line.
PLACES = {
    "die": (3, 3, 3, 3),
    "source": (3, 3, 6),
    "wire": (3, 3),
    "limits": (6, 6, 15),
    "buffer": (6, 6, 15),
    "sink": (0, 3, 3, 6, 15),
    "block": (3, 3, 3, 3),
}


def decimal(units, places):
    """The canonical text of a number in units of which ten to the power of the places are one."""
    whole, rest = divmod(units, 10**places)
    return f"{whole}.{rest:0{places}}" if places else str(whole)


def line(word, numbers, *kind):
    return " ".join([word, *kind, *map(decimal, numbers, PLACES[word])])


class Sink(typing.NamedTuple):
    id: int
    x: int
    y: int
    cap: int
    offset: int = 0


@dataclasses.dataclass(frozen=True)
class Instance:
    """The numbers of each line; a wire's are for each nm, a block's stand after its kind, and offsets count in version 2 alone."""

    die: tuple
    source: tuple
    wire: tuple
    limits: tuple
    buffers: tuple
    sinks: tuple
    blocks: tuple = ()
    version: int = 1

    def text(self, sinks=None):
        """Its canonical text, with other sinks where some are given."""
        sinks = self.sinks if sinks is None else sinks
        lines = [f"cts {self.version}", *(line(it, getattr(self, it)) for it in ("die", "source", "wire", "limits"))]
        lines += [f"buffers {len(self.buffers)}", *(line("buffer", it) for it in self.buffers)]
        lines += [f"sinks {len(sinks)}", *(line("sink", it[: 3 + self.version]) for it in sinks)]
        lines += [f"blocks {len(self.blocks)}", *(line("block", corners, kind) for kind, *corners in self.blocks)]
        return "\n".join([*lines, "end", ""])


def is_free(blocks, x, y):
    """Whether a wire may run through a point."""
    return not any(kind == "all" and a < x < c and b < y < d for kind, a, b, c, d in blocks)


@dataclasses.dataclass(frozen=True)
class Choices:
    """What the numbers of a random instance are drawn from, by `drawn`.

    The defaults are wide: some instances have no tree, or lose it by an edit.
    """

    version: object = (1, 1, 2)
    side: object = (12, 200, 20 * UM, 500 * UM, 10**4 * UM, 10**5 * UM)
    # Of the die's lower left corner.
    corner: object = (0, 0, range(FARTHEST))
    # In parts of 100 of the width.
    height: object = (100, 100, 33, 0)
    driver: object = (0, 61_200_000)
    wire: tuple = ((100, UM, range(1, 10**6)), (200, UM, range(1, 10**6)))
    limits: tuple = ((0, 100 * FF, 500 * FF, 10**5 * FF), 800 * FF, 200 * PS)
    buffers: object = (0, 1, 2)
    # A buffer of the last kind is beyond the limits of delays above some load.
    buffer: tuple = (*4 * ((35 * FF, 61_200_000, 49 * PS // 2), (80 * FF, 30 * OHM, 20 * PS)), (FF, 10**18 - 1, 0))
    cap: object = (0, 10**6 * FF, range(0, 51 * FF, FF))
    offset: object = (0, range(100 * PS))
    blocks: object = (0, 0, 1, 2, 4)
    # How often blocks fence in a place, which no route then reaches.
    fences: float = 0.25


def drawn(numbers, of):
    """A number that is taken out of tuples and ranges."""
    while not isinstance(of, int):
        of = numbers.choice(of)
    return of


def a_point(numbers, die, blocks, near=()):
    """A point of the die that is free for wires; often one of the points that are given."""
    while True:
        if near and numbers.random() < 0.3:
            x, y = numbers.choice(near)
        else:
            x, y = numbers.randint(die[0], die[2]), numbers.randint(die[1], die[3])
        if is_free(blocks, x, y):
            return x, y


def a_fence(numbers, die):
    """Four blocks that lie around a place."""
    x1, y1, x2, y2 = die
    wide, high = (x2 - x1) // 12, (y2 - y1) // 12
    a, b = numbers.randint(x1, x2 - 6 * wide), numbers.randint(y1, y2 - 6 * high)
    c, d = a + 6 * wide, b + 6 * high
    walls = [(a, b, a + 2 * wide, d), (c - 2 * wide, b, c, d), (a, b, c, b + 2 * high), (a, d - 2 * high, c, d)]
    return tuple(("all", *it) for it in walls)


def some_blocks(numbers, die, choices):
    x1, y1, x2, y2 = die
    if min(x2 - x1, y2 - y1) >= 12 and numbers.random() < choices.fences:
        return a_fence(numbers, die)
    blocks = []
    for _ in range(drawn(numbers, choices.blocks)):
        xs, ys = sorted(numbers.randint(x1, x2) for _ in "ab"), sorted(numbers.randint(y1, y2) for _ in "ab")
        blocks.append((numbers.choice(["all", "buffer"]), xs[0], ys[0], xs[1], ys[1]))
    return tuple(blocks)


def some_sinks(numbers, most, die, blocks, version, choices):
    points, sinks = [], []
    for name in numbers.sample(range(1, 2 * most), numbers.randint(1, most)):
        points.append(a_point(numbers, die, blocks, points))
        offset = drawn(numbers, choices.offset) if version == 2 else 0
        sinks.append(Sink(name, *points[-1], drawn(numbers, choices.cap), offset))
    return tuple(sinks)


def an_instance(numbers, most, choices=Choices()):
    """A random instance of at most so many sinks."""
    side, version = drawn(numbers, choices.side), drawn(numbers, choices.version)
    x, y = (min(drawn(numbers, choices.corner), FARTHEST - side) for _ in "xy")
    die = x, y, x + side, y + side * drawn(numbers, choices.height) // 100
    blocks = some_blocks(numbers, die, choices)
    buffers = [numbers.choice(choices.buffer) for _ in range(drawn(numbers, choices.buffers))]
    return Instance(
        die=die,
        source=(*a_point(numbers, die, blocks), drawn(numbers, choices.driver)),
        wire=tuple(drawn(numbers, it) for it in choices.wire),
        limits=tuple(drawn(numbers, it) for it in choices.limits),
        buffers=tuple(tuple(drawn(numbers, it) for it in buffer) for buffer in buffers),
        sinks=some_sinks(numbers, most, die, blocks, version, choices),
        blocks=blocks,
        version=version,
    )


def a_place(numbers, instance):
    """A place for a sink, which may lie outside the die or inside a block."""
    x, y = a_point(numbers, instance.die, instance.blocks)
    if numbers.random() < 0.15:
        x1, y1, x2, y2 = instance.die
        x, y = (min(numbers.randint(low, 2 * high - low + 1), FARTHEST) for low, high in ((x1, x2), (y1, y2)))
    if instance.blocks and numbers.random() < 0.3:
        _, a, b, c, d = numbers.choice(instance.blocks)
        x, y = (a + c) // 2, (b + d) // 2
    return x, y
