#!/usr/bin/env python3
"""Writes inputs of `edit`: an instance that `make` wrote, and after it a script of edits and draws.

  bench/edits.py SEED CALLERS STEPS DRAWS GROWTH < INSTANCE > INPUT

Each step is a draw with the probability DRAWS, and else an edit. GROWTH is by how many sinks the edits make the instance
grow, if all are accepted: of the others a quarter move a sink, a quarter change a capacitance, and the rest add and remove
sinks. Who makes a step, and which sink it edits, is drawn at random from SEED, so one SEED gives one script. A step names
a sink that is there where the steps are made in the order of their lines; callers who meet in another order see some edits
refused.
"""

import random
import sys

# The die of instances that `make` writes, in nm.
SIDE = 10_000_000


def sinks_of(instance):
    """Returns the ids of an instance's sinks."""
    return [line.split()[1] for line in instance.splitlines() if line.startswith("sink ")]


def coordinate(draw):
    """Returns a coordinate in the die, in µm."""
    nm = draw.randint(0, SIDE)
    return f"{nm // 1000}.{nm % 1000:03}"


def edit(draw, ids, fresh, rises):
    """Returns an edit, and keeps the list of ids after it. `rises` is how far adding is likelier than removing."""
    kind = draw.random()
    if kind < 0.25 + rises / 2 or len(ids) < 2:
        ids.append(str(fresh))
        return f"add {fresh} {coordinate(draw)} {coordinate(draw)} {20 + draw.randrange(31)}"
    place = draw.randrange(len(ids))
    if kind < 0.5:
        ids[place], ids[-1] = ids[-1], ids[place]
        return f"remove {ids.pop()}"
    if kind < 0.75:
        return f"move {ids[place]} {coordinate(draw)} {coordinate(draw)}"
    return f"cap {ids[place]} {20 + draw.randrange(31)}"


def script(instance, seed, callers, steps, draws, growth):
    """Returns the lines of a script for an instance."""
    draw = random.Random(seed)
    ids = sinks_of(instance)
    rises = growth / max(steps * (1 - draws), 1)
    lines = [f"callers {callers}"]
    # No instance that `make` wrote has such ids.
    for fresh in range(1_000_000, 1_000_000 + steps):
        step = "tree" if draw.random() < draws else edit(draw, ids, fresh, rises)
        lines.append(f"{draw.randint(1, callers)} {step}")
    lines.append("end")
    return lines


if __name__ == "__main__":
    if len(sys.argv) != 6:
        sys.exit(__doc__)
    given = sys.stdin.read()
    seed, callers, steps, draws, growth = sys.argv[1:]
    lines = script(given, seed, int(callers), int(steps), float(draws), int(growth))
    print(given, *lines, sep="\n")
