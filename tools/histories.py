"""Scripts of callers and what `cts edit` may answer to them, told from docs/FORMATS.md and docs/GUARANTEES.md alone.

It shares nothing with the product. The tree of a list of sinks is asked of a function that is handed in, which gives the status
and the text of a synthesis made anew.
"""

import collections
import dataclasses
import re

from instances import Sink, decimal, is_free

N = r"(0|[1-9][0-9]*)"
CAUSES = "known|unknown|outside|in block|full|last|long"
ENTRY = re.compile(rf"entry {N} caller {N} line {N} (.*)")
ACCEPTED = re.compile(rf"line {N} accepted {N}")
REFUSED = re.compile(rf"line {N} refused ({CAUSES}) at {N}")
TREE = re.compile(rf"line {N} tree {N} (skew \S+ wire \S+)")
NO_TREE = re.compile(rf"line {N} (no tree (?:beyond|cut) at node {N}) at {N}")
MOST_SINKS = 65536
# Each verb's numbers, by their places.
PLACES = {"add": (0, 3, 3, 6), "remove": (0,), "move": (0, 3, 3), "cap": (0, 6), "tree": ()}


class Wrong(Exception):
    """A text that isn't right, and where."""


def must(holds, what):
    if not holds:
        raise Wrong(what)


@dataclasses.dataclass(frozen=True)
class Step:
    """A step of a script, with its line: `add`, `remove`, `move`, `cap` or `tree`, and numbers as in a sink."""

    caller: int
    line: int
    verb: str
    numbers: tuple = ()

    def text(self):
        """The step without its caller, as an edit text writes it."""
        return " ".join([self.verb, *map(decimal, self.numbers, PLACES[self.verb])])


def cause(instance, sinks, step, length):
    """The first cause that refuses an edit of these sinks after so many accepted edits, or none."""
    x1, y1, x2, y2 = instance.die
    is_known = any(it.id == step.numbers[0] for it in sinks)
    if is_known if step.verb == "add" else not is_known:
        return "known" if step.verb == "add" else "unknown"
    if step.verb in ("add", "move"):
        x, y = step.numbers[1:3]
        if not (x1 <= x <= x2 and y1 <= y <= y2):
            return "outside"
        if not is_free(instance.blocks, x, y):
            return "in block"
    if step.verb == "add" and len(sinks) >= MOST_SINKS:
        return "full"
    if step.verb == "remove" and len(sinks) == 1:
        return "last"
    return "long" if length >= MOST_SINKS else None


def applied(sinks, step):
    """The sinks after an accepted edit."""
    name, *rest = step.numbers
    if step.verb == "add":
        return (*sinks, Sink(name, *rest))
    if step.verb == "remove":
        return tuple(it for it in sinks if it.id != name)
    change = {"x": rest[0], "y": rest[1]} if step.verb == "move" else {"cap": rest[0]}
    return tuple(it._replace(**change) if it.id == name else it for it in sinks)


def drawn(status, text):
    """What a draw tells of a synthesis made anew: its status and text give skew and wire, or why there is no tree."""
    lines = text.splitlines()
    if status == 4:
        return "no tree", re.fullmatch(rf"no tree: ((?:beyond|cut) at node {N})", lines[-1])[1]
    told = {line.rpartition(" ")[0]: line.rpartition(" ")[2] for line in lines if line.startswith(("skew ", "wire total "))}
    return "tree", f"skew {told['skew']} wire {told['wire total']}"


def reply_to(step, version, told):
    """The line of a draw's reply."""
    kind, words = told
    return f"line {step.line} tree {version} {words}" if kind == "tree" else f"line {step.line} no tree {words} at {version}"


class Judge:
    """Judges the texts of `edit` on one instance and its callers' scripts; counts what it compared."""

    def __init__(self, instance, scripts, synthesis):
        self.instance, self.scripts, self.synthesis = instance, scripts, synthesis
        self.counts = collections.Counter()

    def judge(self, status, text):
        """Raises Wrong where this status and this text are not those of a legal history."""
        must(text.endswith("\n"), "the last line has no end")
        lines = iter(text.split("\n")[:-1])
        must(next(lines, None) == "cts edit 1", "the first line")
        states, entries = self.history(lines)
        drawn_at, accepted = set(), []
        for caller, script in enumerate(self.scripts, 1):
            must(next(lines, None) == f"caller {caller} replies {len(script)}", f"the line of caller {caller}")
            seen = 0
            for step in script:
                line = next(lines, None)
                must(line is not None, f"no reply to line {step.line}")
                is_accepted, version = self.reply(step, line, states, entries)
                must(version > seen if is_accepted else version >= seen, f"version {version} after {seen}: {line}")
                seen = version
                if is_accepted:
                    accepted.append(version)
                    self.counts[f"accepted {step.verb}"] += 1
                if step.verb == "tree":
                    drawn_at.add(version)
                self.counts["replies"] += 1
        must(sorted(accepted) == list(range(1, len(states))), "the accepted replies are not one for each entry")
        must(next(lines, None) == "end", "the line end")
        wanted_status, wanted = self.synthesis(states[-1])
        must("".join(f"{it}\n" for it in lines) == wanted, "the report isn't that of a synthesis made anew")
        must(status == wanted_status, f"status {status}, and not {wanted_status}")
        self.counts["versions"] += len(drawn_at | {len(states) - 1})

    def history(self, lines):
        """Reads the entries, and gives the sinks after each front of them, and the entries by version."""
        line = next(lines, "")
        head = re.fullmatch(rf"history {N}", line)
        must(head, f"the line history: {line}")
        by_line = {step.line: step for script in self.scripts for step in script}
        states, entries = [self.instance.sinks], []
        for version in range(1, int(head[1]) + 1):
            line = next(lines, "")
            found = ENTRY.fullmatch(line)
            must(found and int(found[1]) == version, f"entry {version}: {line}")
            step = by_line.get(int(found[3]))
            must(step and step.caller == int(found[2]) and step.text() == found[4], f"no step is told as {line}")
            must(step.verb != "tree", f"a draw as {line}")
            why = cause(self.instance, states[-1], step, len(entries))
            must(why is None, f"an entry that is refused, {why}: {line}")
            self.counts["switches"] += bool(entries) and entries[-1].caller != step.caller
            states.append(applied(states[-1], step))
            entries.append(step)
        return states, entries

    def reply(self, step, line, states, entries):
        """Whether a reply accepts its step, and the version that it tells, where it is right there."""
        if step.verb == "tree":
            return False, self.draw(step, line, states)
        if found := ACCEPTED.fullmatch(line):
            version = int(found[2])
            must(int(found[1]) == step.line and 1 <= version < len(states), f"reply: {line}")
            must(entries[version - 1] == step, f"the entry is another's: {line}")
            return True, version
        found = REFUSED.fullmatch(line)
        must(found and int(found[1]) == step.line and int(found[3]) < len(states), f"reply: {line}")
        version = int(found[3])
        why = cause(self.instance, states[version], step, version)
        must(found[2] == why, f"the cause is {why}: {line}")
        self.counts[f"refused {why}"] += 1
        return False, version

    def draw(self, step, line, states):
        """The version that the reply to a draw tells, where it is right there."""
        found = TREE.fullmatch(line) or NO_TREE.fullmatch(line)
        must(found, f"reply: {line}")
        version = int(found[2] if found.re is TREE else found[4])
        must(version < len(states), f"no such version: {line}")
        wanted = reply_to(step, version, drawn(*self.synthesis(states[version])))
        must(line == wanted, f"{line}\nand not\n{wanted}")
        self.counts["draws of a tree" if found.re is TREE else "draws of none"] += 1
        return version


def orders(lengths):
    """Each order in which callers with so many steps each may come, as a list of their indices."""
    if not any(lengths):
        yield []
    for caller, length in enumerate(lengths):
        if length:
            rest = [it - (k == caller) for k, it in enumerate(lengths)]
            yield from ([caller, *order] for order in orders(rest))


def text_of(instance, scripts, order, synthesis):
    """The status and the text of `edit` where the callers' steps come in one order."""
    sinks, entries, replies, at = instance.sinks, [], [[] for _ in scripts], [0] * len(scripts)
    for caller in order:
        step = scripts[caller][at[caller]]
        at[caller] += 1
        version = len(entries)
        if step.verb == "tree":
            replies[caller].append(reply_to(step, version, drawn(*synthesis(sinks))))
        elif why := cause(instance, sinks, step, version):
            replies[caller].append(f"line {step.line} refused {why} at {version}")
        else:
            sinks = applied(sinks, step)
            entries.append(f"entry {version + 1} caller {step.caller} line {step.line} {step.text()}")
            replies[caller].append(f"line {step.line} accepted {version + 1}")
    lines = ["cts edit 1", f"history {len(entries)}", *entries]
    for caller, told in enumerate(replies, 1):
        lines += [f"caller {caller} replies {len(told)}", *told]
    status, report = synthesis(sinks)
    return status, "\n".join([*lines, "end", ""]) + report


def all_texts(instance, scripts, synthesis):
    """The status and the text of `edit` for each order of all steps: each legal history has one of these."""
    return {text_of(instance, scripts, order, synthesis) for order in orders([len(it) for it in scripts])}
