#!/usr/bin/env python3
"""warning.py PROGRAM [COUNT]: asks `warn` of examples/national.toml and of COUNT networks made at random, 200 if no COUNT is given, and wants
what the network texts say.

The networks are those of mending.py, always the same ones, but that some lack a row or have a point, a set or a plan more. Single failures
are those of the surveys, which surveying.py tries. `check --warn` has to tell the same as `warn`, in lines and as an object, and `survey` the
same as the word does. The last line is 'N questions, M failed'."""
import json
import os
import random
import subprocess
import sys
import tempfile
import tomllib

sys.dont_write_bytecode = True
from mending import DEST, Network, answers_of

NATIONAL = os.path.join(os.path.dirname(os.path.abspath(__file__)), "..", "examples", "national.toml")


def order(code):
    return [int(it) for it in code.split("-")]


class Shape:
    """The points, pairs, sets and plans of a network text."""

    def __init__(self, text):
        net = tomllib.loads(text)
        self.points = sorted((entry.split()[0] for entry in net["points"]), key=order)
        self.mates = {}
        for one, other in map(str.split, net["pairs"]):
            self.mates[one], self.mates[other] = other, one
        self.sets = sorted((int(number), a, b) for number, a, b, *_ in map(str.split, net["sets"]))
        self.plans = {dest: [self.row(it) for it in rows] for dest, *rows in map(str.split, net["plans"])}

    @staticmethod
    def row(word):
        point, _, classes, *flag = word.split(":")
        return point, {via for each in classes.split("/") for via in each.split("+") if via}, bool(flag)

    def has_row(self, dest, point):
        return point == dest or any(it == point for it, _, _ in self.plans[dest])

    def leads(self, one, other):
        """Whether a row of a point leads over another, as a via or as its mate."""
        return any(point == one and (other in vias or flag and self.mates.get(one) == other) for rows in self.plans.values() for point, vias, flag in rows)

    def joined(self, dest, point):
        """Whether a set joins a point to one with a row, or to the destination."""
        ends = [(a, b) for _, a, b in self.sets]
        return any(self.has_row(dest, other) for one, other in ends + [(b, a) for a, b in ends] if one == point)

    def warnings(self):
        """What is missing, and what isn't used."""
        for dest in sorted(self.plans, key=order):
            yield from (f"MissingRow:{point}/{dest}" for point in self.points if not self.has_row(dest, point) and self.joined(dest, point))
            mate = self.mates.get(dest)
            if mate and mate not in self.plans:
                yield f"MissingPlan:{mate}/{dest}"
        for point in self.points:
            if not self.plans.get(point):
                yield f"Unreached:{point}"
            if not any(self.has_row(dest, point) for dest in self.plans):
                yield f"Unnamed:{point}"
        yield from (f"Unused:{number}" for number, a, b in self.sets if not self.leads(a, b) and not self.leads(b, a))


def altered(network, seed):
    """The text of a network, in which a row may be missing, and a point, a set or a plan may be more than there was."""
    chosen = random.Random(seed)
    ends = [point for point, kind in network.points if kind == "sep" and point != DEST]
    if chosen.random() < 0.4:
        del network.rows[chosen.choice(ends)]
    if chosen.random() < 0.4:
        network.points.append(("3-0-0", "sep"))
        if chosen.random() < 0.5:
            network.join("3-0-0", chosen.choice(ends))
    text = network.text()
    one, other = chosen.choice(network.pairs)
    more = chosen.choice(("", "", f'"{one}", ', f'"{one} {other}:1:{one}", ', f'"{one} {other}:1:{one}", "{other}", '))
    return text.replace("plans = [", "plans = [ " + more)


def run(program, *words):
    return subprocess.run([program, *words], capture_output=True, text=True, timeout=300, check=True).stdout


def object_of(warning):
    """A warning as an object has it."""
    kind, value, *pairs = warning.split(":")
    if kind == "SingleFailure":
        return {"kind": kind, **({"point": value} if "-" in value else {"set": int(value)}), "pairs": int(pairs[0])}
    point, *dest = value.split("/")
    return {"kind": kind, **({"set": int(value)} if kind == "Unused" else {"point": point}), **({"destination": dest[0]} if dest else {})}


def try_network(program, name, text, file):
    """How many questions were asked of a network, and what was wrong."""
    with open(file, "w", encoding="utf-8") as net:
        net.write(text)
    sets, points, warned, audit = answers_of(program, text, ["survey sets", "survey points", "warn", "audit"])
    failing = [f"SingleFailure:{it}" for survey in (sets, points) for it in survey.split()[3:]]
    wanted = [*Shape(text).warnings(), *failing]
    checked = audit.removeprefix("audit ")
    lines = "".join(f"{it}\n" for it in (checked, *wanted, f"warnings {len(wanted)}"))
    objects = [json.loads(it) for it in run(program, "check", file, "--warn", "--json").splitlines()]
    told = {
        "warn": (warned, " ".join([f"warn {len(wanted)}", *wanted])),
        "check --warn": (run(program, "check", file, "--warn"), lines),
        "check --warn --json": (objects[1:], [{"word": "warn", "count": len(wanted), "warnings": [object_of(it) for it in wanted]}]),
        "survey": (run(program, "survey", file), sets + "\n"),
        "survey --points": (run(program, "survey", file, "--points"), points + "\n"),
    }
    return len(told), [f"{name}: {word}: {got!r}, and wanted is {want!r}\n{text}" for word, (got, want) in told.items() if got != want]


def main():
    program, count = sys.argv[1], int(sys.argv[2]) if len(sys.argv) > 2 else 200
    with open(NATIONAL, encoding="utf-8") as national:
        networks = [("national.toml", national.read())]
    networks += [(f"network {seed}", altered(Network(seed), seed)) for seed in range(count)]
    asked, failed = 0, 0
    with tempfile.TemporaryDirectory() as folder:
        for name, text in networks:
            more, mistakes = try_network(program, name, text, os.path.join(folder, "net.toml"))
            asked, failed = asked + more, failed + len(mistakes)
            for mistake in mistakes:
                print(mistake)
    print(f"{asked} questions, {failed} failed")
    return 1 if failed else 0


if __name__ == "__main__":
    sys.exit(main())
