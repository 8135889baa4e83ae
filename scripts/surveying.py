#!/usr/bin/env python3
"""surveying.py PROGRAM [COUNT]: asks `survey sets`, `survey points` and `survey down` of examples/national.toml, and of COUNT networks made
at random, 200 if no COUNT is given, and wants what the what-ifs tell that are asked one by one.

The networks are those of mending.py, always the same ones. Each is surveyed as it is, and after one or two events in which whole sets
stand: once named in the survey, and once made before it. The last line is 'N questions, M failed'."""
import os
import random
import re
import sys
import tomllib

sys.dont_write_bytecode = True
from mending import Network, answers_of

NATIONAL = os.path.join(os.path.dirname(os.path.abspath(__file__)), "..", "examples", "national.toml")
RESTORED = ("restore {}", "unblock {} a", "unblock {} b", "uninhibit {} a", "uninhibit {} b")


def loses(before, after):
    return before != "prohibited" and after == "prohibited"


def regains(before, after):
    return before == "prohibited" and after != "prohibited"


def singles_of(text):
    """What is tried by each survey: its name, the what-if of it alone, and which of the changes count."""
    net = tomllib.loads(text)
    sets = [entry.split() for entry in net["sets"]]
    up = [number for number, _, _, *links in sets if any(link.isdecimal() for link in links)]
    down = [number for number, *_ in sets if number not in up]
    points = [code for code, kind in map(str.split, net["points"]) if kind == "stp"]
    return {
        "sets": [(number, f"set fail {number}", loses) for number in sorted(up, key=int)],
        "points": [(code, f"point fail {code}", loses) for code in sorted(points, key=lambda code: [int(it) for it in code.split("-")])],
        "down": [(number, " ; ".join("set " + it.format(number) for it in RESTORED), regains) for number in sorted(down, key=int)],
    }


def count_in(answer, name, counts):
    """How many changes of a what-if count; those of a point that fails itself don't. None may be refused, which no survey tells."""
    if not answer.startswith("whatif "):
        return answer
    changes = re.findall(r" (\S+)/(\S+) (\w+)>(\w+)", answer)
    return sum(counts(before, after) for point, dest, before, after in changes if name not in (point, dest))


def expected(program, text, made):
    """What each survey has to tell of a network after commands that are made before it."""
    singles = singles_of(sets_after(program, text, made) if made else text)
    lines = [f"whatif {tried}" for each in singles.values() for _, tried, _ in each]
    told = iter(answers_of(program, text, [*made, *lines])[len(made):])
    wanted = {}
    for what, each in singles.items():
        found = [(name, count_in(next(told), name, counts)) for name, _, counts in each]
        wanted[what] = f"survey {what} {len(each)}" + "".join(f" {name}:{pairs}" for name, pairs in found if pairs)
    return wanted


def quoted(items):
    return "[" + ", ".join(f'"{it}"' for it in items) + "]"


def sets_after(program, text, made):
    """The points and the sets of the network after commands, as a network text has them."""
    net = tomllib.loads(text)
    asked = [f"show set {entry.split()[0]}" for entry in net["sets"]]
    told = answers_of(program, text, [*made, *asked])[len(made):]
    return f"points = {quoted(net['points'])}\nsets = {quoted(it.removeprefix('show set ') for it in told)}\n"


def events_of(text, seed):
    """One or two events that a list and a script may have."""
    chosen = random.Random(seed)
    ids = [entry.split()[0] for entry in tomllib.loads(text)["sets"]]
    verbs = ("set fail {}", "set restore {}", "set block {} b", "set inhibit {}", "set uninhibit {}")
    return [chosen.choice(verbs).format(chosen.choice(ids)) for _ in range(chosen.randint(1, 2))]


def try_network(program, name, text, events):
    """How many surveys of a network were asked, and what was wrong."""
    words = ("sets", "points", "down")
    after = " ; ".join(events)
    plain = answers_of(program, text, [f"survey {it}" for it in words])
    named = answers_of(program, text, [f"survey {it} {after}" for it in words])
    made = [*events, "sync"]
    later = answers_of(program, text, [*made, *(f"survey {it}" for it in words)])[len(made):]
    now, then = expected(program, text, []), expected(program, text, made)
    mistakes = []
    for told, wanted, how in ((plain, now, ""), (named, then, " " + after), (later, then, " after " + after)):
        for word, answer in zip(words, told):
            if answer != wanted[word]:
                mistakes.append(f"{name}: survey {word}{how}: {answer!r}, and what-ifs tell {wanted[word]!r}\n{text}")
    return 9, mistakes


def main():
    program, count = sys.argv[1], int(sys.argv[2]) if len(sys.argv) > 2 else 200
    with open(NATIONAL, encoding="utf-8") as national:
        networks = [("national.toml", national.read(), ["fail 37 0", "set fail 7"])]
    networks += [(f"network {seed}", text, events_of(text, seed)) for seed in range(count) for text in [Network(seed).text()]]
    asked, failed = 0, 0
    for name, text, events in networks:
        more, mistakes = try_network(program, name, text, events)
        asked, failed = asked + more, failed + len(mistakes)
        for mistake in mistakes:
            print(mistake)
    print(f"{asked} questions, {failed} failed")
    return 1 if failed else 0


if __name__ == "__main__":
    sys.exit(main())
