#!/usr/bin/env python3
"""mending.py PROGRAM [COUNT]: asks `mend` and `mend allowed`, 500 questions if no COUNT is given, and wants what trying all sets of links
gives.

Each network is made at random, always the same ones: end points and mated transfer points, a few of whose links are marked. For each set
of the links that aren't available a what-if tells the statuses once they are restored. What is told has to be one of those sets that
does it, and no other that does it may take less: fewer links, or as many with fewer failed ones, or as many of both with fewer marks.
`remedy` has to tell the commands that clear its marks, each by the end that set it. The last line is 'N questions, M failed'."""
import itertools
import random
import re
import subprocess
import sys

MARKS = ("f", "ba", "bb", "ia", "ib")
# the command that clears a mark, without the link, and the end that gives it
CLEARS = {"f": ("restore", ""), "ba": ("unblock", "a"), "bb": ("unblock", "b"), "ia": ("uninhibit", "a"), "ib": ("uninhibit", "b")}
DEST = "7-0-0"


class Network:
    """Two or three levels of mated transfer points below end points, and a plan of one destination."""

    def __init__(self, seed):
        self.random = random.Random(seed)
        self.sets, self.rows, self.above = {}, {}, []  # a set: its ends and its links; a row: rank, classes, mate flag
        self.points = [(DEST, "sep")]
        self.pairs = [(f"1-{level}-1", f"1-{level}-2") for level in range(1, self.random.randint(2, 3) + 1)]
        for level, pair in enumerate(self.pairs, 1):
            self.join(*pair)
            for point in pair:
                self.add_point(point, "stp", level, pair)
        for number in range(self.random.randint(1, 2)):
            self.add_point(f"2-0-{number}", "sep", len(self.pairs) + 1, None)
        self.mark()

    def join(self, one, other):
        ends = (one, other) if self.random.random() < 0.5 else (other, one)
        self.sets[len(self.sets) + 1] = (*ends, {slc: () for slc in range(self.random.randint(1, 2))})

    def add_point(self, point, kind, rank, pair):
        """A point, joined to some of those of lower rank, with a row over them."""
        self.points.append((point, kind))
        below = [it for it in self.above if self.rows[it][0] < rank and it != point] + [DEST]
        below = [it for it in below if it != DEST or rank == 1 or self.random.random() < 0.2]
        vias = self.random.sample(below, self.random.randint(1, min(4, len(below))))
        for via in vias:
            self.join(point, via)
        classes = []
        while vias:
            size = self.random.randint(1, 2)
            classes.append(vias[:size])
            vias = vias[size:]
        self.rows[point] = (rank, classes, pair is not None)
        if kind == "stp":
            self.above.append(point)

    def mark(self):
        """Marks at most eight links."""
        links = [(number, slc) for number, (_, _, links) in self.sets.items() for slc in links]
        for number, slc in self.random.sample(links, min(8, len(links))):
            if self.random.random() < 0.8:
                count = self.random.choice((1, 1, 1, 2, 3))
                self.sets[number][2][slc] = tuple(it for it in MARKS if it in self.random.sample(MARKS, count))

    def text(self):
        lines = ["format = 2", "ni = 2", "tfr = " + self.random.choice(("true", "true", "false")), "points = ["]
        lines += [f'  "{point} {kind}",' for point, kind in self.points] + ["]", "pairs = ["]
        lines += [f'  "{one} {other}",' for one, other in self.pairs] + ["]", "sets = ["]
        for number, (a, b, links) in self.sets.items():
            lines.append(f'  "{number} {a} {b} ' + " ".join(f"{slc}{''.join(marks)}" for slc, marks in links.items()) + '",')
        rows = []
        for point, (rank, classes, mate) in self.rows.items():
            rows.append(f"{point}:{rank}:" + "/".join("+".join(vias) for vias in classes) + (":m" if mate else ""))
        return "\n".join([*lines, "]", "plans = [", f'  "{DEST} ' + " ".join(rows) + '",', "]"]) + "\n"

    def marked(self):
        """The links that aren't available, with their marks."""
        return {(number, slc): marks for number, (_, _, links) in self.sets.items() for slc, marks in links.items() if marks}


def commands_of(link, marks):
    """The commands that clear the marks of a link, with the end that gives each."""
    return [(" ".join(it for it in (CLEARS[mark][0], str(link[0]), str(link[1]), CLEARS[mark][1]) if it), CLEARS[mark][1]) for mark in marks]


def cost_of(links, marked):
    return len(links), sum("f" in marked[it] for it in links), sum(len(marked[it]) for it in links)


def answers_of(program, text, lines):
    ran = subprocess.run([program, "run", "-"], input=text + "%%\n" + "\n".join(lines) + "\n", capture_output=True, text=True, timeout=300, check=True)
    return ran.stdout.split("\n")[:-1]


def statuses_of(answer):
    return dict(re.findall(r" (\S+):(\w+)", answer))


def tried(program, text, marked):
    """The statuses of all points for each set of links that is restored."""
    sets = [links for size in range(len(marked) + 1) for links in itertools.combinations(sorted(marked), size)]
    lines = ["whatif " + " ; ".join(command for it in links for command, _ in commands_of(it, marked[it])) for links in sets[1:]]
    first, *told = answers_of(program, text, [f"statuses {DEST}", *lines])
    before = statuses_of(first)
    found = {(): before}
    for links, answer in zip(sets[1:], told):
        found[links] = {**before, **{point: after for point, after in re.findall(r" (\S+)/\S+ \w+>(\w+)", answer)}}
    return found


def links_of(answer):
    """The links of an answer to `mend`, with their marks; none if no restoring does it."""
    if answer == "mend none":
        return None
    return {} if answer == "mend ok" else {(int(a), int(b)): marks for a, b, marks in re.findall(r" (\d+):(\d+)(\w*)", answer)}


def wanted_remedy(network, links):
    """What `remedy` has to tell of the links of `mend`, in their order."""
    if links is None:
        return "remedy none"
    commands = []
    for number, slc in links:
        a, b, marks = network.sets[number]
        ends = {"": "", "a": f" by {a}", "b": f" by {b}"}
        commands += [command + ends[end] for command, end in commands_of((number, slc), marks[slc])]
    return "remedy " + " ; ".join(commands) if commands else "remedy ok"


def mistake_in(network, found, marked, point, word, answer, remedy):
    """What is wrong with an answer about a point, if anything."""
    does = [links for links, statuses in found.items() if statuses[point] in (("allowed",) if word else ("allowed", "restricted"))]
    told = links_of(answer)
    if told is None:
        return "there is one" if does else None
    if any("".join(marked.get(it, ())) != marks for it, marks in told.items()):
        return "a link isn't marked so"
    if tuple(sorted(told)) not in does:
        return "it doesn't do it"
    least = min(does, key=lambda links: cost_of(links, marked))
    if cost_of(tuple(told), marked) != cost_of(least, marked):
        return f"{least} takes less"
    if remedy != wanted_remedy(network, told):
        return f"the remedy is {wanted_remedy(network, told)!r}"
    return None


def try_network(program, seed):
    """How many questions were asked of a network, and what was wrong."""
    network = Network(seed)
    text, marked = network.text(), network.marked()
    found = tried(program, text, marked)
    asked = [(point, word) for point in network.rows for word in ("", "allowed ")]
    answers = answers_of(program, text, [f"{kind} {word}{point} {DEST}" for point, word in asked for kind in ("mend", "remedy")])
    mistakes = []
    for at, (point, word) in enumerate(asked):
        mend, remedy = answers[2 * at:2 * at + 2]
        mistake = mistake_in(network, found, marked, point, word, mend, remedy)
        if mistake:
            mistakes.append(f"network {seed}: mend {word}{point} {DEST}: {mend!r}, {remedy!r}: {mistake}\n{text}")
    return len(asked), mistakes


def main():
    program, count = sys.argv[1], int(sys.argv[2]) if len(sys.argv) > 2 else 500
    asked, failed, seed = 0, 0, 0
    while asked < count:
        more, mistakes = try_network(program, seed)
        asked, failed, seed = asked + more, failed + len(mistakes), seed + 1
        for mistake in mistakes:
            print(mistake)
    print(f"{asked} questions, {failed} failed")
    return 1 if failed else 0


if __name__ == "__main__":
    sys.exit(main())
