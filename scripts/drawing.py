#!/usr/bin/env python3
"""drawing.py PROGRAM [COUNT]: draws examples/national.toml, and COUNT networks made at random, 40 if no COUNT is given, with `picture --svg`,
each with a destination and without, and measures that a picture hides nothing.

The networks are always the same ones, of up to 40 points: mated pairs of transfer points with 1 to 16 end points each, some of which are
joined to one transfer point alone, sets between end points, quads between pairs, single transfer points, and end points that no set joins
to a transfer point. The geometry is this script's own: it reads the document, looks at 201 spots of each line, takes a point's shape as its
box and a text as a box of 0.6 em a letter. No line may pass behind a point that it doesn't join; no label may stand over a point, another
label, the title or the legend; no point may stand over another; and all has to be within the picture. The last line is 'N pictures, M failed'."""
import os
import random
import re
import subprocess
import sys
import tempfile
import xml.etree.ElementTree as tree

sys.dont_write_bytecode = True
NATIONAL = os.path.join(os.path.dirname(os.path.abspath(__file__)), "..", "examples", "national.toml")
MARKS = ("f", "ba", "bb", "ia", "ib")


class Network:
    """Pairs of transfer points with end points around them, and a plan of one destination."""

    def __init__(self, seed):
        self.random = random.Random(seed)
        self.kinds, self.mates, self.sets = {}, [], []  # a set: its two ends
        self.room = self.random.randint(10, 40)
        heads = [self.add_pair(region) for region in range(self.random.randint(1, 6))]
        heads += [self.add_single(10 + number) for number in range(self.random.randint(0, 2))]
        self.join_pairs(heads)
        for region, head in enumerate(heads):
            self.add_ends(region, head)
        self.add_lone()
        self.join_ends()
        self.dest = self.random.choice([it for it, kind in self.kinds.items() if kind == "sep"] or list(self.kinds))

    def add(self, code, kind):
        self.kinds[code] = kind
        return code

    def join(self, one, other):
        if one != other and (one, other) not in self.sets and (other, one) not in self.sets:
            self.sets.append(self.random.choice(((one, other), (other, one))))

    def add_pair(self, region):
        pair = [self.add(f"2-{10 * region + 10}-{number}", "stp") for number in range(2)]
        self.mates.append(pair)
        self.join(*pair)
        return pair

    def add_single(self, region):
        return [self.add(f"2-{10 * region + 10}-7", "stp")]

    def join_pairs(self, heads):
        """Quads between pairs, and now and then a part of one."""
        for at, head in enumerate(heads):
            for other in heads[:at]:
                if self.random.random() < 0.7:
                    share = self.random.choice((1, 1, 0.5))
                    for one in head:
                        for two in other:
                            if self.random.random() < share:
                                self.join(one, two)

    def add_ends(self, region, head):
        """The end points of a pair, most of them joined to both transfer points; some pairs have none."""
        wanted = self.random.choice((0, 16, *(self.random.randint(1, 16) for _ in range(4))))
        for number in range(min(wanted, max(0, self.room - len(self.kinds)))):
            end = self.add(f"2-{10 * region + 11 + number // 8}-{number % 8}", "sep")
            for it in head if self.random.random() < 0.8 else [self.random.choice(head)]:
                self.join(end, it)

    def add_lone(self):
        for number in range(self.random.choice((0, 0, 1, 3))):
            if len(self.kinds) < 40:
                self.add(f"2-99-{number}", "sep")

    def join_ends(self):
        """A few sets between end points, and between an end point and a transfer point of another pair."""
        ends = [it for it, kind in self.kinds.items() if kind == "sep"]
        for _ in range(self.random.choice((0, 1, 3)) if len(ends) > 1 else 0):
            self.join(*self.random.sample(ends, 2))
        transfers = [it for it, kind in self.kinds.items() if kind == "stp"]
        for _ in range(self.random.choice((0, 0, 1)) if ends else 0):
            self.join(self.random.choice([it for it in ends if not it.startswith("2-99-")] or ends), self.random.choice(transfers))

    def links(self):
        """The links of a set: one or two, some with a mark."""
        return " ".join(f"{slc}{self.random.choice(MARKS) if self.random.random() < 0.1 else ''}" for slc in range(self.random.randint(1, 2)))

    def neighbours(self, point):
        return [b if a == point else a for a, b in self.sets if point in (a, b)]

    def rows(self):
        """The plan of the destination: each point leads traffic over neighbours that are nearer to it and not its mate."""
        mates = {it: other for pair in self.mates for it, other in (pair, pair[::-1])}
        ranks, last = {self.dest: 0}, [self.dest]
        while last:
            found = dict.fromkeys(it for point in last for it in self.neighbours(point) if it not in ranks and it != mates.get(point))
            ranks.update((it, ranks[last[0]] + 1) for it in found)
            last = [it for it in found if self.kinds[it] == "stp"]
        for point, rank in list(ranks.items())[1:]:
            nearer = [it for it in self.neighbours(point) if ranks.get(it, rank) < rank and it != mates.get(point)]
            vias = [it for it in nearer if it == self.dest or self.kinds[it] == "stp"]
            classes = ["+".join(vias[at : at + 2]) for at in range(0, min(len(vias), 8), 2)]
            yield f"{point}:{rank}:{'/'.join(classes)}{':m' if ranks.get(mates.get(point)) == rank else ''}"

    def text(self):
        entries = {
            "points": [f"{point} {kind}" for point, kind in self.kinds.items()],
            "pairs": [f"{one} {other}" for one, other in self.mates],
            "sets": [f"{number} {a} {b} {self.links()}" for number, (a, b) in enumerate(self.sets, 1)],
            "plans": [" ".join([self.dest, *self.rows()])],
        }
        return "format = 2\nni = 2\n" + "".join(f"{key} = [\n" + "".join(f'  "{it}",\n' for it in each) + "]\n" for key, each in entries.items())


# ---- the geometry: a box is left, top, right, bottom


def overlap(one, other):
    return one[0] < other[2] and other[0] < one[2] and one[1] < other[3] and other[1] < one[3]


def is_inside(spot, box):
    return box[0] < spot[0] < box[2] and box[1] < spot[1] < box[3]


def spots_of(path):
    """201 spots of a line: of Bezier's polynomial of its two, three or four control points."""
    numbers = [float(it) for it in re.findall(r"-?[\d.]+", path)]
    control = list(zip(numbers[::2], numbers[1::2]))
    for step in range(201):
        part, spots = step / 200, control
        while len(spots) > 1:
            spots = [tuple(a + part * (b - a) for a, b in zip(*each)) for each in zip(spots, spots[1:])]
        yield spots[0]


def text_box(it, size, middle):
    x, y, width = float(it.get("x")), float(it.get("y")) + float(it.get("dy", 0)), 0.6 * size * len(it.text)
    return (x - width / 2 if middle else x, y - 0.8 * size, x + width / 2 if middle else x + width, y + 0.2 * size)


class Picture:
    """What an SVG document shows, by name: the boxes of points, labels, title and legend, and the lines."""

    def __init__(self, text):
        root = tree.fromstring(text)
        self.points, self.labels, self.legend, self.lines = {}, [], [], []
        left, top, width, height = map(float, root.get("viewBox").split())
        self.paper = (left, top, left + width, top + height)
        sizes = dict(re.findall(r"\.(\w+) \{[^}]*font-size: (\d+)px", text))
        for it in root.iter():
            kind, name = it.tag.rpartition("}")[2], it.get("class", "").split()
            if kind == "g" and it.get("transform"):
                self.add_point(it)
            elif kind == "path" and "set" in name:
                self.lines.append(it.get("d"))
            elif kind == "text" and "label" in name:
                self.labels.append((it.text, text_box(it, float(sizes["label"]), True)))
            elif kind == "text" and "title" in name:
                self.legend.append((it.text, text_box(it, float(sizes["title"]), False)))
            elif kind == "g" and "key" in name:
                self.legend += [(each.text, text_box(each, 11, False)) for each in it if each.tag.endswith("text")]

    def add_point(self, it):
        x, y = map(float, re.findall(r"-?[\d.]+", it.get("transform")))
        shape = it[0]
        if shape.tag.endswith("ellipse"):
            width, height = 2 * float(shape.get("rx")), 2 * float(shape.get("ry"))
        else:
            width, height = float(shape.get("width")), float(shape.get("height"))
        self.points[it[1].text] = ((x, y), (x - width / 2, y - height / 2, x + width / 2, y + height / 2))

    def mistakes(self):
        boxes = [(code, box) for code, (_, box) in self.points.items()]
        for line in self.lines:
            yield from self.behind(line)
        for at, (code, box) in enumerate(boxes):
            yield from (f"point {code} over point {other}" for other, its in boxes[:at] if overlap(box, its))
        for at, (label, box) in enumerate(self.labels):
            yield from (f"label {label} over point {code}" for code, its in boxes if overlap(box, its))
            yield from (f"label {label} over label {other}" for other, its in self.labels[:at] if overlap(box, its))
            yield from (f"label {label} over '{text}'" for text, its in self.legend if overlap(box, its))
        for name, box in boxes + self.labels + self.legend:
            if not (is_inside(box[:2], self.paper) and is_inside(box[2:], self.paper)):
                yield f"{name} out of the picture"

    def behind(self, line):
        spots = list(spots_of(line))
        ends = {code for code, (spot, _) in self.points.items() if spot in (spots[0], spots[-1])}
        if len(ends) != 2:
            yield f"line {line} doesn't join two points"
        for code, (_, box) in self.points.items():
            if code not in ends and any(is_inside(spot, box) for spot in spots):
                yield f"line {line} from {' to '.join(sorted(ends))} behind point {code}"
        if not all(is_inside(spot, self.paper) for spot in spots):
            yield f"line {line} out of the picture"


def draw(program, file, *words):
    return subprocess.run([program, "picture", file, "--svg", *words], capture_output=True, text=True, timeout=60, check=True).stdout


def main():
    program, count = sys.argv[1], int(sys.argv[2]) if len(sys.argv) > 2 else 40
    networks, failed = [(NATIONAL, "2-11-0")], 0
    with tempfile.TemporaryDirectory() as folder:
        for seed in range(count):
            network = Network(seed)
            networks.append((os.path.join(folder, f"network-{seed}.toml"), network.dest))
            with open(networks[-1][0], "w", encoding="utf-8") as file:
                file.write(network.text())
        for file, dest in networks:
            for words in ((), ("--about", dest)):
                mistakes = list(Picture(draw(program, file, *words)).mistakes())
                failed += bool(mistakes)
                for mistake in mistakes:
                    print(" ".join((os.path.basename(file), *words)) + ": " + mistake)
    print(f"{2 * len(networks)} pictures, {failed} failed")
    return 1 if failed else 0


if __name__ == "__main__":
    sys.exit(main())
