#!/usr/bin/env python3
"""reporting.py PROGRAM [COUNT]: writes the report of examples/national.toml and of COUNT networks made at random, 40 if no COUNT is given, and
wants its numbers to be those that the words of a script tell.

The networks are those of warning.py. Each page has to be well-formed, with no script, nothing that it would fetch, and nothing of a file's
name that is markup. The last line is 'N pages, M failed'."""
import os
import re
import subprocess
import sys
import tempfile
import tomllib
from html.parser import HTMLParser

sys.dont_write_bytecode = True
from mending import Network, answers_of
from warning import NATIONAL, altered

EMPTY = {"meta", "path", "ellipse", "rect", "br", "polygon", "line", "circle"}


class Page(HTMLParser):
    """The tables of a page, each with its rows; what is wrong with the page; and how many pictures it has."""

    def __init__(self, text):
        super().__init__()
        self.open, self.wrong, self.tables, self.pictures, self.words = [], [], [], 0, []
        self.feed(text)
        self.close()
        if self.open:
            self.wrong.append(f"not closed: {self.open}")

    def handle_starttag(self, tag, attrs):
        if tag in ("script", "iframe", "object", "embed", "link", "img"):
            self.wrong.append(f"there is a {tag}")
        self.wrong += [f"{tag} has {name}" for name, value in attrs if name in ("src", "srcset") or name.startswith("on") or name.endswith("href") and not value.startswith("#")]
        self.pictures += tag == "svg"
        if tag == "table":
            self.tables.append([])
        if tag == "tr":
            self.tables[-1].append([])
        if tag in ("td", "th"):
            self.tables[-1][-1].append("")
        if tag not in EMPTY:
            self.open.append(tag)

    def handle_startendtag(self, tag, attrs):
        self.handle_starttag(tag, attrs)
        if self.open and self.open[-1] == tag and tag not in EMPTY:
            self.open.pop()

    def handle_endtag(self, tag):
        if tag in EMPTY:
            return
        if not self.open or self.open.pop() != tag:
            self.wrong.append(f"{tag} ends, and isn't the last that began")

    def handle_data(self, data):
        if self.open and self.open[-1] in ("td", "th"):
            self.tables[-1][-1][-1] += data
        if self.open and self.open[-1] in ("p", "h1"):
            self.words.append(data)

    def table(self, *heads):
        """The rows below these heads; none if there is no such table."""
        return next((rows[1:] for rows in self.tables if rows and rows[0] == list(heads)), [])


def mistakes_in(program, text, page):
    """What a page tells that the words of a script don't."""
    net = tomllib.loads(text)
    dests = sorted((entry.split()[0] for entry in net["plans"]), key=lambda code: [int(it) for it in code.split("-")])
    asked = ["show", "show down", "survey sets", "survey points", "warn", *(f"statuses {dest}" for dest in dests)]
    size, down, sets, points, warned, *statuses = answers_of(program, text, asked)
    numbers = dict(re.findall(r" (points|sets|links|down|plans) (\d+)", size))
    failing = {"sets": [it.split(":") for it in sets.split()[3:]], "points": [it.split(":") for it in points.split()[3:]]}
    shape = [it for it in warned.split()[2:] if not it.startswith("SingleFailure")]
    tried = sets.split()[2], points.split()[2]
    wanted = {
        "size": (re.findall(r"\d+", page.words[1]), [numbers[it] for it in ("points", "sets", "links", "down", "plans")]),
        "down": ([[a, c] for a, _, c, _ in page.table("Set", "between", "Link", "is")], [list(it) for it in re.findall(r" (\d+):(\d+)", down)]),
        "statuses": (page.table("Destination", "allowed", "restricted", "not at all"), [[dest, *re.findall(r" \w+ (\d+)", told)[:3]] for dest, told in zip(dests, statuses)]),
        "sets": ([[a, c] for a, _, c in page.table("Set", "between", "Pairs")], failing["sets"]),
        "points": (page.table("Transfer point", "Pairs"), failing["points"]),
        "tried": ([it for it in page.words if it.endswith("fail alone.")], [f"{len(failing[it])} of {all_} {kind} take something if they fail alone." for it, all_, kind in (("sets", tried[0], "link sets"), ("points", tried[1], "transfer points"))]),
        "warnings": ([row[0] for rows in page.tables for row in rows if len(row) == 1], shape),
        "pictures": (page.pictures, 1 + len(dests) if len(net["points"]) <= 60 else 1),
    }
    return [f"{what}: {told!r}, and wanted is {want!r}" for what, (told, want) in wanted.items() if told != want]


def try_network(program, name, text, folder):
    """What is wrong with the report of a network."""
    file = os.path.join(folder, "<b>&\"net\".toml")
    with open(file, "w", encoding="utf-8") as net:
        net.write(text)
    ran = subprocess.run([program, "report", file], capture_output=True, text=True, timeout=300)
    if ran.returncode or ran.stderr:
        return [f"{name}: {ran.returncode} {ran.stderr}"]
    page = Page(ran.stdout)
    title = [] if page.words and page.words[0] == file else [f"title: {page.words[:1]}"]
    return [f"{name}: {it}" for it in (page.wrong + title + mistakes_in(program, text, page))]


def main():
    program, count = sys.argv[1], int(sys.argv[2]) if len(sys.argv) > 2 else 40
    with open(NATIONAL, encoding="utf-8") as national:
        networks = [("national.toml", national.read())]
    networks += [(f"network {seed}", altered(Network(seed), seed)) for seed in range(count)]
    failed = 0
    with tempfile.TemporaryDirectory() as folder:
        for name, text in networks:
            mistakes = try_network(program, name, text, folder)
            failed += bool(mistakes)
            for mistake in mistakes:
                print(mistake)
    print(f"{len(networks)} pages, {failed} failed")
    return 1 if failed else 0


if __name__ == "__main__":
    sys.exit(main())
