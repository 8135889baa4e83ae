#!/usr/bin/env python3
"""explained.py PROGRAM PAGE: wants that `PROGRAM explain` and the tables of the page say the same.

A row of a table with a column "What it means" has a title in backquotes, and the values behind it: `27 BadRow CODE c`. Each such
row wants an explanation of that title, and each explanation a row, with its values, what it means and what to do; a cell begins
small and has no full stop. Of two rows with one title the first has the words, and one of them the values. Each explanation is asked
for by its title, its number and its name, and the first of those with one letter by that letter. The last line is 'N passed, M failed'."""
import os
import re
import subprocess
import sys

# the row of an entry that is refused, which stands for all refusals of an event
ENTRY = "KEY PLACE: NUMBER NAME .."


def rows(page):
    """The rows of the tables with a column "What it means": the first text in backquotes, what it means and what to do."""
    columns = None
    for line in page.split("\n"):
        cells = [cell.strip() for cell in line.strip("|").split("|")] if line.startswith("|") else None
        if cells is None:
            columns = None
        elif columns is None:
            columns = cells
        elif "What it means" in columns and not set(cells[0]) <= set("-"):
            shown = re.match(r"`([^`]*)`", cells[0])
            meaning, action = (cells[columns.index(it)] for it in ("What it means", "What to do"))
            yield shown[1] if shown else cells[0], sentence(meaning), sentence(action)


def sentence(cell):
    """What a cell says as a sentence, without links."""
    cell = re.sub(r"\[([^]]*)\]\([^)]*\)", r"\1", cell)
    return cell[:1].upper() + cell[1:] + "."


def ask(program, *words):
    """What is explained, in lines; nothing if that isn't known."""
    ran = subprocess.run([program, "explain", *words], stdin=subprocess.DEVNULL, stdout=subprocess.PIPE, text=True)
    return ran.stdout.splitlines() if ran.returncode == 0 else []


def faults_of(program, title, told, titles):
    """What is wrong with an explanation, by its rows."""
    lines = ask(program, title)
    if len(lines) not in (3, 4):
        yield "it has not three or four lines"
        return
    shown, meaning, action = told[0]
    if lines[0] not in [row[0] for row in told]:
        yield f"values: {lines[0]!r}, and in the page {shown!r}"
    if lines[1] != meaning:
        yield f"what it means: {lines[1]!r}, and in the page {meaning!r}"
    if lines[-1] != f"What to do: {action}":
        yield f"what to do: {lines[-1]!r}, and in the page {action!r}"
    for word in title.split(" "):
        called = next(it for it in titles if word in it.split(" "))
        if called == title and ask(program, word) != lines:
            yield f"{word!r} doesn't call it"


def main():
    program = os.path.abspath(sys.argv[1])
    with open(sys.argv[2], encoding="utf-8") as it:
        page = it.read()
    titles = [line.split(": ")[0] for line in ask(program)]
    told, wrong = {}, []
    for shown, meaning, action in rows(page):
        title = next((it for it in titles if shown == it or shown.startswith(f"{it} ")), None)
        if title:
            told.setdefault(title, []).append((shown, meaning, action))
        elif shown != ENTRY:
            wrong.append(f"{shown}: a row without an explanation")
    for title in titles:
        if title not in told:
            wrong.append(f"{title}: an explanation without a row")
            continue
        said = list(faults_of(program, title, told[title], titles))
        if said:
            wrong.append(f"{title}: " + "; ".join(said))
    for it in wrong:
        print(it)
    if not titles:
        wrong.append("nothing")
    print(f"{len(titles) - sum(it.split(':')[0] in titles for it in wrong)} passed, {len(wrong)} failed")
    return 1 if wrong else 0


sys.exit(main())
