#!/usr/bin/env python3
"""transcripts.py PROGRAM PAGE..: runs the transcripts of the pages, and wants just what they show.

A transcript is a line `$ COMMAND` in a block of a page, and what the command writes, up to the next such line or the end of the
block. `route_desk` stands for PROGRAM. Lines that begin with `> ` are what is typed: they are the command's standard input, and the
lines between them are the answers. A block of the kind `text` and commands of `make` and `git` are left out. In the place of /tmp stands
a folder of each page's own. The last line is 'N passed, M failed'."""
import os
import re
import subprocess
import sys
import tempfile


def blocks(page):
    """The code blocks of a page: the lines between fences, and runs of lines that are indented by four."""
    inside, lines = None, []
    for line in page.split("\n"):
        fence = re.match(r"```(\w*)", line)
        if fence and inside is None:
            inside, lines = fence[1], []
        elif fence:
            if inside != "text":
                yield lines
            inside, lines = None, []
        elif inside is not None:
            lines.append(line)
        elif line.startswith("    "):
            lines.append(line[4:])
        elif not line.strip() and lines:
            lines.append("")
        elif lines:
            yield lines
            lines = []
    if lines:
        yield lines


def transcripts(page):
    """Each command of a page, with the lines that are typed and those that it writes."""
    for block in blocks(page):
        command, typed, wrote = None, [], []
        for line in block + ["$ "]:
            if line.startswith("$ "):
                if command and not re.match(r"(make|git)\b", command):
                    yield command, typed, wrote
                command, typed, wrote = line[2:], [], []
            elif line.startswith("> "):
                typed.append(line[2:])
            else:
                wrote.append(line)


def run(program, folder, command, typed):
    """What a command writes that gets these lines, with this folder in the place of /tmp."""
    words = re.sub(r"(?<![\w./-])(crates/route_desk/out/)?route_desk(?= )", program, re.sub(r"(?<![\w./-])/tmp\b", folder, command))
    text = "".join(f"{line}\n" for line in typed).replace("/tmp/", f"{folder}/")
    ran = subprocess.run(["bash", "-c", words], input=text, stdout=subprocess.PIPE, stderr=subprocess.STDOUT, text=True)
    return ran.stdout.replace(folder, "/tmp")


def main():
    program, pages = os.path.abspath(sys.argv[1]), sys.argv[2:]
    passed = failed = 0
    for name in pages:
        with open(name, encoding="utf-8") as it:
            page = it.read()
        with tempfile.TemporaryDirectory() as folder:
            for command, typed, wrote in transcripts(page):
                got = run(program, folder, command, typed)
                while wrote and not wrote[-1]:
                    wrote.pop()
                if got.rstrip("\n").split("\n") == wrote:
                    passed += 1
                else:
                    failed += 1
                    print(f"{name}: $ {command}\n  wrote:\n{got}  and not:\n" + "\n".join(wrote))
    print(f"{passed} passed, {failed} failed")
    return 1 if failed else 0


sys.exit(main())
