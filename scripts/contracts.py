#!/usr/bin/env python3
"""contracts.py REV: which clauses of public calls are no longer those of a revision, which calls came, and which went.

A call is told by its crate, its type if it has one, and its name; a clause by its text, so that one with another word in it is told
as well, beside those that are new of the same call."""
import re
import subprocess
import sys


def git(*words):
    return subprocess.run(["git", *words], capture_output=True, text=True, check=True).stdout


def sources(revision):
    """The text of each source, by its path; of the work tree without a revision."""
    tree = git("ls-tree", "-r", "--name-only", revision, "crates") if revision else git("ls-files", "crates")
    for path in tree.split("\n"):
        if re.fullmatch(r"crates/\w+/src/.*\.rt", path):
            yield path, git("show", f"{revision}:{path}") if revision else open(path, encoding="utf-8").read()


def clauses(lines, at):
    """The clauses of the function that begins at a line."""
    head = []
    while at < len(lines) and lines[at].strip() != "{" and not lines[at].rstrip().endswith(";"):
        head.append(lines[at].strip())
        if lines[at].rstrip().endswith("{") and not re.search(r"\b(ensures|requires)\b", lines[at]):
            break
        at += 1
    parts = re.split(r"(?=\b(?:ensures|requires)\b)", " ".join(head))
    return [re.sub(r"\s+", " ", part).strip() for part in parts[1:]]


def contracts(revision=None):
    """The clauses of each public function."""
    found = {}
    for path, text in sources(revision):
        owner, lines = "", text.split("\n")
        for at, line in enumerate(lines):
            begins = re.match(r"impl(?:<[^>]*>)? (?:\w+(?:<[^{]*>)? for )?(\w+)", line)
            owner = begins[1] + "::" if begins else "" if line == "}" else owner
            function = re.match(r"\s*pub (?:final )?fn (\w+)", line)
            if function:
                found[f"{path.split('/')[1]}::{owner}{function[1]}"] = clauses(lines, at)
    return found


def main():
    before, now = contracts(sys.argv[1]), contracts()
    for call in sorted(before):
        if call not in now:
            print(f"gone: {call}")
            continue
        lost = [it for it in before[call] if it not in now[call]]
        if lost:
            print(f"changed: {call}", *(f"    was {it}" for it in lost), sep="\n")
            print(*(f"    now {it}" for it in now[call] if it not in before[call]), sep="\n")
    for call in sorted(now):
        if call not in before:
            print(f"new: {call}")


if __name__ == "__main__":
    main()
