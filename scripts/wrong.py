#!/usr/bin/env python3
"""wrong.py [--look] [CRATE ..]: tries the wrong bodies that the gate leaves out, those in the folders wrong-bodies/ of these crates, or of
all if none is named: the prover has to refuse each. They are tried by the gate's command in a copy of the tree, over what the gate proved
of the same files on this machine, or from nothing. With --look nothing is tried: it is only seen whether each can be applied still, which
means that each text that it changes stands once in its file. What fails is shown. The last line is 'N passed, M failed'."""
import os
import re
import shutil
import subprocess
import sys
import tempfile
from glob import glob

os.chdir(os.path.join(os.path.dirname(os.path.abspath(__file__)), ".."))


def bodies_of(crate):
    """The files of a crate's wrong bodies that the gate leaves out."""
    return sorted(glob(f"crates/{crate}/wrong-bodies/*.edit"))


def why_not(crate, edit):
    """Why an edit can't be applied, nothing if it can."""
    file, changed = "", 0
    with open(edit, encoding="utf-8") as lines:
        for line in lines.read().split("\n"):
            if line.startswith("file: "):
                file = f"crates/{crate}/{line[6:]}"
                if not os.path.isfile(file):
                    return f"there is no {file}"
            elif line.startswith("old: "):
                with open(file, encoding="utf-8") as source:
                    found = source.read().count(line[5:])
                if found != 1:
                    return f"{line[5:].strip()!r} stands {found} times in {file}"
                changed += 1
    return "" if changed else "it changes nothing"


def look(crates):
    """Sees whether each wrong body can be applied: how many can, and how many can't."""
    passed = failed = 0
    for crate in crates:
        for edit in bodies_of(crate):
            why = why_not(crate, edit)
            passed, failed = passed + (not why), failed + bool(why)
            if why:
                print(f"{edit}: {why}")
    return passed, failed


def copy_tree(room, crates):
    """A copy of the tree in which these crates have just the wrong bodies that the gate leaves out, and the others none."""
    shutil.copytree("crates", f"{room}/crates", ignore=shutil.ignore_patterns("out", "must-fail", "wrong-bodies"))
    for crate in crates:
        shutil.copytree(f"crates/{crate}/wrong-bodies", f"{room}/crates/{crate}/must-fail")
    for file in ("crates.txt", "HANDLES"):
        shutil.copy(file, room)
    # the prover wants the top of a repository
    os.mkdir(f"{room}/.git")


def attempt(crates):
    """Has the prover try each wrong body: how many it refuses, and how many not."""
    wanted = {f"{crate}/{os.path.basename(edit)}" for crate in crates for edit in bodies_of(crate)}
    with tempfile.TemporaryDirectory() as room:
        copy_tree(room, crates)
        ran = subprocess.run(["rt", "ci", *crates], cwd=room, stdin=subprocess.DEVNULL, capture_output=True, text=True, errors="replace")
    refused = set(re.findall(r"(?m)^rt: must-fail (\S+): refused", ran.stdout)) & wanted
    if refused != wanted:
        print("".join(f"{line}\n" for line in ran.stdout.split("\n")[-60:] if line))
        print("".join(f"{it} isn't refused\n" for it in sorted(wanted - refused)), end="")
    return len(refused), len(wanted - refused)


def main():
    words = [it for it in sys.argv[1:] if it != "--look"]
    crates = [it for it in words or sorted(os.listdir("crates")) if bodies_of(it)]
    unknown = [it for it in words if it not in crates]
    if unknown:
        sys.exit(f"wrong.py: {unknown[0]} has no wrong bodies of this kind")
    passed, failed = (look if "--look" in sys.argv[1:] else attempt)(crates)
    print(f"{passed} passed, {failed} failed")
    sys.exit(failed > 0)


main()
