#!/usr/bin/env python3
"""Proves and builds a program, and says how far it is: how many crates are done, of how many, and the minutes so far.

build.py [CRATE]  proves the crates of the program CRATE, of route_desk if none is named, by the gate's command, with no wrong bodies and no
                  tests: from nothing, or from what an earlier run of the gate or of this proved of the same files on this machine. Each crate
                  is proved in a copy of it and of those below it, as soon as these are. Where `build.py keep` was run before, it goes on
                  from what that left.
build.py keep     proves those of route_desk as `rt check` does, which keeps the proof of each function in the tree, so that a check of a
                  crate starts from there. It takes longer. The prover works on one crate of a tree at a time, so each crate is proved
                  in a copy of the tree too, and what was proved is put beside its sources in the tree and in the other copies: the
                  prover knows it by a sum of the sources, wherever they stand. The first crate gets a job for each processor.

In both ways the crate with the most work above it goes first; others are proved beside it, one job each, and give way to it.
"""
import os
import queue
import shutil
import subprocess
import sys
import tempfile
import time
from concurrent.futures import FIRST_COMPLETED, ThreadPoolExecutor, wait

# the program that is proved
PROGRAM = next((it for it in sys.argv[1:] if it != "keep"), "route_desk")
START = time.monotonic()
# the provers that run
RUNNING = set()


def read_graph():
    """The crates of crates.txt, each with those of them that it names."""
    graph = {}
    with open("crates.txt", encoding="utf-8") as lines:
        for line in lines:
            if line[:1].isalpha():
                head, names = line.split(":")
                graph[head.split()[0]] = names.split()
    return {crate: [it for it in names if it in graph] for crate, names in graph.items()}


def needed(graph, crate, found):
    """Adds a crate and all below it, those below first."""
    for it in graph[crate]:
        if it not in found:
            needed(graph, it, found)
    found.append(crate)
    return found


def size(crate):
    """The bytes of a crate's code, a measure of its work: lemmas take little. The least stands for what every crate takes."""
    bytes = 10_000
    for at, folders, files in os.walk(f"crates/{crate}"):
        folders[:] = [it for it in folders if it not in ("out", "must-fail", "wrong-bodies")]
        bytes += sum(os.path.getsize(f"{at}/{it}") for it in files if it.endswith(".rt"))
    return bytes


def work_above(graph, crates):
    """For each crate the work of the longest way from it to the program."""
    above = {}
    for crate in reversed(crates):
        users = [above[it] for it in crates if crate in graph[it] and it in above]
        above[crate] = size(crate) + max(users, default=0)
    return above


class NotProved(Exception):
    """A prover did not end well. It has the file of what the prover said."""


class NothingKept(Exception):
    """What a run of the prover proves isn't kept for the next one."""


def prove_anew(graph, crates, count, room):
    """Proves the crates by the gate's command, builds the program, and puts it in the tree."""
    try:
        each_in_turn(graph, crates, count, lambda crate, is_first: prove_by_gate(graph, crate, is_first, room))
    except NothingKept:
        say("nothing is kept between runs of the prover here, so one run proves all")
        prove_by_gate(graph, PROGRAM, True, room)
    os.makedirs(f"crates/{PROGRAM}/out", exist_ok=True)
    shutil.copy(f"{room}/{PROGRAM}/crates/{PROGRAM}/out/{PROGRAM}", f"crates/{PROGRAM}/out")


def prove_by_gate(graph, crate, is_first, room):
    """Proves a crate, and those below it that no run proved, by the gate's command in a copy of them. The prover gives a crate that
    is alone a second job; the others get one each, and give way."""
    tree, wanted = f"{room}/{crate}", needed(graph, crate, [])
    shutil.rmtree(tree, ignore_errors=True)
    for it in wanted:
        shutil.copytree(f"crates/{it}", f"{tree}/crates/{it}", ignore=shutil.ignore_patterns("out", "must-fail", "wrong-bodies"))
    with open("crates.txt", encoding="utf-8") as lines, open(f"{tree}/crates.txt", "w", encoding="utf-8") as kept:
        kept.writelines(line for line in lines if line.split(" ")[0].rstrip(":\n") in wanted)
    shutil.copy("HANDLES", tree)
    # the prover wants the top of a repository
    os.mkdir(f"{tree}/.git")
    one_job = {} if is_first else {"RT_JOBS": "1"}
    log = f"{room}/{crate}.log"
    run([*way(is_first), "rt", "ci"], tree, log, {**os.environ, **one_job})
    if crate == PROGRAM:
        return
    shutil.rmtree(tree)
    with open(log, encoding="utf-8", errors="replace") as said:
        if "nothing is kept" in said.read():
            raise NothingKept


def lanes():
    """A lane for each processor, at most four, and at least 4 GB of memory for each."""
    with open("/proc/meminfo", encoding="utf-8") as lines:
        free = next(int(it.split()[1]) for it in lines if it.startswith("MemAvailable"))
    return max(1, min(os.cpu_count() or 1, 4, free // 4_000_000))


def say(text):
    spent = int(time.monotonic() - START)
    print(f"{spent // 60}:{spent % 60:02d}  {text}", flush=True)


def stop(log):
    """Shows the end of a prover's output, and ends."""
    with open(log, encoding="utf-8", errors="replace") as lines:
        print("".join(lines.readlines()[-40:]), end="")
    sys.exit(1)


def way(is_first):
    """How a prover is started: one that isn't the first gives way to it."""
    return [] if is_first else ["nice", "-n", "10"]


def run(command, folder, log, environment=None):
    """Runs a prover, whose output goes to a file."""
    with open(log, "w", encoding="utf-8") as kept:
        prover = subprocess.Popen(command, cwd=folder, stdout=kept, stderr=kept, env=environment)
    RUNNING.add(prover)
    status = prover.wait()
    RUNNING.discard(prover)
    if status:
        raise NotProved(log)


def put(crate, source, target):
    """Gives what was proved in one tree to another, as second names of its files: the prover replaces such files, and never writes into them."""
    to = f"{target}/crates/{crate}/out"
    shutil.rmtree(to, ignore_errors=True)
    shutil.copytree(f"{source}/crates/{crate}/out", to, copy_function=os.link, symlinks=True)


def each_in_turn(graph, crates, most, prove):
    """Has each crate proved as soon as those below it are, so many at once, and told to one that has more work from it on than those
    that run, which are half done, that it is the first: it never waits for a place."""
    above, done, running = work_above(graph, crates), [], {}
    left = sorted(crates, key=lambda it: -above[it])
    with ThreadPoolExecutor(len(crates)) as pool:
        try:
            while left or running:
                for crate in [it for it in left if set(graph[it]).issubset(done)]:
                    is_first = all(above[crate] > above[it] - size(it) / 2 for it in running.values())
                    if is_first or len(running) < most:
                        left.remove(crate)
                        running[pool.submit(prove, crate, is_first)] = crate
                for ended in wait(running, return_when=FIRST_COMPLETED).done:
                    crate = running.pop(ended)
                    ended.result()
                    done.append(crate)
                    others = f"; in work: {', '.join(running.values())}" if running else ""
                    say(f"{len(done)} of {len(crates)} crates proved: {crate}{others}")
        except BaseException:
            for prover in list(RUNNING):
                prover.terminate()
            raise


def prove_side_by_side(graph, crates, count, room):
    """Proves the libraries below the program as `rt check` does."""
    trees, free = [f"{room}/{number}" for number in range(count + 1)], queue.SimpleQueue()
    for tree in trees:
        shutil.copytree("crates", f"{tree}/crates", ignore=shutil.ignore_patterns("out", "must-fail", "wrong-bodies"))
        for file in ("crates.txt", "HANDLES"):
            shutil.copy(file, tree)
        free.put(tree)

    def prove(crate, is_first):
        tree, jobs = free.get(), count if is_first else 1
        run([*way(is_first), "rt", "lib", "--jobs", str(jobs)], f"{tree}/crates/{crate}", f"{room}/{crate}.log")
        for other in (".", *trees):
            if other != tree:
                put(crate, tree, other)
        free.put(tree)

    each_in_turn(graph, crates[:-1], count, prove)


def build(crates, count):
    """Proves what is left, and builds the program, and runs it as its stored run does."""
    log, proved = f"crates/{PROGRAM}/out.log", set()
    with open(f"crates/{PROGRAM}/args", encoding="utf-8") as words:
        command = ["rt", "run", "--jobs", str(count), "--", *words.read().splitlines()]
    with open(log, "w", encoding="utf-8") as kept, open(f"crates/{PROGRAM}/stdin", "rb") as given:
        run = subprocess.Popen(command, cwd=f"crates/{PROGRAM}", stdin=given, stdout=subprocess.PIPE, stderr=subprocess.STDOUT, text=True)
        for line in run.stdout:
            kept.write(line)
            words = line.split()
            if words[:1] == ["crate"]:
                proved.add(words[1].rstrip(":"))
                say(f"proved: {words[1].rstrip(':')}")
            elif words[:2] == ["so", "far:"] and words[2].isdigit() and words[2] != "0":
                say(f"the next crate: {words[2]} of {words[4]} functions")
    if run.wait():
        print(f"the whole output is in {log}")
        stop(log)
    os.remove(log)


def main():
    os.chdir(f"{os.path.dirname(os.path.abspath(__file__))}/..")
    keeps = sys.argv[1:] == ["keep"]
    graph = read_graph()
    if PROGRAM not in graph or not os.path.exists(f"crates/{PROGRAM}/src/main.rt"):
        sys.exit(f"build.py: {PROGRAM} is no program of crates.txt")
    crates, count = needed(graph, PROGRAM, []), lanes()
    print(f"proving {len(crates)} crates, those that changed; the first time it takes about half an hour on four processors", flush=True)
    kept = [it for it in crates[:-1] if os.path.exists(f"crates/{it}/out/rlib/stamp")]
    room = tempfile.mkdtemp(dir=".", prefix=".build-")
    try:
        if not keeps and len(kept) < len(crates) - 1:
            prove_anew(graph, crates, count, room)
            return
        if count > 1 and not kept:
            prove_side_by_side(graph, crates, count, room)
    except NotProved as failure:
        stop(failure.args[0])
    except KeyboardInterrupt:
        sys.exit(130)
    finally:
        shutil.rmtree(room, ignore_errors=True)
    build(crates, count)


main()
