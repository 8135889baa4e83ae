#!/usr/bin/env python3
"""quick.py [RUNS]: for who changes code: a first answer in some minutes, with nothing proved and nothing built that stays. The source
runs unproved, with run-time checks: the tests of part_tests, state_tests and thread_tests, and by one run of `rt try` those worked
examples that are a script over a network, each once through a pipe. They have to end with the status, the standard output and the
standard error that they show. Left out are those that write a file, and those that write more than the 1 MiB that
`rt try` shows. RUNS of `rt try` go side by side: if none is given, as many as the machine has room for. What fails is shown. The last line
is 'N passed, M failed'."""
import os
import re
import subprocess
import sys
import tempfile
import time
from concurrent.futures import ThreadPoolExecutor, as_completed

sys.dont_write_bytecode = True
from worked import HERE, Failure, compare, examples_of

CRATES = os.path.join(os.path.dirname(os.path.abspath(__file__)), "..", "crates")
TESTS = ("thread_tests", "state_tests", "part_tests")
START = time.monotonic()


def try_unproved(crate, *words):
    """What a crate writes and what rt says, if it runs unproved."""
    ran = subprocess.run(["rt", "try", *words], cwd=os.path.join(CRATES, crate), stdin=subprocess.DEVNULL, capture_output=True)
    return ran.stdout.decode("latin-1"), ran.stderr.decode("latin-1"), ran.returncode


def tests_of(crate):
    """Runs the tests of a crate: how many passed, and what is wrong."""
    written, said, status = try_unproved(crate, "--test")
    # below a test that failed stands why, indented
    ended = re.findall(r"(?m)^test (\S+) \.\.\. (\w+).*\n((?:    .*\n)*)", written)
    failures = [f"{crate}: {name}: {how}\n{why.rstrip()}" for name, how, why in ended if how not in ("ok", "ignored")]
    if not failures and (status or not ended):
        failures = [f"{crate}: rt try ended with {status}\n" + indented(written + said)]
    return sum(how == "ok" for _, how, _ in ended), failures


def examples():
    """The worked examples that are tried, each by a name for its file."""
    for file in sorted(os.listdir(HERE)):
        if file.endswith(".txt"):
            for example in examples_of(os.path.join(HERE, file)):
                writes = re.search(r"(?m)^\s*(picture|save)\s+\S", example.script())
                if example.head is None and not writes and len(example.answers()) < 1 << 20:
                    yield example.place.replace(":", "."), example


def program():
    """Runs the program on the worked examples: how many passed, and what is wrong."""
    tried = dict(examples())
    with tempfile.TemporaryDirectory() as folder:
        for name, example in tried.items():
            for end, text in ("", example.network + "%%\n" + example.script()), (".args", "run\n-\n"):
                with open(os.path.join(folder, name + end), "w", encoding="latin-1", newline="") as it:
                    it.write(text)
        written, said, status = try_unproved("route_desk", "--cases", folder)
    # above each output stands a line with its name; above the line of each case what it wrote to standard error, or what is wrong
    outputs = dict(re.findall(r"(?ms)^== (\S+)\n(.*?)(?=^== |\Z)", written))
    ended = {name: (before, line) for before, name, line in re.findall(r"(?ms)(.*?)^case=(\S+) ([^\n]*)\n", said)}
    if not ended:
        return 0, [f"route_desk: rt try ended with {status}, and ran none of {len(tried)} examples\n" + indented(said)]
    found = [wrong(example, outputs.get(name, ""), ended.get(name)) for name, example in tried.items()]
    return found.count(None), [failure for failure in found if failure]


def wrong(example, output, ended):
    """What is wrong with an example, if anything: by what it wrote, and by what rt says of it."""
    if not ended:
        return f"{example.place}: not run"
    errors, line = ended
    status = re.match(r"run=ended status=(\d+) ", line)
    if not status:
        return f"{example.place}: {line}\n" + indented(errors)
    try:
        compare(example, (output, errors, int(status[1])), (example.answers(), example.errors, example.status))
    except Failure as failure:
        return str(failure)


def indented(text):
    """The last lines of a text, below a failure."""
    return "\n".join(f"  {line}" for line in text.splitlines()[-40:])


def room():
    """How many runs of rt go side by side: each keeps two processors busy, and takes up to 4.4 GB of memory."""
    with open("/proc/meminfo", encoding="utf-8") as lines:
        free = next(int(it.split()[1]) for it in lines if it.startswith("MemAvailable"))
    return max(1, min((os.cpu_count() or 1) // 2, free // 5_000_000))


def main():
    runs = int(sys.argv[1]) if sys.argv[1:] else room()
    print(f"nothing is proved: the source runs with run-time checks, {runs} of four parts at a time; some minutes ..", flush=True)
    passed = failed = 0
    with ThreadPoolExecutor(runs) as pool:
        # they take longest, so they begin first
        parts = {pool.submit(program): "worked examples"}
        parts.update({pool.submit(tests_of, crate): crate for crate in TESTS})
        try:
            for part in as_completed(parts):
                right, failures = part.result()
                for failure in failures:
                    print(failure)
                spent = int(time.monotonic() - START)
                print(f"{spent // 60}:{spent % 60:02d}  {parts[part]}: {right} passed, {len(failures)} failed", flush=True)
                passed, failed = passed + right, failed + len(failures)
        except KeyboardInterrupt:
            for part in parts:
                part.cancel()
            return 130
    print(f"{passed} passed, {failed} failed")
    return 1 if failed or not passed else 0


if __name__ == "__main__":
    sys.exit(main())
