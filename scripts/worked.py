#!/usr/bin/env python3
"""worked.py PROGRAM [FILE..]: runs the worked examples, and wants just the bytes that they show.

The files are those of examples/worked/, whose README says how an example is written. A script over a network is run in four ways:
in one run over a pipe, with '\\r\\n' line ends, byte by byte (each answer has to come before the next line is sent), and from files
with the last line end cut off. Then its network is saved: the saved text has to load as the same network and to save as the same
text. Beside four workers it has to answer as in line, at once and line by line, with a `sync` before what it asks. An example that
begins with `$` is one command line. The last line is 'N examples, M failed'."""
import functools
import os
import re
import select
import shutil
import subprocess
import sys
import tempfile
from concurrent.futures import ThreadPoolExecutor

HERE = os.path.join(os.path.dirname(os.path.abspath(__file__)), "..", "examples", "worked")
# words that ask and change nothing
QUESTIONS = ("status", "sls", "messages", "octets", "why", "mend", "remedy", "trace", "whatif", "reroutes", "survey", "picture", "show", "statuses", "audit")
# words that are refused beside workers
OF_WORKERS = ("open", "take", "give", "abandon", "publish")


class Example:
    """A network and a script, or a command line; with what has to come out."""

    def __init__(self, place, head):
        self.place, self.head = place, head
        self.network = ""
        self.lines = []  # the script: place, line and answer, which is None for a line that gets none
        self.output, self.errors, self.status = "", "", 0

    def script(self):
        return "".join(line + "\n" for _, line, _ in self.lines)

    def answers(self):
        return "".join(answer + "\n" for _, _, answer in self.lines if answer is not None)


@functools.cache
def compiled(text):
    """An expression in braces."""
    return compile(text, "an example", "eval")


def repeated(lines, values):
    """The lines with their places. `for n in A..B` repeats those indented below it, and an expression in braces is worked out. An object
    of JSON, whose brace stands before a quotation mark, stays as it is."""
    at = 0
    while at < len(lines):
        place, line = lines[at]
        loop = re.fullmatch(r"for (\w+) in (\d+)\.\.(\d+)", line)
        at += 1
        if loop:
            end = at
            while end < len(lines) and lines[end][1].startswith("  "):
                end += 1
            inner = [(place, line[2:]) for place, line in lines[at:end]]
            for value in range(int(loop[2]), int(loop[3]) + 1):
                yield from repeated(inner, {**values, loop[1]: value})
            at = end
        else:
            yield place, re.sub(r'\{(?!")(.*?)\}', lambda found: str(eval(compiled(found[1]), {}, values)), line)


def network_of(folder, words):
    """The text of `network FILE, `NEW` for `OLD`, ..`; nothing if the text follows in the example itself."""
    if not words:
        return ""
    with open(os.path.join(folder, words.split(",")[0]), encoding="latin-1") as it:
        text = it.read()
    for new, old in re.findall("`([^`]*)` for `([^`]*)`", words):
        assert text.count(old) == 1, f"{old} stands {text.count(old)} times in {words}"
        text = text.replace(old, new)
    return text


def examples_of(name):
    """The examples of a file."""
    found = []
    with open(name, encoding="latin-1") as it:
        lines = list(enumerate(it.read().split("\n")[:-1], 1))
    for number, line in repeated(lines, {}):
        place = f"{os.path.basename(name)}:{number}"
        if line.startswith("$ "):
            found.append(Example(place, line[2:]))
        elif re.match(r"network\b", line):
            found.append(Example(place, None))
            found[-1].network = network_of(os.path.dirname(name), line[8:])
        elif not found:
            continue  # the head of the file
        elif line.startswith("| "):
            found[-1].network += line[2:] + "\n"
        elif line.startswith("=> "):
            told, text, first = found[-1].lines[-1]
            # a second one is what changed, told behind the reply
            found[-1].lines[-1] = (told, text, line[3:] if first is None else first + "\n" + line[3:])
        elif re.match("1>( |$)", line):
            found[-1].output += line[3:] + "\n"
        elif re.match("2>( |$)", line):
            found[-1].errors += line[3:] + "\n"
        elif line.startswith("exit "):
            found[-1].status = int(line[5:])
        elif line.startswith("< "):
            found[-1].lines.append((place, line[2:], None))
        elif found[-1].head is None:
            found[-1].lines.append((place, line, None))
    return found


class Failure(Exception):
    """What differs, in a line."""


def first_difference(example, wanted, got):
    """The place of the first answer that differs, and both."""
    asked = [place for place, _, answer in example.lines if answer is not None for _ in answer.split("\n")]
    wanted, got = wanted.split("\n"), got.split("\n")
    for k, (want, have) in enumerate(zip(wanted + [""] * len(got), got + [""] * len(wanted))):
        if want != have:
            place = asked[k] if k < len(asked) else example.place
            return f"{place}: wanted {want[:300]!r}, got {have[:300]!r}"
    return f"{example.place}: differs"


def compare(example, got, wanted):
    """Wants the same standard output, standard error and status."""
    if got[0] != wanted[0]:
        raise Failure(first_difference(example, wanted[0], got[0]))
    if got[1:] != wanted[1:]:
        raise Failure(f"{example.place}: wanted {wanted[1:]!r}, got {got[1:]!r}")


def run(command, text, **more):
    """Standard output, standard error and status of a command that gets a text."""
    ran = subprocess.run(command, input=text.encode("latin-1"), capture_output=True, timeout=120, **more)
    return ran.stdout.decode("latin-1"), ran.stderr.decode("latin-1"), ran.returncode


def answer_of(pipe, place):
    """The bytes up to a line end, which have to come before anything more is sent."""
    got = b""
    while not got.endswith(b"\n"):
        if not select.select([pipe], [], [], 20)[0]:
            raise Failure(f"{place}: no answer before the next line")
        piece = os.read(pipe, 65536)
        if not piece:
            break
        got += piece
    return got


def byte_by_byte(program, example, folder, *options):
    """Standard output, standard error and status if each byte is sent by itself, and each answer awaited."""
    with tempfile.TemporaryFile() as errors:
        process = subprocess.Popen([program, "run", "-", *options], stdin=subprocess.PIPE, stdout=subprocess.PIPE, stderr=errors, bufsize=0, cwd=folder)
        got = b""
        head = [(None, line, None) for line in (example.network + "%%").split("\n")]
        try:
            for place, line, answer in head + example.lines:
                for byte in line.encode("latin-1") + b"\n":
                    os.write(process.stdin.fileno(), bytes((byte,)))
                if answer is not None:
                    got += answer_of(process.stdout.fileno(), place)
            process.stdin.close()
            got += process.stdout.read()
        except BrokenPipeError:
            got += process.stdout.read()  # it has ended; what it wrote tells whether that is right
        except Failure:
            process.kill()
            raise
        status = process.wait()
        errors.seek(0)
        return got.decode("latin-1"), errors.read().decode("latin-1"), status


def entry_words(text):
    """The words of a network's entries in rising order, the marks of format 1 as format 2 writes them."""
    entries = re.sub(r"(?m)^(#.*|\w+ = \w+|\w+ = \[)", "", text)
    return sorted(re.sub(r"^(\d+f?)([bi])$", r"\1\2a", word) for word in re.findall(r"[\w:+/-]+", entries))


def try_saving(program, example, folder):
    """Saves the network before and after the script, and wants the saved text to say the same and to save as itself."""
    first, second = os.path.join(folder, "first"), os.path.join(folder, "second")
    run([program, "run", "-", "--save", first], example.network, cwd=folder)
    with open(first, encoding="latin-1") as it:
        if entry_words(it.read()) != entry_words(example.network):
            raise Failure(f"{example.place}: the saved text has other entries")
    asked = "sync\n" + "".join(line.strip() + "\n" for _, line, _ in example.lines if line.split(" ")[0] in QUESTIONS)
    before = run([program, "run", "-", "--save", first], example.network + "%%\n" + example.script() + asked, cwd=folder)
    after = run([program, "run", first, "--save", second], asked, cwd=folder)
    said = after[0].split("\n")[1:]  # the answers to the questions alone: the number that `sync` tells starts anew
    if before[0].split("\n")[-len(said):] != said:
        raise Failure(f"{example.place}: the saved network answers otherwise")
    with open(first, "rb") as it, open(second, "rb") as other:
        if it.read() != other.read():
            raise Failure(f"{example.place}: the saved text is saved otherwise")


def synced(lines):
    """The lines with a `sync` between what is asked and the events before it; none if one is a worker's, or if more than 65,536 events
    stand between two."""
    found, events = [], 0
    for place, line, answer in lines:
        word = (line.split() or [""])[0]
        if events and word in (*QUESTIONS, "version"):
            found.append((place, "sync", ""))
            events = 0
        found.append((place, line, answer))
        if word not in (*QUESTIONS, "version"):
            events = 0 if word == "sync" else events + (answer is not None)
        if word in OF_WORKERS or events > 65536:
            return []
    return found


def try_beside(program, example, folder):
    """Runs a script beside four workers, at once and byte by byte, and wants what it writes in line."""
    beside = Example(example.place, None)
    beside.network, beside.lines = example.network, synced(example.lines)
    if beside.lines:
        text = beside.network + "%%\n" + beside.script()
        wanted = run([program, "run", "-"], text, cwd=folder)
        compare(beside, run([program, "run", "-", "--workers", "4"], text, cwd=folder), wanted)
        compare(beside, byte_by_byte(program, beside, folder, "--workers", "4"), wanted)


def try_script(program, example):
    """Runs a script over a network in each way, in a folder of its own."""
    wanted = (example.answers(), example.errors, example.status)
    text = example.network + "%%\n" + example.script()
    with tempfile.TemporaryDirectory() as folder:
        compare(example, run([program, "run", "-"], text, cwd=folder), wanted)
        compare(example, run([program, "run", "-"], re.sub("(?<!\r)\n", "\r\n", text), cwd=folder), wanted)
        compare(example, byte_by_byte(program, example, folder), wanted)
        network, script = os.path.join(folder, "network"), os.path.join(folder, "script")
        with open(network, "w", encoding="latin-1", newline="") as it:
            it.write(example.network)
        with open(script, "w", encoding="latin-1", newline="") as it:
            it.write(example.script().rstrip("\n"))
        compare(example, run([program, "play", network, script], "", cwd=folder), wanted)
        if example.status == 0:
            try_saving(program, example, folder)
            try_beside(program, example, folder)


def try_command(program, example):
    """Runs a command line in a folder that has the networks of examples/, with the program as `route_desk`."""
    with tempfile.TemporaryDirectory() as folder:
        for name in os.listdir(os.path.join(HERE, "..")):
            if name.endswith((".toml", ".script")):
                shutil.copy(os.path.join(HERE, "..", name), folder)
        os.mkdir(os.path.join(folder, "bin"))
        os.symlink(program, os.path.join(folder, "bin", "route_desk"))
        path = os.path.join(folder, "bin") + ":" + os.environ["PATH"]
        got = run(["bash", "-c", example.head], example.script(), cwd=folder, env={**os.environ, "PATH": path})
        compare(example, got, (example.output, example.errors, example.status))


def failure_of(program, example):
    """What is wrong with an example, if anything."""
    try:
        (try_script if example.head is None else try_command)(program, example)
    except (Failure, subprocess.TimeoutExpired) as failure:
        return str(failure)


def main():
    program = os.path.abspath(sys.argv[1])
    names = sys.argv[2:] or sorted(os.path.join(HERE, name) for name in os.listdir(HERE) if name.endswith(".txt"))
    found = [example for name in names for example in examples_of(name)]
    with ThreadPoolExecutor(2) as pool:
        failures = [failure for failure in pool.map(lambda example: failure_of(program, example), found) if failure]
    for failure in failures:
        print(failure)
    print(f"{len(found)} examples, {len(failures)} failed")
    return 1 if failures or not found else 0


if __name__ == "__main__":
    sys.exit(main())
