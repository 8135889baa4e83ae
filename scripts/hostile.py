#!/usr/bin/env python3
"""hostile.py [--short] PROGRAM CALLS: takes memory away from the program, and breaks what it reads and writes. CALLS is the program
`library_calls`, which makes the calls that no script reaches.

scripts/refuse.c, which is compiled with `cc` and loaded before the C library, refuses the k-th request for memory (alone, and with
all after it), stops reading or writing after k bytes, lets one byte through a call, interrupts the k-th call, and refuses to keep a file
or to change its name. Each k has a run of its own, until none is reached. What such a run may do is said at `memory`, `reads`, `writes`,
`saves`, `names`, `serves`, `cuts`, `calls` and `again`; nothing else may happen. The inputs are a script that uses every word, two sessions at
one desk, networks that aren't loaded, command lines, and the worked examples, of which --short leaves out most; for the few long ones k
grows by a tenth at a time. The last line is 'N cases, M failed': a case is an input and a way of breaking."""
import os
import re
import subprocess
import sys
import tempfile
from concurrent.futures import ThreadPoolExecutor

sys.dont_write_bytecode = True
from worked import HERE, examples_of, synced

MEMORY, READ, WRITE, PLACE = (b"route_desk: " + fault + b"\n" for fault in (b"1 OutOfMemory", b"63 Read", b"64 Write", b"50 NoPlace"))
# what is told of a run of two sessions, or of one of them, that ends for want of memory, and where their answers go
ENDED = {b"route_desk: " + name + fault for name in (b"", b"feed: ", b"tool: ") for fault in (b"1 OutOfMemory", b"50 NoPlace")}
OUTPUTS = "feed.out", "tool.out"
# the lines that write a file, and its name
FILED = rb"(?m)^(picture|save) +(\S+)"
# what `clap` says if the words of the command line can't be read for want of memory
CLAP = (b"", b"error: out of memory\n", 2)
# what is said of a word that isn't UTF-8
UNREAD = (b"", b"route_desk: an argument isn't UTF-8\n", 2)


class Case:
    """A command line with its standard input and files, and what it does if nothing is broken."""

    program = library = None
    runs = 0

    def __init__(self, name, words, text=b"", files=None, head=0, answered=(), large=False, program=None):
        self.name, self.words, self.text, self.files, self.large = name, words, text, files or {}, large
        self.program = program or Case.program
        # how much of what is read is the network, before which nothing is answered; and where each answered line ends
        self.head, self.answered = head, answered
        # the files that lines of the script write
        filed = re.findall(FILED, b"\n".join((text, *self.files.values())))
        self.drawn, self.saved = ({name.decode("latin-1") for word, name in filed if word == kind} for kind in (b"picture", b"save"))
        self.wanted, self.written, _ = self.run()

    def run(self, instead=None, **broken):
        """How a run ends (standard output, standard error, status), its files then, and whether anything was broken. Its input may be another."""
        Case.runs += 1
        with tempfile.TemporaryDirectory() as folder, tempfile.TemporaryDirectory() as beside:
            for name, text in self.files.items():
                with open(os.path.join(folder, name), "wb") as it:
                    it.write(text)
            typed, note = os.path.join(beside, "typed"), os.path.join(beside, "note")
            with open(typed, "wb") as it:
                it.write(self.text if instead is None else instead)
            more = {f"REFUSE_{key.upper()}": str(value) for key, value in broken.items()}
            with open(typed, "rb") as it:
                ran = subprocess.run([self.program, *self.words], stdin=it, capture_output=True, cwd=folder, timeout=60,
                                     env={**os.environ, "LD_PRELOAD": self.library, "REFUSE_NOTE": note, **more})
            left = {}
            for name in os.listdir(folder):
                with open(os.path.join(folder, name), "rb") as it:
                    left[name] = it.read()
            return (ran.stdout, ran.stderr, ran.returncode), left, os.path.exists(note)

    def is_prefix(self, got, errors):
        """Whether a run ended with 1 and that line, after a prefix of the text that it should write."""
        return self.wanted[0].startswith(got[0]) and got[1:] == (errors, 1)

    def is_saved(self, left):
        """Whether the files are those of a whole run. For want of memory a saved text may be laid out otherwise, if it says the same."""
        return left == self.written or self.said(left) == self.said(self.written)

    def said(self, left):
        """The files, of which each network is saved anew."""
        networks = {"kept", *self.saved}
        return {name: self.resaved(text) if name in networks else text for name, text in left.items()}

    def without_filed(self, left):
        """The files but those that lines write. Each of these is whole if it is there: a DOT text, of which no part ends as it does, or a
        network text that loads."""
        for name, text in left.items():
            if name in self.drawn and not text.endswith(b"}\n"):
                raise Wrong(self, "a part of a picture is left", self.wanted, left)
            if name in self.saved and Case(self.name, ["check", "kept"], files={"kept": text}).wanted[2] != 0:
                raise Wrong(self, "a part of a network is left", self.wanted, left)
        return {name: text for name, text in left.items() if name not in self.drawn | self.saved}

    def is_alike(self, answers):
        """Whether the answers are those of a whole run, but that some files may have been refused."""
        wanted, got = self.wanted[0].splitlines(), answers.splitlines()
        return len(wanted) == len(got) and all(
            told == line or (told == b"refused 64 Write" and line.startswith((b"picture ", b"saved "))) for line, told in zip(wanted, got))

    def each(self, way, start=1, **more):
        """Runs with each k from the start until none is reached, wants the files to be right, and gives k and how the run ended."""
        k = start
        while True:
            got, left, reached = self.run(**{way: k}, **more)
            if not reached:
                if (got, left) != (self.wanted, self.written):
                    raise Wrong(self, f"{way} {k} isn't reached", got, left)
                return
            # a run that did all has saved its network; any other leaves the files as they were
            if not (self.is_saved(left) if got == self.wanted else self.without_filed(left) == self.files):
                raise Wrong(self, f"{way} {k} {more}", got, left)
            yield k, got
            k += 1 + (k // 10 if self.large else 0)

    def resaved(self, network):
        """The text that a network text is saved as."""
        return Case(self.name, ["run", "kept", "--save", "kept"], files={"kept": network}).written["kept"]

    def want(self, right, what, got):
        """Wants that a run went right."""
        if not right:
            raise Wrong(self, what, got, {})


class Wrong(Exception):
    """A run that ended as none may."""

    def __init__(self, case, what, got, left):
        names = f", files {sorted(left)}" if left else ""
        super().__init__(f"{case.name}: {what}: ..{got[0][-100:]!r}, {got[1][-300:]!r}, status {got[2]}{names}")


def memory(case):
    """The run does all that it should, or ends with 1 after a prefix of it; or `clap` says so before anything is written."""
    for every in 0, 1:
        for k, got in case.each("memory", all=every):
            right = got in (case.wanted, CLAP) or case.is_prefix(got, MEMORY)
            case.want(right, f"request {k} refused, all after it: {every}", got)


def beside(case):
    """Beside workers: the run does all that it should, however many of them are left, or ends with 1 or 50 after a prefix of it."""
    for every in 0, 1:
        for k, got in case.each("memory", all=every):
            right = got in (case.wanted, CLAP) or case.is_prefix(got, MEMORY) or case.is_prefix(got, PLACE)
            case.want(right, f"request {k} refused beside workers, all after it: {every}", got)


def reads(case):
    """The run ends with 63 after the answers to the whole lines before; what isn't loaded is told only if it was read whole."""
    for k, got in case.each("read", 0, files=int(not case.text)):
        answers = sum(end <= k for end in case.answered)
        wanted = (b"".join(case.wanted[0].splitlines(True)[:answers]), READ, 1)
        if case.wanted[2] == 1 and k >= case.head:
            wanted = case.wanted
        case.want(got == wanted, f"no more than {k} bytes read", got)


def writes(case):
    """The run ends with 64 after exactly the bytes that went out."""
    for zero in 0, 1:
        for k, got in case.each("write", 0, zero=zero):
            case.want(got == (case.wanted[0][:k], WRITE, 1), f"no more than {k} bytes written, with {zero}", got)


def saves(case):
    """All is answered, the run ends with 64, and the file stays as it was. A file of a line that can't be written is refused."""
    for zero in 0, 1:
        for k, got in case.each("write", 0, zero=zero, files=1):
            right = case.is_alike(got[0]) and got[1:] == (WRITE, 1)
            case.want(right, f"no more than {k} bytes saved, with {zero}", got)


def names(case):
    """A file that the system doesn't keep, or doesn't give its name, is told, and what was there stays. That it doesn't keep the folder
    is no fault: the file is in its place. A file of a line is refused."""
    for way in "sync", "rename":
        for k in range(1, 10):
            got, left, reached = case.run(**{way: k})
            if got == case.wanted:
                right = left == case.written
            elif case.is_alike(got[0]) and got[1:] == (b"", 0):
                right = case.without_filed(left) == case.without_filed(case.written)
            else:
                right = reached and got == (case.wanted[0], WRITE, 1) and case.without_filed(left) == case.files
            if not right:
                raise Wrong(case, f"{way} {k}", got, left)
            if not reached:
                break
        case.want(1 < k < 10, f"{way} is reached {k - 1} times", got)


def cuts(case):
    """A script that ends after any of its bytes is answered as if its last line had its line end."""
    for k in range(case.head, len(case.text)):
        got = case.run(case.text[:k])[0]
        whole = b"".join(case.wanted[0].splitlines(True)[:sum(end <= k for end in case.answered)])
        case.want(got == case.run(case.text[:k] + b"\n")[0] and got[0].startswith(whole), f"it ends after {k} bytes", got)


def calls(case):
    """One byte a call, and a call that is interrupted, change nothing."""
    got, left, _ = case.run(single=1)
    if left != case.written:
        raise Wrong(case, "a byte a call", got, left)
    case.want(got == case.wanted, "a byte a call", got)
    for k, got in case.each("interrupt"):
        case.want(got == case.wanted, f"call {k} interrupted", got)


def serves(case):
    """Of two sessions at one desk each is answered whole, or ends with 1 or 50 after a prefix of its answers, or no session runs at all. What
    is saved is the network with the event of the one that posts, or without it; after a fault it may stay as it was."""
    saved = {case.resaved(case.written["kept"]), case.resaved(case.files["network"])}
    for every in 0, 1:
        k, reached = 1, True
        while reached:
            got, left, reached = case.run(memory=k, all=every)
            told = [left.get(name, b"") for name in OUTPUTS]
            if got == case.wanted:
                right = told == [case.written[name] for name in OUTPUTS]
            elif got == CLAP:
                right = left == case.files
            else:
                right = reached and got[0] == b"" and got[2] == 1 and set(got[1].splitlines()) <= ENDED
                right = right and all(case.written[name].startswith(text) for name, text in zip(OUTPUTS, told))
            stays = got[2] != 0 and left["kept"] == case.files["kept"]
            if not (right and (stays or case.resaved(left["kept"]) in saved)):
                raise Wrong(case, f"request {k} refused, all after it: {every}", got, left)
            k += 1


def again(case):
    """Whatever request is refused: the refused call is repeated, and answers as if it had been made once."""
    case.want(case.wanted[0].count(b": right\n") == case.wanted[0].count(b"\n") and case.wanted[1:] == (b"", 0), "nothing broken", case.wanted)
    k, reached = 1, True
    while reached:
        got, _, reached = case.run(memory=k)
        case.want(got == case.wanted, f"request {k} refused", got)
        k += 1


def plain(case):
    """A command line that can't be read is told so by `clap`, with 2, and a word that isn't UTF-8 in a line of its own."""
    got = case.wanted
    case.want(got == UNREAD if b"\xff" in case.words else got[2] == 2 and got[1].startswith(b"error: "), "nothing broken", got)


def case_of(example, form):
    """The case of a worked example: its network and script through one pipe, or from files, or saved."""
    network, script = example.network.encode("latin-1"), example.script().encode("latin-1")
    large = len(network) + len(script) > 5000
    head = len(network) + (3 if form == "run" else 0)
    ends, at = [], head if form != "save" else 0
    for _, line, answer in example.lines:
        at += len(line) + 1
        if answer is not None:
            ends.extend([at] * len(answer.split("\n")))
    name = f"{example.place}, {form}"
    if form == "run":
        return Case(name, ["run", "-"], network + b"%%\n" + script, None, head, ends, large)
    if form == "play":
        return Case(name, ["play", "network", "script"], b"", {"network": network, "script": script}, head + 1, ends, large)
    return Case(name, ["run", "network", "--save", "kept"], script, {"network": network, "kept": b"before\n"}, 0, ends, large)


def desks():
    """Two sessions at one desk, one that posts and one that may only ask, alone and beside workers. No answer depends on which of them is first."""
    seats = "".join(f'[[seat]]\nname = "{name}"\nin = "{name}.in"\nout = "{name}.out"\nposts = {posts}\n' for name, posts in (("feed", "true"), ("tool", "false")))
    with open(os.path.join(HERE, "..", "mated-pair.toml"), "rb") as it:
        files = {"network": it.read(), "seats": seats.encode(), "kept": b"before\n"}
    files["feed.in"] = b"post 1 1 fail 3 0\nsync\nstatus 2-1-1 2-1-2\n"
    files["tool.in"] = b"fail 4 0\nnothing\nchanges\n"
    words = ["serve", "network", "seats", "--save", "kept"]
    yield Case("two sessions", [*words, "--workers", "0"], files=files), (serves, calls)
    yield Case("two sessions beside workers", [*words, "--workers", "2"], files=files), (serves,)


def cases(short, caller):
    """Each case, with the ways in which it is broken."""
    yield Case("library_calls", [], program=caller), (again,)
    every_word = examples_of(os.path.join(HERE, "every-word.txt"))[0]
    for form, ways in ("run", (memory, reads, writes, cuts, calls)), ("play", (memory, reads, calls)), ("save", (memory, reads, saves, names, calls)):
        yield case_of(every_word, form), ways
    example = examples_of(os.path.join(HERE, "messages.txt"))[0]
    script = "".join(line + "\n" for _, line, _ in synced(example.lines))
    yield Case("beside workers", ["run", "-", "--workers", "2"], f"{example.network}%%\n{script}".encode("latin-1")), (beside,)
    same = case_of(example, "run")
    yield same, (cuts,)
    yield Case("as JSON", [*same.words, "--json"], same.text, None, same.head, same.answered), (memory, reads, writes, calls)
    yield case_of(examples_of(os.path.join(HERE, "what-if.txt"))[1], "run"), (reads, cuts)
    yield from desks()
    network = {"network": every_word.network.encode()}
    yield Case("check", ["check", "network"], files=network, head=len(network["network"]) + 1), (memory, reads, writes, calls)
    for words in (["--help"], ["run", "--help"]):
        yield Case(" ".join(words), words), (memory, calls)
    for words in ([], ["fly"], ["run", "network", "--fast"]):
        yield Case(" ".join(words) or "no word", words), (plain, memory, calls)
    yield Case("a word that isn't UTF-8", [b"\xff"]), (plain, memory, calls)
    for name in sorted(os.listdir(HERE)):
        if not name.endswith(".txt") or name in ("every-word.txt", "command-lines.txt"):
            continue
        found = [example for example in examples_of(os.path.join(HERE, name)) if example.head is None]
        for example in found[::8] if short and name == "faults.txt" else found[:1] if short else found:
            ways = (memory, reads, calls) if example.status else (memory, reads, writes, calls)
            if not short or len(example.network) + len(example.script()) < 1000:
                yield case_of(example, "run"), ways


def failure_of(case, way):
    """What went wrong with a case in one way of breaking, if anything."""
    try:
        way(case)
    except (Wrong, subprocess.TimeoutExpired) as wrong:
        return f"{way.__name__}: {wrong}"


def main():
    short, program, caller = sys.argv[1:-2] == ["--short"], os.path.abspath(sys.argv[-2]), os.path.abspath(sys.argv[-1])
    with tempfile.TemporaryDirectory() as folder:
        Case.program, Case.library = program, os.path.join(folder, "refuse.so")
        source = os.path.join(os.path.dirname(os.path.abspath(__file__)), "refuse.c")
        subprocess.run(["cc", "-O2", "-Wall", "-shared", "-fPIC", "-o", Case.library, source], check=True)
        tried = [(case, way) for case, ways in cases(short, caller) for way in ways]
        with ThreadPoolExecutor(2) as pool:
            failures = [text for text in pool.map(lambda pair: failure_of(*pair), tried) if text]
    for text in failures:
        print(text)
    print(f"{Case.runs} runs")
    print(f"{len(tried)} cases, {len(failures)} failed")
    return 1 if failures else 0


if __name__ == "__main__":
    sys.exit(main())
