#!/usr/bin/env python3
"""serving.py PROGRAM: wants that many sessions at one desk are told one history, and that none of them gets in another's way.

Each case is a function whose name says what is wanted. The last line is 'N passed, M failed'.

serving.py --soak SECONDS PROGRAM: sixteen sessions over FIFOs at one desk for so long, of which twelve post and four only ask, and tells what
became of them. It fails unless each accepted event was told once, under its number, and the saved network is that of these events in the
order of their numbers."""
import json
import os
import random
import subprocess
import sys
import tempfile
import threading
import time

HERE = os.path.join(os.path.dirname(os.path.abspath(__file__)), "..", "examples")
NETWORK = os.path.abspath(os.path.join(HERE, "mated-pair.toml"))
# its links, each a set and a code
LINKS = ["1 0", "1 1", "2 0", "2 1", "3 0", "3 1", "4 0", "5 0", "6 0"]
CHANGES = ["fail", "restore", "inhibit", "uninhibit", "block", "unblock"]
PROGRAM = ""
SEEDS = 50


class Failure(Exception):
    """What isn't as it should be."""


def want(holds, what):
    if not holds:
        raise Failure(what)


def write(folder, name, text):
    with open(os.path.join(folder, name), "w", encoding="utf-8") as it:
        it.write(text)


def read(folder, name):
    with open(os.path.join(folder, name), encoding="utf-8") as it:
        return it.read()


def seats_text(entries):
    """The text of SEATS: an entry is its keys and values, strings in quotes, others as they are."""
    lines = []
    for entry in entries:
        lines.append("[[seat]]")
        for key, value in entry.items():
            lines.append(f"{key} = " + (f'"{value}"' if isinstance(value, str) else str(value).lower()))
    return "\n".join(lines) + "\n"


def serve(folder, entries, *more, **how):
    """Standard error and status of a run of these seats."""
    write(folder, "seats.toml", seats_text(entries))
    ran = subprocess.run([PROGRAM, "serve", NETWORK, "seats.toml", *more], capture_output=True, text=True, timeout=120, cwd=folder, **how)
    return ran.stderr, ran.returncode


def start(folder, entries, *more):
    """A run of these seats that goes on."""
    write(folder, "seats.toml", seats_text(entries))
    return subprocess.Popen([PROGRAM, "serve", NETWORK, "seats.toml", *more], stdout=subprocess.PIPE, stderr=subprocess.PIPE, text=True, cwd=folder)


def saved_in_line(folder, events):
    """The text that a run of these events in line saves. A `sync` now and then leaves room for those that follow."""
    script = "".join(f"{event}\nsync\n" if at % 10_000 == 0 else f"{event}\n" for at, event in enumerate(events, 1))
    subprocess.run([PROGRAM, "run", NETWORK, "--save", "in_line"], input=script, capture_output=True, text=True, timeout=600, cwd=folder, check=True)
    return read(folder, "in_line")


# ---- one history

def events_by_number(folder, count):
    """All events that transcripts of so many seats tell as taken, by their numbers; each number is told once, and a seat's rise."""
    events = {}
    for at in range(count):
        last = 0
        answers = read(folder, f"{at}.out").splitlines()
        lines = [it for it in read(folder, f"{at}.in").splitlines() if it]
        want(len(answers) == len(lines), f"seat {at}: {len(answers)} answers to {len(lines)} lines")
        for line, answer in zip(lines, answers):
            if not answer.startswith("taken "):
                continue
            number = int(answer.split()[1])
            want(number > last, f"seat {at}: {number} after {last}")
            want(number not in events, f"seat {at}: {number} was told twice")
            last = number
            words = line.split()
            events[number] = " ".join(words[3:] if words[0] == "post" else words)
    want(sorted(events) == list(range(1, len(events) + 1)), f"the numbers are not those from 1 to {len(events)}")
    return [events[number] for number in sorted(events)]


def script_of(chance, at, lines):
    """A script of a seat: posts of its own collector, or plain events, and questions."""
    told = []
    seq = 0
    for _ in range(lines):
        what = chance.random()
        event = f"{chance.choice(CHANGES)} {chance.choice(LINKS)}"
        if chance.random() < 0.3:
            event += " " + chance.choice("ab")
        if what < 0.1:
            told.append(chance.choice(["version", "sync", "status 2-1-1 2-1-2", "trace 2-1-1 2-1-2 3", "audit"]))
        elif at % 2 == 0:
            # a refused event doesn't use up its number, so the next line may be a gap: that is refused, and tells the number
            seq += 1
            told.append(f"post {at} {seq} {event}")
        else:
            told.append(event)
    return "".join(f"{line}\n" for line in told)


def one_list_explains_all_transcripts(folder):
    for seed in range(SEEDS):
        chance = random.Random(seed)
        for at in range(8):
            write(folder, f"{at}.in", script_of(chance, at, 500))
        entries = [{"name": f"s{at}", "in": f"{at}.in", "out": f"{at}.out", "collector": 100 + at} for at in range(8)]
        want(serve(folder, entries, "--workers", "4", "--save", "kept") == ("", 0), f"seed {seed}: the run")
        events = events_by_number(folder, 8)
        want(len(events) > 400, f"seed {seed}: only {len(events)} events were taken")
        want(read(folder, "kept") == saved_in_line(folder, events), f"seed {seed}: the saved network isn't that of the events in the order of their numbers")


def four_collectors_and_a_fifth(folder):
    """Four collectors post 1,000 changes each; then a fifth posts one more, and a reader sees it."""
    for at in range(4):
        write(folder, f"{at}.in", "".join(f"post {at} {seq} {'fail' if seq % 2 else 'restore'} 3 0\n" for seq in range(1, 1001)))
    entries = [{"name": f"c{at}", "in": f"{at}.in", "out": f"{at}.out"} for at in range(4)]
    os.mkfifo(os.path.join(folder, "last.in"))
    entries.append({"name": "last", "in": "last.in", "out": "last.out", "reopen": False})
    running = start(folder, entries, "--workers", "2")
    with open(os.path.join(folder, "last.in"), "w", encoding="utf-8") as last:
        for _ in range(400):
            if all(os.path.exists(os.path.join(folder, f"{at}.out")) and read(folder, f"{at}.out").count("\n") == 1000 for at in range(4)):
                break
            time.sleep(0.05)
        last.write("version\npost 4 1 fail 4 0\nsync\nversion\npost 0 1000 restore 3 0\n")
    errors = running.communicate(timeout=60)[1]
    want((errors, running.returncode) == ("", 0), f"the run: {errors}")
    answers = read(folder, "last.out").splitlines()
    want(answers[0].endswith("accepted 4000") and answers[1:4] == ["taken 4001", "synced 4001", "version 4001 accepted 4001"], f"the fifth: {answers}")
    want(answers[4].startswith("again "), f"collector 0's last post again: {answers[4]}")


# ---- none waits for another

def two_sessions_wait_for_each_other(folder):
    """Each line of one session is written only after the other's answer is there, so one after the other they would stand still."""
    for name in ("a.in", "a.out", "b.in", "b.out"):
        os.mkfifo(os.path.join(folder, name))
    entries = [{"name": name, "in": f"{name}.in", "out": f"{name}.out", "reopen": False, "collector": at} for at, name in enumerate("ab")]
    running = start(folder, entries)
    timer = threading.Timer(60, running.kill)
    timer.start()
    with open(os.path.join(folder, "a.in"), "w", encoding="utf-8") as a, open(os.path.join(folder, "b.in"), "w", encoding="utf-8") as b:
        told = {}
        for turn in range(10):
            for name, lines in (("a", a), ("b", b)):
                lines.write(f"{'fail' if turn % 2 == 0 else 'restore'} {'3 0' if name == 'a' else '4 0'}\n")
                lines.flush()
                if name not in told:
                    told[name] = open(os.path.join(folder, f"{name}.out"), encoding="utf-8")
                told[name].readline()
    for it in told.values():
        it.close()
    running.communicate(timeout=60)
    timer.cancel()
    want(running.returncode == 0, f"the status is {running.returncode}")


# ---- faults of one session

def a_full_output_ends_its_own_session(folder):
    write(folder, "a.in", "fail 3 0\nversion\n")
    write(folder, "b.in", "fail 4 0\nsync\n")
    entries = [{"name": "full", "in": "a.in", "out": "/dev/full"}, {"name": "other", "in": "b.in", "out": "b.out", "collector": 1}]
    want(serve(folder, entries, "--save", "kept") == ("route_desk: full: 64 Write\n", 1), "standard error and status")
    answers = read(folder, "b.out").splitlines()
    want(answers[0] in ("taken 1", "taken 2") and answers[1].startswith("synced "), f"the other session: {answers}")
    # whoever was first, both events are in the network
    want(read(folder, "kept") == saved_in_line(folder, ["fail 3 0", "fail 4 0"]), "what is saved")


def an_input_that_breaks_within_a_line(folder):
    os.mkfifo(os.path.join(folder, "feed.in"))
    running = start(folder, [{"name": "feed", "in": "feed.in", "out": "feed.out"}])
    def feed(text):
        with open(os.path.join(folder, "feed.in"), "w", encoding="utf-8") as it:
            it.write(text)
    feed("post 1 1 fail 3 0\npost 1 2 rest")
    for _ in range(200):
        if read(folder, "feed.out") == "taken 1\n":
            break
        time.sleep(0.05)
    feed("post 1 1 fail 3 0\npost 1 2 restore 3 0\n")
    for _ in range(200):
        if read(folder, "feed.out").count("\n") == 3:
            break
        time.sleep(0.05)
    running.terminate()
    errors = running.communicate(timeout=60)[1]
    want(read(folder, "feed.out") == "taken 1\nagain 1\ntaken 2\n", f"answers: {read(folder, 'feed.out')}")
    want(errors == "route_desk: feed: dropped 13 bytes of a line that was cut off\n", f"standard error: {errors}")


def who_may_only_ask_posts_nothing(folder):
    write(folder, "a.in", "fail 3 0\npost 1 1 fail 3 0\nversion\n")
    entries = [{"name": "tool", "in": "a.in", "out": "a.out", "posts": False}]
    want(serve(folder, entries, "--save", "kept") == ("", 0), "the run")
    want(read(folder, "a.out") == "refused 62 BadLine\nrefused 62 BadLine\nversion 0 accepted 0\n", f"answers: {read(folder, 'a.out')}")
    want(read(folder, "kept") == saved_in_line(folder, []), "what is saved")


def the_client_of_the_examples_posts_each_event_once(folder):
    for name in ("a.in", "a.out"):
        os.mkfifo(os.path.join(folder, name))
    running = start(folder, [{"name": "a", "in": "a.in", "out": "a.out", "answers": "json"}])
    def client(events):
        ran = subprocess.run([sys.executable, os.path.join(HERE, "client.py"), "a.in", "a.out", "7"], input=events, capture_output=True, text=True, timeout=60, cwd=folder)
        return [json.loads(line) for line in ran.stdout.splitlines()]
    first, second = client("fail 3 0\nfail 9 9\nrestore 3 0\n"), client("fail 4 0\n")
    running.terminate()
    running.communicate(timeout=60)
    want(first == [{"word": "taken", "number": 1}, {"refused": 17, "name": "NoSet"}, {"word": "taken", "number": 2}], f"its first events: {first}")
    # it asks for the collector's last number, so it goes on where it left off
    want(second == [{"word": "taken", "number": 3}], f"the next one: {second}")


CASES = [
    one_list_explains_all_transcripts,
    four_collectors_and_a_fifth,
    two_sessions_wait_for_each_other,
    a_full_output_ends_its_own_session,
    an_input_that_breaks_within_a_line,
    who_may_only_ask_posts_nothing,
    the_client_of_the_examples_posts_each_event_once,
]


# ---- the soak

def memory_of(running):
    """The memory of a program that runs, in kilobytes."""
    with open(f"/proc/{running.pid}/status", encoding="utf-8") as lines:
        return next(int(it.split()[1]) for it in lines if it.startswith("VmRSS"))


def soak_seat(folder, at, until, events):
    """Sends fifty lines of a seat at once, reads their answers, and goes on so until that moment. Gives how many lines were answered, and notes each
    event that was taken under its number, which has to be new."""
    chance, sent = random.Random(at), 0
    answers = None
    with open(os.path.join(folder, f"{at}.in"), "w", encoding="utf-8") as lines:
        while time.monotonic() < until:
            script = soak_script(chance, asks=at % 4 == 3)
            lines.write("".join(f"{line}\n" for line in script))
            lines.flush()
            # the desk opens an output at its first answer
            answers = answers or open(os.path.join(folder, f"{at}.out"), encoding="utf-8")
            for line in script:
                answer = answers.readline()
                want(answer.endswith("\n"), f"seat {at}: the answer to {line} is missing")
                if answer.startswith("taken "):
                    number = int(answer.split()[1])
                    want(number not in events, f"seat {at}: {number} was told twice")
                    events[number] = line
            sent += len(script)
            time.sleep(0.02)
    answers.close()
    return sent


def soak_script(chance, asks):
    """Fifty lines: questions, or events with a `sync` at their end."""
    if asks:
        return [chance.choice(["version", "status 2-1-1 2-1-2", "trace 2-1-1 2-1-2 3", "audit", "sync"]) for _ in range(50)]
    return [f"{chance.choice(CHANGES)} {chance.choice(LINKS)}" for _ in range(49)] + ["sync"]


def soak(folder, seconds):
    for at in range(16):
        os.mkfifo(os.path.join(folder, f"{at}.in"))
        os.mkfifo(os.path.join(folder, f"{at}.out"))
    entries = [{"name": f"s{at}", "in": f"{at}.in", "out": f"{at}.out", "reopen": False, "collector": at, "posts": at % 4 != 3} for at in range(16)]
    running = start(folder, entries, "--workers", "4", "--save", "kept")
    events, sent, faults = {}, {}, []

    def seat(at, until):
        try:
            sent[at] = soak_seat(folder, at, until, events)
        except (Failure, OSError) as why:
            faults.append(str(why))

    until = time.monotonic() + seconds
    seats = [threading.Thread(target=seat, args=(at, until)) for at in range(16)]
    for it in seats:
        it.start()
    first = None
    while any(it.is_alive() for it in seats):
        time.sleep(1)
        if running.poll() is None:
            last = memory_of(running)
            first = first or last
    errors = running.communicate(timeout=60)[1]
    want(not faults, "; ".join(faults))
    want((errors, running.returncode) == ("", 0), f"the run: {errors}")
    want(sorted(events) == list(range(1, len(events) + 1)), f"the numbers are not those from 1 to {len(events)}")
    want(read(folder, "kept") == saved_in_line(folder, [events[number] for number in sorted(events)]), "the saved network")
    print(f"{sum(sent.values())} lines of 16 sessions answered in {seconds} s, {len(events)} events, each told once; memory {first} kB after a second, {last} at the end; load {os.getloadavg()[0]:.1f}")


def main():
    global PROGRAM
    PROGRAM = os.path.abspath(sys.argv[-1])
    if sys.argv[1] == "--soak":
        with tempfile.TemporaryDirectory() as folder:
            soak(folder, int(sys.argv[2]))
        return
    passed = failed = 0
    for case in CASES:
        with tempfile.TemporaryDirectory() as folder:
            try:
                case(folder)
                passed += 1
            except (Failure, subprocess.TimeoutExpired, OSError) as why:
                failed += 1
                print(f"serving {case.__name__}: {why}")
    print(f"{passed} passed, {failed} failed")
    sys.exit(failed != 0)


if __name__ == "__main__":
    main()
