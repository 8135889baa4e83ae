#!/usr/bin/env python3
"""terminal.py PROGRAM: runs the program at a terminal (a pseudo-terminal), in line and beside workers, and wants the first line and
the prompts on standard error, and just the answers on standard output; and nothing on standard error if standard input is a pipe. The
last line is 'N passed, M failed'."""
import os
import pty
import subprocess
import sys

LINES = ["status 2-1-1 2-1-2", "", "fail 2 0", "sync", "why 2-1-1 2-1-2"]
ANSWERS = """status allowed class 1 by 2-10-1
taken 1
synced 1
why prohibited ; class 1 2-10-1 far prohibited
"""
GREETING = "points 3, sets 2, plans 1; help tells the words\n"


def at_terminal(command, end=b"\x04"):
    """Sends each line once the program has prompted for it, then an end of file, or another end; what it wrote to output and to errors."""
    master, terminal = pty.openpty()
    run = subprocess.Popen(command, stdin=terminal, stdout=subprocess.PIPE, stderr=subprocess.PIPE)
    os.close(terminal)
    errors = b""
    for line in [line.encode() + b"\n" for line in LINES] + [end]:
        while not errors.endswith(b"> "):
            byte = os.read(run.stderr.fileno(), 1)
            if not byte:
                return "", errors.decode() + "(ended early)"
            errors += byte
        os.write(master, line)
        errors += os.read(run.stderr.fileno(), 1)
    output, rest = run.communicate(timeout=60)
    os.close(master)
    return output.decode(), (errors + rest).decode()


def at_terminal_to_quit(command):
    """The same with the word `quit` at the end."""
    return at_terminal(command, b"quit\n")


def at_pipe(command):
    """The same over a pipe."""
    run = subprocess.run(command, input="".join(line + "\n" for line in LINES), capture_output=True, text=True, timeout=60)
    return run.stdout, run.stderr


def main():
    try:
        os.close(pty.openpty()[0])
    except OSError as error:
        print(f"no terminal is tried: this machine gives none ({error})")
        print("0 passed, 0 failed")
        return
    network = os.path.join(os.path.dirname(os.path.abspath(__file__)), "..", "examples", "small.toml")
    tried = failed = 0
    for workers in ([], ["--workers", "2"]):
        command = [sys.argv[1], "run", network] + workers
        prompts = GREETING + "> " * (len(LINES) + 1)
        for way, answers, wanted in ((at_terminal, ANSWERS, prompts + "\n"), (at_terminal_to_quit, ANSWERS + "quit\n", prompts), (at_pipe, ANSWERS, "")):
            output, errors = way(command)
            tried += 1
            if (output, errors) != (answers, wanted):
                print(f"{way.__name__} {' '.join(command)}: {output!r}, {errors!r}")
                failed += 1
    print(f"{tried - failed} passed, {failed} failed")
    sys.exit(failed != 0)


if __name__ == "__main__":
    main()
