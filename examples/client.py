#!/usr/bin/env python3
"""A client of one seat of `route_desk serve`, whose `answers` are "json": a feed that posts events, each once, whatever is cut off.

    client.py IN OUT COLLECTOR < EVENTS

IN and OUT are the FIFOs of the seat, COLLECTOR the number under which the events are posted, a line each, as `fail 3 0`. It prints
the object of each answer. It needs nothing but Python."""
import json
import os
import sys
import time

TRIES = 5


class Seat:
    """Both FIFOs of a seat. They are opened for reading and writing, which doesn't wait for the desk."""

    def __init__(self, lines, answers):
        self.names = (lines, answers)
        self.open()

    def open(self):
        self.lines, self.answers = (os.open(name, os.O_RDWR) for name in self.names)
        self.held = b""

    def reopen(self):
        """After a cut: the desk drops what was left of a line once the FIFO has no writer, so it is given a second for that."""
        for it in (self.lines, self.answers):
            os.close(it)
        time.sleep(1)
        self.open()

    def ask(self, line):
        """The answer to a line, as an object. A seat is answered line by line, so the next line of OUT is the answer."""
        os.write(self.lines, line.encode() + b"\n")
        while b"\n" not in self.held:
            self.held += os.read(self.answers, 65536)
        answer, self.held = self.held.split(b"\n", 1)
        return json.loads(answer)


def post(seat, collector, number, event):
    """Posts an event under a number. If the seat is cut off it is posted again: `again` says that it had come in."""
    for _ in range(TRIES):
        try:
            return seat.ask(f"post {collector} {number} {event}")
        except OSError:
            seat.reopen()
    sys.exit("the seat can't be reached")


def main():
    seat, collector = Seat(sys.argv[1], sys.argv[2]), int(sys.argv[3])
    # a post under the number 0 changes nothing, and tells the collector's last number
    last = seat.ask(f"post {collector} 0 fail 1 0")["last"]
    for event in sys.stdin:
        answer = post(seat, collector, last + 1, event.strip())
        print(json.dumps(answer), flush=True)
        # a refused post doesn't use up its number
        if answer.get("word") in ("taken", "again"):
            last += 1


if __name__ == "__main__":
    main()
