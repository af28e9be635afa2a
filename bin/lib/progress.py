"""Runs a program, and shows how far its run is on one line of the terminal, which is written again and again.

usage: progress.py PROGRAM ARGUMENT..

Standard error is a terminal. A line `round R of N, D deliveries` that the program writes there is shown as its last line, with
the time that is left, from one second after the start. All else is passed on as it is. Before that, and at the end, the last
line is made empty.

Status: that of the program; 128 and a signal's number where one ended it.
"""
import os
import re
import selectors
import signal
import subprocess
import sys
import time

sys.dont_write_bytecode = True

LINE = re.compile(rb"round (\d+) of (\d+), (\d+) deliveries")

# Seconds before the first line is shown, and between two lines.
FIRST, NEXT = 1.0, 0.1


def time_in_words(seconds):
    """A time that is left: in seconds below two minutes, in minutes below two hours, else in hours."""
    if seconds < 120:
        return f"{round(seconds)} s"
    return f"{round(seconds / 60)} min" if seconds < 7200 else f"{round(seconds / 3600)} h"


def words_of(number, last, deliveries, elapsed):
    """What is shown of a round, when this many seconds have passed."""
    left = elapsed / (number + 1) * (last - number)
    return f"round {number} of {last}, {deliveries} deliveries, {time_in_words(left)} left"


def write(to, text):
    """Writes a text. A standard error that fails changes nothing, and a standard output that fails ends this."""
    try:
        while text:
            text = text[os.write(to, text) :]
    except OSError:
        if to == 1:
            raise OutputFailed from None


class OutputFailed(Exception):
    """The text of the program can't be passed on."""


class Bottom:
    """The last line of the terminal."""

    def __init__(self):
        self.start = time.monotonic()
        self.shown = self.start + FIRST - NEXT
        self.width = 0
        self.is_over = False

    def show(self, numbers):
        now = time.monotonic()
        if self.is_over or now - self.shown < NEXT:
            return
        try:
            columns = os.get_terminal_size(2).columns or 80
        except OSError:
            columns = 80
        words = words_of(*numbers, now - self.start)[: max(columns - 1, 1)]
        write(2, b"\r" + words.ljust(self.width).encode())
        self.shown, self.width = now, len(words)

    def clear(self):
        if self.width:
            write(2, b"\r" + b" " * self.width + b"\r")
        self.width = 0

    def pass_on(self, to, text):
        self.clear()
        write(to, text)


def take_errors(bottom, text):
    """Shows the whole lines of this text, or passes them on, and returns the rest."""
    *lines, rest = text.split(b"\n")
    for line in lines:
        found = LINE.fullmatch(line)
        if found:
            bottom.show([int(number) for number in found.groups()])
        else:
            bottom.pass_on(2, line + b"\n")
    return rest


def follow(program, bottom):
    """Shows and passes on what the program writes, until it has closed what it writes to."""
    rest = b""
    with selectors.DefaultSelector() as ready:
        ready.register(program.stderr, selectors.EVENT_READ)
        if program.stdout:
            ready.register(program.stdout, selectors.EVENT_READ)
        while ready.get_map():
            for key, _ in ready.select():
                text = os.read(key.fd, 65536)
                if not text:
                    ready.unregister(key.fileobj)
                elif key.fileobj is program.stderr:
                    rest = take_errors(bottom, rest + text)
                else:
                    # (the run is over where there is a text about it)
                    bottom.is_over = True
                    bottom.pass_on(1, text)
    bottom.pass_on(2, rest)


def main(words):
    bottom = Bottom()
    # A text on the terminal comes only after the last line is empty.
    output = subprocess.PIPE if os.isatty(1) else None
    # (the program ends at an interrupt, and this one after it)
    with subprocess.Popen(words, stdout=output, stderr=subprocess.PIPE) as program:
        signal.signal(signal.SIGINT, signal.SIG_IGN)
        try:
            follow(program, bottom)
        except OutputFailed:
            program.kill()
            write(2, b"output failed\n")
            return 3
    status = program.returncode
    return status if status >= 0 else 128 - status


if __name__ == "__main__":
    sys.exit(main(sys.argv[1:]))
