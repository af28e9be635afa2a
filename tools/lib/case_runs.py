"""Runs the program's commands over the scenarios of cases."""
import re
import subprocess
import threading
from dataclasses import dataclass

from scenario import command

WORKERS = re.compile(rb"^workers = \d+", re.MULTILINE)
CAPACITY = re.compile(rb"^capacity = \d+", re.MULTILINE)
# Over links: numbers of workers, and of places in a link.
WAYS = (1, 1), (1, 64), (3, 1), (3, 64)
LONGEST = 120  # seconds of a run


@dataclass
class Ended:
    """What a command wrote, and its status."""

    status: int
    output: str
    errors: str

    @property
    def text(self):
        """The output, then each line of errors after `! `, and a status other than 0 after `= `."""
        errors = "".join(f"! {it}\n" for it in self.errors.splitlines())
        return self.output + errors + (f"= {self.status}\n" if self.status else "")


class Runner:
    """Runs commands by their names, and makes plain scenarios of descriptions."""

    def __init__(self, command_of):
        self.command_of = command_of
        self.scenarios = {}
        self.has_hung = False
        self.lock = threading.Lock()

    def run(self, name, options, scenario):
        if self.has_hung:
            raise ValueError("it was not run, since another run did not end")
        words = [*self.command_of(name), *options]
        try:
            done = subprocess.run(words, input=scenario, capture_output=True, timeout=LONGEST, check=False)
        except subprocess.TimeoutExpired as why:
            self.has_hung = True
            raise ValueError(f"{name} {' '.join(options)} did not end within {LONGEST} seconds") from why
        return Ended(done.returncode, done.stdout.decode(errors="replace"), done.stderr.decode(errors="replace"))

    def scenario(self, file):
        """The plain scenario of a file."""
        with self.lock:
            if file not in self.scenarios:
                self.scenarios[file] = plain_scenario(file)
            return self.scenarios[file]

    def reports(self, file):
        """What gossip_sim prints without links, and over links in each of the ways."""
        scenario = self.scenario(file)
        yield self.run("gossip_sim", ("--direct",), scenario).text
        for workers, capacity in WAYS:
            text = CAPACITY.sub(b"capacity = %d" % capacity, WORKERS.sub(b"workers = %d" % workers, scenario, 1), 1)
            yield self.run("gossip_sim", (), text).text


def plain_scenario(file):
    """The bytes of a scenario; those of a description are expanded."""
    with open(file, "rb") as it:
        data = it.read()
    options = command.Options()
    options.file = file
    try:
        return command.scenario_in(options, data)
    except SystemExit as why:
        raise ValueError("the description is refused") from why
