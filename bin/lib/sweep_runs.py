"""The runs of a sweep: which settings there are, what a run gives, and the rows that are kept. For bin/sweep."""
import csv
import functools
import hashlib
import io
import itertools
import json
import math
import os
import re
import subprocess
import threading
from collections import namedtuple
from decimal import Decimal

from until import Uncut, cut

# The columns that say how a run ended, and all that are no figures.
HOW_ENDED = "status", "message"
OF_RUNS = *HOW_ENDED, "proved"


# The sheets of gossip_stats that give columns, and its row of the whole run. Of the second sheet a row says how many pairs
# of a message and a subscriber missed each other.
SHEETS = "messages", "within", "parts", "peers"
WHOLE = "(all)"
# The columns that these sheets give, except for the last one.
OF_MESSAGES = "messages pairs reached missed first_round median_round round_90 round_99 last_round".split()

# A scenario in which nothing happens: its figures show which columns there are.
NOTHING = b"""
round_ms = 100
rounds = 1
workers = 1
capacity = 1
seed = 1
topic = [{ name = "t" }]
peer = [{ name = "a" }]
"""

# The column of the seeds with which a description is expanded.
NETWORK = "network"
SCENARIO = os.path.join(os.path.dirname(os.path.dirname(os.path.realpath(__file__))), "scenario")

# The statuses of runs that would end so again: with figures, or refused.
KEPT_STATUSES = 0, 1
TOKEN = re.compile(r""" "(?:\\.|[^"\\])*" | '[^']*' | . """, re.DOTALL | re.VERBOSE)

# How a run ended: its cells by column, and whether they were there before.
Row = namedtuple("Row", "cells was_kept")
End = namedtuple("End", "status output message")


class Stopped(Exception):
    """The sweep ends, and this run with it."""


def line_of(cells):
    text = io.StringIO()
    csv.writer(text, lineterminator="\n").writerow(cells)
    return text.getvalue()


def between_commas(text):
    """The parts of a text between those commas that stand in no string, list or table."""
    parts, depth = [""], 0
    for token in TOKEN.findall(text):
        depth += (token in "[{") - (token in "]}")
        if token == "," and depth == 0:
            parts.append("")
        else:
            parts[-1] += token
    return [it.strip() for it in parts]


def size(values):
    """How many values there are. (Python's own `len` refuses a range of very many.)"""
    return values.stop - values.start if isinstance(values, range) else len(values)


class Settings:
    """The keys that a sweep sets, each with its values: texts, and ranges of whole numbers."""

    def __init__(self, refuse):
        self.refuse, self.values = refuse, {}

    def take(self, text):
        """Takes KEY=VALUES."""
        key, equals, values = (it.strip() for it in text.partition("="))
        if not equals or not key:
            self.refuse(f"--set takes KEY=VALUES, not {text}")
        if key in self.values:
            self.refuse(f"{key} is set twice")
        self.values[key] = [self.several(key, it) for it in between_commas(values)]

    def several(self, key, text):
        """A value, or those of a range."""
        ends = re.fullmatch(r"(-?[0-9]{1,19})\.\.(-?[0-9]{1,19})", text)
        if not text:
            self.refuse(f"{key} has an empty value")
        if not ends:
            return [text]
        first, last = int(ends[1]), int(ends[2])
        if first > last:
            self.refuse(f"{key} goes from {first} to {last}, which is less")
        return range(first, last + 1)

    def count(self, keys):
        """How many combinations of values these keys have."""
        return math.prod(sum(map(size, self.values[it])) for it in keys)

    def repeated(self, key):
        """A value that stands twice for a key. None where all are different."""
        seen = set()
        for it in map(str, itertools.chain(*self.values[key])):
            if it in seen:
                return it
            seen.add(it)
        return None

    def combinations(self):
        """Each combination, as a tuple of KEY=VALUE, where the last changes first."""
        keys = list(self.values)
        for values in itertools.product(*(list(itertools.chain(*self.values[it])) for it in keys)):
            yield tuple(f"{key}={value}" for key, value in zip(keys, values))


def number(text):
    """A count, or a score, which has six digits after the point."""
    return Decimal(text) if "." in text else int(text)


def figures_of(text, peer):
    """The figures of a run, or with those of one of its peers, by column. None where it has no row of that peer."""
    sheets = json.loads(text, parse_float=str)
    messages, within, parts, peers = (sheets[it] for it in SHEETS)
    row = next((it for it in peers if it["peer"] == (peer or WHOLE)), None)
    if row is None:
        return None
    missed, pairs = next(it["pairs"] for it in within if it["outcome"] == "missed"), parts[0]["pairs"]
    counts = {"messages": len(messages), "pairs": pairs, "reached": pairs - missed, "missed": missed} | parts[0]
    figures = {it: counts.get(it) for it in OF_MESSAGES} | {column: it for column, it in row.items() if column != "peer"}
    for pair in sheets.get("groups", ()):
        start = f"{pair['from']}_to_{pair['to']}"
        figures |= {f"{start}_{column}": it for column, it in pair.items() if column not in ("from", "to")}
    return {column: "" if it is None else it for column, it in figures.items()}


class Folder:
    """The files that have the rows of runs, each with its line of columns."""

    def __init__(self, path):
        os.makedirs(path, exist_ok=True)
        self.path = path

    def file_of(self, name):
        return os.path.join(self.path, f"{name}.csv")

    def has(self, name):
        return os.path.exists(self.file_of(name))

    def cells_of(self, name, header):
        """The cells of the row that is there, if a whole one with these columns is."""
        try:
            with open(self.file_of(name), encoding="utf-8", newline="") as it:
                rows = list(csv.reader(it))
        except (OSError, UnicodeDecodeError, csv.Error):
            return None
        is_whole = len(rows) == 2 and rows[0] == header and len(rows[1]) == len(header)
        return rows[1] if is_whole else None

    def keep(self, name, text):
        """Writes a row beside its place, and then puts it there at once."""
        beside = os.path.join(self.path, f".{name}.{os.getpid()}.{threading.get_ident()}")
        try:
            with open(beside, "w", encoding="utf-8", newline="") as it:
                it.write(text)
            os.replace(beside, self.file_of(name))
        except OSError:
            if os.path.exists(beside):
                os.remove(beside)
            raise


def hash_of(data):
    return hashlib.sha256(data).hexdigest()


def hash_in(file):
    with open(file, "rb") as it:
        return hash_of(it.read())


class Sweep:
    """Runs a scenario with settings, on as many threads as call it."""

    def __init__(self, commands, is_proved, scenario, options, folder):
        self.commands, self.scenario, self.peer, self.folder = commands, scenario, options.peer, folder
        self.proved, self.until = "yes" if is_proved else "no", options.until
        self.settings, self.columns, self.header = list(options.settings.values), (), []
        self.large = options.large
        self.figure_words = [*self.large, "--json", *options.figure_options]
        self.left_out = ", or --of leaves it out" if "--of" in options.figure_options else ""
        self.lock, self.live, self.is_stopped = threading.Lock(), set(), False
        self.file, self.scenario_of = options.file, functools.lru_cache(16)(self.made_anew)
        self.source = []
        if folder:
            programs = sorted({program for program, *_ in commands.values()})
            self.source = [hash_of(scenario), *map(hash_in, programs), options.peer, self.until, self.proved]
            self.source += [*options.large, *options.figure_options]
        if folder and NETWORK in options.settings.values:
            self.source.append(hash_in(options.file))

    def learn_columns(self):
        """Asks gossip_stats which columns it has. Gives whether it answers."""
        end = self.call("gossip_stats", self.figure_words, NOTHING)
        figures = figures_of(end.output.decode(errors="replace"), None) if end.status == 0 else {}
        self.columns = (*OF_RUNS, *(figures or OF_MESSAGES))
        self.header = [*self.settings, *self.columns]
        return bool(figures)

    def name_of(self, settings):
        """The name of a row's file: another one wherever the row might be another one."""
        return hash_of(json.dumps([self.source, settings]).encode())[:32]

    def is_there(self, settings):
        return self.folder.has(self.name_of(settings))

    def row_of(self, settings):
        """The row of a run, which is made where no earlier one kept it."""
        kept = self.folder.cells_of(self.name_of(settings), self.header) if self.folder else None
        if kept is not None:
            return Row(dict(zip(self.header, kept)), True)
        cells = [it.partition("=")[2] for it in settings] + self.cells_of(self.ended(settings))
        row = Row(dict(zip(self.header, map(str, cells))), False)
        if self.folder and int(row.cells["status"]) in KEPT_STATUSES:
            self.folder.keep(self.name_of(settings), line_of(self.header) + line_of(cells))
        return row

    def cells_of(self, end):
        """The cells of a run after its settings."""
        figures = None
        if end.status == 0:
            figures = figures_of(end.output, self.peer)
            end = end if figures else End(1, "", f"the scenario has no peer {self.peer}{self.left_out}")
        cells = {"status": end.status, "message": end.message, "proved": self.proved, **(figures or {})}
        return [cells.get(it, "") for it in self.columns]

    def ended(self, settings):
        """How a run ends: gossip_edit gives the scenario that gossip_stats runs, except for what --until leaves out."""
        network = [it.partition("=")[2] for it in settings if it.startswith(f"{NETWORK}=")]
        settings = [it for it in settings if not it.startswith(f"{NETWORK}=")]
        end = self.scenario_of(network[0]) if network else End(0, self.scenario, "")
        if settings and end.status == 0:
            end = self.call("gossip_edit", settings, end.output)
        if end.status == 0 and self.until is not None:
            end = self.cut(end.output)
        if end.status == 0:
            scenario = end.output
            end = self.explained(self.call("gossip_stats", self.figure_words, scenario), scenario)
        return end._replace(output=end.output.decode(errors="replace"))

    def made_anew(self, seed):
        """The scenario that a description gives by another seed."""
        return self.call("scenario", [*self.large, "--seed", seed, "--", self.file], b"")

    def explained(self, end, scenario):
        """A run that was refused only by a number gets the words of gossip_check, which have the key."""
        if end.status != 1 or not re.fullmatch("scenario refused: [0-9]+", end.message):
            return end
        words = self.call("gossip_check", self.large, scenario).output.decode(errors="replace").split("\n")[1:]
        return end._replace(message="; ".join([end.message, *words]).strip("; "))

    def cut(self, scenario):
        try:
            return End(0, cut(scenario, self.until), "")
        except Uncut as why:
            return End(1, b"", f"edit refused: {why}")

    def call(self, name, words, data):
        """Runs a command, in a session of its own: so a key that interrupts the sweep does not end it for itself."""
        words = [*self.commands.get(name, [SCENARIO]), *words]
        with self.lock:
            if self.is_stopped:
                raise Stopped
            try:
                pipes = {it: subprocess.PIPE for it in ("stdin", "stdout", "stderr")}
                child = subprocess.Popen(words, **pipes, start_new_session=True)
            except (OSError, ValueError) as why:
                return End(2, b"", f"{name} can't be started: {why}")
            self.live.add(child)
        try:
            output, errors = child.communicate(data)
        except BaseException:
            child.kill()
            child.wait()
            raise
        with self.lock:
            self.live.remove(child)
            if self.is_stopped:
                raise Stopped
        said = "; ".join(errors.decode(errors="replace").split("\n")).strip("; ")
        if child.returncode < 0:
            return End(128 - child.returncode, b"", f"{name} was ended by signal {-child.returncode}")
        return End(child.returncode, output, said)

    def end_all(self):
        """Ends what still runs."""
        with self.lock:
            self.is_stopped = True
            for it in self.live:
                it.kill()
