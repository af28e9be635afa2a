"""The arguments of bin/sweep."""
import os
import re
import sys
from collections import namedtuple

from sweep_runs import HOW_ENDED, NETWORK, WHOLE, Settings, between_commas
from until import TAKES, WHEN

MOST_RUNS = 1_000_000
MOST_GROUPS = 16
GROUP = re.compile("([a-zA-Z0-9_-]{1,32})=.*", re.DOTALL)
Options = namedtuple(
    "Options", "settings columns large figure_options peer jobs folder until over is_table has_header is_list is_strict file"
)


def stop(status, why):
    print(f"sweep: {why}", file=sys.stderr)
    sys.exit(status)


def refuse(why):
    stop(64, f"{why}; --help says more")


class Arguments:
    """The words after a command, taken one after the other. `--help` prints a text."""

    def __init__(self, words, text):
        self.words, self.text, self.values, self.files = list(words), text, {}, []
        self.settings, self.flags, self.groups = Settings(refuse), set(), []

    def value_of(self, name, inline):
        """What stands after an option, in the same word or in the next one."""
        if inline is not None:
            return inline
        return self.words.pop(0) if self.words else refuse(f"{name} takes a value")

    def take_option(self, word):
        name, equals, inline = word.partition("=")
        if name in ("--list", "--no-header", "--proved", "--table", "--large") and not equals:
            self.flags.add(name)
        elif name in ("--set", "--seeds", "--networks"):
            text = self.value_of(name, inline if equals else None)
            self.settings.take({"--seeds": "seed=", "--networks": f"{NETWORK}="}.get(name, "") + text)
        elif name == "--group":
            self.groups.append(self.value_of(name, inline if equals else None))
        elif name in ("--columns", "--by", "--of", "--peer", "--jobs", "--into", "--until", "--over"):
            if name in self.values:
                refuse(f"{name} stands there twice")
            self.values[name] = self.value_of(name, inline if equals else None)
        else:
            refuse(f"there is no option {word}")

    def take_all(self):
        while self.words:
            word = self.words.pop(0)
            if word in ("--help", "-h"):
                print(self.text)
                sys.exit(0)
            elif word == "--":
                self.files, self.words = self.files + self.words, []
            elif word.startswith("-"):
                self.take_option(word)
            else:
                self.files.append(word)
        if len(self.files) != 1:
            refuse(f"a sweep is of one scenario, not of {len(self.files)}")
        return self

    def jobs(self):
        text = self.values.get("--jobs", str(len(os.sched_getaffinity(0))))
        return int(text) if re.fullmatch("[1-9][0-9]{0,3}", text) else refuse("--jobs takes a number from 1 to 9999")

    def until(self):
        text = self.values.get("--until")
        if text is None:
            return None
        return text if WHEN.fullmatch(text) else refuse(TAKES)

    def over(self):
        """The keys over which rows are joined. None where they are not."""
        if "--over" not in self.values:
            return None
        keys = between_commas(self.values["--over"])
        for it in keys:
            if it not in self.settings.values:
                refuse(f"--over takes keys that are swept, and {it or 'an empty one'} is not")
            if keys.count(it) > 1:
                refuse(f"--over has {it} twice")
        return keys

    def columns(self):
        """Those that are asked for. None where all are."""
        return self.values["--columns"].split(",") if "--columns" in self.values else None

    def figure_options(self):
        """The options of gossip_stats."""
        if "--peer" in self.values and "--by" in self.values:
            refuse("--peer NAME has the messages that NAME published, so there is no place for --by")
        self.check_groups()
        given = (("--by", self.publishers()), ("--of", self.values.get("--of")), *(("--group", it) for it in self.groups))
        return [word for name, value in given if value is not None for word in (name, value)]

    def publishers(self):
        """Whose messages count. Those of a peer are what it published, and those of a group's row what its members did."""
        if "--peer" not in self.values:
            return self.values.get("--by")
        peer = self.values["--peer"]
        groups = dict(it.split("=", 1) for it in self.groups)
        return None if peer == WHOLE else groups.get(peer[1:-1], peer) if peer[:1] + peer[-1:] == "()" else peer

    def check_groups(self):
        """Groups as gossip_stats takes them. Columns of two pairs of groups must have different names, too."""
        found = [(it, GROUP.fullmatch(it)) for it in self.groups]
        for text, it in found:
            if not it:
                refuse(f"--group takes NAME=PEERS, where NAME has 1 to 32 letters, digits, _ and -, not {text}")
        names = [it[1] for _, it in found]
        for it in names:
            if names.count(it) > 1:
                refuse(f"there are two groups {it}")
            if f"({it})" == WHOLE:
                refuse(f"{it} is all peers, and no name of a group")
        if len(names) > MOST_GROUPS:
            refuse(f"there are at most {MOST_GROUPS} groups, not {len(names)}")
        pairs = [f"{one}_to_{other}" for one in names for other in names]
        for it in pairs:
            if pairs.count(it) > 1:
                refuse(f"two pairs of groups have columns {it}")

    def check_joined(self):
        """Joined rows are of different runs, and have no columns of single ones."""
        for it in self.columns() or ():
            if it in HOW_ENDED:
                refuse(f"{it} is of one run: with --over, runs and failed say how many have figures")
        for it in self.settings.values:
            value = self.settings.repeated(it)
            if value is not None:
                refuse(f"--over joins different runs, and {it} has {value} twice")

    def options(self):
        many, over = self.settings.count(self.settings.values), self.over()
        if many > MOST_RUNS:
            refuse(f"a sweep has at most {MOST_RUNS:,} runs, not {many:,}")
        if over is not None:
            self.check_joined()
        elif "--table" in self.flags:
            refuse("--table goes with --over")
        return Options(
            self.settings,
            self.columns(),
            ["--large"] if "--large" in self.flags else [],
            self.figure_options(),
            self.values.get("--peer"),
            self.jobs(),
            self.values.get("--into"),
            self.until(),
            over,
            "--table" in self.flags or os.isatty(1),
            "--no-header" not in self.flags,
            "--list" in self.flags,
            "--proved" in self.flags,
            self.files[0],
        )
