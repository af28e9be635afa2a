"""bin/scenario: its options, what it reads and what it prints."""
import hashlib
import os
import re
import sys

from . import build, presets
from .fault import Fault, Faults, Missing, words_of
from .places import Places, Unreadable
from .plain import Limits, one_line, scenario_text

# A line by which a text may be a description. Where there is none, it is a plain scenario.
HINT = re.compile(rb"^[ \t]*(?:\[\[?[ \t]*)?[\"']?(?:%s)\b" % "|".join(build.OF_DESCRIPTIONS).encode(), re.MULTILINE)


MOST_FAULTS = 20


class Options:
    """What the command is given."""

    def __init__(self):
        self.file, self.params, self.seed = None, None, None

    def folder_of(self, source):
        """From where a file's name counts: one that the description names lies beside it."""
        is_given = source == self.params or self.file in (None, "-")
        return "" if is_given else os.path.dirname(self.file)


def name_of(options):
    """What a description is called where it is refused."""
    return "standard input" if options.file in (None, "-") else options.file


def say(why):
    print(f"scenario: {why}", file=sys.stderr)


def stop(status, why):
    say(why)
    sys.exit(status)


def refuse(why):
    stop(64, f"{why}; --help says more")


def number_in(text):
    is_seed = re.fullmatch("[0-9]{1,19}", text) and int(text) < 2**63
    return int(text) if is_seed else refuse(f"--seed takes a number from 0 to {2**63 - 1}, not {text}")


def options_in(words, usage):
    """Reads the arguments."""
    options, files, words = Options(), [], list(words)
    while words:
        word = words.pop(0)
        name, equals, inline = word.partition("=")
        if word in ("--help", "-h"):
            put(f"{usage}\n")
            sys.exit(0)
        elif name in ("--params", "--seed"):
            if not equals and not words:
                refuse(f"{name} takes a value")
            value = inline if equals else words.pop(0)
            if name == "--params":
                options.params = value
            else:
                options.seed = number_in(value)
        elif word == "--large":
            Limits.be_large()
        elif word == "--":
            files, words = files + words, []
        elif word.startswith("-") and word != "-":
            refuse(f"there is no option {word}")
        else:
            files.append(word)
    if len(files) > 1:
        refuse(f"one description at a time, not {len(files)}")
    if not files and options.params is None:
        refuse("there is no FILE")
    options.file = files[0] if files else None
    return options


def put(text):
    """Writes to standard output."""
    try:
        sys.stdout.buffer.write(text if isinstance(text, bytes) else text.encode())
        sys.stdout.buffer.flush()
    except (OSError, ValueError):
        os.dup2(os.open(os.devnull, os.O_WRONLY), 1)  # (so that Python does not try again at the end)
        stop(3, "output failed")


def bytes_of(file):
    """What a file has, or standard input."""
    if os.path.isdir(file):
        stop(66, f"{file} is a folder, not a description")
    try:
        if file == "-":
            return sys.stdin.buffer.read()
        with open(file, "rb") as it:
            return it.read()
    except FileNotFoundError:
        return stop(66, f"there is no file {file}")
    except (OSError, AttributeError):
        return stop(66, f"{file} can't be read")


def places_in(text):
    """The lines of a description's keys; None where they can't be found."""
    try:
        return Places(text)
    except (Unreadable, RecursionError):
        return None


def explain(options, places, fault):
    """Says where a description is refused, and why."""
    line = places.line_of(fault.path) if places else None
    where = words_of(fault.path)
    say(": ".join(one_line(it) for it in (name_of(options) + (f":{line}" if line else ""), where, fault.why) if it))


def explain_all(options, places, faults, is_all):
    """Says each refusal of a description, in the order of its lines."""
    for it in sorted(faults, key=lambda it: places.line_of(it.path) or 0 if places else 0)[:MOST_FAULTS]:
        explain(options, places, it)
    if len(faults) > MOST_FAULTS:
        say(f"{len(faults) - MOST_FAULTS} more are not shown")
    if not is_all:
        say(f"{name_of(options)} was not read to its end, so there may be more faults")
    sys.exit(1)


def heading(options, data):
    """What a scenario came from."""
    name = "standard input" if options.file == "-" else os.path.basename(options.file)
    given = "".join(
        f", {name} {os.path.basename(str(value))}"
        for name, value in (("--params", options.params), ("--seed", options.seed))
        if value is not None
    )
    digest = hashlib.sha256(data).hexdigest()
    return [f"bin/scenario made this of {name}{given}.", f"The SHA-256 of that file: {digest}"]


def syntax_fault(options, why):
    """Ends where a text is no TOML. The reader of TOML says the line within its words."""
    found = re.fullmatch(r"(.*) \(at line ([0-9]+), column ([0-9]+)\)", why)
    if found:
        stop(1, f"{name_of(options)}:{found.group(2)}: {one_line(found.group(1))}, in column {found.group(3)}")
    stop(1, f"{name_of(options)}: {one_line(why)}")


def text_of(options, data):
    """A description as a text."""
    if len(data) > Limits.size:
        stop(1, f"{name_of(options)}: a description has at most {Limits.size:,} bytes")
    try:
        return data.decode("utf-8-sig").replace("\r\n", "\n")
    except UnicodeDecodeError:
        return stop(1, f"{name_of(options)}: it is no UTF-8")


def scenario_in(options, data):
    """The plain scenario for a file; the file itself where it is one."""
    if not HINT.search(data) and options.params is None:
        return data
    text = text_of(options, data)
    description = build.read(text, lambda why: syntax_fault(options, why))
    if options.params is None and not set(description) & set(build.OF_DESCRIPTIONS):
        return data
    try:
        scenario, comments, _ = build.scenario_of(description, options, say)
    except Faults as it:
        return explain_all(options, places_in(text), it.faults, it.is_all)
    except Fault as fault:
        return explain_all(options, places_in(text), [fault], False)
    printed = scenario_text(scenario, comments, heading(options, data)).encode()
    if len(printed) > Limits.size:
        many = f"the scenario has {len(printed):,} bytes, and only {Limits.size:,} are read"
        stop(1, f"{name_of(options)}: {many}: shorten the script")
    return printed


def print_params(options):
    try:
        scenario, comments = presets.parameters(options.params, options, say)
    except Fault as fault:
        stop(1, fault.why)
    name = os.path.basename(options.params)
    put(scenario_text(scenario, comments, [f"bin/scenario --params {name} printed this: the end of a scenario."]))


def main(words, usage):
    options = options_in(words, usage)
    try:
        if options.file is None:
            print_params(options)
        else:
            put(scenario_in(options, bytes_of(options.file)))
    except Missing as why:
        stop(4, str(why))
    except KeyboardInterrupt:
        sys.exit(130)
