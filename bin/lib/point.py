"""Says to which line of a scenario an answer of gossip_check points, with a hint where there is one. Or it warns of what
can be run, but does not do what it seems to. It is a script, and not proved.

usage: point.py refusal|warnings ANSWER SCENARIO INPUT ORIGIN UNTIL [CHANGE..]

ANSWER has the answer, and SCENARIO what was checked. INPUT is what the options changed into that, by each CHANGE and,
where it is not empty, by UNTIL. ORIGIN is the description from which bin/scenario made INPUT, and empty where there is none.
No line is named where it is not sure. It reads TOML 1.0, by Python 3.11 or later.
"""
import re
import sys
from decimal import Decimal

sys.dont_write_bytecode = True
if sys.version_info < (3, 11):
    print("warning: lines and warnings need Python 3.11 or later", file=sys.stderr)
    sys.exit()
import tomllib

from described import Described
from doubts import doubts
from hints import OF_TOP, in_millionths, unknown_hint
from scenario import build
from scenario.fields import whole_hint
from spots import Spots, is_at, line_in, one_line, value_at

MOST_WARNINGS, MOST_MORE = 50, 20
LONGEST_WHY = 300  # characters of what is said about another fault
LISTS = "topic", "peer", "dial", "app", "explicit", "do"
PLACE = re.compile(rf"(params|({'|'.join(LISTS)})\[([0-9]+)\])(?:\.(.*))?")
# What makes an element the same as an earlier one.
NAMES = {
    "topic": lambda it: it["name"],
    "peer": lambda it: it["name"],
    "dial": lambda it: {it["from"], it["to"]},
    "app": lambda it: (it["peer"], it["about"]),
    "explicit": lambda it: (it["peer"], it["about"]),
}


def path_of(place, is_of_top=False):
    """The path of a place as gossip_check writes it. A key of the top table may look like any place."""
    found = None if is_of_top else PLACE.fullmatch(place)
    if not found:
        return (place,)
    path = (found.group(2), int(found.group(3))) if found.group(2) else ("params",)
    return path if found.group(4) is None else (*path, found.group(4))


def place_of(path):
    """A path as gossip_check writes it."""
    return one_line("".join(f"[{it}]" if isinstance(it, int) else f".{it}" for it in path).removeprefix("."))


def parts_of(change):
    """The parts of a change's key; none where it is no key."""
    try:
        document, parts = tomllib.loads(f"{change.split('=', 1)[0]} = 0"), []
    except tomllib.TOMLDecodeError:
        return []
    while isinstance(document, dict):
        ((part, document),) = document.items()
        parts.append(part)
    return parts


class Scenario:
    """What was checked, what it was before it was changed, and the changes."""

    def __init__(self, checked, given, origin, until, changes):
        self.checked = Spots(checked)
        self.is_changed = bool(until or changes)
        self.given = Spots(given) if self.is_changed else self.checked
        self.description, self.until, self.changes = Described(origin) if origin else None, until, changes

    def change_of(self, path):
        """The last change that made what is at a path, or a part of an element there; None where none did."""
        wanted, is_element = [str(it) for it in path], len(path) == 2 and isinstance(path[1], int)
        for change in reversed(self.changes):
            parts = parts_of(change)
            # (a cut gives lines other numbers)
            if not parts or (self.until and parts[0] == "do" and len(parts) > 1):
                continue
            if parts == wanted[: len(parts)] or (is_element and parts[:2] == wanted):
                return change
        return None

    def is_as_given(self, path):
        """Whether a path has the same in both, or a table in both; a line of a cut script must be the same."""
        is_moved = self.until and path[0] == "do"
        try:
            same = [value_at(it.document, path[:2] if is_moved else path) for it in (self.given, self.checked)]
        except LookupError:
            return False
        return same[0] == same[1] or (not is_moved and all(isinstance(it, dict) for it in same))

    def line_of(self, path):
        """In which line a path stands, and what stands there, such as `line 3: d = 6`; None where that is not sure."""
        if not self.is_changed or self.is_as_given(path):
            found, whose = self.given.line_at(path), ""
            if self.description:
                return self.description.line_of(path, self.given.document, found)
        else:
            found = None
        if found is None and self.is_changed:
            found, whose = self.checked.line_at(path), " of the changed scenario (bin/gossip_sim --print shows it)"
        return found and f"line {found[0]}{whose}: {found[1]}"

    def pointer(self, path):
        """The line or the change to which a path points, with its place; that of its table where the path has nothing."""
        document = self.checked.document
        if document is None:
            return None
        change = self.change_of(path)
        if change is not None:
            return f"{place_of(path)}, by the change {one_line(change)}"
        if not is_at(document, path):
            path = path[:-1]
        line = self.line_of(path) if path else None
        return line and f"{place_of(path)}, {line}"


def missing_in_top(scenario, key):
    """Where a key of the top table stands that is missing there: below a header, or nowhere."""
    spots = scenario.checked
    if spots.reader is None or scenario.is_changed:
        return
    elsewhere = [path for path in spots.reader.begins if path[-1] == key and len(path) > 1]
    header = spots.first_header()
    if header is not None:
        number, text = spots.line_at(header)
        whose = " of what bin/scenario prints" if scenario.description else ""
        yield f"{key} goes above the first header, line {number}{whose}: {text}"
    if elsewhere and header is not None:
        yield scenario.pointer(min(elsewhere, key=spots.reader.begins.get))


def earlier(scenario, path):
    """The element that an element repeats; None where that is not found."""
    name_of = NAMES.get(path[0])
    try:
        elements = scenario.checked.document[path[0]]
        names = [name_of(it) for it in elements[: path[1] + 1]]
        index = names.index(names[-1], 0, path[1])
    except (LookupError, TypeError, ValueError):
        return None
    return (path[0], index, *path[2:])


def others(document, path, words):
    """What in the scenario the words compare a path with: keys of the same table, or of the top table."""
    keys = re.findall(r"`([a-z_0-9]+)`, which is ", words)
    if path[0] == "do" and path[-1] == "at" and is_at(document, path) and isinstance(value_at(document, path), int):
        keys.append("rounds")
    for key in keys:
        other = (key,) if key in ("round_ms", "rounds") else (*path[:-1], key)
        if is_at(document, other):
            yield other


def lines_of(scenario, number, path, words):
    """The lines to which a refusal with a place points."""
    if number == 28 and len(path) == 1:
        # (the lists of the top table may stand anywhere)
        yield from missing_in_top(scenario, path[0]) if path[0] in OF_TOP else ()
        return
    yield scenario.pointer(path)
    document = scenario.checked.document
    if document is not None and number in (1, 2, 3, 4, 29):
        yield from map(scenario.pointer, others(document, path, words))
    if number == 31 and earlier(scenario, path):
        yield scenario.pointer(earlier(scenario, path))


def hint_of(scenario, number, path):
    """What else is said about a refused key; None where there is nothing."""
    if number == 27:
        return unknown_hint(path)
    document = scenario.checked.document
    if document is None or not is_at(document, path):
        return None
    value = value_at(document, path)
    if number == 29:
        found = in_millionths(path, scenario.checked.raw_at(path) or "") if isinstance(value, float) else None
        exact = Decimal(str(value)) if isinstance(value, float) else value
        return found or whole_hint(path[-1], exact).lstrip("; ") or None
    if number in (1, 2, 3, 4) and isinstance(value, int) and 0 < abs(value) < 10**6:
        found = in_millionths(path, str(value))
        return found and found.replace("millionths:", f"millionths, {value} is")
    return None


def more_faults(scenario, path):
    """What else is wrong with keys, and with the numbers of parameters. (Of a description bin/scenario has said it.)"""
    if scenario.checked.document is None or scenario.description:
        return
    document = build.read(scenario.checked.text, list)
    lists = {it: document[it] for it in LISTS if isinstance(document.get(it), list)}
    found = [it for it in build.first_faults(document, lists) if it.path != path]
    for it in found[:MOST_MORE]:
        yield f"also {scenario.pointer(it.path) or place_of(it.path)}: {one_line(it.why, LONGEST_WHY)}"
    if len(found) > MOST_MORE:
        yield f"also {len(found) - MOST_MORE} more of this kind"


def toml_lines(scenario, words):
    """The line in which the reader of TOML stops, of a scenario that is no TOML."""
    found = re.match(r"TOML parse error at line ([0-9]+), column [0-9]+\n", words)
    text = scenario.checked.text
    if found and text and not scenario.is_changed and not scenario.description:
        number = int(found.group(1))
        shown = line_in(text, number)
        yield f"line {number}: {shown}" if shown else None


def of_refusal(scenario, answer):
    """What is said in addition to an answer."""
    first, _, words = answer.partition("\n")
    found = re.fullmatch(r"([0-9]+)(?: (.+))?", first)
    if not found:
        return
    number, place = int(found.group(1)), found.group(2)
    if number == 26:
        yield from toml_lines(scenario, words)
    if number in (1, 2, 3, 4):
        broken = re.match(r"`((?:params|topic\[[0-9]+\])\.[a-z_0-9]+)` is ", words)
        place = broken and broken.group(1)
    # (of a key with control characters the first line doesn't say which it is)
    if place is None or place == "input" or "\\x" in place:
        return
    path = path_of(place, number == 27 and "` is no key of the top table" in words)
    yield from lines_of(scenario, number, path, words)
    yield hint_of(scenario, number, path)
    if number == 27 or (number == 29 and path[0] in ("params", "topic")):
        yield from more_faults(scenario, path)


def of_warnings(scenario):
    """The warnings of a scenario that can be run."""
    if scenario.checked.document is None:
        yield "warning: this is no TOML 1.0, so there are no other warnings"
        return
    found = list(doubts(scenario.checked.document))
    for path, why in found[:MOST_WARNINGS]:
        yield f"warning: {scenario.pointer(path) or place_of(path)}: {why}"
    if len(found) > MOST_WARNINGS:
        yield f"warning: there are {len(found) - MOST_WARNINGS} more warnings"


def bytes_of(file):
    with open(file, "rb") as it:
        return it.read()


def main(what, answer, checked, given, origin, until, *changes):
    scenario = Scenario(bytes_of(checked), bytes_of(given), origin, until, changes)
    if what == "refusal":
        said = of_refusal(scenario, bytes_of(answer).decode(errors="replace"))
    else:
        said = of_warnings(scenario)
    text = "".join(f"{it}\n" for it in said if it)
    sys.stdout.buffer.write(text.encode(errors="replace"))


if __name__ == "__main__":
    main(*sys.argv[1:])
