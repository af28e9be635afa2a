"""Cuts a scenario at a round: the run ends there, and the lines of the script that come later are left out. The text stays
as it is otherwise, with its comments.

usage: until.py ROUND|TIME <scenario >cut

TIME has a unit, such as "150 s", and is a whole number of rounds.

Status: 0; 1 `edit refused: ` and why; 3 `input failed` or `output failed`.
"""
import re
import sys

sys.dont_write_bytecode = True
from scenario.fields import milliseconds_of

# What --until takes.
WHEN = re.compile(r"[1-9][0-9]{0,5}|[0-9]{1,9}(?:\.[0-9]{1,9})? ?(?:ms|s|min|h)")
TAKES = '--until takes a round, from 1 to 999999, or a time, such as "150 s"'

# What may not be cut within: comments and strings. Then what opens and closes, what ends a line, and all else.
TOKEN = re.compile(
    r"""(?P<comment>\#[^\n]*)
    | (?P<string>\"{3}(?:\\.|[^\\])*?\"{3,5} | '{3}.*?'{3,5} | "(?:\\.|[^"\\\n])*" | '[^'\n]*')
    | (?P<open>[\[{]) | (?P<close>[\]}]) | (?P<comma>,) | (?P<equals>=) | (?P<line>\n) | (?P<space>[ \t\r]+)
    | (?P<word>[^\s\#"'\[\]{},=]+|.)""",
    re.DOTALL | re.VERBOSE,
)


class Uncut(Exception):
    """Why a scenario can't be cut."""


class Statement:
    """A header, or a key with its value, that stands outside of all others. It goes from `start` to `end`, and a key to
    `equals`. `elements` has the places of what stands in a list, each with the comma after it."""

    def __init__(self, start):
        self.start, self.end, self.equals = start, start, None
        self.elements, self.is_in_element = [], False

    def take(self, kind, start, end, depth):
        """Takes a token, which stands `depth` brackets deep."""
        self.end = end
        if kind == "equals" and depth == 0 and self.equals is None:
            self.equals = start
        elif self.equals is None or depth == 0:
            return
        elif depth == 1 and kind == "comma":
            self.reach(end)
            self.is_in_element = False
        elif not self.is_in_element:
            self.elements.append((start, end))
            self.is_in_element = True
        else:
            self.reach(end)

    def reach(self, end):
        """Has the last element end there."""
        self.elements[-1:] = [(it[0], end) for it in self.elements[-1:]]


def statements(text):
    """The statements of a scenario, in order."""
    found, now, depth = [], None, 0
    for it in TOKEN.finditer(text):
        kind = it.lastgroup
        if kind == "line" and depth == 0:
            now = None
        if kind in ("line", "space", "comment"):
            continue
        if now is None:
            now = Statement(it.start())
            found.append(now)
        # (a bracket that closes the list is in none of its elements)
        depth -= kind == "close"
        now.take(kind, it.start(), it.end(), depth)
        depth += kind == "open"
    return found


def is_later(line, last):
    at = line.get("at") if isinstance(line, dict) else None
    return isinstance(at, int) and not isinstance(at, bool) and at > last


def line_end(text, at):
    end = text.find("\n", at)
    return len(text) if end < 0 else end + 1


def pieces_of(text, scenario, last, load):
    """What of the text is replaced, and by what: places, each with its new text."""
    section, in_do, number = [], False, -1
    lines = scenario.get("do", [])
    for it in statements(text):
        if it.equals is None:
            section = list(load(text[it.start : it.end] + "\n"))
            is_line = text[it.start : it.end].startswith("[[") and section == ["do"]
            number += is_line
            in_do = section == ["do"]
        if in_do and 0 <= number < len(lines) and is_later(lines[number], last):
            yield text.rfind("\n", 0, it.start) + 1, line_end(text, it.end), ""
        elif not section and it.equals is not None:
            key = list(load(text[it.start : it.equals] + "= 0"))
            if key == ["rounds"]:
                yield it.equals, it.end, f"= {last}"
            elif key == ["do"] and len(it.elements) == len(lines):
                yield from ((*place, "") for place, line in zip(it.elements, lines) if is_later(line, last))


def round_of(when, scenario):
    """The round of what --until was given; None where a time is given, and the scenario has no length of a round."""
    if when.isdigit():
        return int(when)
    step, milliseconds = scenario.get("round_ms"), milliseconds_of(when)
    if not isinstance(step, int) or isinstance(step, bool) or step < 1:
        return None
    if not milliseconds:
        raise Uncut(f"--until {when} leaves no round, and the first that it takes is {step} ms")
    if milliseconds % step:
        near = milliseconds // step * step
        raise Uncut(f"--until {when} is no multiple of round_ms, which is {step}; near it is {near or step} ms")
    return milliseconds // step


def cut(data, when):
    """The bytes of a scenario, cut at a round or a time, a text. One that ends sooner stays as it is."""
    try:
        import tomllib
    except ImportError:
        raise Uncut("--until needs Python 3.11 or later") from None
    try:
        text = data.decode("utf-8-sig")
        scenario = tomllib.loads(text)
    except (UnicodeDecodeError, tomllib.TOMLDecodeError, RecursionError) as why:
        raise Uncut(f"--until can't read the scenario as TOML 1.0: {why}") from None
    rounds, lines, last = scenario.get("rounds"), scenario.get("do"), round_of(when, scenario)
    if last is None or not isinstance(rounds, int) or isinstance(rounds, bool) or rounds <= last:
        return data
    parts, at = [], 0
    for start, end, new in pieces_of(text, scenario, last, tomllib.loads):
        parts += [text[at:start], new]
        at = end
    changed = "".join(parts) + text[at:]
    wanted = {**scenario, "rounds": last}
    if isinstance(lines, list):
        wanted["do"] = [it for it in lines if not is_later(it, last)]
    check(changed, wanted, tomllib)
    return changed.encode()


def check(text, wanted, tomllib):
    """The cut text must say what it is to say."""
    try:
        found = tomllib.loads(text)
    except tomllib.TOMLDecodeError:
        found = None
    if found is not None and not wanted.get("do", True):
        found.setdefault("do", [])
    if found != wanted:
        raise Uncut("--until can't cut this scenario: write its lines as [[do]] tables, or as one list do = [..]")


def main():
    try:
        data = sys.stdin.buffer.read()
    except OSError:
        return 3, "input failed"
    try:
        data = cut(data, sys.argv[1])
    except Uncut as why:
        return 1, f"edit refused: {why}"
    try:
        sys.stdout.buffer.write(data)
        sys.stdout.buffer.flush()
    except OSError:
        return 3, "output failed"
    return 0, ""


if __name__ == "__main__":
    status, said = main()
    if said:
        print(said, file=sys.stderr)
    sys.exit(status)
