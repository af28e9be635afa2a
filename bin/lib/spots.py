"""In which line of a scenario each table, key and element stands. `tomllib` must find the same keys and the same value
there: else there is no line, since a wrong one is worse."""
import re
import tomllib
from functools import cached_property

from scenario.places import STRING, Places, Unreadable

LONGEST = 100  # characters of a line that is shown


def one_line(text, longest=LONGEST):
    """A text in one line, cut where it is long. What doesn't print stands as in the words of gossip_check."""
    shown = text if len(text) <= longest else text[:longest] + ".."
    return "".join(it if it.isprintable() else f"\\u{{{ord(it):x}}}" for it in shown)


def line_in(text, number):
    """What a line has; None where there is no such line, or where it is empty."""
    lines = text.split("\n")
    found = lines[number - 1].strip() if 0 < number <= len(lines) else ""
    return one_line(found) if found else None


class Reader(Places):
    """Notes where each path begins, and from where to where its value goes."""

    def __init__(self, text):
        self.begins, self.values = {}, {}
        super().__init__(text)

    def note(self, path):
        self.begins.setdefault(path, self.at)

    def value(self, path):
        begun = self.at
        super().value(path)
        self.values[path] = begun, self.at

    def quoted(self):
        (part,) = tomllib.loads(f"{self.take(STRING)} = 0")
        return part


def nodes(value, path=()):
    """The paths of all that a document holds."""
    inner = value.items() if isinstance(value, dict) else enumerate(value) if isinstance(value, list) else ()
    for key, it in inner:
        yield path + (key,)
        yield from nodes(it, path + (key,))


def value_at(document, path):
    """What stands at a path; a LookupError where nothing does."""
    for part in path:
        if not isinstance(document, (dict, list)) or (isinstance(document, list) and not isinstance(part, int)):
            raise KeyError(part)
        document = document[part]
    return document


def is_at(document, path):
    try:
        value_at(document, path)
    except LookupError:
        return False
    return True


class Spots:
    """A scenario: what it says, and where. Nothing stands anywhere in a text that can't be read with certainty."""

    def __init__(self, data):
        self.text, self.document = "", None
        try:
            self.text = data.decode("utf-8-sig")
            self.document = tomllib.loads(self.text)
        except (UnicodeDecodeError, tomllib.TOMLDecodeError, RecursionError):
            pass

    @cached_property
    def reader(self):
        """Where everything stands; None where that is not what tomllib finds."""
        if self.document is None:
            return None
        try:
            found = Reader(self.text)
        except (tomllib.TOMLDecodeError, RecursionError, Unreadable):
            return None
        noted = {path[:length] for path in found.begins for length in range(1, len(path) + 1)}
        return found if noted == set(nodes(self.document)) else None

    def is_right(self, path):
        """Whether the value that was found at a path is the document's."""
        if path not in self.reader.values:
            return True
        try:
            found = tomllib.loads(f"x = {self.raw_at(path)}\n")["x"]
        except tomllib.TOMLDecodeError:
            return False
        return found == value_at(self.document, path)

    def raw_at(self, path):
        """A value as it is written; None where that is not known."""
        if self.reader is None or path not in self.reader.values:
            return None
        begun, ended = self.reader.values[path]
        return self.text[begun:ended].strip()

    def line_at(self, path):
        """The number of a path's line and what it shows, of a list its first element's; None where that is not sure."""
        if self.reader is None:
            return None
        if path not in self.reader.begins:
            path = (*path, 0)
        if path not in self.reader.begins or not self.is_right(path):
            return None
        begun = self.reader.begins[path]
        return self.text.count("\n", 0, begun) + 1, one_line(self.shown_at(path))

    def shown_at(self, path):
        """What is shown of a path's line: no comment beside a value, and of a long line only what stands there."""
        begun = self.reader.begins[path]
        start, end = self.text.rfind("\n", 0, begun) + 1, f"{self.text}\n".find("\n", begun)
        ended = self.reader.values.get(path, (end, end))[1]
        if ended < end and re.fullmatch(r"\s*#.*", self.text[ended:end]):
            end = ended
        if end - start > LONGEST:
            start = begun
        return self.text[start:end].strip()

    def first_header(self):
        """The place of the first header, as one of a key; None where there is none."""
        if self.reader is None:
            return None
        headers = [path for path in self.reader.begins if path not in self.reader.values]
        return min(headers, key=self.reader.begins.get, default=None)
