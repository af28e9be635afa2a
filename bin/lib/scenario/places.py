"""In which line of a TOML text each key stands. Only that is read here: `tomllib` reads the values."""
import bisect
import re

SPACE = re.compile(r"(?:[ \t\r\n]|#[^\n]*)*")
BLANK = re.compile(r"[ \t]*")
BARE = re.compile(r"[^\s=.\[\]{}\"',#]+")
STRING = re.compile(
    r'"""(?:\\.|(?!""").)*"{3,5}' r"|'''(?:(?!''').)*'{3,5}" r'|"(?:\\.|[^"\\\n])*"' r"|'[^'\n]*'", re.DOTALL
)
SCALAR = re.compile(r"[^,\]}\n#]+")


class Unreadable(Exception):
    """The text is no TOML."""


class Places:
    """The lines of a text's keys, by their paths."""

    def __init__(self, text):
        self.text, self.at, self.lines, self.counts = text, 0, {}, {}
        self.breaks = [it.start() for it in re.finditer("\n", text)]
        self.read_all()

    def line_of(self, path):
        """The line of a path, or of the nearest table above it that has one; None where nothing has."""
        for length in range(len(path), 0, -1):
            if path[:length] in self.lines:
                return self.lines[path[:length]]
        return None

    def names(self):
        """The keys of the top table."""
        return {path[0] for path in self.lines}

    def note(self, path):
        for length in range(1, len(path) + 1):
            self.lines.setdefault(path[:length], bisect.bisect_left(self.breaks, self.at) + 1)

    def take(self, pattern):
        found = pattern.match(self.text, self.at)
        if not found:
            raise Unreadable
        self.at = found.end()
        return found.group()

    def is_next(self, word):
        return self.text.startswith(word, self.at)

    def skip(self, word):
        if not self.is_next(word):
            raise Unreadable
        self.at += len(word)

    def key(self):
        """The parts of a key with dots."""
        parts = []
        while True:
            self.take(BLANK)
            is_quoted = self.is_next('"') or self.is_next("'")
            part = self.quoted() if is_quoted else self.take(BARE)
            parts.append(part)
            self.take(BLANK)
            if not self.is_next("."):
                return tuple(parts)
            self.at += 1

    def quoted(self):
        """A part of a key between quotes, as it is written."""
        return self.take(STRING)[1:-1]

    def read_all(self):
        prefix = ()
        while True:
            self.take(SPACE)
            if self.at == len(self.text):
                return
            if self.is_next("["):
                prefix = self.header()
            else:
                self.pair(prefix)

    def header(self):
        """The path of a table's header."""
        begun = self.at
        is_list = self.is_next("[[")
        self.at += 2 if is_list else 1
        path = ()
        for part in self.key():
            path += (part,)
            if path in self.counts:
                path += (self.counts[path] - 1,)
        if is_list:
            path = path[:-1] if isinstance(path[-1], int) else path
            self.counts[path] = self.counts.get(path, 0) + 1
            path += (self.counts[path] - 1,)
        self.skip("]]" if is_list else "]")
        ended, self.at = self.at, begun
        self.note(path)
        self.at = ended
        return path

    def pair(self, prefix):
        """A key, and what it holds."""
        begun = self.at
        path = prefix + self.key()
        ended, self.at = self.at, begun
        self.note(path)
        self.at = ended
        self.skip("=")
        self.take(BLANK)
        self.value(path)

    def value(self, path):
        if self.is_next("["):
            self.members("]", lambda count: self.element(path + (count,)))
        elif self.is_next("{"):
            self.members("}", lambda _: self.pair(path))
        elif self.is_next('"') or self.is_next("'"):
            self.take(STRING)
        else:
            self.take(SCALAR)

    def element(self, path):
        self.note(path)
        self.value(path)

    def members(self, end, read):
        """What stands between brackets or braces."""
        self.at += 1
        count = 0
        while True:
            self.take(SPACE)
            if self.is_next(end):
                self.at += 1
                return
            read(count)
            count += 1
            self.take(SPACE)
            if self.is_next(","):
                self.at += 1
            elif not self.is_next(end):
                raise Unreadable
