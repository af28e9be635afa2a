"""What people read in files: the paragraphs and cells of pages, and the comments and strings of code. For tools/check_words."""
import io
import re
import subprocess
import tokenize

# The comments and the strings of a language, and what is neither, although it has a quote in it.
SHELL = re.compile(
    r"""(?P<comment>(?<![^\s;(])\#[^\n]*)|\\.|'(?P<string>[^']*)'|"(?P<double>(?:\\.|[^"\\])*)"
    |(?<!<)<<-?\ ?(?P<q>['"]?)(?P<end>[A-Za-z]+)(?P=q)[^\n]*\n(?P<here>.*?\n)\s*(?P=end)\n""",
    re.DOTALL | re.VERBOSE,
)
AWK = re.compile(r'(?P<comment>(?<![^\s;{(])#[^\n]*)|"(?P<string>(?:\\.|[^"\\\n])*)"')
SCRIPT = re.compile(
    r"""(?P<comment>//[^\n]*|/\*.*?\*/)|'(?P<string>(?:\\.|[^'\\\n])*)'|"(?P<double>(?:\\.|[^"\\\n])*)"
    |`(?P<here>(?:\\.|[^`\\])*)`""",
    re.DOTALL | re.VERBOSE,
)
RATTLE = re.compile(r"""(?P<comment>//[^\n]*)|'(?:\\.|[^'\\\n])'|"(?:\\.|[^"\\])*\"""")
ANTT = re.compile(r'(?P<comment>(?<![^\s])--[^\n]*)|"(?:\\.|[^"\\\n])*"')
LANGUAGES = {"sh": SHELL, "awk": AWK, "js": SCRIPT, "css": SCRIPT, "c": SCRIPT, "rt": RATTLE, "antt": ANTT}
MARKER = re.compile(r"^[ \t]*(?:#+|///?!?|--|/?\*+)[ \t]?|\*/$", re.MULTILINE)


class Text:
    """A text of a file, and the line on which it begins. It is a `paragraph`, a `cell` or a `heading` of a page, a `comment`
    or a `string`."""

    def __init__(self, path, line, kind, text):
        self.path, self.line, self.kind, self.text = path, line, kind, text

    def place(self, offset):
        return f"{self.path}:{self.line + self.text.count(chr(10), 0, offset)}"


def of_pages(top, paths):
    """The parts of pages, as tools/lib/pages.awk gives them."""
    words = ["awk", "-f", f"{top}/tools/lib/pages.awk", *paths]
    for row in subprocess.run(words, cwd=top, check=True, capture_output=True, text=True).stdout.splitlines():
        place, kind, _, text = row.split("\t", 3)
        path, line = place.rsplit(":", 1)
        yield Text(path, int(line), kind, text)


def of_code(top, path):
    """The comments and the strings of a file of code, and all of a page in HTML. Other files, such as data, have none."""
    with open(f"{top}/{path}", encoding="utf-8") as stream:
        text = stream.read()
    language = language_of(path, text)
    if language == "html":
        pieces = [(1, "string", "", text)]
    elif language == "py":
        pieces = of_python(text)
    else:
        pieces = of_language(LANGUAGES[language], text) if language in LANGUAGES else ()
    return [Text(path, line, kind, words) for line, kind, words in joined(pieces)]


def language_of(path, text):
    """The ending of a file's name. A file without one has a first line that names its language."""
    name, _, ending = path.rsplit("/", 1)[-1].rpartition(".")
    return ending if name else "py" if "python" in text.partition("\n")[0] else "sh"


def of_python(text):
    lines = text.split("\n")
    for token in tokenize.generate_tokens(io.StringIO(text).readline):
        if token.type == tokenize.COMMENT:
            yield token.start[0], "comment", lines[token.start[0] - 1][: token.start[1]], token.string
        elif token.type == tokenize.STRING:
            prefix, _, rest = re.match(r"([A-Za-z]*)('''|\"\"\"|'|\")(.*)", token.string, re.DOTALL).groups()
            yield token.start[0], "string", "", re.sub(r"\{[^{}]*\}", "{}", rest) if "f" in prefix.lower() else rest


def of_language(pattern, text):
    for found in pattern.finditer(text):
        for kind, words in found.groupdict().items():
            if words is not None and kind not in ("q", "end"):
                start = found.start(kind)
                before = text[text.rfind("\n", 0, start) + 1 : start]
                yield text.count("\n", 0, start) + 1, "comment" if kind == "comment" else "string", before, words


def joined(pieces):
    """The pieces, where comments on lines of their own make one text, line by line, without their markers."""
    lines = None
    for line, kind, before, text in pieces:
        stands_apart = kind == "comment" and not before.strip()
        if stands_apart and lines and line == lines[0] + len(lines[1]):
            lines[1].append(text)
            continue
        if lines:
            yield lines[0], "comment", MARKER.sub("", "\n".join(lines[1]))
        lines = (line, [text]) if stands_apart else None
        if not stands_apart:
            yield line, kind, MARKER.sub("", text) if kind == "comment" else text
    if lines:
        yield lines[0], "comment", MARKER.sub("", "\n".join(lines[1]))
