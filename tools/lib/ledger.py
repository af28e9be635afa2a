"""The ledger of wrong bodies: which edits of mutants/ were tried, on which texts, and what became of them. tools/mutants
--note writes it, and tools/status reads it."""
import fcntl
import functools
import hashlib
import os
import subprocess
from dataclasses import astuple, dataclass

from edits import text_of

PLACE = "tools/lib/ledger.txt"
HEAD = """\
# Which wrong bodies of mutants/ were tried: the last try of each. tools/mutants --note writes this file.
# Columns: the edit, a sum of the texts that it was tried on, the commit, how, and the verdict. A + after the commit says
# that crates/ differed from it.
"""
# How an edit was tried. (Before there was a ledger, docs/STATUS.md named whole crates whose edits were tried.)
BY_MODULE, BY_CRATE, AT_ONCE, BY_HAND = "module", "crate", "at-once", "by-hand"
WAYS = BY_MODULE, BY_CRATE, AT_ONCE, BY_HAND
# What became of it. (It is refused by names where a proof file names what it took away.)
REFUSED, BY_NAMES, LET_THROUGH = "refused", "by-names", "let-through"
VERDICTS = REFUSED, BY_NAMES, LET_THROUGH
COMMENTS = {".rt": "//", ".antt": "--"}


class Unreadable(Exception):
    """Says which line of the ledger is none."""


@dataclass(frozen=True)
class Note:
    """What became of an edit, and on which texts."""

    label: str
    sum: str
    commit: str
    way: str
    verdict: str


def notes_in(text):
    """The notes of a ledger's text, by the labels of their edits."""
    found = {}
    for line in text.splitlines():
        if line and not line.startswith("#"):
            words = line.split()
            if len(words) != 5 or words[3] not in WAYS or words[4] not in VERDICTS or words[0] in found:
                raise Unreadable(f"{PLACE}: this is no note, or a second one: {line}")
            found[words[0]] = Note(*words)
    return found


def notes_of(top):
    with open(f"{top}/{PLACE}", encoding="utf-8") as stream:
        return notes_in(stream.read())


def text_with(notes):
    """The text of a ledger that has these notes."""
    return HEAD + "".join(" ".join(astuple(it)) + "\n" for _, it in sorted(notes.items()))


@functools.cache
def code_of(path):
    """A file's text without the lines that only have a comment."""
    mark = COMMENTS.get(os.path.splitext(path)[1])
    lines = text_of(path).split("\n")
    return "\n".join(it for it in lines if not mark or not it.lstrip().startswith(mark))


@functools.cache
def definitions_of(folder):
    """The files of a crate's definitions."""
    places = sorted(os.walk(f"{folder}/specs"))
    return tuple(f"{place}/{name}" for place, _, names in places for name in sorted(names) if name.endswith(".antt"))


def sum_of(edit, folder):
    """A sum of an edit, of the files that it changes and of its crate's definitions. `folder` is that of the crate."""
    files = [*(f"{folder}/{it}" for it in sorted(edit.files)), *definitions_of(folder)]
    texts = [edit.text, *map(code_of, files)]
    return hashlib.sha256("\0".join(texts).encode()).hexdigest()[:16]


def stands(note, edit, folder):
    """Whether a note, if there is one, is of the texts as they are. `folder` is that of the edit's crate."""
    return note is not None and note.sum == sum_of(edit, folder)


def git(top, *words):
    ran = subprocess.run(["git", "-C", top, *words], capture_output=True, text=True, check=False)
    return ran.stdout.strip()


def commit_of(top):
    """The commit that is checked out, with a + where crates/ differs from it."""
    commit = git(top, "rev-parse", "--short=8", "HEAD") or "none"
    return commit + "+" * bool(git(top, "status", "--porcelain", "--", "crates"))


class Ledger:
    """Notes what becomes of edits that are tried in a copy of the repository. `folder_of` gives a crate's folder there."""

    def __init__(self, top, folder_of):
        self.path, self.folder_of, self.commit = f"{top}/{PLACE}", folder_of, commit_of(top)

    def note(self, edit, way, verdict):
        """Replaces the note that the edit had. Several runs may do so at a time."""
        note = Note(edit.label, sum_of(edit, self.folder_of(edit.crate)), self.commit, way, verdict)
        with open(self.path, "r+", encoding="utf-8") as stream:
            fcntl.flock(stream, fcntl.LOCK_EX)
            text = text_with({**notes_in(stream.read()), note.label: note})
            stream.seek(0)
            stream.write(text)
            stream.truncate()
