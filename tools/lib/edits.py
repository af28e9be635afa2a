"""Wrong bodies: edits of a crate that the prover must refuse. A file in its must-fail/ or mutants/ has each."""
import fnmatch
import os
import re
from dataclasses import dataclass

NAME = re.compile(r"[A-Za-z0-9_-][A-Za-z0-9_.-]*\.edit")
BAD_NAME = "an edit has a name of letters, digits, _, - and . that ends in .edit"
VISIBILITY = r"(?:pub(?:\([^)]*\))?\s+)?(?:ghost\s+)?(?:(?:const|async|unsafe)\s+)*"
ITEM = re.compile(rf"\s*{VISIBILITY}(fn|const|static|impl|enum|struct|trait|mod|type)\b\s*(\w*)")
OWNER = re.compile(r"impl(?:<[^{]*?>)?\s+(?:\w+::)*(\w+)(?:<[^{]*>)?\s*(?:\{|$|where)")


class Unfit(Exception):
    """Says why an edit does not apply."""


@dataclass(frozen=True)
class Change:
    """In a file of the crate, a new text takes the place of an old one."""

    file: str
    old: str
    new: str

    @property
    def is_import(self):
        """Whether it changes a `use` line of code, which is in no function."""
        return self.file.startswith("src/") and self.old.startswith("use ")


@dataclass(frozen=True)
class Item:
    """What a text stands in: an item of code, or a block of definitions. `line` counts from 0."""

    line: int
    kind: str
    name: str


@dataclass(frozen=True)
class Edit:
    """A wrong body of a crate, as its file has it."""

    crate: str
    folder: str
    name: str
    text: str

    @property
    def label(self):
        return f"{self.crate}/{self.name}"

    @property
    def path(self):
        return f"crates/{self.crate}/{self.folder}/{self.name}"

    @property
    def files(self):
        return {line[len("file: ") :].strip() for line in self.text.split("\n") if line.startswith("file: ")}

    @property
    def is_of_tests(self):
        return any(re.search(r"(^|/)tests(/|\.rt$)", it) for it in self.files)

    @property
    def module(self):
        """The one module of code that it changes; None where it changes something else."""
        file = next(iter(self.files)) if len(self.files) == 1 else ""
        is_module = file.startswith("src/") and file.endswith(".rt") and file != "src/lib.rt"
        return file[len("src/") : -len(".rt")].replace("/", "::") if is_module else None

    def changes(self):
        file = old = None
        for line in self.text.split("\n"):
            if line.startswith("file: "):
                file = line[len("file: ") :].strip()
                if not file.startswith(("src/", "specs/", "proofs/")) or file != os.path.normpath(file):
                    raise Unfit(f"it names no file of src/, specs/ or proofs/: {file}")
            elif line.startswith("old: "):
                old = line[len("old: ") :]
            elif line.startswith("new:"):
                new = line[len("new:") :].removeprefix(" ")
                if not file or not old:
                    raise Unfit(f"no 'file:' and 'old:' stand before this 'new:': {new}")
                yield Change(file, old, new)
                old = None


def text_in(folder, file):
    try:
        with open(f"{folder}/{file}", encoding="utf-8") as stream:
            return stream.read()
    except FileNotFoundError as error:
        raise Unfit(f"there is no file {file}") from error
    except (OSError, ValueError) as error:
        raise Unfit(f"{file} can't be read: {error}") from error


def edited(edit, folder, texts=()):
    """The new texts of the files that an edit changes. `folder` is its crate's, and `texts` may have files in its place."""
    if not NAME.fullmatch(edit.name):
        raise Unfit(BAD_NAME)
    before, after, texts = {}, {}, dict(texts)
    for it in edit.changes():
        if it.file not in after:
            before[it.file] = after[it.file] = texts[it.file] if it.file in texts else text_in(folder, it.file)
        count = after[it.file].count(it.old)
        if count != 1:
            raise Unfit(f"{it.file} has this {count} times, and not once: {it.old}")
        if it.new == it.old:
            raise Unfit(f"its 'new:' is its 'old:': {it.old}")
        after[it.file] = after[it.file].replace(it.old, it.new)
    if after == before:
        raise Unfit("it changes nothing")
    return after


def why_unfit(edit, folder):
    """Why an edit does not apply; None where it does."""
    try:
        edited(edit, folder)
    except Unfit as why:
        return str(why)
    return None


def item_at(file, lines, last):
    """The item that a line stands in; None where no item begins there or above."""
    for line in range(last, -1, -1):
        if file.endswith(".rt"):
            found = ITEM.match(lines[line])
            if found and not lines[line].lstrip().startswith("//"):
                return Item(line, *found.groups())
        elif lines[line].strip() and (line == 0 or not lines[line - 1].strip()):
            return Item(line, "block", "")
    return None


def items_of(changes, folder):
    """The file and the item in which each old text stands, where it stands in one. A text that an earlier change made is left
    out."""
    for it in changes:
        text = text_in(folder, it.file)
        if text.count(it.old) == 1:
            last = text[: text.index(it.old) + len(it.old)].count("\n")
            yield it.file, item_at(it.file, text.split("\n"), last)


def owner_at(lines, item):
    """The type whose `impl` has a function; nothing for a function of a module, and None where a trait has it."""
    if not lines[item.line].startswith(" "):
        return ""
    above = next((it for it in reversed(lines[: item.line]) if ITEM.match(it) and not it.startswith(" ")), "")
    found = OWNER.match(above)
    return found[1] if found and " for " not in above else None


def function_of(edit, folder):
    """The one function of code that an edit changes, by its module or type; None where it changes something else."""
    if not edit.module:
        return None
    lines = text_in(folder, next(iter(edit.files))).split("\n")
    items = {item for _, item in items_of((it for it in edit.changes() if not it.is_import), folder)}
    item = items.pop() if len(items) == 1 else None
    owner = owner_at(lines, item) if item and item.kind == "fn" else None
    return None if owner is None else f"{owner or edit.module}::{item.name}"


def text_of(path):
    """What the file of an edit says; nothing where it is no file."""
    try:
        with open(path, encoding="utf-8", errors="replace") as stream:
            return stream.read()
    except OSError:
        return ""


def edits_in(top, crate, folders, pattern):
    """The edits of a crate with this pattern in their names."""
    for folder in folders:
        place = f"{top}/crates/{crate}/{folder}"
        for name in sorted(os.listdir(place)) if os.path.isdir(place) else ():
            if name.startswith(".") or name.endswith(".md"):
                continue
            if fnmatch.fnmatchcase(name.removesuffix(".edit"), f"*{pattern}*"):
                yield Edit(crate, folder, name, text_of(f"{place}/{name}"))
