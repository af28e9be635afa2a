"""What a crate gives to its users: its public functions, file by file. For tools/contracts."""
import os
import re

from antt_files import Unreadable
from rust_files import Code, Contract

MODULE = re.compile(r"(?:(pub) |pub\(\w+\) )?mod (\w+);")
EXPORT = re.compile(r"^pub use ([^;]*);", re.MULTILINE)
ITEM = re.compile(r"(?:(pub) |pub\(\w+\) )?(fn|struct|enum|trait|type|const|static) (\w+)")
METHOD = re.compile(r"    (pub )?fn (\w+)")
# (a sentence goes on where no capital follows its end)
SENTENCE = re.compile(r"(.*?[.!?])(?= +[A-Z`]|$)")


class Function:
    """A public function or method: its name, the first sentence of the comment above it, and the labels of what it ensures.
    Its kind is `law`, or `trait` of a method that a trait asks for, or says by which trait a type has the method."""

    def __init__(self, code, number, name, kind=""):
        contract = Contract(code, name, number)
        self.name, self.ensures = name, contract.ensures
        self.sentence = first_sentence(contract.comment, "///")
        self.kind = "law" if contract.is_empty and contract.ensures else kind


class Crate:
    """The files of a crate, except those of its tests. A library has the public functions that it exports. A program
    exports nothing, and has all that are called public."""

    def __init__(self, top, name):
        self.top, self.codes, self.modules, self.declared, self.exported = top, {}, {}, {}, set()
        is_program = os.path.exists(f"{top}/crates/{name}/src/main.rt")
        self.root = f"crates/{name}/src/{'main' if is_program else 'lib'}.rt"
        self._read(self.root, os.path.dirname(self.root))
        self._export(self.root, is_program)

    @property
    def sentence(self):
        return first_sentence(self.codes[self.root].lines, "//!")

    def files(self):
        """Each file that has public functions, with these as they stand in it."""
        for path, code in sorted(self.codes.items()):
            functions = list(self._functions_of(code))
            if functions:
                yield path, functions

    # ---- modules

    def _read(self, path, folder):
        with open(f"{self.top}/{path}", encoding="utf-8") as stream:
            code = self.codes[path] = Code(path, stream.read())
        items = filter(None, map(ITEM.match, code.lines))
        self.declared[path] = {item[3]: bool(item[1]) for item in items}
        self.modules[path] = {}
        for number, line in enumerate(code.lines):
            found = MODULE.match(line)
            if found and "#[cfg(test)]" not in code.lines[code.above(number):number]:
                inner = f"{folder}/{found[2]}"
                self.modules[path][found[2]] = f"{inner}.rt", bool(found[1])
                self._read(f"{inner}.rt", inner)

    def _export(self, path, with_private):
        self.exported |= {(path, name) for name, is_public in self.declared[path].items() if is_public}
        for inner, is_public in self.modules[path].values():
            if is_public or with_private:
                self._export(inner, with_private)
        self.exported |= {self._place_of(path, *words) for words in exports_of(self.codes[path])}

    # Where an item stands that a file exports of a module in it.
    def _place_of(self, path, modules, name):
        for module in modules:
            if module not in self.modules[path]:
                raise Unreadable(f"{path} exports {name} of {module}, which is no module in it")
            path = self.modules[path][module][0]
        if name in self.declared[path]:
            return path, name
        inner = [modules for modules, other in exports_of(self.codes[path]) if other == name]
        if len(inner) != 1:
            raise Unreadable(f"{path} has no {name}")
        return self._place_of(path, inner[0], name)

    # ---- functions

    def _functions_of(self, code):
        owner, kind = "", ""
        for number, line in enumerate(code.lines):
            item, method = ITEM.match(line), METHOD.match(line)
            if item and item[2] == "fn" and (code.path, item[3]) in self.exported:
                yield Function(code, number, item[3])
            elif method and owner and (method[1] or kind):
                function = Function(code, number, f"{owner}::{method[2]}", kind)
                if function.ensures or not kind.startswith("by"):
                    yield function
            if re.match(r"\w", line):
                owner, kind = self._block_of(code, line)

    # The public type or trait whose functions stand in a block that begins with this line, and their kind.
    def _block_of(self, code, line):
        item = ITEM.match(line)
        if item and item[2] == "trait" and (code.path, item[3]) in self.exported:
            return item[3], "trait"
        if not re.match(r"impl\b", line):
            return "", ""
        first, *rest = re.findall(r"[\w:]+", without_parameters(line.removeprefix("impl")))
        owner, trait = (rest[1], first) if rest[:1] == ["for"] else (first, "")
        is_hidden = self._places_of(code, trait) - self.exported
        if is_hidden or not self._places_of(code, owner) & self.exported:
            return "", ""
        return owner, f"by `{trait}`" if trait else ""

    # Where a type or a trait stands that a file calls so: nowhere, if it is of another crate.
    def _places_of(self, code, name):
        if name in self.declared[code.path]:
            return {(code.path, name)}
        if code.code_imports.get(name, ("",))[0] not in ("crate", "super", "self"):
            return set()
        places = {(path, name) for path, names in self.declared.items() if name in names}
        if len(places) != 1:
            raise Unreadable(f"{code.path}: {len(places)} files of its crate declare {name}, not one")
        return places


def exports_of(code):
    """What a file exports of modules in it: the modules that lead to an item, and the item's name."""
    for words in EXPORT.findall(code.text):
        path, _, names = re.sub(r"\s+", "", words).partition("{")
        if not names:
            path, _, names = path.rpartition("::")
        for name in filter(None, names.rstrip("}").split(",")):
            yield [module for module in path.split("::") if module], name


def without_parameters(text):
    """The text without what stands between angle brackets."""
    while "<" in text:
        shorter = re.sub(r"<[^<>]*>", "", text)
        if shorter == text:
            raise Unreadable(f"brackets are not closed in: {text}")
        text = shorter
    return text


def first_sentence(lines, mark):
    """The first sentence of a comment: of the lines with this mark, up to one that has nothing else."""
    words = []
    for line in map(str.strip, lines):
        if line == mark and words:
            break
        if line.startswith(f"{mark} "):
            words.append(line.removeprefix(mark).strip())
    text = " ".join(words)
    found = SENTENCE.match(text)
    return found[1] if found else text
