"""What definitions rest on: the closure of contracts, by imports and by names. For tools/reading_list."""
import glob
import os
import re

from antt_files import SMALL_CONSTRUCTORS, File, Unreadable, names_used
from rust_files import Code, Contract, has_type, type_of

# What Rust has without an import.
OF_RUST = set("Vec Option String Box Send Sync Copy Clone Drop Debug PartialEq Eq Some None Ok Err Result Fn FnMut".split())


class Closure:
    """The definitions that contracts rest on. `uses` has what each uses, `words` the kit's names by module, and `first` by
    what each definition was found first. `named` has, by file and by contract, what its imports bring: a local name's module
    and name there, and the key of the definition, or none where that is the kit's."""

    def __init__(self, top):
        self.top = top
        self.files, self.codes = {}, {}
        self.found, self.uses, self.first, self.words, self.named = {}, {}, {}, {}, {}

    # ---- files

    def file(self, path):
        if path not in self.files:
            with open(os.path.join(self.top, path), encoding="utf-8") as stream:
                self.files[path] = File(path, stream.read())
        return self.files[path]

    def code(self, path):
        if path not in self.codes:
            try:
                with open(os.path.join(self.top, path), encoding="utf-8") as stream:
                    self.codes[path] = Code(path, stream.read())
            except OSError as why:
                raise Unreadable(f"{path} can't be read: {why.strerror}") from why
        return self.codes[path]

    def is_ours(self, crate):
        return os.path.isdir(os.path.join(self.top, "crates", crate))

    # ---- names

    def of_module(self, module, name):
        """The keys of what an import names: of a name of the kit, none."""
        parts = module.split(".")
        if parts[0] != "Rattle" or not self.is_ours(parts[1]):
            self.words.setdefault(module, set()).add(name)
            return []
        crate, inside = parts[1], parts[3:]
        if inside[0] == "declared":
            inside = [part for part in inside[1:] if part != "TheVariants"]
            return [self.type_key(crate, inside[-1], f"crates/{crate}/src/{'/'.join(inside[:-1]) or 'lib'}.rt")]
        return [self.in_file(self.file(f"crates/{crate}/specs/{'/'.join(inside)}.antt"), name)]

    def in_file(self, file, name):
        if name in file.definitions:
            return file.path, name
        if name in file.constructors:
            return file.constructors[name].key
        if name in file.exports:
            return self.of_module(*file.imports[name])[0]
        raise Unreadable(f"{file.path} has no {name}")

    def type_key(self, crate, name, path):
        if not os.path.isfile(os.path.join(self.top, path)) or not has_type(self.code(path), name):
            paths = glob.glob(f"crates/{crate}/src/**/*.rt", root_dir=self.top, recursive=True)
            having = [other for other in sorted(paths) if has_type(self.code(other), name)]
            if len(having) != 1:
                raise Unreadable(f"{crate}: {len(having)} files have a type {name}, not one")
            path = having[0]
        return path, name

    # What a word stands for among the imports of a place: a part of an operator stands for the operator.
    def by_imports(self, place, imports, word):
        base, _, rest = word.partition(".")
        if base in imports:
            module, name = imports[base]
            if name is None and not rest:
                return []
            keys = self.of_module(module, name or rest.split(".")[0])
            self.note(place, base, module, name, keys)
            return keys
        for local, (module, name) in imports.items():
            if "◌" in local and word in local.split("◌"):
                return self.of_module(module, name)
        return None

    def note(self, place, local, module, name, keys):
        """Keeps what a local name of a file or of a contract stands for."""
        self.named.setdefault(place, {})[local] = module, name, next(iter(keys), None)

    def is_constant(self, file, token):
        if token in file.constructors:
            return True
        if token not in file.imports:
            return False
        module, name = file.imports[token]
        parts = module.split(".")
        if parts[0] == "Rattle" and self.is_ours(parts[1]) and parts[3] != "declared":
            return token in self.file(f"crates/{parts[1]}/specs/{'/'.join(parts[3:])}.antt").constructors or token[0].isupper()
        return token[0].isupper() or token in SMALL_CONSTRUCTORS

    # ---- what uses what

    def used_by_definition(self, file, definition):
        keys = set()
        for word in names_used(definition, lambda token: self.is_constant(file, token)):
            base = word.split(".")[0]
            if any(word in name.split("◌") for name in file.definitions if "◌" in name):
                keys |= {(file.path, name) for name in file.definitions if word in name.split("◌")}
            elif base in file.definitions or base in file.constructors:
                keys.add(self.in_file(file, base))
            else:
                found = self.by_imports(file.path, file.imports, word)
                if found is None:
                    raise Unreadable(f"{file.path}: {definition.name} uses {word}, which nothing defines")
                keys |= set(found)
        return keys - {definition.key}

    # What names of code stand for: types and traits of the same crate or of others, by how the code of a place imports them.
    def used_by_code(self, place, code, names):
        keys = set()
        for word in sorted(names):
            base = word.split(".")[0]
            found = self.by_imports(place, code.clauses_import, word)
            if found is not None:
                keys |= set(found)
            elif has_type(code, base):
                keys.add((code.path, base))
            elif base in code.code_imports:
                keys |= self.of_code(place, code, base)
            elif base in OF_RUST:
                self.words.setdefault("Rust, without an import", set()).add(base)
            elif not re.fullmatch("[A-Z]|Self", base):
                raise Unreadable(f"{code.path}: {word} is a name that nothing defines")
        return keys

    # What a name stands for that code imports: of a name of the kit, none.
    def of_code(self, place, code, local):
        root, name = code.code_imports[local]
        root = code.path.split("/")[1] if root in ("crate", "super", "self") else root
        if not self.is_ours(root):
            self.words.setdefault(f"{root} (Rust)", set()).add(name)
            return set()
        keys = {self.type_key(root, name, "")}
        self.note(place, local, root, name, keys)
        return keys

    def read(self, key):
        """A definition, and the keys of what it uses."""
        path, name = key
        if path.endswith(".rt"):
            definition, used = type_of(self.code(path), name)
            return definition, self.used_by_code(path, self.code(path), used)
        file = self.file(path)
        return file.definitions[name], self.used_by_definition(file, file.definitions[name])

    # ---- the closure

    def add_contract(self, crate, path, name):
        """Adds what the contract of a public function rests on, and gives the contract."""
        code = self.code(f"crates/{crate}/src/{path}")
        contract = Contract(code, name)
        known = set(code.clauses_import)
        words = contract.names_used(lambda token: token in known) | contract.types
        self.add(self.used_by_code(contract.place, code, words), contract.place)
        return contract

    def add(self, keys, of):
        waiting = [(key, of) for key in sorted(keys)]
        while waiting:
            key, of = waiting.pop(0)
            if key in self.found:
                continue
            self.first[key] = of
            self.found[key], self.uses[key] = self.read(key)
            waiting += [(other, key) for other in sorted(self.uses[key]) if other not in self.found]

    def chain_to(self, key):
        """By what a definition was found: from a contract to it."""
        chain = [key]
        while chain[-1] in self.first:
            chain.append(self.first[chain[-1]])
        return chain[::-1]
