"""Files of code (.rt): the contracts of functions, and the types that definitions speak of. For tools/reading_list and
tools/contracts."""
import re

from antt_files import NAME, NUMBER, BUILT_IN, Definition, Unreadable, Walk, imports_of, tokens_of

CAPITAL = re.compile(r"\b[A-Z]\w*")
# What comes next in a signature: a clause with its label, a parameter for clauses, a type in brackets, the body, or the end.
CLAUSE = re.compile(r"\b(requires|ensures|ghost)\b([^{]*)|\[[^\[\]]*\]|[{;]")


class Code:
    """A file of code: its lines, and what it imports for clauses (`ghost use`) and for code (`use`)."""

    def __init__(self, path, text):
        self.path, self.text, self.lines = path, text, text.split("\n")
        self.clauses_import, self.code_imports = {}, {}
        for found in re.finditer(r"^ *ghost use [^;]*;", text, re.MULTILINE):
            for local, module, name in imports_of(found.group(0).strip()):
                self.clauses_import[local] = module, name
        for found in re.finditer(r"^(?:pub )?use ([^;]*);", text, re.MULTILINE):
            self._read_use(re.sub(r"\s+", " ", found.group(1)))

    def _read_use(self, words):
        path, _, names = words.partition("{")
        if not names:
            path, _, names = words.rpartition("::")
        for word in filter(None, (part.strip() for part in names.rstrip("} ").split(","))):
            name, _, local = word.partition(" as ")
            self.code_imports[local or name] = path.split("::")[0], name.split("::")[-1]

    def line_of(self, pattern, what):
        """The number, from 0, of the one line that the pattern matches."""
        found = [number for number, line in enumerate(self.lines) if re.match(pattern, line)]
        if len(found) != 1:
            raise Unreadable(f"{self.path}: {what} is there {len(found)} times, not once")
        return found[0]

    def above(self, number):
        """Where the comment and the attributes above a line begin."""
        while number and re.match(r"\s*(///|//|#\[)", self.lines[number - 1]):
            number -= 1
        return number

    def end_of(self, number):
        """The line that ends the item which begins at a line."""
        indent = re.match(r" *", self.lines[number]).group(0)
        if self.lines[number].rstrip().endswith((";", "}")):
            return number
        while not re.match(rf"{indent}\S", self.lines[number + 1]) or self.lines[number + 1].strip() in ("where", "{"):
            number += 1
        return number + 1


def has_type(code, name):
    return re.search(rf"^ *pub (?:struct|enum|trait|type) {name}\b", code.text, re.MULTILINE)


def type_of(code, name):
    """A type as clauses see it, with the names that it uses. Of a type that has a view, that is the type of the view; of a
    trait, its ghost members."""
    start = code.line_of(rf" *pub (struct|enum|trait|type) {name}\b", name)
    end = code.end_of(start)
    above = [line for line in code.lines[code.above(start):start] if not line.strip().startswith("#[")]
    head, inside = code.lines[start], code.lines[start + 1:end + 1]
    model = re.search(rf"^impl(?:<[^\n]*>)? Model for {name}\b.*?^\}}", code.text, re.MULTILINE | re.DOTALL)
    if " trait " in head:
        inside, used = members_of(code, inside)
        inside.append("}")
        used |= set(CAPITAL.findall(head))
    elif model:
        value = re.search(r"ghost Value = \{(.*?)\};", model.group(0), re.DOTALL).group(1).strip()
        used = set(CAPITAL.findall(f"{value} {head}"))
        value = as_declared(code, value)
        head, inside = f"{head.split(' {')[0].rstrip(';')} // in clauses: {value}", []
    else:
        used = types_in(head, inside)
    definition = Definition(code.path, name, code.above(start) + 1, [*above, head, *inside])
    return definition, used - {name, "Self"}


def types_in(head, inside):
    """The types of the fields of a struct or an enum: the names of variants and of fields are none."""
    bodies = [re.sub(r"\w+<[^>]*>|^\s*pub (struct|enum|type) \w+", "", head)]
    for line in inside:
        line = re.sub(r"//.*|#\[.*", "", line)
        bodies.append(re.sub(r"^\s*(pub |pub\(crate\) )?\w+ *:|^\s*[A-Z]\w*", "", line))
    return set(CAPITAL.findall("\n".join(bodies)))


def as_declared(code, text):
    """The text with each type under its own name, where clauses import it under another."""
    return CAPITAL.sub(lambda found: code.clauses_import.get(found.group(), (None, found.group()))[1], text)


def members_of(code, inside):
    """The ghost members of a trait, with the comments above them, and the names that they use."""
    kept, used, comments, own = [], set(), [], set()
    for line in inside:
        found = re.match(r"\s*ghost (?!use)(\w+)(?:[: =]+)\{?(.*?)\}?;", line)
        if found:
            kept += [*comments, as_declared(code, line)]
            own.add(found.group(1))
            used |= {word for word in tokens_of([found.group(2)]) if NAME.match(word)}
        comments = [*comments, line] if re.match(r"\s*//", line) else []
    return kept, used - BUILT_IN - own


class Contract:
    """A function's signature with its clauses. The function is that at a line, or the public one of that name. `types` has
    the types and traits that the signature names, and `ensures` the labels of promises: `ensures` where there is none."""

    def __init__(self, code, name, start=None):
        self.code, self.name, self.place = code, name, (code.path, f"fn {name}")
        self.start = code.line_of(rf" *pub fn {name}\b", f"pub fn {name}") if start is None else start
        text = "\n".join(code.lines[self.start:])
        place, self.clauses, self.ensures = text.index("("), [], []
        while True:
            found = CLAUSE.search(text, place)
            if found.group(0) in "{;":
                break
            kind, label = found.groups()
            place = closing(text, found.end()) if kind else found.end()
            if kind in ("requires", "ensures"):
                self.clauses.append(text[found.end() + 1:place])
            if kind == "ensures":
                self.ensures.append(label.strip() or kind)
        self.is_empty = text.startswith("{}", found.start())
        head = text[:found.start()].rstrip()
        signature = re.split(r"\b(?:requires|ensures)\b", head)[0]
        self.types = set(CAPITAL.findall(signature))
        self.comment = code.lines[code.above(self.start):self.start]
        self.text = [*self.comment, *head.split("\n")]
        self.bound = {"result", "self", *re.findall(r"(\w+)\s*:", signature)}
        # (a parameter of a type stands for the traits that it has)
        self.bounds = dict(re.findall(r"\b([A-Z])\s*:\s*([A-Z][\w +<>]*)", text[:found.start()]))

    def names_used(self, is_constant):
        walk = Walk(is_constant)
        for clause in self.clauses:
            walk.walk(tokens_of(clause.split("\n")), self.bound - set(self.bounds))
        used = set()
        for word in walk.used:
            if word.split(".")[0] in self.bounds:
                used |= set(CAPITAL.findall(self.bounds[word.split(".")[0]]))
            elif not NUMBER.match(word):
                used.add(word)
        return used


def closing(text, place):
    """Where the bracket closes that opens at a place."""
    depth = 0
    for end in range(place, len(text)):
        depth += (text[end] == "{") - (text[end] == "}")
        if depth == 0:
            return end
    raise Unreadable("a clause does not end")
