"""Files of definitions (.antt): what each imports, the definitions in it, and the names that each of these uses. For
tools/reading_list."""
import re

TOKEN = re.compile(r'"(?:\\.|[^"\\])*"|[(){}\[\];,]|[^\s(){}\[\];,"]+')
NAME = re.compile(r"[^\W\d][\w'?!]*$")
NUMBER = re.compile(r"[0-9][0-9_]*$")
HEAD = re.compile(r"(?:(?:abbrev|unfoldable) )?(?:pub )?(?:(record|data) )?(\S+)(?= |$)")
IMPORT = re.compile(r"(pub |ghost )?use ([^\s{};]+?)(?:\.\{([^}]*)\}| as (\S+?))?;?$")

# What the language has without an import, and the words that an item is written with.
BUILT_IN = set("→ × = : ← | ↦ _ . ⊥ ¬ absurd tt Unit Type as elim in let record where abbrev unfoldable pub data module".split())
# (the constructors of the kit that have small letters, which no pattern binds)
SMALL_CONSTRUCTORS = {"true", "false", "zero", "suc", "pos", "negsuc", "tt", "no_members", "member"}


class Unreadable(Exception):
    """What the tool can't follow: it fails, and leaves nothing out."""


class Definition:
    """A definition with the comment above it, or a part of Rust code that definitions speak of."""

    def __init__(self, file, name, line, text):
        self.file, self.name, self.line, self.text = file, name, line, text
        self.kind, self.parts, self.constructors, self.header = "function", [], [], []

    @property
    def key(self):
        return self.file, self.name


def imports_of(line):
    """What an import brings: (local name, module, name there) for each; a module itself has None for the last."""
    found = IMPORT.match(line)
    if not found:
        raise Unreadable(f"no import is read in: {line}")
    _, module, names, alias = found.groups()
    if names is None:
        yield alias or module.rsplit(".", 1)[-1], module, None
        return
    for word in filter(None, (part.strip() for part in names.split(","))):
        name, _, local = word.partition(" as ")
        yield local or name, module, name


class File:
    """The imports and the definitions of a file, in order."""

    def __init__(self, path, text):
        self.path = path
        self.imports, self.exports, self.definitions, self.module_headers = {}, set(), {}, []
        self.constructors = {}
        self.title = []
        self._read(text.split("\n"))
        for definition in self.definitions.values():
            for name in definition.constructors:
                self.constructors[name] = definition

    def _read(self, lines):
        self.current, self.comments, self.header = None, [], []
        number = 0
        while number < len(lines):
            line = lines[number]
            indent = 2 if self.header and (line.startswith("  ") or not line.strip()) else 0
            body = line[indent:]
            if body.startswith("module _"):
                number = self._read_header(lines, number)
            else:
                if self.header and indent == 0 and body.strip() and not body.startswith("--"):
                    self.header = []
                self._read_line(body, line, number + 1)
            number += 1

    # `module _ PARAMETERS where`, on one line or more, with the comment above it
    def _read_header(self, lines, number):
        self.header = [*self._comments_above(), lines[number]]
        while not lines[number].rstrip().endswith("where"):
            number += 1
            self.header.append(lines[number])
        self.current = None
        return number

    def _read_line(self, body, line, number):
        if not body.strip():
            self.comments.append("")
        elif body.startswith("--"):
            self._read_comment(line, body)
        elif body.startswith(" ") or body in (")", "}"):
            self._go_on(line, False)
        elif re.match(r"(pub )?use ", body):
            self._read_import(body)
        elif re.match(r"(pub mod|infix[lr]?) ", body):
            pass
        elif re.match(r"(abbrev|unfoldable|pub|record|data) ", body) or re.match(r"\S+ :( |$)", body):
            self._begin(body, line, number)
        else:
            self._go_on(line, True)

    def _read_comment(self, line, body):
        if not self.imports and not self.definitions and not self.comments:
            self.title.append(body[2:].strip())
        else:
            self.comments.append(line)

    def _read_import(self, body):
        for local, module, name in imports_of(body):
            self.imports[local] = module, name
            if body.startswith("pub "):
                self.exports.add(local)
        self.comments = []

    # An item begins. A heading above it (`-- ---- ..`) is no part of it, a comment is.
    def _begin(self, body, line, number):
        kind, name = HEAD.match(body).groups()
        above = self._comments_above()
        if name in self.definitions:
            raise Unreadable(f"{self.path}: {name} is there twice")
        item = Definition(self.path, name, number - len(above), [*above, line])
        item.kind, item.header, item.parts = kind or "function", list(self.header), [[line]]
        self.current = self.definitions[name] = item

    def _comments_above(self):
        comments, self.comments = self.comments, []
        for place, text in reversed(list(enumerate(comments))):
            if text.strip().startswith("-- ----"):
                comments = comments[place + 1:]
                break
        while comments and not comments[0]:
            comments.pop(0)
        while comments and not comments[-1]:
            comments.pop()
        return [text for text in comments if text]

    # More of the item: a further equation, or the rest of what stands above.
    def _go_on(self, line, is_equation):
        if self.current is None:
            raise Unreadable(f"{self.path}: this belongs to no definition: {line}")
        self.current.text += [*filter(None, self.comments), line]
        self.comments = []
        if is_equation:
            self.current.parts.append([line])
        else:
            self.current.parts[-1].append(line)
        found = re.match(r"\s+(\S+) :( |$)", line)
        if self.current.kind == "data" and found:
            self.current.constructors.append(found.group(1))


def tokens_of(lines):
    """The words and brackets of lines, without comments."""
    words = []
    for line in lines:
        words += TOKEN.findall(re.sub(r"(^|\s)--.*$", "", line))
    return words


class Walk:
    """Which names tokens use that nothing around them binds. `is_constant` says whether a word in a pattern is a
    constructor."""

    def __init__(self, is_constant):
        self.is_constant = is_constant
        self.used = set()

    def walk(self, tokens, bound):
        """Adds the names that the tokens use, and gives what they bind for what follows them."""
        frames = [(set(bound), [])]
        place = 0
        while place < len(tokens):
            place = self._step(tokens, place, frames)
        return frames[0][0]

    def _step(self, tokens, place, frames):
        token = tokens[place]
        follows = tokens[place + 1] if place + 1 < len(tokens) else ""
        bound = frames[-1][0]
        if token in "([{":
            return self._open(tokens, place, frames)
        if token in ")]}":
            _, binders = frames.pop()
            frames[-1][0].update(binders)
        elif token == "λ":
            return self._bind_arguments(tokens, place + 1, frames)
        elif token == "|":
            frames[-1] = set(frames[-2][0]), []
            return self._bind_branch(tokens, place + 1, frames)
        elif token == "do":
            self.used.add(">>=")
        elif follows == "←":
            bound.add(token)
        elif token == "pub" and place + 2 < len(tokens) and tokens[place + 2] == ":":
            bound.add(follows)
            return place + 3
        elif follows != "=" or not NAME.match(token) or len(frames) == 1:
            self._use(token, bound)
        return place + 1

    # A bracket opens: `(x y : T)` binds x and y for what follows it.
    def _open(self, tokens, place, frames):
        binders, after = [], place + 1
        while after < len(tokens) and NAME.match(tokens[after]):
            binders.append(tokens[after])
            after += 1
        is_binder = tokens[place] != "[" and binders and after < len(tokens) and tokens[after] == ":"
        frames.append((set(frames[-1][0]), binders if is_binder else []))
        if tokens[place] == "[":
            return self._bind_branch(tokens, place + 1, frames)
        return after + 1 if is_binder else place + 1

    def _bind_arguments(self, tokens, place, frames):
        depth = len(frames)
        while True:
            token = tokens[place]
            if len(frames) == depth and token.endswith("."):
                frames[-1][0].update(filter(None, [token[:-1]]))
                return place + 1
            if len(frames) == depth and NAME.match(token):
                frames[-1][0].add(token)
                place += 1
            else:
                place = self._step(tokens, place, frames)

    # `pattern ↦` at the beginning of a branch of an elim
    def _bind_branch(self, tokens, place, frames):
        for end in range(place, len(tokens)):
            if tokens[end] in "[]|":
                break
            if tokens[end] == "↦":
                self.bind_pattern(tokens[place:end], frames[-1][0])
                return end + 1
        return place

    def bind_pattern(self, tokens, bound):
        """Binds the variables of a pattern, and uses its constructors."""
        for token in tokens:
            if not NAME.match(token) or self.is_constant(token):
                self._use(token, set())
            else:
                bound.add(token)

    def _use(self, token, bound):
        base = token.rstrip(".").split(".")[0] if not token.startswith(".") else ""
        if token[0] in '"();,{}[]' or not base or NUMBER.match(base) or base in bound or token in BUILT_IN:
            return
        self.used.add(token.rstrip(".") if NAME.match(base) else token)


def names_used(definition, is_constant):
    """The names that a definition uses, a qualified one as it stands there."""
    walk = Walk(is_constant)
    around = walk.walk(tokens_of(definition.header)[2:], set())
    for place, part in enumerate(definition.parts):
        tokens = tokens_of(part)
        bound = set(around)
        if place:
            end = equals_at(tokens)
            walk.bind_pattern([token for token in tokens[:end] if token not in "(){}[],"], bound)
            tokens = tokens[end + 1:]
        walk.walk(tokens, bound)
    return walk.used - {definition.name, *definition.constructors}


def equals_at(tokens):
    """Where the = of an equation stands."""
    depth = 0
    for place, token in enumerate(tokens):
        depth += (token in "([{") - (token in ")]}")
        if token == "=" and depth == 0:
            return place
    raise Unreadable(f"an equation has no =: {' '.join(tokens)}")
