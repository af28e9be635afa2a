"""To which line of a description what stands in its plain scenario points: that of the same key, or of the table or the key
that gave it."""
from scenario import build
from scenario.command import Options
from scenario.fault import Fault, Faults
from scenario.plain import Limits
from spots import Spots, is_at, value_at

PRINTED = " of what bin/scenario prints"
HANDED = "round_ms", "rounds", "workers", "capacity", "seed", "params", "topic"


class Refused(Exception):
    """The description can't be read any more."""


def refuse(why):
    raise Refused(why)


class Described:
    """A description, and which of its parts each peer and each line comes from."""

    def __init__(self, file):
        # (bin/scenario has looked at the limits, which may be the large ones)
        Limits.be_large()
        self.spots, self.scenario, self.origins = Spots(b""), {}, {}
        options = Options()
        options.file = file
        try:
            with open(file, "rb") as it:
                data = it.read()
            text = data.decode("utf-8-sig").replace("\r\n", "\n")
            self.scenario, _, self.origins = build.scenario_of(build.read(text, refuse), options, lambda why: None)
            self.spots = Spots(data)
        except (OSError, UnicodeDecodeError, Fault, Faults, Refused):
            pass

    def is_handed(self, path, document):
        """Whether a path has the same in the description as in its plain scenario, or a table in both."""
        try:
            both = [value_at(it, path) for it in (self.spots.document, document)]
        except LookupError:
            return False
        return both[0] == both[1] or all(isinstance(it, (dict, list)) for it in both)

    def origin_of(self, path, document):
        """The path of the description that gave what stands at a path, and whether it is the same key; None for neither."""
        if self.spots.document is None:
            return None
        name, number = path[0], path[1] if len(path) > 1 else None
        if name in HANDED and self.is_handed(path, document):
            return path, True
        if path == ("rounds",) and is_at(self.spots.document, ("until",)):
            return ("until",), False
        if name in self.origins and number is not None and document[name][number] == self.scenario[name][number]:
            table = self.origins[name][number]
            is_same = table[0] == name and is_at(self.spots.document, (*table, *path[2:]))
            return ((*table, *path[2:]), True) if is_same else (table, False)
        is_preset = name in ("params", "topic") and is_at(self.spots.document, ("params_from",))
        return (("params_from",), False) if is_preset else None

    def line_of(self, path, document, printed):
        """In which line a path stands, by the line of the plain scenario that it has."""
        origin = self.origin_of(path, document)
        own = self.spots.line_at(origin[0]) if origin else None
        if own is None:
            return printed and f"line {printed[0]}{PRINTED}: {printed[1]}"
        if origin[1]:
            return f"line {own[0]}: {own[1]}"
        return f"line {own[0]}: {own[1]}" + (f", which gives line {printed[0]}{PRINTED}: {printed[1]}" if printed else "")
