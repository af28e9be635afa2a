"""Reads the keys of a table of a description, and refuses what they may not hold."""
import re
from decimal import Decimal

from hints import unknown_hint

from .fault import Fault, unknown
from .plain import value_text

REQUIRED = object()
UNITS = {"ms": 1, "s": 1_000, "min": 60_000, "h": 3_600_000}
MOMENT = re.compile(r"([0-9]+(?:\.[0-9]+)?) ?(ms|s|min|h)")
NAME = re.compile(r"[a-z0-9_-]{1,32}")
HEX = re.compile(r"(?:[0-9a-fA-F]{2})*")
MOST_ROUNDS = 100_000


def whole_hint(key, value):
    """What to write instead of a value that is no whole number, for a key that holds one; empty where that is not sure."""
    if isinstance(value, Decimal) and value.is_finite() and abs(value) <= 10**12 and value == int(value):
        return f"; write {int(value)}"
    if not isinstance(value, str):
        return ""
    milliseconds = milliseconds_of(value)
    if milliseconds is not None and key.endswith("_ms"):
        return f"; write {milliseconds}, in milliseconds"
    if milliseconds is not None and key.endswith("_s") and milliseconds % 1_000 == 0:
        return f"; write {milliseconds // 1_000}, in seconds"
    return f"; write {int(value)}" if re.fullmatch("-?[0-9]{1,12}", value) else ""


def shown(value):
    """A value as TOML has it, and not too long."""
    text = value_text(value)
    return text if len(text) <= 60 else text[:60] + ".."


def milliseconds_of(text):
    """How many milliseconds a text with a unit says; None where it says none, or no whole number."""
    found = MOMENT.fullmatch(text)
    if not found:
        return None
    exact = Decimal(found.group(1)) * UNITS[found.group(2)]
    return int(exact) if exact == int(exact) else None


def rounds_of(value, round_ms, fail):
    """A moment or a span of time in rounds: a whole number is one already, and a text has a unit."""
    if isinstance(value, int) and not isinstance(value, bool):
        if not 0 <= value <= MOST_ROUNDS:
            fail(f"{value} is no round from 0 to {MOST_ROUNDS}")
        return value
    milliseconds = milliseconds_of(value) if isinstance(value, str) else None
    if milliseconds is None:
        fail(f'{shown(value)} is no time: it must be a number of rounds, or a text with a unit, such as "500 ms", "12 s" or "2 min"')
    if milliseconds % round_ms:
        fail(f"{value} is no multiple of round_ms, which is {round_ms}")
    if milliseconds // round_ms > MOST_ROUNDS:
        fail(f"{value} is later than round {MOST_ROUNDS}, the last that a scenario may have")
    return milliseconds // round_ms


def key_faults(table, path, known, hints):
    """What is wrong with the keys of a table: a refusal for each that is not known."""
    if not isinstance(table, dict):
        yield Fault(path, f"{shown(table)} is no table")
        return
    for key in table:
        if key not in known:
            yield Fault((*path, key), unknown(key, known, hints.get(key) or unknown_hint((*path, key))))


class Fields:
    """A table, and the path that leads to it."""

    def __init__(self, table, path, known, round_ms=None, hints=None):
        self.table, self.path, self.round_ms = table, tuple(path), round_ms
        for it in key_faults(table, self.path, known, hints or {}):
            raise it

    def fail(self, key, why):
        raise Fault((*self.path, key) if key in self.table else self.path, why if key in self.table else f"{key}: {why}")

    def has(self, key):
        return key in self.table

    def get(self, key, default, is_right, must, hint=lambda key, value: ""):
        """What a key holds, where it is right, or its default."""
        if key not in self.table:
            if default is REQUIRED:
                raise Fault(self.path, f"{key} is missing: it must be {must}")
            return default
        value = self.table[key]
        if not is_right(value):
            self.fail(key, f"{shown(value)} must be {must}{hint(key, value)}")
        return value

    def text(self, key, default=REQUIRED):
        return self.get(key, default, lambda it: isinstance(it, str), "a text")

    def truth(self, key, default=REQUIRED):
        return self.get(key, default, lambda it: isinstance(it, bool), "true or false")

    def whole(self, key, low, high, default=REQUIRED):
        def is_right(it):
            return isinstance(it, int) and not isinstance(it, bool) and low <= it <= high

        return self.get(key, default, is_right, f"a whole number from {low} to {high}", whole_hint)

    def part(self, key, default=REQUIRED):
        """A part of 1, such as 0.25, in millionths."""

        def is_right(it):
            return isinstance(it, (int, Decimal)) and not isinstance(it, bool) and 0 <= it <= 1

        value = self.get(key, default, is_right, "a number from 0 to 1, such as 0.25")
        return value if value is None else int((Decimal(value) * 1_000_000).to_integral_value())

    def one_of(self, key, choices, default=REQUIRED):
        value = self.get(key, default, lambda it: isinstance(it, str), f"one of {', '.join(choices)}")
        return value if value in choices else self.fail(key, unknown(value, choices))

    def hex(self, key, default=REQUIRED):
        """Bytes in pairs of hex digits."""
        value = self.get(
            key, default, lambda it: isinstance(it, str) and HEX.fullmatch(it), "a text of pairs of hex digits"
        )
        return bytes.fromhex(value) if isinstance(value, str) else value

    def name(self, key, default=REQUIRED):
        return self.get(key, default, is_name, "a name: 1 to 32 of a to z, 0 to 9, _ and -")

    def list(self, key, default=REQUIRED):
        return self.get(key, default, lambda it: isinstance(it, list), "a list")

    def texts(self, key, default=REQUIRED):
        """A list of texts, or one text by itself."""
        value = self.get(key, default, lambda it: isinstance(it, str) or is_texts(it), "a text or a list of texts")
        return [value] if isinstance(value, str) else value

    def moment(self, key, default=REQUIRED):
        """A moment or a span of time, in rounds."""
        value = self.get(key, default, lambda _: True, 'a number of rounds, or a text with a unit, such as "12 s"')
        if key not in self.table:
            return value
        return rounds_of(value, self.round_ms, lambda why: self.fail(key, why))

    def span(self, key, default=REQUIRED):
        """A span of time of one round at least."""
        rounds = self.moment(key, default)
        if rounds == 0:
            self.fail(key, "a round at least must lie between")
        return rounds

    def tables(self, key, known):
        """A list of tables, each with these keys."""
        return [Fields(it, (*self.path, key, n), known, self.round_ms) for n, it in enumerate(self.list(key, []))]


def is_name(value):
    return isinstance(value, str) and bool(NAME.fullmatch(value))


def is_texts(value):
    return isinstance(value, list) and all(isinstance(it, str) for it in value)
