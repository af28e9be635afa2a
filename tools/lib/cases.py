"""Cases: scenarios in the folder cases/, and what commands must print of them. cases/README.md explains the files."""
import difflib
import json
import os
import re
import shlex
from dataclasses import dataclass

from case_runs import Runner

OPTIONS = re.compile(r"^# (trace|scores|stats|picture)(?: ([a-z0-9_]+))?:(.*)$")
EXPECTED = re.compile(r"^# Expected: \S")
ESCAPED = re.compile(rb"\\x([0-9a-f]{2})")


class Fault(Exception):
    """A case that can't be read."""


@dataclass
class Expectation:
    """A file of a case that says what must be printed: its kind, such as `trace`, and the options that the case gives."""

    file: str
    kind: str
    options: tuple = ()


class Case:
    """A scenario, and the files next to it that say what is printed of it."""

    def __init__(self, file, runner):
        self.file, self.runner = file, runner
        with open(file, encoding="utf-8") as it:
            lines = it.read().splitlines()
        comment = [line for line in lines[: next((n for n, line in enumerate(lines) if not line.startswith("#")), len(lines))]]
        if not comment or EXPECTED.match(comment[0]):
            raise Fault("its first line is no comment that says what the case shows")
        if not any(EXPECTED.match(line) for line in comment):
            raise Fault("no line `# Expected: ..` says where its expectation comes from")
        self.expectations = list(self._expectations(comment))

    def _expectations(self, comment):
        """Each file next to the scenario, once. A file that nothing explains is a fault, and so is a line without its file."""
        stem = self.file.removesuffix(".toml")
        folder = os.path.dirname(self.file)
        found = {
            f"{folder}/{it}" for it in os.listdir(folder) if it.startswith(f"{os.path.basename(stem)}.") and not it.endswith(".toml")
        }
        wanted = [Expectation(f"{stem}.{kind}", kind) for kind in ("report", "edits", "runs") if f"{stem}.{kind}" in found]
        for line in comment:
            match = OPTIONS.match(line)
            if match:
                kind, label, options = match.groups()
                name = f"{stem}.{label}.{kind}" if label else f"{stem}.{kind}"
                wanted.append(Expectation(name, kind, tuple(shlex.split(options))))
        if not wanted:
            raise Fault("no file next to it says what is printed")
        for it in sorted(found ^ {it.file for it in wanted}):
            raise Fault(f"{os.path.basename(it)} is " + ("not named in the comment" if it in found else "missing"))
        return wanted

    def printed(self, expectation, expected):
        """What the command prints, in the form of the expectation."""
        of_kind = {"report": self._report, "trace": self._trace, "edits": self._edits, "runs": self._runs}
        return of_kind.get(expectation.kind, self._output)(expectation, expected)

    def _report(self, _expectation, expected):
        """The report, which each run must print. Where a run prints another text, that text."""
        texts = self.runner.reports(self.file)
        return next((text for text in texts if text != expected), expected)

    def _output(self, expectation, _expected):
        return self.runner.run(f"gossip_{expectation.kind}", expectation.options, self.runner.scenario(self.file)).text

    def _trace(self, expectation, expected):
        """The lines of a trace, without the first one, and without members that are null or an empty list or object."""
        text = self._output(expectation, expected)
        lines = text.splitlines()
        if not lines or not lines[0].startswith("{"):
            return text
        return "".join(f"{brief_line(line)}\n" for line in lines[1:])

    def _runs(self, _expectation, expected):
        """Each command that follows a `$`, and what it prints."""
        scenario = self.runner.scenario(self.file)
        printed = []
        for line in expected.splitlines():
            if line.startswith("$ "):
                program, *options = shlex.split(line[2:])
                printed.append(f"{line}\n{self.runner.run(program, options, scenario).text}")
            elif line.startswith("# "):
                printed.append(f"{line}\n")
        return "".join(printed)

    def _edits(self, _expectation, expected):
        """What gossip_check answers to each edit of the scenario. What it refuses, gossip_sim refuses with the same line."""
        scenario = self.runner.scenario(self.file)
        return "".join(block.printed(self.runner, scenario) for block in blocks_of(expected))


def brief(value):
    """A value of JSON without members that are null or an empty list or object."""
    if isinstance(value, list):
        return [brief(it) for it in value]
    if not isinstance(value, dict):
        return value
    briefs = {key: brief(it) for key, it in value.items()}
    return {key: it for key, it in briefs.items() if it is not None and it != [] and it != {}}


def brief_line(line):
    return json.dumps(brief(json.loads(line)), separators=(",", ":"), ensure_ascii=False)


@dataclass
class Block:
    """An edit of a scenario: its title, what is taken out, what comes in its place, and the answer."""

    title: str
    old: list
    new: list
    answer: list

    def edited(self, scenario):
        """The scenario with the edit at its first place. Without an old text, the new text is the whole scenario. None where
        the old text does not stand in it."""
        old, new = (unescaped("\n".join(it)) for it in (self.old, self.new))
        if not self.old:
            return new + b"\n" if new else new
        if old not in scenario:
            return None
        return scenario.replace(old, new, 1)

    def printed(self, runner, scenario):
        head = [f"== {self.title}", *(f"- {it}".rstrip() if not it else f"- {it}" for it in self.old)]
        head += [f"+ {it}" if it else "+" for it in self.new]
        edited = self.edited(scenario)
        answer = ["(the scenario has no such text)"] if edited is None else self._answer(runner, edited)
        if self.answer[-1:] == ["..."] and answer[: len(self.answer) - 1] == self.answer[:-1]:
            answer = self.answer
        return "".join(f"{line}\n" for line in (*head, *answer))

    def _answer(self, runner, edited):
        checked = runner.run("gossip_check", (), edited)
        answer = checked.output.splitlines()
        if not checked.status:
            return answer
        wanted = f"! scenario refused: {answer[0] if answer else ''}\n= {checked.status}\n"
        came = runner.run("gossip_sim", ("--direct",), edited).text
        return answer if came == wanted else [*answer, f"but gossip_sim prints {came!r}"]


def unescaped(text):
    """The bytes of a text in which a backslash, x and two hex digits stand for one byte."""
    return ESCAPED.sub(lambda it: bytes([int(it[1], 16)]), text.encode())


def blocks_of(text):
    blocks = []
    for line in text.splitlines():
        if line.startswith("== "):
            blocks.append(Block(line[3:], [], [], []))
        elif not blocks:
            raise Fault("a line stands before the first title")
        elif line.startswith("- ") or line == "-":
            blocks[-1].old.append(line[2:])
        elif line.startswith("+ ") or line == "+":
            blocks[-1].new.append(line[2:])
        else:
            blocks[-1].answer.append(line)
    return blocks


def is_answer(kind, line):
    """Whether a line of an expectation says what is printed, and not what is asked."""
    asks = {"edits": ("== ", "- ", "+ ", "-", "+"), "runs": ("$ ", "# ")}
    return bool(line) and line != "..." and not (kind in asks and line.startswith(asks[kind]))


def difference(file, expected, printed):
    return "".join(difflib.unified_diff(expected.splitlines(True), printed.splitlines(True), file, "printed", n=1))


__all__ = "Case", "Expectation", "Fault", "Runner", "difference", "is_answer"
