"""What a gate printed: the commit, the kit, the last line of each check, how long it took, and how many proofs were new. For
tools/status."""
import re

BEGIN = re.compile(r"the gate of (\S+), with (.+)")
END = re.compile(r"the gate took (.+)")
NEW = re.compile(r"done in this run: (\d+ of the \d+ proofs)|every proof and must-fail edit was done in this run")
PASSED = r"\d+ passed, \d+ failed"
# The checks in the order in which .ci/run has them, and what the last line of each is like.
CHECKS = {
    "tools/mutants --applies": r"\d+ apply, \d+ do not",
    "tools/check_docs": r"\d+ faults",
    "tools/lint": r"\d+ scripts, \d+ faults",
    "rt ci": PASSED,
    "tools/check_cases": PASSED,
    "tools/check_cases --changed": PASSED,
    "tools/check_statuses": PASSED,
    "tools/check_scripts": PASSED,
    "tools/check_scenarios": PASSED,
    "tools/check_engines": r"\d+ scenarios by both engines, .*\d+ differ",
    "tools/check_large": r"\d+ deliveries, \d+ limits and \d+ discs, \d+ differ",
    "tools/check_traces": r"\d+ traces, .*\d+ differ",
    "tools/check_view": r"\d+ pages, .*\d+ differ",
    "tools/refuse_each": r"\d+ right, \d+ wrong.*",
    "tools/mutants --sample": r"\d+ refused, \d+ not refused",
}


class NoGate(Exception):
    """Says why a text is not what a gate prints."""


def first(pattern, lines, what):
    """What the pattern finds in the first line that is like it."""
    for line in lines:
        found = re.fullmatch(pattern, line)
        if found:
            return found
    raise NoGate(f"it has no line {what}")


def read_gate(text):
    """What a gate printed, as tools/lib/last_gate.json keeps it. A check that it did not reach has no line."""
    lines = text.split("\n")
    begin = first(BEGIN, lines, "'the gate of COMMIT, with KIT'")
    took = first(END, reversed(lines), "'the gate took ..', so it has not ended")
    said, place = dict.fromkeys(CHECKS), lines.index(begin[0])
    for check, pattern in CHECKS.items():
        found = [number for number in range(place, len(lines)) if re.fullmatch(pattern, lines[number])]
        if not found:
            break
        said[check], place = lines[found[0]], found[0] + 1
    new = NEW.search(text)
    proofs = new and (new[1] or "all proofs")
    return {"commit": begin[1], "kit": begin[2], "took": took[1], "new": proofs, "checks": said}
