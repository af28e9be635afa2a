"""What became of the wrong bodies that were tried."""
from ledger import BY_NAMES, LET_THROUGH, REFUSED

ONLY_BY_NAMES = "refused only because a proof file names what the edit took away (change a value, keep the names):"


def say(text):
    print(f"mutants: {text}", flush=True)


def tell(heading, lines):
    if lines:
        print("\n".join([f"mutants: {heading}", *(f"  {it}" for it in lines)]))


class Verdicts:
    """Counts those that were refused, and keeps what is to be said about others. Each verdict goes into the ledger, if any."""

    def __init__(self, ledger=None):
        self.ledger, self.refused = ledger, 0
        self.not_refused, self.by_names, self.errors = [], [], []

    def refuse(self, edit, way, is_by_names=False):
        self.refused += 1
        if is_by_names:
            self.by_names.append(edit.label)
        self.note(edit, way, BY_NAMES if is_by_names else REFUSED)

    def let_through(self, edit, way):
        self.not_refused.append(edit.label)
        self.note(edit, way, LET_THROUGH)

    def note(self, edit, way, verdict):
        if self.ledger:
            self.ledger.note(edit, way, verdict)

    def leave(self, edit, why):
        self.errors.append(f"{edit.label}: not tried: {why}")

    def leave_crate(self, crate, edits):
        self.errors.append(f"{crate}: it does not prove, so its edits ({len(edits)}) were not tried")

    def tell_all(self):
        tell(ONLY_BY_NAMES, self.by_names)
        tell("errors:", self.errors)
        tell("not refused:", self.not_refused)
        print(f"{self.refused} refused, {len(self.not_refused)} not refused", flush=True)

    @property
    def status(self):
        return 2 if self.errors else 1 if self.not_refused else 0
