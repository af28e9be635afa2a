"""Which edits a change of the repository touches, as git tells it."""
import re
import subprocess

from edits import item_at, items_of, text_in, why_unfit

HUNK = re.compile(r"@@ -\d+(?:,(\d+))? \+(\d+)(?:,(\d+))? @@")
DIFF = "diff --unified=0 --no-renames --no-ext-diff --no-color --no-prefix --relative".split()


class NoCommit(Exception):
    """Git can't compare the repository with what was asked for."""


def git(top, *words):
    ran = subprocess.run(["git", "-C", top, *words], capture_output=True, text=True, errors="replace", check=False)
    if ran.returncode:
        raise NoCommit((ran.stderr.strip().split("\n") or [""])[0])
    return ran.stdout.split("\n")


def changed_lines(top, commit):
    """The lines of each file of a crate that differ from those of a commit. They count from 0, and None stands for all."""
    found, lines, left = {}, set(), 0
    for line in git(top, *DIFF, commit, "--", "crates"):
        hunk = HUNK.match(line)
        if left:
            left -= 1
        elif line.startswith("+++ "):
            lines = found.setdefault(line[len("+++ ") :].rstrip("\t"), set())
        elif hunk:
            old, first, new = int(hunk[1] or 1), int(hunk[2]) - 1, int(hunk[3] or 1)
            # (where lines were only taken out, the one above them counts)
            lines.update(range(first, first + max(new, 1)))
            left = old + new
    new_files = git(top, "ls-files", "--others", "--exclude-standard", "--", "crates")
    return found | {it: None for it in new_files}


class Changes:
    """What differs from a commit."""

    def __init__(self, top, commit):
        self.top, self.lines, self.items = top, changed_lines(top, commit), {}

    def items_in(self, crate, file):
        """The items in which the changed lines of a file stand."""
        path = f"crates/{crate}/{file}"
        if path not in self.items:
            lines = text_in(f"{self.top}/crates/{crate}", file).split("\n")
            changed = self.lines.get(path, ())
            changed = range(len(lines)) if changed is None else changed
            self.items[path] = {item_at(file, lines, it) for it in changed if it < len(lines)}
        return self.items[path]

    def touch(self, edit):
        """Whether an edit differs, or an item in which it stands. What keeps it from applying may be what differs, too."""
        folder = f"{self.top}/crates/{edit.crate}"
        if edit.path in self.lines or why_unfit(edit, folder):
            return True
        return any(item in self.items_in(edit.crate, file) for file, item in items_of(edit.changes(), folder))
