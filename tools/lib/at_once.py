"""Tries wrong bodies many at a time. A function is proved by the contracts of what it calls, so that wrong bodies of different
functions do not disturb each other. Each check of a crate has one in each of many functions, proves those functions only, and
says which have no proof."""
import re
from dataclasses import dataclass, field

from edits import Edit, Unfit, edited, items_of
from failures import LOGIC, Failures
from ledger import AT_ONCE
from one_by_one import COUNTS, fitting, proved_as_it_is, settle_by_module
from verdicts import say

FUNCTION = re.compile(r"^fn (\S+): proved", re.MULTILINE)
# A check tries at most this many edits, so that less is lost if it is killed.
MOST_TOGETHER = 50


@dataclass
class Placed:
    """An edit, the names of the functions in which it stands, and their paths in the crate. An edit that stands elsewhere,
    too, has no paths, and is tried by itself."""

    edit: Edit
    functions: set
    paths: set

    def is_among(self, names):
        """Whether these names have a function of it, or a closure there."""
        return any(self.functions & set(re.split(r"::|\+", it)) for it in names)


@dataclass
class Group:
    """Edits that are tried together, and the texts that they make."""

    members: list = field(default_factory=list)
    texts: dict = field(default_factory=dict)
    functions: set = field(default_factory=set)

    def takes(self, placed, folder):
        """Adds an edit. No two stand in functions of one name, so that a failure is that of one edit."""
        if len(self.members) == MOST_TOGETHER or self.functions & placed.functions:
            return False
        try:
            self.texts |= edited(placed.edit, folder, self.texts)
        except Unfit:
            return False
        self.members.append(placed)
        self.functions |= placed.functions
        return True

    @property
    def paths(self):
        return sorted(set().union(*(it.paths for it in self.members)))


def paths_of(file, name, functions):
    """Those of a crate's functions that a file of src/ may have under this name, by their paths. They have the path of the
    file's module, or of a module around it, where a type of that has them."""
    named = {it.split("::", 1)[1]: it for it in functions if it.endswith(f"::{name}")}
    parts = re.sub(r"(^|/)(lib|main|mod)$", "", file.removeprefix("src/").removesuffix(".rt")).split("/")
    for count in range(len(parts), -1, -1):
        module = "::".join(parts[:count])
        found = {path for inner, path in named.items() if f"{inner}::".startswith(f"{module}::" * (count > 0))}
        if found:
            return found
    return set()


def placed_in(edit, folder, functions):
    """Where an edit stands, apart from its `use` lines."""
    items = list(items_of((it for it in edit.changes() if not it.is_import), folder))
    found = [it and it.kind == "fn" and file.startswith("src/") and paths_of(file, it.name, functions) for file, it in items]
    return Placed(edit, {it.name for _, it in items if it}, set().union(*found) if all(found) else set())


def groups_of(placed, folder):
    """Edits with paths in groups."""
    left = list(placed)
    while left:
        group = Group()
        left = [it for it in left if not group.takes(it, folder)]
        yield group


class Trial:
    """Tries the edits of one crate."""

    def __init__(self, tree, verdicts, crate, jobs):
        self.tree, self.verdicts, self.crate, self.jobs = tree, verdicts, crate, jobs
        self.folder, self.checks, self.later = tree.folder_of(crate), 0, []

    def check(self, texts, paths):
        """What a check of these functions fails at, or of the whole crate where there are none, with these texts; None where it
        says nothing of functions."""
        self.checks += 1
        words = ["rt", "check", "--jobs", str(self.jobs), *(word for it in paths for word in ("--only", it))]
        self.tree.restore_work(self.crate)
        with self.tree.changed(self.crate, texts):
            status, said = self.tree.run(f"{self.crate}.{self.checks}", f"crates/{self.crate}", *words)
        if not (COUNTS if paths else LOGIC).search(said):
            say(f"{self.crate}: a check ended with status {status} and no verdict, and last said:")
            print(said[-1000:].strip("\n"), flush=True)
            return None
        return Failures(said)

    def try_all(self, placed):
        """Tries edits in groups, and last those whose callee was edited, too."""
        self.try_groups(placed)
        while self.later:
            placed, self.later = self.later, []
            self.try_groups(placed)

    def try_groups(self, placed):
        for it in groups_of(placed, self.folder):
            self.try_group(it)

    def try_group(self, group):
        found, half = self.check(group.texts, group.paths), len(group.members) // 2
        if found:
            self.judge(group.members, found)
        elif half:
            # (one of them may be no code, or the check was killed)
            self.try_groups(group.members[:half])
            self.try_groups(group.members[half:])
        else:
            self.leave(group.members[0].edit)

    def judge(self, members, found):
        left = [it for it in members if not it.is_among(found.failed)]
        for it in members:
            if it not in left:
                self.refuse(it.edit, found.are_by_names([name for name in found.failed if it.is_among([name])]))
            elif it.is_among(found.waiting) and len(left) < len(members):
                self.later.append(it)
            else:
                self.try_whole(it)

    def try_whole(self, placed):
        """Tries an edit by itself, by a check of the whole crate. (It may break only an impl, or worked rows.)"""
        found = self.check(edited(placed.edit, self.folder), [])
        if not found:
            self.leave(placed.edit)
            return
        if found.is_proved:
            say(f"{placed.edit.label}: NOT REFUSED")
            self.verdicts.let_through(placed.edit, AT_ONCE)
        else:
            self.refuse(placed.edit, found.are_by_names(found.failed))

    def leave(self, edit):
        self.verdicts.leave(edit, "a check of it gave no verdict")

    def refuse(self, edit, is_by_names):
        say(f"{edit.label}: refused" + " only by names" * is_by_names)
        self.verdicts.refuse(edit, AT_ONCE, is_by_names)


def try_at_once(tree, verdicts, crate, edits, jobs):
    """Tries a crate's edits many at a time, and those of tests by their modules."""
    edits = fitting(tree, verdicts, crate, edits)
    if not edits:
        return
    said = proved_as_it_is(tree, crate, "--jobs", str(jobs))
    if not said:
        verdicts.leave_crate(crate, edits)
        return
    edits = settle_by_module(tree, verdicts, edits, is_narrow=False)
    tree.keep_work(crate)
    functions = FUNCTION.findall(said)
    placed = [placed_in(it, tree.folder_of(crate), functions) for it in edits]
    together, alone = [it for it in placed if it.paths], [it for it in placed if not it.paths]
    if placed:
        checks = len(list(groups_of(together, tree.folder_of(crate)))) + len(alone)
        say(f"{crate}: trying its edits ({len(edits)}) in {checks} checks")
    trial = Trial(tree, verdicts, crate, jobs)
    trial.try_all(together)
    for it in alone:
        trial.try_whole(it)
