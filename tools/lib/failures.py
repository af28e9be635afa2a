"""Which functions a check of a crate says are not proved, and whether that says something of a contract."""
import re

LOGIC = re.compile(r"^logic=(\S+)", re.MULTILINE)
OF_FUNCTION = re.compile(r"^(?:fn|impl|struct|enum|trait) (\S+): (.*)$")
UNPROVED = re.compile(r"no proof|not proved")
WAITS = re.compile(r"it (?:calls|waits)")
AT_PLACE = re.compile(r"^(?:note: )?(?:\./)?((?:src|specs|proofs)/\S+?):\d+:\d+: (.*)$")
NAMES_GONE = re.compile(r"has no field|has no function|has no `|is not in scope|that can be named from here|was not admitted")


class Failures:
    """The functions that have no proof of their own, and those that wait only for that of a callee. Of the first, `by_names`
    has those without an open goal, whose proof files name what an edit took away. That says little of their contracts. A check
    of the whole crate also says whether the crate is proved."""

    def __init__(self, said):
        self.failed, self.waiting, self.by_names = [], [], set()
        logic = LOGIC.search(said)
        self.is_proved = bool(logic and logic[1] == "proved")
        lines, has_goal, without_goal = said.split("\n"), False, []
        for line in lines:
            place, verdict = AT_PLACE.match(line), OF_FUNCTION.match(line)
            # (the goals that are left open stand right before the verdict)
            has_goal = has_goal or bool(place and place[1].startswith("src/") and "it is not proved" in place[2])
            if verdict:
                if self.takes(*verdict.groups()) and not has_goal and "expected answers" not in verdict[2]:
                    without_goal.append(verdict[1])
                has_goal = False
        self.judge(without_goal, errors_in(lines))

    def takes(self, name, said):
        """Adds a function to those that have no proof, and returns whether it has none of its own."""
        if not UNPROVED.match(said):
            return False
        is_own = "expected answers" in said or not WAITS.search(said)
        (self.failed if is_own else self.waiting).append(name)
        return is_own

    def judge(self, without_goal, errors):
        """Finds those by names. An error in a file that is no function's own counts for each of them."""
        own = {folder_of(it) for it in self.failed}
        shared = [it for folder, found in errors.items() if folder not in own for it in found]
        for name in without_goal:
            found = errors.get(folder_of(name), []) + shared
            if found and all(map(NAMES_GONE.search, found)):
                self.by_names.add(name)

    def are_by_names(self, names):
        """Whether names that are gone are the only reason why these functions have no proof."""
        return bool(names) and self.by_names.issuperset(names)


def errors_in(lines):
    """The errors in definitions and proofs, by the folder of the file. A cycle of functions has a folder with a plus sign."""
    found, last = {}, None
    for line in lines:
        place = AT_PLACE.match(line)
        if place and not place[1].startswith("src/") and place[2].startswith("error"):
            last = found.setdefault(place[1].rpartition("/")[0].replace("/+", "/"), [])
            last.append(place[2])
        elif last and line.startswith("  "):
            # (an error goes on in lines with spaces before them)
            last[-1] += line
        else:
            last = None
    return found


def folder_of(function):
    """The folder in which a crate has the proof of a function."""
    return "proofs/" + "/".join(function.split("::")[1:]).replace("/+", "/")
