"""Why a description is refused, and where."""
import difflib

# Up to how many known words are all named for an unknown one.
MOST_SHOWN = 8


class Fault(Exception):
    """A refusal. Its path leads to what is wrong: ("load", 1, "every") is the key `every` of the second [[load]]."""

    def __init__(self, path, why):
        super().__init__(why)
        self.path, self.why = tuple(path), why


class Faults(Exception):
    """Some refusals. Where the description was not read to its end, there may be more."""

    def __init__(self, faults, is_all):
        super().__init__()
        self.faults, self.is_all = faults, is_all


class Missing(Exception):
    """What is not installed, and how to get it."""


def words_of(path):
    """A path in words, such as `[[load]] 2: every`."""
    if len(path) > 1 and isinstance(path[1], int):
        words, rest = [f"[[{path[0]}]] {path[1] + 1}"], path[2:]
    elif path and path[0] in ("network", "params"):
        words, rest = [f"[{path[0]}]"], path[1:]
    else:
        words, rest = [], path
    for part in rest:
        if isinstance(part, int):
            words[-1] += f" {part + 1}"
        else:
            words.append(part)
    return ": ".join(words)


def distance(one, other):
    """How many edits lead from one text to another: a character is put in, left out, changed or swapped with the next."""
    rows = [list(range(len(other) + 1))]
    for i, here in enumerate(one, 1):
        row = [i]
        for j, there in enumerate(other, 1):
            cost = min(rows[-1][j] + 1, row[-1] + 1, rows[-1][j - 1] + (here != there))
            if i > 1 and j > 1 and here == other[j - 2] and one[i - 2] == there:
                cost = min(cost, rows[-2][j - 2] + 1)
            row.append(cost)
        rows.append(row)
    return rows[-1][-1]


def nearest(word, known):
    """The known word to which the fewest edits lead; None where none is near."""
    best = min(known, key=lambda it: distance(word, it), default=None)
    if best is None or 3 * distance(word, best) > max(len(word), len(best)):
        return None
    return best


def unknown(word, known, hint=None):
    """What is said about an unknown word: a hint, or the nearest of the known ones, or all of these where they are few."""
    near = nearest(word, known)
    if hint is None and near:
        hint = f"the nearest is {near}"
    elif hint is None and len(known) > MOST_SHOWN:
        first, second, third = difflib.get_close_matches(word, known, 3, 0)
        hint = f"of {len(known)} that are, the nearest are {first}, {second} and {third}"
    return f'"{word}" is not known here; ' + (hint or f"there are {', '.join(known)}")


def no_such(kind, name, known):
    """What is said about a name that nothing has."""
    near = nearest(name, known)
    return f'there is no {kind} "{name}"' + (f'; the nearest is "{near}"' if near else "")
