"""What crates.txt says: the crates of this repository, lowest first, and what each of them uses."""
import re

LINE = re.compile(r"\s*([A-Za-z0-9_-]+)[^:]*:?(.*)")


def uses_of(top):
    """The crates by name, each with the names that its line has."""
    with open(f"{top}/crates.txt", encoding="utf-8") as stream:
        found = [LINE.match(line.split("#")[0]) for line in stream]
    return {it[1]: it[2].replace(",", " ").split() for it in found if it}


def with_those_below(uses, crates):
    """These crates and those of this repository below them."""
    found, left = [], list(crates)
    while left:
        crate = left.pop()
        if crate in uses and crate not in found:
            found.append(crate)
            left += uses[crate]
    return found
