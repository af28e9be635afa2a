"""The libraries that rt ci proved on this machine. A kit that keeps them says itself which were made of the same sources, over
the same libraries, so its own code is asked here. A kit that keeps nothing leaves them in the out/ of each crate: those are
taken that are newer than all sources below them. Where a kit has other code, no library is taken."""
import importlib.machinery
import importlib.util
import os
import shutil
import sys


def code_of_rt():
    """The code of rt as a module."""
    path = os.path.realpath(shutil.which("rt"))
    sys.path.insert(0, os.path.dirname(path))
    loader = importlib.machinery.SourceFileLoader("rt_itself", path)
    module = importlib.util.module_from_spec(importlib.util.spec_from_loader("rt_itself", loader))
    loader.exec_module(module)
    return module


def take(rt, kept, crate):
    """Puts the kept library of a crate into its out/, and says whether there was one. (A file that is there would be taken for
    a damaged one of rt's store, and rt would remove the library from it.)"""
    shutil.rmtree(f"{crate.folder}/out/rlib", ignore_errors=True)
    if not kept.give(crate, False, kept.key(crate)):
        return False
    kept.is_built(crate)
    with open(f"{crate.folder}/out/rlib/stamp", "w", encoding="utf-8") as stream:
        stream.write(crate.stamp())
    return True


def is_there(crate):
    """Whether the library of a crate stands in its out/, made of the crate's sources as they are."""
    stamp = f"{crate.folder}/out/rlib/stamp"
    if not os.path.exists(stamp):
        return False
    with open(stamp, encoding="utf-8") as stream:
        return stream.read() == crate.stamp()


def take_missing(top, names):
    """Takes the kept libraries of these crates that are not there, lowest first. Returns the crates whose libraries are there."""
    rt, there = code_of_rt(), set()
    rt.Crate.allowed = rt.handles_of(top)
    crates = rt.crates_of(top)
    kept = rt.Kept(crates)
    for it in crates:
        if it.name not in names or it.is_program:
            continue
        if is_there(it):
            # (rt asks this of the crates below, before it looks for what is kept of those above)
            kept.is_built(it)
            there.add(it.name)
        elif take(rt, kept, it):
            there.add(it.name)
    return there


def take_all(top, names):
    """Takes the libraries of these crates, and returns those that are neither there nor kept."""
    there = take_missing(top, names)
    return [it.name for it in crates_of(top) if it.name in names and it.name not in there and not it.is_program]


def crates_of(top):
    """The crates of a repository as rt sees them, the lowest first."""
    code_of_rt()
    return importlib.import_module("rtlib").crates_below(top)


def newest_source(folder):
    """When the newest source of a crate was changed, in nanoseconds."""
    files = [f"{at}/{it}" for part in ("src", "specs", "proofs") for at, _, names in os.walk(f"{folder}/{part}") for it in names]
    return max(os.stat(it).st_mtime_ns for it in files)


def stamp_all(made_in, top, names):
    """Stamps the libraries of these crates that rt ci made in a repository, and that stand in a copy of it without a stamp.
    Returns the names of those that can't be taken."""
    taken, left = set(), []
    for it in crates_of(top):
        made = f"{made_in}/crates/{it.name}"
        is_above = all(dep.name in taken for dep in it.deps)
        is_there = os.path.isdir(it.rlib) and os.path.isdir(f"{made}/out/rlib")
        if is_above and is_there and (it.is_built() or os.stat(f"{made}/out/rlib").st_mtime_ns > newest_source(made)):
            with open(f"{it.folder}/out/rlib/stamp", "w", encoding="utf-8") as stream:
                stream.write(it.stamp())
            taken.add(it.name)
        elif it.name in names:
            left.append(it.name)
    return left


def take_libraries(made_in, top, names):
    """Takes the libraries of these crates of a repository, where rt ci keeps them, or left them in the repository that
    this one copies. Returns the crates that are left, whose libraries rt makes again."""
    try:
        if hasattr(code_of_rt(), "Kept"):
            return take_all(top, names)
        return stamp_all(made_in, top, names)
    except (ImportError, SyntaxError, AttributeError, TypeError, OSError, SystemExit):
        return list(names)
