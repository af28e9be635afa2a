"""A copy of the repository in which rt tries wrong bodies, so that the repository may be edited meanwhile."""
import fcntl
import os
import shutil
import subprocess
from contextlib import contextmanager

from crates_txt import with_those_below

SOURCES = "src", "specs", "proofs"
KEPT = "rlib", "incremental"


@contextmanager
def locked(folder):
    """Whether the lock that rt takes on a crate's folder is free. It is held meanwhile."""
    held = os.open(folder, os.O_RDONLY)
    try:
        fcntl.flock(held, fcntl.LOCK_SH | fcntl.LOCK_NB)
        yield True
    except BlockingIOError:
        yield False
    finally:
        os.close(held)


def link_checked(source, target):
    """Links a checked module, and copies another file. (rt does so, too: a check replaces a checked module, and changes none.)
    Where no link can be made, it copies a module, too."""
    if source.endswith(".oantt"):
        try:
            os.link(source, target)
            return
        except OSError:
            pass
    shutil.copy2(source, target)


def copy_work(source, target):
    """Replaces a folder of kept work by another. It does nothing if there is no other."""
    if os.path.isdir(source):
        shutil.rmtree(target, ignore_errors=True)
        shutil.copytree(source, target, copy_function=link_checked)


class TreeCopy:
    """The sources of each crate, and what rt keeps in out/ of those that are needed, in the folder `tree` of a room."""

    def __init__(self, top, room, uses, crates):
        self.top, self.room = top, room
        os.makedirs(f"{room}/temporary")
        os.makedirs(f"{room}/tree/crates")
        for it in "crates.txt", "HANDLES":
            if os.path.isfile(f"{top}/{it}"):
                shutil.copy(f"{top}/{it}", f"{room}/tree")
        needed = with_those_below(uses, crates)
        for crate in uses:
            self.copy_crate(crate, crate in needed)

    def folder_of(self, crate):
        return f"{self.room}/tree/crates/{crate}"

    def copy_crate(self, crate, is_needed):
        source, target = f"{self.top}/crates/{crate}", self.folder_of(crate)
        os.makedirs(f"{target}/out")
        for it in SOURCES:
            if os.path.isdir(f"{source}/{it}"):
                shutil.copytree(f"{source}/{it}", f"{target}/{it}")
        for it in KEPT:
            if is_needed and os.path.isdir(f"{source}/out/{it}"):
                self.copy_kept(source, f"{target}/out", it)

    # Where another rt works, what is kept is left out, and proved again.
    def copy_kept(self, source, target, name):
        with locked(source) as is_free:
            words = ["cp", "-r", "--reflink=auto", f"{source}/out/{name}", target]
            if not is_free or subprocess.run(words, stderr=subprocess.DEVNULL, check=False).returncode:
                shutil.rmtree(f"{target}/{name}", ignore_errors=True)

    @contextmanager
    def changed(self, crate, texts):
        """Has these texts in the files of a crate for a while."""
        before = {}
        try:
            for file, text in texts.items():
                path = f"{self.folder_of(crate)}/{file}"
                with open(path, encoding="utf-8") as stream:
                    before[path] = stream.read()
                with open(path, "w", encoding="utf-8") as stream:
                    stream.write(text)
            yield
        finally:
            for path, text in before.items():
                with open(path, "w", encoding="utf-8") as stream:
                    stream.write(text)

    def keep_work(self, crate):
        """Sets aside what the checks of a crate have kept so far."""
        copy_work(f"{self.folder_of(crate)}/out/incremental", f"{self.room}/{crate}.kept")

    def restore_work(self, crate):
        """Lets the next check of a crate begin with what was set aside, and not with what one of an edit has kept."""
        copy_work(f"{self.room}/{crate}.kept", f"{self.folder_of(crate)}/out/incremental")

    def put_edits(self, crate, edits):
        """Puts edits where rt must-fail looks for them."""
        folder = f"{self.folder_of(crate)}/must-fail"
        shutil.rmtree(folder, ignore_errors=True)
        os.makedirs(folder)
        for it in edits:
            with open(f"{folder}/{it.name}", "w", encoding="utf-8") as stream:
                stream.write(it.text)

    def run(self, log, folder, *words):
        """Runs a command in a folder of the tree with its output in a log. Returns its status and what it said."""
        path = f"{self.room}/{log}.log"
        with open(path, "wb") as stream:
            how = {"cwd": f"{self.room}/tree/{folder}", "stdin": subprocess.DEVNULL, "stdout": stream, "stderr": stream}
            ran = subprocess.run(words, env={**os.environ, "TMPDIR": f"{self.room}/temporary"}, check=False, **how)
        with open(path, encoding="utf-8", errors="replace") as stream:
            return ran.returncode, stream.read()
