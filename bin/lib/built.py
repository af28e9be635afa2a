"""The programs of commands and of crates, for the scripts in Python. A command such as gossip_stats is a word of the one program
gossip_sim. bin/lib/crates.sh says whether a proved program stands, and bin/lib/ready compiles those that are not proved."""
import os
import subprocess
import sys


# The commands that are a word of gossip_sim.
COMMANDS = "gossip_stats", "gossip_trace", "gossip_scores", "gossip_picture", "gossip_check", "gossip_edit"


def crate_of(name):
    return "gossip_sim" if name in COMMANDS else name


def words_of(name):
    """The word by which the program knows a command, as a list. It is empty where there is none."""
    return [name.removeprefix("gossip_")] if name in COMMANDS else []


def command_of(top, name):
    """The proved program of a command or a crate, and the word of the command."""
    crate = crate_of(name)
    return [f"{top}/crates/{crate}/out/{crate}", *words_of(name)]


def command_in(folder, name):
    """The same with a program of a folder. A file with the name of the command comes before gossip_sim."""
    file = f"{folder}/{name}"
    return [file] if os.path.isfile(file) else [f"{folder}/{crate_of(name)}", *words_of(name)]


def lack_of(top, name):
    """Why the proved program of a name can't be used: it is not there, or older than a source. Empty where it can."""
    words = ["bash", "-c", '. "$top/bin/lib/crates.sh"; lack_of "$1"', "", name]
    ran = subprocess.run(words, env={**os.environ, "top": top}, stdout=subprocess.PIPE, check=False)
    return ran.stdout.decode().strip()


def ready(top, tool, what, names, option=None):
    """The program of each name with its word, proved or not, by an option of bin/lib/ready. Ends the script where there is
    none, which is said on standard error."""
    words = [f"{top}/bin/lib/ready", *([option] if option else []), tool, what, *names]
    ran = subprocess.run(words, stdout=subprocess.PIPE, stdin=subprocess.DEVNULL, check=False)
    if ran.returncode:
        sys.exit(ran.returncode)
    return {name: [path, *words_of(name)] for name, path in zip(names, ran.stdout.decode().splitlines())}
