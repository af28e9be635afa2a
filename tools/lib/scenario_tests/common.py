"""What the tests of bin/scenario have in common."""
import contextlib
import csv
import io
import os
import subprocess
import sys
import tempfile
import tomllib

from scenario import command

TOP = os.path.realpath(f"{os.path.dirname(__file__)}/../../..")
# The program of each command, with the word of the command: tools/check_scenarios says it.
COMMANDS = {}
HEAD = 'until = "20 s"\n[[topic]]\nname = "news"\n'
CONDITIONS = {**os.environ, "GLIBC_TUNABLES": ""}


def run(*words, stdin=b"", python=None):
    """Runs bin/scenario."""
    command = [python or sys.executable, f"{TOP}/bin/scenario", *words]
    return subprocess.run(command, input=stdin, capture_output=True, check=False)


def called(*words):
    """Runs bin/scenario in this process, which is faster."""
    output, errors, status = io.TextIOWrapper(io.BytesIO(), "utf-8"), io.StringIO(), 0
    with contextlib.redirect_stdout(output), contextlib.redirect_stderr(errors):
        try:
            command.main(words, "")
        except SystemExit as end:
            status = end.code
    return subprocess.CompletedProcess(words, status, output.buffer.getvalue(), errors.getvalue().encode())


def in_file(text, *words, name="it.toml"):
    """Runs bin/scenario on a file with this text. The name of its folder is cut off from what is said."""
    with tempfile.TemporaryDirectory() as folder:
        with open(f"{folder}/{name}", "wb") as file:
            file.write(text.encode())
        ran = called(*words, f"{folder}/{name}")
        ran.stderr = ran.stderr.replace(f"{folder}/".encode(), b"")
        return ran


def printed(text, *words):
    """The plain scenario of a description, as a text."""
    ran = in_file(text, *words)
    assert ran.returncode == 0, ran.stderr.decode()
    return ran.stdout.decode()


def plain(text, *words):
    """The plain scenario of a description, as values."""
    return tomllib.loads(printed(text, *words))


def by_program(name, text, *words):
    """What a command prints of a plain scenario."""
    ran = subprocess.run([*COMMANDS[name], *words], input=text.encode(), capture_output=True, check=False, env=CONDITIONS)
    assert ran.returncode == 0, ran.stderr.decode() + ran.stdout.decode()
    return ran.stdout.decode()


def report(text):
    """The lines of a description's report."""
    return by_program("gossip_sim", printed(text)).splitlines()


def figures(text):
    """The figures of a description's run: of each message, and of each peer by its name."""
    return figures_of(printed(text))


def figures_of(scenario):
    """The same of a plain scenario."""
    messages, _, _, peers = by_program("gossip_stats", scenario, "--csv").split("\n\n")
    rows = {it["peer"]: it for it in csv.DictReader(peers.splitlines())}
    return list(csv.DictReader(messages.splitlines())), rows
