"""The commands that take a description instead of a scenario: in a tree whose program prints what it is given."""
import os
import shlex
import shutil
import subprocess
import tempfile
import unittest

from sweep_runs import NOTHING

from .common import COMMANDS, CONDITIONS, TOP, called

DESCRIPTION = """until = "5 s"
[network]
kind = "ring"
[[topic]]
name = "news"
[[group]]
prefix = "n"
count = 4
[[load]]
peer = "n"
every = "1 s"
"""
SHELL = "gossip_sim gossip_stats gossip_picture".split()


def as_true(name):
    """A line of a script that runs a true command on what the script is given."""
    return f'exec {shlex.join(COMMANDS[name])} "$@"'


class Wrappers(unittest.TestCase):
    def setUp(self):
        self.folder = tempfile.mkdtemp()
        self.addCleanup(shutil.rmtree, self.folder)
        os.mkdir(f"{self.folder}/bin")
        for it in (*SHELL, "sweep", "scenario"):
            shutil.copy(f"{TOP}/bin/{it}", f"{self.folder}/bin/{it}")
        shutil.copytree(f"{TOP}/bin/lib", f"{self.folder}/bin/lib")
        with open(f"{self.folder}/crates.txt", "w", encoding="utf-8") as file:
            file.write("gossip_sim:\n")
        self.put_program()
        for name, text in (("it.toml", DESCRIPTION), ("no.toml", DESCRIPTION.replace("ring", "rnig"))):
            with open(f"{self.folder}/{name}", "w", encoding="utf-8") as file:
                file.write(text)

    def put_program(self, **scripts):
        """Puts a program there which prints what it is given. Words such as `stats` have other scripts."""
        path = f"{self.folder}/crates/gossip_sim/out/gossip_sim"
        os.makedirs(os.path.dirname(path), exist_ok=True)
        with open(path, "w", encoding="utf-8") as file:
            file.write("#!/bin/sh\n")
            for word, script in scripts.items():
                file.write(f'if [ "${{1-}}" = {word} ]; then\nshift\n{script}\nfi\n')
            file.write("exec cat\n")
        os.chmod(path, 0o755)

    def run_in_tree(self, command, *words, stdin=b""):
        words = [f"bin/{command}", *words]
        ran = subprocess.run(words, cwd=self.folder, input=stdin, capture_output=True, check=False, env=CONDITIONS)
        return ran.returncode, ran.stdout, ran.stderr.decode()

    def test_a_description_is_made_into_a_scenario(self):
        plain = called(f"{self.folder}/it.toml").stdout
        for it in SHELL:
            self.assertEqual(self.run_in_tree(it, "--proved", "it.toml"), (0, plain, ""), it)
            self.assertEqual(self.run_in_tree(it, "--proved", "--seed", "2", "it.toml"), (0, plain, ""), it)

    def test_a_description_that_is_refused(self):
        why = 'scenario: no.toml:3: [network]: kind: "rnig" is not known here; the nearest is ring\n'
        why += "scenario: no.toml was not read to its end, so there may be more faults\n"
        for it in SHELL:
            self.assertEqual(self.run_in_tree(it, "--proved", "no.toml"), (1, b"", why), it)
        self.assertEqual(self.run_in_tree("sweep", "no.toml"), (1, b"", why))

    def test_a_plain_scenario_is_left_as_it_is(self):
        with open(f"{self.folder}/plain.toml", "wb") as file:
            file.write(b"# no [network]\nseed = 1\n")
        for words in ([], ["-"], ["--seed", "2"], ["/dev/stdin"]):
            self.assertEqual(self.run_in_tree("gossip_sim", "--proved", *words, stdin=b"[load]\n"), (0, b"[load]\n", ""))
        self.assertEqual(self.run_in_tree("gossip_sim", "--proved", "plain.toml"), (0, b"# no [network]\nseed = 1\n", ""))

    def test_a_change_of_what_only_descriptions_have(self):
        why = "network.degree: network is a key of the description, which is expanded before --set; "
        more = "change it in it.toml, or take seeds of the network by bin/sweep --networks\n"
        for it in SHELL:
            ended = self.run_in_tree(it, "--proved", "--set", "network.degree=3", "it.toml")
            self.assertEqual(ended, (64, b"", f"{it}: {why}{more}"))
        ended = self.run_in_tree("sweep", "--set", "network.degree=3,4", "it.toml")
        self.assertEqual(ended, (64, b"", f"sweep: {why}--networks takes seeds of it; --help says more\n"))

    def test_a_sweep_of_networks(self):
        # (the stand-in prints what it is given, and so each network has a report of its own)
        seen = f'"{self.folder}/$$.seen"'
        self.put_program(stats=f"cat >{seen}\n{as_true('gossip_stats')} <{seen}")
        with open(f"{self.folder}/it.toml", "w", encoding="utf-8") as file:
            file.write(DESCRIPTION.replace('"ring"', '"random"\ndegree = 3').replace("count = 4", "count = 20"))
        ended = self.run_in_tree("sweep", "--networks", "4,5", "--columns", "status,messages", "it.toml")
        self.assertEqual(ended, (0, b"network,status,messages\n4,0,6\n5,0,6\n", ""))
        seen = set()
        for it in os.listdir(self.folder):
            if it.endswith(".seen"):
                with open(f"{self.folder}/{it}", "rb") as file:
                    seen.add(file.read())
        # (a sweep learns its columns by a run of its own)
        networks = {called("--seed", it, f"{self.folder}/it.toml").stdout for it in ("4", "5")}
        self.assertEqual(seen, networks | {NOTHING})
        ended = self.run_in_tree("sweep", "--list", "--networks", "4..5", "it.toml")
        self.assertEqual([it.split(" --networks ")[1].split()[0] for it in ended[1].decode().splitlines()], ["4", "5"])

    def test_networks_that_can_not_be(self):
        for text, values, why in (
            (DESCRIPTION, "a", "--networks takes seeds, as 1..5, not a"),
            ("seed = 1\n", "1", "--networks goes with a description, and it.toml is a plain scenario"),
            (
                DESCRIPTION.replace("[network]", "[network]\nseed = 3"),
                "1",
                "[network] of it.toml has a seed of its own, so --networks would give one network: leave that seed out",
            ),
        ):
            with open(f"{self.folder}/it.toml", "w", encoding="utf-8") as file:
                file.write(text)
            ended = self.run_in_tree("sweep", "--networks", values, "it.toml")
            self.assertEqual(ended, (64, b"", f"sweep: {why}; --help says more\n"))

    def test_a_refused_row_has_the_key(self):
        self.put_program(stats=as_true("gossip_stats"), check=as_true("gossip_check"))
        with open(f"{self.folder}/it.toml", "a", encoding="utf-8") as file:
            file.write("[params]\nd_low = 7\n")
        words = "scenario refused: 1; `params.d_low` is 7: it must not be above `d`, which is 6"
        for options in ([], ["--proved"]):
            ended = self.run_in_tree("sweep", *options, "--columns", "message", "it.toml")
            self.assertEqual(ended, (1, f'message\n"{words}"\n'.encode(), f"sweep: 1 of 1 runs failed, first the one: {words}\n"))

    def test_a_sweep_of_a_description(self):
        self.put_program(stats=as_true("gossip_stats"))
        ended = self.run_in_tree("sweep", "--columns", "status,messages", "it.toml")
        # (one a second, from 0 to 5)
        self.assertEqual(ended, (0, b"status,messages\n0,6\n", ""))
