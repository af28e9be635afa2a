"""Networks: networkx says whether each has the degrees that it must have, and whether all peers are joined."""
import unittest

from scenario import networks
from scenario.draws import Draws

from .common import plain
from .packages import module

nx = module("networkx", "python3-networkx")
SIZES = 2, 3, 5, 8, 13, 40, 63, 64
GROUP = '[[group]]\nprefix = "n"\ncount = {}\n'


def graph(count, pairs):
    found = nx.Graph()
    found.add_nodes_from(range(count))
    found.add_edges_from(pairs)
    return found


def graph_of(text):
    """The network of a description."""
    scenario = plain('until = "1 s"\n' + text + '[[topic]]\nname = "news"\n')
    found = nx.Graph()
    found.add_nodes_from(it["name"] for it in scenario["peer"])
    found.add_edges_from((it["from"], it["to"]) for it in scenario["dial"])
    assert found.number_of_edges() == len(scenario["dial"])
    return found


def of_kind(keys, count=12, groups=None):
    return graph_of(f"[network]\n{keys}\n" + (groups or GROUP.format(count)))


class Networks(unittest.TestCase):
    def test_simple_kinds_are_those_of_networkx(self):
        for count in SIZES:
            for mine, theirs in (
                (networks.line(count), nx.path_graph(count)),
                (networks.ring(count), nx.cycle_graph(count)),
                (networks.full(count), nx.complete_graph(count)),
                (networks.star(count, 0), nx.star_graph(count - 1)),
            ):
                edges = {tuple(sorted(it)) for it in theirs.edges if it[0] != it[1]}
                self.assertEqual(set(mine), edges, count)

    def test_a_random_network_has_its_degree_and_joins_all(self):
        for count in SIZES:
            for degree in (2, 3, 4, 7, 8, count - 1):
                if not 2 <= degree < count:
                    continue
                for seed in range(4):
                    found = graph(count, networks.random(count, degree, Draws(seed)))
                    degrees = sorted(it for _, it in found.degree)
                    least = degree - (count * degree) % 2
                    self.assertEqual(degrees, [least] + [degree] * (count - 1), (count, degree, seed))
                    self.assertTrue(nx.is_connected(found), (count, degree, seed))

    def test_another_seed_makes_another_network(self):
        self.assertEqual(len({tuple(networks.random(40, 6, Draws(seed))) for seed in range(20)}), 20)
        self.assertEqual(networks.random(40, 6, Draws(7)), networks.random(40, 6, Draws(7)))

    def test_a_small_world_joins_all_and_keeps_its_sum_of_degrees(self):
        for count in (8, 20, 64):
            for part in (0, 100_000, 1_000_000):
                found = graph(count, networks.small_world(count, 4, part, Draws(part)))
                self.assertEqual(found.number_of_edges(), 2 * count)
                self.assertTrue(nx.is_connected(found))
                if part != 100_000:  # (so few pairs of few peers may all stay)
                    is_lattice = nx.is_isomorphic(found, nx.watts_strogatz_graph(count, 4, 0))
                    self.assertEqual(is_lattice, part == 0, count)

    def test_a_small_world_is_smaller_than_its_ring(self):
        ring = graph(64, networks.small_world(64, 4, 0, Draws(1)))
        small = graph(64, networks.small_world(64, 4, 300_000, Draws(1)))
        self.assertLess(nx.average_shortest_path_length(small), nx.average_shortest_path_length(ring) / 2)

    def test_clusters_are_joined_by_their_bridges_alone(self):
        for bridges in (1, 3):
            found = of_kind(f'kind = "clusters"\nclusters = 3\ndegree = 4\nbridges = {bridges}', 30)
            self.assertTrue(nx.is_connected(found))
            parts = [{f"n{it:02}" for it in range(first, first + 10)} for first in (1, 11, 21)]
            for part in parts:
                self.assertEqual({it for _, it in found.subgraph(part).degree}, {4})
                self.assertTrue(nx.is_connected(found.subgraph(part)))
            self.assertEqual(len(list(nx.edge_boundary(found, parts[0], parts[1]))), bridges)
            self.assertEqual(len(list(nx.edge_boundary(found, parts[1], parts[2]))), bridges)
            self.assertEqual(len(list(nx.edge_boundary(found, parts[0], parts[2]))), 0)

    def test_clusters_can_be_groups(self):
        groups = '[[group]]\nprefix = "east"\ncount = 5\n[[group]]\nprefix = "west"\ncount = 7\n'
        found = of_kind('kind = "clusters"\nclusters = ["east", "west"]\ndegree = 9\nbridges = 2', groups=groups)
        east = {it for it in found if it.startswith("east")}
        self.assertEqual(len(list(nx.edge_boundary(found, east))), 2)
        self.assertEqual({it for _, it in found.subgraph(east).degree}, {4})

    def test_a_description_has_its_network(self):
        for keys, theirs in (
            ('kind = "ring"', nx.cycle_graph(12)),
            ('kind = "line"', nx.path_graph(12)),
            ('kind = "full"', nx.complete_graph(12)),
            ('kind = "star"\nhub = "n05"', nx.star_graph(11)),
        ):
            self.assertTrue(nx.is_isomorphic(of_kind(keys), theirs), keys)
        self.assertEqual(of_kind('kind = "star"\nhub = "n05"').degree["n05"], 11)
        found = of_kind('kind = "random"\ndegree = 5')
        self.assertEqual({it for _, it in found.degree}, {5})
        self.assertTrue(nx.is_connected(of_kind('kind = "small_world"\ndegree = 4\nrewire = 0.3')))

    def test_a_group_that_stays_out_dials_for_itself(self):
        groups = GROUP.format(12) + '[[group]]\nprefix = "x"\ncount = 3\nnetwork = false\ndials = "n"\ndials_each = 4\n'
        found = of_kind('kind = "ring"', groups=groups)
        self.assertEqual([found.degree[it] for it in ("x1", "x2", "x3")], [4, 4, 4])
        self.assertTrue(nx.is_isomorphic(found.subgraph(it for it in found if it[0] == "n"), nx.cycle_graph(12)))

    def test_who_dials(self):
        def dials(dialer):
            text = f'until = "1 s"\n[network]\nkind = "full"\ndialer = "{dialer}"\n[[topic]]\nname = "news"\n'
            return {(it["from"] < it["to"]) for it in plain(text + GROUP.format(12))["dial"]}

        self.assertEqual((dials("first"), dials("last"), dials("random")), ({True}, {False}, {True, False}))
