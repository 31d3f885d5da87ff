"""The calls, on network A, on damaged tables and on images."""
import doctest
import unittest

import waterways
from waterways import (
    END,
    Beyond,
    Broken,
    EdgeDirection,
    Full,
    Network,
    NoEdge,
    NoNode,
    Nothing,
    NotImage,
    Refused,
    Rows,
    Tables,
    Taken,
    Version,
)

OUT, IN = EdgeDirection


def network_a(nodes: int = 3, edges: int = 4, directory: int | None = None) -> Network:
    """The order's network A."""
    network = Network(nodes, edges, directory)
    for total in 5, -3, 8:
        network.add_node(total)
    for source, target, register in (0, 1, 10), (1, 2, 11), (0, 2, 12), (1, 1, 13):
        network.add_edge(source, target, register)
    return network


def damaged(**cells: tuple[int, int]) -> Network:
    """Network A with one cell of some tables changed: (cell, value)."""
    rows = network_a().tables()
    for table, (cell, value) in cells.items():
        getattr(rows, table)[cell] = value
    return Network.from_tables(rows)


class NetworkA(unittest.TestCase):
    def setUp(self):
        self.network = network_a()

    def refused(self, why: type[Refused], call, *arguments):
        """The call is refused, and all is as it was."""
        before = self.network.tables()
        with self.assertRaises(why) as caught:
            call(*arguments)
        self.assertEqual(self.network.tables(), before)
        return caught.exception

    def test_rows(self):
        network = self.network
        self.assertEqual((network.node_count(), network.edge_count()), (3, 4))
        self.assertEqual([network.node_weight(a) for a in range(3)], [5, -3, 8])
        self.assertEqual(network.all_edge_weights(), [10, 11, 12, 13])
        self.assertEqual(network.edge_endpoints(2), (0, 2))
        self.assertEqual(network.edge_weight(2), 12)
        self.assertEqual((network.first_edge(1, OUT), network.first_edge(1, IN)), (3, 3))
        self.assertEqual((network.next_edge(3, OUT), network.next_edge(3, IN)), (1, 0))
        network.set_node_weight(1, -2_147_483_648)
        network.set_edge_weight(1, 4_294_967_295)
        self.assertEqual((network.node_weight(1), network.edge_weight(1)), (-2_147_483_648, 4_294_967_295))

    def test_missing_rows(self):
        network = self.network
        self.refused(NoNode, network.node_weight, 3)
        self.refused(NoNode, network.set_node_weight, 3, 1)
        self.refused(NoEdge, network.edge_weight, 4)
        self.refused(NoEdge, network.edge_endpoints, END)
        self.refused(NoEdge, network.set_edge_weight, 4, 1)
        self.refused(NoNode, network.first_edge, 3, OUT)
        self.refused(Nothing, network.first_edge, 2, OUT)
        self.refused(NoEdge, network.next_edge, 4, IN)
        self.refused(Nothing, network.next_edge, 1, OUT)
        self.refused(NoEdge, network.remove_edge, 4)
        self.refused(NoNode, network.remove_node, 3)
        why = self.refused(NoNode, network.sum_around, 3)
        self.assertEqual((why.number, str(why)), (3, "refused 3: the named node is not there"))

    def test_full_tables(self):
        network = self.network
        self.refused(Full, network.add_node, 1)
        self.refused(Full, network.add_edge, 0, 9, 1)
        self.refused(Full, network.update_edge, 0, 0, 1)
        self.assertEqual(network.update_edge(2, 1, 21), 1)
        self.assertEqual(network.edge_weight(1), 21)
        with self.assertRaises(NoNode):
            network_a(3, 5).add_edge(0, 9, 1)

    def test_numbers_that_no_cell_holds(self):
        network = self.network
        for call, arguments in (
            (network.add_node, (2_147_483_648,)),
            (network.node_weight, (-1,)),
            (network.add_edge, (0, 1, 2**32)),
            (network.remove_edge, (2**32,)),
        ):
            before = network.tables()
            with self.assertRaises(ValueError):
                call(*arguments)
            self.assertEqual(network.tables(), before)
        with self.assertRaises(TypeError):
            network.node_weight(1.0)

    def test_walks(self):
        network = self.network
        self.assertEqual([network.neighbors(a) for a in range(4)], [[2, 1], [1, 2, 0], [0, 1], []])
        self.assertEqual(network.edge_weights(1), [13, 11, 10])
        self.assertEqual(network.edges(2), [(2, 2, 0), (1, 2, 1)])
        self.assertEqual(network.edges_between(1, 2), [1])
        self.assertEqual((network.edges_mut(1), network.edge_weights_mut(1)), ([3, 0, 3, 1],) * 2)
        self.assertEqual((network.find_edge(2, 1), network.find_edge(1, 1)), (1, 3))
        self.refused(Nothing, network.find_edge, 0, 0)
        self.refused(NoNode, network.find_edge, 3, 0)
        self.assertTrue(network.contains_edge(1, 0))
        self.assertFalse(network.contains_edge(9, 0))
        self.assertEqual(network.sum_around(1), 10)

    def test_a_walker(self):
        network = self.network
        walker = network.walker(1)
        self.assertEqual([network.step(walker) for _ in range(3)], [1, 2, 0])
        for _ in range(2):
            self.refused(Nothing, network.step, walker)
        self.assertEqual(walker, waterways.Walker(1, END, END))
        self.refused(Nothing, network.step, network.walker(7))

    def test_an_edge_goes(self):
        network = self.network
        self.assertEqual(network.remove_edge(0), (10, 3, 2))
        rows = network.tables()
        self.assertEqual(rows.registers, [13, 11, 12, 0])
        self.assertEqual(rows.links, [1, END, END, END, END, 1, END, END])
        self.assertEqual(rows.ends, [1, 1, 1, 2, 0, 2, END, END])
        self.assertEqual(network_a().remove_edge(3), (13, None, 0))

    def test_a_node_goes(self):
        self.assertEqual(self.network.remove_node(0), (5, 2, [12, 10]))
        given = []
        removed = network_a().remove_node_with(2, given.append)
        self.assertEqual((removed.weight, removed.rows, given), (8, 1, [12, 11]))

    def test_more_items_than_a_table_has_at_first(self):
        network = Network(200, 400)
        for total in range(200):
            network.add_node(total)
        for b in range(200):
            network.add_edge(7, b, b)
        self.assertEqual(network.neighbors(7), list(range(199, -1, -1)))
        self.assertEqual(network.edges(7)[0], (199, 7, 199))
        self.assertEqual(network.remove_node(7).edge_weights, list(range(199, -1, -1)))
        self.assertEqual((network.node_count(), network.edge_count()), (199, 0))

    def test_clears(self):
        network = self.network
        network.clear_edges()
        self.assertEqual((network.node_count(), network.edge_count(), network.neighbors(1)), (3, 0, []))
        network.clear()
        self.assertEqual(network, Network(3, 4))

    def test_what_it_looks_like(self):
        self.assertEqual(repr(self.network), "<Network of 3 nodes and 4 edges>")


class Damaged(unittest.TestCase):
    def test_a_list_that_goes_round(self):
        network = damaged(links=(0, 0))
        for call, arguments in (
            (network.neighbors, (0,)),
            (network.find_edge, (0, 0)),
            (network.sum_around, (0,)),
            (network.update_edge, (0, 0, 1)),
            (network.remove_node, (0,)),
            (network.image_write, ()),
        ):
            before = network.tables()
            with self.assertRaises(Broken) as caught:
                call(*arguments)
            self.assertEqual((caught.exception.number, str(caught.exception)), (6, "refused 6: broken links"))
            self.assertEqual(network.tables(), before)

    def test_where_the_first_fault_is(self):
        self.assertEqual(network_a().check(), 8)
        # A head past m; and edge 3 passed by, which then is in no incoming list: node n.
        for cell, node in ((3, 7), 1), ((3, 0), 3):
            with self.assertRaises(Broken) as caught:
                damaged(heads=cell).check()
            self.assertEqual((caught.exception.direction, caught.exception.node), (IN, node))
            self.assertEqual(str(caught.exception), f"refused 6: broken links, first incoming at node {node}")

    def test_tables_that_do_not_fit(self):
        for rows in (
            Rows([0], [END], [], [], [], 0, 0),
            Rows([0], [END, END], [], [], [], 2, 0),
            Rows([0] * 16_385, [END] * 32_770, [], [], [], 0, 0),
        ):
            network = Network.from_tables(rows)
            for call, arguments in (
                (network.add_node, (1,)),
                (network.check, ()),
                (network.neighbors, (0,)),
                (network.walker, (0,)),
                (network.all_edge_weights, ()),
                (network.image_read, (b"WNT",)),
                (network.clear, ()),
            ):
                with self.assertRaises(Tables):
                    call(*arguments)
            self.assertEqual(network.tables(), rows)
        for nodes, edges in (16_385, 0), (0, 65_537), (-1, 0):
            with self.assertRaises(Tables):
                Network(nodes, edges)


class Directory(unittest.TestCase):
    """Network A with a directory of 20 cells; its edges bear 10 to 13."""

    def setUp(self):
        self.network = network_a(3, 5, 20)

    def refused(self, why: type[Refused], call, *arguments):
        """The call is refused, and all is as it was."""
        before = self.network.tables(), self.network.directory()
        with self.assertRaises(why):
            call(*arguments)
        self.assertEqual((self.network.tables(), self.network.directory()), before)

    def entries(self) -> dict[int, int]:
        """The cells that name a row."""
        return {r: e for r, e in enumerate(self.network.directory()) if e != END}

    def test_by_number(self):
        network = self.network
        self.assertEqual(self.entries(), {10: 0, 11: 1, 12: 2, 13: 3})
        self.assertEqual(network.find_number(12), 2)
        self.refused(Beyond, network.find_number, 20)
        self.refused(Nothing, network.remove_number, 7)
        self.assertEqual(network.remove_number(10), (10, 3, 2))
        self.assertEqual(self.entries(), {11: 1, 12: 2, 13: 0})
        self.assertEqual(network.check(), 6)

    def test_numbers_are_given_once(self):
        network = self.network
        self.refused(NoNode, network.add_edge, 0, 9, 20)
        self.refused(Beyond, network.add_edge, 0, 1, 20)
        self.refused(Taken, network.add_edge, 0, 1, 10)
        self.refused(Taken, network.update_edge, 2, 1, 10)
        self.refused(NoEdge, network.set_edge_weight, 4, 10)
        self.refused(Taken, network.set_edge_weight, 1, 10)
        self.assertEqual(network.update_edge(2, 1, 11), 1)
        self.assertEqual(network.update_edge(2, 1, 7), 1)
        network.set_edge_weight(0, 0)
        self.assertEqual(network.add_edge(0, 1, 11), 4)
        self.assertEqual(self.entries(), {0: 0, 7: 1, 12: 2, 13: 3, 11: 4})
        self.assertEqual(network.check(), 10)

    def test_it_follows(self):
        network = self.network
        self.assertEqual(network.remove_node(0), (5, 2, [12, 10]))
        self.assertEqual(self.entries(), {11: 1, 13: 0})
        network.remove_edge(0)
        self.assertEqual(self.entries(), {11: 0})
        network.clear_edges()
        self.assertEqual(self.entries(), {})
        network.add_edge(0, 1, 19)
        network.clear()
        self.assertEqual(network, Network(3, 5, 20))

    def test_a_wrong_one(self):
        rows, cells = self.network.tables(), self.network.directory()
        for r, e in (10, END), (10, 1), (7, 0), (7, 4):
            wrong = Network.from_tables(rows, cells[:r] + [e] + cells[r + 1 :])
            with self.assertRaises(Broken) as caught:
                wrong.check()
            self.assertEqual((caught.exception.direction, caught.exception.node), (IN, 4))
            for call, arguments in (wrong.remove_node, (0,)), (wrong.image_write, ()):
                with self.assertRaises(Broken):
                    call(*arguments)
        wrong = Network.from_tables(rows, cells[:13] + [0] + cells[14:])
        for call, number in (wrong.remove_edge, 0), (wrong.remove_number, 10), (wrong.find_number, 13):
            with self.assertRaises(Broken):
                call(number)

    def test_images(self):
        image = self.network.image_write()
        self.assertEqual(image, network_a().image_write())
        self.assertEqual(Network.from_image(image, 3, 5, 20), self.network)
        # Edge 0 bears 20, or 11 as edge 1 does: all is empty then.
        for number, why in (20, Beyond), (11, Taken):
            network = network_a(3, 5, 20)
            with self.assertRaises(why):
                network.image_read(image[:49] + bytes([number]) + image[50:])
            self.assertEqual(network, Network(3, 5, 20))

    def test_without_one(self):
        network = network_a()
        self.assertIsNone(network.directory())
        network.set_edge_weight(0, 13)
        for call in network.find_number, network.remove_number:
            with self.assertRaises(Beyond):
                call(13)
        self.assertEqual(network.check(), 8)
        self.assertNotEqual(network_a(3, 5), self.network)


class Images(unittest.TestCase):
    def test_round_trips(self):
        image = network_a().image_write()
        self.assertEqual(len(image), 13 + 12 * 3 + 20 * 4)
        self.assertEqual(Network.from_image(image, 3, 4), network_a())
        self.assertEqual(Network.from_image(image).image_write(), image)

    def test_the_order_s_image(self):
        network = Network(1, 0)
        network.add_node(-3)
        image = bytes.fromhex("574E54 0100 01000000 00000000 FDFFFFFF") + b"\xff" * 8
        self.assertEqual(network.image_write(), image)

    def test_refusals(self):
        image = network_a().image_write()
        network = network_a()
        for damage, why in (
            (b"", NotImage),
            (image[:-1], NotImage),
            (image + b"\0", NotImage),
            (b"X" + image[1:], NotImage),
            (image[:3] + b"\2" + image[4:], Version),
            (image[:5] + b"\4" + image[6:], Full),
        ):
            with self.assertRaises(why):
                network.image_read(damage)
            self.assertEqual(network, network_a())
        with self.assertRaises(Broken):
            network.image_read(image[:17] + b"\0" + image[18:])
        self.assertEqual(network, Network(3, 4))


def load_tests(loader, tests, pattern):
    """The session in the module's own words is a test, too."""
    tests.addTests(doctest.DocTestSuite(waterways))
    return tests


if __name__ == "__main__":
    unittest.main()
