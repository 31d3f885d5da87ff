"""A network that owns its tables."""
from __future__ import annotations

import ctypes
from dataclasses import astuple, dataclass
from enum import IntEnum
from typing import Callable, NamedTuple

from . import calls
from .refusals import REFUSALS, Broken, Short, Tables

END = 2**32 - 1
"""No row: the end of a list, and what a vacant row holds in its links and ends."""

NODE_ROWS = 16_384
"""The most node rows that a network can have."""

EDGE_ROWS = 65_536
"""The most edge rows that a network can have."""

_FIRST_LENGTH = 64


class EdgeDirection(IntEnum):
    """The two lists that every node has."""

    OUTGOING = 0
    INCOMING = 1


class EdgeRemoved(NamedTuple):
    """An edge that was taken out."""

    weight: int
    moved: int | None
    """The old number of the row that took its place, if one did."""
    rows: int
    """The edge rows read."""


class NodeRemoved(NamedTuple):
    """A node that was taken out."""

    weight: int
    rows: int
    """The edge rows read, those of the check aside."""
    edge_weights: list[int]
    """The register numbers of its edges, in the order of `Network.edge_weights`."""


class EdgeReference(NamedTuple):
    """An edge as a walk meets it: from the node where it started."""

    number: int
    source: int
    target: int


class Walker:
    """Where a walk around a node stands. It is lent to each step, and takes no hold of the network."""

    def __init__(self, start: int, outgoing: int, incoming: int):
        self._cells = calls.cells("u32", (start, outgoing, incoming))

    def __repr__(self) -> str:
        return f"Walker{tuple(self._cells)}"

    def __eq__(self, other: object) -> bool:
        return isinstance(other, Walker) and list(self._cells) == list(other._cells)


@dataclass
class Rows:
    """The five tables and the two counts, as `Network.tables` gives them."""

    weights: list[int]
    heads: list[int]
    registers: list[int]
    links: list[int]
    ends: list[int]
    n: int
    m: int


class Network:
    """A network of waterways, with the names of graph.rs's `UnGraph`.

    Nodes are catchments, which weigh their total; edges are open waterways, which weigh their register
    number. Both are known by the number of their row, from 0, and a removal moves the last row into the
    place of the one that goes. What a call cannot serve it refuses by an exception, `Refused`, and then
    nothing has changed. A number that no cell can hold is a ValueError.

    A network may have a directory, which every call then keeps in step: no two edges bear one register
    number, each number has a cell, and edges are found and taken out by it. Then a call that gives an edge a
    number is also refused Beyond where there is no cell for it, and Taken where its entry names another row;
    and one whose edge the directory does not name is refused Broken.
    """

    def __init__(self, nodes: int = 256, edges: int = 1_024, directory: int | None = None):
        """An empty network with room for so many nodes and edges, and a directory of so many cells if any."""
        if not (0 <= nodes <= NODE_ROWS and 0 <= edges <= EDGE_ROWS):
            raise Tables
        self._tables = {}
        for tables, rows in (calls.NODE_TABLES, nodes), (calls.EDGE_TABLES, edges):
            for name, (kind, width) in tables.items():
                self._tables[name] = table = calls.room(kind, width * rows)
                # A vacant row: weight 0, and END, which has every bit set, in its links and ends.
                if width == 2:
                    ctypes.memset(table, 0xFF, ctypes.sizeof(table))
        self._counts = {"n": ctypes.c_uint32(0), "m": ctypes.c_uint32(0)}
        self._directory = None
        if directory is not None:
            self._directory = calls.room("u32", directory)
            ctypes.memset(self._directory, 0xFF, ctypes.sizeof(self._directory))

    @classmethod
    def from_tables(cls, rows: Rows, directory: list[int] | None = None) -> Network:
        """A network on tables, and a directory if any, that may hold anything.

        What a call cannot serve on them it refuses.
        """
        network = cls(0, 0)
        if directory is not None:
            network._directory = calls.cells("u32", directory)
        for name, (kind, _) in calls.TABLES.items():
            network._tables[name] = calls.cells(kind, getattr(rows, name))
        for name, count in network._counts.items():
            count.value = calls.number(getattr(rows, name), "u32", name)
        return network

    @classmethod
    def from_image(
        cls, image: bytes, nodes: int = NODE_ROWS, edges: int = EDGE_ROWS, directory: int | None = None
    ) -> Network:
        """The network that an image has, in tables of so many rows, and with a directory of so many cells."""
        network = cls(nodes, edges, directory)
        network.image_read(image)
        return network

    def tables(self) -> Rows:
        """The tables as they are, vacant rows too."""
        tables = {name: list(table) for name, table in self._tables.items()}
        return Rows(**tables, **{name: count.value for name, count in self._counts.items()})

    def directory(self) -> list[int] | None:
        """The cells of the directory: for each register number the row that bears it, or END."""
        return None if self._directory is None else list(self._directory)

    def __eq__(self, other: object) -> bool:
        if not isinstance(other, Network) or self.directory() != other.directory():
            return False
        return astuple(self.tables()) == astuple(other.tables())

    def __repr__(self) -> str:
        return f"<Network of {self.node_count()} nodes and {self.edge_count()} edges>"

    # Rows

    def node_count(self) -> int:
        """How many nodes there are."""
        return self._counts["n"].value

    def edge_count(self) -> int:
        """How many edges there are."""
        return self._counts["m"].value

    def add_node(self, weight: int) -> int:
        """One more node; its number. Refused Full."""
        return self._ask("add_node", weight)[0]

    def node_weight(self, a: int) -> int:
        """The weight of a node. Refused NoNode."""
        return self._ask("node_weight", a)[0]

    def set_node_weight(self, a: int, weight: int) -> None:
        """Sets the weight of a node. Refused NoNode."""
        self._ask("set_node_weight", a, weight)

    def add_edge(self, a: int, b: int, weight: int) -> int:
        """One more edge, from `a` to `b`; its number. Refused Full, NoNode."""
        return self._ask("add_edge", a, b, weight)[0]

    def update_edge(self, a: int, b: int, weight: int) -> int:
        """Sets the weight of the edge between `a` and `b`, or adds one; its number.

        Refused Broken, Full, NoNode.
        """
        return self._ask("update_edge", a, b, weight)[0]

    def edge_weight(self, e: int) -> int:
        """The weight of an edge, its register number. Refused NoEdge."""
        return self._ask("edge_weight", e)[0]

    def set_edge_weight(self, e: int, weight: int) -> None:
        """Sets the weight of an edge. Refused NoEdge."""
        self._ask("set_edge_weight", e, weight)

    def find_number(self, r: int) -> int:
        """The edge that bears register number `r`, by the directory. Refused Beyond, Nothing, Broken.

        A network without a directory is taken as one with no cell: Beyond.
        """
        return self._ask("dir_find_number", r)[0]

    def edge_endpoints(self, e: int) -> tuple[int, int]:
        """Source and target of an edge. Refused NoEdge."""
        return self._ask("edge_endpoints", e)

    def first_edge(self, a: int, direction: EdgeDirection) -> int:
        """The first edge of a node's list. Refused NoNode, or Nothing where it is empty."""
        return self._ask("first_edge", a, direction)[0]

    def next_edge(self, e: int, direction: EdgeDirection) -> int:
        """The edge after an edge. Refused NoEdge, or Nothing where it is the last."""
        return self._ask("next_edge", e, direction)[0]

    def all_edge_weights(self) -> list[int]:
        """The weights of all edges, in row order."""
        items = calls.room("u32", min(self.edge_count(), len(self._tables["registers"])))
        self._ask("all_edge_weights", items)
        return list(items)

    def clear(self) -> None:
        """Takes out all nodes and edges."""
        self._ask("clear")

    def clear_edges(self) -> None:
        """Takes out all edges."""
        self._ask("clear_edges")

    # Lists

    def find_edge(self, a: int, b: int) -> int:
        """The first edge of `a` whose far end is `b`. Refused NoNode, Broken, or Nothing."""
        return self._ask("find_edge", a, b)[0]

    def contains_edge(self, a: int, b: int) -> bool:
        """Whether there is an edge between `a` and `b`. A missing node has none. Refused Broken."""
        return self._ask("contains_edge", a, b)[0] == 1

    def neighbors(self, a: int) -> list[int]:
        """The neighbours of a node: along its outgoing list, then along its incoming one without self-loops.

        Parallel edges repeat. A missing node has none. Refused Broken, as every walk.
        """
        return self._walk("neighbors", a)[0]

    def edge_weights(self, a: int) -> list[int]:
        """The weights of the edges of the neighbour walk."""
        return self._walk("edge_weights", a)[0]

    def edges(self, a: int) -> list[EdgeReference]:
        """The edges of the neighbour walk, the ends of incoming ones turned round."""
        numbers, sources, targets = self._walk("edges", a)
        return [EdgeReference(*edge) for edge in zip(numbers, sources, targets)]

    def edges_between(self, a: int, b: int) -> list[int]:
        """The numbers of the edges of the neighbour walk whose far end is `b`."""
        return self._walk("edges_between", a, b)[0]

    def edges_mut(self, a: int) -> list[int]:
        """The numbers of the edges of a node, incoming ones first; a self-loop comes twice."""
        return self._walk("edges_mut", a)[0]

    def edge_weights_mut(self, a: int) -> list[int]:
        """The edges whose weights `UnGraph` hands out to be changed: those of `edges_mut`."""
        return self._walk("edge_weights_mut", a)[0]

    def walker(self, a: int) -> Walker:
        """A walker at the heads of a node's two lists; `step` moves it on."""
        walker = Walker(0, 0, 0)
        self._ask("walker_new", a, walker._cells)
        return walker

    def step(self, walker: Walker) -> int:
        """The next neighbour. Refused Broken, or Nothing where the walker is at its end."""
        return self._ask("walker_next", walker._cells)[0]

    def sum_around(self, a: int) -> int:
        """The sum of the weights of a node's neighbours. Refused NoNode, Broken."""
        return self._ask("sum_around", a)[0]

    def check(self) -> int:
        """The rows that the check read. Refused Broken, which says where the first fault is."""
        code, (rows, direction, node) = self._call("check")
        if code == Broken.number:
            fault = Broken()
            fault.direction, fault.node = EdgeDirection(direction), node
            raise fault
        _raise(code)
        return rows

    # Removals

    def remove_edge(self, e: int) -> EdgeRemoved:
        """Takes out an edge; the last row takes its place. Refused NoEdge, Broken."""
        return _removed(*self._ask("remove_edge", e))

    def remove_number(self, r: int) -> EdgeRemoved:
        """Takes out the edge that bears register number `r`: `find_number`, then `remove_edge`."""
        return _removed(*self._ask("dir_remove_number", r))

    def remove_node(self, a: int) -> NodeRemoved:
        """Takes out a node with its edges; the last node takes its place. Refused NoNode, Broken."""
        (weight, rows, _), (weights,) = self._grown("remove_node", 1, a)
        return NodeRemoved(weight, rows, weights)

    def remove_node_with(self, a: int, edge_callback: Callable[[int], None]) -> NodeRemoved:
        """The same; then the weights of its edges go to `edge_callback`, one after the other."""
        removed = self.remove_node(a)
        for weight in removed.edge_weights:
            edge_callback(weight)
        return removed

    # Images

    def image_write(self) -> bytes:
        """The network as an image. Refused Broken where it is not sound."""
        nodes = min(self.node_count(), len(self._tables["weights"]))
        edges = min(self.edge_count(), len(self._tables["registers"]))
        image = calls.room("u8", 13 + 12 * nodes + 20 * edges)
        length = self._ask("image_write", image)[0]
        return bytes(image[:length])

    def image_read(self, image: bytes) -> None:
        """The network that an image has, in place of this one. Refused NotImage, Version, Full, Broken.

        An image with broken links leaves this one empty. So does, with a directory, one with a number that
        has no cell, Beyond, or that two edges bear, Taken. Every other refusal leaves it as it was.
        """
        self._ask("image_read", (ctypes.c_uint8 * len(image)).from_buffer_copy(image))

    # How a call is made

    def _call(self, name: str, *arguments) -> tuple[int, tuple[int, ...]]:
        """Makes a call, with the directory where there is one: its answer number, and its values."""
        if self._directory is not None and f"dir_{name}" in calls.PARAMETERS:
            name = f"dir_{name}"
        given, handed, answers = iter(arguments), [], []
        for table in self._tables.values():
            handed += [table, len(table)]
        for parameter in calls.PARAMETERS[name]:
            match parameter.kind:
                case "count" | "changed count":
                    handed.append(self._counts[parameter.name])
                case "number":
                    handed.append(calls.number(next(given), parameter.type, parameter.name))
                case "filled" | "read":
                    table = next(given)
                    handed += [table, len(table)]
                case "directory":
                    table = self._directory if self._directory is not None else calls.room("u32", 0)
                    handed += [table, len(table)]
                case "walker":
                    handed.append(next(given))
                case "answer":
                    answers.append(calls.TYPES[parameter.type](0))
                    handed.append(answers[-1])
        code = getattr(calls.library(), f"net_{name}")(*handed)
        return code, tuple(answer.value for answer in answers)

    def _ask(self, name: str, *arguments) -> tuple[int, ...]:
        """Makes a call and gives its values, or raises its refusal."""
        code, values = self._call(name, *arguments)
        _raise(code)
        return values

    def _grown(self, name: str, tables: int, *arguments) -> tuple[tuple[int, ...], list[list[int]]]:
        """The values and the items of a call that fills so many tables and ends in how many items there are.

        The tables grow while the call is refused Short, which has then changed nothing.
        """
        length = _FIRST_LENGTH
        while True:
            filled = [calls.room("u32", length) for _ in range(tables)]
            try:
                values = self._ask(name, *arguments, *filled)
            except Short:
                length *= 2
            else:
                return values, [table[: values[-1]] for table in filled]

    def _walk(self, name: str, *arguments) -> list[list[int]]:
        """The items of a walk."""
        tables = sum(parameter.kind == "filled" for parameter in calls.PARAMETERS[name])
        return self._grown(name, tables, *arguments)[1]


def _removed(weight: int, moved: int, rows: int) -> EdgeRemoved:
    return EdgeRemoved(weight, None if moved == END else moved, rows)


def _raise(code: int) -> None:
    if code:
        raise REFUSALS[code]
