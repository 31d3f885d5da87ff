"""The waterway network, with the names of graph.rs's `UnGraph`: Python over the proved library.

    >>> from waterways import Network
    >>> network = Network()
    >>> network.add_node(5), network.add_node(-3)
    (0, 1)
    >>> network.add_edge(0, 1, 10)
    0
    >>> network.neighbors(1)
    [0]
    >>> network.remove_node(9)
    Traceback (most recent call last):
    waterways.refusals.NoNode: refused 3: the named node is not there

With a directory of 500 cells, waterways are known by their register numbers below 500, too:

    >>> network = Network(directory=500)
    >>> network.add_node(5), network.add_node(-3), network.add_edge(0, 1, 214)
    (0, 1, 0)
    >>> network.find_number(214)
    0
    >>> network.add_edge(1, 0, 214)
    Traceback (most recent call last):
    waterways.refusals.Taken: refused 11: the directory's entry of that register number names a row

A `Network` owns its tables and lends them to each call. Each call is proved to meet its contract, whatever
the tables hold; this module adds no rule of its own, and nothing proves the module itself.
"""
from .network import (
    EDGE_ROWS,
    END,
    NODE_ROWS,
    EdgeDirection,
    EdgeReference,
    EdgeRemoved,
    Network,
    NodeRemoved,
    Rows,
    Walker,
)
from .picture import draw, graphviz
from .refusals import (
    Beyond,
    Broken,
    Fell,
    Full,
    NoEdge,
    NoNode,
    NoRanking,
    NotBare,
    NotCommand,
    Nothing,
    NotImage,
    Outside,
    Overflow,
    Refused,
    Short,
    Tables,
    Taken,
    TooDeep,
    Version,
)
