"""A picture of a network, as Graphviz text."""
from __future__ import annotations

import shutil
import subprocess
from pathlib import Path

from .network import Network

FORMATS = {".svg": "svg", ".png": "png"}


def graphviz(network: Network) -> str:
    """The network in Graphviz's language: nodes by number and total, edges by register number."""
    lines = ["graph network {", "    rankdir=LR;", "    node [shape=circle];"]
    for a in range(network.node_count()):
        lines.append(f"    {a} [label=<<b>{a}</b><br/>{network.node_weight(a)}>];")
    for e in range(network.edge_count()):
        source, target = network.edge_endpoints(e)
        lines.append(f"    {source} -- {target} [label={network.edge_weight(e)}];")
    return "\n".join([*lines, "}", ""])


def draw(network: Network, file: Path) -> None:
    """Writes a picture to a file: SVG or PNG by `dot`, and for any other name Graphviz text."""
    text = graphviz(network)
    kind = FORMATS.get(file.suffix)
    if kind is None:
        file.write_text(text)
        return
    if shutil.which("dot") is None:
        raise FileNotFoundError("dot is not installed (graphviz); a file named .dot gets Graphviz text")
    subprocess.run(["dot", f"-T{kind}", "-o", str(file)], input=text, text=True, check=True)
