"""`python3 -m waterways draw IMAGE [-o FILE]`: a picture of the network that an image has."""
from __future__ import annotations

import argparse
import sys
from pathlib import Path

from . import Network, Refused, draw, graphviz


def main() -> int:
    parser = argparse.ArgumentParser(prog="python3 -m waterways")
    commands = parser.add_subparsers(dest="command", required=True)
    drawing = commands.add_parser("draw", help="a picture of the network that an image has")
    drawing.add_argument("image", type=Path, help="a file that image_write has made")
    drawing.add_argument(
        "-o", "--output", type=Path, help="a file: SVG or PNG by its name (needs dot), else Graphviz text"
    )
    words = parser.parse_args()
    try:
        network = Network.from_image(words.image.read_bytes())
        if words.output is None:
            print(graphviz(network), end="")
        else:
            draw(network, words.output)
    except (Refused, OSError) as why:
        print(f"{words.image}: {why}", file=sys.stderr)
        return 1
    return 0


if __name__ == "__main__":
    sys.exit(main())
