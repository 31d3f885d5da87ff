"""Pictures, and the commands of the module."""
import html
import re
import shutil
import subprocess
import sys
import tempfile
import unittest
from pathlib import Path

from waterways import draw, graphviz

from .test_network import network_a

PYTHON = Path(__file__).resolve().parents[1]
TEXT = """graph network {
    rankdir=LR;
    node [shape=circle];
    0 [label=<<b>0</b><br/>5>];
    1 [label=<<b>1</b><br/>-3>];
    2 [label=<<b>2</b><br/>8>];
    0 -- 1 [label=10];
    1 -- 2 [label=11];
    0 -- 2 [label=12];
    1 -- 1 [label=13];
}
"""


def run(*words: str | Path) -> subprocess.CompletedProcess:
    """The module as a program."""
    return subprocess.run([sys.executable, *words], cwd=PYTHON, capture_output=True, text=True)


class Pictures(unittest.TestCase):
    def setUp(self):
        folder = tempfile.TemporaryDirectory()
        self.addCleanup(folder.cleanup)
        self.folder = Path(folder.name)
        self.image = self.folder / "a.image"
        self.image.write_bytes(network_a().image_write())

    def test_text(self):
        self.assertEqual(graphviz(network_a()), TEXT)
        draw(network_a(), self.folder / "a.dot")
        self.assertEqual((self.folder / "a.dot").read_text(), TEXT)

    def test_the_command(self):
        told = run("-m", "waterways", "draw", self.image)
        self.assertEqual((told.returncode, told.stdout, told.stderr), (0, TEXT, ""))

    def test_refusals_are_told(self):
        self.image.write_bytes(self.image.read_bytes()[:-1])
        told = run("-m", "waterways", "draw", self.image)
        self.assertEqual((told.returncode, told.stdout), (1, ""))
        self.assertIn("refused 8: ", told.stderr)
        told = run("-m", "waterways", "draw", self.folder / "none")
        self.assertEqual((told.returncode, told.stdout), (1, ""))

    @unittest.skipUnless(shutil.which("dot"), "dot is not installed")
    def test_pictures_by_dot(self):
        for name, begins in ("a.svg", b"<?xml"), ("a.png", b"\x89PNG"):
            told = run("-m", "waterways", "draw", self.image, "-o", self.folder / name)
            self.assertEqual((told.returncode, told.stderr), (0, ""))
            self.assertTrue((self.folder / name).read_bytes().startswith(begins))

    def test_the_picture_on_the_first_page(self):
        svg = html.unescape((PYTHON.parent / "docs" / "network_a.svg").read_text())
        labels = re.findall(r">([^<>]+)</text>", svg)
        self.assertEqual(sorted(labels), sorted("0 5 1 -3 2 8 10 11 12 13".split()))

    def test_network_a_is_the_example(self):
        told = run(PYTHON / "network_a.py")
        self.assertEqual((told.stdout, told.stderr), ((PYTHON / "network_a.out").read_text(), ""))


if __name__ == "__main__":
    unittest.main()
