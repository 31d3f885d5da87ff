"""Tests of the module `waterways`: python3 -m unittest discover -s python -t python."""
