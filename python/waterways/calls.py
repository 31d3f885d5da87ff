"""The calls of the proved library, as include/waterways.h has them.

`CALLS` is the one place where a call is declared. A line has the call's name without `net_`, its own
parameters, and behind the arrow the values that it answers:

    n  m        a count that is lent as it is            &n  &m      a count that the call changes
    a  w:i32    a number, 32 bits without a sign unless its type stands behind it
    [items]     a table to be filled, with its length    (bytes:u8)  a table to be read
    walker      the three numbers of a walker            directory   the directory, with its length

Every call has the five tables of a network before these, each with its number of cells.
"""
from __future__ import annotations

import ctypes
import operator
import os
import re
from functools import cache
from pathlib import Path
from typing import NamedTuple

CALLS = """
node_weight       n m    a                              -> weight:i32
edge_weight       n m    e                              -> weight
edge_endpoints    n m    e                              -> source target
first_edge        n m    a direction                    -> edge
next_edge         n m    e direction                    -> edge
set_node_weight   n m    a w:i32                        ->
set_edge_weight   n m    e w                            ->
add_node          &n m   w:i32                          -> node
add_edge          n &m   a b w                          -> edge
all_edge_weights  n m    [items]                        -> count
clear_edges       n &m                                  ->
clear             &n &m                                 ->
neighbors         n m    a [items]                      -> count
edge_weights      n m    a [items]                      -> count
edges_between     n m    a b [items]                    -> count
edges_mut         n m    a [items]                      -> count
edge_weights_mut  n m    a [items]                      -> count
edges             n m    a [numbers] [sources] [targets] -> count
find_edge         n m    a b                            -> edge
contains_edge     n m    a b                            -> found
update_edge       n &m   a b w                          -> edge
sum_around        n m    a                              -> sum:i64
check             n m                                   -> rows direction node
walker_new        n m    a walker                       ->
walker_next       n m    walker                         -> neighbor
remove_edge       n &m   e                              -> weight moved rows
remove_node       &n &m  a [items]                      -> weight:i32 rows:u64 count
image_write       n m    [bytes:u8]                     -> length
image_read        &n &m  (bytes:u8)                     ->
dir_check           n m    directory                    -> rows direction node
dir_add_edge        n &m   directory a b w              -> edge
dir_update_edge     n &m   directory a b w              -> edge
dir_set_edge_weight n m    directory e w                ->
dir_remove_edge     n &m   directory e                  -> weight moved rows
dir_remove_node     &n &m  directory a [items]          -> weight:i32 rows:u64 count
dir_clear_edges     n &m   directory                    ->
dir_clear           &n &m  directory                    ->
dir_image_write     n m    directory [bytes:u8]         -> length
dir_image_read      &n &m  directory (bytes:u8)         ->
dir_find_number     n m    directory r                  -> edge
dir_remove_number   n &m   directory r                  -> weight moved rows
"""

TYPES = {
    "u8": ctypes.c_uint8,
    "u32": ctypes.c_uint32,
    "i32": ctypes.c_int32,
    "u64": ctypes.c_uint64,
    "i64": ctypes.c_int64,
}

# The five tables that every call is lent: name, type of a cell, cells a row.
NODE_TABLES = {"weights": ("i32", 1), "heads": ("u32", 2)}
EDGE_TABLES = {"registers": ("u32", 1), "links": ("u32", 2), "ends": ("u32", 2)}
TABLES = NODE_TABLES | EDGE_TABLES


class Parameter(NamedTuple):
    """A parameter of a call: its name, what it is, and the type of its cell or cells."""

    name: str
    kind: str  # 'count', 'changed count', 'number', 'filled', 'read', 'walker', 'directory' or 'answer'
    type: str


def _parameter(word: str) -> Parameter:
    name, _, kind = re.fullmatch(r"[&\[(]?(\w+)(:(\w+))?[])]?", word).groups()
    kind = kind or "u32"
    if word in ("n", "m"):
        return Parameter(name, "count", kind)
    if word in ("&n", "&m"):
        return Parameter(name, "changed count", kind)
    if word in ("walker", "directory"):
        return Parameter(name, word, kind)
    return Parameter(name, {"[": "filled", "(": "read"}.get(word[0], "number"), kind)


def _read(table: str) -> dict[str, list[Parameter]]:
    calls = {}
    for line in table.strip().splitlines():
        given, answers = line.split("->")
        name, *words = given.split()
        values = [_parameter(word)._replace(kind="answer") for word in answers.split()]
        calls[name] = [_parameter(word) for word in words] + values
    return calls


PARAMETERS = _read(CALLS)


def argument_types(name: str) -> list:
    """The C types of a call's arguments, the five tables first."""
    types = []
    for kind, _ in TABLES.values():
        types += [ctypes.POINTER(TYPES[kind]), ctypes.c_size_t]
    for parameter in PARAMETERS[name]:
        cell = TYPES[parameter.type]
        match parameter.kind:
            case "count" | "number":
                types.append(cell)
            case "filled" | "read" | "directory":
                types += [ctypes.POINTER(cell), ctypes.c_size_t]
            case _:
                types.append(ctypes.POINTER(cell))
    return types


def path() -> Path:
    """Where the shared object lies: at `WATERWAYS_SO`, or where python/build.sh puts it."""
    here = Path(__file__).resolve().parent.parent.parent / "target" / "libwaterways.so"
    return Path(os.environ.get("WATERWAYS_SO", here))


@cache
def library() -> ctypes.PyDLL:
    """The shared object. Python's lock is held during a call, so that no two calls meet in one table."""
    if not path().exists():
        raise FileNotFoundError(f"{path()} is missing: `make python` makes it from the proved libraries")
    loaded = ctypes.PyDLL(str(path()))
    for name in PARAMETERS:
        function = getattr(loaded, f"net_{name}")
        function.argtypes, function.restype = argument_types(name), ctypes.c_uint32
    return loaded


def number(value: int, kind: str, name: str) -> int:
    """The value, if its type can hold it. A number that is too large is never cut."""
    value = operator.index(value)
    bits = int(kind[1:])
    low, high = (-(2 ** (bits - 1)), 2 ** (bits - 1)) if kind[0] == "i" else (0, 2**bits)
    if not low <= value < high:
        signed = "with a sign" if kind[0] == "i" else "without a sign"
        raise ValueError(f"{name}: {value} is no number of {bits} bits {signed}")
    return value


def cells(kind: str, values) -> ctypes.Array:
    """A table of such numbers."""
    values = [number(value, kind, "a cell") for value in values]
    return (TYPES[kind] * len(values))(*values)


def room(kind: str, length: int) -> ctypes.Array:
    """A table to be filled."""
    return (TYPES[kind] * length)()
