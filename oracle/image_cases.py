#!/usr/bin/env python3
"""The lines of rust/tests/by_hand/images.txt, worked out from the order's words alone: images with struct, soundness by
listing every list and counting each edge in it. Shares nothing with the crates."""
import struct

END = 0xFFFFFFFF
NODES, EDGES = 4, 5  # the rows lent


def image(n, m, nodes, edges):
    out = b"WNT" + struct.pack("<HII", 1, n, m)
    for w, o, i in nodes[:n]:
        out += struct.pack("<iII", w, o, i)
    for row in edges[:m]:
        out += struct.pack("<IIIII", *row)
    return out


def chain(first, m, after):
    """The edges of one list, or None where it does not end at END."""
    xs, e = [], first
    while e != END:
        if e >= m or e in xs:
            return None
        xs.append(e)
        e = after(e)
    return xs


def sound(n, m, nodes, edges):
    for k in (0, 1):
        lists = [chain(nodes[a][1 + k], m, lambda e: edges[e][1 + k]) for a in range(n)]
        if None in lists:
            return False
        for x in range(m):
            end = edges[x][3 + k]
            if end >= n:
                return False
            for a in range(n):
                if lists[a].count(x) != (1 if a == end else 0):
                    return False
    return True


VACANT_NODE, VACANT_EDGE = (0, END, END), (0, END, END, END, END)
SEVENS = (4, 5, [(7, 7, 7)] * NODES, [(7, 7, 7, 7, 7)] * EDGES)


def read(b, lent):
    if lent[0] > NODES or lent[1] > EDGES:
        return 1, lent
    if len(b) < 13 or b[:3] != b"WNT":
        return 8, lent
    version, n, m = struct.unpack("<HII", b[3:13])
    if version != 1:
        return 9, lent
    if n > NODES or m > EDGES:
        return 2, lent
    if len(b) != 13 + 12 * n + 20 * m:
        return 8, lent
    nodes = [struct.unpack("<iII", b[13 + 12 * a:25 + 12 * a]) for a in range(n)]
    at = 13 + 12 * n
    edges = [struct.unpack("<IIIII", b[at + 20 * e:at + 20 * e + 20]) for e in range(m)]
    if not sound(n, m, nodes, edges):
        return 6, (0, 0, [VACANT_NODE] * NODES, [VACANT_EDGE] * EDGES)
    return 0, (n, m, nodes + [VACANT_NODE] * (NODES - n), edges + [VACANT_EDGE] * (EDGES - m))


def cell(x):
    return " END" if x == END else f" {x}"


def shown(answer, g):
    n, m, nodes, edges = g
    line = f" {answer} | {n} {m} |" + "".join(f" {r[0]}" for r in nodes)
    line += " |" + "".join(cell(x) for r in nodes for x in r[1:])
    line += " |" + "".join(cell(r[0]) for r in edges)
    line += " |" + "".join(cell(x) for r in edges for x in r[1:3])
    return line + " |" + "".join(cell(x) for r in edges for x in r[3:])


def hexed(b):
    return " |" + "".join(f" {x:02X}" for x in b)


def tally(images):
    counts = [0] * 10
    for b in images:
        counts[read(b, SEVENS)[0]] += 1
    return " |" + "".join(f" {c}" for c in counts) + " | 0"


one = image(1, 0, [(-3, END, END)], [])
nodes = [(5, 2, END), (-3, 3, 3), (8, END, 2), (9, 9, 9)]
edges = [(10, END, END, 0, 1), (11, END, END, 1, 2), (12, 0, 1, 0, 2), (13, 1, 0, 1, 1), (9, 9, 9, 9, 9)]
a = image(3, 4, nodes, edges)
print(f"one node: 0 {len(one)}" + hexed(one))
print("24 bytes of it:" + shown(*read(one[:24], SEVENS)))
print("network A:" + shown(0, (3, 4, nodes, edges)))
print("its image:" + hexed(a))
print("read back:" + shown(*read(a, SEVENS)))
print("prefixes:" + tally(a[:k] for k in range(len(a) + 1)))
print("changes:" + tally(a[:i] + bytes([v]) + a[i + 1:] for i in range(len(a)) for v in range(256) if v != a[i]))
b = bytearray(a)
faults = [("read, sound:", None, 0), ("with a wrong head:", 17, 3), ("and a length for another m:", 9, 3), ("and n above the rows lent:", 5, 5),
          ("and another version:", 4, 1), ("and another mark:", 1, 0)]
for label, at, x in faults:
    if at is not None:
        b[at] = x
    print(label, read(bytes(b), SEVENS)[0])
print("and counts lent above the rows:", read(bytes(b), (5, 4, [], []))[0])


def write(label, n, m, nodes, edges, room):
    if n > NODES or m > EDGES:
        answer, out = "1", b"\xaa" * 131
    elif not sound(n, m, nodes, edges):
        answer, out = "6", b"\xaa" * 131
    elif 13 + 12 * n + 20 * m > room:
        answer, out = "7", b"\xaa" * 131
    else:
        img = image(n, m, nodes, edges)
        answer, out = f"0 {len(img)}", img + b"\xaa" * (131 - len(img))
    print(f"{label} {answer}" + hexed(out[:3]) + hexed(out[129:]))


broken = list(nodes)
broken[1] = (-3, 2, 3)
write("write, room for two more:", 3, 4, nodes, edges, 131)
write("one byte short:", 3, 4, nodes, edges, 128)
write("and broken:", 3, 4, broken, edges, 128)
write("and counts above the rows:", 5, 4, nodes, edges, 128)
