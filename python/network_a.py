"""Network A: the neighbours of node 1, then edge 0 taken out. First: `make python`, or python/build.sh."""
from waterways import Network

network = Network(nodes=3, edges=4)
for total in 5, -3, 8:
    network.add_node(total)
for source, target, register in (0, 1, 10), (1, 2, 11), (0, 2, 12), (1, 1, 13):
    network.add_edge(source, target, register)

print("neighbours of node 1:", *network.neighbors(1))
removed = network.remove_edge(0)
print(f"edge 0 had register number {removed.weight}; edge {removed.moved} moved, {removed.rows} rows read")
