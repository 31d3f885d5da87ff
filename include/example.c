/* Two catchments and a waterway between them: added, walked and taken out; two calls that are refused; and
   the same waterway found and taken out by its register number.
   tests/header_example.sh compiles this file, and holds what it prints to include/example.out. */
#include <inttypes.h>
#include <stdio.h>
#include "waterways.h"

enum { NODES = 2, EDGES = 1, NUMBERS = 12 };

/* The tables of one network, every row vacant. */
static int32_t weights[NODES];
static uint32_t heads[NET_NODE_CELLS * NODES] = {NET_END, NET_END, NET_END, NET_END};
static uint32_t registers[EDGES];
static uint32_t links[NET_EDGE_CELLS * EDGES] = {NET_END, NET_END};
static uint32_t ends[NET_EDGE_CELLS * EDGES] = {NET_END, NET_END};
static uint32_t n, m;

/* The directory: the row of each register number below NUMBERS. */
static uint32_t directory[NUMBERS];

/* What every call is lent first: each table and its number of cells. */
#define TABLES                                                                                            \
    weights, NODES, heads, NET_NODE_CELLS * NODES, registers, EDGES, links, NET_EDGE_CELLS * EDGES, ends, \
        NET_EDGE_CELLS * EDGES

int main(void) {
    uint32_t number, found[4], count, weight, moved, rows, answer;

    net_add_node(TABLES, &n, m, 5, &number);
    net_add_node(TABLES, &n, m, -3, &number);
    answer = net_add_edge(TABLES, n, &m, 0, 1, 10, &number);
    printf("add edge: answer %" PRIu32 ", edge %" PRIu32 "\n", answer, number);

    answer = net_add_edge(TABLES, n, &m, 1, 0, 11, &number);
    printf("one more: answer %" PRIu32 ", no row is free\n", answer);

    answer = net_neighbors(TABLES, n, m, 1, found, 4, &count);
    printf("neighbours of node 1: answer %" PRIu32 ", %" PRIu32 " of them: %" PRIu32 "\n", answer, count,
           found[0]);

    answer = net_remove_edge(TABLES, n, &m, 0, &weight, &moved, &rows);
    printf("remove edge: answer %" PRIu32 ", register number %" PRIu32 ", %s, %" PRIu32 " rows read\n",
           answer, weight, moved == NET_END ? "no row moved" : "a row moved", rows);

    answer = net_remove_edge(TABLES, n, &m, 0, &weight, &moved, &rows);
    printf("once more: answer %" PRIu32 ", no such edge\n", answer);

    /* From here on with the directory, which the clear fills with NET_END: no number stands in any row. */
    net_dir_clear_edges(TABLES, n, &m, directory, NUMBERS);
    answer = net_dir_add_edge(TABLES, n, &m, directory, NUMBERS, 0, 1, 12, &number);
    printf("register number 12: answer %" PRIu32 ", beyond the directory\n", answer);

    net_dir_add_edge(TABLES, n, &m, directory, NUMBERS, 0, 1, 10, &number);
    answer = net_dir_find_number(TABLES, n, m, directory, NUMBERS, 10, &number);
    printf("find number 10: answer %" PRIu32 ", edge %" PRIu32 "\n", answer, number);

    net_dir_remove_number(TABLES, n, &m, directory, NUMBERS, 10, &weight, &moved, &rows);
    answer = net_dir_find_number(TABLES, n, m, directory, NUMBERS, 10, &number);
    printf("taken out: answer %" PRIu32 ", no waterway bears it\n", answer);
    return 0;
}
