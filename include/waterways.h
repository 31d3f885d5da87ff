/* The waterway network: the calls of the proved library for C and its like.

   A network is five tables and two counts, which the caller lends to each call:
     weights    one cell a node row: its total
     heads      two cells a node row: the first edge of its outgoing and of its incoming list
     registers  one cell an edge row: its register number
     links      two cells an edge row: the next edge of its source's outgoing list, and of its target's
                incoming list
     ends       two cells an edge row: its source and its target
     n, m       how many rows of each kind are in use; by pointer where the call changes them
   Each table goes in as a pointer and its number of cells. A call takes every table, count and number: what
   it cannot serve it refuses. What C itself must hold to: each pointer is valid for its cells and is not
   null, also for 0 cells, and nothing lent to one call overlaps.

   Every call returns an answer number; its values are left in the cells that are its last parameters. A
   refusal leaves zeros in these and changes no table, count, walker or output, except where its call says so.
   The numbers that a call can be refused by end its comment, in the order of the tests. An output keeps its
   cells past the items given.

   Before these numbers stands what the call reads, in edge rows. D is the number of edges in the longest
   list, d that of the edges of the node. Lengths and counts are tested first, which reads no row: so 1 costs
   the same everywhere. A directory's cells are no edge rows.

   A network may have a directory beside it, so that a waterway is found by its register number: one more
   table of uint32_t, of whatever length the caller likes, whose cell r has the row that bears number r, or
   NET_END. The calls that begin with net_dir_ are lent it behind the counts, and keep it in step: no two
   edges then bear one number, and the directory is part of soundness. The other calls know nothing of it.
   Beside a directory, the call that takes it is to be used wherever there is one: after a plain
   net_set_edge_weight, say, the entries are not those of the rows, which net_dir_check finds (6).

   include/example.c is a whole program, which tests/header_example.sh compiles and runs. */
#ifndef WATERWAYS_H
#define WATERWAYS_H

#include <stddef.h>
#include <stdint.h>

#ifdef __cplusplus
extern "C" {
#endif

enum net_answer {
    NET_DONE = 0,
    NET_TABLES = 1,       /* rows above the limit, n or m above the rows lent, tables that disagree in rows;
                             a script too long */
    NET_FULL = 2,         /* no row for one more; image counts above the rows lent */
    NET_NO_NODE = 3,      /* the named node is not below n */
    NET_NO_EDGE = 4,      /* the named edge is not below m */
    NET_NOTHING = 5,      /* nothing found; NET_END at a first or next edge; a walker at its end; a register
                             number that no row bears */
    NET_BROKEN = 6,       /* broken links; an entry of the directory that is not the row's */
    NET_SHORT = 7,        /* the output holds fewer items than the answer needs */
    NET_NOT_IMAGE = 8,    /* an image that is too short, has a wrong mark or a wrong length */
    NET_VERSION = 9,      /* an image of an unknown version */
    NET_NOT_COMMAND = 10, /* a script line that is no command */
    NET_TAKEN = 11,       /* the directory's entry of that register number names a row */
    NET_BEYOND = 12,      /* a register number that is not below the directory's length */
    /* No call gives these yet. */
    NET_NOT_BARE = 13,    /* a node to be dropped that still has edges */
    NET_NO_RANKING = 14,  /* lists that no ranking of the edges gives */
    NET_OUTSIDE = 15,     /* outside the planning profile */
    NET_TOO_DEEP = 16,    /* a walk that would stand 65 nodes deep */
    NET_FELL = 17,        /* a counter lower than the last */
    NET_OVERFLOW = 18     /* a weight that would leave 32 bits */
};

/* No row: the end of a list, and what a vacant row holds in its links and ends. Its weight is 0. */
#define NET_END UINT32_MAX

/* The most rows of each kind, and the cells that a row has in heads, and in links and ends. */
#define NET_NODE_ROWS 16384
#define NET_EDGE_ROWS 65536
#define NET_NODE_CELLS 2
#define NET_EDGE_CELLS 2

/* Rows: looked up, set, added, listed, cleared (libexportrows.a) */

/* The weight of node a. Reads no edge row. Refused 1, 3. */
uint32_t net_node_weight(
    const int32_t *weights, size_t weights_len, const uint32_t *heads, size_t heads_len,
    const uint32_t *registers, size_t registers_len, const uint32_t *links, size_t links_len,
    const uint32_t *ends, size_t ends_len, uint32_t n, uint32_t m, uint32_t a, int32_t *weight);

/* The weight (register number) of edge e. Reads row e. Refused 1, 4. */
uint32_t net_edge_weight(
    const int32_t *weights, size_t weights_len, const uint32_t *heads, size_t heads_len,
    const uint32_t *registers, size_t registers_len, const uint32_t *links, size_t links_len,
    const uint32_t *ends, size_t ends_len, uint32_t n, uint32_t m, uint32_t e, uint32_t *weight);

/* Source and target of edge e. Reads row e. Refused 1, 4. */
uint32_t net_edge_endpoints(
    const int32_t *weights, size_t weights_len, const uint32_t *heads, size_t heads_len,
    const uint32_t *registers, size_t registers_len, const uint32_t *links, size_t links_len,
    const uint32_t *ends, size_t ends_len, uint32_t n, uint32_t m, uint32_t e, uint32_t *source,
    uint32_t *target);

/* The first edge of node a in a direction: 0 outgoing, any other number incoming. A link past m is given as
   it is; NET_END is 5. Reads no edge row. Refused 1, 3, 5. */
uint32_t net_first_edge(
    const int32_t *weights, size_t weights_len, const uint32_t *heads, size_t heads_len,
    const uint32_t *registers, size_t registers_len, const uint32_t *links, size_t links_len,
    const uint32_t *ends, size_t ends_len, uint32_t n, uint32_t m, uint32_t a, uint32_t direction,
    uint32_t *edge);

/* The edge after edge e in a direction. Reads row e. Refused 1, 4, 5. */
uint32_t net_next_edge(
    const int32_t *weights, size_t weights_len, const uint32_t *heads, size_t heads_len,
    const uint32_t *registers, size_t registers_len, const uint32_t *links, size_t links_len,
    const uint32_t *ends, size_t ends_len, uint32_t n, uint32_t m, uint32_t e, uint32_t direction,
    uint32_t *edge);

/* Sets the weight of node a. Reads no edge row. Refused 1, 3. */
uint32_t net_set_node_weight(
    int32_t *weights, size_t weights_len, const uint32_t *heads, size_t heads_len,
    const uint32_t *registers, size_t registers_len, const uint32_t *links, size_t links_len,
    const uint32_t *ends, size_t ends_len, uint32_t n, uint32_t m, uint32_t a, int32_t w);

/* Sets the weight of edge e. Reads no edge row. Refused 1, 4. */
uint32_t net_set_edge_weight(
    const int32_t *weights, size_t weights_len, const uint32_t *heads, size_t heads_len,
    uint32_t *registers, size_t registers_len, const uint32_t *links, size_t links_len,
    const uint32_t *ends, size_t ends_len, uint32_t n, uint32_t m, uint32_t e, uint32_t w);

/* One more node of weight w; its number. Reads no edge row. Refused 1, 2. */
uint32_t net_add_node(
    int32_t *weights, size_t weights_len, uint32_t *heads, size_t heads_len,
    const uint32_t *registers, size_t registers_len, const uint32_t *links, size_t links_len,
    const uint32_t *ends, size_t ends_len, uint32_t *n, uint32_t m, int32_t w, uint32_t *node);

/* One more edge from a to b; its number. It stands first in both its lists. Reads no edge row. Refused 1, 2,
   3. */
uint32_t net_add_edge(
    const int32_t *weights, size_t weights_len, uint32_t *heads, size_t heads_len,
    uint32_t *registers, size_t registers_len, uint32_t *links, size_t links_len,
    uint32_t *ends, size_t ends_len, uint32_t n, uint32_t *m, uint32_t a, uint32_t b, uint32_t w,
    uint32_t *edge);

/* The weights of all edges, in row order; how many. Reads m rows, and no list. Refused 1, 7. */
uint32_t net_all_edge_weights(
    const int32_t *weights, size_t weights_len, const uint32_t *heads, size_t heads_len,
    const uint32_t *registers, size_t registers_len, const uint32_t *links, size_t links_len,
    const uint32_t *ends, size_t ends_len, uint32_t n, uint32_t m, uint32_t *items, size_t items_len,
    uint32_t *count);

/* Takes out all edges; their rows become vacant. Reads no edge row; writes m of them, and n heads. Refused
   1. */
uint32_t net_clear_edges(
    const int32_t *weights, size_t weights_len, uint32_t *heads, size_t heads_len,
    uint32_t *registers, size_t registers_len, uint32_t *links, size_t links_len,
    uint32_t *ends, size_t ends_len, uint32_t n, uint32_t *m);

/* Takes out all nodes and edges; their rows become vacant. Reads no edge row; writes all rows in use. Refused
   1. */
uint32_t net_clear(
    int32_t *weights, size_t weights_len, uint32_t *heads, size_t heads_len,
    uint32_t *registers, size_t registers_len, uint32_t *links, size_t links_len,
    uint32_t *ends, size_t ends_len, uint32_t *n, uint32_t *m);

/* Lists: walks, searches, the walker, the sum, the check (libexportlists.a) */

/* The neighbours of node a: its outgoing list, then its incoming one without self-loops; how many. Parallel
   edges repeat. A missing node has none. Reads at most m rows of each list, twice, or three times where the
   output is shorter than the lists. Refused 1, 6, 7. */
uint32_t net_neighbors(
    const int32_t *weights, size_t weights_len, const uint32_t *heads, size_t heads_len,
    const uint32_t *registers, size_t registers_len, const uint32_t *links, size_t links_len,
    const uint32_t *ends, size_t ends_len, uint32_t n, uint32_t m, uint32_t a,
    uint32_t *items, size_t items_len, uint32_t *count);

/* The weights of the edges of the neighbour walk; how many. Reads what net_neighbors reads. Refused 1, 6, 7.
   */
uint32_t net_edge_weights(
    const int32_t *weights, size_t weights_len, const uint32_t *heads, size_t heads_len,
    const uint32_t *registers, size_t registers_len, const uint32_t *links, size_t links_len,
    const uint32_t *ends, size_t ends_len, uint32_t n, uint32_t m, uint32_t a,
    uint32_t *items, size_t items_len, uint32_t *count);

/* The numbers of the edges of the neighbour walk whose far end is b; how many. Reads what net_neighbors
   reads. Refused 1, 6, 7. */
uint32_t net_edges_between(
    const int32_t *weights, size_t weights_len, const uint32_t *heads, size_t heads_len,
    const uint32_t *registers, size_t registers_len, const uint32_t *links, size_t links_len,
    const uint32_t *ends, size_t ends_len, uint32_t n, uint32_t m, uint32_t a, uint32_t b,
    uint32_t *items, size_t items_len, uint32_t *count);

/* The numbers of the edges of node a, incoming ones first; how many. A self-loop comes twice. Reads what
   net_neighbors reads. Refused 1, 6, 7. */
uint32_t net_edges_mut(
    const int32_t *weights, size_t weights_len, const uint32_t *heads, size_t heads_len,
    const uint32_t *registers, size_t registers_len, const uint32_t *links, size_t links_len,
    const uint32_t *ends, size_t ends_len, uint32_t n, uint32_t m, uint32_t a,
    uint32_t *items, size_t items_len, uint32_t *count);

/* The rows of graph.rs's mutable weights: the numbers of net_edges_mut. Reads what net_neighbors reads.
   Refused 1, 6, 7. */
uint32_t net_edge_weights_mut(
    const int32_t *weights, size_t weights_len, const uint32_t *heads, size_t heads_len,
    const uint32_t *registers, size_t registers_len, const uint32_t *links, size_t links_len,
    const uint32_t *ends, size_t ends_len, uint32_t n, uint32_t m, uint32_t a,
    uint32_t *items, size_t items_len, uint32_t *count);

/* Number, source and target of each edge of the neighbour walk, the ends of incoming ones turned round; how
   many. Reads what net_neighbors reads. Refused 1, 6, 7. */
uint32_t net_edges(
    const int32_t *weights, size_t weights_len, const uint32_t *heads, size_t heads_len,
    const uint32_t *registers, size_t registers_len, const uint32_t *links, size_t links_len,
    const uint32_t *ends, size_t ends_len, uint32_t n, uint32_t m, uint32_t a,
    uint32_t *numbers, size_t numbers_len, uint32_t *sources, size_t sources_len,
    uint32_t *targets, size_t targets_len, uint32_t *count);

/* The first edge of a whose far end is b: the outgoing list, then the incoming one. Reads at most m rows of
   each list, and none behind the match. Refused 1, 3 (node a only), 5, 6. */
uint32_t net_find_edge(
    const int32_t *weights, size_t weights_len, const uint32_t *heads, size_t heads_len,
    const uint32_t *registers, size_t registers_len, const uint32_t *links, size_t links_len,
    const uint32_t *ends, size_t ends_len, uint32_t n, uint32_t m, uint32_t a, uint32_t b, uint32_t *edge);

/* 1 where there is such an edge, else 0; a missing node has none. Reads what net_find_edge reads. Refused 1,
   6. */
uint32_t net_contains_edge(
    const int32_t *weights, size_t weights_len, const uint32_t *heads, size_t heads_len,
    const uint32_t *registers, size_t registers_len, const uint32_t *links, size_t links_len,
    const uint32_t *ends, size_t ends_len, uint32_t n, uint32_t m, uint32_t a, uint32_t b, uint32_t *found);

/* Sets the weight of the edge that is found, even in a full table; else adds one. Its number. Reads what
   net_find_edge reads. Refused 1, 6, 2, 3. */
uint32_t net_update_edge(
    const int32_t *weights, size_t weights_len, uint32_t *heads, size_t heads_len,
    uint32_t *registers, size_t registers_len, uint32_t *links, size_t links_len,
    uint32_t *ends, size_t ends_len, uint32_t n, uint32_t *m, uint32_t a, uint32_t b, uint32_t w,
    uint32_t *edge);

/* The sum of the weights of the neighbours of node a, negative kept. Reads at most m rows of each list, once.
   Refused 1, 3, 6. */
uint32_t net_sum_around(
    const int32_t *weights, size_t weights_len, const uint32_t *heads, size_t heads_len,
    const uint32_t *registers, size_t registers_len, const uint32_t *links, size_t links_len,
    const uint32_t *ends, size_t ends_len, uint32_t n, uint32_t m, uint32_t a, int64_t *sum);

/* The check: accepts exactly the sound networks, and gives the rows read, 2 m. At 6 it gives direction and
   node of the first fault, node n where some edge is in no list. Reads at most 2 m rows. Refused 1, 6. */
uint32_t net_check(
    const int32_t *weights, size_t weights_len, const uint32_t *heads, size_t heads_len,
    const uint32_t *registers, size_t registers_len, const uint32_t *links, size_t links_len,
    const uint32_t *ends, size_t ends_len, uint32_t n, uint32_t m, uint32_t *rows, uint32_t *direction,
    uint32_t *node);

/* A walker is three numbers: the node where it started, its next outgoing and its next incoming edge. A
   walker at the heads of node a's two lists. A missing node's is at its end. A refusal leaves three zeros.
   Reads no edge row. Refused 1. */
uint32_t net_walker_new(
    const int32_t *weights, size_t weights_len, const uint32_t *heads, size_t heads_len,
    const uint32_t *registers, size_t registers_len, const uint32_t *links, size_t links_len,
    const uint32_t *ends, size_t ends_len, uint32_t n, uint32_t m, uint32_t a, uint32_t walker[3]);

/* The walker, moved on by one neighbour. At 5 it stands where the Rust's stands, at 6 and at 1 it is as it
   was. Reads one row of the outgoing list; behind that list at most m of the incoming one: the self-loops
   skipped, and the neighbour's. Refused 1, 5, 6. */
uint32_t net_walker_next(
    const int32_t *weights, size_t weights_len, const uint32_t *heads, size_t heads_len,
    const uint32_t *registers, size_t registers_len, const uint32_t *links, size_t links_len,
    const uint32_t *ends, size_t ends_len, uint32_t n, uint32_t m, uint32_t walker[3], uint32_t *neighbor);

/* Removals and images (libexportremovals.a) */

/* Takes out edge e: its weight, the old number of the row that moved into its place (NET_END where none did),
   the rows read. Reads the rows that it tells, at most 4 (D - 1) in a sound network, never more than 4 m;
   besides these row e and the last. Refused 1, 4, 6. */
uint32_t net_remove_edge(
    const int32_t *weights, size_t weights_len, uint32_t *heads, size_t heads_len,
    uint32_t *registers, size_t registers_len, uint32_t *links, size_t links_len,
    uint32_t *ends, size_t ends_len, uint32_t n, uint32_t *m, uint32_t e, uint32_t *weight, uint32_t *moved,
    uint32_t *rows);

/* Takes out node a with its edges; the last node takes its place. Its weight, the rows read, and how many
   edge weights stand in items. Only a sound network is changed. Checks the whole network first, 2 m rows;
   counts the d edges; then reads the rows that it tells, at most 3 d (D - 1) + 2 D. Refused 1, 3, 6, 7. */
uint32_t net_remove_node(
    int32_t *weights, size_t weights_len, uint32_t *heads, size_t heads_len,
    uint32_t *registers, size_t registers_len, uint32_t *links, size_t links_len,
    uint32_t *ends, size_t ends_len, uint32_t *n, uint32_t *m, uint32_t a, uint32_t *items, size_t items_len,
    int32_t *weight, uint64_t *rows, uint32_t *count);

/* The image of a sound network at the front of bytes; its length, 13 + 12 n + 20 m. Checks the whole network
   first, 2 m rows, then reads each row once. Refused 1, 6, 7. */
uint32_t net_image_write(
    const int32_t *weights, size_t weights_len, const uint32_t *heads, size_t heads_len,
    const uint32_t *registers, size_t registers_len, const uint32_t *links, size_t links_len,
    const uint32_t *ends, size_t ends_len, uint32_t n, uint32_t m, uint8_t *bytes, size_t bytes_len,
    uint32_t *length);

/* The network that an image has, in place of the one lent; rows past its counts become vacant. A network that
   is not sound is refused 6 and leaves all rows vacant, n = m = 0. Writes every row lent, then checks what it
   has stored, 2 m rows. Refused 1, 8 (short or mark), 9, 2, 8 (length), 6. */
uint32_t net_image_read(
    int32_t *weights, size_t weights_len, uint32_t *heads, size_t heads_len,
    uint32_t *registers, size_t registers_len, uint32_t *links, size_t links_len,
    uint32_t *ends, size_t ends_len, uint32_t *n, uint32_t *m, const uint8_t *bytes, size_t bytes_len);

/* With a directory (libexportdirectory.a) */

/* As net_check; then the directory: the entry of every edge's number names that edge, and every other cell is
   NET_END. A fault of the directory is told last, as incoming and node n + 1. Reads what net_check reads, and
   then the register numbers of all rows, twice. Refused 1, 6. */
uint32_t net_dir_check(
    const int32_t *weights, size_t weights_len, const uint32_t *heads, size_t heads_len,
    const uint32_t *registers, size_t registers_len, const uint32_t *links, size_t links_len,
    const uint32_t *ends, size_t ends_len, uint32_t n, uint32_t m, const uint32_t *directory,
    size_t directory_len, uint32_t *rows, uint32_t *direction, uint32_t *node);

/* As net_add_edge; the entry of w then names the new edge. 11 where it names any row already, below m or not.
   Reads no edge row. Refused 1, 2, 3, 12, 11. */
uint32_t net_dir_add_edge(
    const int32_t *weights, size_t weights_len, uint32_t *heads, size_t heads_len,
    uint32_t *registers, size_t registers_len, uint32_t *links, size_t links_len,
    uint32_t *ends, size_t ends_len, uint32_t n, uint32_t *m, uint32_t *directory, size_t directory_len,
    uint32_t a, uint32_t b, uint32_t w, uint32_t *edge);

/* As net_update_edge; as net_dir_set_edge_weight where an edge is found, even in a full table, else as
   net_dir_add_edge. Reads what net_find_edge reads, and the row that is found. Refused 1, 6, then 12, 11
   where an edge is found, else 2, 3, 12, 11. */
uint32_t net_dir_update_edge(
    const int32_t *weights, size_t weights_len, uint32_t *heads, size_t heads_len,
    uint32_t *registers, size_t registers_len, uint32_t *links, size_t links_len,
    uint32_t *ends, size_t ends_len, uint32_t n, uint32_t *m, uint32_t *directory, size_t directory_len,
    uint32_t a, uint32_t b, uint32_t w, uint32_t *edge);

/* As net_set_edge_weight; the entry of the old number becomes NET_END, then that of w names e. 6 where the
   entry of the old number does not name e, 11 where that of w names another row. Reads row e. Refused 1, 4,
   6, 12, 11. */
uint32_t net_dir_set_edge_weight(
    const int32_t *weights, size_t weights_len, const uint32_t *heads, size_t heads_len,
    uint32_t *registers, size_t registers_len, const uint32_t *links, size_t links_len,
    const uint32_t *ends, size_t ends_len, uint32_t n, uint32_t m, uint32_t *directory, size_t directory_len,
    uint32_t e, uint32_t w);

/* As net_remove_edge; the entry of the edge's number becomes NET_END, and that of the row that moves names
   its new place. 6 also where the entry of one of these two does not name its row. Reads what net_remove_edge
   reads. Refused 1, 4, 6. */
uint32_t net_dir_remove_edge(
    const int32_t *weights, size_t weights_len, uint32_t *heads, size_t heads_len,
    uint32_t *registers, size_t registers_len, uint32_t *links, size_t links_len,
    uint32_t *ends, size_t ends_len, uint32_t n, uint32_t *m, uint32_t *directory, size_t directory_len,
    uint32_t e, uint32_t *weight, uint32_t *moved, uint32_t *rows);

/* As net_remove_node; the directory follows every row that goes or moves. 6 exactly where net_dir_check
   answers 6. Checks network and directory first, and reads for it what net_dir_check reads; the rest is
   net_remove_node's. Refused 1, 3, 6, 7. */
uint32_t net_dir_remove_node(
    int32_t *weights, size_t weights_len, uint32_t *heads, size_t heads_len,
    uint32_t *registers, size_t registers_len, uint32_t *links, size_t links_len,
    uint32_t *ends, size_t ends_len, uint32_t *n, uint32_t *m, uint32_t *directory, size_t directory_len,
    uint32_t a, uint32_t *items, size_t items_len, int32_t *weight, uint64_t *rows, uint32_t *count);

/* As net_clear_edges; every cell of the directory becomes NET_END. Reads no edge row. Refused 1. */
uint32_t net_dir_clear_edges(
    const int32_t *weights, size_t weights_len, uint32_t *heads, size_t heads_len,
    uint32_t *registers, size_t registers_len, uint32_t *links, size_t links_len,
    uint32_t *ends, size_t ends_len, uint32_t n, uint32_t *m, uint32_t *directory, size_t directory_len);

/* As net_clear; every cell of the directory becomes NET_END. Reads no edge row. Refused 1. */
uint32_t net_dir_clear(
    int32_t *weights, size_t weights_len, uint32_t *heads, size_t heads_len,
    uint32_t *registers, size_t registers_len, uint32_t *links, size_t links_len,
    uint32_t *ends, size_t ends_len, uint32_t *n, uint32_t *m, uint32_t *directory, size_t directory_len);

/* As net_image_write: the directory is no part of the image, but 6 is also for a directory that is not right.
   Checks network and directory first, and reads for it what net_dir_check reads, then each row once. Refused
   1, 6, 7. */
uint32_t net_dir_image_write(
    const int32_t *weights, size_t weights_len, const uint32_t *heads, size_t heads_len,
    const uint32_t *registers, size_t registers_len, const uint32_t *links, size_t links_len,
    const uint32_t *ends, size_t ends_len, uint32_t n, uint32_t m, const uint32_t *directory,
    size_t directory_len, uint8_t *bytes, size_t bytes_len, uint32_t *length);

/* As net_image_read; the directory becomes that of the rows read, whatever it held. 12 where some row's
   number is not below the directory's length, 11 where two rows bear one number; these two and 6 leave all
   rows vacant, n = m = 0, and every cell of the directory NET_END. Reads what net_image_read reads, and then
   the register numbers of all rows. Refused 1, 8 (short or mark), 9, 2, 8 (length), 6, 12, 11. */
uint32_t net_dir_image_read(
    int32_t *weights, size_t weights_len, uint32_t *heads, size_t heads_len,
    uint32_t *registers, size_t registers_len, uint32_t *links, size_t links_len,
    uint32_t *ends, size_t ends_len, uint32_t *n, uint32_t *m, uint32_t *directory, size_t directory_len,
    const uint8_t *bytes, size_t bytes_len);

/* The edge that bears register number r. Reads the row that the entry names. Refused 1, 12, 5 (the entry is
   NET_END), 6 (it names a row that is not below m, or bears another number). */
uint32_t net_dir_find_number(
    const int32_t *weights, size_t weights_len, const uint32_t *heads, size_t heads_len,
    const uint32_t *registers, size_t registers_len, const uint32_t *links, size_t links_len,
    const uint32_t *ends, size_t ends_len, uint32_t n, uint32_t m, const uint32_t *directory,
    size_t directory_len, uint32_t r, uint32_t *edge);

/* Takes out the edge that bears register number r: net_dir_find_number, then net_dir_remove_edge. Reads what
   both read. Refused 1, 12, 5, 6. */
uint32_t net_dir_remove_number(
    const int32_t *weights, size_t weights_len, uint32_t *heads, size_t heads_len,
    uint32_t *registers, size_t registers_len, uint32_t *links, size_t links_len,
    uint32_t *ends, size_t ends_len, uint32_t n, uint32_t *m, uint32_t *directory, size_t directory_len,
    uint32_t r, uint32_t *weight, uint32_t *moved, uint32_t *rows);

/* Scripts (libscript.a) */

/* Runs a script of at most 16,384 bytes from an empty network, and writes its answer lines to out, whole ones
   only and at most 16,384 bytes. Returns the answer number times 2^32, plus the bytes written: 0, or 7 where
   a line did not fit; or 1, and nothing written, for a script too long. No byte past those written is
   touched. Each line reads what its call reads. */
uint64_t net_run(const uint8_t *script, size_t script_len, uint8_t *out, size_t out_len);

#ifdef __cplusplus
}
#endif

#endif
