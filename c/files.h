/* Graph and proposal files written field by field, with any values: wrong ones too. */
#ifndef FILES_H
#define FILES_H

#include "resync.h"

/* As many as the counts' fields can say; a file that passes has at most 64 and 256. */
enum { TASKS_MOST = 127, EDGES_MOST = 511, FILE_MOST = 4096 };

typedef struct {
    uint32_t version, tasks, edges, input, output, bound;
    uint32_t processor[TASKS_MOST], time[TASKS_MOST];
    resync_edge edge[EDGES_MOST];
} graph;

typedef struct {
    uint32_t version, edges, zeros;
    resync_edge edge[EDGES_MOST];
} proposal;

typedef struct {
    uint8_t bytes[FILE_MOST];
    size_t len;
} file;

/* The largest bound that its field holds. */
#define BOUND_MOST 0x7fffffu

/* Without tasks and edges yet. */
graph graph_of(uint32_t input, uint32_t output, uint32_t bound);
proposal proposal_of_none(void);

void add_task(graph *g, uint32_t processor, uint32_t time);
void add_edge(graph *g, uint8_t source, uint8_t sink, uint8_t delay);
void propose(proposal *p, uint8_t source, uint8_t sink, uint8_t delay);

file graph_file(const graph *g);
file proposal_file(const proposal *p);

/* Puts a value into a field of a file that holds it whole: `width` bits from bit `at` on, most significant first. */
void put_field(file *f, size_t at, unsigned width, uint32_t value);

#endif
