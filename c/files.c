#include "files.h"

#include <string.h>

graph graph_of(uint32_t input, uint32_t output, uint32_t bound)
{
    graph g;
    memset(&g, 0, sizeof g);
    g.version = 1;
    g.input = input;
    g.output = output;
    g.bound = bound;
    return g;
}

proposal proposal_of_none(void)
{
    proposal p;
    memset(&p, 0, sizeof p);
    p.version = 1;
    return p;
}

void add_task(graph *g, uint32_t processor, uint32_t time)
{
    g->processor[g->tasks] = processor;
    g->time[g->tasks] = time;
    g->tasks++;
}

static resync_edge edge_of(uint8_t source, uint8_t sink, uint8_t delay)
{
    resync_edge e;
    e.source = source;
    e.sink = sink;
    e.delay = delay;
    return e;
}

void add_edge(graph *g, uint8_t source, uint8_t sink, uint8_t delay)
{
    g->edge[g->edges++] = edge_of(source, sink, delay);
}

void propose(proposal *p, uint8_t source, uint8_t sink, uint8_t delay)
{
    p->edge[p->edges++] = edge_of(source, sink, delay);
}

void put_field(file *f, size_t at, unsigned width, uint32_t value)
{
    for (unsigned bit = width; bit-- > 0; at++) {
        uint8_t mask = (uint8_t)(0x80u >> at % 8);
        uint8_t others = (uint8_t)(f->bytes[at / 8] & ~mask);
        f->bytes[at / 8] = (uint8_t)(others | (value >> bit & 1u ? mask : 0u));
    }
}

/* The field behind the last; zero bits fill the byte that it ends in. */
static void append(file *f, size_t *bits, unsigned width, uint32_t value)
{
    put_field(f, *bits, width, value);
    *bits += width;
    f->len = (*bits + 7) / 8;
}

static void append_edges(file *f, size_t *bits, const resync_edge *edge, uint32_t edges)
{
    for (uint32_t i = 0; i < edges; i++) {
        append(f, bits, 6, edge[i].source);
        append(f, bits, 6, edge[i].sink);
        append(f, bits, 8, edge[i].delay);
    }
}

file graph_file(const graph *g)
{
    file f;
    size_t bits = 0;
    memset(&f, 0, sizeof f);
    append(&f, &bits, 5, g->version);
    append(&f, &bits, 7, g->tasks);
    append(&f, &bits, 9, g->edges);
    append(&f, &bits, 6, g->input);
    append(&f, &bits, 6, g->output);
    append(&f, &bits, 23, g->bound);
    for (uint32_t i = 0; i < g->tasks; i++) {
        append(&f, &bits, 4, g->processor[i]);
        append(&f, &bits, 16, g->time[i]);
    }
    append_edges(&f, &bits, g->edge, g->edges);
    return f;
}

file proposal_file(const proposal *p)
{
    file f;
    size_t bits = 0;
    memset(&f, 0, sizeof f);
    append(&f, &bits, 5, p->version);
    append(&f, &bits, 9, p->edges);
    append(&f, &bits, 2, p->zeros);
    append_edges(&f, &bits, p->edge, p->edges);
    return f;
}
