/* The example desk of document 01 and its cases, each refusal number, and the limits, of the stack too, through include/resync.h and the
 * archive. Prints "N checks passed", or the first check that fails. */
#define _POSIX_C_SOURCE 200809L
#include "files.h"

#include <limits.h>
#include <pthread.h>
#include <stdio.h>
#include <stdlib.h>
#include <string.h>

static unsigned checks;

static void check(int holds, const char *what, int line)
{
    if (!holds) {
        printf("c/test.c:%d: fails: %s\n", line, what);
        exit(1);
    }
    checks++;
}

/* Where a helper checks for several callers, `line` is the caller's. */
#define CHECK(holds) check((holds), #holds, __LINE__)
#define CHECK_AT(line, holds) check((holds), #holds, line)

/* Long enough for every call. Before a call a list holds HELD everywhere. */
enum { LIST = 4096 + 8, RECORDS = 256 + 8 };
#define HELD 0xa5

static uint16_t table[LIST];
static uint32_t starts[LIST];
static resync_edge plan[RECORDS];

static void hold(void)
{
    memset(table, HELD, sizeof table);
    memset(starts, HELD, sizeof starts);
    memset(plan, HELD, sizeof plan);
}

/* Whether everything from this byte of a list on is as before the call. */
static int kept_from(const void *list, size_t size, size_t from)
{
    const uint8_t *bytes = (const uint8_t *)list;
    for (size_t i = from; i < size; i++) {
        if (bytes[i] != HELD) {
            return 0;
        }
    }
    return 1;
}

static int is_refusal(resync_refusal r, uint32_t number, uint32_t place, uint32_t latency, int32_t margin)
{
    return r.number == number && r.place == place && r.latency == latency && r.margin == margin;
}

static int no_refusal(resync_refusal r)
{
    return is_refusal(r, 0, 0, 0, 0);
}

static int is_edge(resync_edge e, uint8_t source, uint8_t sink, uint8_t delay)
{
    return e.source == source && e.sink == sink && e.delay == delay;
}

/* The six calls on a file as it is written. */
static resync_figures_answer figures_of(const file *g)
{
    return resync_figures(g->bytes, g->len);
}

static resync_refusal delays_of(const file *g, size_t len)
{
    hold();
    return resync_least_delays(g->bytes, g->len, table, len);
}

static resync_redundant_answer redundant_of(const file *g)
{
    return resync_redundant(g->bytes, g->len);
}

static resync_refusal timetable_of(const file *g, uint64_t turns, size_t len)
{
    hold();
    return resync_timetable(g->bytes, g->len, turns, starts, len);
}

static resync_verdict_answer verdict_of(const file *g, const file *p)
{
    return resync_verdict(g->bytes, g->len, p->bytes, p->len);
}

static resync_plan_answer plan_of(const file *g, size_t len)
{
    hold();
    return resync_plan(g->bytes, g->len, plan, len);
}

/* The example desk and proposal. */
static graph desk(uint32_t bound)
{
    graph g = graph_of(0, 3, bound);
    add_task(&g, 0, 2);
    add_task(&g, 0, 3);
    add_task(&g, 1, 1);
    add_task(&g, 1, 4);
    add_edge(&g, 0, 2, 0);
    add_edge(&g, 1, 3, 0);
    add_edge(&g, 0, 3, 0);
    return g;
}

static file desk_file(uint32_t bound)
{
    graph g = desk(bound);
    return graph_file(&g);
}

static file proposal_of_one(uint8_t source, uint8_t sink, uint8_t delay)
{
    proposal p = proposal_of_none();
    propose(&p, source, sink, delay);
    return proposal_file(&p);
}

static file example_proposal(void)
{
    return proposal_of_one(1, 2, 0);
}

/* A refused answer: the refusal, 0 in every other field, and the lists kept. */
static void refused_delays(int line, const file *g, size_t len, uint32_t number, uint32_t place)
{
    CHECK_AT(line, is_refusal(delays_of(g, len), number, place, 0, 0));
    CHECK_AT(line, kept_from(table, sizeof table, 0));
}

static void refused_timetable(int line, const file *g, uint64_t turns, size_t len, uint32_t number, uint32_t place)
{
    CHECK_AT(line, is_refusal(timetable_of(g, turns, len), number, place, 0, 0));
    CHECK_AT(line, kept_from(starts, sizeof starts, 0));
}

static void refused_plan(int line, const file *g, size_t len, uint32_t number, uint32_t place)
{
    resync_plan_answer a = plan_of(g, len);
    CHECK_AT(line, is_refusal(a.refusal, number, place, 0, 0));
    CHECK_AT(line, a.length == 0 && a.steps == 0 && a.latency == 0);
    CHECK_AT(line, kept_from(plan, sizeof plan, 0));
}

static void refused_proposal_with(int line, const file *g, const file *p, uint32_t number, uint32_t place, uint32_t latency, int32_t margin)
{
    resync_verdict_answer a = verdict_of(g, p);
    CHECK_AT(line, is_refusal(a.refusal, number, place, latency, margin));
    CHECK_AT(line, a.latency == 0 && a.margin == 0);
}

static void refused_proposal(int line, const file *g, const file *p, uint32_t number, uint32_t place)
{
    refused_proposal_with(line, g, p, number, place, 0, 0);
}

/* A graph that each of the six calls refuses alike, with the example proposal or none that can be read, with lists that are long
 * enough or empty. */
static void refused_graph(int line, const file *g, uint32_t number, uint32_t place)
{
    file p = example_proposal();
    file empty = p;
    resync_figures_answer f = figures_of(g);
    resync_redundant_answer r = redundant_of(g);
    empty.len = 0;

    CHECK_AT(line, is_refusal(f.refusal, number, place, 0, 0));
    CHECK_AT(line, f.tasks == 0 && f.edges == 0 && f.latency == 0);
    CHECK_AT(line, is_refusal(r.refusal, number, place, 0, 0));
    CHECK_AT(line, r.words[0] == 0 && r.words[1] == 0 && r.words[2] == 0 && r.words[3] == 0 && r.count == 0);
    refused_delays(line, g, LIST, number, place);
    refused_delays(line, g, 0, number, place);
    refused_timetable(line, g, 1, LIST, number, place);
    refused_timetable(line, g, 64, 0, number, place);
    refused_proposal(line, g, &p, number, place);
    refused_proposal(line, g, &empty, number, place);
    refused_plan(line, g, RECORDS, number, place);
    refused_plan(line, g, 0, number, place);
}

static void refused_desk(int line, const graph *g, uint32_t number, uint32_t place)
{
    file f = graph_file(g);
    refused_graph(line, &f, number, place);
}

static void accepted_graph(int line, const file *g, uint32_t tasks, uint32_t edges, uint32_t latency)
{
    resync_figures_answer f = figures_of(g);
    CHECK_AT(line, no_refusal(f.refusal));
    CHECK_AT(line, f.tasks == tasks && f.edges == edges && f.latency == latency);
}

static void accepted_proposal(int line, const file *g, const file *p, uint32_t latency, int32_t margin)
{
    resync_verdict_answer a = verdict_of(g, p);
    CHECK_AT(line, no_refusal(a.refusal));
    CHECK_AT(line, a.latency == latency && a.margin == margin);
}

static void example_files(void)
{
    static const uint8_t graph_bytes[25] = {0x08, 0x40, 0x18, 0x01, 0x80, 0x00, 0x0c, 0x00, 0x00, 0x20, 0x00, 0x03, 0x10,
                                            0x00, 0x11, 0x00, 0x04, 0x00, 0x20, 0x00, 0x43, 0x00, 0x00, 0x30, 0x00};
    static const uint8_t proposal_bytes[5] = {0x08, 0x04, 0x04, 0x20, 0x00};
    file g = desk_file(12);
    file p = example_proposal();
    CHECK(g.len == sizeof graph_bytes && memcmp(g.bytes, graph_bytes, g.len) == 0);
    CHECK(p.len == sizeof proposal_bytes && memcmp(p.bytes, proposal_bytes, p.len) == 0);
}

static void example_calls(void)
{
    static const uint16_t rows[16] = {1, 0, 0, 0, 1, 1, 1, 0, 65535, 65535, 1, 0, 65535, 65535, 1, 1};
    static const uint32_t turns[8] = {0, 2, 2, 5, 5, 7, 9, 10};
    file g = desk_file(12);
    resync_redundant_answer r = redundant_of(&g);

    accepted_graph(__LINE__, &g, 4, 3, 9);

    CHECK(no_refusal(delays_of(&g, LIST)));
    CHECK(memcmp(table, rows, sizeof rows) == 0);
    CHECK(kept_from(table, sizeof table, sizeof rows));
    CHECK(no_refusal(delays_of(&g, 16)));
    CHECK(memcmp(table, rows, sizeof rows) == 0);
    CHECK(kept_from(table, sizeof table, sizeof rows));

    CHECK(no_refusal(r.refusal));
    CHECK(r.words[0] == UINT64_C(0x2000000000000000) && r.words[1] == 0 && r.words[2] == 0 && r.words[3] == 0);
    CHECK(r.count == 1);

    CHECK(no_refusal(timetable_of(&g, 2, LIST)));
    CHECK(memcmp(starts, turns, sizeof turns) == 0);
    CHECK(kept_from(starts, sizeof starts, sizeof turns));
    CHECK(no_refusal(timetable_of(&g, 1, 4)));
    CHECK(memcmp(starts, turns, sizeof turns / 2) == 0);
    CHECK(kept_from(starts, sizeof starts, sizeof turns / 2));
}

static void example_verdicts(void)
{
    file at_12 = desk_file(12), at_10 = desk_file(10), at_9 = desk_file(9), at_8 = desk_file(8);
    file p = example_proposal();
    proposal none = proposal_of_none();
    file empty = proposal_file(&none);
    file first_only = proposal_of_one(0, 2, 0);
    file delayed = proposal_of_one(1, 2, 1);
    proposal back = proposal_of_none(), mixed = proposal_of_none();
    file cyclic;

    accepted_proposal(__LINE__, &at_12, &p, 10, 2);
    accepted_proposal(__LINE__, &at_10, &p, 10, 0);
    refused_proposal_with(__LINE__, &at_9, &p, 15, 0, 10, -1);
    refused_graph(__LINE__, &at_8, 12, 0);

    refused_proposal(__LINE__, &at_12, &empty, 14, 1);
    refused_proposal(__LINE__, &at_12, &first_only, 14, 2);
    refused_proposal(__LINE__, &at_12, &delayed, 14, 1);

    propose(&back, 0, 2, 0);
    propose(&back, 1, 3, 0);
    propose(&back, 3, 0, 1);
    cyclic = proposal_file(&back);
    refused_proposal(__LINE__, &at_12, &cyclic, 13, 1);
    propose(&mixed, 0, 2, 0);
    propose(&mixed, 2, 3, 0); /* within a processor, and so on a cycle */
    propose(&mixed, 1, 3, 0);
    propose(&mixed, 0, 1, 1); /* this too */
    cyclic = proposal_file(&mixed);
    refused_proposal(__LINE__, &at_12, &cyclic, 13, 2);
}

static void example_plans(void)
{
    file at_12 = desk_file(12), at_9 = desk_file(9);
    resync_plan_answer a = plan_of(&at_12, RECORDS);
    CHECK(no_refusal(a.refusal));
    CHECK(a.length == 1 && a.steps == 1 && a.latency == 10);
    CHECK(is_edge(plan[0], 1, 2, 0));
    CHECK(kept_from(plan, sizeof plan, sizeof plan[0]));

    a = plan_of(&at_9, 3);
    CHECK(no_refusal(a.refusal));
    CHECK(a.length == 2 && a.steps == 0 && a.latency == 9);
    CHECK(is_edge(plan[0], 0, 2, 0) && is_edge(plan[1], 1, 3, 0));
    CHECK(kept_from(plan, sizeof plan, 2 * sizeof plan[0]));
}

/* Tasks of time 1, four to a processor, and so many edges of delay 0 from lower to higher processors, all feedforward, the first
 * from the latency input to the latency output. */
static graph large_graph(uint32_t tasks, uint32_t edges)
{
    graph g = graph_of(0, 63, BOUND_MOST);
    for (uint32_t i = 0; i < tasks; i++) {
        add_task(&g, i / 4 % 16, 1);
    }
    add_edge(&g, 0, 63, 0);
    for (uint8_t source = 0; source < 63; source++) {
        for (uint8_t sink = (uint8_t)(source + 1); sink < 63 && g.edges < edges; sink++) {
            if (source / 4 != sink / 4) {
                add_edge(&g, source, sink, 0);
            }
        }
    }
    return g;
}

static proposal as_proposal(const graph *g)
{
    proposal p = proposal_of_none();
    for (uint32_t i = 0; i < g->edges; i++) {
        propose(&p, g->edge[i].source, g->edge[i].sink, g->edge[i].delay);
    }
    return p;
}

static void largest(void)
{
    graph g = large_graph(64, 256);
    proposal own = as_proposal(&g);
    file f = graph_file(&g);
    file p = proposal_file(&own);
    resync_figures_answer figures = figures_of(&f);
    resync_redundant_answer r = redundant_of(&f);
    resync_plan_answer a;
    resync_verdict_answer v;
    file planned;
    proposal of_plan = proposal_of_none();

    CHECK(f.len == 807 && p.len == 642);
    CHECK(no_refusal(figures.refusal));
    CHECK(figures.tasks == 64 && figures.edges == 256);
    CHECK(no_refusal(delays_of(&f, 4096)));
    CHECK(table[63] == 0 && table[64 * 64 - 1] == 1);
    CHECK(kept_from(table, sizeof table, 4096 * sizeof table[0]));
    CHECK(no_refusal(r.refusal) && r.count > 0 && r.count <= 256);
    CHECK(no_refusal(timetable_of(&f, 64, 4096)));
    CHECK(starts[63] + 1 == figures.latency);
    CHECK(kept_from(starts, sizeof starts, 4096 * sizeof starts[0]));
    accepted_proposal(__LINE__, &f, &p, figures.latency, (int32_t)(BOUND_MOST - figures.latency));

    a = plan_of(&f, 256);
    CHECK(no_refusal(a.refusal) && a.length <= 256);
    CHECK(kept_from(plan, sizeof plan, a.length * sizeof plan[0]));
    for (uint32_t i = 0; i < a.length; i++) {
        propose(&of_plan, plan[i].source, plan[i].sink, plan[i].delay);
    }
    planned = proposal_file(&of_plan);
    v = verdict_of(&f, &planned);
    CHECK(no_refusal(v.refusal) && v.latency == a.latency);

    refused_delays(__LINE__, &f, 4095, 16, 0);
    refused_timetable(__LINE__, &f, 64, 4095, 16, 0);
    refused_timetable(__LINE__, &f, 65, LIST, 17, 0);
    refused_plan(__LINE__, &f, 255, 16, 0);
}

static void over_the_limits(void)
{
    graph more_tasks = large_graph(65, 256);
    graph more_edges = large_graph(64, 257);
    graph one_task = desk(12), no_task = desk(12);
    proposal more_proposed = as_proposal(&more_edges);
    file g = desk_file(12);
    file p = proposal_file(&more_proposed);
    CHECK(more_tasks.tasks == 65 && more_edges.edges == 257);
    refused_desk(__LINE__, &more_tasks, 3, 0);
    refused_desk(__LINE__, &more_edges, 3, 0);
    one_task.tasks = 1;
    refused_desk(__LINE__, &one_task, 3, 0);
    no_task.tasks = 0;
    refused_desk(__LINE__, &no_task, 3, 0);
    refused_proposal(__LINE__, &g, &p, 3, 0);
}

static void smallest(void)
{
    graph g = graph_of(0, 1, 2);
    proposal none = proposal_of_none();
    file f, p = proposal_file(&none);
    resync_plan_answer a;
    add_task(&g, 7, 1);
    add_task(&g, 7, 1);
    f = graph_file(&g);
    accepted_graph(__LINE__, &f, 2, 0, 2);
    accepted_proposal(__LINE__, &f, &p, 2, 0);
    a = plan_of(&f, 0);
    CHECK(no_refusal(a.refusal) && a.length == 0 && a.steps == 0 && a.latency == 2);
    CHECK(kept_from(plan, sizeof plan, 0));
    CHECK(no_refusal(redundant_of(&f).refusal) && redundant_of(&f).count == 0);
    CHECK(no_refusal(delays_of(&f, 4)));
    CHECK(table[0] == 1 && table[1] == 0 && table[2] == 1 && table[3] == 1);
}

/* 1 and 4: a byte short, a byte long, and every shorter front. */
static void lengths(void)
{
    file g = desk_file(12), p = example_proposal();
    file cut, long_graph = g, long_proposal = p;
    for (cut = g; cut.len-- > 0;) {
        refused_graph(__LINE__, &cut, 1, 0);
    }
    for (cut = p; cut.len-- > 0;) {
        refused_proposal(__LINE__, &g, &cut, 1, 0);
    }
    long_graph.len++;
    refused_graph(__LINE__, &long_graph, 4, 0);
    long_proposal.len++;
    refused_proposal(__LINE__, &g, &long_proposal, 4, 0);
    long_graph.len = long_proposal.len = FILE_MOST;
    refused_graph(__LINE__, &long_graph, 4, 0);
    refused_proposal(__LINE__, &g, &long_proposal, 4, 0);
}

/* 4: each filling bit. The graph's fields end 4 bits before its last byte does, and so do the proposal's. */
static void filling_bits(void)
{
    file g = desk_file(12), p = example_proposal();
    for (unsigned bit = 0; bit < 4; bit++) {
        file filled = g;
        filled.bytes[filled.len - 1] |= (uint8_t)(1u << bit);
        refused_graph(__LINE__, &filled, 4, 0);
        filled = p;
        filled.bytes[filled.len - 1] |= (uint8_t)(1u << bit);
        refused_proposal(__LINE__, &g, &filled, 4, 0);
    }
    for (uint32_t zeros = 1; zeros < 4; zeros++) {
        proposal wrong = proposal_of_none();
        file filled;
        propose(&wrong, 1, 2, 0);
        wrong.zeros = zeros;
        filled = proposal_file(&wrong);
        refused_proposal(__LINE__, &g, &filled, 4, 0);
    }
}

/* 2. */
static void versions(void)
{
    file g = desk_file(12);
    for (uint32_t version = 0; version < 32; version++) {
        graph wrong = desk(12);
        proposal wrong_proposal = proposal_of_none();
        file p;
        if (version == 1) {
            continue;
        }
        wrong.version = version;
        refused_desk(__LINE__, &wrong, 2, 0);
        wrong_proposal.version = version;
        p = proposal_file(&wrong_proposal);
        refused_proposal(__LINE__, &g, &p, 2, 0);
    }
}

/* 5 to 8. */
static void tasks_and_edges(void)
{
    file p, at_12 = desk_file(12);
    proposal wrong = proposal_of_none();
    graph g = desk(12);
    g.time[0] = 1;
    p = graph_file(&g);
    accepted_graph(__LINE__, &p, 4, 3, 8);
    g.time[0] = 0;
    refused_desk(__LINE__, &g, 5, 0);
    g = desk(12);
    g.time[3] = 0;
    refused_desk(__LINE__, &g, 5, 3);

    g = desk(12);
    g.input = 4;
    refused_desk(__LINE__, &g, 6, 0);
    g = desk(12);
    g.output = 63;
    refused_desk(__LINE__, &g, 6, 0);
    g = desk(12);
    g.edge[1].source = 4;
    refused_desk(__LINE__, &g, 6, 2);
    g = desk(12);
    g.edge[2].sink = 63;
    refused_desk(__LINE__, &g, 6, 3);

    g = desk(12);
    g.edge[1].sink = 0;
    refused_desk(__LINE__, &g, 7, 2);
    g.edge[2].sink = 4;
    refused_desk(__LINE__, &g, 7, 2);

    g = desk(12);
    add_edge(&g, 1, 3, 0);
    refused_desk(__LINE__, &g, 8, 4);
    add_edge(&g, 0, 2, 0);
    refused_desk(__LINE__, &g, 8, 4);

    propose(&wrong, 1, 2, 0);
    propose(&wrong, 4, 2, 0);
    p = proposal_file(&wrong);
    refused_proposal(__LINE__, &at_12, &p, 6, 2);
    wrong.edge[1] = wrong.edge[0];
    p = proposal_file(&wrong);
    refused_proposal(__LINE__, &at_12, &p, 8, 2);
}

/* 9 to 12. */
static void schedules(void)
{
    graph g = desk(12);
    file f;
    add_edge(&g, 3, 0, 0);
    refused_desk(__LINE__, &g, 9, 0);
    g.edge[3].delay = 1;
    f = graph_file(&g);
    accepted_graph(__LINE__, &f, 4, 4, 9);

    g = desk(12);
    g.input = 1; /* behind task 0 on its processor */
    refused_desk(__LINE__, &g, 10, 0);
    g.input = 2; /* behind edge 1 */
    refused_desk(__LINE__, &g, 10, 0);

    g = desk(12);
    g.output = 0;
    refused_desk(__LINE__, &g, 11, 0);
    g = desk(12);
    g.edge[0].delay = 1;
    g.input = 2;
    g.output = 1;
    refused_desk(__LINE__, &g, 11, 0);

    g = desk(8);
    refused_desk(__LINE__, &g, 12, 0);
    g.bound = 0;
    refused_desk(__LINE__, &g, 12, 0);
}

/* 16 and 17: every length that is too short, turns out of range, and that 17 comes first of all, 16 after the graph's. */
static void calling_program(void)
{
    static const uint64_t wrong_turns[6] = {0, 65, 66, UINT64_C(1) << 32, (UINT64_C(1) << 32) + 1, UINT64_MAX};
    file g = desk_file(12), late = desk_file(8), empty = g;
    empty.len = 0;
    for (size_t len = 0; len < 16; len++) {
        refused_delays(__LINE__, &g, len, 16, 0);
    }
    for (uint64_t turns = 1; turns <= 64; turns++) {
        refused_timetable(__LINE__, &g, turns, 0, 16, 0);
        refused_timetable(__LINE__, &g, turns, (size_t)(4 * turns - 1), 16, 0);
        CHECK(no_refusal(timetable_of(&g, turns, (size_t)(4 * turns))));
        CHECK(kept_from(starts, sizeof starts, (size_t)(4 * turns) * sizeof starts[0]));
    }
    for (size_t len = 0; len < 3; len++) {
        refused_plan(__LINE__, &g, len, 16, 0);
    }
    for (size_t i = 0; i < sizeof wrong_turns / sizeof wrong_turns[0]; i++) {
        refused_timetable(__LINE__, &g, wrong_turns[i], LIST, 17, 0);
        refused_timetable(__LINE__, &empty, wrong_turns[i], 0, 17, 0);
    }
    refused_delays(__LINE__, &late, 0, 12, 0);
    refused_timetable(__LINE__, &late, 1, 0, 12, 0);
    refused_plan(__LINE__, &late, 0, 12, 0);
}

/* Null for each file and list of no elements. */
static void null_pointers(void)
{
    graph none = graph_of(0, 1, 2);
    file g = desk_file(12), p = example_proposal(), no_edges;
    resync_plan_answer a;
    CHECK(is_refusal(resync_figures(NULL, 0).refusal, 1, 0, 0, 0));
    CHECK(is_refusal(resync_redundant(NULL, 0).refusal, 1, 0, 0, 0));
    CHECK(is_refusal(resync_least_delays(NULL, 0, table, LIST), 1, 0, 0, 0));
    CHECK(is_refusal(resync_least_delays(NULL, 0, NULL, 0), 1, 0, 0, 0));
    CHECK(is_refusal(resync_least_delays(g.bytes, g.len, NULL, 0), 16, 0, 0, 0));
    CHECK(is_refusal(resync_timetable(NULL, 0, 1, starts, LIST), 1, 0, 0, 0));
    CHECK(is_refusal(resync_timetable(NULL, 0, 1, NULL, 0), 1, 0, 0, 0));
    CHECK(is_refusal(resync_timetable(NULL, 0, 0, NULL, 0), 17, 0, 0, 0));
    CHECK(is_refusal(resync_timetable(g.bytes, g.len, 1, NULL, 0), 16, 0, 0, 0));
    CHECK(is_refusal(resync_verdict(NULL, 0, p.bytes, p.len).refusal, 1, 0, 0, 0));
    CHECK(is_refusal(resync_verdict(NULL, 0, NULL, 0).refusal, 1, 0, 0, 0));
    CHECK(is_refusal(resync_verdict(g.bytes, g.len, NULL, 0).refusal, 1, 0, 0, 0));
    CHECK(is_refusal(resync_plan(NULL, 0, plan, RECORDS).refusal, 1, 0, 0, 0));
    CHECK(is_refusal(resync_plan(NULL, 0, NULL, 0).refusal, 1, 0, 0, 0));
    CHECK(is_refusal(resync_plan(g.bytes, g.len, NULL, 0).refusal, 16, 0, 0, 0));

    add_task(&none, 0, 1);
    add_task(&none, 0, 1);
    no_edges = graph_file(&none);
    a = resync_plan(no_edges.bytes, no_edges.len, NULL, 0);
    CHECK(no_refusal(a.refusal) && a.length == 0 && a.steps == 0 && a.latency == 2);
}

/* Eight pairs of processors, each with four waits that one can stand for: a plan of eight steps. */
static graph graph_of_steps(void)
{
    graph g = graph_of(0, 7, BOUND_MOST);
    for (uint8_t i = 0; i < 64; i++) {
        add_task(&g, i / 4, 1);
    }
    for (uint8_t i = 0; i < 64; i++) {
        if (i / 4 % 2 == 0) {
            add_edge(&g, i, (uint8_t)(i + 4), 0);
        }
    }
    return g;
}

/* Every call on a graph; the verdict on its own edges and on none, which loses an order. */
static void *make_every_call(void *graph_own_none)
{
    const file *f = (const file *)graph_own_none;
    CHECK(no_refusal(figures_of(f).refusal));
    CHECK(no_refusal(delays_of(f, LIST)));
    CHECK(no_refusal(redundant_of(f).refusal));
    CHECK(no_refusal(timetable_of(f, 64, LIST)));
    CHECK(no_refusal(verdict_of(f, f + 1).refusal));
    CHECK(verdict_of(f, f + 2).refusal.number == 14);
    CHECK(plan_of(f, RECORDS).steps == 8);
    return NULL;
}

/* On a thread that has as much stack as the header says, beside the least that any thread must have: a call that takes far more faults. */
static void small_stack(void)
{
    static file files[3];
    graph g = graph_of_steps();
    proposal own = as_proposal(&g), none = proposal_of_none();
    pthread_attr_t attributes;
    pthread_t thread;
    files[0] = graph_file(&g);
    files[1] = proposal_file(&own);
    files[2] = proposal_file(&none);
    CHECK(pthread_attr_init(&attributes) == 0);
    CHECK(pthread_attr_setstacksize(&attributes, RESYNC_STACK_BYTES + (size_t)PTHREAD_STACK_MIN) == 0);
    CHECK(pthread_create(&thread, &attributes, make_every_call, files) == 0);
    CHECK(pthread_join(thread, NULL) == 0);
    CHECK(pthread_attr_destroy(&attributes) == 0);
}

int main(void)
{
    example_files();
    example_calls();
    example_verdicts();
    example_plans();
    largest();
    over_the_limits();
    smallest();
    lengths();
    filling_bits();
    versions();
    tasks_and_edges();
    schedules();
    calling_program();
    null_pointers();
    small_stack();
    printf("%u checks passed\n", checks);
    return 0;
}
