/* The hostile run: every call on damaged files, with lent lists of every length, each watched for what it touches.
 *
 *     hostile GRAPHS TASKS
 *
 * makes every call on GRAPHS damaged graph files, some beside damaged proposals, then on undamaged graphs of 2 to TASKS tasks with
 * each length of list from 0 to 8 more than is needed. Each call is made twice, in other places and with other contents of the list.
 * Checked of each:
 *   - Nothing outside is touched: files and lists lie against guard pages, where a touch faults, among canaries, or in heap blocks of
 *     their exact size, which valgrind watches. The pages that files are lent in are read-only.
 *   - A refused call leaves the list as it was; a successful one writes its part whole and nothing past it.
 *   - Both answers are the same, and are what the numbers, places and the sequence of refusals allow.
 * A file or a list of no elements is lent at null, too. Prints the calls made and the refusals by number; each of 1 to 17 must come 100
 * times, and so must null for a graph, a proposal and a list. */
#define _GNU_SOURCE
#include "files.h"

#include <signal.h>
#include <stdio.h>
#include <stdlib.h>
#include <string.h>
#include <sys/mman.h>
#include <unistd.h>

enum { NUMBERS = 18, REACHED_LEAST = 100 };

enum call { FIGURES, LEAST_DELAYS, REDUNDANT, TIMETABLE, VERDICT, PLAN, CALLS };
static const char *const call_names[CALLS] = {"figures", "least_delays", "redundant", "timetable", "verdict", "plan"};
static const size_t element_sizes[CALLS] = {0, sizeof(uint16_t), 0, sizeof(uint32_t), 0, sizeof(resync_edge)};

static unsigned long damaged_graphs, damaged_proposals, calls_made[CALLS], reached[NUMBERS];
static unsigned long null_graphs, null_proposals, null_lists;
static unsigned long trial_number;
static enum call present_call;

static void fail(const char *what)
{
    printf("trial %lu, resync_%s: %s\n", trial_number, call_names[present_call], what);
    exit(1);
}

static void require(int holds, const char *what)
{
    if (!holds) {
        fail(what);
    }
}

/* A fault is the call's: everything here stays inside its own memory. */
static void on_fault(int signal_number)
{
    (void)signal_number;
    fail("touched what it was not lent");
}

/* splitmix64. */
static uint64_t random_state = 20240229;

static uint64_t random_word(void)
{
    uint64_t z = random_state += UINT64_C(0x9e3779b97f4a7c15);
    z = (z ^ z >> 30) * UINT64_C(0xbf58476d1ce4e5b9);
    z = (z ^ z >> 27) * UINT64_C(0x94d049bb133111eb);
    return z ^ z >> 31;
}

static uint32_t below(size_t limit)
{
    return (uint32_t)(random_word() % limit);
}

static int one_in(uint32_t n)
{
    return below(n) == 0;
}

/* ---- What is lent, and where ---- */

enum { PAGE = 4096, REGION = 8 * PAGE, CANARY = 64, CANARY_BYTE = 0xc5 };

/* Pages between two guard pages, seen twice: the call is lent addresses in `lent`, which may be read-only, and the run itself writes
 * by `own`. */
typedef struct {
    uint8_t *own, *lent;
} region;

static uint8_t *mapped(void *pages)
{
    if (pages == MAP_FAILED) {
        perror("mmap");
        exit(2);
    }
    return (uint8_t *)pages;
}

static region region_of(int protection)
{
    region r;
    uint8_t *reserved = mapped(mmap(NULL, REGION + 2 * PAGE, PROT_NONE, MAP_PRIVATE | MAP_ANONYMOUS, -1, 0));
    int memory = memfd_create("region", 0);
    if (memory < 0 || ftruncate(memory, REGION) != 0) {
        perror("memfd_create");
        exit(2);
    }
    r.lent = mapped(mmap(reserved + PAGE, REGION, protection, MAP_SHARED | MAP_FIXED, memory, 0));
    r.own = mapped(mmap(NULL, REGION, PROT_READ | PROT_WRITE, MAP_SHARED, memory, 0));
    close(memory);
    return r;
}

/* Bytes lent to a call. */
typedef struct {
    uint8_t *own, *lent;
    size_t size;
    size_t before, after; /* canary bytes on either side, by `own` */
    int on_heap;
} loan;

/* Lends a copy of the bytes against the guard page behind or in front, between canaries, or in a heap block of their size; or at null,
 * if there are none. */
static loan lend(const region *r, const uint8_t *bytes, size_t size)
{
    loan l;
    size_t offset = 0;
    l.size = size;
    l.before = l.after = 0;
    l.on_heap = 0;
    if (size == 0 && one_in(2)) {
        l.own = l.lent = NULL;
        return l;
    }
    switch (below(4)) {
    case 0:
        offset = REGION - size;
        l.before = CANARY;
        break;
    case 1:
        l.after = CANARY;
        break;
    case 2:
        offset = CANARY * (1 + below(8));
        l.before = l.after = CANARY;
        break;
    default:
        l.on_heap = 1;
        break;
    }
    l.own = l.on_heap ? (uint8_t *)malloc(size) : r->own + offset;
    l.lent = l.on_heap ? l.own : r->lent + offset;
    require(l.own != NULL, "no memory for the run");
    memset(l.own - l.before, CANARY_BYTE, l.before);
    memcpy(l.own, bytes, size);
    memset(l.own + size, CANARY_BYTE, l.after);
    return l;
}

static int all_canary(const uint8_t *bytes, size_t size)
{
    for (size_t i = 0; i < size; i++) {
        if (bytes[i] != CANARY_BYTE) {
            return 0;
        }
    }
    return 1;
}

/* Takes a loan back, what it holds now into `bytes`. */
static void take_back(loan *l, uint8_t *bytes)
{
    if (l->own == NULL) {
        return;
    }
    require(all_canary(l->own - l->before, l->before), "wrote before what it was lent");
    require(all_canary(l->own + l->size, l->after), "wrote behind what it was lent");
    memcpy(bytes, l->own, l->size);
    if (l->on_heap) {
        free(l->own);
    }
}

/* ---- A call ---- */

/* What a call is given; a list's length counts elements. */
typedef struct {
    file graph, proposal;
    uint64_t turns;
    size_t list_len[CALLS];
} trial;

/* What it answers: the refusal, then the answer's other fields in their sequence, 0 where there are fewer. */
typedef struct {
    resync_refusal refusal;
    uint64_t field[5];
} answer;

static answer answer_of(resync_refusal refusal)
{
    answer a;
    memset(&a, 0, sizeof a);
    a.refusal = refusal;
    return a;
}

static answer make(enum call call, const trial *t, const uint8_t *graph, const uint8_t *proposal, uint8_t *list)
{
    size_t len = t->list_len[call];
    answer a;
    switch (call) {
    case FIGURES: {
        resync_figures_answer f = resync_figures(graph, t->graph.len);
        a = answer_of(f.refusal);
        a.field[0] = f.tasks;
        a.field[1] = f.edges;
        a.field[2] = f.latency;
        return a;
    }
    case LEAST_DELAYS:
        return answer_of(resync_least_delays(graph, t->graph.len, (uint16_t *)(void *)list, len));
    case REDUNDANT: {
        resync_redundant_answer r = resync_redundant(graph, t->graph.len);
        a = answer_of(r.refusal);
        memcpy(a.field, r.words, sizeof r.words);
        a.field[4] = r.count;
        return a;
    }
    case TIMETABLE:
        return answer_of(resync_timetable(graph, t->graph.len, t->turns, (uint32_t *)(void *)list, len));
    case VERDICT: {
        resync_verdict_answer v = resync_verdict(graph, t->graph.len, proposal, t->proposal.len);
        a = answer_of(v.refusal);
        a.field[0] = v.latency;
        a.field[1] = (uint64_t)(int64_t)v.margin;
        return a;
    }
    default: {
        resync_plan_answer p = resync_plan(graph, t->graph.len, (resync_edge *)(void *)list, len);
        a = answer_of(p.refusal);
        a.field[0] = p.length;
        a.field[1] = p.steps;
        a.field[2] = p.latency;
        return a;
    }
    }
}

static int same_refusal(resync_refusal a, resync_refusal b)
{
    return a.number == b.number && a.place == b.place && a.latency == b.latency && a.margin == b.margin;
}

static int same_answer(const answer *a, const answer *b)
{
    return same_refusal(a->refusal, b->refusal) && memcmp(a->field, b->field, sizeof a->field) == 0;
}

enum { LIST_MOST = (4096 + 8) * sizeof(uint32_t) };
static region graph_region, proposal_region, list_region;
static uint8_t list_before[2][LIST_MOST], list_after[2][LIST_MOST];

/* What stands in a list before the call: at each byte, the two times differ. */
static void fill_lists(void)
{
    for (size_t i = 0; i < LIST_MOST; i++) {
        list_before[0][i] = (uint8_t)(i * 37 + 11);
        list_before[1][i] = (uint8_t)~list_before[0][i];
    }
}

static void unchanged(loan *l, const file *f)
{
    uint8_t now[FILE_MOST];
    take_back(l, now);
    require(memcmp(now, f->bytes, f->len) == 0, "changed a file");
}

static answer make_once(enum call call, const trial *t, int time)
{
    loan graph = lend(&graph_region, t->graph.bytes, t->graph.len);
    loan proposal = lend(&proposal_region, t->proposal.bytes, t->proposal.len);
    loan list = lend(&list_region, list_before[time], t->list_len[call] * element_sizes[call]);
    answer a = make(call, t, graph.lent, proposal.lent, list.lent);
    null_graphs += graph.lent == NULL;
    null_proposals += call == VERDICT && proposal.lent == NULL;
    null_lists += element_sizes[call] > 0 && list.lent == NULL;
    unchanged(&graph, &t->graph);
    unchanged(&proposal, &t->proposal);
    take_back(&list, list_after[time]);
    require(a.refusal.number < NUMBERS, "an unknown refusal");
    calls_made[call]++;
    reached[a.refusal.number]++;
    return a;
}

/* ---- What must be true of the answers ---- */

static int place_fits(uint32_t number, uint32_t place)
{
    switch (number) {
    case 5:
        return place < 64;
    case 6:
        return place <= 256;
    case 7:
    case 13:
    case 14:
        return place >= 1 && place <= 256;
    case 8:
        return place >= 2 && place <= 256;
    default:
        return place == 0;
    }
}

static void check_refusal(const answer *a)
{
    static const uint64_t zeros[5] = {0, 0, 0, 0, 0};
    resync_refusal r = a->refusal;
    require(place_fits(r.number, r.place), "a place that its refusal cannot have");
    require(r.number == 15 ? r.margin < 0 : r.latency == 0 && r.margin == 0, "latency or margin of a refusal");
    require(r.number == 0 || memcmp(a->field, zeros, sizeof zeros) == 0, "a refused answer with a field that is not 0");
}

/* The refusal that comes before all that is the list's or the proposal's: 17, or the graph's. */
static resync_refusal first_refusal(enum call call, const trial *t, const answer *figures)
{
    static const resync_refusal turns_refusal = {17, 0, 0, 0};
    int wrong_turns = call == TIMETABLE && (t->turns < 1 || t->turns > 64);
    return wrong_turns ? turns_refusal : figures->refusal;
}

/* Elements that the list must have, for a graph with these figures. */
static size_t needed_len(enum call call, uint64_t turns, uint64_t tasks, uint64_t edges)
{
    return (size_t)(call == LEAST_DELAYS ? tasks * tasks : call == TIMETABLE ? tasks * turns : call == PLAN ? edges : 0);
}

static void check_number(enum call call, const trial *t, const answer *a, const answer *figures)
{
    resync_refusal first = first_refusal(call, t, figures);
    uint32_t number = a->refusal.number;
    if (first.number != 0) {
        require(same_refusal(a->refusal, first), "another refusal than the one that comes first");
    } else if (call == VERDICT) {
        require(number <= 4 || number == 6 || number == 8 || (number >= 13 && number <= 15), "a refusal that no proposal gets");
    } else {
        size_t needed = needed_len(call, t->turns, figures->field[0], figures->field[1]);
        require(number == (t->list_len[call] < needed ? 16u : 0u), "16 where the list is not too short, or none where it is");
    }
}

/* The bound of an accepted graph: 23 bits from bit 33 on. */
static int64_t bound_of(const file *graph)
{
    const uint8_t *b = graph->bytes;
    return (int64_t)(b[4] & 0x7f) << 16 | b[5] << 8 | b[6];
}

static void check_values(enum call call, const trial *t, const answer *a, const answer *figures)
{
    if (a->refusal.number == 15) {
        require(a->refusal.margin == bound_of(&t->graph) - (int64_t)a->refusal.latency, "the margin of a late result");
    }
    if (a->refusal.number != 0) {
        return;
    }
    if (call == VERDICT) {
        require((int64_t)a->field[1] == bound_of(&t->graph) - (int64_t)a->field[0] && (int64_t)a->field[1] >= 0, "the margin");
    }
    if (call == REDUNDANT) {
        uint64_t set = 0;
        for (size_t edge = 0; edge < 256; edge++) {
            uint64_t mark = a->field[edge / 64] >> (63 - edge % 64) & 1;
            require(!mark || edge < figures->field[1], "a mark behind the last edge");
            set += mark;
        }
        require(set == a->field[4], "the count of marks");
    }
    if (call == PLAN) {
        require(a->field[0] <= figures->field[1], "a plan of more edges than the graph has");
    }
}

/* The two lists after the call: its part written whole and alike, the rest as it was. */
static void check_lists(enum call call, const trial *t, const answer *a, const answer *figures)
{
    size_t size = t->list_len[call] * element_sizes[call];
    size_t part = 0;
    if (a->refusal.number == 0) {
        part = call == PLAN ? (size_t)a->field[0] : needed_len(call, t->turns, figures->field[0], figures->field[1]);
    }
    part *= element_sizes[call];
    require(part <= size, "more written than lent");
    require(memcmp(list_after[0], list_after[1], part) == 0, "a part that is not written whole");
    for (int time = 0; time < 2; time++) {
        require(memcmp(list_after[time] + part, list_before[time] + part, size - part) == 0,
                "wrote past its part of the list, or wrote and refused");
    }
}

static answer make_twice(enum call call, const trial *t, const answer *figures)
{
    answer first, second;
    present_call = call;
    first = make_once(call, t, 0);
    second = make_once(call, t, 1);
    require(same_answer(&first, &second), "another answer the second time");
    if (figures == NULL) {
        figures = &first;
    }
    check_refusal(&first);
    check_number(call, t, &first, figures);
    check_values(call, t, &first, figures);
    check_lists(call, t, &first, figures);
    return first;
}

/* ---- Graphs and proposals ---- */

static resync_figures_answer figures_of(const graph *g)
{
    file f = graph_file(g);
    return resync_figures(f.bytes, f.len);
}

static int has_edge(const resync_edge *edge, uint32_t edges, resync_edge e)
{
    for (uint32_t i = 0; i < edges; i++) {
        if (edge[i].source == e.source && edge[i].sink == e.sink && edge[i].delay == e.delay) {
            return 1;
        }
    }
    return 0;
}

/* An edge of delay 0 or more to a higher task, of 1 or more to a lower one: no cycle of delay 0 comes of these. */
static resync_edge random_edge(uint32_t tasks)
{
    resync_edge e;
    e.source = (uint8_t)below(tasks);
    e.sink = (uint8_t)below(tasks);
    e.delay = (uint8_t)(one_in(3) ? below(3) : one_in(30) ? below(256) : 0);
    if (e.source >= e.sink && e.delay == 0) {
        e.delay = 1;
    }
    return e;
}

/* Tasks spread over processors at random or in blocks (then an edge to a higher task is feedforward unless one leads back). */
static void random_tasks(graph *g, uint32_t tasks)
{
    uint32_t processors = 2 + below(tasks < 15 ? tasks - 1 : 15);
    uint32_t blocks = !one_in(3);
    uint32_t longest = one_in(3) ? 65535 : 1 + below(20);
    for (uint32_t i = 0; i < tasks; i++) {
        add_task(g, blocks ? i * processors / tasks % 16 : below(processors) % 16, 1 + below(longest));
    }
}

static void random_edges(graph *g)
{
    uint32_t backward = one_in(2);
    uint32_t tries = one_in(4) ? 8 * g->tasks : below(3 * g->tasks);
    while (tries-- > 0 && g->edges < 256) {
        resync_edge e = random_edge(g->tasks);
        int wanted = e.source < e.sink || (backward && one_in(4));
        if (wanted && g->processor[e.source] != g->processor[e.sink] && !has_edge(g->edge, g->edges, e)) {
            g->edge[g->edges++] = e;
        }
    }
}

/* Whether the graph is accepted with some latency input and output, of a few that are tried. */
static int find_ends(graph *g)
{
    for (unsigned tries = 0; tries < 30; tries++) {
        g->input = one_in(2) ? 0 : below(g->tasks);
        g->output = below(g->tasks);
        if (figures_of(g).refusal.number == 0) {
            return 1;
        }
    }
    return 0;
}

/* An accepted graph, its bound at its latency, near it or far above. */
static graph accepted_graph(uint32_t tasks)
{
    graph g;
    uint32_t latency, slack;
    do {
        g = graph_of(0, 0, BOUND_MOST);
        random_tasks(&g, tasks);
        random_edges(&g);
    } while (!find_ends(&g));
    latency = figures_of(&g).latency;
    slack = one_in(2) ? 0 : one_in(2) ? below(latency + 1) : BOUND_MOST;
    g.bound = latency + slack < BOUND_MOST ? latency + slack : BOUND_MOST;
    return g;
}

/* Waits of delay 0 for lower tasks of other processors, which can make a result late. */
static void add_waits(const graph *g, proposal *p, uint32_t tries)
{
    while (tries-- > 0 && p->edges < 256) {
        resync_edge e = random_edge(g->tasks);
        e.delay = 0;
        if (e.source < e.sink && g->processor[e.source] != g->processor[e.sink] && !has_edge(p->edge, p->edges, e)) {
            p->edge[p->edges++] = e;
        }
    }
}

/* The graph's plan or its own edges, as they are or with more waits or changed a little; or any edges. */
static proposal random_proposal(const graph *g, const proposal *plan)
{
    proposal p = *plan;
    if (one_in(3)) {
        p.edges = g->edges;
        memcpy(p.edge, g->edge, sizeof p.edge);
    }
    if (one_in(2)) {
        add_waits(g, &p, 1 + below(g->tasks));
        return p;
    }
    if (one_in(8)) {
        p.edges = 0;
    }
    if (p.edges > 0 && one_in(5)) {
        p.edges--;
        p.edge[below(p.edges + 1)] = p.edge[p.edges];
    }
    if (p.edges > 0 && one_in(5)) {
        p.edge[below(p.edges)].delay = (uint8_t)below(3);
    }
    for (uint32_t more = one_in(2) ? below(4) : 0; more > 0 && p.edges < 256; more--) {
        resync_edge e = random_edge(g->tasks);
        if (!has_edge(p.edge, p.edges, e)) {
            p.edge[p.edges++] = e;
        }
    }
    return p;
}

static proposal plan_of(const graph *g)
{
    file f = graph_file(g);
    proposal p = proposal_of_none();
    p.edges = resync_plan(f.bytes, f.len, p.edge, EDGES_MOST).length;
    return p;
}

/* ---- Damage ---- */

/* To one field, so that the checks behind the header are reached. */
static void damage_edge(resync_edge *edge, uint32_t edges)
{
    resync_edge *e;
    if (edges == 0) {
        return;
    }
    e = &edge[below(edges)];
    switch (below(5)) {
    case 0:
        e->source = (uint8_t)below(64);
        break;
    case 1:
        e->sink = (uint8_t)below(64);
        break;
    case 2:
        e->sink = (uint8_t)(e->source ^ 1);
        break;
    case 3:
        *e = edge[below(edges)];
        break;
    default: {
        uint8_t source = e->source;
        e->source = e->sink;
        e->sink = source;
        break;
    }
    }
    if (one_in(3)) {
        e->delay = (uint8_t)(one_in(2) ? 0 : below(256));
    }
}

static file field_damaged_graph(graph g)
{
    switch (below(8)) {
    case 0:
        g.time[below(g.tasks)] = 0;
        break;
    case 1:
        g.processor[below(g.tasks)] = below(16);
        break;
    case 2:
        g.input = below(one_in(2) ? 64 : g.tasks);
        break;
    case 3:
        g.output = below(one_in(2) ? 64 : g.tasks);
        break;
    case 4:
        g.bound = below(g.bound + 1);
        break;
    default:
        damage_edge(g.edge, g.edges);
        break;
    }
    return graph_file(&g);
}

static file field_damaged_proposal(proposal p)
{
    if (one_in(8)) {
        p.zeros = 1 + below(3);
    }
    damage_edge(p.edge, p.edges);
    return proposal_file(&p);
}

static void insert_byte(file *f, size_t at)
{
    memmove(f->bytes + at + 1, f->bytes + at, f->len - at);
    f->bytes[at] = (uint8_t)below(256);
    f->len++;
}

static void delete_byte(file *f, size_t at)
{
    f->len--;
    memmove(f->bytes + at, f->bytes + at + 1, f->len - at);
}

static void extend(file *f)
{
    size_t len = one_in(8) ? f->len + below(FILE_MOST + 1 - f->len) : f->len + 1 + below(4);
    int zeros = one_in(2);
    while (f->len < len) {
        f->bytes[f->len++] = zeros ? 0 : (uint8_t)below(256);
    }
}

static void random_bytes(file *f)
{
    f->len = one_in(2) ? below(12) : below(900);
    for (size_t i = 0; i < f->len; i++) {
        f->bytes[i] = (uint8_t)below(256);
    }
    if (f->len > 0 && one_in(2)) {
        put_field(f, 0, 5, 1);
    }
}

/* A count in the header, one off or any; `at` and `width` say where it stands. */
static void damage_count(file *f, size_t at, unsigned width, uint32_t count)
{
    put_field(f, at, width, one_in(2) ? below((size_t)1 << width) : one_in(2) ? count + 1 : count - 1);
}

/* To the bytes, wherever fields end. */
static void damage_bytes(file *f)
{
    uint32_t times = 1 + below(3);
    switch (below(7)) {
    case 0:
        while (times-- > 0) {
            f->bytes[below(f->len)] ^= (uint8_t)(1u << below(8));
        }
        break;
    case 1:
        while (times-- > 0) {
            f->bytes[below(f->len)] = (uint8_t)below(256);
        }
        break;
    case 2:
        while (times-- > 0) {
            insert_byte(f, below(f->len + 1));
        }
        break;
    case 3:
        while (times-- > 0 && f->len > 0) {
            delete_byte(f, below(f->len));
        }
        break;
    case 4:
        f->len = below(f->len);
        break;
    case 5:
        extend(f);
        break;
    default:
        random_bytes(f);
        break;
    }
}

static file damaged_graph(const graph *g)
{
    file f = graph_file(g);
    switch (below(8)) {
    case 0:
        damage_count(&f, 5, 7, g->tasks);
        return f;
    case 1:
        damage_count(&f, 12, 9, g->edges);
        return f;
    case 2:
    case 3:
    case 4:
        return field_damaged_graph(*g);
    default:
        damage_bytes(&f);
        return f;
    }
}

static file damaged_proposal(const proposal *p)
{
    file f = proposal_file(p);
    switch (below(6)) {
    case 0:
        damage_count(&f, 5, 9, p->edges);
        return f;
    case 1:
    case 2:
        return field_damaged_proposal(*p);
    default:
        damage_bytes(&f);
        return f;
    }
}

/* ---- The run ---- */

/* Mostly 1 to 64. */
static uint64_t random_turns(void)
{
    switch (below(20)) {
    case 0:
        return 0;
    case 1:
        return 65 + below(3);
    case 2:
        return random_word();
    case 3:
        return (random_word() << 32) + 1;
    default:
        return 1 + below(one_in(2) ? 64 : 4);
    }
}

/* The list's elements that the file's header asks for, if it is one that can pass. */
static size_t asked_len(enum call call, const trial *t)
{
    const uint8_t *b = t->graph.bytes;
    uint64_t tasks = t->graph.len < 3 ? 0 : (b[0] & 7u) << 4 | b[1] >> 4;
    uint64_t edges = t->graph.len < 3 ? 0 : (b[1] & 15u) << 5 | b[2] >> 3;
    return needed_len(call, t->turns > 64 ? 64 : t->turns, tasks > 64 ? 64 : tasks, edges > 256 ? 256 : edges);
}

/* Lengths that go through 0 to 8 more than needed, and every second time through those that are long enough. */
static void choose_lengths(trial *t)
{
    for (int call = 0; call < CALLS; call++) {
        size_t asked = asked_len((enum call)call, t);
        size_t next = trial_number / 2;
        t->list_len[call] = trial_number % 2 ? next % (asked + 9) : asked + next % 9;
    }
}

static void make_all(const trial *t)
{
    answer figures = make_twice(FIGURES, t, NULL);
    for (int call = FIGURES + 1; call < CALLS; call++) {
        make_twice((enum call)call, t, &figures);
    }
}

/* Small graphs mostly, as they cost little. */
static uint32_t random_size(void)
{
    return 2 + below(one_in(20) ? 63 : one_in(4) ? 23 : 8);
}

static int same_file(const file *a, const file *b)
{
    return a->len == b->len && memcmp(a->bytes, b->bytes, a->len) == 0;
}

/* Takes the damaged file, and counts it if the damage changed anything. */
static void replace(file *f, file damaged, unsigned long *count)
{
    *count += !same_file(f, &damaged);
    *f = damaged;
}

/* Damages the graph, the proposal or both; one time in six neither, for the refusals that only an undamaged pair gets. */
static void run_damaged(unsigned long graphs)
{
    static graph g;
    static proposal plan;
    for (trial_number = 0; damaged_graphs < graphs; trial_number++) {
        static trial t;
        proposal p;
        uint32_t which = below(6);
        if (trial_number % 8 == 0) {
            g = accepted_graph(random_size());
            plan = plan_of(&g);
        }
        p = random_proposal(&g, &plan);
        t.graph = graph_file(&g);
        t.proposal = proposal_file(&p);
        if (which < 4) {
            replace(&t.graph, damaged_graph(&g), &damaged_graphs);
        }
        if (which == 3 || which == 4) {
            replace(&t.proposal, damaged_proposal(&p), &damaged_proposals);
        }
        t.turns = random_turns();
        choose_lengths(&t);
        make_all(&t);
    }
}

static void run_lengths(enum call call, trial *t, const answer *figures)
{
    size_t needed = needed_len(call, t->turns, figures->field[0], figures->field[1]);
    for (size_t len = 0; len <= needed + 8; len++) {
        t->list_len[call] = len;
        make_twice(call, t, figures);
    }
}

static void run_undamaged(uint32_t tasks_most)
{
    for (uint32_t tasks = 2; tasks <= tasks_most; tasks++, trial_number++) {
        static trial t;
        graph g = accepted_graph(tasks);
        proposal p = plan_of(&g);
        answer figures;
        t.graph = graph_file(&g);
        t.proposal = proposal_file(&p);
        t.turns = tasks;
        figures = make_twice(FIGURES, &t, NULL);
        require(figures.refusal.number == 0, "an accepted graph refused");
        require(make_twice(VERDICT, &t, &figures).refusal.number == 0, "a plan refused");
        run_lengths(LEAST_DELAYS, &t, &figures);
        run_lengths(TIMETABLE, &t, &figures);
        run_lengths(PLAN, &t, &figures);
    }
}

/* Prints the counts; whether each refusal, and null, came often enough. */
static int report(void)
{
    int enough = null_graphs >= REACHED_LEAST && null_proposals >= REACHED_LEAST && null_lists >= REACHED_LEAST;
    printf("damaged graphs: %lu, proposals: %lu\ncalls:", damaged_graphs, damaged_proposals);
    for (int call = 0; call < CALLS; call++) {
        printf(" resync_%s %lu", call_names[call], calls_made[call]);
    }
    printf("\nlent at null: graphs %lu, proposals %lu, lists %lu", null_graphs, null_proposals, null_lists);
    printf("\nnot refused: %lu\nrefusals by number:", reached[0]);
    for (int number = 1; number < NUMBERS; number++) {
        printf(" %d: %lu", number, reached[number]);
        enough = enough && reached[number] >= REACHED_LEAST;
    }
    puts(enough ? "\nhostile run passed" : "\na refusal or null came too seldom");
    return enough;
}

int main(int argc, char **argv)
{
    if (argc != 3) {
        fputs("usage: hostile GRAPHS TASKS\n", stderr);
        return 2;
    }
    signal(SIGSEGV, on_fault);
    signal(SIGBUS, on_fault);
    graph_region = region_of(PROT_READ);
    proposal_region = region_of(PROT_READ);
    list_region = region_of(PROT_READ | PROT_WRITE);
    fill_lists();
    run_damaged(strtoul(argv[1], NULL, 10));
    run_undamaged((uint32_t)strtoul(argv[2], NULL, 10));
    return report() ? 0 : 1;
}
