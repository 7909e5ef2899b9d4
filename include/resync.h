/* The calls of the resynchronization checker, for C and C++ on x86-64 (System V): link target/staticlib/libresync_c.a.
 *
 * A graph file is a desk's schedule: tasks on processors, synchronization edges between them, latency input and output, and the
 * bound. A proposal file lists other synchronization edges. Both are given as their bytes, whatever they hold: a file that is no
 * graph or no proposal is refused, never a fault.
 *
 * What each call does is proved (docs/DOUBT.md). That these declarations are the library's, and the fields of the records stand in
 * its sequence, is not: the tests in C hold it (c/test.c).
 *
 * Refusals. Each answer has a refusal, or is one; number 0 says that the call succeeded. In a refused answer every other field is
 * 0, and a lent list keeps its contents.
 *
 *   number  meaning                                                              place
 *
 *   caused by whoever wrote the file, the graph's or the proposal's:
 *      1    fewer bytes than the header (graph 7, proposal 2) or the counts need  0
 *      2    the version is not 1                                                  0
 *      3    tasks outside 2 to 64, or edges over 256                              0
 *      4    more bytes than the counts need, or a filling bit that is not 0       0
 *      5    a task time of 0                                                      the task, from 0
 *      6    a task number not below the count of tasks                            the edge, from 1; 0 for the header
 *      7    a graph edge within one processor                                     the edge, from 1
 *      8    source, sink and delay of an earlier edge                             the first such later edge, from 1
 *   by whoever made the schedule:
 *      9    a cycle of total delay 0                                              0
 *     10    the latency input has an incoming edge of delay 0                     0
 *     11    latency input and output are one, or no path of delay 0 joins them    0
 *     12    the bound is below the graph's latency                                0
 *   by whoever made the proposal:
 *     13    a proposed edge on a cycle of the result                              the first such proposed edge, from 1
 *     14    an order of the original lost                                         the first such graph edge, from 1
 *     15    late: the result's latency is above the bound                         0
 *   by the calling program:
 *     16    the lent list is too short                                            0
 *     17    turns outside 1 to 64                                                 0
 *
 * Only 15 has latency and margin. The first check that fails gives the refusal; they come in this sequence:
 *   17; then of the graph: header 1, 2, 3; length 1 or 4; filling bits 4; header 6; tasks 5; edge by edge 6 then 7; 8; 9, 10, 11, 12;
 *   16; then of the proposal: header 1, 2, 3; length 1 or 4; its two zero bits and filling bits 4; edges 6; 8; 13, 14, 15.
 * So a graph that resync_figures accepts is refused by no other call for its own sake, and 1 to 8 are then the proposal's.
 *
 * What the caller must see to, since no call can check it:
 *   - A pointer is aligned for its elements and valid for as many as the length says. Where the length is 0 it may be null.
 *   - A list that is written overlaps nothing else that the call is lent, nobody else uses it during the call, and nobody writes
 *     the files during it.
 *   - Lengths count elements, not bytes.
 *   - RESYNC_STACK_BYTES of stack are free.
 * Nothing else is asked. The calls keep no pointer and no state, allocate nothing and write nothing but the lent list, so they may
 * run on several threads at once. */
#ifndef RESYNC_H
#define RESYNC_H

#include <stddef.h>
#include <stdint.h>

#ifdef __cplusplus
extern "C" {
#endif

/* No call takes more bytes of stack. This is measured, not proved: a test holds the library as it is compiled to it, on the desks of
 * docs/PERFORMANCE.md. Beside it stands what a lazy dynamic linker takes to find memcpy and memset when they are first called. */
#define RESYNC_STACK_BYTES 51200

/* A refusal, as the table above has it. Number 0: not refused, and the other fields are 0 too. */
typedef struct {
    uint32_t number;
    uint32_t place;
    uint32_t latency; /* of the late result, with 15 alone */
    int32_t margin;   /* bound minus that latency, negative, with 15 alone */
} resync_refusal;

/* A synchronization edge: turn k of the sink starts no earlier than turn k - delay of the source ends. */
typedef struct {
    uint8_t source; /* task, from 0 */
    uint8_t sink;
    uint8_t delay;
} resync_edge;

/* A graph's figures; all 0 if it is refused. */
typedef struct {
    resync_refusal refusal;
    uint32_t tasks;
    uint32_t edges;   /* those of the file: processor edges are not counted */
    uint32_t latency; /* the first end of the latency output at the estimated times */
} resync_figures_answer;

/* The redundant edges of a graph; all 0 if it is refused. Four bytes without a meaning follow the count: compare by fields. */
typedef struct {
    resync_refusal refusal;
    uint64_t words[4]; /* 256 marks: edge 1 is the most significant bit of words[0], edge 65 of words[1] */
    uint32_t count;    /* marks set */
} resync_redundant_answer;

/* The verdict on a proposal. If it is refused, latency and margin are 0 here; those of 15 stand in the refusal. */
typedef struct {
    resync_refusal refusal;
    uint32_t latency; /* of the result */
    int32_t margin;   /* bound minus latency: 0 or more, since the proposal is accepted */
} resync_verdict_answer;

/* A plan's figures; all 0 if the call is refused. */
typedef struct {
    resync_refusal refusal;
    uint32_t length;  /* records written, at most the edges of the file */
    uint32_t steps;   /* dropping the redundant edges is none */
    uint32_t latency; /* of the result if the plan is proposed */
} resync_plan_answer;

/* Tasks, edges and latency of a graph. Refusals 1 to 12. */
resync_figures_answer resync_figures(const uint8_t *graph, size_t graph_len);

/* The least delay from each task to each: row by row, row a for the paths from task a, 65,535 for no path.
 * The table must have tasks x tasks elements or more, at most 4,096; what stands past these is kept. Refusals 1 to 12 and 16. */
resync_refusal resync_least_delays(const uint8_t *graph, size_t graph_len, uint16_t *table, size_t table_len);

/* The redundant edges of a graph, feedback edges included, and how many they are. Refusals 1 to 12. */
resync_redundant_answer resync_redundant(const uint8_t *graph, size_t graph_len);

/* The earliest starts at the estimated times in turns 1 to `turns`: turn by turn, each turn's tasks in order.
 * The list must have tasks x turns elements or more, at most 4,096; what stands past these is kept. Refusals 1 to 12, 16 and 17. */
resync_refusal resync_timetable(const uint8_t *graph, size_t graph_len, uint64_t turns, uint32_t *starts, size_t starts_len);

/* Whether a proposal may be used: accepted, with latency and margin of its result, or refused. Refusals 1 to 15. */
resync_verdict_answer resync_verdict(const uint8_t *graph, size_t graph_len, const uint8_t *proposal, size_t proposal_len);

/* The tool's own plan, a proposal that resync_verdict accepts: the feedforward edges left, in the file's sequence, then the added
 * ones. The list must have as many records as the file has edges or more, at most 256, however many are written; what stands past
 * the answer's length is kept. Refusals 1 to 12 and 16. */
resync_plan_answer resync_plan(const uint8_t *graph, size_t graph_len, resync_edge *edges, size_t edges_len);

#ifdef __cplusplus
}
#endif

/* The records as the library has them. */
#if defined(__cplusplus) && __cplusplus >= 201103L
#define RESYNC_ASSERT(holds, says) static_assert(holds, says)
#elif !defined(__cplusplus) && defined(__STDC_VERSION__) && __STDC_VERSION__ >= 201112L
#define RESYNC_ASSERT(holds, says) _Static_assert(holds, says)
#endif
#ifdef RESYNC_ASSERT
RESYNC_ASSERT(sizeof(size_t) == 8, "a length has 64 bits");
RESYNC_ASSERT(sizeof(resync_refusal) == 16, "resync_refusal has 16 bytes");
RESYNC_ASSERT(sizeof(resync_edge) == 3, "resync_edge has 3 bytes");
RESYNC_ASSERT(sizeof(resync_figures_answer) == 28, "resync_figures_answer has 28 bytes");
RESYNC_ASSERT(sizeof(resync_redundant_answer) == 56, "resync_redundant_answer has 56 bytes");
RESYNC_ASSERT(offsetof(resync_redundant_answer, words) == 16, "the words follow the refusal");
RESYNC_ASSERT(offsetof(resync_redundant_answer, count) == 48, "the count follows the words");
RESYNC_ASSERT(sizeof(resync_verdict_answer) == 24, "resync_verdict_answer has 24 bytes");
RESYNC_ASSERT(sizeof(resync_plan_answer) == 28, "resync_plan_answer has 28 bytes");
#undef RESYNC_ASSERT
#endif

#endif
