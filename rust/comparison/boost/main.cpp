// The least delays of graph files: resync_least_delays beside Boost.Graph's two algorithms for all pairs, measured in turn, as a table in
// Markdown. Tables are compared first, off the diagonal: from a task to itself Boost counts 0.
//
// Of Boost only the algorithm is timed, on a graph that is built already; of resync_least_delays the whole call, which reads and judges the
// file. Delays are 32-bit numbers. Boost's graph is an adjacency_list, which keeps parallel edges: it has all edges of the file and the
// processor edges. Times are medians of batches of 100 µs at least, in the thread's own time on the processor.
#include "resync.h"

#include <algorithm>
#include <array>
#include <boost/graph/adjacency_list.hpp>
#include <boost/graph/floyd_warshall_shortest.hpp>
#include <boost/graph/johnson_all_pairs_shortest.hpp>
#include <cstdio>
#include <cstdlib>
#include <filesystem>
#include <fstream>
#include <iterator>
#include <limits>
#include <string>
#include <time.h>
#include <vector>

using Graph = boost::adjacency_list<boost::vecS, boost::vecS, boost::directedS, boost::no_property, boost::property<boost::edge_weight_t, int>>;
using Bytes = std::vector<uint8_t>;

static const int NO_PATH = std::numeric_limits<int>::max();
static const size_t TASKS_MOST = 64, SAMPLES = 301;
static const double BATCH_NANOS = 100000;

static void require(bool holds, const std::string &what)
{
    if (!holds) {
        std::fprintf(stderr, "%s\n", what.c_str());
        std::exit(1);
    }
}

static Bytes read(const std::string &path)
{
    std::ifstream file(path, std::ios::binary);
    return Bytes(std::istreambuf_iterator<char>(file), std::istreambuf_iterator<char>());
}

// The number in so many bits of a file, and where the next begins.
static size_t field(const Bytes &file, size_t &bit, size_t width)
{
    size_t number = 0;
    for (; width > 0; width--, bit++) {
        number = 2 * number + (file[bit / 8] >> (7 - bit % 8) & 1);
    }
    return number;
}

// The graph of an accepted file.
static Graph graph_of(const Bytes &file)
{
    size_t bit = 5, tasks = field(file, bit, 7), edges = field(file, bit, 9);
    std::array<std::vector<size_t>, 16> processors;
    Graph graph(tasks);
    bit = 56;
    for (size_t task = 0; task < tasks; task++, bit += 16) {
        processors[field(file, bit, 4)].push_back(task);
    }
    for (const std::vector<size_t> &own : processors) {
        for (size_t at = 0; at < own.size(); at++) {
            bool last = at + 1 == own.size();
            boost::add_edge(own[at], own[last ? 0 : at + 1], last, graph);
        }
    }
    for (; edges > 0; edges--) {
        size_t source = field(file, bit, 6), sink = field(file, bit, 6);
        boost::add_edge(source, sink, int(field(file, bit, 8)), graph);
    }
    return graph;
}

// The thread's own time on the processor.
static double nanos()
{
    timespec now;
    clock_gettime(CLOCK_THREAD_CPUTIME_ID, &now);
    return 1e9 * double(now.tv_sec) + double(now.tv_nsec);
}

template <class Call> static double batch(size_t calls, Call call)
{
    double begin = nanos();
    for (size_t at = 0; at < calls; at++) {
        call();
    }
    return nanos() - begin;
}

// A call, and its times in batches that take long enough.
template <class Call> class Timed
{
public:
    explicit Timed(Call made) : call(made)
    {
        while (batch(calls, call) < BATCH_NANOS) {
            calls *= 2;
        }
    }
    void sample()
    {
        samples.push_back(batch(calls, call) / double(calls) / 1000);
    }
    double median()
    {
        std::sort(samples.begin(), samples.end());
        return samples[samples.size() / 2];
    }

private:
    Call call;
    size_t calls = 1;
    std::vector<double> samples;
};

static void compare(const std::string &path, size_t tasks, const uint16_t *table, const int (*theirs)[TASKS_MOST])
{
    for (size_t from = 0; from < tasks; from++) {
        for (size_t to = 0; to < tasks; to++) {
            int own = table[from * tasks + to] == 65535 ? NO_PATH : table[from * tasks + to];
            require(from == to || own == theirs[from][to], path + ": the tables differ");
        }
    }
}

static void measure(const std::string &path)
{
    static uint16_t table[TASKS_MOST * TASKS_MOST];
    static int floyd[TASKS_MOST][TASKS_MOST], johnson[TASKS_MOST][TASKS_MOST];
    const Bytes file = read(path);
    require(resync_figures(file.data(), file.size()).refusal.number == 0, path + ": no graph that is accepted");
    Graph graph = graph_of(file);
    auto ours = [&] { resync_least_delays(file.data(), file.size(), table, TASKS_MOST * TASKS_MOST); };
    auto by_floyd = [&] { boost::floyd_warshall_all_pairs_shortest_paths(graph, floyd); };
    auto by_johnson = [&] { boost::johnson_all_pairs_shortest_paths(graph, johnson); };
    ours();
    by_floyd();
    by_johnson();
    compare(path, num_vertices(graph), table, floyd);
    compare(path, num_vertices(graph), table, johnson);

    Timed a(ours);
    Timed b(by_floyd);
    Timed c(by_johnson);
    for (size_t at = 0; at < SAMPLES; at++) {
        a.sample();
        b.sample();
        c.sample();
    }
    double ratio = a.median() / std::min(b.median(), c.median());
    std::string name = std::filesystem::path(path).stem().string();
    std::printf("| %s | %.3g µs | %.3g µs | %.3g µs | %.3f |\n", name.c_str(), a.median(), b.median(), c.median(), ratio);
}

int main(int argc, char **argv)
{
    std::printf("| desk | proved | Floyd-Warshall | Johnson | proved / the quicker of the two |\n|---|--:|--:|--:|--:|\n");
    for (int at = 1; at < argc; at++) {
        measure(argv[at]);
    }
}
