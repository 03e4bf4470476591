// Two libraries' maximum flows on a circle: LEMON's Preflow and Boost's push_relabel_max_flow.
//
// The source leads to each giver, and each receiver to the sink, with the member's weight as
// capacity; a giver leads to each receiver that it permits, with the sum of all weights, which no
// flow exceeds. A plan exists exactly when the flow is that sum.
//
// Node 0 is the source, then come n givers, n receivers and the sink. Both graphs are of the
// library's read-only kind, which is built from a list of arcs in the order of their first node and
// is its fastest.

#include <boost/graph/compressed_sparse_row_graph.hpp>
#include <boost/graph/push_relabel_max_flow.hpp>
#include <lemon/preflow.h>
#include <lemon/static_graph.h>

#include <malloc.h>

#include <cstddef>
#include <cstdint>
#include <utility>
#include <vector>

namespace {

constexpr std::size_t source = 0;

std::size_t giver(std::size_t member) { return 1 + member; }
std::size_t receiver(std::size_t n, std::size_t member) { return 1 + n + member; }
std::size_t sink(std::size_t n) { return 1 + 2 * n; }

std::size_t size(std::uint64_t set) { return static_cast<std::size_t>(__builtin_popcountll(set)); }

// Calls visit with each member of a set, in rising number.
template <typename Visit> void each(std::uint64_t set, Visit visit) {
    for (; set != 0; set &= set - 1) visit(static_cast<std::size_t>(__builtin_ctzll(set)));
}

std::size_t count_pairs(std::size_t n, const std::uint64_t *permissions) {
    std::size_t pairs = 0;
    for (std::size_t j = 0; j < n; ++j) pairs += size(permissions[j]);
    return pairs;
}

std::int64_t sum(std::size_t n, const std::uint64_t *weights) {
    std::int64_t total = 0;
    for (std::size_t j = 0; j < n; ++j) total += static_cast<std::int64_t>(weights[j]);
    return total;
}

} // namespace

// Has freed memory stay with the process: else the graphs' memory may go back to the system after
// each call and be fetched again at the next.
extern "C" void keep_memory() noexcept {
    mallopt(M_TRIM_THRESHOLD, 1 << 30);
    mallopt(M_MMAP_THRESHOLD, 1 << 30);
}

// The greatest flow. The sum of the weights must be below 2^63.
extern "C" std::int64_t lemon_flow(std::size_t n, const std::uint64_t *weights,
                                   const std::uint64_t *permissions) noexcept {
    using Graph = lemon::StaticDigraph;
    using Capacities = Graph::ArcMap<std::int64_t>;
    const std::size_t pairs = count_pairs(n, permissions);
    std::vector<std::pair<int, int>> arcs;
    arcs.reserve(n + pairs + n);
    for (std::size_t j = 0; j < n; ++j) arcs.emplace_back(source, giver(j));
    for (std::size_t j = 0; j < n; ++j)
        each(permissions[j], [&](std::size_t i) { arcs.emplace_back(giver(j), receiver(n, i)); });
    for (std::size_t i = 0; i < n; ++i) arcs.emplace_back(receiver(n, i), sink(n));
    Graph graph;
    graph.build(static_cast<int>(2 * n + 2), arcs.begin(), arcs.end());
    Capacities capacities(graph, sum(n, weights));
    for (std::size_t j = 0; j < n; ++j) {
        capacities[graph.arc(static_cast<int>(j))] = static_cast<std::int64_t>(weights[j]);
        capacities[graph.arc(static_cast<int>(n + pairs + j))] = static_cast<std::int64_t>(weights[j]);
    }
    lemon::Preflow<Graph, Capacities> preflow(graph, capacities, graph.node(source),
                                              graph.node(static_cast<int>(sink(n))));
    // The first phase is enough: it tells the flow's value and the cut, and where a plan exists the
    // transfers too.
    preflow.runMinCut();
    return preflow.flowValue();
}

// The greatest flow. The sum of the weights must be below 2^63.
extern "C" std::int64_t boost_flow(std::size_t n, const std::uint64_t *weights,
                                   const std::uint64_t *permissions) noexcept {
    using Graph = boost::compressed_sparse_row_graph<boost::directedS, boost::no_property, boost::no_property,
                                                     boost::no_property, std::uint32_t, std::uint32_t>;
    using Arc = boost::graph_traits<Graph>::edge_descriptor;
    const std::size_t pairs = count_pairs(n, permissions);
    const std::int64_t total = sum(n, weights);
    std::vector<std::uint64_t> permitting(n);
    for (std::size_t j = 0; j < n; ++j)
        each(permissions[j], [&](std::size_t i) { permitting[i] |= std::uint64_t{1} << j; });

    // Boost wants each arc's reverse in the graph, so a giver's arcs begin with the one to the
    // source, and a receiver's are those to its givers and then the one to the sink. next[i] is the
    // place of receiver i's next arc to a giver.
    const std::size_t places = 2 * (n + pairs + n);
    const std::size_t sink_arcs = places - n;
    std::vector<std::size_t> next(n);
    std::size_t place = n + n + pairs;
    for (std::size_t i = 0; i < n; ++i) {
        next[i] = place;
        place += size(permitting[i]) + 1;
    }

    std::vector<std::pair<std::uint32_t, std::uint32_t>> arcs;
    std::vector<std::int64_t> capacities;
    std::vector<std::size_t> reverse(places);
    arcs.reserve(places);
    capacities.reserve(places);
    auto add = [&](std::size_t from, std::size_t to, std::int64_t capacity) {
        arcs.emplace_back(from, to);
        capacities.push_back(capacity);
    };
    auto pair_up = [&](std::size_t a, std::size_t b) {
        reverse[a] = b;
        reverse[b] = a;
    };
    for (std::size_t j = 0; j < n; ++j) add(source, giver(j), static_cast<std::int64_t>(weights[j]));
    for (std::size_t j = 0; j < n; ++j) {
        pair_up(j, arcs.size());
        add(giver(j), source, 0);
        each(permissions[j], [&](std::size_t i) {
            pair_up(next[i]++, arcs.size());
            add(giver(j), receiver(n, i), total);
        });
    }
    for (std::size_t i = 0; i < n; ++i) {
        each(permitting[i], [&](std::size_t j) { add(receiver(n, i), giver(j), 0); });
        pair_up(sink_arcs + i, arcs.size());
        add(receiver(n, i), sink(n), static_cast<std::int64_t>(weights[i]));
    }
    for (std::size_t i = 0; i < n; ++i) add(sink(n), receiver(n, i), 0);

    Graph graph(boost::edges_are_sorted, arcs.begin(), arcs.end(), 2 * n + 2);
    std::vector<std::int64_t> residuals(places);
    std::vector<Arc> reverses;
    reverses.reserve(places);
    for (std::size_t a = 0; a < places; ++a) reverses.emplace_back(arcs[a].second, reverse[a]);
    const auto number = boost::get(boost::edge_index, graph);
    return boost::push_relabel_max_flow(graph, source, sink(n),
                                        boost::make_iterator_property_map(capacities.begin(), number),
                                        boost::make_iterator_property_map(residuals.begin(), number),
                                        boost::make_iterator_property_map(reverses.begin(), number),
                                        boost::get(boost::vertex_index, graph));
}
