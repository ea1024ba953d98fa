// The benchmark's third side: Boost's resource-constrained shortest paths, on feeds of offers, quotes and discards.
//
// Boost takes its labels in the order of their containers and, asked for one path, stops at the first that it takes at the destination. With
// containers ordered by rank it so makes the same search, with no limit on the labels of a site: it never says that a site is full. The
// path that it hands back need not be of that label; so a visitor notes it. Prints the program's lines.
//
// Usage: boost < FEED
#include <algorithm>
#include <cstdint>
#include <cstdio>
#include <cstdlib>
#include <vector>

#include <boost/graph/adjacency_list.hpp>
#include <boost/graph/r_c_shortest_paths.hpp>

namespace {

using u8 = std::uint8_t;
using u32 = std::uint32_t;
using u64 = std::uint64_t;

struct Value {
    u32 delay, price, grade;
};

struct Share {
    u32 top, bottom;
};

bool less(const Share &a, const Share &b) { return static_cast<u64>(a.top) * b.bottom < static_cast<u64>(b.top) * a.bottom; }

Share greatest_share(const Value &v, const Value &limit) {
    Share share{v.delay, limit.delay};
    for (const Share &other : {Share{v.price, limit.price}, Share{v.grade, limit.grade}})
        if (less(share, other)) share = other;
    return share;
}

// What a walk uses up, ordered by rank.
struct Used {
    Value value{0, 0, 0};
    Share share{0, 1};
    double rounded = 0;
};

bool operator<(const Used &a, const Used &b) {
    if (a.rounded != b.rounded) return a.rounded < b.rounded;
    if (less(a.share, b.share)) return true;
    if (less(b.share, a.share)) return false;
    if (a.value.delay != b.value.delay) return a.value.delay < b.value.delay;
    if (a.value.price != b.value.price) return a.value.price < b.value.price;
    return a.value.grade < b.value.grade;
}

struct Arc {
    u32 place;
    Value value;
};

using Graph = boost::adjacency_list<boost::vecS, boost::vecS, boost::directedS, boost::no_property, Arc>;
using Edge = boost::graph_traits<Graph>::edge_descriptor;

struct Extend {
    Value limit;
    bool operator()(const Graph &graph, Used &used, const Used &before, const Edge &edge) const {
        const Value &link = graph[edge].value;
        used.value = {before.value.delay + link.delay, before.value.price + link.price, std::max(before.value.grade, link.grade)};
        used.share = greatest_share(used.value, limit);
        used.rounded = static_cast<double>(used.share.top) / used.share.bottom;
        return used.value.delay <= limit.delay && used.value.price <= limit.price && used.value.grade <= limit.grade;
    }
};

struct Dominates {
    bool operator()(const Used &a, const Used &b) const {
        return a.value.delay <= b.value.delay && a.value.price <= b.value.price && a.value.grade <= b.value.grade;
    }
};

// Notes the first label that is taken at the destination.
struct Noting : boost::default_r_c_shortest_paths_visitor {
    u32 destination;
    bool *found;
    Used *used;
    std::vector<u32> *legs;

    template <class Label> void on_label_popped(const Label &label, const Graph &graph) {
        if (*found || label.resident_vertex != destination) return;
        *found = true, *used = label.cumulated_resource_consumption;
        for (const Label *at = &label; at->p_pred_label; at = at->p_pred_label.get()) legs->push_back(graph[at->pred_edge].place);
    }
};

void quote(const Graph &graph, u32 line, u32 source, u32 destination, const Value &limit) {
    bool found = false;
    Used used, unused;
    std::vector<u32> legs;
    std::vector<Edge> path;
    Noting noting;
    noting.destination = destination, noting.found = &found, noting.used = &used, noting.legs = &legs;
    boost::r_c_shortest_paths(graph, boost::get(boost::vertex_index, graph), boost::get(&Arc::place, graph), source, destination, path, unused, Used{},
                              Extend{limit}, Dominates{}, boost::default_r_c_shortest_paths_allocator(), noting);
    if (!found) {
        std::printf("%u none standing\n", line);
        return;
    }
    const Share share = greatest_share(used.value, limit);
    std::printf("%u route standing %u/%u %u %u %u %zu", line, share.top, share.bottom, used.value.delay, used.value.price, used.value.grade, legs.size());
    for (auto leg = legs.rbegin(); leg != legs.rend(); ++leg) std::printf(" %u", *leg);
    std::printf("\n");
}

u32 two(const u8 *b) { return b[0] << 8 | b[1]; }
u32 four(const u8 *b) { return static_cast<u32>(b[0]) << 24 | b[1] << 16 | b[2] << 8 | b[3]; }
Value three(const u8 *b) { return {four(b), four(b + 4), four(b + 8)}; }

} // namespace

int main() {
    std::vector<u8> feed;
    u8 block[65536];
    while (size_t n = std::fread(block, 1, sizeof block, stdin)) feed.insert(feed.end(), block, block + n);
    Graph graph(256);
    u32 line = 0;
    for (size_t at = 0; at < feed.size();) {
        const u8 *body = feed.data() + at + 1;
        line++;
        if (feed[at] == 1 && at + 19 <= feed.size()) {
            boost::add_edge(two(body + 2), two(body + 4), Arc{two(body), three(body + 6)}, graph);
            std::printf("%u ok 0\n", line);
            at += 19;
        } else if (feed[at] == 4 && at + 19 <= feed.size()) {
            quote(graph, line, two(body + 2), two(body + 4), three(body + 6));
            at += 19;
        } else if (feed[at] == 6 && at + 3 <= feed.size()) {
            std::printf("%u ok 0\n", line);
            at += 3;
        } else {
            std::fprintf(stderr, "boost: only offers, quotes and discards\n");
            return 1;
        }
    }
}
