// Measures settling from dry: the library under each of its searches, beside methods of LEMON and Boost, in one run.
//
// The library is measured through its static library: one drawing with many commands S and D, less the same drawing with none,
// so that reading and laying are not counted. A peer is measured by running its method again and again on one graph; its
// preparation of the graph is not counted. Of several measurements the least counts. Each peer must find what the library
// settles, or the program ends with status 1.
#include <algorithm>
#include <chrono>
#include <cmath>
#include <cstdint>
#include <cstdio>
#include <cstdlib>
#include <cstring>
#include <functional>
#include <string>
#include <vector>

#include <boost/graph/adjacency_list.hpp>
#include <boost/graph/boykov_kolmogorov_max_flow.hpp>
#include <boost/graph/edmonds_karp_max_flow.hpp>
#include <boost/graph/push_relabel_max_flow.hpp>
#include <lemon/smart_graph.h> // before the methods, which use its words
// and so apart from them
#include <lemon/edmonds_karp.h>
#include <lemon/preflow.h>

extern "C" size_t allocate_report_by(uint8_t search, const uint8_t *drawing, size_t drawing_len, uint8_t *out,
                                     size_t out_len);

struct Reach {
    int tail, head;
    long limit;
};

// A named scheme: the table of a drawing and its entries, and the whole network that they come to.
struct Scheme {
    std::string name;
    int junctions, intake, outfall;
    std::vector<Reach> table;
    std::vector<Reach> chambers, sources, sinks; // entries: tail is the junction, head is not used
};

static uint32_t state;

// The next of a fixed series of pseudo-random numbers.
static uint32_t draw() {
    state = state * 1664525u + 1013904223u;
    return state >> 16;
}

static long some_limit() { return 1 + draw() % 1000; }

// The whole network: a twin and a reach for each chamber, two junctions and a reach for each source and sink.
static Scheme whole(const Scheme &s) {
    Scheme w = s;
    int n = s.junctions;
    std::vector<int> twin(n, -1);
    for (const Reach &c : s.chambers) {
        w.table.push_back({c.tail, n, c.limit});
        twin[c.tail] = n++;
    }
    for (size_t k = 0; k < s.table.size(); k++)
        if (twin[w.table[k].tail] >= 0)
            w.table[k].tail = twin[w.table[k].tail];
    if (twin[s.outfall] >= 0)
        w.outfall = twin[s.outfall];
    if (!s.sources.empty() || !s.sinks.empty()) {
        w.intake = n++;
        w.outfall = n++;
        for (const Reach &r : s.sources)
            w.table.push_back({w.intake, r.tail, r.limit});
        for (const Reach &r : s.sinks)
            w.table.push_back({r.tail, w.outfall, r.limit});
    }
    w.junctions = n;
    return w;
}

static void put(std::vector<uint8_t> &bytes, unsigned long value, int width) {
    for (int i = width - 1; i >= 0; i--)
        bytes.push_back(value >> (8 * i) & 255);
}

// The bytes of the drawing, with so many commands S and D.
static std::vector<uint8_t> drawing(const Scheme &s, int times) {
    std::vector<uint8_t> b;
    b.push_back('H');
    put(b, s.junctions, 2);
    put(b, s.intake, 2);
    put(b, s.outfall, 2);
    for (const Reach &r : s.table) {
        b.push_back('R');
        put(b, r.tail, 2);
        put(b, r.head, 2);
        put(b, r.limit, 4);
    }
    b.push_back('E');
    for (auto [kind, list] : {std::pair{'C', &s.chambers}, {'I', &s.sources}, {'O', &s.sinks}})
        for (const Reach &r : *list) {
            b.push_back(kind);
            put(b, r.tail, 2);
            put(b, r.limit, 4);
        }
    for (int i = 0; i < times; i++) {
        b.push_back('S');
        put(b, 0xffffffff, 4);
        b.push_back('D');
    }
    return b;
}

static double seconds(const std::function<void()> &run) {
    auto from = std::chrono::steady_clock::now();
    run();
    return std::chrono::duration<double>(std::chrono::steady_clock::now() - from).count();
}

// The microseconds of one run: the least of some batches, each long enough to be timed.
static double micros(const std::function<void()> &run) {
    double once = seconds(run);
    int batch = std::max(1, int(0.01 / std::max(once, 1e-7)));
    double least = once;
    for (int i = 0; i < 12; i++)
        least = std::min(least, seconds([&] {
                             for (int j = 0; j < batch; j++)
                                 run();
                         }) / batch);
    return least * 1e6;
}

static std::vector<uint8_t> out(1 << 20);

static std::string report(int search, const std::vector<uint8_t> &b) {
    size_t n = allocate_report_by(search, b.data(), b.size(), out.data(), out.size());
    return std::string((char *)out.data(), std::min(n, out.size()));
}

// The routes and litres of one settling from dry.
static std::pair<long, long> settled(const Scheme &s) {
    std::string text = report(0, drawing(s, 1));
    long routes, litres;
    const char *at = strstr(text.c_str(), "settled ");
    if (!at || sscanf(at, "settled %ld %ld yes", &routes, &litres) != 2) {
        fprintf(stderr, "%s: not settled:\n%s", s.name.c_str(), text.c_str());
        exit(1);
    }
    return {routes, litres};
}

// The microseconds of one settling, with the draining behind it.
static double library(const Scheme &s, int search) {
    auto none = drawing(s, 0), one = drawing(s, 1);
    double about = seconds([&] { report(search, one); });
    int times = std::max(1, std::min(2000, int(0.02 / about)));
    auto many = drawing(s, times);
    double low = 1e18, high = 1e18;
    for (int i = 0; i < 12; i++) {
        low = std::min(low, seconds([&] { report(search, none); }));
        high = std::min(high, seconds([&] { report(search, many); }));
    }
    return (high - low) / times * 1e6;
}

struct Peers {
    double lemon_ek, lemon_preflow, boost_ek, boost_push, boost_bk;
    bool agree;
};

static Peers peers(const Scheme &s, long litres) {
    Scheme w = whole(s);
    Peers p{};
    p.agree = true;
    {
        using Graph = lemon::SmartDigraph;
        Graph g;
        std::vector<Graph::Node> nodes;
        for (int i = 0; i < w.junctions; i++)
            nodes.push_back(g.addNode());
        Graph::ArcMap<long> limit(g);
        for (const Reach &r : w.table)
            limit[g.addArc(nodes[r.tail], nodes[r.head])] = r.limit;
        lemon::EdmondsKarp<Graph, Graph::ArcMap<long>> ek(g, limit, nodes[w.intake], nodes[w.outfall]);
        p.lemon_ek = micros([&] { ek.run(); });
        p.agree &= ek.flowValue() == litres;
        lemon::Preflow<Graph, Graph::ArcMap<long>> preflow(g, limit, nodes[w.intake], nodes[w.outfall]);
        p.lemon_preflow = micros([&] { preflow.run(); });
        p.agree &= preflow.flowValue() == litres;
    }
    {
        using namespace boost;
        using Traits = adjacency_list_traits<vecS, vecS, directedS>;
        using Graph = adjacency_list<
            vecS, vecS, directedS,
            property<vertex_index_t, long,
                     property<vertex_color_t, default_color_type,
                              property<vertex_distance_t, long, property<vertex_predecessor_t, Traits::edge_descriptor>>>>,
            property<edge_capacity_t, long,
                     property<edge_residual_capacity_t, long, property<edge_reverse_t, Traits::edge_descriptor>>>>;
        Graph g(w.junctions);
        auto limit = get(edge_capacity, g);
        auto back = get(edge_reverse, g);
        for (const Reach &r : w.table) {
            auto there = add_edge(r.tail, r.head, g).first, again = add_edge(r.head, r.tail, g).first;
            limit[there] = r.limit;
            limit[again] = 0;
            back[there] = again;
            back[again] = there;
        }
        long value = 0;
        p.boost_ek = micros([&] { value = edmonds_karp_max_flow(g, w.intake, w.outfall); });
        p.agree &= value == litres;
        p.boost_push = micros([&] { value = push_relabel_max_flow(g, w.intake, w.outfall); });
        p.agree &= value == litres;
        p.boost_bk = micros([&] { value = boykov_kolmogorov_max_flow(g, w.intake, w.outfall); });
        p.agree &= value == litres;
    }
    return p;
}

static Scheme random_scheme(const std::string &name, int n, int m) {
    Scheme s{name, n, 0, n - 1, {}, {}, {}, {}};
    // A way from the intake to the outfall, so that something is delivered; the rest anywhere.
    for (int i = 0; i + 1 < n && int(s.table.size()) < m / 4; i += std::max(1, n / 16))
        s.table.push_back({i, std::min(n - 1, i + std::max(1, n / 16)), some_limit()});
    while (int(s.table.size()) < m) {
        int tail = draw() % n, head = (tail + 1 + draw() % (n - 1)) % n;
        s.table.push_back({tail, head, some_limit()});
    }
    return s;
}

// A main canal that branches in two down to 127 fields, whose returns are gathered by the outfall.
static Scheme tree() {
    Scheme s{"canal tree", 256, 0, 255, {}, {}, {}, {}};
    for (int i = 1; i < 255; i++)
        s.table.push_back({(i - 1) / 2, i, 40 * some_limit() >> (i > 126 ? 3 : 0)});
    for (int i = 127; i < 255; i++)
        s.table.push_back({i, 255, some_limit()});
    return s;
}

// Junctions in rows and columns, with reaches both ways between neighbours, from one corner to the other.
static Scheme grid() {
    Scheme s{"grid", 256, 0, 255, {}, {}, {}, {}};
    for (int y = 0; y < 16; y++)
        for (int x = 0; x < 16; x++)
            for (auto [to, is] : {std::pair{y * 16 + x + 1, x < 15}, {y * 16 + x + 16, y < 15}})
                if (is) {
                    s.table.push_back({y * 16 + x, to, some_limit()});
                    s.table.push_back({to, y * 16 + x, some_limit()});
                }
    return s;
}

// Layers, each junction with three reaches to the next layer; the intake feeds the first, the outfall takes from the last.
static Scheme layered(const std::string &name, int wide, int deep) {
    int n = wide * deep + 2;
    Scheme s{name, n, 0, n - 1, {}, {}, {}, {}};
    for (int i = 0; i < wide; i++)
        s.table.push_back({0, 1 + i, 100000});
    for (int l = 0; l + 1 < deep; l++)
        for (int i = 0; i < wide; i++)
            for (int j = std::max(0, i - 1); j <= std::min(wide - 1, i + 1); j++)
                s.table.push_back({1 + l * wide + i, 1 + (l + 1) * wide + j, some_limit()});
    for (int i = 0; i < wide; i++)
        s.table.push_back({1 + (deep - 1) * wide + i, n - 1, 100000});
    return s;
}

// A chain of places, each of which can be passed by one step, by two or by three: routes of many lengths.
static Scheme chain() {
    int places = 84, n = 3 * places + 1;
    Scheme s{"chain of layers", n, 0, n - 1, {}, {}, {}, {}};
    for (int i = 0; i < places; i++) {
        int a = 3 * i;
        s.table.push_back({a, a + 3, 1 + draw() % 8});
        s.table.push_back({a, a + 1, 200 + draw() % 50});
        s.table.push_back({a + 1, a + 3, 40 + draw() % 50});
        s.table.push_back({a + 1, a + 2, 100 + draw() % 50});
        s.table.push_back({a + 2, a + 3, 100 + draw() % 50});
    }
    return s;
}

// Farms and turns: limit 1 everywhere.
static Scheme bipartite() {
    Scheme s{"bipartite matching", 202, 200, 201, {}, {}, {}, {}};
    for (int i = 0; i < 100; i++)
        s.table.push_back({200, i, 1});
    for (int i = 0; i < 100; i++)
        for (int d = 0; d < 8; d++)
            s.table.push_back({i, 100 + int(draw() % 100), 1});
    for (int i = 0; i < 100; i++)
        s.table.push_back({100 + i, 201, 1});
    return s;
}

// A full table with 32 chambers, 16 sources and 16 sinks.
static Scheme full() {
    Scheme s = random_scheme("full table with layers", 256, 1024);
    for (int i = 0; i < 32; i++)
        s.chambers.push_back({8 * i + 3, 0, 2 * some_limit()});
    for (int i = 0; i < 16; i++) {
        s.sources.push_back({i, 0, 3 * some_limit()});
        s.sinks.push_back({255 - i, 0, 3 * some_limit()});
    }
    return s;
}

static bool row(const Scheme &s) {
    auto [routes, litres] = settled(s);
    Peers p = peers(s, litres);
    double dd1 = library(s, 0), dd2 = library(s, 1), breadth = library(s, 2);
    printf("| %s | %zu | %ld | %.0f | %.0f | %.0f | %.0f | %.0f | %.0f | %.0f | %.0f | %.2f | %.2f |%s\n", s.name.c_str(),
           whole(s).table.size(), routes, dd1, dd2, breadth, p.lemon_ek, p.boost_ek, p.lemon_preflow, p.boost_push,
           p.boost_bk, p.lemon_ek / dd1, p.boost_ek / dd1, p.agree ? "" : " DISAGREE");
    fflush(stdout);
    return p.agree;
}

int main() {
    bool agree = true;
    printf("Microseconds for one settling from dry. The last two columns: how many times as fast DD1 is as each "
           "Edmonds–Karp.\n\n");
    printf("| Drawing | Reaches | Routes | DD1 | DD2 | Breadth-first | LEMON E–K | Boost E–K | LEMON preflow | Boost "
           "push–relabel | Boost B–K | LEMON E–K / DD1 | Boost E–K / DD1 |\n");
    printf("|---|---|---|---|---|---|---|---|---|---|---|---|---|\n");
    state = 1;
    std::vector<Scheme> all{tree(),
                            grid(),
                            layered("wide grid", 30, 8),
                            random_scheme("random 256 / 1,024", 256, 1024),
                            random_scheme("dense 33 / 1,024", 33, 1024),
                            chain(),
                            bipartite(),
                            full()};
    for (const Scheme &s : all)
        agree &= row(s);
    printf("\nGrowth with the number of reaches m: layers of 12 junctions, and random reaches over 64 junctions.\n\n");
    printf("| Drawing | Reaches | Routes | DD1 | a route | a route and reach, in nanoseconds |\n|---|---|---|---|---|---|\n");
    std::vector<Scheme> growing;
    for (int deep : {3, 6, 12, 20})
        growing.push_back(layered("layers, " + std::to_string(deep) + " deep", 12, deep));
    for (int m : {128, 256, 512, 1024})
        growing.push_back(random_scheme("random, 64 junctions", 64, m));
    for (const Scheme &s : growing) {
        auto [routes, litres] = settled(s);
        double dd1 = library(s, 0);
        printf("| %s | %zu | %ld | %.0f | %.2f | %.2f |\n", s.name.c_str(), s.table.size(), routes, dd1,
               dd1 / std::max(1l, routes), dd1 * 1000 / std::max(1l, routes) / s.table.size());
    }
    return agree ? 0 : 1;
}
