// The most that networks can deliver, and the near side of their bottlenecks, by solvers of LEMON and of Boost.
//
// Input: networks one after the other, each as "JUNCTIONS INTAKE OUTFALL REACHES" and then "TAIL HEAD LIMIT" for each reach.
// Output: for each network one line for each solver: its name, the amount, and a digit for each junction: 1 where open steps
// lead there from the intake, else 0. An empty line ends each network.
//
// Compiled by tools/beside/compare with -DHAVE_LEMON, -DHAVE_BOOST or both.

#include <cstdio>
#include <string>
#include <utility>
#include <vector>

#ifdef HAVE_LEMON
#include <lemon/core.h>
#include <lemon/edmonds_karp.h>
#include <lemon/network_simplex.h>
#include <lemon/preflow.h>
#include <lemon/smart_graph.h>
#endif
#ifdef HAVE_BOOST
#include <boost/graph/adjacency_list.hpp>
#include <boost/graph/boykov_kolmogorov_max_flow.hpp>
#include <boost/graph/edmonds_karp_max_flow.hpp>
#include <boost/graph/push_relabel_max_flow.hpp>
#endif

struct Arc { int tail, head; long long limit; };
struct Problem { int junctions, intake, outfall; std::vector<Arc> arcs; };

// The junctions that open steps reach from the intake, where each reach carries what stands in `carried`.
static std::string near_side(const Problem &problem, const std::vector<long long> &carried) {
    std::vector<std::vector<int>> out(problem.junctions);
    for (size_t k = 0; k < problem.arcs.size(); ++k) {
        if (carried[k] < problem.arcs[k].limit) out[problem.arcs[k].tail].push_back(problem.arcs[k].head);
        if (carried[k] > 0) out[problem.arcs[k].head].push_back(problem.arcs[k].tail);
    }
    std::string near(problem.junctions, '0');
    std::vector<int> waiting(1, problem.intake);
    near[problem.intake] = '1';
    while (!waiting.empty()) {
        int at = waiting.back();
        waiting.pop_back();
        for (int next : out[at])
            if (near[next] == '0') { near[next] = '1'; waiting.push_back(next); }
    }
    return near;
}

static void tell(const char *solver, long long amount, const std::string &near) {
    std::printf("%s %lld %s\n", solver, amount, near.c_str());
}

#ifdef HAVE_LEMON
typedef lemon::SmartDigraph Graph;
typedef Graph::ArcMap<long long> Amounts;

struct Lemon {
    Graph graph;
    Amounts limits;
    std::vector<Graph::Node> nodes;
    std::vector<Graph::Arc> arcs;

    explicit Lemon(const Problem &problem) : limits(graph) {
        for (int v = 0; v < problem.junctions; ++v) nodes.push_back(graph.addNode());
        for (const Arc &arc : problem.arcs) {
            arcs.push_back(graph.addArc(nodes[arc.tail], nodes[arc.head]));
            limits[arcs.back()] = arc.limit;
        }
    }

    template <typename Map> std::vector<long long> carried(const Map &flow) const {
        std::vector<long long> amounts;
        for (const Graph::Arc &arc : arcs) amounts.push_back(flow[arc]);
        return amounts;
    }
};

static void by_lemon(const Problem &problem) {
    Lemon net(problem);
    Graph::Node s = net.nodes[problem.intake], t = net.nodes[problem.outfall];
    lemon::Preflow<Graph, Amounts> preflow(net.graph, net.limits, s, t);
    preflow.run();
    tell("lemon-preflow", preflow.flowValue(), near_side(problem, net.carried(preflow.flowMap())));

    lemon::EdmondsKarp<Graph, Amounts> augmenting(net.graph, net.limits, s, t);
    augmenting.run();
    std::string near(problem.junctions, '0');
    for (int v = 0; v < problem.junctions; ++v)
        if (augmenting.minCut(net.nodes[v])) near[v] = '1';
    tell("lemon-edmonds-karp", augmenting.flowValue(), near);

    // The same as a circulation of least cost: a reach back from the outfall to the intake, which earns 1 for each litre.
    Graph::Arc back = net.graph.addArc(t, s);
    long long all = 0;
    for (const Arc &arc : problem.arcs) all += arc.limit;
    net.limits[back] = all;
    Graph::ArcMap<long long> cost(net.graph, 0);
    cost[back] = -1;
    lemon::NetworkSimplex<Graph, long long, long long> simplex(net.graph);
    simplex.upperMap(net.limits).costMap(cost);
    simplex.run();
    Amounts flow(net.graph, 0);
    simplex.flowMap(flow);
    tell("lemon-network-simplex", flow[back], near_side(problem, net.carried(flow)));
}
#endif

#ifdef HAVE_BOOST
typedef boost::adjacency_list_traits<boost::vecS, boost::vecS, boost::directedS> Traits;
typedef boost::property<boost::edge_reverse_t, Traits::edge_descriptor> Reverse;
typedef boost::property<boost::edge_residual_capacity_t, long long, Reverse> Residual;
typedef boost::property<boost::edge_capacity_t, long long, Residual> EdgeProperties;
typedef boost::property<boost::vertex_distance_t, long> Distance;
typedef boost::property<boost::vertex_predecessor_t, Traits::edge_descriptor, Distance> Predecessor;
typedef boost::property<boost::vertex_color_t, boost::default_color_type, Predecessor> Colour;
typedef boost::property<boost::vertex_index_t, long, Colour> VertexProperties;
typedef boost::adjacency_list<boost::vecS, boost::vecS, boost::directedS, VertexProperties, EdgeProperties> BoostGraph;

struct Boosted {
    BoostGraph graph;
    std::vector<Traits::edge_descriptor> arcs;

    explicit Boosted(const Problem &problem) : graph(problem.junctions) {
        auto limits = boost::get(boost::edge_capacity, graph);
        auto reverse = boost::get(boost::edge_reverse, graph);
        for (const Arc &arc : problem.arcs) {
            auto forth = boost::add_edge(arc.tail, arc.head, graph).first;
            auto back = boost::add_edge(arc.head, arc.tail, graph).first;
            limits[forth] = arc.limit;
            limits[back] = 0;
            reverse[forth] = back;
            reverse[back] = forth;
            arcs.push_back(forth);
        }
    }

    std::vector<long long> carried() {
        auto limits = boost::get(boost::edge_capacity, graph);
        auto residual = boost::get(boost::edge_residual_capacity, graph);
        std::vector<long long> amounts;
        for (auto &arc : arcs) amounts.push_back(limits[arc] - residual[arc]);
        return amounts;
    }
};

static void by_boost(const Problem &problem) {
    {
        Boosted net(problem);
        long long amount = boost::push_relabel_max_flow(net.graph, problem.intake, problem.outfall);
        tell("boost-push-relabel", amount, near_side(problem, net.carried()));
    }
    {
        Boosted net(problem);
        long long amount = boost::edmonds_karp_max_flow(net.graph, problem.intake, problem.outfall);
        tell("boost-edmonds-karp", amount, near_side(problem, net.carried()));
    }
    {
        Boosted net(problem);
        long long amount = boost::boykov_kolmogorov_max_flow(net.graph, problem.intake, problem.outfall);
        tell("boost-boykov-kolmogorov", amount, near_side(problem, net.carried()));
    }
}
#endif

int main() {
    Problem problem;
    int reaches;
    while (std::scanf("%d %d %d %d", &problem.junctions, &problem.intake, &problem.outfall, &reaches) == 4) {
        problem.arcs.clear();
        for (int k = 0; k < reaches; ++k) {
            Arc arc;
            if (std::scanf("%d %d %lld", &arc.tail, &arc.head, &arc.limit) != 3) return 1;
            problem.arcs.push_back(arc);
        }
#ifdef HAVE_LEMON
        by_lemon(problem);
#endif
#ifdef HAVE_BOOST
        by_boost(problem);
#endif
        std::printf("\n");
    }
    return 0;
}
