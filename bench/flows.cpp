// flows: solves a graph of `bench/flows.py` by a plain Dinic and by two solvers of Boost, and prints for each the value,
// the seconds of the solving alone, and those in which its network was made. Standard input is one line: the capacities of the points, the relays, then the links.
#include <boost/graph/adjacency_list.hpp>
#include <boost/graph/boykov_kolmogorov_max_flow.hpp>
#include <boost/graph/push_relabel_max_flow.hpp>
#include <chrono>
#include <cstdio>
#include <iostream>
#include <map>
#include <sstream>
#include <string>
#include <vector>

using Seconds = std::chrono::duration<double>;
using Clock = std::chrono::steady_clock;

// a graph of halves: nodes 0 (source), 1 (sink), 2 + 2p and 3 + 2p (the halves of point p), and then the relays
struct Net {
    int nodes = 2;
    std::vector<int> from, to;
    std::vector<long long> capacity;
    void add(int a, int b, long long room) { from.push_back(a); to.push_back(b); capacity.push_back(room); }
};

static const long long OPEN = 1LL << 60;

static std::map<std::string, int> relays;

static int node_of(const std::string &end, int half) {
    if (end == "s" || end == "t") return end == "t";
    return end[0] == 'r' ? relays.at(end) : 2 + half + 2 * std::stoi(end.substr(1));
}

static int leaving(const std::string &end) { return node_of(end, 1); }

static int entering(const std::string &end) { return node_of(end, 0); }

static Net read_net() {
    Net net;
    std::string word;
    int points = 0;
    while (std::cin >> word) {
        size_t dash = word.find('-');
        if (dash == std::string::npos && word[0] == 'r') {
            int node = 2 + 2 * points + relays.size();
            relays[word] = node;
        } else if (dash == std::string::npos) {
            net.add(2 + 2 * points, 3 + 2 * points, std::stoll(word));
            points++;
        } else {
            net.add(leaving(word.substr(0, dash)), entering(word.substr(dash + 1)), OPEN);
        }
    }
    net.nodes = 2 + 2 * points + relays.size();
    return net;
}

// Dinic's algorithm with an explicit stack
struct Dinic {
    struct Edge { int to; long long room; };
    std::vector<Edge> edges;
    std::vector<std::vector<int>> out;
    std::vector<int> level, next;
    explicit Dinic(const Net &net) : out(net.nodes), level(net.nodes), next(net.nodes) {
        for (size_t i = 0; i < net.from.size(); i++) {
            out[net.from[i]].push_back(edges.size());
            edges.push_back({net.to[i], net.capacity[i]});
            out[net.to[i]].push_back(edges.size());
            edges.push_back({net.from[i], 0});
        }
    }
    bool levels() {
        std::fill(level.begin(), level.end(), -1);
        std::vector<int> queue{0};
        level[0] = 0;
        for (size_t at = 0; at < queue.size(); at++)
            for (int e : out[queue[at]])
                if (edges[e].room > 0 && level[edges[e].to] < 0) {
                    level[edges[e].to] = level[queue[at]] + 1;
                    queue.push_back(edges[e].to);
                }
        return level[1] >= 0;
    }
    long long walk() {
        std::vector<int> path;
        int node = 0;
        while (node != 1) {
            int &i = next[node];
            while (i < (int)out[node].size() &&
                   !(edges[out[node][i]].room > 0 && level[edges[out[node][i]].to] == level[node] + 1))
                i++;
            if (i < (int)out[node].size()) {
                path.push_back(out[node][i]);
                node = edges[out[node][i]].to;
            } else if (path.empty()) {
                return 0;
            } else {
                node = edges[path.back() ^ 1].to;
                path.pop_back();
                next[node]++;
            }
        }
        long long least = OPEN;
        for (int e : path) least = std::min(least, edges[e].room);
        for (int e : path) { edges[e].room -= least; edges[e ^ 1].room += least; }
        return least;
    }
    long long solve() {
        long long value = 0;
        while (levels()) {
            std::fill(next.begin(), next.end(), 0);
            while (long long more = walk()) value += more;
        }
        return value;
    }
};

using Traits = boost::adjacency_list_traits<boost::vecS, boost::vecS, boost::directedS>;
using Graph = boost::adjacency_list<
    boost::vecS, boost::vecS, boost::directedS,
    boost::property<boost::vertex_index_t, long,
    boost::property<boost::vertex_color_t, boost::default_color_type,
    boost::property<boost::vertex_distance_t, long,
    boost::property<boost::vertex_predecessor_t, Traits::edge_descriptor>>>>,
    boost::property<boost::edge_capacity_t, long long,
    boost::property<boost::edge_residual_capacity_t, long long,
    boost::property<boost::edge_reverse_t, Traits::edge_descriptor>>>>;

static Graph boost_graph(const Net &net) {
    Graph graph(net.nodes);
    auto capacity = boost::get(boost::edge_capacity, graph);
    auto reverse = boost::get(boost::edge_reverse, graph);
    for (size_t i = 0; i < net.from.size(); i++) {
        auto there = boost::add_edge(net.from[i], net.to[i], graph).first;
        auto back = boost::add_edge(net.to[i], net.from[i], graph).first;
        capacity[there] = net.capacity[i];
        capacity[back] = 0;
        reverse[there] = back;
        reverse[back] = there;
    }
    return graph;
}

template <typename Make, typename Solve> static void timed(const char *name, Make make, Solve solve) {
    auto begin = Clock::now();
    auto network = make();
    auto made = Clock::now();
    long long value = solve(network);
    auto end = Clock::now();
    std::printf("%s %lld %.6f %.6f\n", name, value, Seconds(end - made).count(), Seconds(made - begin).count());
    std::fflush(stdout);
}

int main() {
    Net net = read_net();
    auto graph = [&] { return boost_graph(net); };
    timed("dinic", [&] { return Dinic(net); }, [](Dinic &dinic) { return dinic.solve(); });
    timed("boykov-kolmogorov", graph, [](Graph &made) { return boost::boykov_kolmogorov_max_flow(made, 0, 1); });
    timed("push-relabel", graph, [](Graph &made) { return boost::push_relabel_max_flow(made, 0, 1); });
}
