// A plain search from nothing, for bench/measure: what one would write instead of keeping trees. A binary heap of
// (cost, vertex), adjacency arrays, no check, nothing kept from one search to the next; forward, on charts without a fault.
//
//     plain STARTS GOALS COUNT < CHART     COUNT searches; prints the sum of their totals
//     plain < CHART                        the orders of ./orders.txt; prints their totals and runs
#include <cstdint>
#include <cstdio>
#include <cstdlib>
#include <fstream>
#include <functional>
#include <iostream>
#include <iterator>
#include <queue>
#include <sstream>
#include <string>
#include <utility>
#include <vector>

const uint32_t ABSENT = 4294967295u;

// The edges of a vertex v are those from first[v] up to first[v + 1].
struct Graph {
    std::vector<uint32_t> initial, first, to, cost, number;
};

// The total, the goal's vertex, and for each vertex reached the vertex and the edge that it was reached by.
struct Found {
    uint32_t total = ABSENT, goal = ABSENT;
    std::vector<uint32_t> from, by;
};

static std::vector<uint32_t> numbers(const std::string &text) {
    std::istringstream in(text);
    return {std::istream_iterator<uint32_t>(in), std::istream_iterator<uint32_t>()};
}

static Graph read_graph(std::istream &in) {
    Graph g;
    std::vector<uint32_t> from, to, cost;
    std::string line;
    while (std::getline(in, line)) {
        unsigned a, b, c;
        if (std::sscanf(line.c_str(), "L,%u,%u,%u", &a, &b, &c) == 3) {
            from.push_back(a), to.push_back(b), cost.push_back(c);
        } else {
            g.initial.push_back(std::sscanf(line.c_str(), "M,%u,%u", &a, &b) == 2 ? b : ABSENT);
        }
    }
    g.first.assign(g.initial.size() + 1, 0);
    for (uint32_t v : from) g.first[v + 1]++;
    for (size_t v = 0; v < g.initial.size(); v++) g.first[v + 1] += g.first[v];
    std::vector<uint32_t> place = g.first;
    g.to.resize(from.size()), g.cost.resize(from.size()), g.number.resize(from.size());
    for (size_t e = 0; e < from.size(); e++) {
        uint32_t p = place[from[e]]++;
        g.to[p] = to[e], g.cost[p] = cost[e], g.number[p] = e;
    }
    return g;
}

__attribute__((noinline)) static Found search(const Graph &g, const std::vector<uint32_t> &starts, const std::vector<uint32_t> &goals) {
    using Ticket = std::pair<uint32_t, uint32_t>;
    std::priority_queue<Ticket, std::vector<Ticket>, std::greater<Ticket>> queue;
    size_t n = g.initial.size();
    std::vector<uint32_t> least(n, ABSENT);
    std::vector<char> wanted(n, 0);
    Found found;
    found.from.assign(n, ABSENT), found.by.assign(n, ABSENT);
    for (uint32_t v : goals) wanted[v] = 1;
    for (uint32_t v : starts) {
        if (g.initial[v] < least[v]) {
            least[v] = g.initial[v];
            queue.emplace(least[v], v);
        }
    }
    while (!queue.empty()) {
        auto [cost, v] = queue.top();
        queue.pop();
        if (least[v] < cost) continue;
        if (wanted[v]) {
            found.total = cost, found.goal = v;
            return found;
        }
        for (uint32_t e = g.first[v]; e < g.first[v + 1]; e++) {
            uint32_t to = g.to[e], sum = cost + g.cost[e];
            if (sum < least[to]) {
                least[to] = sum, found.from[to] = v, found.by[to] = g.number[e];
                queue.emplace(sum, to);
            }
        }
    }
    return found;
}

static std::string run_of(const Found &found) {
    std::string run = std::to_string(found.goal);
    for (uint32_t v = found.goal; found.from[v] != ABSENT; v = found.from[v]) {
        run = std::to_string(found.from[v]) + " " + std::to_string(found.by[v]) + " " + run;
    }
    return run;
}

static void print_orders(const Graph &g) {
    std::ifstream orders("orders.txt");
    std::string line, out = "order,answer,total,run\n";
    for (unsigned i = 0; std::getline(orders, line); i++) {
        size_t comma = line.find(',', 2);
        Found found = search(g, numbers(line.substr(2, comma - 2)), numbers(line.substr(comma + 1)));
        out += std::to_string(i);
        out += found.goal == ABSENT ? ",none,-,-\n" : ",solved," + std::to_string(found.total) + "," + run_of(found) + "\n";
    }
    std::cout << out;
}

int main(int count, char **words) {
    std::ios::sync_with_stdio(false);
    Graph g = read_graph(std::cin);
    if (count != 4) {
        print_orders(g);
        return 0;
    }
    std::vector<uint32_t> starts = numbers(words[1]), goals = numbers(words[2]);
    uint64_t sum = 0;
    for (long i = std::atol(words[3]); 0 < i; i--) sum += search(g, starts, goals).total;
    std::cout << sum << "\n";
}
