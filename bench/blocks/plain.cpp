// Blocks by backward bisimulation, by the rounds of `block_haste` and `block_rounds`: hastening rounds that look
// only at what changed, then whole rounds. It makes a graph and tells the blocks and the time.
//
//     g++ -O2 -o plain plain.cpp && ./plain SHAPE NODES [EDGES]
//
// SHAPE is chain, ring, hub, twin (two chains with a sink each) or random. Labels are 0, in a random graph
// 0 to 3. Node 0 has a kind of its own.
#include <algorithm>
#include <chrono>
#include <cstdint>
#include <cstdio>
#include <cstdlib>
#include <cstring>
#include <tuple>
#include <unordered_map>
#include <vector>

using Node = uint32_t;
struct Edge { Node parent, label, node; };
struct Key {
    Node node, label; uint64_t tag;
    bool operator==(const Key& other) const { return node == other.node && label == other.label && tag == other.tag; }
};
static const uint64_t FACTOR = 6364136223846793005ULL;
struct KeyHash {
    size_t operator()(const Key& key) const { return ((key.node * FACTOR + key.label) * FACTOR + key.tag) * FACTOR >> 7; }
};
using Pair = std::pair<uint64_t, uint64_t>;
struct PairHash {
    size_t operator()(const Pair& pair) const { return (pair.first * FACTOR + pair.second) * FACTOR >> 7; }
};
using Event = std::tuple<Node, Node, uint64_t, uint64_t>;

static std::vector<Edge> edges;
static std::vector<std::vector<std::pair<Node, Node>>> rows;
static std::vector<std::vector<Node>> outs;
static std::vector<Node> kinds;

static uint64_t mixed(uint64_t hash, uint64_t number) { return hash * FACTOR + number; }

// One whole round; true where no node differed from the head of its block.
static bool whole_round(std::vector<uint64_t>& numbers, std::vector<Node>& heads) {
    size_t n = rows.size();
    std::vector<std::vector<std::pair<Node, uint64_t>>> signs(n);
    for (size_t x = 0; x < n; x++) {
        for (auto& entry : rows[x]) signs[x].push_back({entry.first, numbers[entry.second]});
        std::sort(signs[x].begin(), signs[x].end());
        signs[x].erase(std::unique(signs[x].begin(), signs[x].end()), signs[x].end());
    }
    std::unordered_map<Pair, uint64_t, PairHash> fresh;
    size_t before = heads.size();
    auto next = numbers;
    for (size_t x = 0; x < n; x++) {
        Node head = heads[numbers[x]];
        if (kinds[x] == kinds[head] && signs[x] == signs[head]) continue;
        uint64_t hash = kinds[x] + 1;
        for (auto& entry : signs[x]) hash = mixed(mixed(hash, entry.first), entry.second);
        auto found = fresh.insert({{numbers[x], hash}, heads.size()});
        if (found.second) heads.push_back(x);
        next[x] = found.first->second;
    }
    numbers.swap(next);
    return heads.size() == before;
}

static void hasten(std::vector<uint64_t>& numbers, size_t count) {
    size_t n = rows.size();
    std::vector<uint64_t> tags(n, 0), marks(n, 0), origins(count, 0);
    std::vector<char> marked(n, 0);
    std::vector<Key> keys(edges.size());
    std::unordered_map<Key, uint64_t, KeyHash> counts;
    for (size_t e = 0; e < edges.size(); e++) { keys[e] = {edges[e].node, edges[e].label, 0}; counts[keys[e]]++; }
    std::vector<std::vector<Node>> lists(count);
    std::vector<Node> changed(n);
    for (Node x = 0; x < n; x++) { lists[numbers[x]].push_back(x); changed[x] = x; }
    while (true) {
        size_t before = origins.size();
        std::vector<Event> events;
        for (Node x : changed) {
            for (Node e : outs[x]) {
                if (keys[e].tag == numbers[x]) continue;
                events.push_back({keys[e].node, keys[e].label, keys[e].tag, numbers[x]});
                auto old = counts.find(keys[e]);
                if (--old->second == 0) counts.erase(old);
                keys[e].tag = numbers[x];
                counts[keys[e]]++;
            }
            tags[x] = numbers[x];
        }
        std::sort(events.begin(), events.end());
        events.erase(std::unique(events.begin(), events.end()), events.end());
        std::vector<Node> touched;
        for (auto& event : events) {
            Node x = std::get<0>(event);
            if (!marked[x]) { touched.push_back(x); marked[x] = 1; marks[x] = 1; }
            uint64_t still = counts.count({x, std::get<1>(event), std::get<2>(event)});
            marks[x] = mixed(mixed(mixed(mixed(marks[x], std::get<1>(event)), std::get<2>(event)), std::get<3>(event)), still);
        }
        std::unordered_map<Pair, uint64_t, PairHash> fresh;
        std::vector<std::pair<Node, uint64_t>> moves;
        for (Node x : touched) {
            uint64_t number = numbers[x];
            uint64_t next = lists[number].size() <= 1 ? number : origins.size();
            uint64_t given = fresh.insert({{number, marks[x]}, next}).first->second;
            if (given == origins.size()) origins.push_back(number);
            moves.push_back({x, given});
        }
        lists.resize(std::max(lists.size(), origins.size()));
        for (auto& move : moves) {
            marked[move.first] = 0;
            if (numbers[move.first] == move.second) continue;
            numbers[move.first] = move.second;
            lists[move.second].push_back(move.first);
        }
        for (size_t other = before; other < origins.size(); other++) {
            size_t one = origins[other];
            if (lists[other].size() <= lists[one].size() / 2) continue;
            std::vector<Node> here, there;
            for (Node x : lists[one]) if (numbers[x] == one) here.push_back(x);
            for (Node x : lists[other]) if (numbers[x] == other) there.push_back(x);
            if (there.size() <= here.size()) continue;
            for (Node x : here) { numbers[x] = other; touched.push_back(x); }
            for (Node x : there) { numbers[x] = one; touched.push_back(x); }
            lists[one].swap(there);
            lists[other].swap(here);
        }
        changed.clear();
        for (Node x : touched) if (numbers[x] != tags[x]) changed.push_back(x);
        if (origins.size() <= before) return;
    }
}

int main(int argc, char** argv) {
    if (argc < 3) return 2;
    size_t n = atol(argv[2]), m = argc > 3 ? atol(argv[3]) : 0;
    auto add = [](Node parent, Node label, Node node) { edges.push_back({parent, label, node}); };
    if (!strcmp(argv[1], "chain") || !strcmp(argv[1], "ring")) {
        for (Node x = 0; x + 1 < n; x++) add(x, 0, x + 1);
        if (!strcmp(argv[1], "ring")) add(n - 1, 0, 0);
    } else if (!strcmp(argv[1], "hub")) {
        for (Node x = 1; x < n; x++) add(0, 0, x);
    } else if (!strcmp(argv[1], "twin")) {
        Node half = n / 2;
        for (Node x = 0; x + 2 < half; x++) { add(x, 0, x + 1); add(half + x, 0, half + x + 1); }
        for (Node x = 0; x + 1 < half; x++) { add(x, 1, half - 1); add(half + x, 1, n - 1); }
        add(0, 2, half);
    } else {
        uint64_t state = 7;
        auto below = [&state](uint64_t count) { state = state * FACTOR + 1442695040888963407ULL; return Node((state >> 33) % count); };
        for (Node x = 1; x < n; x++) { Node parent = below(x), label = below(4); add(parent, label, x); }
        while (edges.size() < m) { Node parent = below(n), label = below(4), node = below(n); add(parent, label, node); }
    }
    rows.resize(n); outs.resize(n); kinds.assign(n, 0); kinds[0] = 1;
    auto start = std::chrono::steady_clock::now();
    for (Node e = 0; e < edges.size(); e++) { rows[edges[e].node].push_back({edges[e].label, edges[e].parent}); outs[edges[e].parent].push_back(e); }
    std::vector<uint64_t> numbers(n, 0);
    std::vector<Node> heads(1, 0);
    whole_round(numbers, heads);
    hasten(numbers, heads.size());
    std::unordered_map<uint64_t, uint64_t> levels;
    heads.clear();
    for (Node x = 0; x < n; x++) {
        auto found = levels.insert({numbers[x], heads.size()});
        if (found.second) heads.push_back(x);
        numbers[x] = found.first->second;
    }
    int whole = 1;
    while (!whole_round(numbers, heads)) whole++;
    double seconds = std::chrono::duration<double>(std::chrono::steady_clock::now() - start).count();
    printf("%s nodes %zu edges %zu blocks %zu whole rounds %d seconds %.2f\n", argv[1], n, edges.size(), heads.size(), whole, seconds);
}
