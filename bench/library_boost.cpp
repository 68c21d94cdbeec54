// library_boost BOXES ROUNDS: the same of Boost's R*-tree in memory (rstar<16>), with a hash table from identifier to box.
#include <boost/geometry.hpp>
#include <boost/geometry/index/rtree.hpp>
#include <algorithm>
#include <cstdio>
#include <ctime>
#include <fstream>
#include <functional>
#include <iterator>
#include <string>
#include <unordered_map>
#include <vector>

namespace bg = boost::geometry;
namespace bgi = bg::index;
using Point = bg::model::point<int, 2, bg::cs::cartesian>;
using Box = bg::model::box<Point>;
using Entry = std::pair<Box, unsigned long>;
using Tree = bgi::rtree<Entry, bgi::rstar<16>>;

static double now() {
    timespec t;
    clock_gettime(CLOCK_PROCESS_CPUTIME_ID, &t);
    return t.tv_sec * 1e6 + t.tv_nsec / 1e3;
}

static size_t total;

static void report(const std::string &name, int rounds, size_t calls, std::function<void()> act) {
    double best = 1e18;
    for (int round = 0; round < rounds; round++) {
        total = 0;
        double start = now();
        act();
        best = std::min(best, (now() - start) / calls);
    }
    std::printf("%s\t%.3f\t%.2f\n", name.c_str(), best, double(total) / calls);
}

int main(int argc, char **argv) {
    if (argc != 3) return 2;
    std::ifstream text(argv[1]);
    int rounds = std::stoi(argv[2]), a, b, c, d;
    std::vector<Entry> rows;
    std::vector<std::pair<std::string, std::vector<Box>>> windows;
    for (std::string word; text >> word >> a >> b >> c >> d;) {
        Box box(Point(a, b), Point(c, d));
        if (word == "box") { rows.push_back({box, rows.size()}); continue; }
        if (windows.empty() || windows.back().first != word) windows.push_back({word, {}});
        windows.back().second.push_back(box);
    }
    Tree tree;
    report("load", rounds, rows.size(), [&] { tree = Tree(rows); });
    for (auto &kind : windows) {
        report(kind.first, rounds, kind.second.size(), [&] {
            for (auto &box : kind.second) {
                std::vector<Entry> found;
                tree.query(bgi::intersects(box), std::back_inserter(found));
                std::sort(found.begin(), found.end(), [](const Entry &x, const Entry &y) { return x.second < y.second; });
                total += found.size();
            }
        });
        if (kind.first != "ten") continue;
        report("nearest", rounds, kind.second.size(), [&] {
            for (auto &box : kind.second) {
                std::vector<Entry> found;
                tree.query(bgi::nearest(box.min_corner(), 10), std::back_inserter(found));
                total += found.size();
            }
        });
    }
    double took = 1e18, taken = 1e18;
    for (int round = 0; round < rounds; round++) {
        Tree more;
        std::unordered_map<unsigned long, Box> ids;
        double start = now();
        for (auto &row : rows) { more.insert(row); ids[row.second] = row.first; }
        took = std::min(took, (now() - start) / rows.size());
        start = now();
        for (auto &row : rows) { more.remove({ids[row.second], row.second}); ids.erase(row.second); }
        taken = std::min(taken, (now() - start) / rows.size());
    }
    std::printf("insert\t%.3f\t0\ndelete\t%.3f\t0\n", took, taken);
    return 0;
}
