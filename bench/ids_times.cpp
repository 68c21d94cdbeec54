// The reference of ids_times.rattle: std::unordered_map from identifier to box and tag, the table that those who use Boost's
// tree or libspatialindex keep beside it (peers.cpp).
#include <cstdint>
#include <cstdio>
#include <cstdlib>
#include <string>
#include <unordered_map>

struct Object { int32_t low[2], high[2]; uint32_t tag; };
using Table = std::unordered_map<uint64_t, Object>;

static uint64_t state = 1;

static uint64_t below(uint64_t count) {
    state = state * 6364136223846793005 + 1442695040888963407;
    return (state >> 33) % count;
}

static uint64_t shuffled(uint64_t place, uint64_t count) { return place * 7368787 % count; }

static Object object_of(uint64_t id) {
    int32_t at = id & 0xffffff;
    return {{at, 1}, {at, 1}, 0};
}

static void add_all(Table &table, uint64_t count) {
    for (uint64_t place = 0; place < count; place++) table.emplace(shuffled(place, count), object_of(shuffled(place, count)));
}

static uint64_t sum_of(const Table &table, uint64_t times, uint64_t count) {
    uint64_t sum = 0;
    for (uint64_t k = 0; k < times; k++) sum += table.at(below(count)).low[0];
    return sum;
}

int main(int argc, char **argv) {
    std::string what = argc > 2 ? argv[2] : "none";
    uint64_t count = argc > 3 ? strtoull(argv[3], nullptr, 10) : 100000, answer = what == "none" ? 0 : count;
    Table table;
    if (what == "fill" || what == "find") {
        for (uint64_t id = 0; id < count; id++) table.emplace(id, object_of(id));
        if (what == "find") answer = sum_of(table, 20000, count);
    } else if (what != "none" && what != "list") {
        add_all(table, count);
        if (what == "get") answer = sum_of(table, 1000000, count);
        if (what == "remove" || what == "again")
            for (uint64_t place = 0; place < count; place++) table.erase(shuffled(place + count / 3, count));
        if (what == "again") add_all(table, count);
    }
    printf("%lu\n", answer);
}
