// What the rules of the tree are measured against: the same choices, splits and far sets (docs/RULES.md) on the same
// boxes, with sort and 128-bit areas as a plain C++ program has them.
#include <algorithm>
#include <array>
#include <cstdint>
#include <cstdio>
#include <cstring>
#include <tuple>
#include <vector>

using u128 = unsigned __int128;
struct Box { std::array<int32_t, 2> low, high; };
struct Entry { Box bounds; uint64_t reference; };
using Entries = std::vector<Entry>;

struct Dice {
    uint64_t state = 1;
    int32_t roll() { state = state * 6364136223846793005u + 1442695040888963407u; return int32_t(state >> 44); }
    Box next_box() {
        int32_t x = roll(), y = roll();
        int32_t right = x + roll() / 64, top = y + roll() / 64;
        return {{x, y}, {right, top}};
    }
    void entries(Entries &to, uint64_t count) { to.clear(); for (uint64_t i = 0; i < count; i++) to.push_back({next_box(), i + 3}); }
};

static Box join(const Box &a, const Box &b) {
    Box c;
    for (int i = 0; i < 2; i++) { c.low[i] = std::min(a.low[i], b.low[i]); c.high[i] = std::max(a.high[i], b.high[i]); }
    return c;
}
static u128 area(const Box &a) {
    u128 product = 1;
    for (int i = 0; i < 2; i++) product *= uint32_t(a.high[i]) - uint32_t(a.low[i]);
    return product;
}
static u128 overlap(const Box &a, const Box &b) {
    u128 product = 1;
    for (int i = 0; i < 2; i++) {
        int32_t low = std::max(a.low[i], b.low[i]), high = std::min(a.high[i], b.high[i]);
        if (high < low) return 0;
        product *= uint32_t(high) - uint32_t(low);
    }
    return product;
}
static uint64_t margin(const Box &a) {
    uint64_t sum = 0;
    for (int i = 0; i < 2; i++) sum += uint32_t(a.high[i]) - uint32_t(a.low[i]);
    return sum;
}
static u128 distance(const Box &a, const Box &b) {
    u128 sum = 0;
    for (int i = 0; i < 2; i++) {
        int64_t gap = (int64_t(a.low[i]) + a.high[i]) - (int64_t(b.low[i]) + b.high[i]);
        sum += u128(gap < 0 ? -gap : gap) * u128(gap < 0 ? -gap : gap);
    }
    return sum;
}

static size_t choose(const Entries &entries, const Box &box) {
    using Key = std::tuple<u128, u128, u128, size_t>;
    auto key = [&](size_t k, u128 grows) {
        Box before = entries[k].bounds;
        return Key{grows, area(join(before, box)) - area(before), area(before), k};
    };
    // past the least so far a sum is left off
    auto growth = [&](size_t k, u128 most) {
        Box before = entries[k].bounds, after = join(before, box);
        u128 grows = 0;
        for (size_t i = 0; i < entries.size() && grows <= most; i++)
            if (i != k)
                if (u128 wide = overlap(after, entries[i].bounds)) grows += wide - overlap(before, entries[i].bounds);
        return grows;
    };
    Key best = key(0, 0);
    for (size_t k = 1; k < entries.size(); k++) best = std::min(best, key(k, 0));
    size_t start = std::get<3>(best);
    best = key(start, growth(start, ~u128(0)));
    if (std::get<0>(best) == 0) return start;
    for (size_t k = 0; k < entries.size(); k++) best = std::min(best, key(k, growth(k, std::get<0>(best))));
    return std::get<3>(best);
}

static void split(const Entries &entries, size_t m, Entries &first, Entries &second) {
    using Sorted = std::array<std::tuple<int32_t, int32_t, uint64_t, size_t>, 101>;
    size_t n = entries.size();
    std::array<std::array<Sorted, 2>, 2> sorts;
    std::array<Box, 101> fronts, backs;
    uint64_t least = ~0ull;
    std::tuple<u128, u128, size_t, size_t> best{};
    size_t axis_of_best = 0;
    for (int axis = 0; axis < 2; axis++) {
        uint64_t margins = 0;
        std::tuple<u128, u128, size_t, size_t> cut{~u128(0), 0, 0, 0};
        for (int upper = 0; upper < 2; upper++) {
            Sorted &keys = sorts[axis][upper];
            for (size_t i = 0; i < n; i++) {
                const Box &b = entries[i].bounds;
                keys[i] = upper ? std::tuple{b.high[axis], b.low[axis], entries[i].reference, i}
                                : std::tuple{b.low[axis], b.high[axis], entries[i].reference, i};
            }
            std::sort(keys.begin(), keys.begin() + n);
            auto at = [&](size_t i) { return entries[std::get<3>(keys[i])].bounds; };
            fronts[0] = at(0); backs[n - 1] = at(n - 1);
            for (size_t i = 1; i < n; i++) fronts[i] = join(fronts[i - 1], at(i));
            for (size_t i = n - 1; i-- > 0;) backs[i] = join(at(i), backs[i + 1]);
            for (size_t size = m; size + m <= n; size++) {
                const Box &a = fronts[size - 1], &b = backs[size];
                margins += margin(a) + margin(b);
                cut = std::min(cut, std::tuple<u128, u128, size_t, size_t>{overlap(a, b), area(a) + area(b), size_t(upper), size});
            }
        }
        if (margins < least) { least = margins; best = cut; axis_of_best = axis; }
    }
    first.clear(); second.clear();
    for (size_t i = 0; i < n; i++)
        (i < std::get<3>(best) ? first : second).push_back(entries[std::get<3>(sorts[axis_of_best][std::get<2>(best)][i])]);
}

static void farthest(const Entries &entries, size_t p, Entries &near, Entries &far) {
    Box all = entries[0].bounds;
    for (const Entry &e : entries) all = join(all, e.bounds);
    std::array<std::tuple<u128, uint64_t, size_t>, 101> keys;
    for (size_t i = 0; i < entries.size(); i++) keys[i] = {~distance(entries[i].bounds, all), entries[i].reference, i};
    std::sort(keys.begin(), keys.begin() + entries.size());
    std::array<bool, 101> taken{};
    near.clear(); far.clear();
    for (size_t k = p; k-- > 0;) { taken[std::get<2>(keys[k])] = true; far.push_back(entries[std::get<2>(keys[k])]); }
    for (size_t i = 0; i < entries.size(); i++) if (!taken[i]) near.push_back(entries[i]);
}

static uint64_t sum_of(const Entries &entries) {
    uint64_t sum = 0;
    for (size_t i = 0; i < entries.size(); i++) sum += entries[i].reference * i;
    return sum;
}

int main(int count, char **words) {
    const char *rule = count > 1 ? words[1] : "choose";
    const int rounds = 200000;
    Dice dice;
    Entries entries, a, b;
    uint64_t sum = 0;
    if (!strcmp(rule, "choose")) {
        dice.entries(entries, 100);
        for (int i = 0; i < rounds; i++) sum += choose(entries, dice.next_box());
    } else for (int i = 0; i < rounds; i++) {
        dice.entries(entries, 101);
        if (!strcmp(rule, "boxes")) { sum += sum_of(entries); continue; }
        if (!strcmp(rule, "split")) split(entries, 40, a, b);
        else farthest(entries, 30, a, b);
        sum += sum_of(a) + sum_of(b);
    }
    printf("%s %llu\n", rule, (unsigned long long)sum);
}
