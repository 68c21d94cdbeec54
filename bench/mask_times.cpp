// The twin of mask_times.rattle: the same windows and boxes, each box tested by itself.
#include <algorithm>
#include <cstdint>
#include <cstdio>
#include <cstring>

static uint64_t state = 1;

static int32_t roll() {
    state = state * 6364136223846793005ull + 1442695040888963407ull;
    return (int32_t)(state >> 44);
}

struct Box {
    int32_t low[2], high[2];
};

static Box bounds() {
    int32_t x = roll(), y = roll(), u = roll(), v = roll();
    return {{std::min(x, u), std::min(y, v)}, {std::max(x, u), std::max(y, v)}};
}

int main(int argc, char **argv) {
    bool asks = argc < 2 || !strcmp(argv[1], "meets");
    static int32_t low[2][100], high[2][100];
    for (int place = 0; place < 100; place++) {
        Box box = bounds();
        for (int axis = 0; axis < 2; axis++) {
            low[axis][place] = box.low[axis];
            high[axis][place] = box.high[axis];
        }
    }
    uint64_t met = 0;
    for (int i = 0; i < 2000000; i++) {
        Box window = bounds();
        if (asks) {
            uint64_t mask[2] = {0, 0};
            for (int place = 0; place < 100; place++) {
                bool meets = (low[0][place] <= window.high[0]) & (window.low[0] <= high[0][place])
                    & (low[1][place] <= window.high[1]) & (window.low[1] <= high[1][place]);
                mask[place / 64] |= (uint64_t)meets << (place % 64);
            }
            met += __builtin_popcountll(mask[0]) + __builtin_popcountll(mask[1]);
        } else {
            met += window.low[0] == 7;
        }
    }
    printf("%llu\n", (unsigned long long)met);
}
