// The twin of cache_times.rattle: pages in a list in order of use, found by a hash table, over blocks in memory.
#include <cstdint>
#include <cstdio>
#include <cstring>
#include <list>
#include <memory>
#include <unordered_map>
#include <vector>

using Page = unsigned char[4096];

struct Frame {
    uint32_t number;
    bool changed;
    std::unique_ptr<Page> bytes;
};

struct Cache {
    size_t capacity;
    std::vector<std::unique_ptr<Page>> blocks;
    std::list<Frame> frames;
    std::unordered_map<uint32_t, std::list<Frame>::iterator> at;

    // The frame of a page, moved to the front.
    Frame &frame(uint32_t number) {
        auto found = at.find(number);
        if (found != at.end()) {
            frames.splice(frames.begin(), frames, found->second);
            return frames.front();
        }
        std::unique_ptr<Page> bytes;
        if (frames.size() == capacity) {
            Frame &last = frames.back();
            if (last.changed) memcpy(*blocks[last.number], *last.bytes, 4096);
            at.erase(last.number);
            bytes = std::move(last.bytes);
            frames.pop_back();
        } else {
            bytes.reset(reinterpret_cast<Page *>(new Page));
        }
        memcpy(*bytes, *blocks[number], 4096);
        frames.push_front({number, false, std::move(bytes)});
        at[number] = frames.begin();
        return frames.front();
    }

    const unsigned char *page(uint32_t number) { return *frame(number).bytes; }

    void put(uint32_t number, const unsigned char *bytes) {
        Frame &held = frame(number);
        memcpy(*held.bytes, bytes, 4096);
        held.changed = true;
    }
};

static uint64_t state = 1;

static uint32_t roll() {
    state = state * 6364136223846793005ull + 1442695040888963407ull;
    return 3 + (uint32_t)((state >> 33) % 1000);
}

int main(int argc, char **argv) {
    const char *what = argc < 2 ? "none" : argv[1];
    Cache cache{!strcmp(what, "miss") ? size_t(64) : size_t(1024), {}, {}, {}};
    for (int block = 0; block < 1003; block++) {
        cache.blocks.emplace_back(reinterpret_cast<Page *>(new Page));
        memset(*cache.blocks.back(), (block - 3) & 255, 4096);
    }
    uint64_t sum = 0;
    if (!strcmp(what, "miss") || !strcmp(what, "held")) {
        long count = !strcmp(what, "miss") ? 1000000 : 4000000;
        for (long turn = 0; turn < count; turn++) sum += cache.page(roll())[7];
    } else if (!strcmp(what, "put")) {
        Page bytes = {};
        for (long turn = 0; turn < 2000000; turn++) {
            bytes[7] = turn & 255;
            cache.put(roll(), bytes);
            sum++;
        }
    } else {
        for (long turn = 0; turn < 4000000; turn++) sum += roll();
    }
    printf("%llu\n", (unsigned long long)sum);
}
