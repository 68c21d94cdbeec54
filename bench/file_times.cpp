// What bench/file_times/src/main.rt does, by pread and pwrite.
#include <chrono>
#include <cstdio>
#include <cstdlib>
#include <cstring>
#include <fcntl.h>
#include <unistd.h>

static long since(std::chrono::steady_clock::time_point begun) {
    return std::chrono::duration_cast<std::chrono::nanoseconds>(std::chrono::steady_clock::now() - begun).count();
}

int main(int count, char **words) {
    if (count < 3) return 1;
    int file = open(words[1], O_RDWR | O_CREAT, 0666);
    long blocks = atol(words[2]);
    if (file < 0) return 1;
    char bytes[4096];
    long times[3];
    for (int round = 0; round < 2; round++) {
        auto begun = std::chrono::steady_clock::now();
        for (long i = 0; i < blocks; i++) {
            memset(bytes, 7, sizeof bytes);
            if (pwrite(file, bytes, 4096, i * 4096) != 4096) return 1;
        }
        times[2 - round] = since(begun);
    }
    auto begun = std::chrono::steady_clock::now();
    for (long i = 0; i < blocks; i++)
        if (pread(file, bytes, 4096, i * 4096) != 4096) return 1;
    times[0] = since(begun);
    printf("%ld %ld %ld\n", times[0], times[1], times[2]);
}
