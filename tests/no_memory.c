/* Preloaded into a program: its call number NTH of malloc, calloc or realloc fails, and leaves a file `refused`. */
#include <fcntl.h>
#include <stdlib.h>
#include <unistd.h>

void *__libc_malloc(size_t n);
void *__libc_calloc(size_t k, size_t n);
void *__libc_realloc(void *p, size_t n);

static int fails(void) {
    static long calls;
    const char *nth = getenv("NTH");
    if (nth == NULL || ++calls != atol(nth)) return 0;
    close(open("refused", O_CREAT | O_WRONLY, 0600));
    return 1;
}

void *malloc(size_t n) { return fails() ? NULL : __libc_malloc(n); }
void *calloc(size_t k, size_t n) { return fails() ? NULL : __libc_calloc(k, n); }
void *realloc(void *p, size_t n) { return fails() ? NULL : __libc_realloc(p, n); }
