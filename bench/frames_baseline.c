/* Reads pages of a file, one after the other, and nothing else: frames_baseline FILE FIRST < PAGES
   PAGES are numbers of 4 bytes in the machine's order, and page p stands at FIRST + 4,096 (p - 1). Nothing is kept: a page that comes
   again is read again. The standard output gets how many were read, a sum of some of their bytes, and the seconds of the processor and
   of the clock, from the first read to the last. */
#include <fcntl.h>
#include <stdint.h>
#include <stdio.h>
#include <stdlib.h>
#include <time.h>
#include <unistd.h>

static double now(clockid_t which) {
    struct timespec time;
    clock_gettime(which, &time);
    return time.tv_sec + time.tv_nsec / 1e9;
}

int main(int argc, char **argv) {
    if (argc != 3) return 2;
    int file = open(argv[1], O_RDONLY);
    off_t first = atoll(argv[2]);
    size_t room = 1 << 16, count = 0, got;
    uint32_t *pages = malloc(room * 4);
    if (file < 0 || !pages) return 2;
    while ((got = fread(pages + count, 4, room - count, stdin)) > 0) {
        count += got;
        if (count == room) {
            room *= 2;
            pages = realloc(pages, room * 4);
            if (!pages) return 2;
        }
    }
    static unsigned char page[4096];
    uint64_t sum = 0;
    double processor = now(CLOCK_PROCESS_CPUTIME_ID), begun = now(CLOCK_MONOTONIC);
    for (size_t at = 0; at < count; at++) {
        if (pread(file, page, sizeof page, first + 4096 * (off_t)(pages[at] - 1)) != sizeof page) return 2;
        sum += page[0] + page[4] + page[100];
    }
    processor = now(CLOCK_PROCESS_CPUTIME_ID) - processor;
    begun = now(CLOCK_MONOTONIC) - begun;
    printf("%zu %llu %.9f %.9f\n", count, (unsigned long long)sum, processor, begun);
    return 0;
}
