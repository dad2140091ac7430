/* Copies found records, 40 bytes each, and writes them as the replies of searches.

       search_baseline FILE K

   FILE has for each search how many records it found and their values, in the machine's numbers of 8 bytes. The file is read before the
   clock begins. Standard error gets the seconds of the processor. bench/search compares the text with that of hbpi. */
#include <stdint.h>
#include <stdio.h>
#include <stdlib.h>
#include <string.h>
#include <time.h>

struct record { uint64_t values[4]; uint64_t body; };

static char *put_number(char *at, uint64_t number) {
    char digits[20];
    int count = 0;
    do digits[count++] = '0' + number % 10; while (number /= 10);
    while (count) *at++ = digits[--count];
    return at;
}

static double now(void) {
    struct timespec time;
    clock_gettime(CLOCK_PROCESS_CPUTIME_ID, &time);
    return time.tv_sec + time.tv_nsec / 1e9;
}

int main(int argc, char **argv) {
    FILE *file = argc == 3 ? fopen(argv[1], "rb") : NULL;
    if (!file || fseek(file, 0, SEEK_END)) return 2;
    long size = ftell(file), words = size / 8;
    uint64_t *all = malloc(size + 8);
    rewind(file);
    if (!all || fread(all, 1, size, file) != (size_t)size) return 2;
    int k = atoi(argv[2]);
    double begun = now();
    uint64_t searches = 0;
    char *room = malloc(1 << 20), *at = room;
    for (long place = 0; place < words;) {
        uint64_t count = all[place++];
        struct record *found = malloc(count * sizeof *found + 1);
        for (uint64_t one = 0; one < count; one++, place += k) {
            memset(&found[one], 0, sizeof *found);
            memcpy(found[one].values, all + place, 8 * k);
        }
        at = put_number(at, ++searches);
        at = stpcpy(at, " box ");
        at = put_number(at, count);
        *at++ = '\n';
        for (uint64_t one = 0; one < count; one++) {
            *at++ = '+';
            for (int axis = 0; axis < k; axis++) {
                *at++ = ' ';
                at = put_number(at, found[one].values[axis]);
            }
            at = stpcpy(at, " =\n");
            if (at - room > (1 << 20) - 4096) {
                fwrite(room, 1, at - room, stdout);
                at = room;
            }
        }
        free(found);
        if (at - room > (1 << 20) - 4096) {
            fwrite(room, 1, at - room, stdout);
            at = room;
        }
    }
    at = stpcpy(at, "order");
    for (uint64_t one = 1; one <= searches; one++) {
        *at++ = ' ';
        at = put_number(at, one);
        if (at - room > (1 << 20) - 4096) {
            fwrite(room, 1, at - room, stdout);
            at = room;
        }
    }
    *at++ = '\n';
    fwrite(room, 1, at - room, stdout);
    fflush(stdout);
    fprintf(stderr, "%.9f\n", now() - begun);
    return 0;
}
