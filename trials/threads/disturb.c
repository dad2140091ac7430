/* Disturbs the threads of a run, in front of the C library. calling.py builds it.
   PAUSES=SEED: yields and sleeps of up to some milliseconds, drawn at random, in front of each call of syscall (which are the waits
   and wakes of futexes), pread, pwrite, fdatasync, write, sched_yield and pthread_create, and as a thread begins; and one wait of
   sixteen is woken for nothing.
   REFUSED=N,N..: the calls of pthread_create with these numbers, counted from 1, fail; `all`: each does.
   FAILS=NAME,N or NAME,N,on: pread, pwrite or fdatasync of number N, counted from the first read of the standard input, which comes
   behind the opening, fails with EIO; with `on` each one from there on.
   TOLD=FILE: it writes how many calls of pthread_create there were, how many were refused, how many calls failed, and how many pauses
   and empty wakes were drawn. */
#define _GNU_SOURCE
#include <dlfcn.h>
#include <errno.h>
#include <linux/futex.h>
#include <pthread.h>
#include <stdarg.h>
#include <stdatomic.h>
#include <stdio.h>
#include <stdlib.h>
#include <string.h>
#include <sys/syscall.h>
#include <time.h>
#include <unistd.h>

#define REAL(name) ((__typeof__(&name))dlsym(RTLD_NEXT, #name))

enum { PREAD, PWRITE, FDATASYNC };
static const char *names[] = {"pread", "pwrite", "fdatasync"};
static atomic_long spawns, refused, calls[3], failed, paused, woken, threads;
static atomic_int opened;
static unsigned long seed;
static long failing_from, failing_to;
static int failing = -1;
static const char *refusals;
static _Thread_local unsigned long drawn_last;
static __typeof__(&syscall) real_syscall;
static __typeof__(&pread) real_pread;
static __typeof__(&pwrite) real_pwrite;
static __typeof__(&fdatasync) real_fdatasync;
static __typeof__(&read) real_read;
static __typeof__(&write) real_write;
static __typeof__(&pthread_create) real_create;

__attribute__((constructor)) static void begin(void) {
    const char *pauses = getenv("PAUSES"), *fails = getenv("FAILS");
    char name[16], on[4];
    int words;
    real_syscall = REAL(syscall), real_pread = REAL(pread), real_pwrite = REAL(pwrite), real_fdatasync = REAL(fdatasync);
    real_read = REAL(read), real_write = REAL(write), real_create = REAL(pthread_create);
    seed = pauses ? strtoul(pauses, NULL, 10) : 0;
    refusals = getenv("REFUSED");
    if (fails && (words = sscanf(fails, "%15[a-z],%ld,%3s", name, &failing_from, on)) >= 2) {
        failing_to = words == 3 ? 1L << 60 : failing_from;
        for (int i = 0; i < 3; i++)
            if (!strcmp(names[i], name)) failing = i;
    }
}

/* How the program ends: by this call, with no destructor run. */
void _exit(int status) {
    const char *name = getenv("TOLD");
    FILE *file = name ? fopen(name, "w") : NULL;
    if (file) {
        fprintf(file, "%ld %ld %ld %ld %ld\n", spawns, refused, failed, paused, woken);
        fclose(file);
    }
    real_syscall(SYS_exit_group, status);
    __builtin_unreachable();
}

static unsigned long drawn(void) {
    unsigned long x = drawn_last;
    if (!x) x = (seed + 1) * 0x9E3779B97F4A7C15ul + ++threads * 0xBF58476D1CE4E5B9ul;
    x ^= x << 13, x ^= x >> 7, x ^= x << 17;
    return drawn_last = x;
}

/* How often, and how long, differs from seed to seed. */
static void pause_here(void) {
    if (!seed || drawn() >> 32 & ((1 << seed % 5) - 1)) return;
    int error = errno;
    paused++;
    unsigned long kind = drawn() >> 40 & 15;
    struct timespec time = {0, kind < 8 ? 0 : kind < 15 ? (drawn() >> 33) % (20000l << seed % 3) : (drawn() >> 33) % 3000000};
    if (kind < 8) real_syscall(SYS_sched_yield); else nanosleep(&time, NULL);
    errno = error;
}

static int fails_here(int which) {
    if (!opened) return 0;
    long number = ++calls[which];
    if (which != failing || number < failing_from || number > failing_to) return 0;
    failed++;
    errno = EIO;
    return 1;
}

long syscall(long number, ...) {
    long words[6];
    va_list list;
    va_start(list, number);
    for (int i = 0; i < 6; i++) words[i] = va_arg(list, long);
    va_end(list);
    pause_here();
    int kind = words[1] & FUTEX_CMD_MASK;
    if (seed && number == SYS_futex && (kind == FUTEX_WAIT || kind == FUTEX_WAIT_BITSET) && !(drawn() >> 40 & 15)) {
        woken++;
        return 0;
    }
    return real_syscall(number, words[0], words[1], words[2], words[3], words[4], words[5]);
}

ssize_t pread(int file, void *to, size_t count, off_t at) {
    pause_here();
    return fails_here(PREAD) ? -1 : real_pread(file, to, count, at);
}

ssize_t pwrite(int file, const void *from, size_t count, off_t at) {
    pause_here();
    return fails_here(PWRITE) ? -1 : real_pwrite(file, from, count, at);
}

int fdatasync(int file) {
    pause_here();
    return fails_here(FDATASYNC) ? -1 : real_fdatasync(file);
}

ssize_t read(int file, void *to, size_t count) {
    if (file == 0) opened = 1;
    return real_read(file, to, count);
}

ssize_t write(int file, const void *from, size_t count) {
    pause_here();
    return real_write(file, from, count);
}

int sched_yield(void) {
    pause_here();
    return real_syscall(SYS_sched_yield);
}

struct begun { void *(*work)(void *); void *with; };

static void *late(void *given) {
    struct begun begun = *(struct begun *)given;
    free(given);
    pause_here();
    return begun.work(begun.with);
}

static int is_refused(long number) {
    const char *at = refusals;
    if (!at) return 0;
    if (!strcmp(at, "all")) return 1;
    for (; at; at = strchr(at, ',') ? strchr(at, ',') + 1 : NULL)
        if (atol(at) == number) return 1;
    return 0;
}

int pthread_create(pthread_t *thread, const pthread_attr_t *how, void *(*work)(void *), void *with) {
    pause_here();
    if (is_refused(++spawns)) {
        refused++;
        return EAGAIN;
    }
    struct begun *begun = malloc(sizeof *begun);
    if (!begun) return EAGAIN;
    *begun = (struct begun){work, with};
    int error = real_create(thread, how, late, begun);
    if (error) free(begun);
    return error;
}
