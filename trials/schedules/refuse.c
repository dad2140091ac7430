/* Refuses the allocation of number REFUSE, counted from 1, and writes how many there were into the file REFUSE_TOLD.
   random_schedules.py builds it, and puts it in front of the C library. */
#include <fcntl.h>
#include <stddef.h>
#include <stdio.h>
#include <stdlib.h>
#include <sys/syscall.h>
#include <unistd.h>

extern void *__libc_malloc(size_t);
extern void *__libc_realloc(void *, size_t);
static long count, wanted;

__attribute__((constructor)) static void begin(void) {
    const char *text = getenv("REFUSE");
    wanted = text ? atol(text) : 0;
    count = 0;
}

static void tell(void) {
    const char *name = getenv("REFUSE_TOLD");
    char text[32];
    int file = name ? open(name, O_WRONLY | O_CREAT | O_TRUNC, 0600) : -1;
    if (file >= 0) {
        int length = snprintf(text, sizeof text, "%ld\n", count);
        if (write(file, text, length) != length) syscall(SYS_exit_group, 99);
        close(file);
    }
}

__attribute__((destructor)) static void end(void) { tell(); }

/* A program with threads ends by this call, which runs no destructor. */
void _exit(int status) {
    tell();
    for (;;) syscall(SYS_exit_group, status);
}

void *malloc(size_t size) { return ++count == wanted ? NULL : __libc_malloc(size); }
void *realloc(void *old, size_t size) { return ++count == wanted ? NULL : __libc_realloc(old, size); }
