/* Runs a program, and says what it took: frames_run TOLD PROGRAM WORDS..  The file TOLD gets the seconds of the processor and of the clock,
   the peak memory in kilobytes, how many bytes it read and how many write calls it made, by the kernel's counts. This program is small, so that the
   memory which a new process has from its parent doesn't count. */
#include <signal.h>
#include <stdio.h>
#include <stdlib.h>
#include <string.h>
#include <sys/resource.h>
#include <sys/wait.h>
#include <time.h>
#include <unistd.h>

static double now(void) {
    struct timespec time;
    clock_gettime(CLOCK_MONOTONIC, &time);
    return time.tv_sec + time.tv_nsec / 1e9;
}

int main(int argc, char **argv) {
    char name[64], line[128];
    long long read = -1, writes = -1;
    if (argc < 3) return 2;
    double begun = now();
    pid_t child = fork();
    if (child == 0) {
        execv(argv[2], argv + 2);
        _exit(127);
    }
    siginfo_t info;
    if (child < 0 || waitid(P_PID, child, &info, WEXITED | WNOWAIT)) return 2;
    double took = now() - begun;
    snprintf(name, sizeof name, "/proc/%d/io", (int)child);
    FILE *io = fopen(name, "r");
    while (io && fgets(line, sizeof line, io)) {
        sscanf(line, "rchar: %lld", &read);
        sscanf(line, "syscw: %lld", &writes);
    }
    struct rusage used;
    int status;
    if (wait4(child, &status, 0, &used) != child) return 2;
    FILE *told = fopen(argv[1], "w");
    if (!told) return 2;
    double processor = used.ru_utime.tv_sec + used.ru_stime.tv_sec + (used.ru_utime.tv_usec + used.ru_stime.tv_usec) / 1e6;
    fprintf(told, "%.6f %.6f %ld %lld %lld\n", processor, took, used.ru_maxrss, read, writes);
    fclose(told);
    return WIFEXITED(status) ? WEXITSTATUS(status) : 128 + WTERMSIG(status);
}
