// Runs a program some times, or measures bare syncs.
//
//     whole run ROUNDS INPUT PROGRAM ARGS..    one line: least nanoseconds, most kilobytes of memory, least nanoseconds of the processor
//     whole sync FILE ROUNDS                   one line: mean nanoseconds of four writes of a sector, each synced
#define _GNU_SOURCE
#include <fcntl.h>
#include <stdint.h>
#include <stdio.h>
#include <stdlib.h>
#include <string.h>
#include <sys/resource.h>
#include <sys/wait.h>
#include <time.h>
#include <unistd.h>

static uint64_t now(void) {
    struct timespec t;
    clock_gettime(CLOCK_MONOTONIC, &t);
    return (uint64_t)t.tv_sec * 1000000000u + (uint64_t)t.tv_nsec;
}

static int run(unsigned rounds, const char *input, char **command) {
    uint64_t least = UINT64_MAX, worked = UINT64_MAX;
    long most = 0;
    for (unsigned i = 0; i < rounds; i++) {
        uint64_t start = now();
        pid_t child = fork();
        if (child == 0) {
            int in = open(input, O_RDONLY), out = open("/dev/null", O_WRONLY);
            if (in < 0 || out < 0 || dup2(in, 0) < 0 || dup2(out, 1) < 0)
                _exit(126);
            execvp(command[0], command);
            _exit(127);
        }
        int status;
        struct rusage used;
        if (child < 0 || wait4(child, &status, 0, &used) < 0 || status != 0) {
            fprintf(stderr, "%s: status %d\n", command[0], status);
            return 1;
        }
        uint64_t took = now() - start;
        if (took < least)
            least = took;
        uint64_t work = 1000u * (1000000u * (uint64_t)(used.ru_utime.tv_sec + used.ru_stime.tv_sec)
                                 + (uint64_t)(used.ru_utime.tv_usec + used.ru_stime.tv_usec));
        if (work < worked)
            worked = work;
        if (used.ru_maxrss > most)
            most = used.ru_maxrss;
    }
    printf("%llu %ld %llu\n", (unsigned long long)least, most, (unsigned long long)worked);
    return 0;
}

// the mean of the rounds, as a hundred saves are measured too
static int sync_four(const char *name, unsigned rounds) {
    static char sector[512];
    int file = open(name, O_RDWR);
    if (file < 0 || rounds == 0)
        return 1;
    uint64_t start = now();
    for (unsigned i = 0; i < rounds; i++)
        for (unsigned k = 0; k < 4; k++) {
            memset(sector, (int)(i + k), sizeof sector);
            if (pwrite(file, sector, sizeof sector, 512 * (8 * k + 8)) != sizeof sector || fdatasync(file) != 0)
                return 1;
        }
    printf("%llu\n", (unsigned long long)((now() - start) / rounds));
    return 0;
}

int main(int argc, char **argv) {
    if (argc > 4 && strcmp(argv[1], "run") == 0)
        return run((unsigned)strtoul(argv[2], NULL, 10), argv[3], argv + 4);
    if (argc == 4 && strcmp(argv[1], "sync") == 0)
        return sync_four(argv[2], (unsigned)strtoul(argv[3], NULL, 10));
    return 2;
}
