/* process.c - times two reading programs as processes, on the same files, and compares their texts byte for byte.
 *
 *     process PROGRAM PROGRAM FILE...
 *
 * One line a file: name, then the nanoseconds of each program from its start to its end, best of 30, the two taking turns. The start of a
 * process is a part of both. A difference is printed, and the status is 1. */
#define _GNU_SOURCE

#include <fcntl.h>
#include <spawn.h>
#include <stdio.h>
#include <stdlib.h>
#include <string.h>
#include <sys/mman.h>
#include <sys/wait.h>
#include <time.h>
#include <unistd.h>

#define ROUNDS 30
#define ENOUGH 5e8 /* nanoseconds for one file */
#define LONGEST 65536

extern char **environ;

static double now(void)
{
    struct timespec t;
    clock_gettime(CLOCK_MONOTONIC, &t);
    return (double)t.tv_sec * 1e9 + (double)t.tv_nsec;
}

static void fail(const char *what)
{
    perror(what);
    exit(2);
}

/* Runs a program from `in` to `out` and gives its time. */
static double run(const char *program, int in, int out)
{
    char *words[] = {(char *)program, NULL};
    posix_spawn_file_actions_t actions;
    double start;
    pid_t child;
    int status;
    if (lseek(in, 0, SEEK_SET) != 0 || ftruncate(out, 0) != 0 || lseek(out, 0, SEEK_SET) != 0) fail("lseek");
    posix_spawn_file_actions_init(&actions);
    posix_spawn_file_actions_adddup2(&actions, in, 0);
    posix_spawn_file_actions_adddup2(&actions, out, 1);
    start = now();
    if (posix_spawn(&child, program, &actions, NULL, words, environ) != 0) fail(program);
    if (waitpid(child, &status, 0) != child || status != 0) {
        fprintf(stderr, "%s ended with status %d\n", program, status);
        exit(2);
    }
    start = now() - start;
    posix_spawn_file_actions_destroy(&actions);
    return start;
}

static size_t text(int out, char *into)
{
    ssize_t got = pread(out, into, LONGEST, 0);
    if (got < 0) fail("pread");
    return (size_t)got;
}

/* 1 where both texts are the same on the file, with the times printed. */
static int compare(char **programs, const char *path, const int *out)
{
    static char left[LONGEST], right[LONGEST];
    const char *slash = strrchr(path, '/');
    double best[2] = {0, 0}, begun = now();
    int in = open(path, O_RDONLY), round, k, equal;
    if (in < 0) fail(path);
    for (round = 0; round < ROUNDS && (round < 2 || now() - begun < ENOUGH); round++)
        for (k = 0; k < 2; k++) {
            double time = run(programs[k], in, out[k]);
            if (round == 0 || time < best[k]) best[k] = time;
        }
    equal = text(out[0], left) == text(out[1], right) && memcmp(left, right, text(out[0], left)) == 0;
    printf("%s%s %.0f %.0f\n", equal ? "" : "DIFFERENT ", slash == NULL ? path : slash + 1, best[0], best[1]);
    fflush(stdout);
    close(in);
    return equal;
}

int main(int count, char **words)
{
    int out[2] = {memfd_create("first", MFD_CLOEXEC), memfd_create("second", MFD_CLOEXEC)};
    int i, ok = 1;
    if (count < 3 || out[0] < 0 || out[1] < 0) return 2;
    for (i = 3; i < count; i++) ok &= compare(words + 1, words[i], out);
    return !ok;
}
