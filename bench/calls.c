/* A call in process against a process for each file, encoding and decoding (bench/calls):  calls PROGRAM ROUNDS FILE..
 *
 * Both sides read each file and write the answer, in this folder. Each round does all files by calls, by processes of one segment and no
 * workers, and by processes as they are by default; the next round in the other order. A line for each round: the processor seconds, of
 * this process and its children, and the seconds by a clock, of the six.
 */
#define _GNU_SOURCE
#include "lepton.h"

#include <fcntl.h>
#include <spawn.h>
#include <stdio.h>
#include <stdlib.h>
#include <string.h>
#include <sys/resource.h>
#include <sys/stat.h>
#include <sys/wait.h>
#include <time.h>
#include <unistd.h>

enum { MOST_FILES = 10000 };

static const char *program, *files[MOST_FILES];
static char containers[MOST_FILES][16];
static int count;
static uint8_t *room;
static size_t most;
extern char **environ;

static void stop(const char *what) {
    perror(what);
    exit(2);
}

static double processor_seconds(void) {
    double all = 0;
    for (int who = RUSAGE_CHILDREN; who <= RUSAGE_SELF; who++) {
        struct rusage used;
        getrusage(who, &used);
        all += (double)(used.ru_utime.tv_sec + used.ru_stime.tv_sec);
        all += 1e-6 * (double)(used.ru_utime.tv_usec + used.ru_stime.tv_usec);
    }
    return all;
}

static double clock_seconds(void) {
    struct timespec now;
    clock_gettime(CLOCK_MONOTONIC, &now);
    return (double)now.tv_sec + 1e-9 * (double)now.tv_nsec;
}

static size_t length_of(const char *path) {
    struct stat about;
    if (stat(path, &about)) stop(path);
    return (size_t)about.st_size;
}

static void by_call(const char *from, const char *to, int decodes) {
    size_t length = length_of(from);
    uint8_t *bytes = malloc(length + 1);
    int file = open(from, O_RDONLY);
    if (!bytes || file < 0 || read(file, bytes, length) != (ssize_t)length) stop(from);
    close(file);
    struct lepton_ending ending;
    if (decodes ? lepton_decode(bytes, length, room, most, &ending) : lepton_encode(1, bytes, length, room, most, &ending)) {
        fprintf(stderr, "%s: status %d\n", from, ending.status);
        exit(2);
    }
    file = open(to, O_WRONLY | O_CREAT | O_TRUNC, 0600);
    if (file < 0 || write(file, room, ending.length) != (ssize_t)ending.length) stop(to);
    close(file);
    free(bytes);
}

static void by_process(const char *from, const char *to, char *const *words) {
    posix_spawn_file_actions_t streams;
    posix_spawn_file_actions_init(&streams);
    posix_spawn_file_actions_addopen(&streams, 0, from, O_RDONLY, 0);
    posix_spawn_file_actions_addopen(&streams, 1, to, O_WRONLY | O_CREAT | O_TRUNC, 0600);
    pid_t child;
    int status;
    if (posix_spawn(&child, program, &streams, NULL, words, environ) || waitpid(child, &status, 0) < 0 || status) stop(from);
    posix_spawn_file_actions_destroy(&streams);
}

/* One of the six: 0 to 2 encode, 3 to 5 decode; by calls, by lone processes, by processes. */
static void all_files(int kind) {
    char *const words[6][5] = {{0}, {"lepton", "encode", "--segments", "1"}, {"lepton", "encode"},
                               {0}, {"lepton", "decode", "--workers", "0"}, {"lepton", "decode"}};
    for (int i = 0; i < count; i++) {
        const char *from = kind < 3 ? files[i] : containers[i], *to = kind < 3 ? containers[i] : "back";
        if (kind % 3) by_process(from, to, words[kind]);
        else by_call(from, to, kind == 3);
    }
}

int main(int words, char **word) {
    if (words < 4) return 2;
    program = word[1];
    for (int i = 3; i < words && count < MOST_FILES; i++, count++) {
        files[count] = word[i];
        snprintf(containers[count], sizeof containers[count], "%d", count);
        if (length_of(word[i]) > most) most = length_of(word[i]);
    }
    most = 2 * most + 4096;
    room = malloc(most);
    if (!room) stop("malloc");
    all_files(0);
    for (int round = 0; round < atoi(word[2]); round++) {
        double used[6], passed[6];
        for (int half = 0; half < 6; half += 3) {
            /* So that each side decodes the containers of one segment. */
            if (half) all_files(0);
            for (int i = 0; i < 3; i++) {
                int kind = half + (round % 2 ? 2 - i : i);
                double processor = processor_seconds(), clock = clock_seconds();
                all_files(kind);
                used[kind] = processor_seconds() - processor;
                passed[kind] = clock_seconds() - clock;
            }
        }
        for (int kind = 0; kind < 6; kind++) printf("%.4f %.4f ", used[kind], passed[kind]);
        printf("\n");
        fflush(stdout);
    }
    return 0;
}
