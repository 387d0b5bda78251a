/* Each allocation of each call refused in turn, alone and with all that come after it:  no_memory FILE
 *
 * FILE is accepted by lepton_encode and has one scan. If an allocation is refused, the call must return status 5 and write no byte,
 * or give the same answer as with ample memory; and free all that it allocated. Prints what each call allocates; the last line is
 * 'N passed, M failed'.
 *
 *     cc -I include -I c/tests c/tests/no_memory.c liblepton.a -Wl,--wrap=malloc,--wrap=realloc,--wrap=free
 */
#define _GNU_SOURCE
#include "trial.h"

#include <malloc.h>

void *__real_malloc(size_t), *__real_realloc(void *, size_t);
void __real_free(void *);

/* The allocation that is refused next, counted down to 0; whether those after it are too; what is held, and the most of it. */
static long next = -1, held_blocks;
static int and_all_after;
static size_t held, most;

static int refuses(void) {
    if (next > 0) next--;
    else if (next == 0) return and_all_after;
    return next == 0;
}

static void *counted(void *made) {
    held_blocks++;
    held += malloc_usable_size(made);
    if (held > most) most = held;
    return made;
}

static void dropped(void *old) {
    held_blocks--;
    held -= malloc_usable_size(old);
}

void *__wrap_malloc(size_t length) {
    if (refuses()) return NULL;
    void *made = __real_malloc(length);
    return made ? counted(made) : NULL;
}

void *__wrap_realloc(void *old, size_t length) {
    if (refuses()) return NULL;
    if (old) dropped(old);
    void *made = __real_realloc(old, length);
    return made ? counted(made) : NULL;
}

void __wrap_free(void *old) {
    if (old) dropped(old);
    __real_free(old);
}

static int passed, failed;

static void check(int is_so, const char *call, long nth, const char *what) {
    if (is_so) { passed++; return; }
    failed++;
    printf("no memory: %s, allocation %ld%s: %s\n", call, nth, and_all_after ? " and all after it" : "", what);
}

/* Calls until no allocation is refused. */
static void starve(struct request r, size_t room) {
    uint8_t *out = memory(room), *wanted = memory(room);
    struct lepton_ending ample;
    memset(wanted, 0x5a, room);
    check(answer(&r, wanted, room, &ample) == LEPTON_DONE, call_names[r.call], 0, "not done with ample memory");
    long without = 0;
    for (and_all_after = 0; and_all_after < 2; and_all_after++) {
        for (long nth = 1;; nth++) {
            struct lepton_ending ending;
            long blocks = held_blocks;
            size_t start = held;
            memset(out, 0x5a, room);
            most = held;
            next = nth;
            uint8_t status = answer(&r, out, room, &ending);
            int was_refused = next == 0;
            next = -1;
            check(held_blocks == blocks && held == start, call_names[r.call], nth, "memory is left");
            if (!was_refused) {
                if (and_all_after)
                    printf("%-7s of %zu bytes, %zu of room, %d segments: %ld allocations, at most %zu bytes; %ld times the answer without one\n",
                           call_names[r.call], r.length, room, r.segments, nth - 1, most - start, without);
                break;
            }
            int is_same = status == LEPTON_DONE && is_same_ending(ending, ample) && !memcmp(out, wanted, room);
            int is_kept = 1;
            for (size_t i = 0; i < room; i++) is_kept &= out[i] == 0x5a;
            without += is_same;
            check(is_same || (status == LEPTON_NO_MEMORY && !ending.length && !ending.number && !ending.wanted && is_kept),
                  call_names[r.call], nth, "neither status 5 alone nor the answer");
        }
    }
    free(out);
    free(wanted);
}

int main(int count, char **words) {
    if (count != 2) return 2;
    size_t length, two, five, cut;
    uint8_t *file = file_of(words[1], &length);
    for (int segments = 1; segments <= 4; segments += 3) {
        struct request encode = {ENCODE, (uint8_t)segments, 0, 0, file, length};
        uint8_t *container = made_by(encode, &two);
        struct request index = {INDEX, (uint8_t)segments, 0, 0, container, two};
        uint8_t *placed = made_by(index, &five);
        struct request chunk = {CHUNK, (uint8_t)segments, 1, length / 3, file, length};
        uint8_t *part = made_by(chunk, &cut);
        starve(encode, two);
        starve((struct request){DECODE, (uint8_t)segments, 0, 0, container, two}, length);
        starve((struct request){MIGRATE, (uint8_t)segments, 0, 0, container, two}, two);
        starve(chunk, cut);
        starve(index, five);
        starve((struct request){RANGE, (uint8_t)segments, length / 2, length / 2 + 100, placed, five}, 100);
        starve((struct request){LENGTH, (uint8_t)segments, 0, 0, container, two}, 1);
        free(container);
        free(placed);
        free(part);
    }
    free(file);
    printf("%d passed, %d failed\n", passed, failed);
    return failed != 0;
}
