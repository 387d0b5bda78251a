/* Many calls of many threads at once:  soak THREADS CALLS FILE..
 *
 * Each thread goes over the files: each call, what comes back compared, with too little room too; and a container with one bit
 * turned, which is refused or decoded to other bytes. The most memory after all calls must be about that after a tenth of them, but for
 * what the largest file may take in each thread. The last line is 'N passed, M failed'.
 *
 *     cc -O2 -pthread -I include -I c/tests c/tests/soak.c liblepton.a
 */
#define _GNU_SOURCE
#include "trial.h"

#include <pthread.h>
#include <stdatomic.h>
#include <sys/resource.h>

struct photo { uint8_t *bytes; size_t length; };

static struct photo photos[1000];
static int photo_count;
static long call_limit;
static atomic_long calls, wrong, refused, damaged_done, damaged_refused;

static long peak_kib(void) {
    struct rusage usage;
    getrusage(RUSAGE_SELF, &usage);
    return usage.ru_maxrss;
}

static void check(int is_so, const char *call, int photo) {
    if (is_so) return;
    if (atomic_fetch_add(&wrong, 1) < 10) printf("soak: %s of file %d\n", call, photo);
}

/* Calls, and looks at what stays. Returns the status. */
static uint8_t call(struct request r, uint8_t *out, size_t room, size_t all, struct lepton_ending *ending, int photo) {
    memset(out, 0x5a, all);
    uint8_t status = answer(&r, out, room, ending);
    atomic_fetch_add(&calls, 1);
    int is_kept = status == ending->status && ending->length <= room;
    for (size_t i = ending->length; is_kept && i < all; i++) is_kept = out[i] == 0x5a;
    check(is_kept, call_names[r.call], photo);
    return status;
}

static void *work(void *at) {
    long number = (long)(size_t)at;
    uint64_t random = 88172645463325252ULL + (uint64_t)number;
    for (long turn = number; atomic_load(&calls) < call_limit; turn++) {
        int p = (int)(turn % photo_count);
        const struct photo *photo = &photos[p];
        const size_t length = photo->length, all = 2 * length + 20000;
        const uint8_t segments = (uint8_t)(1 + turn % 7);
        uint8_t *made = memory(all), *placed = memory(all), *out = memory(all);
        struct lepton_ending ending;
        if (call((struct request){ENCODE, segments, 0, 0, photo->bytes, length}, made, all, all, &ending, p) != LEPTON_DONE) {
            atomic_fetch_add(&refused, ending.status == LEPTON_REFUSED);
            check(ending.status == LEPTON_REFUSED, "encode", p);
        } else {
            const size_t size = ending.length;
            call((struct request){DECODE, 0, 0, 0, made, size}, out, length, all, &ending, p);
            check(ending.status == LEPTON_DONE && ending.length == length && !memcmp(out, photo->bytes, length), "decode", p);
            call((struct request){DECODE, 0, 0, 0, made, size}, out, length / 2, all, &ending, p);
            check(ending.status == LEPTON_NO_ROOM && !memcmp(out, photo->bytes, ending.length), "decode", p);
            call((struct request){LENGTH, 0, 0, 0, made, size}, out, 0, all, &ending, p);
            check(ending.status == LEPTON_DONE && ending.wanted == length, "length", p);
            call((struct request){INDEX, 0, 0, 0, made, size}, placed, all, all, &ending, p);
            if (ending.status == LEPTON_DONE) {
                const size_t five = ending.length, from = length / 3, to = length / 2;
                call((struct request){RANGE, 0, from, to, placed, five}, out, to - from, all, &ending, p);
                check(ending.status == LEPTON_DONE && !memcmp(out, photo->bytes + from, to - from), "range", p);
                call((struct request){MIGRATE, 0, 0, 0, made, size}, out, size, all, &ending, p);
                check(ending.status == LEPTON_DONE && !memcmp(out, made, size), "migrate", p);
                call((struct request){CHUNK, segments, 1, length / 2, photo->bytes, length}, placed, all, all, &ending, p);
                check(ending.status == LEPTON_DONE, "chunk", p);
                const size_t cut = ending.length;
                call((struct request){DECODE, 0, 0, 0, placed, cut}, out, length, all, &ending, p);
                check(ending.status == LEPTON_DONE && !memcmp(out, photo->bytes + length / 2, length / 2), "decode", p);
            } else {
                check(ending.number == 31, "index", p); /* several scans */
            }
            random ^= random << 13, random ^= random >> 7, random ^= random << 17;
            made[random % size] ^= (uint8_t)(1 << (random >> 32) % 8);
            call((struct request){DECODE, 0, 0, 0, made, size}, out, length, all, &ending, p);
            if (ending.status == LEPTON_DONE) atomic_fetch_add(&damaged_done, 1);
            else atomic_fetch_add(&damaged_refused, 1);
            check(ending.status == LEPTON_DONE || ending.status == LEPTON_REFUSED || ending.status == LEPTON_NO_ROOM, "decode", p);
        }
        free(made);
        free(placed);
        free(out);
    }
    return NULL;
}

static void run(int threads, long limit) {
    pthread_t running[64];
    call_limit = limit;
    for (long i = 0; i < threads; i++) pthread_create(&running[i], NULL, work, (void *)i);
    for (int i = 0; i < threads; i++) pthread_join(running[i], NULL);
}

int main(int count, char **words) {
    if (count < 4) return 2;
    int threads = atoi(words[1]) < 64 ? atoi(words[1]) : 64;
    long limit = atol(words[2]);
    for (int i = 3; i < count && photo_count < 1000; i++, photo_count++)
        photos[photo_count].bytes = file_of(words[i], &photos[photo_count].length);
    run(threads, limit / 10);
    long early = peak_kib();
    run(threads, limit);
    long late = peak_kib();
    size_t largest = 0;
    for (int i = 0; i < photo_count; i++) largest = photos[i].length > largest ? photos[i].length : largest;
    int is_bounded = late <= early + early / 2 + 8192 + (long)(10 * largest / 1024) * threads;
    long bad = atomic_load(&wrong) + !is_bounded;
    printf("soak: %d threads, %ld calls, %ld files refused, damaged: %ld done, %ld not; at most %ld KiB after a tenth, %ld after all\n",
           threads, atomic_load(&calls), atomic_load(&refused), atomic_load(&damaged_done), atomic_load(&damaged_refused), early, late);
    printf("%ld passed, %ld failed\n", atomic_load(&calls) + 1 - bad, bad);
    return bad != 0;
}
