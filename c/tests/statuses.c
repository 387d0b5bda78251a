/* Each status of each call, and what is written with it:  statuses FILE
 *
 * FILE is accepted by lepton_encode and has one scan. `statuses --old` is for an older
 * processor, on which each call must return 6. The last line is 'N passed, M failed'. Statuses 5 are of no_memory.c.
 */
#include "trial.h"

#include <stdint.h>

static int passed, failed;

/* Calls with `room` bytes, and looks at all that the ending says: `wanted` bytes are written, and no others change. */
static void check(const char *what, struct request r, size_t room, struct lepton_ending wanted, const uint8_t *bytes) {
    struct lepton_ending ending;
    memset(&ending, 0xee, sizeof ending);
    uint8_t *memory_around = memory(room + 128), *out = memory_around + 64;
    memset(memory_around, 0x5a, room + 128);
    uint8_t status = answer(&r, out, room, &ending);
    int rest = 1;
    for (size_t i = 0; i < 64; i++) rest &= memory_around[i] == 0x5a && out[room + i] == 0x5a;
    for (size_t i = ending.length < room ? ending.length : room; i < room; i++) rest &= out[i] == 0x5a;
    if (status == ending.status && is_same_ending(ending, wanted) && rest && (!wanted.length || !memcmp(out, bytes, wanted.length))) {
        passed++;
    } else {
        failed++;
        printf("statuses: %s, %s, room %zu: %d %d %d %llu %llu %llu%s\n", call_names[r.call], what, room, status,
               ending.number, ending.inner, (unsigned long long)ending.detail, (unsigned long long)ending.length,
               (unsigned long long)ending.wanted, rest ? "" : ", and the rest of out changed");
    }
    free(memory_around);
}

static struct lepton_ending done(size_t length) {
    return (struct lepton_ending){.status = LEPTON_DONE, .length = length};
}

static struct lepton_ending refused(int number, int inner, uint64_t detail) {
    return (struct lepton_ending){.status = LEPTON_REFUSED, .number = (uint8_t)number, .inner = (uint8_t)inner,
                                  .detail = detail};
}

static const struct lepton_ending bad_call = {.status = LEPTON_BAD_CALL};

/* A call that is made with ample room, with the room that it takes, with one byte less, and with none. */
static void rooms(struct request r, const uint8_t *bytes, size_t length) {
    check("ample room", r, length + 777, done(length), bytes);
    check("exactly enough", r, length, done(length), bytes);
    for (int i = 0; i < 2 && length; i++) {
        size_t room = i ? 0 : length - 1;
        struct lepton_ending short_of = {.status = LEPTON_NO_ROOM};
        if (r.call == DECODE || r.call == RANGE) short_of.length = room;
        else short_of.wanted = length;
        check("too little", r, room, short_of, bytes);
        if (length == 1) break;
    }
}

static void old(const uint8_t *file, size_t length) {
    for (int call = 0; call < CALLS; call++) {
        struct request r = {call, 1, 0, 1, file, length};
        check("an older processor", r, 100, (struct lepton_ending){.status = LEPTON_OLD_PROCESSOR}, NULL);
    }
}

int main(int count, char **words) {
    if (count == 2 && !strcmp(words[1], "--old")) {
        old((const uint8_t *)"no JPEG file", 12);
        printf("%d passed, %d failed\n", passed, failed);
        return failed != 0;
    }
    if (count != 2) return 2;
    size_t length, two, five, part;
    uint8_t *file = file_of(words[1], &length);
    const uint8_t *text = (const uint8_t *)"no JPEG file";

    for (int segments = 1; segments <= 64; segments += 21) {
        struct request encode = {ENCODE, (uint8_t)segments, 0, 0, file, length};
        uint8_t *container = made_by(encode, &two);
        rooms(encode, container, two);
        rooms((struct request){DECODE, 0, 0, 0, container, two}, file, length);
        rooms((struct request){MIGRATE, 0, 0, 0, container, two}, container, two);
        struct request index = {INDEX, 0, 0, 0, container, two};
        uint8_t *placed = made_by(index, &five);
        rooms(index, placed, five);
        rooms((struct request){INDEX, 0, 0, 0, placed, five}, placed, five);
        rooms((struct request){DECODE, 0, 0, 0, placed, five}, file, length);
        for (int of = 0; of < 2; of++)
            check("both versions", (struct request){LENGTH, 0, 0, 0, of ? placed : container, of ? five : two}, 0,
                  (struct lepton_ending){.wanted = length}, NULL);
        const size_t at[] = {0, 1, 2, length / 3, length / 2, length - 1, length};
        for (int i = 0; i < 7; i++)
            for (int j = i; j < 7; j++)
                if (at[i] <= at[j]) rooms((struct request){RANGE, 0, at[i], at[j], placed, five}, file + at[i], at[j] - at[i]);
        const uint64_t wrong[][2] = {{0, length + 1}, {length + 1, length + 1}, {1, 0}, {0, UINT64_MAX}, {UINT64_MAX, 0},
                                     {UINT64_MAX, UINT64_MAX}};
        for (int i = 0; i < 6; i++)
            check("no range", (struct request){RANGE, 0, wrong[i][0], wrong[i][1], placed, five}, 10, refused(54, 0, 0), NULL);
        check("version 2", (struct request){RANGE, 0, 0, 1, container, two}, 10, refused(31, 0, 0), NULL);
        check("version 5", (struct request){MIGRATE, 0, 0, 0, placed, five}, 10, refused(31, 0, 0), NULL);

        /* Chunks: those of a file are the file. */
        const uint64_t size = length / 3 + 1;
        for (uint64_t i = 0; i * size < length; i++) {
            struct request chunk = {CHUNK, (uint8_t)segments, i, size, file, length};
            uint8_t *cut = made_by(chunk, &part);
            rooms(chunk, cut, part);
            size_t here = length - i * size < size ? length - i * size : size;
            rooms((struct request){DECODE, 0, 0, 0, cut, part}, file + i * size, here);
            check("a chunk", (struct request){LENGTH, 0, 0, 0, cut, part}, 0, (struct lepton_ending){.wanted = here}, NULL);
            check("a chunk", (struct request){INDEX, 0, 0, 0, cut, part}, 10, refused(31, 0, 0), NULL);
            check("a chunk", (struct request){MIGRATE, 0, 0, 0, cut, part}, 10, refused(31, 0, 0), NULL);
            check("a chunk", (struct request){RANGE, 0, 0, 1, cut, part}, 10, refused(31, 0, 0), NULL);
            free(cut);
        }
        struct request whole = {CHUNK, (uint8_t)segments, 0, UINT64_MAX, file, length};
        uint8_t *cut = made_by(whole, &part);
        rooms((struct request){DECODE, 0, 0, 0, cut, part}, file, length);
        free(cut);
        const uint64_t past[][2] = {{3, size}, {length, 1}, {1, length}, {1, UINT64_MAX}, {UINT64_MAX, UINT64_MAX},
                                    {UINT64_MAX, 1}, {UINT64_MAX / 2 + 1, 2}};
        for (int i = 0; i < 7; i++)
            check("past the end", (struct request){CHUNK, 1, past[i][0], past[i][1], file, length}, 10, refused(51, 0, 0), NULL);

        /* A container that ends early, and one with a byte more. */
        for (int call = DECODE; call <= LENGTH; call++) {
            if (call == CHUNK) continue;
            const uint8_t *whole_one = call == RANGE ? placed : container;
            size_t size_of = call == RANGE ? five : two;
            check("cut", (struct request){call, 0, 0, 1, whole_one, size_of - 1}, 10, refused(32, 0, 0), NULL);
        }
        free(container);
        free(placed);
    }

    const int wrong[] = {0, 65, 255};
    for (int i = 0; i < 3; i++) {
        check("segments", (struct request){ENCODE, (uint8_t)wrong[i], 0, 0, file, length}, 10, bad_call, NULL);
        check("segments", (struct request){CHUNK, (uint8_t)wrong[i], 0, 9, file, length}, 10, bad_call, NULL);
    }
    check("a size of 0", (struct request){CHUNK, 1, 0, 0, file, length}, 10, bad_call, NULL);
    for (int call = 0; call < CALLS; call++) {
        int is_file = call == ENCODE || call == CHUNK;
        check("text", (struct request){call, 1, 0, 1, text, 12}, 10, refused(is_file ? 1 : 30, 0, 0), NULL);
        check("no bytes", (struct request){call, 1, 0, 1, NULL, 0}, 0, refused(is_file ? 1 : 30, 0, 0), NULL);
    }
    struct lepton_ending ending;
    if (lepton_encode(1, NULL, 0, NULL, 0, &ending) == 1 && ending.number == 1) passed++;
    else failed++, printf("statuses: NULL\n");

    /* A byte more than a file may have. */
    uint8_t *longest = calloc(LEPTON_MOST_OF_A_FILE + 1, 1);
    if (longest) {
        memcpy(longest, file, length);
        check("too long", (struct request){ENCODE, 1, 0, 0, longest, LEPTON_MOST_OF_A_FILE + 1}, 10, refused(50, 0, 0), NULL);
        check("too long", (struct request){CHUNK, 1, 0, 9, longest, LEPTON_MOST_OF_A_FILE + 1}, 10, refused(50, 0, 0), NULL);
    }
    free(longest);
    free(file);
    printf("%d passed, %d failed\n", passed, failed);
    return failed != 0;
}
