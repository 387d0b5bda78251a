/* What the tests of the library share: files, the seven calls by number, and counts of what failed. */
#ifndef TRIAL_H
#define TRIAL_H

#include "lepton.h"

#include <stdio.h>
#include <stdlib.h>
#include <string.h>

enum call { ENCODE, DECODE, MIGRATE, CHUNK, INDEX, RANGE, LENGTH, CALLS };

static const char *const call_names[CALLS] = {"encode", "decode", "migrate", "chunk", "index", "range", "length"};

/* What a call takes: `first` and `second` are the index and the size of a chunk, and from where to where a range is. */
struct request {
    enum call call;
    uint8_t segments;
    uint64_t first, second;
    const uint8_t *bytes;
    size_t length;
};

static inline uint8_t answer(const struct request *r, uint8_t *out, size_t room, struct lepton_ending *ending) {
    switch (r->call) {
    case ENCODE: return lepton_encode(r->segments, r->bytes, r->length, out, room, ending);
    case DECODE: return lepton_decode(r->bytes, r->length, out, room, ending);
    case MIGRATE: return lepton_migrate(r->bytes, r->length, out, room, ending);
    case CHUNK: return lepton_chunk(r->first, r->second, r->segments, r->bytes, r->length, out, room, ending);
    case INDEX: return lepton_index(r->bytes, r->length, out, room, ending);
    case RANGE: return lepton_range(r->first, r->second, r->bytes, r->length, out, room, ending);
    default: return lepton_length(r->bytes, r->length, ending);
    }
}

/* Field by field: what is between the fields has no meaning. */
static inline int is_same_ending(struct lepton_ending a, struct lepton_ending b) {
    return a.status == b.status && a.number == b.number && a.inner == b.inner && a.detail == b.detail
        && a.length == b.length && a.wanted == b.wanted;
}

static inline void *memory(size_t length) {
    void *made = malloc(length ? length : 1);
    if (!made) { fprintf(stderr, "out of memory\n"); exit(2); }
    return made;
}

static inline uint8_t *file_of(const char *path, size_t *length) {
    FILE *file = fopen(path, "rb");
    if (!file || fseek(file, 0, SEEK_END)) { perror(path); exit(2); }
    *length = (size_t)ftell(file);
    rewind(file);
    uint8_t *bytes = memory(*length);
    if (fread(bytes, 1, *length, file) != *length) { perror(path); exit(2); }
    fclose(file);
    return bytes;
}

/* A copy of what a call writes, which must have status 0. */
static inline uint8_t *made_by(struct request r, size_t *length) {
    struct lepton_ending ending;
    size_t room = 2 * r.length + 100000;
    uint8_t *out = memory(room);
    if (answer(&r, out, room, &ending) != LEPTON_DONE) {
        fprintf(stderr, "%s: status %d, number %d\n", call_names[r.call], ending.status, ending.number);
        exit(2);
    }
    *length = (size_t)ending.length;
    return out;
}

#endif
