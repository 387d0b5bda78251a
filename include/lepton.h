/* lepton: a lossless recoder for baseline JPEG files, as calls on bytes in memory.
 *
 * docs/EMBEDDING.md is the guide: building, threads, memory, stack, what is proved. Each call does what the program's
 * command of that name does.
 *
 * Units        Lengths, rooms and places are bytes; a place is counted from 0.
 * Memory       The caller owns all three memories: `bytes` (read), `out` (written) and `*ending`. `out` and `*ending`
 *              overlap nothing else. `bytes` and `out` may be NULL if their length is 0, `ending` never. No length is above
 *              PTRDIFF_MAX. No pointer is kept. What a call allocates, by malloc, it frees before it returns.
 * Result       Each call fills the fields of `*ending` and returns `ending->status`. It writes the first `ending->length`
 *              bytes of `out`, with any status; the rest of `out` stays as it was. What is between the fields of an
 *              ending has any value: compare them one by one.
 * Threads      A call works on its thread alone, and keeps no state: any number may run at once, on the same `bytes`
 *              too. Until it returns, no other thread changes `bytes`, or touches `out` or `*ending`.
 * Not allowed  in a signal handler, and in the child of a fork of a process with several threads (malloc is called).
 */
#ifndef LEPTON_H
#define LEPTON_H

#include <stddef.h>
#include <stdint.h>

#ifdef __cplusplus
extern "C" {
#endif

enum lepton_status {
    LEPTON_DONE = 0,
    /* `number` says why. Of lepton_decode and lepton_range `length` bytes came before the fault; the others wrote none. */
    LEPTON_REFUSED = 1,
    /* `segments` isn't 1 to 64, or `size` is 0. Nothing was read or written. */
    LEPTON_BAD_CALL = 2,
    /* The answer is longer than `room`. lepton_decode and lepton_range wrote the first bytes of it that fit, and `wanted` is
     * 0. The others wrote nothing, and `wanted` is the room that is needed. */
    LEPTON_NO_ROOM = 4,
    /* malloc gave no memory. Nothing was written. */
    LEPTON_NO_MEMORY = 5,
    /* The processor isn't an x86-64-v2 (it lacks SSE4.2, POPCNT or the like). Nothing was read or written. */
    LEPTON_OLD_PROCESSOR = 6
};

struct lepton_ending {
    uint8_t status;  /* an enum lepton_status; also what the call returns */
    uint8_t number;  /* the refusal, 1 to 54 (docs/OPERATING.md, Refusals), with status 1; else 0 */
    uint8_t inner;   /* with number 33 that of the header's refusal, 1 to 15; else 0 */
    uint64_t detail; /* the place, the marker's code or the segment that the program's line names; else 0 */
    uint64_t length; /* how many bytes were written to `out` */
    uint64_t wanted; /* the room that the whole answer takes, if the call knows it; else 0 */
};

/* The most segments of a container, and the most bytes of a file that is encoded. */
#define LEPTON_MOST_SEGMENTS 64
#define LEPTON_MOST_OF_A_FILE 67108864

/* Encodes a JPEG file: its container, of at most `segments` segments (1 to 64), but at least one for each scan. 1 gives the
 * fewest bytes; take more if lepton_range shall be quick, or the program decodes by several threads.
 *
 * If `room` is the file's length less 1, status 4 says that the container isn't worth keeping. */
uint8_t lepton_encode(uint8_t segments, const uint8_t *bytes, size_t length,
                      uint8_t *out, size_t room, struct lepton_ending *ending);

/* Decodes a container of version 1 to 5: the file, or the chunk of a file. The room that it takes is that file's or chunk's
 * length: keep it beside the container, or ask lepton_length. */
uint8_t lepton_decode(const uint8_t *bytes, size_t length,
                      uint8_t *out, size_t room, struct lepton_ending *ending);

/* Rewrites a container of version 1 or 2 in version 2, without decoding it. */
uint8_t lepton_migrate(const uint8_t *bytes, size_t length,
                       uint8_t *out, size_t room, struct lepton_ending *ending);

/* Encodes a part of a JPEG file of one scan: a container, of version 3, of the file's `size` bytes (the last chunk's are
 * fewer) from place `index` times `size` on. Number 51: the file ends before that place. `bytes` is the whole file. */
uint8_t lepton_chunk(uint64_t index, uint64_t size, uint8_t segments, const uint8_t *bytes, size_t length,
                     uint8_t *out, size_t room, struct lepton_ending *ending);

/* Rewrites a container of version 1, 2 or 5 in version 5, which lepton_range reads. It decodes the container for that. */
uint8_t lepton_index(const uint8_t *bytes, size_t length,
                     uint8_t *out, size_t room, struct lepton_ending *ending);

/* Reads the file's bytes from place `from` to before place `to` of a container of version 5, and decodes only the segments
 * that have them. The room that it takes is `to` less `from`. Number 54: no such range in the file. */
uint8_t lepton_range(uint64_t from, uint64_t to, const uint8_t *bytes, size_t length,
                     uint8_t *out, size_t room, struct lepton_ending *ending);

/* Decodes a container and writes nothing: with status 0 `wanted` is the room that lepton_decode takes for it, else the
 * refusal is lepton_decode's. It takes as long as lepton_decode. */
uint8_t lepton_length(const uint8_t *bytes, size_t length, struct lepton_ending *ending);

#ifdef __cplusplus
}
#endif

#endif
