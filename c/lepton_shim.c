/* The public names of the library (include/lepton.h). Each looks at the processor, and calls the proved function.
 *
 * The proved functions, lepton_proved_encode and so on, are compiled for x86-64-v2. This file is compiled for any x86-64, so
 * that on an older processor a call returns status 6 instead of ending the process by an illegal instruction.
 */
#include "lepton.h"

#include <cpuid.h>
#include <stdatomic.h>

_Static_assert(sizeof(size_t) == 8, "a processor of 64 bits");
_Static_assert(sizeof(struct lepton_ending) == 32, "the layout that the proved functions write");
_Static_assert(offsetof(struct lepton_ending, detail) == 8, "the layout that the proved functions write");

uint8_t lepton_proved_encode(uint8_t, const uint8_t *, size_t, uint8_t *, size_t, struct lepton_ending *);
uint8_t lepton_proved_decode(const uint8_t *, size_t, uint8_t *, size_t, struct lepton_ending *);
uint8_t lepton_proved_migrate(const uint8_t *, size_t, uint8_t *, size_t, struct lepton_ending *);
uint8_t lepton_proved_chunk(uint64_t, uint64_t, uint8_t, const uint8_t *, size_t, uint8_t *, size_t,
                            struct lepton_ending *);
uint8_t lepton_proved_index(const uint8_t *, size_t, uint8_t *, size_t, struct lepton_ending *);
uint8_t lepton_proved_range(uint64_t, uint64_t, const uint8_t *, size_t, uint8_t *, size_t, struct lepton_ending *);
uint8_t lepton_proved_length(const uint8_t *, size_t, struct lepton_ending *);

/* Whether the processor has what x86-64-v2 adds. */
static int is_new(void) {
    const unsigned wanted = bit_SSE3 | bit_SSSE3 | bit_CMPXCHG16B | bit_SSE4_1 | bit_SSE4_2 | bit_POPCNT;
    unsigned eax, ebx, ecx, edx;
    if (!__get_cpuid(1, &eax, &ebx, &ecx, &edx) || (ecx & wanted) != wanted) return 0;
    return __get_cpuid(0x80000001, &eax, &ebx, &ecx, &edx) && (ecx & bit_LAHF_LM);
}

/* The same, looked at once: cpuid is slow in a virtual machine. Two threads that look at the same time see the same. */
static int runs_here(void) {
    enum { UNKNOWN, OLD, NEW };
    static atomic_int known = UNKNOWN;
    int seen = atomic_load_explicit(&known, memory_order_relaxed);
    if (seen == UNKNOWN) {
        seen = is_new() ? NEW : OLD;
        atomic_store_explicit(&known, seen, memory_order_relaxed);
    }
    return seen == NEW;
}

static uint8_t old_processor(struct lepton_ending *ending) {
    *ending = (struct lepton_ending){.status = LEPTON_OLD_PROCESSOR};
    return LEPTON_OLD_PROCESSOR;
}

/* The proved functions want a pointer that isn't NULL, also to no bytes. */
static uint8_t none;
#define READ(at) ((at) ? (at) : (const uint8_t *)&none)
#define WRITTEN(at) ((at) ? (at) : &none)

uint8_t lepton_encode(uint8_t segments, const uint8_t *bytes, size_t length,
                      uint8_t *out, size_t room, struct lepton_ending *ending) {
    if (!runs_here()) return old_processor(ending);
    return lepton_proved_encode(segments, READ(bytes), length, WRITTEN(out), room, ending);
}

uint8_t lepton_decode(const uint8_t *bytes, size_t length,
                      uint8_t *out, size_t room, struct lepton_ending *ending) {
    if (!runs_here()) return old_processor(ending);
    return lepton_proved_decode(READ(bytes), length, WRITTEN(out), room, ending);
}

uint8_t lepton_migrate(const uint8_t *bytes, size_t length,
                       uint8_t *out, size_t room, struct lepton_ending *ending) {
    if (!runs_here()) return old_processor(ending);
    return lepton_proved_migrate(READ(bytes), length, WRITTEN(out), room, ending);
}

uint8_t lepton_chunk(uint64_t index, uint64_t size, uint8_t segments, const uint8_t *bytes, size_t length,
                     uint8_t *out, size_t room, struct lepton_ending *ending) {
    if (!runs_here()) return old_processor(ending);
    return lepton_proved_chunk(index, size, segments, READ(bytes), length, WRITTEN(out), room, ending);
}

uint8_t lepton_index(const uint8_t *bytes, size_t length,
                     uint8_t *out, size_t room, struct lepton_ending *ending) {
    if (!runs_here()) return old_processor(ending);
    return lepton_proved_index(READ(bytes), length, WRITTEN(out), room, ending);
}

uint8_t lepton_range(uint64_t from, uint64_t to, const uint8_t *bytes, size_t length,
                     uint8_t *out, size_t room, struct lepton_ending *ending) {
    if (!runs_here()) return old_processor(ending);
    return lepton_proved_range(from, to, READ(bytes), length, WRITTEN(out), room, ending);
}

uint8_t lepton_length(const uint8_t *bytes, size_t length, struct lepton_ending *ending) {
    if (!runs_here()) return old_processor(ending);
    return lepton_proved_length(READ(bytes), length, ending);
}
