/* Answers calls that come on stdin, for tests/embedding, on memory between pages that can't be touched.
 *
 * A request: 8 bytes (the call's number, the segments, six of 0), then, little-endian in 8 bytes each, `first`, `second`, the
 * room, the length, and then the bytes. The answer: a byte with the status that the call returned, one with 1 if nothing but
 * the first `length` bytes of out changed, six of 0, the ending's 32 bytes, and `length` bytes of out.
 *
 * `bytes` is read-only and ends where a page begins that can't be read; so does `out`, with a page before it too. A call that
 * touches what isn't its own ends this program by a signal.
 */
#define _GNU_SOURCE
#include "trial.h"

#include <sys/mman.h>
#include <unistd.h>

enum { PAGE = 4096 };

/* Memory whose last byte is followed by a page that can't be touched, and whose first page is preceded by one. */
struct field { uint8_t *start; size_t pages; };

static struct field field_of(size_t length) {
    struct field field = {NULL, (length + PAGE - 1) / PAGE};
    uint8_t *all = mmap(NULL, (field.pages + 2) * PAGE, PROT_NONE, MAP_PRIVATE | MAP_ANONYMOUS | MAP_NORESERVE, -1, 0);
    if (all == MAP_FAILED) { perror("mmap"); exit(2); }
    field.start = all + PAGE;
    if (field.pages && mprotect(field.start, field.pages * PAGE, PROT_READ | PROT_WRITE)) { perror("mprotect"); exit(2); }
    return field;
}

static void give_back(struct field field) { munmap(field.start - PAGE, (field.pages + 2) * PAGE); }

static int take(void *to, size_t length) { return fread(to, 1, length, stdin) == length; }

int main(void) {
    struct { uint8_t call, segments, none[6]; uint64_t first, second, room, length; } asked;
    while (take(&asked, sizeof asked)) {
        struct field in = field_of(asked.length), out_field = field_of(asked.room);
        uint8_t *bytes = in.start + in.pages * PAGE - asked.length;
        uint8_t *out = out_field.start + out_field.pages * PAGE - asked.room;
        if (!take(bytes, asked.length)) return 2;
        if (in.pages) mprotect(in.start, in.pages * PAGE, PROT_READ);
        size_t before = (size_t)(out - out_field.start);
        memset(out_field.start, 0x5a, before + asked.room);
        struct request request = {asked.call, asked.segments, asked.first, asked.second, bytes, asked.length};
        struct lepton_ending ending;
        memset(&ending, 0, sizeof ending);
        uint8_t said[8] = {answer(&request, out, asked.room, &ending), ending.length <= asked.room};
        for (size_t i = 0; said[1] && i < before; i++) said[1] = out_field.start[i] == 0x5a;
        for (size_t i = ending.length; said[1] && i < asked.room; i++) said[1] = out[i] == 0x5a;
        fwrite(said, 1, sizeof said, stdout);
        fwrite(&ending, 1, sizeof ending, stdout);
        if (ending.length <= asked.room) fwrite(out, 1, ending.length, stdout);
        fflush(stdout);
        give_back(in);
        give_back(out_field);
    }
    return 0;
}
