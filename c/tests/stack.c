/* How much stack each call needs, on a thread's own stack:  stack BYTES FILE..
 *
 * Runs each call on each file (and on what is made of it: containers of versions 2 to 5, of 1 and 64 segments), on a painted
 * stack of 1 MiB, prints the most bytes that a call touched below its caller, and then again on a thread with a stack of BYTES
 * (`pthread_attr_setstacksize`), with a page after it that can't be touched. A file that is refused is tried too.
 *
 *     cc -O2 -pthread -I include -I c/tests c/tests/stack.c liblepton.a
 */
#define _GNU_SOURCE
#include "trial.h"

#include <pthread.h>
#include <sys/mman.h>

enum { PAINTED = 1 << 20, PAINT = 0xa5 };

static size_t needed[CALLS], small;
static uint8_t *painted;

struct task { struct request request; uint8_t *out; size_t room; struct lepton_ending ending; uint8_t *from; };

static void *run(void *at) {
    struct task *task = at;
    task->from = __builtin_frame_address(0);
    answer(&task->request, task->out, task->room, &task->ending);
    return NULL;
}

static void on_thread(struct task *task, pthread_attr_t *how) {
    pthread_t thread;
    if (pthread_create(&thread, how, run, task) || pthread_join(thread, NULL)) { perror("pthread_create"); exit(2); }
}

/* Runs a call on both stacks, and returns what it made, if it has status 0 and out is kept. */
static uint8_t *measured(struct request request, size_t room, size_t *length) {
    uint8_t *out = memory(room);
    struct task task = {request, out, room, {0}, NULL}, again = task;
    pthread_attr_t how;
    memset(painted, PAINT, PAINTED);
    pthread_attr_init(&how);
    pthread_attr_setstack(&how, painted, PAINTED);
    on_thread(&task, &how);
    size_t untouched = 0;
    while (untouched < PAINTED && painted[untouched] == PAINT) untouched++;
    size_t depth = (size_t)(task.from - (painted + untouched));
    if (depth > needed[request.call]) needed[request.call] = depth;
    pthread_attr_destroy(&how);
    if (small) {
        pthread_attr_init(&how);
        pthread_attr_setstacksize(&how, small);
        on_thread(&again, &how);
        pthread_attr_destroy(&how);
        if (!is_same_ending(task.ending, again.ending)) { printf("stack: another answer\n"); exit(1); }
    }
    if (length && task.ending.status == LEPTON_DONE) {
        *length = (size_t)task.ending.length;
        return out;
    }
    free(out);
    return NULL;
}

/* All calls on a container, of a file of `length` bytes if it is known. */
static void read_container(const uint8_t *bytes, size_t size, size_t length) {
    size_t five = 0;
    measured((struct request){DECODE, 0, 0, 0, bytes, size}, length, NULL);
    measured((struct request){DECODE, 0, 0, 0, bytes, size}, length / 2, NULL);
    measured((struct request){LENGTH, 0, 0, 0, bytes, size}, 1, NULL);
    measured((struct request){MIGRATE, 0, 0, 0, bytes, size}, size + 100, NULL);
    uint8_t *placed = measured((struct request){INDEX, 0, 0, 0, bytes, size}, size + 10000, &five);
    if (placed) {
        measured((struct request){DECODE, 0, 0, 0, placed, five}, length, NULL);
        measured((struct request){RANGE, 0, 0, length, placed, five}, length, NULL);
        measured((struct request){RANGE, 0, length / 3, length / 2, placed, five}, length, NULL);
        free(placed);
    }
}

int main(int count, char **words) {
    if (count < 3) return 2;
    small = (size_t)atol(words[1]);
    painted = mmap(NULL, PAINTED, PROT_READ | PROT_WRITE, MAP_PRIVATE | MAP_ANONYMOUS, -1, 0);
    for (int i = 2; i < count; i++) {
        size_t length, size = 0;
        uint8_t *file = file_of(words[i], &length), *made;
        read_container(file, length, 8 * length);
        for (int segments = 1; segments <= 64; segments += 63) {
            const struct request encode = {ENCODE, (uint8_t)segments, 0, 0, file, length};
            if ((made = measured(encode, 2 * length + 10000, &size))) {
                read_container(made, size, length);
                uint8_t turned = made[size - size / 4];
                made[size - size / 4] ^= 16;
                read_container(made, size, length);
                made[size - size / 4] = turned;
                free(made);
            }
            const struct request chunk = {CHUNK, (uint8_t)segments, 1, length / 3 + 1, file, length};
            if ((made = measured(chunk, 2 * length + 10000, &size))) {
                read_container(made, size, length / 3 + 1);
                free(made);
            }
        }
        free(file);
    }
    size_t most = 0;
    for (int call = 0; call < CALLS; call++) {
        printf("%-7s %zu bytes of stack\n", call_names[call], needed[call]);
        if (needed[call] > most) most = needed[call];
    }
    printf("at most %zu\n", most);
    return 0;
}
