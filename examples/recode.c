/* Containers from C: calls of the library (docs/EMBEDDING.md).
 *
 *     cc -O2 -I include examples/recode.c FOLDER/liblepton.a -o recode && ./recode FILE..
 *
 * Encodes each file in memory, decodes it again, compares, and prints both lengths. Exits with 1 if one doesn't come back.
 */
#include "lepton.h"

#include <stdio.h>
#include <stdlib.h>
#include <string.h>

/* The bytes of a file, or NULL. */
static uint8_t *read_file(const char *path, size_t *length) {
    FILE *file = fopen(path, "rb");
    if (!file) return NULL;
    uint8_t *bytes = NULL;
    if (!fseek(file, 0, SEEK_END) && (*length = (size_t)ftell(file)) < LEPTON_MOST_OF_A_FILE) {
        rewind(file);
        bytes = malloc(*length + 1);
        if (bytes && fread(bytes, 1, *length, file) != *length) { free(bytes); bytes = NULL; }
    }
    fclose(file);
    return bytes;
}

/* Whether a container decodes to these bytes. */
static int comes_back(const uint8_t *container, size_t size, const uint8_t *file, size_t length) {
    struct lepton_ending ending;
    uint8_t *back = malloc(length + 1);
    if (!back) return 0;
    lepton_decode(container, size, back, length, &ending);
    int is_same = ending.status == LEPTON_DONE && ending.length == length && !memcmp(file, back, length);
    free(back);
    return is_same;
}

int main(int count, char **words) {
    int failed = 0;
    for (int i = 1; i < count; i++) {
        size_t length = 0;
        uint8_t *file = read_file(words[i], &length), *container = malloc(length + 1);
        if (!file || !container) { perror(words[i]); return 2; }
        /* A container that isn't shorter than its file isn't worth keeping, so there is no room for it. */
        struct lepton_ending ending;
        lepton_encode(1, file, length, container, length ? length - 1 : 0, &ending);
        if (ending.status == LEPTON_DONE) {
            int is_same = comes_back(container, ending.length, file, length);
            printf("%s %zu %zu%s\n", words[i], length, (size_t)ending.length, is_same ? "" : " did not come back");
            failed |= !is_same;
        } else if (ending.status == LEPTON_REFUSED) {
            printf("%s %zu refused %d, store it as it is\n", words[i], length, ending.number);
        } else if (ending.status == LEPTON_NO_ROOM) {
            printf("%s %zu no smaller, store it as it is\n", words[i], length);
        } else {
            printf("%s status %d\n", words[i], ending.status);
            failed = 1;
        }
        free(file);
        free(container);
    }
    return failed;
}
