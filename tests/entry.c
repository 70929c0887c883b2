/* entry TEXT...: lists each plan text through the C entry, into buffers of several sizes that are filled with a pattern before.
 * For each it writes the answered length, as eight bytes with the lowest first, and the whole buffer. Where the call has
 * touched a byte before or behind the buffer, or the text, the length that is written is one that cannot be. */
#include <stdio.h>
#include <stdlib.h>
#include <string.h>

#include "gap_listing.h"

enum { GUARD = 64, LARGEST = 4096 };

static const size_t sizes[] = {0, 511, GAP_LISTING_ROOM, LARGEST};

/* The second program has the same rule. */
static uint8_t pattern(size_t place) { return (uint8_t)(place * 7 + place / 256 + 13); }

static uint8_t guard(size_t place) { return (uint8_t)(place * 5 + 1); }

/* Reads a whole file into memory that is exactly as large as it. */
static uint8_t *read_text(const char *path, size_t *length) {
    FILE *file = fopen(path, "rb");
    if (!file || fseek(file, 0, SEEK_END) != 0) return NULL;
    long end = ftell(file);
    uint8_t *text = end < 0 ? NULL : malloc(end > 0 ? (size_t)end : 1);
    rewind(file);
    if (text && fread(text, 1, (size_t)end, file) != (size_t)end) text = NULL;
    fclose(file);
    *length = (size_t)end;
    return text;
}

static int guards_stand(const uint8_t *area, size_t size) {
    for (size_t i = 0; i < GUARD; i++)
        if (area[i] != guard(i) || area[GUARD + size + i] != guard(GUARD + i)) return 0;
    return 1;
}

/* Lists the text into a buffer of this size and writes the record. */
static int list_into(const char *path, const uint8_t *text, const uint8_t *copy, size_t text_length, size_t size) {
    static uint8_t area[GUARD + LARGEST + GUARD];
    uint8_t *buffer = area + GUARD, record[8];
    for (size_t i = 0; i < GUARD; i++) {
        area[i] = guard(i);
        area[GUARD + size + i] = guard(GUARD + i);
    }
    for (size_t i = 0; i < size; i++) buffer[i] = pattern(i);
    uint64_t length = gap_listing(text, text_length, buffer, size);
    if (!guards_stand(area, size) || memcmp(text, copy, text_length) != 0) {
        fprintf(stderr, "entry: %s, buffer of %zu bytes: something beside the buffer was written\n", path, size);
        length = UINT64_MAX;
    }
    for (int i = 0; i < 8; i++) record[i] = (uint8_t)(length >> (8 * i));
    return fwrite(record, 1, 8, stdout) == 8 && fwrite(buffer, 1, size, stdout) == size;
}

int main(int count, char **paths) {
    for (int i = 1; i < count; i++) {
        size_t length = 0;
        uint8_t *text = read_text(paths[i], &length), *copy = malloc(length + 1);
        if (!text || !copy) {
            fprintf(stderr, "entry: %s cannot be read\n", paths[i]);
            return 1;
        }
        memcpy(copy, text, length);
        for (size_t s = 0; s < sizeof sizes / sizeof *sizes; s++)
            if (!list_into(paths[i], text, copy, length, sizes[s])) return 1;
        free(text);
        free(copy);
    }
    return fflush(stdout) == 0 ? 0 : 1;
}
