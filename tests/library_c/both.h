/* What the programs of this folder share. */
#ifndef BOTH_H
#define BOTH_H
#include "s2.h"
#include <stdio.h>
#include <stdlib.h>
#include <string.h>

/* Ends the program with the text of a result, unless it is S2_OK. */
static inline void must(int32_t result, const char *what) {
    char text[128];
    size_t length = 0;
    if (result == S2_OK) return;
    s2_error_text(result, text, sizeof text, &length);
    fprintf(stderr, "%s: %.*s\n", what, (int)length, text);
    exit(1);
}

/* The bytes of a file. */
static inline uint8_t *contents(const char *path, size_t *length) {
    FILE *file = fopen(path, "rb");
    uint8_t *bytes = malloc(1 << 24);
    if (!file || !bytes) exit(66);
    *length = fread(bytes, 1, 1 << 24, file);
    fclose(file);
    return bytes;
}
#endif
