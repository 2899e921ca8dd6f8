/* What the C programs share: the library's version, and the sample files that they read and alter. */
#ifndef FILES_H
#define FILES_H

#include "fikrem.h"

#include <stdint.h>
#include <stdio.h>
#include <stdlib.h>

enum { FILE_SIZE = 4096 };

/* Ends the program where the library is of another version than the header. */
static void same_version(void)
{
    if (fikrem_version() != FIKREM_VERSION) {
        fputs("libfikrem.a is of another version than fikrem.h\n", stderr);
        exit(2);
    }
}

static size_t read_file(const char *name, uint8_t *bytes)
{
    FILE *file = fopen(name, "rb");
    if (file == NULL) {
        perror(name);
        exit(2);
    }
    size_t size = fread(bytes, 1, FILE_SIZE, file);
    fclose(file);
    return size;
}

/* The value of the first field with this tag. */
static uint8_t *value_of(uint8_t *file, uint8_t tag)
{
    while (file[0] != tag) {
        file += 3 + 256 * file[1] + file[2];
    }
    return file + 3;
}

/* The check that goes with the file's other bytes. */
static void set_check(uint8_t *file, size_t size)
{
    uint32_t h = 0;
    for (size_t place = 0; place < size - 2; place++) {
        h = (h * 257 + file[place] + 1) % 65521;
    }
    file[size - 2] = (uint8_t)(h / 256);
    file[size - 1] = (uint8_t)(h % 256);
}

#endif
