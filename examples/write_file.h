/* Writing a file whole, for the examples. */
#ifndef WRITE_FILE_H
#define WRITE_FILE_H

#include <stdbool.h>
#include <stdint.h>
#include <stdio.h>

/* Whether all bytes were written. */
static bool write_file(const char *name, const uint8_t *bytes, size_t size) {
    FILE *file = fopen(name, "wb");
    if (file == NULL) {
        return false;
    }
    bool written = fwrite(bytes, 1, size, file) == size;
    return fclose(file) == 0 && written;
}

#endif
