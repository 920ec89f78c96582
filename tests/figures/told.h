/* Telling of a figure whether it is right, and writing numbers into bytes, for the programs of this folder. */
#ifndef TOLD_H
#define TOLD_H

#include <stdbool.h>
#include <stdint.h>
#include <stdio.h>

static int failures = 0;

static void tell(const char *name, bool right) {
    printf("%s figure: %s\n", right ? "ok" : "FAILED", name);
    failures += right ? 0 : 1;
}

/* A number of so many bytes, the lowest first. */
static uint8_t *put(uint8_t *at, int64_t value, int bytes) {
    for (int i = 0; i < bytes; i++) {
        *at++ = (uint8_t)((uint64_t)value >> (8 * i));
    }
    return at;
}

#endif
