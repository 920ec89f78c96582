/* Printing what the grid check found, for the examples. */
#ifndef FINDINGS_H
#define FINDINGS_H

#include <inttypes.h>
#include <stdio.h>

#include "marker.h"

/* The line of the program gridcheck for an image that passes. */
static void print_findings(const int64_t findings[MARKER_FINDINGS_LENGTH]) {
    printf("passed");
    for (int i = 0; i < MARKER_FINDINGS_LENGTH; i++) {
        printf(" %" PRId64, findings[i]);
    }
    printf("\n");
}

#endif
