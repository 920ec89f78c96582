/* Images, and what the library answers and finds over them, for the programs of this folder. Points are offsets from grid G's south-west
 * corner. */
#ifndef ASKED_H
#define ASKED_H

#include <string.h>

#include "marker.h"
#include "told.h"

#define SOUTH INT64_C(52000000000)
#define WEST INT64_C(5000000000)

struct image {
    uint8_t bytes[512];
    size_t length;
};

/* The geometry of a grid, by the offsets of its south-west corner. */
static uint8_t *put_geometry(uint8_t *at, const int64_t corner[2], const int64_t spacings[2], const int64_t lines[2]) {
    at = put(put(at, SOUTH + corner[0], 8), WEST + corner[1], 8);
    at = put(put(at, spacings[0], 4), spacings[1], 4);
    return put(put(at, lines[0], 4), lines[1], 4);
}

typedef int64_t way(const uint8_t *, size_t, const int64_t *, size_t, int64_t *, size_t);

/* One fix by its offsets from the south-west corner: is this its answer? */
static bool answers(way *convert, const struct image *image, const int64_t fix[MARKER_FIX_LENGTH],
                    const int64_t wanted[MARKER_ANSWER_LENGTH]) {
    int64_t given[MARKER_FIX_LENGTH] = {SOUTH + fix[MARKER_LATITUDE], WEST + fix[MARKER_LONGITUDE], fix[MARKER_HEIGHT]};
    int64_t answer[MARKER_ANSWER_LENGTH];
    return convert(image->bytes, image->length, given, MARKER_FIX_LENGTH, answer, MARKER_ANSWER_LENGTH) == MARKER_DONE &&
           memcmp(answer, wanted, sizeof answer) == 0;
}

/* The same for these values, the point by its offsets too. */
static bool gives(way *convert, const struct image *image, const int64_t fix[MARKER_FIX_LENGTH], const int64_t values[MARKER_NUMBER]) {
    return answers(convert, image, fix,
                   (int64_t[]){SOUTH + values[MARKER_LATITUDE], WEST + values[MARKER_LONGITUDE], values[MARKER_HEIGHT],
                               values[MARKER_COUNT], MARKER_DONE});
}

static bool refuses(way *convert, const struct image *image, const int64_t fix[MARKER_FIX_LENGTH], int64_t number) {
    return answers(convert, image, fix, (int64_t[]){0, 0, 0, 0, number});
}

static bool passes(const struct image *image, const int64_t wanted[MARKER_FINDINGS_LENGTH]) {
    int64_t findings[MARKER_FINDINGS_LENGTH];
    return marker_grid_check(image->bytes, image->length, findings) == MARKER_DONE && memcmp(findings, wanted, sizeof findings) == 0;
}

static bool check_refuses(const struct image *image, int64_t number) {
    const int64_t before[MARKER_FINDINGS_LENGTH] = {1, 2, 3, 4, 5, 6};
    int64_t findings[MARKER_FINDINGS_LENGTH];
    memcpy(findings, before, sizeof findings);
    return marker_grid_check(image->bytes, image->length, findings) == number && memcmp(findings, before, sizeof findings) == 0;
}

#endif
