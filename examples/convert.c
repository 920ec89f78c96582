/* Opens a grid image, converts one fix from ETRS89 to Bessel and NAP, and prints the answer.
 *
 *   convert IMAGE LATITUDE LONGITUDE HEIGHT      angles in nd, height in units of 0.0001 m
 *
 * Over an image of kind 2 an answer may have no height; it is an answer all the same.
 *
 * Exits with 0 for an answer, 1 for a refusal, 2 if the file cannot be read.
 */
#include <inttypes.h>
#include <stdio.h>
#include <stdlib.h>

#include "marker.h"
#include "read_file.h"
#include "refusal.h"

/* An angle past 90 or 180 degrees has no notation. Only an image of kind 2 that fails the grid check leads there. */
static void print_angle(bool longitude, int64_t nd) {
    uint64_t n[MARKER_NOTATION_LENGTH];
    if (marker_write_notation(longitude, nd, n) != MARKER_DONE) {
        printf("%" PRId64 " nd  ", nd);
        return;
    }
    uint64_t hundred_thousandths = n[MARKER_HUNDRED_THOUSANDTHS];
    printf("%" PRIu64 "° %" PRIu64 "′ %" PRIu64 ".%05" PRIu64 "″ %c  ", n[MARKER_DEGREES], n[MARKER_MINUTES], hundred_thousandths / 100000,
           hundred_thousandths % 100000, (char)n[MARKER_LETTER]);
}

/* Whether an answer of a list is one to an accepted fix, with a height or without one. */
static bool is_accepted(const int64_t answer[MARKER_ANSWER_LENGTH]) {
    return answer[MARKER_NUMBER] == MARKER_DONE || answer[MARKER_NUMBER] == MARKER_NO_HEIGHT;
}

/* The line of an answer to an accepted fix. */
static void print_answer(const int64_t answer[MARKER_ANSWER_LENGTH]) {
    print_angle(false, answer[MARKER_LATITUDE]);
    print_angle(true, answer[MARKER_LONGITUDE]);
    if (answer[MARKER_NUMBER] == MARKER_NO_HEIGHT) {
        printf("no NAP height");
    } else {
        printf("NAP %" PRId64 " units", answer[MARKER_HEIGHT]);
    }
    printf(", %" PRId64 " evaluations\n", answer[MARKER_COUNT]);
}

int main(int count, char **words) {
    if (count != 5) {
        fprintf(stderr, "usage: convert IMAGE LATITUDE LONGITUDE HEIGHT\n");
        return 2;
    }
    size_t size = 0;
    uint8_t *image = read_file(words[1], &size);
    if (image == NULL) {
        fprintf(stderr, "convert: cannot read %s\n", words[1]);
        return 2;
    }
    int64_t fix[MARKER_FIX_LENGTH] = {atoll(words[2]), atoll(words[3]), atoll(words[4])};
    int64_t answer[MARKER_ANSWER_LENGTH];
    int64_t number = marker_list_out(image, size, fix, MARKER_FIX_LENGTH, answer, MARKER_ANSWER_LENGTH);
    free(image);
    if (number != MARKER_DONE || !is_accepted(answer)) {
        print_refusal(number != MARKER_DONE ? number : answer[MARKER_NUMBER]);
        return 1;
    }
    print_answer(answer);
    return 0;
}
