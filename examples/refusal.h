/* Printing a refusal with what its number means, for the examples. */
#ifndef REFUSAL_H
#define REFUSAL_H

#include <inttypes.h>
#include <stdio.h>

#include "marker.h"

/* The meaning of a number, as a sentence. */
static const char *meaning(enum marker_number number) {
    switch (number) {
    case MARKER_DONE: return "Nothing is refused.";
    case MARKER_REFUSED_IMAGE_LENGTH: return "The image is too short for its trailer, or for that of its dense grid.";
    case MARKER_REFUSED_EDITION: return "The image is of an edition or a kind that this code does not know, or that is not converted.";
    case MARKER_REFUSED_NODE_COUNT: return "The image has too few or too many rows or columns.";
    case MARKER_REFUSED_SPACING: return "A spacing of the image is zero or too large.";
    case MARKER_REFUSED_GRID_BOUNDS: return "A bound of the image is no latitude or longitude.";
    case MARKER_REFUSED_NODE_BYTES: return "The image's back does not fit its rows and columns, or its length.";
    case MARKER_REFUSED_FIX_LIMITS: return "The fix is no latitude and longitude, or its height is past the limit.";
    case MARKER_REFUSED_OUTSIDE_BOUNDS: return "The fix lies outside the bounds of the corrections.";
    case MARKER_REFUSED_NODE_LIMITS: return "A node has a correction or a height past its limit.";
    case MARKER_REFUSED_ITERATE_OUTSIDE: return "The way out left the bounds of the corrections.";
    case MARKER_REFUSED_NOT_SETTLED: return "The way out has not settled after five evaluations.";
    case MARKER_REFUSED_SLOPE: return "The steps between neighbours are too large for the spacings.";
    case MARKER_REFUSED_BAD_NOTATION: return "The notation is no latitude or longitude.";
    case MARKER_REFUSED_LIST_LENGTHS: return "The lengths of fixes and answers do not fit each other, or a buffer has not the right one.";
    case MARKER_REFUSED_OFF_HEIGHT_GRID: return "The Bessel point lies off the height grid.";
    case MARKER_REFUSED_VDATUM_FILE: return "The VDatum file's header is no grid's, or the file or the buffer is not of its length.";
    case MARKER_REFUSED_VDATUM_HEIGHT: return "A height of the VDatum file is not finite or past its limit.";
    case MARKER_REFUSED_NTV2_FILE: return "The NTv2 file's labels, counts, parents or grids are not right, or a length is not exact.";
    case MARKER_REFUSED_NTV2_SHIFT: return "A shift of the NTv2 file is not finite or past its limit.";
    case MARKER_REFUSED_DENSE_ALIGNMENT: return "The dense grid is not aligned with the correction grid, or reaches outside it.";
    case MARKER_REFUSED_DENSE_BORDER: return "The border of the dense grid differs from the correction grid.";
    case MARKER_REFUSED_BORDER_CORRECTION: return "A correction on the border of the correction grid is not zero.";
    case MARKER_NO_HEIGHT: return "Nothing is refused: the fix is accepted, and has no height.";
    }
    return "This is no number of document 01.";
}

/* Two lines: `refused` with the number, and what it means. */
static void print_refusal(int64_t number) {
    printf("refused %" PRId64 "\n%s\n", number, meaning((enum marker_number)number));
}

#endif
