/* Figures of our own for images of kind 2, which document 02 has none for, put to the built library. Expected values as the independent
 * reference computes them (tests/reference/tests/unbounded). Prints `ok NAME` or `FAILED NAME`. */
#include "asked.h"

/* Where the parts of the image begin. */
enum { HEIGHTS = 25 * 8, TRAILER = HEIGHTS + 12 * 4, LENGTH = TRAILER + 80 };

/* 5 rows and columns of corrections from (0, 0) to (4000, 4000), 5 in latitude and -4 in longitude for each step from the border; and
 * heights on a grid of 4 rows and 3 columns from (-400, 100) to (1700, 1900), 3 more for each row and 4 for each column. */
static void past_the_edge(struct image *image) {
    const int64_t steps[25] = {0, 0, 0, 0, 0, 0, 1, 1, 1, 0, 0, 1, 2, 1, 0, 0, 1, 1, 1, 0, 0, 0, 0, 0, 0};
    uint8_t *at = image->bytes;
    for (int node = 0; node < 25; node++) {
        at = put(put(at, 5 * steps[node], 4), -4 * steps[node], 4);
    }
    for (int node = 0; node < 12; node++) {
        at = put(at, 430000 + 3 * (node / 3) + 4 * (node % 3), 4);
    }
    at = put_geometry(at, (int64_t[]){0, 0}, (int64_t[]){1000, 1000}, (int64_t[]){5, 5});
    at = put_geometry(at, (int64_t[]){-400, 100}, (int64_t[]){700, 900}, (int64_t[]){4, 3});
    put(put(put(put(at, LENGTH, 4), LENGTH - HEIGHTS, 4), 2, 4), 2, 4);
    image->length = LENGTH;
}

/* The image with two numbers of 4 bytes put at places, the second one after the first. */
static void changed(struct image *image, size_t place, int64_t value, size_t other_place, int64_t other_value) {
    past_the_edge(image);
    put(image->bytes + place, value, 4);
    put(image->bytes + other_place, other_value, 4);
}

/* Is the fix accepted without a height, its point and count these? */
static bool gives_no_height(way *convert, const struct image *image, const int64_t fix[MARKER_FIX_LENGTH], const int64_t point[2],
                            int64_t count) {
    return answers(convert, image, fix,
                   (int64_t[]){SOUTH + point[MARKER_LATITUDE], WEST + point[MARKER_LONGITUDE], 0, count, MARKER_NO_HEIGHT});
}

static void figures_with_heights(const struct image *image) {
    tell("kind 2: back (1000, 1000)", gives(marker_list_back, image, (int64_t[]){1000, 1000, 10000}, (int64_t[]){1005, 996, 440010, 1}));
    tell("kind 2: out (1005, 996)", gives(marker_list_out, image, (int64_t[]){1005, 996, 440010}, (int64_t[]){1000, 1000, 10000, 2}));
    tell("kind 2: back (-1, 500), past the edge", gives(marker_list_back, image, (int64_t[]){-1, 500, 7}, (int64_t[]){-1, 500, 430010, 1}));
    tell("kind 2: out (-1, 500), past the edge", gives(marker_list_out, image, (int64_t[]){-1, 500, 430010}, (int64_t[]){-1, 500, 7, 1}));
    tell("kind 2: back (1700, 1900), the height grid's corner",
         gives(marker_list_back, image, (int64_t[]){1700, 1900, 0}, (int64_t[]){1708, 1893, 430017, 1}));
}

static void figures_without_heights(const struct image *image) {
    const struct {
        const char *name;
        way *convert;
        int64_t fix[MARKER_FIX_LENGTH], point[2], count;
    } figures[] = {
        {"kind 2: back (2000, 2000), off the height grid", marker_list_back, {2000, 2000, 10000}, {2010, 1992}, 1},
        {"kind 2: out (2010, 1992), off the height grid", marker_list_out, {2010, 1992, 10000}, {2000, 2000}, 2},
        {"kind 2: back (1701, 1900), 1 nd off it", marker_list_back, {1701, 1900, 0}, {1709, 1893}, 1},
        {"kind 2: out (5000, 0), past the edge", marker_list_out, {5000, 0, -5}, {5000, 0}, 1},
        {"kind 2: out at 90 and 180 degrees", marker_list_out, {38000000000, -185000000000, 5}, {38000000000, -185000000000}, 1},
        {"kind 2: back at 90 and 180 degrees", marker_list_back, {-142000000000, 175000000000, 5}, {-142000000000, 175000000000}, 1},
    };
    for (size_t i = 0; i < sizeof figures / sizeof *figures; i++) {
        tell(figures[i].name, gives_no_height(figures[i].convert, image, figures[i].fix, figures[i].point, figures[i].count));
    }
}

/* Questions 7, 9 and 11, and that 8 and 15 are those of kind 0. */
static void refusals_of_fixes(void) {
    struct image image;
    past_the_edge(&image);
    tell("kind 2: 1 nd past 90 degrees gives 7", refuses(marker_list_out, &image, (int64_t[]){38000000001, 0, 0}, 7));
    tell("kind 2: a height of 100,000,001 far away gives 7", refuses(marker_list_out, &image, (int64_t[]){5000, 0, 100000001}, 7));
    changed(&image, 0, 10000001, HEIGHTS, 1000001);
    tell("kind 2: back (0, 0), an unfit corner, gives 9", refuses(marker_list_back, &image, (int64_t[]){0, 0, 0}, 9));
    tell("kind 2: back (0, -1) beside it", gives_no_height(marker_list_back, &image, (int64_t[]){0, -1, 0}, (int64_t[]){0, -1}, 1));
    tell("kind 2: back (-400, 100), an unfit height, gives 9", refuses(marker_list_back, &image, (int64_t[]){-400, 100, 0}, 9));
    tell("kind 2: out (-400, 99) beside it", gives_no_height(marker_list_out, &image, (int64_t[]){-400, 99, 0}, (int64_t[]){-400, 99}, 1));
    changed(&image, 0, 5, 8, 5);
    tell("kind 2: out (0, 0) across a wrong border gives 11", refuses(marker_list_out, &image, (int64_t[]){0, 0, 0}, 11));
    changed(&image, LENGTH - 8, 0, LENGTH - 4, 2);
    tell("kind 2 said to be kind 0: back (-1, 500) gives 8", refuses(marker_list_back, &image, (int64_t[]){-1, 500, 0}, 8));
    tell("kind 2 said to be kind 0: back (2000, 2000) gives 15", refuses(marker_list_back, &image, (int64_t[]){2000, 2000, 0}, 15));
}

/* Is this the number of the check over the image so changed? */
static bool check_gives(size_t place, int64_t value, size_t other_place, int64_t other_value, int64_t number) {
    struct image image;
    changed(&image, place, value, other_place, other_value);
    return check_refuses(&image, number);
}

static void figures_of_the_check(void) {
    struct image image;
    past_the_edge(&image);
    tell("kind 2: passes with 5 5 4 4 3 4", passes(&image, (int64_t[]){5, 5, 4, 4, 3, 4}));
    tell("kind 2: the first corner of 1 nd gives 22", check_gives(0, 1, LENGTH - 4, 2, 22));
    tell("kind 2: the last corner of -1 nd gives 22", check_gives(HEIGHTS - 4, -1, LENGTH - 4, 2, 22));
    tell("kind 2: 1 nd in the eastern column gives 22", check_gives(8 * 14, 1, LENGTH - 4, 2, 22));
    tell("kind 2: 1 nd in the northern row gives 22", check_gives(8 * 22 + 4, 1, LENGTH - 4, 2, 22));
    tell("kind 2: 22 comes before 12", check_gives(0, 1, 8 * 12, 16, 22));
    tell("kind 2: steps of 11 inside give 12", check_gives(8 * 12, 16, LENGTH - 4, 2, 12));
    tell("kind 2: 9 for a height comes before 22", check_gives(0, 1, HEIGHTS, 1000001, 9));
    changed(&image, 0, 1, LENGTH - 8, 0);
    tell("kind 2 said to be kind 0: such a corner passes", passes(&image, (int64_t[]){5, 5, 4, 4, 3, 4}));
}

int main(void) {
    struct image image;
    past_the_edge(&image);
    figures_with_heights(&image);
    figures_without_heights(&image);
    refusals_of_fixes();
    figures_of_the_check();
    return failures == 0 ? 0 : 1;
}
