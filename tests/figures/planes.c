/* Figures of our own for images of kind 3 and for the conversions of kind 0 into it and back, which document 02 has none for, put to the
 * built library. Expected values as the independent reference computes them (tests/reference/tests/planes). Prints `ok NAME` or
 * `FAILED NAME`. */
#include "asked.h"

/* Where the parts of the image begin. */
enum { LONGITUDES = 12 * 4, HEIGHTS = 12 * 8, TRAILER = HEIGHTS + 12 * 4, LENGTH = TRAILER + 80 };

typedef int64_t conversion(const uint8_t *, size_t, uint8_t *, size_t);

static int64_t latitude_correction(int node) {
    return 100 + 4 * (node / 4) + 2 * (node % 4);
}

static int64_t longitude_correction(int node) {
    return -50 + 6 * (node % 4);
}

/* What follows the corrections: heights on a grid of 4 rows and 3 columns from (-400, 100) to (1700, 1900), 3 more for each row and 4 for
 * each column, and the trailer. The corrections stand on 3 rows and 4 columns from (0, 0) to (2000, 3000). */
static void put_rest(struct image *image, int64_t kind) {
    uint8_t *at = image->bytes + HEIGHTS;
    for (int node = 0; node < 12; node++) {
        at = put(at, 430000 + 3 * (node / 3) + 4 * (node % 3), 4);
    }
    at = put_geometry(at, (int64_t[]){0, 0}, (int64_t[]){1000, 1000}, (int64_t[]){3, 4});
    at = put_geometry(at, (int64_t[]){-400, 100}, (int64_t[]){700, 900}, (int64_t[]){4, 3});
    put(put(put(put(at, LENGTH, 4), LENGTH - HEIGHTS, 4), kind, 4), 2, 4);
    image->length = LENGTH;
}

static void in_nodes(struct image *image) {
    for (int node = 0; node < 12; node++) {
        put(put(image->bytes + 8 * node, latitude_correction(node), 4), longitude_correction(node), 4);
    }
    put_rest(image, 0);
}

static void in_planes(struct image *image) {
    for (int node = 0; node < 12; node++) {
        put(image->bytes + 4 * node, latitude_correction(node), 4);
        put(image->bytes + LONGITUDES + 4 * node, longitude_correction(node), 4);
    }
    put_rest(image, 3);
}

/* Puts some bytes before the image. */
static void move_behind(struct image *image, size_t bytes) {
    memmove(image->bytes + bytes, image->bytes, image->length);
    memset(image->bytes, 0x5A, bytes);
    image->length += bytes;
}

/* Does the conversion give just this image, the given one unchanged? */
static bool becomes(conversion *convert, const struct image *image, const struct image *wanted) {
    struct image before = *image, converted = {.length = wanted->length};
    return convert(image->bytes, image->length, converted.bytes, converted.length) == MARKER_DONE &&
           memcmp(converted.bytes, wanted->bytes, wanted->length) == 0 && memcmp(before.bytes, image->bytes, image->length) == 0;
}

/* Does it give this number for a buffer of so many bytes, which is then unchanged as the image is? */
static bool conversion_refused(conversion *convert, const struct image *image, size_t room, int64_t number) {
    struct image before = *image;
    uint8_t buffer[512], filled[512];
    memset(buffer, 0xA5, sizeof buffer);
    memset(filled, 0xA5, sizeof filled);
    return convert(image->bytes, image->length, buffer, room) == number && memcmp(buffer, filled, sizeof buffer) == 0 &&
           memcmp(before.bytes, image->bytes, image->length) == 0;
}

/* The same for the image of kind 0 with a number of 4 bytes put at a place, and its whole length. */
static bool changed_refused(size_t place, int64_t value, int64_t number) {
    struct image image;
    in_nodes(&image);
    put(image.bytes + place, value, 4);
    return conversion_refused(marker_planes_from_nodes, &image, LENGTH, number);
}

/* The figures of an image of either kind, by its name. */
static void figures_over(const char *name, const struct image *image) {
    bool back = gives(marker_list_back, image, (int64_t[]){500, 250, 0}, (int64_t[]){603, 202, 430005, 1});
    bool out = gives(marker_list_out, image, (int64_t[]){603, 202, 430005}, (int64_t[]){500, 250, 0, 2});
    bool corner = gives(marker_list_back, image, (int64_t[]){1700, 1900, 0}, (int64_t[]){1811, 1861, 430017, 1});
    bool outside = refuses(marker_list_back, image, (int64_t[]){500, 3001, 0}, 8);
    bool off = refuses(marker_list_back, image, (int64_t[]){500, 3000, 0}, 15);
    bool passed = passes(image, (int64_t[]){4, 2, 0, 6, 3, 4});
    const struct {
        const char *figure;
        bool right;
    } figures[] = {
        {"back (500, 250)", back},
        {"out (603, 202)", out},
        {"back (1700, 1900), the height grid's corner", corner},
        {"back (500, 3001) gives 8", outside},
        {"back (500, 3000) gives 15", off},
        {"passes with 4 2 0 6 3 4", passed},
    };
    for (size_t i = 0; i < sizeof figures / sizeof *figures; i++) {
        char words[80];
        snprintf(words, sizeof words, "%s: %s", name, figures[i].figure);
        tell(words, figures[i].right);
    }
}

static void figures_of_kind_3(void) {
    struct image image;
    in_planes(&image);
    figures_over("kind 3", &image);
    put(image.bytes + HEIGHTS - 4, 10000001, 4);
    tell("kind 3: the last longitude correction of 10,000,001 gives 9", check_refuses(&image, 9));
    in_planes(&image);
    put(image.bytes + LONGITUDES - 4, -10000001, 4);
    tell("kind 3: the last latitude correction of -10,000,001 gives 9", check_refuses(&image, 9));
    in_nodes(&image);
    put(image.bytes + LENGTH - 8, 3, 4);
    tell("kind 0 said to be kind 3 gives 12", check_refuses(&image, 12));
}

static void figures_of_conversions(void) {
    struct image nodes, planes, moved, converted = {.length = LENGTH};
    in_nodes(&nodes);
    in_planes(&planes);
    tell("kind 0 becomes kind 3, byte for byte", becomes(marker_planes_from_nodes, &nodes, &planes));
    tell("kind 3 becomes kind 0, byte for byte", becomes(marker_nodes_from_planes, &planes, &nodes));
    in_nodes(&moved);
    move_behind(&moved, 7);
    tell("kind 0 behind 7 bytes becomes kind 3", becomes(marker_planes_from_nodes, &moved, &planes));
    in_planes(&moved);
    move_behind(&moved, 1);
    tell("kind 3 behind a byte becomes kind 0", becomes(marker_nodes_from_planes, &moved, &nodes));
    marker_planes_from_nodes(nodes.bytes, LENGTH, converted.bytes, LENGTH);
    figures_over("kind 3 from kind 0", &converted);
    marker_nodes_from_planes(planes.bytes, LENGTH, converted.bytes, LENGTH);
    figures_over("kind 0 from kind 3", &converted);
    put(nodes.bytes, INT32_MIN, 4);
    put(planes.bytes, INT32_MIN, 4);
    tell("a correction past its limit is converted too", becomes(marker_planes_from_nodes, &nodes, &planes));
}

static void refusals_of_conversions(void) {
    struct image nodes, planes;
    in_nodes(&nodes);
    in_planes(&planes);
    tell("kind 3 into kind 3 gives 2, before 14", conversion_refused(marker_planes_from_nodes, &planes, LENGTH - 1, 2));
    tell("kind 0 into kind 0 gives 2, before 14", conversion_refused(marker_nodes_from_planes, &nodes, 0, 2));
    tell("kind 2 into kind 3 gives 2", changed_refused(LENGTH - 8, 2, 2));
    tell("kind 4 into kind 3 gives 2", changed_refused(LENGTH - 8, 4, 2));
    tell("edition 3 into kind 3 gives 2", changed_refused(LENGTH - 4, 3, 2));
    tell("one row of corrections gives 3", changed_refused(TRAILER + 24, 1, 3));
    tell("another back to the heights gives 6", changed_refused(LENGTH - 12, LENGTH - HEIGHTS + 4, 6));
    tell("a buffer of a byte less gives 14", conversion_refused(marker_planes_from_nodes, &nodes, LENGTH - 1, 14));
    tell("a buffer of a byte more gives 14", conversion_refused(marker_planes_from_nodes, &nodes, LENGTH + 1, 14));
    tell("kind 3, a buffer of a byte less gives 14", conversion_refused(marker_nodes_from_planes, &planes, LENGTH - 1, 14));
    tell("kind 3, a buffer of a byte more gives 14", conversion_refused(marker_nodes_from_planes, &planes, LENGTH + 1, 14));
    move_behind(&nodes, 7);
    tell("a buffer longer by the 7 bytes before the first node gives 14",
         conversion_refused(marker_planes_from_nodes, &nodes, LENGTH + 7, 14));
    memmove(planes.bytes, planes.bytes + LENGTH - 79, 79);
    planes.length = 79;
    tell("79 bytes of kind 3 give 1", conversion_refused(marker_nodes_from_planes, &planes, LENGTH, 1));
}

int main(void) {
    figures_of_kind_3();
    figures_of_conversions();
    refusals_of_conversions();
    return failures == 0 ? 0 : 1;
}
