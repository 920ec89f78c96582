/* Makes an image of edition 2 of an NTv2 .gsb file, which has the corrections, and a VDatum .gtx file, which has the heights: of kind 1 if
 * the NTv2 file has a subgrid, which becomes the dense grid, and else of kind 0. Puts the grid check to the image, writes it if it passes
 * and prints the line of the program gridcheck. After a refusal prints what its number means and which of the two files, or the image, is
 * refused. It makes no image of kind 2: the corrections of that are 0 on the border, and how those of a file become so is not for the file
 * to say.
 *
 *   image FILE.gsb FILE.gtx IMAGE
 *
 * Exits with 0 for an image written, 1 for a refusal, which writes nothing, 2 if a file cannot be read or written.
 */
#include <stdbool.h>
#include <stdint.h>
#include <stdio.h>
#include <stdlib.h>

#include "correction_room.h"
#include "findings.h"
#include "marker.h"
#include "node_room.h"
#include "read_file.h"
#include "refusal.h"
#include "write_file.h"

enum { KIND_WITHOUT_DENSE = 0, KIND_WITH_DENSE = 1, EDITION = 2 };

/* A file read whole. */
struct file {
    const char *name;
    uint8_t *bytes;
    size_t size;
};

/* The nodes of a grid, at their place in the image. */
struct nodes {
    uint8_t *bytes;
    size_t size;
};

/* An image: its bytes, its grids in their order, and what the conversions hand back. Without a subgrid there are no dense nodes, and no
 * dense trailer after them. */
struct image {
    uint8_t *bytes;
    size_t size;
    struct nodes dense, corrections, heights;
    int64_t geometries[MARKER_GEOMETRIES_LENGTH]; /* of the correction grid and of the dense grid */
    int64_t height_geometry[MARKER_GEOMETRY_LENGTH];
};

/* Prints a refusal, and what was refused. */
static void print_refusal_of(const char *what, const char *name, int64_t number) {
    print_refusal(number);
    printf("%s: %s\n", what, name);
}

/* Whether the conversion of a file gave 0; prints any other number. */
static bool is_converted(const struct file *file, int64_t number) {
    if (number != MARKER_DONE) {
        print_refusal_of("Refused file", file->name, number);
    }
    return number == MARKER_DONE;
}

/* Converts the NTv2 file. Whether it is not refused. */
static bool convert_corrections(const struct file *gsb, struct image *image) {
    const struct nodes *corrections = &image->corrections, *dense = &image->dense;
    return is_converted(gsb, marker_corrections_from_ntv2(gsb->bytes, gsb->size, corrections->bytes, corrections->size, dense->bytes,
                                                          dense->size, image->geometries));
}

/* The same for the VDatum file. */
static bool convert_heights(const struct file *gtx, struct image *image) {
    const struct nodes *heights = &image->heights;
    return is_converted(gtx, marker_heights_from_vdatum(gtx->bytes, gtx->size, heights->bytes, heights->size, image->height_geometry));
}

/* Puts a number of so many bytes, the lowest first, and gives the place after it. */
static uint8_t *put(uint8_t *at, int64_t number, int length) {
    for (int i = 0; i < length; i++) {
        at[i] = (uint8_t)((uint64_t)number >> (8 * i));
    }
    return at + length;
}

/* The same for a geometry: both bounds in 8 bytes, spacings, rows and columns in 4. */
static uint8_t *put_geometry(uint8_t *at, const int64_t geometry[MARKER_GEOMETRY_LENGTH]) {
    for (int i = 0; i < MARKER_GEOMETRY_LENGTH; i++) {
        at = put(at, geometry[i], i < MARKER_LATITUDE_SPACING ? 8 : 4);
    }
    return at;
}

/* The same for a back: the distance from the image's end to the first of these nodes. */
static uint8_t *put_back(uint8_t *at, const struct image *image, const struct nodes *nodes) {
    return put(at, image->bytes + image->size - nodes->bytes, 4);
}

/* Puts the dense trailer, if there is a dense grid, and the trailer behind their nodes. */
static void put_trailers(struct image *image) {
    bool is_dense = image->dense.size != 0;
    if (is_dense) {
        uint8_t *at = put_geometry(image->dense.bytes + image->dense.size, image->geometries + MARKER_DENSE_GEOMETRY);
        put_back(at, image, &image->dense);
    }
    uint8_t *at = put_geometry(image->heights.bytes + image->heights.size, image->geometries);
    at = put_geometry(at, image->height_geometry);
    at = put_back(at, image, &image->corrections);
    at = put_back(at, image, &image->heights);
    at = put(at, is_dense ? KIND_WITH_DENSE : KIND_WITHOUT_DENSE, 4);
    put(at, EDITION, 4);
}

/* Checks an image, writes it to the file of that name, and gives the status to exit with. */
static int check_and_write(const struct image *image, const char *name) {
    int64_t findings[MARKER_FINDINGS_LENGTH];
    int64_t number = marker_grid_check(image->bytes, image->size, findings);
    if (number != MARKER_DONE) {
        print_refusal_of("Refused image, not written", name, number);
        return 1;
    }
    if (!write_file(name, image->bytes, image->size)) {
        fprintf(stderr, "image: cannot write %s\n", name);
        return 2;
    }
    print_findings(findings);
    return 0;
}

/* Takes the memory of an image with room for the nodes of both files, and finds the place of each grid's nodes. Whether there is memory. */
static bool take_memory(struct image *image, const struct file *gsb, const struct file *gtx) {
    struct correction_room room = correction_room(gsb->bytes, gsb->size);
    image->dense.size = room.dense;
    image->corrections.size = room.nodes;
    image->heights.size = node_room(gtx->size, MARKER_VDATUM_HEADER_LENGTH, MARKER_VDATUM_NODE_LENGTH, MARKER_HEIGHT_NODE_LENGTH);
    size_t dense_size = room.dense == 0 ? 0 : room.dense + MARKER_DENSE_TRAILER_LENGTH;
    image->size = dense_size + image->corrections.size + image->heights.size + MARKER_TWO_GRID_TRAILER_LENGTH;
    image->bytes = malloc(image->size);
    if (image->bytes == NULL) {
        fprintf(stderr, "image: no memory for %zu bytes\n", image->size);
        return false;
    }
    image->dense.bytes = image->bytes;
    image->corrections.bytes = image->bytes + dense_size;
    image->heights.bytes = image->corrections.bytes + image->corrections.size;
    return true;
}

/* Makes the image of two files and gives the status to exit with. Each file is converted to its nodes' place in the image. */
static int make_image(const struct file *gsb, const struct file *gtx, const char *name) {
    struct image image;
    if (!take_memory(&image, gsb, gtx)) {
        return 2;
    }
    int status = 1;
    if (convert_corrections(gsb, &image) && convert_heights(gtx, &image)) {
        put_trailers(&image);
        status = check_and_write(&image, name);
    }
    free(image.bytes);
    return status;
}

/* Reads a file whole. Whether it can be read. */
static bool read_whole(struct file *file) {
    file->bytes = read_file(file->name, &file->size);
    if (file->bytes == NULL) {
        fprintf(stderr, "image: cannot read %s\n", file->name);
    }
    return file->bytes != NULL;
}

int main(int count, char **words) {
    if (count != 4) {
        fprintf(stderr, "usage: image FILE.gsb FILE.gtx IMAGE\n");
        return 2;
    }
    struct file gsb = {.name = words[1]}, gtx = {.name = words[2]};
    int status = 2;
    if (read_whole(&gsb) && read_whole(&gtx)) {
        status = make_image(&gsb, &gtx, words[3]);
    }
    free(gsb.bytes);
    free(gtx.bytes);
    return status;
}
