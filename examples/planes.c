/* Converts an image of edition 2 and kind 0 into one of kind 3, all latitude corrections before all longitude corrections, or one of kind 3
 * into kind 0, and writes it to a file: from its first node to its end.
 *
 *   planes IMAGE CONVERTED
 *
 * Exits with 0 for an image written, 1 for a refusal, which writes nothing, 2 if a file cannot be read or written.
 */
#include <stdint.h>
#include <stdio.h>
#include <stdlib.h>

#include "marker.h"
#include "read_file.h"
#include "refusal.h"
#include "write_file.h"

/* The number of four bytes that stands so far before an image's end, or 0 where the image is shorter. */
static uint32_t number_before_end(const uint8_t *image, size_t size, size_t before) {
    if (size < before) {
        return 0;
    }
    const uint8_t *at = image + (size - before);
    return at[0] | (uint32_t)at[1] << 8 | (uint32_t)at[2] << 16 | (uint32_t)at[3] << 24;
}

/* The room for the converted image: the back to the first correction node, 16 bytes before the end, but no more than the image has.
 * Where that is not the right room, the conversion refuses the image or the buffer. */
static size_t room_for(const uint8_t *image, size_t size) {
    size_t back = number_before_end(image, size, 16);
    return back < size ? back : size;
}

/* Converts the bytes of an image into the room lent, by its kind, 8 bytes before the end; writes what is converted to the file of that
 * name, and gives the status to exit with. */
static int convert(const uint8_t *image, size_t size, uint8_t *buffer, size_t room, const char *name) {
    bool in_planes = number_before_end(image, size, 8) == 3;
    int64_t number = (in_planes ? marker_nodes_from_planes : marker_planes_from_nodes)(image, size, buffer, room);
    if (number != MARKER_DONE) {
        print_refusal(number);
        return 1;
    }
    if (!write_file(name, buffer, room)) {
        fprintf(stderr, "planes: cannot write %s\n", name);
        return 2;
    }
    printf("kind %d, %zu bytes\n", in_planes ? 0 : 3, room);
    return 0;
}

int main(int count, char **words) {
    if (count != 3) {
        fprintf(stderr, "usage: planes IMAGE CONVERTED\n");
        return 2;
    }
    size_t size = 0;
    uint8_t *image = read_file(words[1], &size);
    if (image == NULL) {
        fprintf(stderr, "planes: cannot read %s\n", words[1]);
        return 2;
    }
    size_t room = room_for(image, size);
    uint8_t *buffer = malloc(room + 1); /* not 0, for which malloc may give NULL */
    int status = 2;
    if (buffer == NULL) {
        fprintf(stderr, "planes: no memory for %zu bytes\n", room);
    } else {
        status = convert(image, size, buffer, room, words[2]);
    }
    free(buffer);
    free(image);
    return status;
}
