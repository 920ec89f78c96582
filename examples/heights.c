/* Converts a VDatum .gtx file into the height nodes of an image of edition 2: writes the nodes to a file and prints the grid's geometry
 * in one line.
 *
 *   heights FILE.gtx NODES
 *
 * Exits with 0 for nodes written, 1 for a refusal, which writes nothing, 2 if a file cannot be read or written.
 */
#include <inttypes.h>
#include <stdio.h>
#include <stdlib.h>

#include "marker.h"
#include "node_room.h"
#include "read_file.h"
#include "refusal.h"
#include "write_file.h"

/* An angle in degrees with all its nine decimals. Only the size is divided, since -0.5 degrees has the whole part 0. */
static void print_degrees(int64_t nd) {
    int64_t size = nd < 0 ? -nd : nd;
    printf("%s%" PRId64 ".%09" PRId64, nd < 0 ? "-" : "", size / 1000000000, size % 1000000000);
}

static void print_geometry(const int64_t geometry[MARKER_GEOMETRY_LENGTH]) {
    int64_t rows = geometry[MARKER_ROWS], columns = geometry[MARKER_COLUMNS];
    print_degrees(geometry[MARKER_SOUTH]);
    printf(" ");
    print_degrees(geometry[MARKER_WEST]);
    printf(" degrees, spacings ");
    print_degrees(geometry[MARKER_LATITUDE_SPACING]);
    printf(" and ");
    print_degrees(geometry[MARKER_LONGITUDE_SPACING]);
    printf(", %" PRId64 " rows of %" PRId64 " columns: %" PRId64 " heights\n", rows, columns, rows * columns);
}

/* Converts the bytes of a .gtx file into the room lent, writes the nodes to the file of that name, and gives the status to exit with. */
static int convert(const uint8_t *file, size_t size, uint8_t *nodes, size_t room, const char *name) {
    int64_t geometry[MARKER_GEOMETRY_LENGTH];
    int64_t number = marker_heights_from_vdatum(file, size, nodes, room, geometry);
    if (number != MARKER_DONE) {
        print_refusal(number);
        return 1;
    }
    if (!write_file(name, nodes, room)) {
        fprintf(stderr, "heights: cannot write %s\n", name);
        return 2;
    }
    print_geometry(geometry);
    return 0;
}

int main(int count, char **words) {
    if (count != 3) {
        fprintf(stderr, "usage: heights FILE.gtx NODES\n");
        return 2;
    }
    size_t size = 0;
    uint8_t *file = read_file(words[1], &size);
    if (file == NULL) {
        fprintf(stderr, "heights: cannot read %s\n", words[1]);
        return 2;
    }
    size_t room = node_room(size, MARKER_VDATUM_HEADER_LENGTH, MARKER_VDATUM_NODE_LENGTH, MARKER_HEIGHT_NODE_LENGTH);
    uint8_t *nodes = malloc(room + 1); /* not 0, for which malloc may give NULL */
    int status = 2;
    if (nodes == NULL) {
        fprintf(stderr, "heights: no memory for %zu bytes\n", room);
    } else {
        status = convert(file, size, nodes, room, words[2]);
    }
    free(nodes);
    free(file);
    return status;
}
