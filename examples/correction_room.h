/* The rooms that the nodes of an NTv2 file take, those of its first grid and those of its subgrid, for the examples. */
#ifndef CORRECTION_ROOM_H
#define CORRECTION_ROOM_H

#include <stddef.h>
#include <stdint.h>

#include "marker.h"
#include "node_room.h"

/* The bytes of the correction nodes, and those of the dense nodes: 0 without a subgrid. */
struct correction_room {
    size_t nodes, dense;
};

/* Where the value of NUM_FILE stands in a file, and that of the first grid's GS_COUNT. */
enum { GRID_COUNT_PLACE = 32 + 8, NODE_COUNT_PLACE = MARKER_NTV2_OVERVIEW_LENGTH + 160 + 8 };

/* A count of an NTv2 file. One below zero becomes very large here. */
static size_t ntv2_count(const uint8_t *at) {
    return (size_t)at[0] | (size_t)at[1] << 8 | (size_t)at[2] << 16 | (size_t)at[3] << 24;
}

/* The conversion wants room for just the nodes of each grid. How many nodes a file has follows from its length and the number of its grids;
 * where that is 2, the first grid has as many of them as it says, and the subgrid the others. So a file of any bytes gets rooms that are no
 * larger than itself. One that is not as it should be is refused whatever the rooms. */
static struct correction_room correction_room(const uint8_t *file, size_t size) {
    const size_t beside_nodes = MARKER_NTV2_OVERVIEW_LENGTH + MARKER_NTV2_HEADER_LENGTH + MARKER_NTV2_END_LENGTH;
    if (size < beside_nodes || ntv2_count(file + GRID_COUNT_PLACE) != 2) {
        return (struct correction_room){node_room(size, beside_nodes, MARKER_NTV2_NODE_LENGTH, MARKER_CORRECTION_NODE_LENGTH), 0};
    }
    size_t both = node_room(size, beside_nodes + MARKER_NTV2_HEADER_LENGTH, MARKER_NTV2_NODE_LENGTH, MARKER_CORRECTION_NODE_LENGTH);
    size_t first = ntv2_count(file + NODE_COUNT_PLACE) * MARKER_CORRECTION_NODE_LENGTH;
    size_t nodes = first < both ? first : both;
    return (struct correction_room){nodes, both - nodes};
}

#endif
