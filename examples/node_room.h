/* The room that the nodes of a grid's file take, for the examples. */
#ifndef NODE_ROOM_H
#define NODE_ROOM_H

#include <stddef.h>

/* A conversion wants room for just the nodes that the file has. How many that are follows from the file's length: so many bytes beside
 * the nodes, and so many for each of them, which becomes a node of `node_length` bytes. A file of any other length is refused whatever the
 * room. */
static size_t node_room(size_t file_size, size_t beside_nodes, size_t file_node_length, size_t node_length) {
    return file_size < beside_nodes ? 0 : (file_size - beside_nodes) / file_node_length * node_length;
}

#endif
