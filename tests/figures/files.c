/* Figures of our own for VDatum files and NTv2 files, which document 02 has none for, put to the built library: what a file becomes, and 16
 * to 19, after which the buffers and the geometry are as before. Prints `ok NAME` or `FAILED NAME`. */
#include <inttypes.h>
#include <string.h>

#include "marker.h"
#include "told.h"

#define SOUTH INT64_C(52000000000)
#define WEST INT64_C(5000000000)

/* A grid of 2 rows and 3 columns, and a subgrid of 5 rows and 2 columns: the lengths of their nodes, where each part of an NTv2 file
 * begins, and the lengths of a VDatum file and of NTv2 files with one grid and with both. */
enum {
    NODES = 6,
    HEIGHTS_LENGTH = NODES * MARKER_HEIGHT_NODE_LENGTH,
    VDATUM_LENGTH = MARKER_VDATUM_HEADER_LENGTH + NODES * MARKER_VDATUM_NODE_LENGTH,
    CORRECTIONS_LENGTH = NODES * MARKER_CORRECTION_NODE_LENGTH,
    DENSE_NODES = 10,
    DENSE_LENGTH = DENSE_NODES * MARKER_CORRECTION_NODE_LENGTH,
    GRID = MARKER_NTV2_OVERVIEW_LENGTH,
    GRID_NODES = GRID + MARKER_NTV2_HEADER_LENGTH,
    SUBGRID = GRID_NODES + NODES * MARKER_NTV2_NODE_LENGTH,
    SUBGRID_NODES = SUBGRID + MARKER_NTV2_HEADER_LENGTH,
    ONE_GRID_LENGTH = SUBGRID + MARKER_NTV2_END_LENGTH,
    TWO_GRIDS_LENGTH = SUBGRID_NODES + DENSE_NODES * MARKER_NTV2_NODE_LENGTH + MARKER_NTV2_END_LENGTH
};

typedef int64_t conversion(const uint8_t *, size_t, uint8_t *, size_t, uint8_t *, size_t, int64_t *);
typedef uint8_t *writer(uint8_t *, int64_t, int);

/* A file with its conversion and how its numbers are written, the length of what is lent, and one byte more for a length that is wrong. */
struct file {
    conversion *convert;
    writer *put;
    size_t length, nodes_length, dense_length, geometry_length;
    uint8_t bytes[TWO_GRIDS_LENGTH + 1];
};

/* What a conversion is lent, both buffers with a byte more likewise. */
struct lent {
    int64_t geometry[MARKER_GEOMETRIES_LENGTH];
    uint8_t nodes[CORRECTIONS_LENGTH + 1], dense[DENSE_LENGTH + 1];
};

/* The conversion of a VDatum file, which has no second buffer. */
static int64_t convert_vdatum(const uint8_t *file, size_t file_length, uint8_t *nodes, size_t nodes_length, uint8_t *dense,
                              size_t dense_length, int64_t *geometry) {
    (void)dense;
    (void)dense_length;
    return marker_heights_from_vdatum(file, file_length, nodes, nodes_length, geometry);
}

/* A number of so many bytes, the highest first. */
static uint8_t *put_high_first(uint8_t *at, int64_t value, int bytes) {
    for (int i = bytes - 1; i >= 0; i--) {
        *at++ = (uint8_t)((uint64_t)value >> (8 * i));
    }
    return at;
}

/* Is this the number of a file, and does its conversion leave this of what it is lent? */
static bool leaves(const struct file *file, int64_t number, const struct lent *wanted) {
    struct lent lent;
    memset(&lent, 0xA5, sizeof lent);
    return file->convert(file->bytes, file->length, lent.nodes, file->nodes_length, lent.dense, file->dense_length, lent.geometry) ==
               number &&
           memcmp(&lent, wanted, sizeof lent) == 0;
}

/* Is this what the file becomes, its nodes by their numbers of 4 bytes? */
static bool converts(const struct file *file, const int64_t nodes[], const int64_t dense[], const int64_t geometry[]) {
    struct lent wanted;
    memset(&wanted, 0xA5, sizeof wanted);
    for (size_t i = 0; i < file->nodes_length / 4; i++) {
        put(wanted.nodes + 4 * i, nodes[i], 4);
    }
    for (size_t i = 0; i < file->dense_length / 4; i++) {
        put(wanted.dense + 4 * i, dense[i], 4);
    }
    memcpy(wanted.geometry, geometry, file->geometry_length * sizeof *geometry);
    return leaves(file, MARKER_DONE, &wanted);
}

/* Is this the number of a file, and are buffers and geometry as they were? */
static bool refused(const struct file *file, int64_t number) {
    struct lent before;
    memset(&before, 0xA5, sizeof before);
    return leaves(file, number, &before);
}

/* The same for the file with another number at a place. */
static bool changed_refused(const struct file *file, size_t place, uint64_t value, int bytes, int64_t number) {
    struct file changed = *file;
    changed.put(changed.bytes + place, (int64_t)value, bytes);
    return refused(&changed, number);
}

/* And with other lengths of file and buffers. */
static bool lengths_refused(const struct file *file, const size_t lengths[3], int64_t number) {
    struct file changed = *file;
    changed.length = lengths[0];
    changed.nodes_length = lengths[1];
    changed.dense_length = lengths[2];
    return refused(&changed, number);
}

/* Does this refusal follow a byte too few or too many in file and buffer, and a file of so few bytes? */
static void refusals_of_lengths(const char *format, const struct file *file, size_t few, int64_t number) {
    const size_t length = file->length, nodes = file->nodes_length, dense = file->dense_length;
    const struct {
        const char *name;
        size_t lengths[3];
    } cases[] = {
        {"a file too short for its header", {few, nodes, dense}},
        {"a file one byte shorter", {length - 1, nodes, dense}},
        {"a file one byte longer", {length + 1, nodes, dense}},
        {"a buffer one byte shorter", {length, nodes - 1, dense}},
        {"a buffer one byte longer", {length, nodes + 1, dense}},
    };
    for (size_t i = 0; i < sizeof cases / sizeof *cases; i++) {
        char name[100];
        snprintf(name, sizeof name, "%s: %s gives %" PRId64, format, cases[i].name, number);
        tell(name, lengths_refused(file, cases[i].lengths, number));
    }
}

/* From 52 and 5 degrees, spacings 0.01 and 0.0125 degrees; heights of 43 m, 43.1234 m, 1/32 m, -1/32 m, -0 m and the last float that rounds
 * to -100 m. */
static struct file vdatum(void) {
    const uint64_t angles[] = {0x404A000000000000, 0x4014000000000000, 0x3F847AE147AE147B, 0x3F8999999999999A};
    const uint32_t heights[NODES] = {0x422C0000, 0x422C7E5D, 0x3D000000, 0xBD000000, 0x80000000, 0xC2C80006};
    struct file file = {convert_vdatum, put_high_first, VDATUM_LENGTH, HEIGHTS_LENGTH, 0, MARKER_GEOMETRY_LENGTH, {0}};
    uint8_t *at = file.bytes;
    for (int i = 0; i < 4; i++) {
        at = put_high_first(at, (int64_t)angles[i], 8);
    }
    at = put_high_first(put_high_first(at, 2, 4), 3, 4);
    for (int i = 0; i < NODES; i++) {
        at = put_high_first(at, heights[i], 4);
    }
    return file;
}

static void figures_of_vdatum(void) {
    struct file file = vdatum();
    tell("VDatum: 43, 43.1234, 1/32, -1/32, -0 and -100.00004577 m give 430000 431234 313 -312 0 -1000000",
         converts(&file, (int64_t[]){430000, 431234, 313, -312, 0, -1000000}, NULL, (int64_t[]){SOUTH, WEST, 10000000, 12500000, 2, 3}));
    put_high_first(put_high_first(file.bytes, (int64_t)0xBF50000000000000, 8), 0x3F50000000000000, 8);
    put_high_first(put_high_first(file.bytes + 40, 1, 4), 0x42C80006, 4);
    tell("VDatum: from -1/1024 and 1/1024 degrees, -976562 and 976563; a subnormal height is 0, 100.00004577 m 1000000",
         converts(&file, (int64_t[]){0, 1000000, 313, -312, 0, -1000000}, NULL, (int64_t[]){-976562, 976563, 10000000, 12500000, 2, 3}));
}

static void refusals_of_vdatum(void) {
    struct file file = vdatum();
    refusals_of_lengths("VDatum", &file, 39, 16);
    tell("VDatum: an infinite latitude gives 16", changed_refused(&file, 0, 0x7FF0000000000000, 8, 16));
    tell("VDatum: a spacing that rounds to 0 gives 16", changed_refused(&file, 16, 1, 8, 16));
    tell("VDatum: one row of 6 columns gives 16", changed_refused(&file, 32, 0x0000000100000006, 8, 16));
    tell("VDatum: -2 rows of -3 columns give 16", changed_refused(&file, 32, 0xFFFFFFFEFFFFFFFD, 8, 16));
    tell("VDatum: a last height that is no number gives 17", changed_refused(&file, 60, 0x7FC00000, 4, 17));
    tell("VDatum: a last height of 100.00005341 m gives 17", changed_refused(&file, 60, 0x42C80007, 4, 17));
    put_high_first(put_high_first(file.bytes + 36, 4, 4), 0x7FC00000, 4);
    tell("VDatum: 16 comes before 17", refused(&file, 16));
}

/* The labels of an NTv2 file in turn: of the overview, of a header, of the last record. */
static const char ntv2_labels[] = "NUM_ORECNUM_SRECNUM_FILEGS_TYPE VERSION SYSTEM_FSYSTEM_TMAJOR_F MINOR_F MAJOR_T MINOR_T "
                                  "SUB_NAMEPARENT  CREATED UPDATED S_LAT   N_LAT   E_LONG  W_LONG  LAT_INC LONG_INCGS_COUNTEND     ";

/* Eleven records of 16 bytes; where the values of some stand in a header, and NUM_FILE's in the overview. */
enum { RECORDS = 11, RECORD_LENGTH = 16, TEXT_LENGTH = 8, GRIDS = 40, NAME = 8, PARENT = 24, CREATED = 40, ANGLES = 72, COUNT = 168 };

/* A grid of an NTv2 file: its name and its parent's, the bits of bounds and spacings from S_LAT to LONG_INC, and those of its shifts. */
struct ntv2_grid {
    const char *name, *parent;
    uint64_t angles[6];
    int nodes;
    uint32_t shifts[DENSE_NODES][2];
};

/* From 52 degrees to 0.01 degree further north, from 17,999.859375 to 18,089.859375 arcseconds east, whose nd are exact halves, spacings 36
 * and 45 arcseconds. From the south-east, westward, the latitude shifts are 9/64 arcsecond, which is 39,062.5 nd, its negative, 0, 36, -36,
 * -0, and the longitude shifts the same in another order. */
static const struct ntv2_grid ntv2_grid = {
    "COARSE 1",
    "NONE    ",
    {0x4106DA0000000000, 0x4106DB2000000000, 0xC0D1AA7700000000, 0xC0D193F700000000, 0x4042000000000000, 0x4046800000000000},
    NODES,
    {{0x3E100000, 0x3E100000}, {0xBE100000, 0}, {0, 0xBE100000},
     {0x42100000, 0xC2100000}, {0xC2100000, 0x42100000}, {0x80000000, 0x80000000}}};

/* Its subgrid: over its western cell, spacings 9 and 45 arcseconds. The latitude shifts are 1 to 10 times 9/64 arcseconds, the longitude
 * shifts 10 to 1 times. */
static const struct ntv2_grid ntv2_subgrid = {
    "DENSE  2",
    "COARSE 1",
    {0x4106DA0000000000, 0x4106DB2000000000, 0xC0D19F3700000000, 0xC0D193F700000000, 0x4022000000000000, 0x4046800000000000},
    DENSE_NODES,
    {{0x3E100000, 0x3FB40000}, {0x3E900000, 0x3FA20000}, {0x3ED80000, 0x3F900000}, {0x3F100000, 0x3F7C0000}, {0x3F340000, 0x3F580000},
     {0x3F580000, 0x3F340000}, {0x3F7C0000, 0x3F100000}, {0x3F900000, 0x3ED80000}, {0x3FA20000, 0x3E900000}, {0x3FB40000, 0x3E100000}}};

/* Puts eleven labels, from the list's place `first` on, each before its value. */
static void put_labels(uint8_t *at, int first) {
    for (int i = 0; i < RECORDS; i++) {
        memcpy(at + i * RECORD_LENGTH, ntv2_labels + (first + i) * TEXT_LENGTH, TEXT_LENGTH);
    }
}

/* Puts what is read of a grid, and gives the place after its nodes. */
static uint8_t *put_grid(uint8_t *at, const struct ntv2_grid *grid) {
    put_labels(at, RECORDS);
    memcpy(at + NAME, grid->name, TEXT_LENGTH);
    memcpy(at + PARENT, grid->parent, TEXT_LENGTH);
    for (int i = 0; i < 6; i++) {
        put(at + ANGLES + i * RECORD_LENGTH, (int64_t)grid->angles[i], 8);
    }
    put(at + COUNT, grid->nodes, 4);
    at += MARKER_NTV2_HEADER_LENGTH;
    for (int i = 0; i < grid->nodes; i++) {
        put(put(at, grid->shifts[i][0], 4), grid->shifts[i][1], 4);
        at += MARKER_NTV2_NODE_LENGTH;
    }
    return at;
}

/* The NTv2 file of the first grid, that of crates/rules/proofs/Ntv2File.antt, or of both. It has 0xEE wherever nothing is read, but for
 * the names. */
static struct file ntv2(int grids) {
    struct file file = {marker_corrections_from_ntv2, put, ONE_GRID_LENGTH, CORRECTIONS_LENGTH, 0, MARKER_GEOMETRIES_LENGTH, {0}};
    memset(file.bytes, 0xEE, sizeof file.bytes);
    put_labels(file.bytes, 0);
    put(file.bytes + 8, RECORDS, 4);
    put(file.bytes + 24, RECORDS, 4);
    put(file.bytes + GRIDS, grids, 4);
    memcpy(file.bytes + 56, "SECONDS ", TEXT_LENGTH);
    uint8_t *at = put_grid(file.bytes + GRID, &ntv2_grid);
    if (grids == 2) {
        at = put_grid(at, &ntv2_subgrid);
        file.length = TWO_GRIDS_LENGTH;
        file.dense_length = DENSE_LENGTH;
    }
    memcpy(at, "END     ", TEXT_LENGTH);
    return file;
}

/* Is this what an NTv2 file becomes: of the first grid the numbers that Ntv2File.antt computes, of the subgrid these of its geometry? */
static bool becomes_corrections(const struct file *file, const int64_t dense_geometry[MARKER_GEOMETRY_LENGTH]) {
    const int64_t corrections[] = {0, 39063, -39062, 0, 39063, -39062, 0, 0, -10000000, -10000000, 10000000, 10000000};
    const int64_t dense[] = {78125,  -351562, 39063,  -390625, 156250, -273437, 117188, -312500, 234375, -195312,
                             195313, -234375, 312500, -117187, 273438, -156250, 390625, -39062,  351563, -78125};
    int64_t geometry[MARKER_GEOMETRIES_LENGTH] = {SOUTH, INT64_C(4999960938), 10000000, 12500000, 2, 3};
    memcpy(geometry + MARKER_DENSE_GEOMETRY, dense_geometry, MARKER_GEOMETRY_LENGTH * sizeof *geometry);
    return converts(file, corrections, dense, geometry);
}

/* The same for a file with one grid, and for one with both. */
static bool becomes_one_grid(const struct file *file) {
    return becomes_corrections(file, (int64_t[]){0, 0, 0, 0, 0, 0});
}

static bool becomes_two_grids(const struct file *file) {
    return becomes_corrections(file, (int64_t[]){SOUTH, INT64_C(4999960938), 2500000, 12500000, 5, 2});
}

/* Changes all of a grid that is not read: CREATED, UPDATED, the bytes after its count, and its accuracies. */
static void change_unread(uint8_t *grid, int nodes) {
    memcpy(grid + CREATED, "NONE    ", TEXT_LENGTH);
    memcpy(grid + CREATED + RECORD_LENGTH, "NONE    ", TEXT_LENGTH);
    put(grid + COUNT + 4, 0, 4);
    for (int node = 0; node < nodes; node++) {
        put(grid + MARKER_NTV2_HEADER_LENGTH + node * MARKER_NTV2_NODE_LENGTH + 8, (int64_t)0xFF8000007FC00000, 8);
    }
}

/* The same of the overview and of END. */
static void change_unread_around(struct file *file) {
    for (int record = 4; record < RECORDS; record++) {
        memcpy(file->bytes + record * RECORD_LENGTH + TEXT_LENGTH, "NONE    ", TEXT_LENGTH);
    }
    put(file->bytes + 12, 0, 4);
    put(file->bytes + GRIDS + 4, 0, 4);
    put(file->bytes + file->length - TEXT_LENGTH, 0, 8);
}

static void figures_of_ntv2(void) {
    struct file file = ntv2(1);
    tell("NTv2: 9/64, -9/64, 36 and -36 arcseconds give 39063 -39062 10000000 -10000000, turned and from the west; six zeros last",
         becomes_one_grid(&file));
    change_unread_around(&file);
    change_unread(file.bytes + GRID, NODES);
    memcpy(file.bytes + GRID + NAME, "NONE    ", TEXT_LENGTH);
    tell("NTv2: other texts, accuracies, and bytes after counts and END change nothing", becomes_one_grid(&file));
}

/* Is each label of the eleven records from that place on asked? And each of the file, END's too? */
static bool eleven_asked(const struct file *file, size_t place) {
    bool asked = true;
    for (size_t record = 0; record < RECORDS; record++) {
        asked = changed_refused(file, place + record * RECORD_LENGTH + 7, 0, 1, 18) && asked;
    }
    return asked;
}

static bool labels_asked(const struct file *file) {
    return eleven_asked(file, 0) && eleven_asked(file, GRID) && (file->dense_length == 0 || eleven_asked(file, SUBGRID)) &&
           changed_refused(file, file->length - MARKER_NTV2_END_LENGTH + 7, 0, 1, 18);
}

/* Is each bound and each spacing of the grid at that place asked whether it is finite? */
static bool angles_asked(const struct file *file, size_t grid) {
    bool asked = true;
    for (size_t angle = 0; angle < 6; angle++) {
        asked = changed_refused(file, grid + ANGLES + angle * RECORD_LENGTH, 0x7FF0000000000000, 8, 18) && asked;
    }
    return asked;
}

/* Is each of the eight bytes of the text at that place asked? */
static bool text_asked(const struct file *file, size_t place) {
    bool asked = true;
    for (size_t i = place; i < place + TEXT_LENGTH; i++) {
        asked = changed_refused(file, i, file->bytes[i] ^ 1u, 1, 18) && asked;
    }
    return asked;
}

static void refusals_of_ntv2(void) {
    struct file file = ntv2(1);
    refusals_of_lengths("NTv2", &file, 367, 18);
    tell("NTv2: a second buffer of one byte gives 18", lengths_refused(&file, (size_t[]){ONE_GRID_LENGTH, CORRECTIONS_LENGTH, 1}, 18));
    tell("NTv2: a second buffer of one node gives 18", lengths_refused(&file, (size_t[]){ONE_GRID_LENGTH, CORRECTIONS_LENGTH, 8}, 18));
    tell("NTv2: a label that ends otherwise gives 18, each of 23", labels_asked(&file));
    tell("NTv2: a PARENT other than NONE gives 18, each of 8 bytes", text_asked(&file, GRID + PARENT));
    tell("NTv2: a type that begins with M gives 18", changed_refused(&file, 56, 'M', 1, 18));
    tell("NTv2: ten records in the overview give 18", changed_refused(&file, 8, 10, 4, 18));
    tell("NTv2: ten records in the header give 18", changed_refused(&file, 24, 10, 4, 18));
    tell("NTv2: no grids give 18", changed_refused(&file, GRIDS, 0, 4, 18));
    tell("NTv2: one grid said to be two gives 18", changed_refused(&file, GRIDS, 2, 4, 18));
    tell("NTv2: one grid said to be three gives 18", changed_refused(&file, GRIDS, 3, 4, 18));
    tell("NTv2: seven nodes of 2 rows and 3 columns give 18", changed_refused(&file, 344, 7, 4, 18));
    tell("NTv2: an infinite bound or spacing gives 18, each of 6", angles_asked(&file, GRID));
    tell("NTv2: a row and a half give 18", changed_refused(&file, 264, 0x4106DBB000000000, 8, 18));
    tell("NTv2: an eastern bound 1 nd off gives 18", changed_refused(&file, 280, 0xC0D1AA770016A635, 8, 18));
    tell("NTv2: a spacing below zero gives 18", changed_refused(&file, 312, 0xC042000000000000, 8, 18));
    tell("NTv2: an infinite first latitude shift gives 19", changed_refused(&file, 352, 0x7F800000, 4, 19));
    tell("NTv2: a last longitude shift that is no number gives 19", changed_refused(&file, 436, 0xFFC00000, 4, 19));
    tell("NTv2: a last latitude shift just past 36 gives 19", changed_refused(&file, 432, 0x42100001, 4, 19));
    tell("NTv2: a first longitude shift just past -36 gives 19", changed_refused(&file, 356, 0xC2100001, 4, 19));
    put(file.bytes + 352, 0x7F800000, 4);
    tell("NTv2: 18 comes before 19", lengths_refused(&file, (size_t[]){ONE_GRID_LENGTH, CORRECTIONS_LENGTH + 1, 0}, 18));
}

/* A file with a subgrid: both lists of nodes and all twelve numbers. */
static void figures_of_subgrid(void) {
    struct file file = ntv2(2);
    tell("subgrid: 1 to 10 times 9/64 arcseconds in 5 rows and 2 columns, turned and from the west", becomes_two_grids(&file));
    change_unread_around(&file);
    change_unread(file.bytes + GRID, NODES);
    change_unread(file.bytes + SUBGRID, DENSE_NODES);
    memcpy(file.bytes + SUBGRID + NAME, "COARSE 1", TEXT_LENGTH);
    tell("subgrid: its own name, other texts, accuracies, and bytes after counts and END change nothing", becomes_two_grids(&file));
    put(file.bytes + GRID + NAME, INT64_MIN, TEXT_LENGTH);
    put(file.bytes + SUBGRID + PARENT, INT64_MIN, TEXT_LENGTH);
    tell("subgrid: any eight bytes are a name", becomes_two_grids(&file));
    memcpy(file.bytes + GRID + NAME, "NONE    ", TEXT_LENGTH);
    memcpy(file.bytes + SUBGRID + PARENT, "NONE    ", TEXT_LENGTH);
    tell("subgrid: NONE is a name too", becomes_two_grids(&file));
    put(file.bytes + SUBGRID + ANGLES, 0x4106DA4800000000, 8);
    put(file.bytes + SUBGRID + ANGLES + RECORD_LENGTH, 0x4106DB6800000000, 8);
    tell("subgrid: one that reaches 9 arcseconds outside its parent is converted",
         becomes_corrections(&file, (int64_t[]){SOUTH + 2500000, INT64_C(4999960938), 2500000, 12500000, 5, 2}));
}

/* Is 18 given with END after the first grid's nodes, and after END so many bytes of the subgrid? */
static bool end_too_early(size_t after_end) {
    struct file file = ntv2(2);
    memmove(file.bytes + ONE_GRID_LENGTH, file.bytes + SUBGRID, after_end);
    memcpy(file.bytes + SUBGRID, "END     ", TEXT_LENGTH);
    file.length = ONE_GRID_LENGTH + after_end;
    return refused(&file, 18);
}

static void refusals_of_two_grids(void) {
    struct file file = ntv2(2);
    const size_t length = file.length, nodes = file.nodes_length, dense = file.dense_length;
    refusals_of_lengths("subgrid", &file, SUBGRID_NODES - 1, 18);
    tell("subgrid: a second buffer one byte shorter gives 18", lengths_refused(&file, (size_t[]){length, nodes, dense - 1}, 18));
    tell("subgrid: a second buffer one byte longer gives 18", lengths_refused(&file, (size_t[]){length, nodes, dense + 1}, 18));
    tell("subgrid: a second buffer of no bytes gives 18", lengths_refused(&file, (size_t[]){length, nodes, 0}, 18));
    tell("subgrid: the file up to its header gives 18", lengths_refused(&file, (size_t[]){SUBGRID, nodes, dense}, 18));
    tell("subgrid: the file without END gives 18", lengths_refused(&file, (size_t[]){length - 16, nodes, dense}, 18));
    tell("subgrid: END in its place gives 18", end_too_early(0));
    tell("subgrid: END before it gives 18", end_too_early(length - 16 - SUBGRID));
    tell("subgrid: two grids said to be one give 18", changed_refused(&file, GRIDS, 1, 4, 18));
    tell("subgrid: three grids give 18", changed_refused(&file, GRIDS, 3, 4, 18));
    tell("subgrid: -2 grids give 18", changed_refused(&file, GRIDS, 0xFFFFFFFE, 4, 18));
    put(file.bytes + GRIDS, 1, 4);
    tell("subgrid: two grids said to be one give 18 without a second buffer", lengths_refused(&file, (size_t[]){length, nodes, 0}, 18));
}

/* What its header and the first one say. */
static void refusals_of_subgrid(void) {
    struct file file = ntv2(2);
    tell("subgrid: a label that ends otherwise gives 18, each of 34", labels_asked(&file));
    tell("subgrid: a first PARENT other than NONE gives 18, each of 8 bytes", text_asked(&file, GRID + PARENT));
    tell("subgrid: a PARENT other than the first name gives 18, each of 8 bytes", text_asked(&file, SUBGRID + PARENT));
    tell("subgrid: a first name other than PARENT gives 18, each of 8 bytes", text_asked(&file, GRID + NAME));
    tell("subgrid: an infinite bound or spacing of the first grid gives 18, each of 6", angles_asked(&file, GRID));
    tell("subgrid: an infinite bound or spacing gives 18, each of 6", angles_asked(&file, SUBGRID));
    tell("subgrid: 5 nodes of the first grid give 18", changed_refused(&file, GRID + COUNT, 5, 4, 18));
    tell("subgrid: 9 nodes of 5 rows and 2 columns give 18", changed_refused(&file, SUBGRID + COUNT, 9, 4, 18));
    tell("subgrid: half a row more gives 18", changed_refused(&file, SUBGRID + ANGLES + RECORD_LENGTH, 0x4106DB4400000000, 8, 18));
    tell("subgrid: an infinite first latitude shift gives 19", changed_refused(&file, SUBGRID_NODES, 0x7F800000, 4, 19));
    tell("subgrid: a last longitude shift that is no number gives 19", changed_refused(&file, TWO_GRIDS_LENGTH - 28, 0x7FC00000, 4, 19));
    tell("subgrid: a last latitude shift just past 36 gives 19", changed_refused(&file, TWO_GRIDS_LENGTH - 32, 0x42100001, 4, 19));
    tell("subgrid: a first longitude shift just past -36 gives 19", changed_refused(&file, SUBGRID_NODES + 4, 0xC2100001, 4, 19));
    tell("subgrid: an infinite shift of the first grid gives 19", changed_refused(&file, GRID_NODES, 0xFF800000, 4, 19));
    put(file.bytes + GRID_NODES, 0x7F800000, 4);
    tell("subgrid: its 18 comes before the first grid's 19", changed_refused(&file, SUBGRID + COUNT, 9, 4, 18));
}

int main(void) {
    figures_of_vdatum();
    refusals_of_vdatum();
    figures_of_ntv2();
    refusals_of_ntv2();
    figures_of_subgrid();
    refusals_of_two_grids();
    refusals_of_subgrid();
    return failures == 0 ? 0 : 1;
}
