/* Measures how much stack each call of the built library writes: not more than the figure in marker.h. Prints `ok NAME` or
 * `FAILED NAME` for each call. An image of a few nodes around grid G's is read from standard input, of edition 1 or of any kind of
 * edition 2; notations, VDatum files and NTv2 files are measured with edition 1.
 *
 * A call is made on a stack of its own that is filled with one byte; what has another byte afterwards was written. A seventh argument
 * stands above it, where a caller puts it. */
#include <inttypes.h>
#include <stdio.h>
#include <string.h>

#include "marker.h"

#define MOST_BYTES 512
#define STACK_SIZE 65536
#define STACK_END (STACK_SIZE - 16) /* before a call; a seventh argument stands there */
#define FILLING 0xA5

/* A function of the library, whatever it takes. */
typedef void function(void);

static uint8_t image[MOST_BYTES];
static size_t size; /* of the image */

/* A VDatum file: 2 rows and 3 columns from 52 and 5 degrees, spacings 0.01 and 0.0125 degrees; heights of 43 m, 43.1234 m, 1/32 m, -1/32 m,
 * -0 m and the last float that rounds to -100 m. */
static uint8_t vdatum[] = {
    0x40, 0x4A, 0, 0, 0, 0, 0, 0, 0x40, 0x14, 0, 0, 0, 0, 0, 0,
    0x3F, 0x84, 0x7A, 0xE1, 0x47, 0xAE, 0x14, 0x7B, 0x3F, 0x89, 0x99, 0x99, 0x99, 0x99, 0x99, 0x9A,
    0, 0, 0, 2, 0, 0, 0, 3,
    0x42, 0x2C, 0, 0, 0x42, 0x2C, 0x7E, 0x5D, 0x3D, 0, 0, 0, 0xBD, 0, 0, 0, 0x80, 0, 0, 0, 0xC2, 0xC8, 0, 6};

/* The parts of an NTv2 file: the same grid, with shifts of 9/64, -9/64, 0, 36, -36 and -0 arcseconds in latitude, and in longitude in
 * another order, and over its western cell a subgrid of 3 rows and 2 columns with the same shifts. */
#define NTV2_OVERVIEW(grids) \
    "NUM_OREC\x0B\0\0\0\0\0\0\0" \
    "NUM_SREC\x0B\0\0\0\0\0\0\0" \
    "NUM_FILE" grids "\0\0\0\0\0\0\0" \
    "GS_TYPE SECONDS VERSION 2       SYSTEM_FBESSEL  SYSTEM_TETRS89  " \
    "MAJOR_F AXIS    MINOR_F AXIS    MAJOR_T AXIS    MINOR_T AXIS    "
#define NTV2_HEADER(name, parent, east, latitude_spacing) \
    "SUB_NAME" name "PARENT  " parent "CREATED 20260101UPDATED 20260101" \
    "S_LAT   \0\0\0\0\0\xDA\x06\x41" \
    "N_LAT   \0\0\0\0\x20\xDB\x06\x41" \
    "E_LONG  \0\0\0\0" east "W_LONG  \0\0\0\0\0\x94\xD1\xC0" \
    "LAT_INC \0\0\0\0\0\0" latitude_spacing "LONG_INC\0\0\0\0\0\x80\x46\x40" \
    "GS_COUNT\x06\0\0\0\0\0\0\0"
#define NTV2_NODES \
    "\0\0\x10\x3E\0\0\x10\x3E        \0\0\x10\xBE\0\0\0\0        \0\0\0\0\0\0\x10\xBE        " \
    "\0\0\x10\x42\0\0\x10\xC2        \0\0\x10\xC2\0\0\x10\x42        \0\0\0\x80\0\0\0\x80        "
#define NTV2_GRID NTV2_HEADER("GRID    ", "NONE    ", "\x80\xAA\xD1\xC0", "\x42\x40") NTV2_NODES
#define NTV2_SUBGRID NTV2_HEADER("SUBGRID ", "GRID    ", "\x40\x9F\xD1\xC0", "\x32\x40") NTV2_NODES

/* An NTv2 file with one grid, and one with a subgrid. */
static uint8_t ntv2[] = {NTV2_OVERVIEW("\x01") NTV2_GRID "END             "};
static uint8_t ntv2_two_grids[] = {NTV2_OVERVIEW("\x02") NTV2_GRID NTV2_SUBGRID "END             "};

/* The NTv2 file that is converted, and the length of its second buffer. */
static uint8_t *file;
static size_t file_length, dense_length;

static _Alignas(16) uint8_t stack[STACK_SIZE];
static int failures = 0;

/* Calls a function with up to seven numbers or addresses; the stack pointer stands at the seventh before. */
static void call(function *called, const uint64_t given[7]) {
    memcpy(stack + STACK_END, &given[6], sizeof given[6]);
    uint64_t first = given[0], second = given[1], third = given[2], fourth = given[3];
    register uint64_t fifth __asm__("r8") = given[4];
    register uint64_t sixth __asm__("r9") = given[5];
    __asm__ volatile("mov %%rsp, %%rbx\n\t"
                     "mov %[end], %%rsp\n\t"
                     "call *%[called]\n\t"
                     "mov %%rbx, %%rsp"
                     : "+D"(first), "+S"(second), "+d"(third), "+c"(fourth), "+r"(fifth), "+r"(sixth)
                     : [end] "r"(stack + STACK_END), [called] "r"(called)
                     : "rax", "rbx", "r10", "r11", "memory", "cc", "xmm0", "xmm1", "xmm2", "xmm3", "xmm4", "xmm5", "xmm6", "xmm7", "xmm8",
                       "xmm9", "xmm10", "xmm11", "xmm12", "xmm13", "xmm14", "xmm15");
}

static void check(function *called) {
    int64_t findings[MARKER_FINDINGS_LENGTH];
    call(called, (uint64_t[7]){(uintptr_t)image, size, (uintptr_t)findings});
}

/* A list of fixes in and around grid G, one in ten past the limit of heights. */
static void list(function *called) {
    enum { SIDE = 15 };
    int64_t fixes[SIDE * SIDE * MARKER_FIX_LENGTH], answers[SIDE * SIDE * MARKER_ANSWER_LENGTH];
    for (int i = 0; i < SIDE * SIDE; i++) {
        int64_t *fix = fixes + i * MARKER_FIX_LENGTH;
        fix[MARKER_LATITUDE] = INT64_C(52000000000) + i / SIDE * 150 - 50;
        fix[MARKER_LONGITUDE] = INT64_C(5000000000) + i % SIDE * 150 - 50;
        fix[MARKER_HEIGHT] = i % 10 == 0 ? INT64_MAX : i;
    }
    call(called, (uint64_t[7]){(uintptr_t)image, size, (uintptr_t)fixes, SIDE * SIDE * MARKER_FIX_LENGTH, (uintptr_t)answers,
                               SIDE * SIDE * MARKER_ANSWER_LENGTH});
}

/* The image into the other arrangement, where it is of the right kind. */
static void image_conversion(function *called) {
    uint8_t buffer[MOST_BYTES];
    call(called, (uint64_t[7]){(uintptr_t)image, size, (uintptr_t)buffer, size});
}

static void vdatum_conversion(function *called) {
    uint8_t nodes[6 * MARKER_HEIGHT_NODE_LENGTH];
    int64_t geometry[MARKER_GEOMETRY_LENGTH];
    call(called, (uint64_t[7]){(uintptr_t)vdatum, sizeof vdatum, (uintptr_t)nodes, sizeof nodes, (uintptr_t)geometry});
}

static void ntv2_conversion(function *called) {
    uint8_t nodes[6 * MARKER_CORRECTION_NODE_LENGTH], dense[6 * MARKER_CORRECTION_NODE_LENGTH];
    int64_t geometry[MARKER_GEOMETRIES_LENGTH];
    call(called, (uint64_t[7]){(uintptr_t)file, file_length, (uintptr_t)nodes, sizeof nodes, (uintptr_t)dense, dense_length,
                               (uintptr_t)geometry});
}

/* Some calls on these bytes, and on them with each byte in turn changed. */
static void on_changed(uint8_t *bytes, size_t length, function *called, void (*calls)(function *)) {
    const uint8_t changes[] = {0, 1, 127, 255};
    calls(called);
    for (size_t i = 0; i < length; i++) {
        uint8_t before = bytes[i];
        for (size_t k = 0; k < sizeof changes; k++) {
            bytes[i] = changes[k];
            calls(called);
        }
        bytes[i] = before;
    }
}

static void checks(function *called) {
    on_changed(image, size, called, check);
}

static void lists(function *called) {
    on_changed(image, size, called, list);
}

static void image_conversions(function *called) {
    on_changed(image, size, called, image_conversion);
}

static void vdatum_conversions(function *called) {
    on_changed(vdatum, sizeof vdatum, called, vdatum_conversion);
}

static void ntv2_conversions(function *called) {
    file = ntv2, file_length = sizeof ntv2 - 1, dense_length = 0;
    on_changed(file, file_length, called, ntv2_conversion);
    file = ntv2_two_grids, file_length = sizeof ntv2_two_grids - 1, dense_length = 6 * MARKER_CORRECTION_NODE_LENGTH;
    on_changed(file, file_length, called, ntv2_conversion);
}

static void readings(function *called) {
    for (uint64_t minutes = 0; minutes < 200 * 60; minutes += 7) {
        for (int k = 0; k < 5; k++) {
            int64_t nd;
            call(called, (uint64_t[7]){minutes % 2, minutes / 60, minutes % 61, minutes * 501, (uint8_t)"NSEWX"[k], (uintptr_t)&nd});
        }
    }
}

static void writings(function *called) {
    for (int64_t nd = INT64_C(-200000000000); nd < INT64_C(200000000000); nd += 33333333) {
        uint64_t notation[MARKER_NOTATION_LENGTH];
        call(called, (uint64_t[7]){nd % 2 == 0, (uint64_t)nd, (uintptr_t)notation});
    }
}

/* The image's edition and, of edition 2, its kind, by the lowest bytes of its last numbers. */
static int edition(void) {
    return image[size - 4];
}

static int kind(void) {
    return edition() == 1 ? 0 : image[size - 8];
}

/* Makes the calls and compares what they wrote of the stack with the figure. A call writes at least its return address. */
static void measure(const char *name, function *called, void (*calls)(function *), size_t figure) {
    memset(stack, FILLING, STACK_SIZE);
    calls(called);
    size_t untouched = 0;
    while (untouched < STACK_END && stack[untouched] == FILLING) {
        untouched++;
    }
    size_t written = STACK_END - untouched;
    bool fits = 0 < written && written <= figure;
    printf("%s stack: %s writes %zu bytes with edition %d, kind %d, marker.h says %zu\n", fits ? "ok" : "FAILED", name, written, edition(),
           kind(), figure);
    failures += fits ? 0 : 1;
}

int main(void) {
    size = fread(image, 1, MOST_BYTES, stdin);
    if (size < MARKER_TRAILER_LENGTH || size == MOST_BYTES) {
        fprintf(stderr, "stack: standard input is no image of fewer than %d bytes\n", MOST_BYTES);
        return 2;
    }
    measure("marker_grid_check", (function *)marker_grid_check, checks, MARKER_GRID_CHECK_STACK);
    measure("marker_list_out", (function *)marker_list_out, lists, MARKER_LIST_OUT_STACK);
    measure("marker_list_back", (function *)marker_list_back, lists, MARKER_LIST_BACK_STACK);
    measure("marker_planes_from_nodes", (function *)marker_planes_from_nodes, image_conversions, MARKER_PLANES_FROM_NODES_STACK);
    measure("marker_nodes_from_planes", (function *)marker_nodes_from_planes, image_conversions, MARKER_NODES_FROM_PLANES_STACK);
    if (edition() == 1) {
        measure("marker_read_notation", (function *)marker_read_notation, readings, MARKER_READ_NOTATION_STACK);
        measure("marker_write_notation", (function *)marker_write_notation, writings, MARKER_WRITE_NOTATION_STACK);
        measure("marker_heights_from_vdatum", (function *)marker_heights_from_vdatum, vdatum_conversions, MARKER_HEIGHTS_FROM_VDATUM_STACK);
        measure("marker_corrections_from_ntv2", (function *)marker_corrections_from_ntv2, ntv2_conversions,
                MARKER_CORRECTIONS_FROM_NTV2_STACK);
    }
    return failures == 0 ? 0 : 1;
}
