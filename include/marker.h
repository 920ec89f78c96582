/* The conversion code of a dike marker, as C calls it (libmarker.a, written by `tests/artifacts`).
 *
 * Angles are whole nd (10^-9 degree), north and east positive; heights are whole units of 0.0001 m. Lengths count elements.
 * Each function checks all that it is given: callers check nothing beforehand. A pointer refers to as many elements as its
 * length says, or as the declaration does; what is written overlaps nothing else that is passed. Where the length is 0, any
 * non-null pointer will do.
 * A function gives MARKER_DONE, or the number of the first of document 01's questions put to the call whose answer is no; then
 * what it was lent is unchanged. A list call puts 14 right after 6, or after 20 where that is put; 7 to 11 and 15 are put to each
 * fix and stand in that fix's answer. An image of edition 2 has its corrections on one grid and its heights on another; its kind 1
 * has a dense grid of corrections too, inside the correction grid. 1 to 6 are put to all of them, each question to the correction
 * grid, then to the height grid and last to the dense grid; 20 comes right after 6, and 21 in the grid check after 12. Its kind 2
 * answers fixes past the edge too: 8, 10 and 15 are not put to it, an answer without a height has the number MARKER_NO_HEIGHT, which
 * is no refusal, and 22 comes in its grid check before 12. Its kind 3 is kind 0 with the corrections in another order, and answers
 * as kind 0 does. 16 and 17 are put to VDatum files, which the bench converts into the height nodes of such an image, and 18 and 19
 * to NTv2 files, which it converts into the correction nodes and, of a subgrid, the dense nodes. A conversion between kinds 0 and 3
 * puts 1 to 6 and 20, then 2 once more for another kind or edition, and 14 last.
 */
#ifndef MARKER_H
#define MARKER_H

#include <stdbool.h>
#include <stddef.h>
#include <stdint.h>

#ifdef __cplusplus
extern "C" {
#endif

/* What a function gives, and what stands in an answer of a list: document 01's numbers. All are refusals but MARKER_DONE and, in an
 * answer alone, MARKER_NO_HEIGHT. */
enum marker_number {
    MARKER_DONE = 0,
    MARKER_REFUSED_IMAGE_LENGTH = 1,     /* the image has fewer than 40 bytes, in edition 2 fewer than 80. With kind 1 also, once the
                                            kind is known: fewer than 36 plus the back to the correction nodes, whatever that back
                                            is */
    MARKER_REFUSED_EDITION = 2,          /* its edition is not 1 or 2, or edition 2's kind is not 0, 1, 2 or 3. In a
                                            conversion between kinds 0 and 3 also: it is not of the kind taken */
    MARKER_REFUSED_NODE_COUNT = 3,       /* its rows or columns are not from 2 to 4,096 */
    MARKER_REFUSED_SPACING = 4,          /* a spacing is not from 1 to 100,000,000 */
    MARKER_REFUSED_GRID_BOUNDS = 5,      /* a bound lies past 90 degrees (south, north) or 180 degrees (west, east) from zero */
    MARKER_REFUSED_NODE_BYTES = 6,       /* a back is not what it should be (below), or is above the image's length */
    MARKER_REFUSED_FIX_LIMITS = 7,       /* the fix's latitude is past 90 degrees, its longitude past 180, or its height past
                                            100,000,000 (out) or 110,000,000 (back) */
    MARKER_REFUSED_OUTSIDE_BOUNDS = 8,   /* the fix's point is not in the bounds of the corrections. Not put to kind 2 */
    MARKER_REFUSED_NODE_LIMITS = 9,      /* a correction past 10,000,000 or a height past 1,000,000 at a corner of a cell used, or
                                            at any node in the grid check. In edition 2 a cell of the correction grid or of the
                                            dense grid has corrections alone, and one of the height grid heights */
    MARKER_REFUSED_ITERATE_OUTSIDE = 10, /* out: one of the points p1 to p5 is not in the bounds. Not put to kind 2 */
    MARKER_REFUSED_NOT_SETTLED = 11,     /* out: the stop rule has not held after five evaluations. It asks that both angles differ
                                            from those of the point before by at most 1 nd, with a dense grid by at most 3 nd */
    MARKER_REFUSED_SLOPE = 12,           /* grid check: 100 * (A * Q + B * P) is above P * Q for a value; A and B its findings
                                            northward and eastward, P and Q its grid's latitude and longitude spacing. Last put to
                                            both corrections of a dense grid, by its own steps and spacings */
    MARKER_REFUSED_BAD_NOTATION = 13,    /* minutes or seconds not below 60, a letter not of the axis, or an angle past 90 or 180
                                            degrees from zero */
    MARKER_REFUSED_LIST_LENGTHS = 14,    /* the fixes' length is not 3 * n and the answers' length 5 * n for the same n. In a
                                            conversion between kinds 0 and 3: the buffer's length is not that from the first node
                                            to the image's end */
    MARKER_REFUSED_OFF_HEIGHT_GRID = 15, /* edition 2: the Bessel point is not in the bounds of the height grid. Put after 11 going
                                            out, and going back after 9 for the corrections; 9 for the heights comes last. Not put
                                            to kind 2 */
    MARKER_REFUSED_VDATUM_FILE = 16,     /* VDatum: a number of the header is not finite or, once rounded, is refused by 3 to 5, or
                                            the file or the buffer is not of the exact length */
    MARKER_REFUSED_VDATUM_HEIGHT = 17,   /* VDatum: a node is not finite or, once rounded, is past 1,000,000 */
    MARKER_REFUSED_NTV2_FILE = 18,       /* NTv2: a label is wrong, the type is not SECONDS, a record count is not 11, the number of
                                            grids is not 1 or 2, the first grid's PARENT is not NONE or the subgrid's not the first
                                            grid's SUB_NAME, the file or a buffer is not of the exact length, or a bound or a
                                            spacing is not finite or, once rounded, is refused by 3 to 5 or against the node count,
                                            or a difference of bounds is not a whole number of spacings */
    MARKER_REFUSED_NTV2_SHIFT = 19,      /* NTv2: a shift is not finite or, once rounded, is past 10,000,000 */
    MARKER_REFUSED_DENSE_ALIGNMENT = 20, /* kind 1: a bound of the dense grid is outside the correction grid or not on one of its
                                            grid lines, or a spacing of that is not a whole multiple of the dense one. Put after 6,
                                            by every call that takes an image */
    MARKER_REFUSED_DENSE_BORDER = 21,    /* grid check, kind 1, after 12: a correction at a node on the border of the dense grid, its
                                            first and last row and column, is more than 1 nd from the exact value, not rounded, that
                                            the correction grid has there */
    MARKER_REFUSED_BORDER_CORRECTION = 22, /* grid check, kind 2, between 9 and 12: a correction at a node on the border of the
                                              correction grid, its first and last row and column, is not 0 */
    MARKER_NO_HEIGHT = 100               /* no refusal, and in an answer of a list alone: the fix is accepted, over an image of kind 2,
                                            and its Bessel point is off the height grid. The answer's latitude, longitude and count
                                            are as with MARKER_DONE; its height is 0, which means that there is none */
};

/* An image, in bytes; its numbers are little-endian. Bytes before the first node have no meaning. Nodes stand in rows, the southern
 * row first, each row from west to east. The trailer ends the image; its last number is the edition.
 *
 * Edition 1: rows * columns nodes, then the trailer.
 *
 *   node     0  int32_t   latitude correction, nd
 *            4  int32_t   longitude correction, nd
 *            8  int32_t   quasi-geoid height, units
 *
 *   trailer  0            geometry (below)
 *           32  uint32_t  back: the distance from the image's end to the first node, 12 * rows * columns + 40
 *           36  uint32_t  edition: 1
 *
 * Edition 2: the nodes of the correction grid, then those of the height grid, then the trailer; they touch each other. In kind 1 the nodes
 * of the dense grid and the dense trailer come before them and touch each other and the first correction node. Where they begin is found
 * by the back to that node. Every back counts from the image's end.
 *
 *   dense node        0            as a correction node
 *
 *   dense trailer     0            geometry of the dense grid
 *                    32  uint32_t  back to the first dense node, 8 * rows * columns (dense grid) + 36 + back to the first correction
 *                                  node
 *
 *   correction node   0  int32_t   latitude correction, nd
 *                     4  int32_t   longitude correction, nd
 *
 *   height node       0  int32_t   quasi-geoid height, units
 *
 *   kind 3 has, in place of the correction nodes, rows * columns latitude corrections and then as many longitude corrections:
 *
 *   correction        0  int32_t   latitude correction or longitude correction, nd
 *
 *   trailer           0            geometry of the correction grid
 *                    32            geometry of the height grid
 *                    64  uint32_t  back to the first correction node, in kind 3 to the first latitude correction,
 *                                  8 * rows * columns (correction grid) + back to the first height node
 *                    68  uint32_t  back to the first height node, 4 * rows * columns (height grid) + 80
 *                    72  uint32_t  kind: 0, or 1 with a dense grid, or 2, laid out as 0, to answer fixes past the edge, or 3,
 *                                  latitude corrections before longitude corrections
 *                    76  uint32_t  edition: 2
 *
 *   geometry  0  int64_t   southern latitude, nd
 *             8  int64_t   western longitude, nd
 *            16  uint32_t  latitude spacing, nd
 *            20  uint32_t  longitude spacing, nd
 *            24  uint32_t  rows
 *            28  uint32_t  columns
 *
 * At a point in the dense bounds, all four included, the corrections are those of the dense grid, and elsewhere those of the correction
 * grid; in the dense bounds no conversion reads the correction grid's nodes. Heights are those of the height grid everywhere.
 *
 * In kind 2 a point outside the bounds of the correction grid has both corrections 0, and one off the height grid has no height: no node
 * is read there. A point on a bound is not outside. A point may be outside of one grid and on the other. The answer out of an image that
 * fails the grid check may lie past 90 or 180 degrees; of one that passes it does not.
 */
enum {
    MARKER_NODE_LENGTH = 12,
    MARKER_TRAILER_LENGTH = 40,
    MARKER_CORRECTION_NODE_LENGTH = 8, /* a dense node's too */
    MARKER_HEIGHT_NODE_LENGTH = 4,
    MARKER_DENSE_TRAILER_LENGTH = 36,
    MARKER_TWO_GRID_TRAILER_LENGTH = 80
};

/* What stands where in a fix, which ends after its height, and in an answer. A refused fix's answer is four zeros and the number. A fix is
 * accepted if its number is MARKER_DONE or, with an image of kind 2, MARKER_NO_HEIGHT: then the height is 0 and means none, and the
 * latitude, the longitude and the count are those of the answer. Do not take that 0 for a height, nor that number for a refusal. */
enum {
    MARKER_LATITUDE = 0,
    MARKER_LONGITUDE = 1,
    MARKER_HEIGHT = 2,
    MARKER_COUNT = 3,  /* the evaluations of the grid: 1 to 5 going out, 1 going back */
    MARKER_NUMBER = 4, /* MARKER_DONE, or 7 to 11 or 15 going out; 7, 8, 9 or 15 going back. Kind 2: MARKER_DONE, MARKER_NO_HEIGHT, 7, 9
                          or, going out, 11 */
    MARKER_FIX_LENGTH = 3,
    MARKER_ANSWER_LENGTH = 5
};

/* What stands where in the findings: the largest absolute step of a value (latitude correction and longitude correction in nd,
 * quasi-geoid height in units) between neighbours in latitude (northward) and in longitude (eastward). Steps of corrections are those
 * of the correction grid: a dense grid's are tested, but not written. */
enum {
    MARKER_LATITUDE_NORTHWARD = 0,
    MARKER_LATITUDE_EASTWARD = 1,
    MARKER_LONGITUDE_NORTHWARD = 2,
    MARKER_LONGITUDE_EASTWARD = 3,
    MARKER_HEIGHT_NORTHWARD = 4,
    MARKER_HEIGHT_EASTWARD = 5,
    MARKER_FINDINGS_LENGTH = 6
};

/* A VDatum .gtx file, in bytes; its numbers are big-endian. The file ends with its last node.
 *
 *   header   0  double   southern latitude, degrees
 *            8  double   western longitude, degrees
 *           16  double   latitude spacing, degrees
 *           24  double   longitude spacing, degrees
 *           32  int32_t  rows
 *           36  int32_t  columns
 *
 *   node     0  float    quasi-geoid height, metres; in rows, the southern row first, each row from west to east
 */
enum { MARKER_VDATUM_HEADER_LENGTH = 40, MARKER_VDATUM_NODE_LENGTH = 4 };

/* An NTv2 .gsb file, in bytes; its numbers are little-endian. An overview of eleven records, one grid or a grid and after it its subgrid,
 * and the record END, whose value is not read. A grid is a header of eleven records and rows * columns nodes. Labels and texts are filled
 * with spaces. What is not read may be anything.
 *
 *   record   0  char[8]  label
 *            8  8 bytes  value: an int32_t and four bytes that are not read for a count, a double for a bound or a spacing
 *
 *   overview 0  NUM_OREC, a count: 11       64  VERSION    not read     128  MINOR_F   not read
 *           16  NUM_SREC, a count: 11       80  SYSTEM_F   not read     144  MAJOR_T   not read
 *           32  NUM_FILE, a count: 1 or 2   96  SYSTEM_T   not read     160  MINOR_T   not read
 *           48  GS_TYPE: SECONDS           112  MAJOR_F    not read
 *
 *   header   0  SUB_NAME  a text            64  S_LAT   arcseconds      128  LAT_INC   arcseconds
 *           16  PARENT: NONE, or the        80  N_LAT   arcseconds      144  LONG_INC  arcseconds
 *               name of the first grid      96  E_LONG  arcseconds      160  GS_COUNT, a count: rows * columns
 *           32  CREATED   not read         112  W_LONG  arcseconds
 *           48  UPDATED   not read
 *
 * PARENT is NONE in the first header. In that of a subgrid it is the first header's SUB_NAME, all 8 bytes, whatever they are; otherwise
 * SUB_NAME is not read.
 *
 *   node     0  float    latitude shift, arcseconds; in rows, the southern row first, each row from east to west
 *            4  float    longitude shift, arcseconds, positive to the west as the longitudes are
 *            8  2 float  accuracies, not read
 */
enum {
    MARKER_NTV2_OVERVIEW_LENGTH = 176,
    MARKER_NTV2_HEADER_LENGTH = 176,
    MARKER_NTV2_NODE_LENGTH = 16,
    MARKER_NTV2_END_LENGTH = 16
};

/* What stands where in the geometry that a conversion of a file hands back. That of an NTv2 file hands back two, the second one from
 * MARKER_DENSE_GEOMETRY on: its rows stand at MARKER_DENSE_GEOMETRY + MARKER_ROWS. */
enum {
    MARKER_SOUTH = 0,             /* nd, as the three below */
    MARKER_WEST = 1,
    MARKER_LATITUDE_SPACING = 2,
    MARKER_LONGITUDE_SPACING = 3,
    MARKER_ROWS = 4,
    MARKER_COLUMNS = 5,
    MARKER_GEOMETRY_LENGTH = 6,
    MARKER_DENSE_GEOMETRY = 6,
    MARKER_GEOMETRIES_LENGTH = 12
};

/* What stands where in a notation. */
enum {
    MARKER_DEGREES = 0,
    MARKER_MINUTES = 1,
    MARKER_HUNDRED_THOUSANDTHS = 2, /* of a second */
    MARKER_LETTER = 3,              /* the byte of N or S for latitudes, of E or W for longitudes */
    MARKER_NOTATION_LENGTH = 4
};

/* What the library needs, in bytes. The figures are those of the archive that `tests/artifacts` writes (tests/footprint), and no
 * call was seen to write more of the stack (tests/stack).
 *
 * The archive is for x86-64 Linux: ELF, System V calling convention. It needs no other library, not even C's: it has no undefined
 * symbol. It makes no system call and uses no heap. It has no writable data, so calls may run at the same time, also one within
 * another.
 *
 * The code is that of all functions with their constants, without what a linker puts between functions to begin each at a multiple
 * of 16. The stack of a call counts from the stack pointer before the call instruction: the return address, all that is pushed and
 * reserved below it, and what is used of the red zone, the 128 bytes below the stack pointer that no handler may touch. It does not
 * grow with the image, the list or the file. The seventh argument of marker_corrections_from_ntv2 is not counted: its caller puts it on
 * the stack before. */
enum {
    MARKER_CODE_BYTES = 28363,
    MARKER_GRID_CHECK_STACK = 768,
    MARKER_LIST_OUT_STACK = 1072,
    MARKER_LIST_BACK_STACK = 1056,
    MARKER_READ_NOTATION_STACK = 8,
    MARKER_WRITE_NOTATION_STACK = 8,
    MARKER_HEIGHTS_FROM_VDATUM_STACK = 184,
    MARKER_CORRECTIONS_FROM_NTV2_STACK = 440,
    MARKER_PLANES_FROM_NODES_STACK = 240,
    MARKER_NODES_FROM_PLANES_STACK = 240
};

/* The grid check. Gives 0 with the findings written, or 1 to 6, 20, 9, 22, 12 or 21. */
int64_t marker_grid_check(const uint8_t *image, size_t image_len, int64_t findings[MARKER_FINDINGS_LENGTH]);

/* Converts all fixes from ETRS89 and ellipsoidal height to Bessel and NAP, each to the answer at its place in the list. A refused
 * fix does not end the list. Gives 0, or 1 to 6, 20 or 14. */
int64_t marker_list_out(const uint8_t *image, size_t image_len, const int64_t *fixes, size_t fixes_len, int64_t *answers,
                        size_t answers_len);

/* Converts all fixes back, from Bessel and NAP to ETRS89 and ellipsoidal height; else as above. */
int64_t marker_list_back(const uint8_t *image, size_t image_len, const int64_t *fixes, size_t fixes_len, int64_t *answers,
                         size_t answers_len);

/* What is promised of every image that the grid check passes, whatever its nodes hold. Inside means inside all four bounds of the
 * correction grid and of the height grid; in edition 1 they are one.
 *
 * A fix at least 10,000,000 nd inside, its height within 100,000,000, is answered going out, after at most five evaluations. This answer,
 * taken back, gives the fix's height exactly and each angle within 1 nd of the fix's, or within 3 nd if the image has a dense grid, however
 * near to its bounds or far from it the fix lies.
 *
 * Of images without a dense grid also: every other Bessel point in the bounds that goes back to within 1 nd of the fix in both angles lies
 * within 3 nd of the way out's answer in each angle. And a Bessel point at least 20,000,000 nd inside, its NAP height within 99,000,000, is
 * answered going back; this answer, taken out, is answered with each angle within 2 nd of the point's and the height within 1 unit.
 *
 * Of images of kind 2 also: every fix within the limits of 7, wherever it is, is answered going out, after at most five evaluations. This
 * answer is within these limits too and, taken back, is answered with each angle within 1 nd of the fix's. Both answers have a height or
 * neither; if they have, it returns exactly. Of such an image, other Bessel points in the bounds are all those within the limits of 7. */

/* Reads the four parts of a notation as an angle in nd. `longitude` is true for longitudes, false for latitudes. Zero is read with either
 * letter of the axis. Gives 0, or 13. */
int64_t marker_read_notation(bool longitude, uint64_t degrees, uint64_t minutes, uint64_t hundred_thousandths, uint8_t letter, int64_t *nd);

/* Writes an angle as a notation, rounded to hundred-thousandths of a second. `longitude` as above. The letter is that of the angle's sign,
 * but what is written as zero, as 0 and -1 nd are, has N or E: no zero is written with S or W. Gives 0, or 13.
 *
 * A notation that is read and then written is the same again, save a zero with S or W, which becomes one with N or E. An angle that is
 * written and then read is the same within 1 nd. */
int64_t marker_write_notation(bool longitude, int64_t nd, uint64_t notation[MARKER_NOTATION_LENGTH]);

/* Converts a VDatum file: every angle to the nearest nd and every height to the nearest unit, halves upward, from the float's exact
 * value. The buffer `nodes` has room for 4 * rows * columns bytes, no more and no less, and gets the height nodes of an image of
 * edition 2, ready to be burned. Gives 0 with the nodes and the geometry written, or 16 or 17 with both unchanged. */
int64_t marker_heights_from_vdatum(const uint8_t *file, size_t file_len, uint8_t *nodes, size_t nodes_len,
                                   int64_t geometry[MARKER_GEOMETRY_LENGTH]);

/* Converts an NTv2 file: the signs of longitudes and of their shifts are turned, then every angle becomes the nearest nd, halves upward,
 * from the float's exact value. The buffer `nodes` has room for 8 * rows * columns bytes of the first grid, no more and no less, and gets
 * the correction nodes of an image of edition 2, ready to be burned. The buffer `dense` likewise has room for those of the subgrid and gets
 * the dense nodes of kind 1; for a file with one grid its length is 0, with any non-null pointer, and the last six numbers of the geometry
 * become zeros. Gives 0 with both buffers and the geometry written, or 18 or 19 with all three unchanged. Whether the two grids fit each
 * other is not asked here: if they do not, an image of them is refused, by 20 in every call or by 21 in the grid check. */
int64_t marker_corrections_from_ntv2(const uint8_t *file, size_t file_len, uint8_t *nodes, size_t nodes_len, uint8_t *dense,
                                     size_t dense_len, int64_t geometry[MARKER_GEOMETRIES_LENGTH]);

/* Converts an image of kind 0 into one of kind 3. The buffer has room for the bytes from the first node to the image's end, no more and no
 * less, which is the back to the first correction node, and gets these bytes: the corrections in planes, then the heights and the trailer
 * as they were, but for the kind. It is an image as it stands, and so it is after any other bytes. Gives 0 with the buffer written, or 1 to
 * 6, 20, 2 or 14 with it unchanged.
 *
 * Every image of kind 0 and the one of kind 3 converted from it give the same numbers, findings and answers in every call above. */
int64_t marker_planes_from_nodes(const uint8_t *image, size_t image_len, uint8_t *buffer, size_t buffer_len);

/* Converts an image of kind 3 into one of kind 0, likewise. There and back gives the bytes of the image from its first node on. */
int64_t marker_nodes_from_planes(const uint8_t *image, size_t image_len, uint8_t *buffer, size_t buffer_len);

#ifdef __cplusplus
}
#endif

#endif
