/* The figures of document 01, starred and unstarred, each by name, put to the built library; the points of docs/ROUNDING.md; and figures
 * of our own for images of edition 2, of kinds 0 and 1, which document 02 has none for. Prints `ok NAME` or `FAILED NAME`. */
#include "asked.h"

/* G has 148 bytes, the image of edition 2 below 200, that with a dense grid 276. */
enum {
    ONE_GRID = 9 * 12 + 40,
    TWO_GRIDS = 9 * 8 + 12 * 4 + 80,
    DENSE_TRAILER = 9 * 8,
    THREE_GRIDS = DENSE_TRAILER + 36 + 9 * 8 + 4 * 4 + 80
};

/* Grid G with other corrections: latitude by row, longitude by a first value and a step for each column. */
static void grid(struct image *image, const int64_t latitude[3], int64_t longitude, int64_t step) {
    uint8_t *at = image->bytes;
    for (int row = 0; row < 3; row++) {
        for (int column = 0; column < 3; column++) {
            at = put(at, latitude[row], 4);
            at = put(at, longitude + step * column, 4);
            at = put(at, 430000 + 5 * column, 4);
        }
    }
    at = put_geometry(at, (int64_t[]){0, 0}, (int64_t[]){1000, 1000}, (int64_t[]){3, 3});
    put(put(at, ONE_GRID, 4), 1, 4);
    image->length = ONE_GRID;
}

/* Edition 2: G's corrections, and heights on a grid of 4 rows and 3 columns from (-400, 100) to (1700, 1900) with a step for each row and
 * each column. */
static void two_grids(struct image *image, int64_t row_step, int64_t column_step) {
    uint8_t *at = image->bytes;
    for (int node = 0; node < 9; node++) {
        at = put(put(at, 100 + 4 * (node / 3), 4), -50, 4);
    }
    for (int node = 0; node < 12; node++) {
        at = put(at, 430000 + row_step * (node / 3) + column_step * (node % 3), 4);
    }
    at = put_geometry(at, (int64_t[]){0, 0}, (int64_t[]){1000, 1000}, (int64_t[]){3, 3});
    at = put_geometry(at, (int64_t[]){-400, 100}, (int64_t[]){700, 900}, (int64_t[]){4, 3});
    put(put(put(put(at, TWO_GRIDS, 4), 12 * 4 + 80, 4), 0, 4), 2, 4);
    image->length = TWO_GRIDS;
}

/* Correction nodes with these latitude corrections, and longitude corrections of -50. */
static uint8_t *put_corrections(uint8_t *at, const int64_t latitude[9]) {
    for (int node = 0; node < 9; node++) {
        at = put(put(at, latitude[node], 4), -50, 4);
    }
    return at;
}

/* Kind 1, the image of crates/rules/proofs/DenseGrid.antt: G's geometry with latitude corrections of 300, 305 and 310 by row, heights of
 * 430,000 at its corners, and in its north-eastern cell a dense grid of 3 rows and columns with a first row, a second one with its sides
 * and its middle, and a third one of 310. The corrections above are 305, 307.5 and 310 there. */
static void three_grids(struct image *image, int64_t south, int64_t side, int64_t middle) {
    uint8_t *at = put_corrections(image->bytes, (int64_t[]){south, south, south, side, middle, side, 310, 310, 310});
    at = put_geometry(at, (int64_t[]){1000, 1000}, (int64_t[]){500, 500}, (int64_t[]){3, 3});
    at = put_corrections(put(at, THREE_GRIDS, 4), (int64_t[]){300, 300, 300, 305, 305, 305, 310, 310, 310});
    for (int node = 0; node < 4; node++) {
        at = put(at, 430000, 4);
    }
    at = put_geometry(at, (int64_t[]){0, 0}, (int64_t[]){1000, 1000}, (int64_t[]){3, 3});
    at = put_geometry(at, (int64_t[]){0, 0}, (int64_t[]){2000, 2000}, (int64_t[]){2, 2});
    put(put(put(put(at, 9 * 8 + 4 * 4 + 80, 4), 4 * 4 + 80, 4), 1, 4), 2, 4);
    image->length = THREE_GRIDS;
}

static bool writes(int64_t nd, uint64_t degrees, uint64_t minutes, uint64_t fraction, char letter) {
    uint64_t wanted[MARKER_NOTATION_LENGTH] = {degrees, minutes, fraction, (uint64_t)letter};
    uint64_t notation[MARKER_NOTATION_LENGTH];
    return marker_write_notation(false, nd, notation) == MARKER_DONE && memcmp(notation, wanted, sizeof wanted) == 0;
}

static void figures_of_g(void) {
    struct image g;
    grid(&g, (int64_t[]){100, 104, 108}, -50, 0);
    tell("back (500, 500)", gives(marker_list_back, &g, (int64_t[]){500, 500, 10000}, (int64_t[]){602, 450, 440003, 1}));
    tell("out (602, 450)", gives(marker_list_out, &g, (int64_t[]){602, 450, 440003}, (int64_t[]){500, 500, 10000, 2}));
    tell("back (2000, 2000)", gives(marker_list_back, &g, (int64_t[]){2000, 2000, 0}, (int64_t[]){2108, 1950, 430010, 1}));
    tell("back (2001, 2000) gives 8", refuses(marker_list_back, &g, (int64_t[]){2001, 2000, 0}, 8));
    tell("back (125, 0): 100.5 gives 101", gives(marker_list_back, &g, (int64_t[]){125, 0, 0}, (int64_t[]){226, -50, 430000, 1}));
    tell("out (50, 500) gives 10", refuses(marker_list_out, &g, (int64_t[]){50, 500, 0}, 10));
    tell("out (2050, 500) gives 8", refuses(marker_list_out, &g, (int64_t[]){2050, 500, 0}, 8));
    tell("G passes with 4 0 0 0 0 5", passes(&g, (int64_t[]){4, 0, 0, 0, 0, 5}));
}

/* The points of docs/ROUNDING.md, one for each of the six cases of document 02's note 3, but for those among 01's figures. */
static void figures_of_rounding(void) {
    struct image image;
    grid(&image, (int64_t[]){100, 104, 108}, -50, 0);
    tell("case 1: back (100, 0), 100.4 gives 100",
         gives(marker_list_back, &image, (int64_t[]){100, 0, 0}, (int64_t[]){200, -50, 430000, 1}));
    tell("case 3: back (200, 0), 100.8 gives 101",
         gives(marker_list_back, &image, (int64_t[]){200, 0, 0}, (int64_t[]){301, -50, 430000, 1}));
    tell("case 4: back (100, 300), -50 stays",
         gives(marker_list_back, &image, (int64_t[]){100, 300, 0}, (int64_t[]){200, 250, 430002, 1}));
    grid(&image, (int64_t[]){100, 104, 108}, -100, -1);
    tell("case 4: (0, 300), -100.3 gives -100",
         gives(marker_list_back, &image, (int64_t[]){0, 300, 0}, (int64_t[]){100, 200, 430002, 1}));
}

static void figures_of_variants(void) {
    struct image image;
    grid(&image, (int64_t[]){100, 104, 108}, -100, -1);
    tell("(0, 500) gives -100", gives(marker_list_back, &image, (int64_t[]){0, 500, 0}, (int64_t[]){100, 400, 430003, 1}));
    tell("(0, 700) gives -101", gives(marker_list_back, &image, (int64_t[]){0, 700, 0}, (int64_t[]){100, 599, 430004, 1}));
    grid(&image, (int64_t[]){0, 1000, 2000}, 0, 0);
    tell("0, 1000, 2000: out (1500, 500) gives 11", refuses(marker_list_out, &image, (int64_t[]){1500, 500, 0}, 11));
    tell("0, 1000, 2000: the check gives 12", check_refuses(&image, 12));
    grid(&image, (int64_t[]){100, 110, 120}, -50, 0);
    tell("100, 110, 120: out (602, 450) gives 497",
         gives(marker_list_out, &image, (int64_t[]){602, 450, 440003}, (int64_t[]){497, 500, 10000, 2}));
    tell("100, 110, 120 pass", passes(&image, (int64_t[]){10, 0, 0, 0, 0, 5}));
    grid(&image, (int64_t[]){100, 111, 122}, -50, 0);
    tell("100, 111, 122 give 12", check_refuses(&image, 12));
    grid(&image, (int64_t[]){100, 104, 108}, -50, 0);
    put(image.bytes + 48, 10000001, 4);
    tell("one node with 10,000,001 gives 9", check_refuses(&image, 9));
}

/* Expected values as the independent reference computes them (tests/reference/tests/edition_2/figures.rs). */
static void figures_of_edition_2(void) {
    struct image image;
    two_grids(&image, 3, 4);
    tell("edition 2: back (500, 500)", gives(marker_list_back, &image, (int64_t[]){500, 500, 10000}, (int64_t[]){602, 450, 440006, 1}));
    tell("edition 2: out (602, 450)", gives(marker_list_out, &image, (int64_t[]){602, 450, 440006}, (int64_t[]){500, 500, 10000, 2}));
    tell("edition 2: back (1700, 1900), the height grid's corner",
         gives(marker_list_back, &image, (int64_t[]){1700, 1900, 0}, (int64_t[]){1807, 1850, 430017, 1}));
    tell("edition 2: back (1701, 1900) gives 15", refuses(marker_list_back, &image, (int64_t[]){1701, 1900, 0}, 15));
    tell("edition 2: back (500, 99) gives 15", refuses(marker_list_back, &image, (int64_t[]){500, 99, 0}, 15));
    tell("edition 2: back (-1, 100) gives 8", refuses(marker_list_back, &image, (int64_t[]){-1, 100, 0}, 8));
    tell("edition 2: out (1807, 1850) ends on that corner",
         gives(marker_list_out, &image, (int64_t[]){1807, 1850, 430017}, (int64_t[]){1700, 1900, 0, 2}));
    tell("edition 2: out (1808, 1850) gives 15", refuses(marker_list_out, &image, (int64_t[]){1808, 1850, 430017}, 15));
    tell("edition 2: passes with 4 0 0 0 3 4", passes(&image, (int64_t[]){4, 0, 0, 0, 3, 4}));
    two_grids(&image, 4, 4);
    tell("edition 2: height steps 4 and 4 give 12", check_refuses(&image, 12));
}

/* Expected values as the independent reference computes them (tests/reference/tests/dense/corner_cell.rs). */
static void figures_of_kind_1(void) {
    struct image image;
    three_grids(&image, 306, 307, 309);
    tell("kind 1: passes with 5 0 0 0 0 0, the coarse steps", passes(&image, (int64_t[]){5, 0, 0, 0, 0, 0}));
    const struct {
        const char *name;
        int64_t fix[MARKER_FIX_LENGTH], values[MARKER_NUMBER];
    } back[] = {
        {"kind 1: back (1500, 1500), a dense node", {1500, 1500, 0}, {1809, 1450, 430000, 1}},
        {"kind 1: back (1000, 1500), on the southern dense bound", {1000, 1500, 0}, {1306, 1450, 430000, 1}},
        {"kind 1: back (999, 1500), south of it", {999, 1500, 0}, {1304, 1450, 430000, 1}},
        {"kind 1: back (1500, 1000), on the western dense bound", {1500, 1000, 0}, {1807, 950, 430000, 1}},
        {"kind 1: back (1500, 999), west of it", {1500, 999, 0}, {1808, 949, 430000, 1}},
        {"kind 1: back (2000, 2000), on the far bounds", {2000, 2000, 0}, {2310, 1950, 430000, 1}},
    };
    for (size_t i = 0; i < sizeof back / sizeof *back; i++) {
        tell(back[i].name, gives(marker_list_back, &image, back[i].fix, back[i].values));
    }
    tell("kind 1: back (2001, 2000) gives 8", refuses(marker_list_back, &image, (int64_t[]){2001, 2000, 0}, 8));
    tell("kind 1: out (1809, 1450)", gives(marker_list_out, &image, (int64_t[]){1809, 1450, 430000}, (int64_t[]){1500, 1500, 0, 2}));
    tell("kind 1: out (1304, 1450) ends south of the dense grid",
         gives(marker_list_out, &image, (int64_t[]){1304, 1450, 430000}, (int64_t[]){999, 1500, 0, 2}));
    tell("kind 1: out (1305, 1450) ends on its bound",
         gives(marker_list_out, &image, (int64_t[]){1305, 1450, 430000}, (int64_t[]){1000, 1500, 0, 2}));
    tell("kind 1: out (900, 1450) stops after a step of 2",
         gives(marker_list_out, &image, (int64_t[]){900, 1450, 430000}, (int64_t[]){597, 1500, 0, 2}));
    put(image.bytes + THREE_GRIDS - 8, 0, 4);
    tell("kind 1 said to be kind 0: out (900, 1450) goes on",
         gives(marker_list_out, &image, (int64_t[]){900, 1450, 430000}, (int64_t[]){597, 1500, 0, 3}));
}

/* Is this the number of the check over the image of kind 1 with a number of 4 bytes put at a place? */
static bool dense_refused(size_t place, int64_t value, int64_t number) {
    struct image image;
    three_grids(&image, 306, 307, 309);
    put(image.bytes + place, value, 4);
    return check_refuses(&image, number);
}

/* The border and the slopes of the dense grid, its 36 bytes and the back that leads to them. */
static void refusals_of_kind_1(void) {
    struct image image;
    three_grids(&image, 304, 307, 307);
    tell("kind 1: a border 1 nd below passes", passes(&image, (int64_t[]){5, 0, 0, 0, 0, 0}));
    three_grids(&image, 307, 307, 308);
    tell("kind 1: a border 2 nd above gives 21", check_refuses(&image, 21));
    three_grids(&image, 306, 309, 309);
    tell("kind 1: 309 beside 307.5 gives 21", check_refuses(&image, 21));
    three_grids(&image, 306, 307, 310);
    tell("kind 1: dense steps of 4 and 3 give 12", check_refuses(&image, 12));
    tell("kind 1: the last corner 2 nd off gives 21", dense_refused(DENSE_TRAILER - 8, 308, 21));
    tell("kind 1: a dense longitude of 10,000,001 gives 9", dense_refused(4, 10000001, 9));
    tell("kind 1: a correction back of 241 gives 1", dense_refused(THREE_GRIDS - 16, 241, 1));
    tell("kind 1: one dense row gives 3", dense_refused(DENSE_TRAILER + 24, 1, 3));
    tell("kind 1: a dense spacing of 0 gives 4", dense_refused(DENSE_TRAILER + 16, 0, 4));
    tell("kind 1: a far southern dense bound gives 5", dense_refused(DENSE_TRAILER + 4, INT32_MAX, 5));
    tell("kind 1: another dense back gives 6", dense_refused(DENSE_TRAILER + 32, THREE_GRIDS - 36, 6));
    tell("kind 1: a dense grid 1 nd further east gives 20", dense_refused(DENSE_TRAILER + 8, (WEST + 1001) & 0xFFFFFFFF, 20));
    tell("kind 1: a dense spacing of 499 gives 20", dense_refused(DENSE_TRAILER + 16, 499, 20));
    three_grids(&image, 306, 307, 309);
    put(image.bytes + DENSE_TRAILER + 16, 250, 4);
    int64_t untouched[1] = {7};
    tell("kind 1: 20 comes before 14",
         marker_list_out(image.bytes, image.length, untouched, 1, untouched, 1) == 20 && untouched[0] == 7);
}

/* Edition 2's trailer and nodes broken, one at a time. */
static void refusals_of_edition_2(void) {
    struct image image;
    two_grids(&image, 3, 4);
    put(image.bytes + TWO_GRIDS - 8, 4, 4);
    tell("edition 2: kind 4 gives 2", check_refuses(&image, 2));
    two_grids(&image, 3, 4);
    memmove(image.bytes, image.bytes + TWO_GRIDS - 79, 79);
    image.length = 79;
    tell("edition 2: 79 bytes give 1", check_refuses(&image, 1));
    two_grids(&image, 3, 4);
    put(image.bytes + TWO_GRIDS - 24, 1, 4);
    tell("edition 2: one row of heights gives 3", check_refuses(&image, 3));
    two_grids(&image, 3, 4);
    put(image.bytes + TWO_GRIDS - 84, 1000001, 4);
    tell("edition 2: one height of 1,000,001 gives 9", check_refuses(&image, 9));
}

static void figures_of_notation(void) {
    int64_t nd = 0;
    bool read = marker_read_notation(false, 52, 5, 2987000, 'N', &nd) == MARKER_DONE;
    tell("52 5 29.87000 N is 52,091,630,556", read && nd == INT64_C(52091630556));
    tell("52,091,630,556 is written so again", writes(INT64_C(52091630556), 52, 5, 2987000, 'N'));
    tell("16,666,666 is 0 1 0.00000", writes(16666666, 0, 1, 0, 'N'));
    tell("16,666,665 is 0 0 59.99999", writes(16666665, 0, 0, 5999999, 'N'));
    tell("-1 is 0 0 0.00000 N (02, note 7)", writes(-1, 0, 0, 0, 'N'));
    tell("-2 is 0 0 0.00001 S", writes(-2, 0, 0, 1, 'S'));
    nd = 7;
    read = marker_read_notation(false, 0, 0, 0, 'S', &nd) == MARKER_DONE;
    tell("0 0 0.00000 S is read as 0", read && nd == 0);
}

int main(void) {
    figures_of_g();
    figures_of_rounding();
    figures_of_variants();
    figures_of_notation();
    figures_of_edition_2();
    refusals_of_edition_2();
    figures_of_kind_1();
    refusals_of_kind_1();
    return failures == 0 ? 0 : 1;
}
