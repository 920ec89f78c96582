/* The grid check of an image file of any size: prints the line of the program gridcheck, and after a refusal what its number means.
 *
 *   check IMAGE
 *
 * Exits with 0 for a pass, 1 for a refusal, 2 if the file cannot be read.
 */
#include <stdint.h>
#include <stdio.h>
#include <stdlib.h>

#include "findings.h"
#include "marker.h"
#include "read_file.h"
#include "refusal.h"

int main(int count, char **words) {
    if (count != 2) {
        fprintf(stderr, "usage: check IMAGE\n");
        return 2;
    }
    size_t size = 0;
    uint8_t *image = read_file(words[1], &size);
    if (image == NULL) {
        fprintf(stderr, "check: cannot read %s\n", words[1]);
        return 2;
    }
    int64_t findings[MARKER_FINDINGS_LENGTH];
    int64_t number = marker_grid_check(image, size, findings);
    free(image);
    if (number != MARKER_DONE) {
        print_refusal(number);
        return 1;
    }
    print_findings(findings);
    return 0;
}
