/* Prints the report of a drawing: of the file that is named, or of standard input where none is.
 *
 *     cc examples/link/report.c crates/allocate_c/out/liballocate_c.a -o report
 *     ./report examples/district.drawing
 *
 * With a second word, a number, only so many bytes of the report are asked for; the exit status is then 3 where the report
 * is longer. A name of - is standard input. Where the drawing is refused, a line on standard error says so.
 */
#include <stdio.h>
#include <stdlib.h>
#include <string.h>

#include "allocate.h"

/* As many bytes of a drawing as may be looked at: one more than it may have, so that a longer one is refused. */
static uint8_t *read_all(FILE *in, size_t *len) {
    size_t most = allocate_most_bytes() + 1;
    uint8_t *bytes = malloc(most);
    if (bytes != NULL) {
        *len = fread(bytes, 1, most, in);
    }
    return bytes;
}

int main(int argc, char **argv) {
    FILE *in = argc > 1 && strcmp(argv[1], "-") != 0 ? fopen(argv[1], "rb") : stdin;
    if (in == NULL) {
        perror(argv[1]);
        return 1;
    }
    size_t len = 0;
    uint8_t *drawing = read_all(in, &len);
    if (drawing == NULL || ferror(in)) {
        return 1;
    }

    struct allocate_refusal refusal = {0};
    if (!allocate_check(drawing, len, &refusal)) {
        fprintf(stderr, "refused: %d, part %d, place %zu\n", refusal.number, refusal.part, refusal.place);
    }

    /* First how long the report is, and then the report. */
    uint8_t none = 0;
    size_t whole = allocate_report(drawing, len, &none, 0);
    size_t room = argc > 2 ? strtoul(argv[2], NULL, 10) : whole;
    uint8_t *out = malloc(room + 1);
    if (out == NULL) {
        return 1;
    }
    if (allocate_report(drawing, len, out, room) != whole) {
        return 2;
    }
    fwrite(out, 1, whole < room ? whole : room, stdout);
    free(out);
    free(drawing);
    return whole <= room ? 0 : 3;
}
