/* Calls every function of examples/link/allocate.h on drawings, and compares what they say of each other.
 *
 * Reads lines from standard input: a name, a space, and the bytes of a drawing in hexadecimal digits, or - for none. For each
 * it asks for the report with room for none of its bytes, for one, for all but one, for all, and for more; by each search and
 * by a number that names none; and whether the drawing is accepted. It prints a line for each thing that is not as the header
 * says, and then how many comparisons agreed. The exit status is 1 where one did not.
 */
#include <stdio.h>
#include <stdlib.h>
#include <string.h>

#include "allocate.h"

/* What stands in `out` before a call. */
#define BEFORE 0xA5

static size_t agreed, differed;

static void compare(int same, const char *name, const char *what) {
    if (same) {
        agreed++;
    } else {
        differed++;
        printf("%s: %s\n", name, what);
    }
}

/* The value of a hexadecimal digit. */
static unsigned digit(char c) {
    return c <= '9' ? c - '0' : c - 'a' + 10;
}

/* The report with so much room: as much of it as there is room for, the length of the whole, and the bytes behind it. */
static void with_room(const char *name, const uint8_t *drawing, size_t len, const uint8_t *report, size_t whole, size_t room) {
    uint8_t *out = malloc(room + 16);
    memset(out, BEFORE, room + 16);
    size_t said = allocate_report(drawing, len, out, room);
    size_t written = whole < room ? whole : room;
    int kept = 1;
    for (size_t i = written; i < room + 16; i++) {
        kept = kept && out[i] == BEFORE;
    }
    compare(said == whole, name, "another length");
    compare(memcmp(out, report, written) == 0, name, "another text where there is less room or more");
    compare(kept, name, "a byte behind the text was written");
    free(out);
}

/* The report by a search, or by a number that names none. */
static void by_search(const char *name, const uint8_t *drawing, size_t len, const uint8_t *report, size_t whole, uint8_t search) {
    uint8_t *out = malloc(whole);
    size_t said = allocate_report_by(search, drawing, len, out, whole);
    compare(said == whole && memcmp(out, report, whole) == 0, name, "another report by another search");
    free(out);
}

/* Whether the drawing is accepted, and if not, the refusal, as the report tells both. */
static void checked(const char *name, const uint8_t *drawing, size_t len, const uint8_t *report, size_t whole) {
    static const char *const parts[] = {"reader", "draft", "chambers", "gathering", "network"};
    struct allocate_refusal refusal = {BEFORE, BEFORE, BEFORE, BEFORE};
    char line[80];
    int said;
    if (allocate_check(drawing, len, &refusal)) {
        compare(whole > 8 && memcmp(report, "network ", 8) == 0, name, "accepted, and no network is told");
        compare(refusal.number == BEFORE && refusal.part == BEFORE && refusal.has_place == BEFORE && refusal.place == BEFORE, name,
                "accepted, and a refusal was written");
        return;
    }
    if (refusal.part > ALLOCATE_NETWORK) {
        compare(0, name, "refused by no part");
        return;
    }
    if (refusal.has_place) {
        said = snprintf(line, sizeof line, "refused %u at %zu in %s\n", refusal.number, refusal.place, parts[refusal.part]);
    } else {
        said = snprintf(line, sizeof line, "refused %u in %s\n", refusal.number, parts[refusal.part]);
    }
    compare((size_t)said == whole && memcmp(line, report, whole) == 0, name, "another refusal");
}

static void on_drawing(const char *name, const uint8_t *drawing, size_t len) {
    uint8_t none = 0;
    size_t whole = allocate_report(drawing, len, &none, 0);
    uint8_t *report = malloc(whole + 1);
    allocate_report(drawing, len, report, whole);
    size_t rooms[] = {0, 1, whole - 1, whole, whole + 100};
    for (size_t i = 0; i < sizeof rooms / sizeof *rooms; i++) {
        with_room(name, drawing, len, report, whole, rooms[i]);
    }
    uint8_t searches[] = {ALLOCATE_DD1, ALLOCATE_DD2, ALLOCATE_BREADTH_FIRST, 3, 255};
    for (size_t i = 0; i < sizeof searches; i++) {
        by_search(name, drawing, len, report, whole, searches[i]);
    }
    checked(name, drawing, len, report, whole);
    free(report);
}

int main(void) {
    size_t most = 4 * allocate_most_bytes();
    char *line = malloc(most);
    uint8_t *drawing = malloc(most);
    while (fgets(line, (int)most, stdin) != NULL) {
        char *digits = strchr(line, ' ');
        if (digits == NULL) {
            return 1;
        }
        *digits++ = 0;
        digits[strcspn(digits, "\n")] = 0;
        size_t len = strcmp(digits, "-") == 0 ? 0 : strlen(digits) / 2;
        for (size_t i = 0; i < len; i++) {
            drawing[i] = (uint8_t)(digit(digits[2 * i]) * 16 + digit(digits[2 * i + 1]));
        }
        on_drawing(line, drawing, len);
    }
    free(drawing);
    free(line);
    printf("%zu agreed, %zu differed\n", agreed, differed);
    return differed == 0 ? 0 : 1;
}
