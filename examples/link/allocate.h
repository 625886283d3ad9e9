/* Drawings of irrigation schemes, checked and reported: the functions of the static library
 *
 *     crates/allocate_c/out/liballocate_c.a
 *
 * docs/LIBRARY-C.md says more, and what is proved of them. Nothing checks that these declarations fit the library; they are
 * only tested, by tools/link_test.
 *
 * Of every function:
 * - A drawing is any bytes at all. docs/DRAWING.md says which are accepted.
 * - A pointer is never null, also where its length is 0, and its bytes are there for the whole call. Nothing else writes to
 *   them during the call, and the bytes of `out` and of `refusal` lie apart from those of the drawing. No length is 2^63 or
 *   more. Nothing checks any of this.
 * - It keeps nothing: no pointer, no state and no memory. Calls from several threads at the same time are apart from each
 *   other.
 * - It allocates nothing on a heap. It needs stack, of which docs/LIBRARY-C.md says how much was seen to be enough.
 */
#ifndef ALLOCATE_H
#define ALLOCATE_H

#include <stdbool.h>
#include <stddef.h>
#include <stdint.h>

#ifdef __cplusplus
extern "C" {
#endif

/* The searches. */
#define ALLOCATE_DD1 0
#define ALLOCATE_DD2 1
#define ALLOCATE_BREADTH_FIRST 2

/* The parts of the software that refuse. */
#define ALLOCATE_READER 0
#define ALLOCATE_DRAFT 1
#define ALLOCATE_CHAMBERS 2
#define ALLOCATE_GATHERING 3
#define ALLOCATE_NETWORK 4

/* A refusal: its number, from 1 to 14 (docs/REFUSALS.md); the part that gives it; whether a place is known, 1 or 0; and
 * this place, counted in bytes from the start of the drawing, or 0 where none is known. */
struct allocate_refusal {
    uint8_t number;
    uint8_t part;
    uint8_t has_place;
    size_t place;
};

/* The most bytes that a drawing may have: 65536. A longer one is refused with 13. */
size_t allocate_most_bytes(void);

/* Whether a drawing is accepted: its report tells the size of its network first. Then `*refusal` stays as it is. Otherwise
 * the whole report is one refusal, and `*refusal` is set to it. Commands are not carried out, but for the reading of the
 * first: what they come to, only the report says. */
bool allocate_check(const uint8_t *drawing, size_t drawing_len, struct allocate_refusal *refusal);

/* Writes the report of a drawing, as the program `allocate` prints it, to the first bytes of `out`, as many as there are,
 * and answers how many bytes the whole report has. So the report is there whole where the answer is at most `out_len`. No
 * zero is put behind it, and the bytes of `out` behind the report stay as they are. */
size_t allocate_report(const uint8_t *drawing, size_t drawing_len, uint8_t *out, size_t out_len);

/* The same by one of the searches. A number that names none of them is taken as ALLOCATE_DD1. What is written and answered
 * does not depend on the search. */
size_t allocate_report_by(uint8_t search, const uint8_t *drawing, size_t drawing_len, uint8_t *out, size_t out_len);

#ifdef __cplusplus
}
#endif

#endif
