/* Memory that is lent twice, to the library and to the reference, with the same bytes in and around it. Each copy
 * stands between two pages that nobody may touch, so that one byte too far at that end stops the program. */
#ifndef LEND_H
#define LEND_H

#include <stdbool.h>
#include <stddef.h>
#include <stdint.h>

struct lent {
    uint8_t *library;   /* what the library gets */
    uint8_t *reference; /* what the reference gets */
    size_t length;      /* bytes lent */
    uint8_t *pages[2];  /* where the two copies' pages start */
    size_t size;        /* bytes of a copy's pages */
};

/* Maps pages for up to so many bytes, and fills them with noise. */
void lend_open(struct lent *l, size_t most);

/* Lends so many bytes: the last ones of the pages, or the first. They hold whatever was there; both copies must then
 * be made the same by lend_fill or lend_copy. */
void lend(struct lent *l, size_t length, bool at_end);

/* Puts bytes into both copies, or makes the reference's pages equal to the library's. */
void lend_fill(struct lent *l, const void *bytes, size_t length);
void lend_copy(struct lent *l);

/* Whether both copies are the same, in what was lent and in the rest of the pages. If not, *place is the first
 * difference, counted from the start of what was lent. */
bool lend_same(const struct lent *l, ptrdiff_t *place);

#endif
