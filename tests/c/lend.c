/* Guarded memory by mmap and mprotect. */
#define _GNU_SOURCE
#include "lend.h"

#include <stdio.h>
#include <stdlib.h>
#include <string.h>
#include <sys/mman.h>
#include <unistd.h>

static uint8_t *guarded_pages(size_t size, size_t page)
{
    uint8_t *all = mmap(NULL, size + 2 * page, PROT_READ | PROT_WRITE, MAP_PRIVATE | MAP_ANONYMOUS, -1, 0);
    if (all == MAP_FAILED || mprotect(all, page, PROT_NONE) != 0 || mprotect(all + page + size, page, PROT_NONE) != 0) {
        perror("guarded pages");
        exit(2);
    }
    return all + page;
}

void lend_open(struct lent *l, size_t most)
{
    size_t page = (size_t)sysconf(_SC_PAGESIZE);
    l->size = (most + page - 1) / page * page;
    for (int i = 0; i < 2; i++) {
        l->pages[i] = guarded_pages(l->size, page);
        for (size_t j = 0; j < l->size; j++)
            l->pages[i][j] = (uint8_t)(j * 167 + 59);
    }
    lend(l, 0, true);
}

void lend(struct lent *l, size_t length, bool at_end)
{
    size_t start = at_end ? l->size - length : 0;
    if (length > l->size) {
        fprintf(stderr, "more lent than mapped\n");
        exit(2);
    }
    l->length = length;
    l->library = l->pages[0] + start;
    l->reference = l->pages[1] + start;
}

void lend_fill(struct lent *l, const void *bytes, size_t length)
{
    memcpy(l->library, bytes, length);
    memcpy(l->reference, bytes, length);
}

void lend_copy(struct lent *l) { memcpy(l->pages[1], l->pages[0], l->size); }

bool lend_same(const struct lent *l, ptrdiff_t *place)
{
    if (memcmp(l->pages[0], l->pages[1], l->size) == 0)
        return true;
    size_t i = 0;
    while (l->pages[0][i] == l->pages[1][i])
        i++;
    *place = (ptrdiff_t)i - (l->library - l->pages[0]);
    return false;
}
