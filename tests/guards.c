// Stands between a caller and the library: each lent buffer is copied between guard bytes, the real call is made on the
// copy, and it is seen that the guards stand, that nothing was written but the area, the page or the buffer for lines, and
// no more of those than the documents allow. The linker puts these functions in front of the calls (--wrap), so the callers
// need not know of them.
#include "cerrundix.h"

#include <stdio.h>
#include <stdlib.h>
#include <string.h>

uint64_t __real_check(const uint8_t *text, size_t text_length, int64_t *area, size_t area_length);
uint64_t __real_reserve(const uint8_t *text, size_t text_length, const uint8_t *query, size_t query_length);
uint64_t __real_measure(const uint8_t *term, size_t term_length);
struct cerrundix_answer __real_cerrundix_sheet(const uint8_t *text, size_t text_length, uint8_t *page, size_t page_length);
struct cerrundix_answer __real_cerrundix_import(const uint8_t *text, size_t text_length, uint8_t *buffer, size_t buffer_length);
uint64_t __wrap_check(const uint8_t *text, size_t text_length, int64_t *area, size_t area_length);
uint64_t __wrap_reserve(const uint8_t *text, size_t text_length, const uint8_t *query, size_t query_length);
uint64_t __wrap_measure(const uint8_t *term, size_t term_length);
struct cerrundix_answer __wrap_cerrundix_sheet(const uint8_t *text, size_t text_length, uint8_t *page, size_t page_length);
struct cerrundix_answer __wrap_cerrundix_import(const uint8_t *text, size_t text_length, uint8_t *buffer, size_t buffer_length);

enum { GUARD = 64, FILL = 0xa5 };

static void fail(const char *what) {
    fprintf(stderr, "guards: %s\n", what);
    abort();
}

// A copy of a buffer between guards.
static uint8_t *lend(const void *from, size_t size) {
    uint8_t *block = malloc(size + 2 * GUARD);
    if (block == NULL) {
        fail("no memory");
    }
    memset(block, FILL, size + 2 * GUARD);
    if (size != 0) {
        memcpy(block + GUARD, from, size);
    }
    return block + GUARD;
}

// Takes a copy back: its guards must stand. What it holds is copied to `to`, or must be what `from` holds.
static void take_back(uint8_t *lent, const void *from, void *to, size_t size) {
    for (size_t i = 0; i < GUARD; i++) {
        if (lent[-1 - (ptrdiff_t)i] != FILL || lent[size + i] != FILL) {
            fail("a call wrote outside a buffer that it was lent");
        }
    }
    if (to == NULL && size != 0 && memcmp(lent, from, size) != 0) {
        fail("a call wrote to a buffer that it may only read");
    }
    if (to != NULL && size != 0) {
        memcpy(to, lent, size);
    }
    free(lent - GUARD);
}

uint64_t __wrap_check(const uint8_t *text, size_t text_length, int64_t *area, size_t area_length) {
    size_t area_size = area_length * sizeof *area;
    uint8_t *lent_text = lend(text, text_length), *lent_area = lend(area, area_size);
    uint64_t word = __real_check(lent_text, text_length, (int64_t *)lent_area, area_length);
    size_t kept = cerrundix_number(word) == 13 ? CERRUNDIX_AREA * sizeof *area : 0;
    if (memcmp(lent_area + kept, (const uint8_t *)area + kept, area_size - kept) != 0) {
        fail("check wrote more of the area than it may");
    }
    take_back(lent_text, text, NULL, text_length);
    take_back(lent_area, area, area, area_size);
    return word;
}

uint64_t __wrap_reserve(const uint8_t *text, size_t text_length, const uint8_t *query, size_t query_length) {
    uint8_t *lent_text = lend(text, text_length), *lent_query = lend(query, query_length);
    uint64_t word = __real_reserve(lent_text, text_length, lent_query, query_length);
    take_back(lent_text, text, NULL, text_length);
    take_back(lent_query, query, NULL, query_length);
    return word;
}

uint64_t __wrap_measure(const uint8_t *term, size_t term_length) {
    uint8_t *lent = lend(term, term_length);
    uint64_t word = __real_measure(lent, term_length);
    take_back(lent, term, NULL, term_length);
    return word;
}

// A call that writes to the front of a page: no more of it than its answer counts, in units of so many bytes.
static struct cerrundix_answer watch_page(struct cerrundix_answer (*call)(const uint8_t *, size_t, uint8_t *, size_t), size_t unit,
                                          const uint8_t *text, size_t text_length, uint8_t *page, size_t page_length) {
    uint8_t *lent_text = lend(text, text_length), *lent_page = lend(page, page_length);
    struct cerrundix_answer answer = call(lent_text, text_length, lent_page, page_length);
    size_t written = answer.number == 0 ? answer.rule * unit : 0;
    if (written > page_length) {
        fail("a call counts more bytes than the page has");
    }
    if (page_length != written && memcmp(lent_page + written, page + written, page_length - written) != 0) {
        fail("a call wrote more of the page than it counts");
    }
    take_back(lent_text, text, NULL, text_length);
    take_back(lent_page, page, page, page_length);
    return answer;
}

struct cerrundix_answer __wrap_cerrundix_sheet(const uint8_t *text, size_t text_length, uint8_t *page, size_t page_length) {
    return watch_page(__real_cerrundix_sheet, CERRUNDIX_SHEET_LINE, text, text_length, page, page_length);
}

struct cerrundix_answer __wrap_cerrundix_import(const uint8_t *text, size_t text_length, uint8_t *buffer, size_t buffer_length) {
    return watch_page(__real_cerrundix_import, 1, text, text_length, buffer, buffer_length);
}
