// What the calls are lent: between guard bytes, with a copy of what it has to be when a call has returned. Only tests/calls.c
// includes this.
#ifndef LENT_BUFFERS_H
#define LENT_BUFFERS_H

#include "vector_lines.h"

// Bytes lent to a call, between guards, and a copy of all that: what it has to be when the call has returned.
struct lent {
    uint8_t *block;
    uint8_t *expected;
    size_t guard;
    size_t length;
};

// Text is lent at an odd address, as nothing may count on another; an area where 64-bit numbers may lie.
enum { TEXT_GUARD = 77, AREA_GUARD = 16 * sizeof(int64_t) };

static struct lent lend(struct bytes bytes, size_t guard)
{
    size_t size = guard + bytes.length + guard;
    struct lent lent = {memory(NULL, size), memory(NULL, size), guard, bytes.length};
    for (size_t i = 0; i < size; i++)
        lent.block[i] = (uint8_t)(37 * i + 11);
    memcpy(lent.block + guard, bytes.at, bytes.length);
    memcpy(lent.expected, lent.block, size);
    return lent;
}

static uint8_t *lent_bytes(struct lent lent)
{
    return lent.block + lent.guard;
}

// Sees that a call wrote nothing to what it was lent to read, nor beside it.
static void compare_unwritten(struct lent lent, const char *what)
{
    for (size_t i = 0; i < lent.guard + lent.length + lent.guard; i++)
        if (lent.block[i] != lent.expected[i])
            fail("the call wrote %d over %d at byte %td of the %s, which has %zu: expected no write", lent.block[i],
                 lent.expected[i], (ptrdiff_t)(i - lent.guard), what, lent.length);
}

// Sees that the area is as it should be at exit, and that nothing was written beside it.
static void compare_area(struct lent area, struct bytes at_exit)
{
    memcpy(area.expected + area.guard, at_exit.at, at_exit.length);
    const int64_t *got = (const int64_t *)area.block, *expected = (const int64_t *)area.expected;
    size_t before = area.guard / sizeof *got, count = area.length / sizeof *got;
    for (size_t i = 0; i < before + count + before; i++)
        if (got[i] != expected[i])
            fail("number %td of the area, which has %zu: expected %" PRId64 ", got %" PRId64,
                 (ptrdiff_t)(i - before) + 1, count, expected[i], got[i]);
}

// A page of so many bytes to write on: the sheet's, or the import's buffer. It is filled with bytes above 127, another one at
// each place, and neither writes such: so a byte that is not written shows, and one that is written where nothing is due.
static struct lent lend_page(size_t length)
{
    struct bytes page = no_bytes();
    for (size_t i = 0; i < length; i++)
        append_byte(&page, (uint8_t)(128 + (37 * i + 11) % 128));
    return lend(page, TEXT_GUARD);
}

// Sees that what is due lies at the front of the page, and that nothing was written after it or beside the page.
static void compare_page(struct lent page, struct bytes due)
{
    memcpy(page.expected + page.guard, due.at, due.length);
    for (size_t i = 0; i < page.guard + page.length + page.guard; i++)
        if (page.block[i] != page.expected[i])
            fail("byte %td of the page, which has %zu, counted from 0: expected %d, got %d", (ptrdiff_t)(i - page.guard),
                 page.length, page.expected[i], page.block[i]);
}

#endif
