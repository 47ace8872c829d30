// The lines of vector files: what the one that is tried is a case of, how a failing one is reported, and how its fields are
// read (tests/vectors/README.md says what they are). Only tests/calls.c includes this.
//
// Nothing is freed: the files are small, and the program ends with them.
#ifndef VECTOR_LINES_H
#define VECTOR_LINES_H

#include <ctype.h>
#include <inttypes.h>
#include <signal.h>
#include <stdarg.h>
#include <stdbool.h>
#include <stddef.h>
#include <stdint.h>
#include <stdio.h>
#include <stdlib.h>
#include <string.h>
#include <unistd.h>

// ---- Failures

// The line that is being tried, and what it is a case of.
static const char *file_name;
static size_t line_number;
static const char *call_name;
static bool line_failed;

static bool any_failed;

// Says why the line failed, in one line of output: only its first reason is printed.
__attribute__((format(printf, 1, 2))) static void fail(const char *format, ...)
{
    if (line_failed)
        return;
    line_failed = true;
    any_failed = true;
    printf("FAILED: %s:%zu: %s: ", file_name, line_number, call_name);
    va_list values;
    va_start(values, format);
    vprintf(format, values);
    va_end(values);
    printf("\n");
}

// A call that crashes or hangs fails its case, and ends the test: nothing can be said of the cases after it.
static void end_at_signal(int number)
{
    fail("expected the call to return, got signal %d; the cases after this one are not tried", number);
    _exit(1);
}

static void watch_for_signals(void)
{
    static const int ends[] = {SIGSEGV, SIGBUS, SIGILL, SIGFPE, SIGABRT, SIGALRM};
    for (size_t i = 0; i < sizeof ends / sizeof ends[0]; i++)
        signal(ends[i], end_at_signal);
}

// ---- Byte strings

struct bytes {
    uint8_t *at;
    size_t length;
    size_t room;
};

// Memory for `size` bytes; never none, so that an empty string has an address too.
static void *memory(void *old, size_t size)
{
    void *new = realloc(old, size + 1);
    if (new == NULL) {
        fprintf(stderr, "calls: out of memory\n");
        exit(2);
    }
    return new;
}

static struct bytes no_bytes(void)
{
    return (struct bytes){.at = memory(NULL, 0), .length = 0, .room = 0};
}

static void append(struct bytes *to, const void *from, size_t length)
{
    if (to->room - to->length < length) {
        to->room = 2 * (to->length + length);
        to->at = memory(to->at, to->room);
    }
    memcpy(to->at + to->length, from, length);
    to->length += length;
}

static void append_byte(struct bytes *to, uint8_t byte)
{
    append(to, &byte, 1);
}

// Everything that a file has from its present place on.
static struct bytes rest_of(FILE *file)
{
    struct bytes rest = no_bytes();
    uint8_t part[4096];
    size_t count;
    while ((count = fread(part, 1, sizeof part, file)) > 0)
        append(&rest, part, count);
    return rest;
}

// ---- Reading a line of a vector file

// A place in a line, and the first thing found wrong with the line, if any, and where. The line ends with byte 0.
struct reader {
    const char *at;
    const char *fault;
    const char *fault_at;
};

static void misread(struct reader *reader, const char *fault)
{
    if (reader->fault != NULL)
        return;
    reader->fault = fault;
    reader->fault_at = reader->at;
}

static bool skip(struct reader *reader, char wanted)
{
    if (*reader->at != wanted)
        return false;
    reader->at++;
    return true;
}

static void expect(struct reader *reader, char wanted, const char *fault)
{
    if (!skip(reader, wanted))
        misread(reader, fault);
}

static void next_field(struct reader *reader)
{
    expect(reader, ' ', "a space and a further field are due here");
}

static int64_t read_number(struct reader *reader)
{
    char *end;
    long long number = strtoll(reader->at, &end, 10);
    if (isspace((unsigned char)*reader->at) || end == reader->at)
        misread(reader, "a decimal number is due here");
    else
        reader->at = end;
    return number;
}

// A number that has to fit into so many bits: a part of a word.
static uint64_t read_part(struct reader *reader, unsigned bits)
{
    int64_t number = read_number(reader);
    if (number < 0 || (uint64_t)number >> bits != 0)
        misread(reader, "the number that ends here is too large, or below 0");
    return (uint64_t)number;
}

static uint64_t read_next_part(struct reader *reader, unsigned bits)
{
    expect(reader, ',', "a comma and a further number are due here");
    return read_part(reader, bits);
}

// The two hexadecimal digits of \xHH.
static uint8_t read_hexadecimal(struct reader *reader)
{
    char digits[3] = "";
    for (int i = 0; i < 2 && isxdigit((unsigned char)*reader->at); i++)
        digits[i] = *reader->at++;
    if (digits[1] == 0)
        misread(reader, "two hexadecimal digits are due here");
    return (uint8_t)strtoul(digits, NULL, 16);
}

// What stands after a backslash in a quoted string.
static uint8_t read_escape(struct reader *reader)
{
    if (skip(reader, 'n'))
        return '\n';
    if (skip(reader, '"'))
        return '"';
    if (skip(reader, '\\'))
        return '\\';
    if (skip(reader, 'x'))
        return read_hexadecimal(reader);
    misread(reader, "after a backslash stands n, a quote, a backslash or x with two digits");
    return 0;
}

static struct bytes read_quoted(struct reader *reader)
{
    struct bytes quoted = no_bytes();
    expect(reader, '"', "a quoted string or a name is due here");
    while (*reader->at != 0 && *reader->at != '"' && reader->fault == NULL)
        append_byte(&quoted, skip(reader, '\\') ? read_escape(reader) : (uint8_t)*reader->at++);
    expect(reader, '"', "the quoted string has no end");
    return quoted;
}

// The byte strings that this file has named with `let` so far. A name is made of small letters.
enum { MOST_NAMES = 100 };
static struct {
    const char *name;
    size_t length;
    struct bytes bytes;
} named[MOST_NAMES];
static size_t names;

static size_t name_length(const struct reader *reader)
{
    return strspn(reader->at, "abcdefghijklmnopqrstuvwxyz");
}

// The place of a name, or the number of names if it is not among them.
static size_t place_of_name(const char *name, size_t length)
{
    size_t place = 0;
    while (place < names && (named[place].length != length || memcmp(named[place].name, name, length) != 0))
        place++;
    return place;
}

static struct bytes read_named(struct reader *reader)
{
    size_t length = name_length(reader), place = place_of_name(reader->at, length);
    if (place == names) {
        misread(reader, "no line above gives this name with let");
        return no_bytes();
    }
    reader->at += length;
    return named[place].bytes;
}

// A quoted string or a name, perhaps so many times: "E\n", join, 65534*"\n".
static void read_piece(struct reader *reader, struct bytes *to)
{
    uint64_t times = 1;
    if (isdigit((unsigned char)*reader->at)) {
        times = read_part(reader, 20);
        expect(reader, '*', "a star is due between a count and what is repeated");
    }
    struct bytes piece = name_length(reader) > 0 ? read_named(reader) : read_quoted(reader);
    for (uint64_t i = 0; i < times && reader->fault == NULL; i++)
        append(to, piece.at, piece.length);
}

static struct bytes read_bytes(struct reader *reader)
{
    struct bytes bytes = no_bytes();
    next_field(reader);
    do
        read_piece(reader, &bytes);
    while (skip(reader, '+'));
    return bytes;
}

// An area: its numbers, parted by commas, each perhaps so many times (`0,0,17*-1`), or `-` if it has none. What is
// returned are the numbers' bytes.
static struct bytes read_area(struct reader *reader)
{
    struct bytes area = no_bytes();
    next_field(reader);
    if (reader->at[0] == '-' && !isdigit((unsigned char)reader->at[1])) {
        reader->at++;
        return area;
    }
    do {
        int64_t times = 1, number = read_number(reader);
        if (skip(reader, '*')) {
            times = number;
            number = read_number(reader);
        }
        for (int64_t i = 0; i < times && reader->fault == NULL; i++)
            append(&area, &number, sizeof number);
    } while (skip(reader, ','));
    return area;
}

// Whether the line was understood and nothing is left over; if not, the line fails.
static bool understood(struct reader *reader)
{
    if (*reader->at != 0)
        misread(reader, "nothing more is due here");
    if (reader->fault != NULL)
        fail("the line is not in the form of a case: %s: '%.40s'", reader->fault, reader->fault_at);
    return reader->fault == NULL;
}

#endif
