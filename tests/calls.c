// Calls the library as the terminal's firmware does, and runs the program packcheck, on the cases of vector files
// (tests/vectors/README.md says what their lines are). Answers are compared whole: each word, the four numbers of sheet and
// import, check's area, the sheet's page and the import's buffer at exit, the program's output. All that a call is lent
// stands between guard bytes, and nothing may be written but check's area, the page and the buffer.
//
//     calls PROGRAM FILE...
//
// It prints a line 'FAILED: FILE:LINE: ..' for each case that fails and for each file and call a line
// 'ok: N CALL of FILE' with the number of cases that passed. It exits with 1 if anything failed.
#define _POSIX_C_SOURCE 200809L
#include "cerrundix.h"
#include "lent_buffers.h"
#include "vector_lines.h"

#include <sys/wait.h>

// The longest that a run of the program, and the calls of one file, may take before they count as hanging, in seconds.
enum { PROGRAM_SECONDS = 60, FILE_SECONDS = 600 };

// ---- The calls

// `check TEXT AREA NUMBERS AREA`: the area at entry, the four numbers, the area at exit.
static void try_check(struct reader *reader)
{
    struct bytes text = read_bytes(reader);
    struct bytes at_entry = read_area(reader);
    next_field(reader);
    uint64_t number = read_part(reader, 8), line = read_next_part(reader, 16);
    uint64_t rule = read_next_part(reader, 8), claim = read_next_part(reader, 32);
    struct bytes at_exit = read_area(reader);
    if (at_entry.length != at_exit.length)
        misread(reader, "the areas at entry and at exit differ in length");
    if (!understood(reader))
        return;
    struct lent lent = lend(text, TEXT_GUARD), area = lend(at_entry, AREA_GUARD);
    size_t count = at_entry.length / sizeof(int64_t);
    uint64_t word = check(lent_bytes(lent), text.length, (int64_t *)lent_bytes(area), count);
    if (word != (number | line << 8 | rule << 24 | claim << 32))
        fail("expected %" PRIu64 ",%" PRIu64 ",%" PRIu64 ",%" PRIu64 ", got %" PRIu64 ",%" PRIu64 ",%" PRIu64
             ",%" PRIu64 " (word 0x%" PRIx64 ")",
             number, line, rule, claim, word & 0xff, word >> 8 & 0xffff, word >> 24 & 0xff, word >> 32, word);
    compare_area(area, at_exit);
    compare_unwritten(lent, "text");
}

// `reserve TEXT QUERY LETTER,MIDDLE,CLAIM`: the three fields as the program prints them.
static void try_reserve(struct reader *reader)
{
    struct bytes text = read_bytes(reader);
    struct bytes query = read_bytes(reader);
    next_field(reader);
    uint64_t letter = 0;
    if (*reader->at != 0 && strchr("BNIR", *reader->at) != NULL)
        letter = (uint8_t)*reader->at++;
    else
        misread(reader, "one of the letters B, N, I and R is due here");
    uint64_t middle = read_next_part(reader, 48), claim = read_next_part(reader, 8);
    if (!understood(reader))
        return;
    struct lent lent_text = lend(text, TEXT_GUARD), lent_query = lend(query, TEXT_GUARD);
    uint64_t word = reserve(lent_bytes(lent_text), text.length, lent_bytes(lent_query), query.length);
    int got = isprint((int)(word & 0xff)) ? (int)(word & 0xff) : '?';
    if (word != (letter | claim << 8 | middle << 16))
        fail("expected %c,%" PRIu64 ",%" PRIu64 ", got %c,%" PRIu64 ",%" PRIu64 " (word 0x%" PRIx64 ")", (int)letter,
             middle, claim, got, word >> 16, word >> 8 & 0xff, word);
    compare_unwritten(lent_text, "text");
    compare_unwritten(lent_query, "query");
}

// `measure TERM REFUSAL,SIZE`.
static void try_measure(struct reader *reader)
{
    struct bytes term = read_bytes(reader);
    next_field(reader);
    uint64_t refusal = read_part(reader, 8), size = read_next_part(reader, 56);
    if (!understood(reader))
        return;
    struct lent lent = lend(term, TEXT_GUARD);
    uint64_t word = measure(lent_bytes(lent), term.length);
    if (word != (refusal | size << 8))
        fail("expected %" PRIu64 ",%" PRIu64 ", got %" PRIu64 ",%" PRIu64 " (word 0x%" PRIx64 ")", refusal, size,
             word & 0xff, word >> 8, word);
    compare_unwritten(lent, "term");
}

// `CALL TEXT ROOM NUMBERS WRITTEN`: how many bytes the page has, the four numbers, and what is written to its front, of no
// bytes where nothing is.
static void try_written(struct reader *reader, struct cerrundix_answer (*call)(const uint8_t *, size_t, uint8_t *, size_t))
{
    struct bytes text = read_bytes(reader);
    next_field(reader);
    size_t room = read_part(reader, 20);
    next_field(reader);
    uint64_t number = read_part(reader, 63), line = read_next_part(reader, 63);
    uint64_t rule = read_next_part(reader, 63), claim = read_next_part(reader, 63);
    struct bytes written = read_bytes(reader);
    if (written.length > room)
        misread(reader, "more bytes are to be written than there is room");
    if (!understood(reader))
        return;
    struct lent lent = lend(text, TEXT_GUARD), page = lend_page(room);
    struct cerrundix_answer got = call(lent_bytes(lent), text.length, lent_bytes(page), room);
    if (got.number != number || got.line != line || got.rule != rule || got.claim != claim)
        fail("expected %" PRIu64 ",%" PRIu64 ",%" PRIu64 ",%" PRIu64 ", got %" PRIu64 ",%" PRIu64 ",%" PRIu64 ",%" PRIu64,
             number, line, rule, claim, got.number, got.line, got.rule, got.claim);
    compare_page(page, written);
    compare_unwritten(lent, "text");
}

// `sheet TEXT ROOM NUMBERS SHEET`.
static void try_sheet(struct reader *reader)
{
    try_written(reader, cerrundix_sheet);
}

// `import TEXT ROOM NUMBERS LINES`.
static void try_import(struct reader *reader)
{
    try_written(reader, cerrundix_import);
}

// ---- The program

static const char *program;

// The child's part: becomes the program, with these files as its standard input and output.
static void become_program(FILE *input, FILE *output)
{
    alarm(PROGRAM_SECONDS);
    if (dup2(fileno(input), STDIN_FILENO) >= 0 && dup2(fileno(output), STDOUT_FILENO) >= 0)
        execl(program, program, (char *)NULL);
    _exit(127);
}

// What the program prints for an input. Files and not pipes stand at both ends, so that neither side waits for the
// other, whatever the program does.
static struct bytes output_for(struct bytes input)
{
    FILE *in = tmpfile(), *out = tmpfile();
    if (in == NULL || out == NULL || fwrite(input.at, 1, input.length, in) != input.length || fflush(in) != 0) {
        fprintf(stderr, "calls: no temporary file can be written; see whether the disk is full\n");
        exit(2);
    }
    rewind(in);
    int status = 0;
    pid_t child = fork();
    if (child == 0)
        become_program(in, out);
    if (child < 0 || waitpid(child, &status, 0) != child)
        fail("no process can be started for %s", program);
    else if (WIFSIGNALED(status))
        fail("expected the exit status 0, but %s was ended by signal %d", program, WTERMSIG(status));
    else if (WEXITSTATUS(status) != 0)
        fail("expected the exit status 0, but %s ended with %d (127: it cannot be run)", program, WEXITSTATUS(status));
    rewind(out);
    struct bytes output = rest_of(out);
    fclose(in);
    fclose(out);
    return output;
}

// The length of the line at a place of an output, as far as a message shows it.
static int shown_length(struct bytes output, size_t at)
{
    int length = 0;
    while (length < 60 && at + (size_t)length < output.length && output.at[at + (size_t)length] != '\n')
        length++;
    return length;
}

static void compare_output(struct bytes expected, struct bytes got)
{
    size_t common = 0, line = 1, start = 0;
    while (common < expected.length && common < got.length && expected.at[common] == got.at[common])
        if (expected.at[common++] == '\n') {
            line++;
            start = common;
        }
    if (common == expected.length && common == got.length)
        return;
    fail("expected %zu bytes, got %zu; they differ at byte %zu, in line %zu: expected '%.*s', got '%.*s'",
         expected.length, got.length, common, line, shown_length(expected, start), expected.at + start,
         shown_length(got, start), got.at + start);
}

// `program INPUT OUTPUT`.
static void try_program(struct reader *reader)
{
    struct bytes input = read_bytes(reader);
    struct bytes expected = read_bytes(reader);
    if (understood(reader))
        compare_output(expected, output_for(input));
}

// ---- Files

// `let NAME BYTES`: from here on the name stands for the bytes.
static void name_bytes(struct reader *reader)
{
    next_field(reader);
    const char *name = reader->at;
    size_t length = name_length(reader);
    if (length == 0)
        misread(reader, "a name of small letters is due here");
    if (place_of_name(name, length) < names)
        misread(reader, "this name is given already");
    reader->at += length;
    struct bytes bytes = read_bytes(reader);
    if (names == MOST_NAMES)
        misread(reader, "too many names: raise MOST_NAMES in tests/vector_lines.h");
    if (!understood(reader))
        return;
    named[names].name = name;
    named[names].length = length;
    named[names++].bytes = bytes;
}

static const struct {
    const char *name;
    void (*attempt)(struct reader *);
} calls[] = {{"check", try_check},
             {"reserve", try_reserve},
             {"measure", try_measure},
             {"sheet", try_sheet},
             {"import", try_import},
             {"program", try_program}};
enum { CALLS = sizeof calls / sizeof calls[0] };

// Tries the case that a line holds, if it is one, and counts it if it passes.
static void try_line(const char *line, size_t passed[CALLS])
{
    size_t length = strcspn(line, " ");
    struct reader reader = {.at = line + length, .fault = NULL, .fault_at = NULL};
    line_failed = false;
    call_name = "no call";
    if (*line == 0 || *line == '#')
        return;
    if (length == strlen("let") && memcmp(line, "let", length) == 0) {
        call_name = "let";
        name_bytes(&reader);
        return;
    }
    for (size_t i = 0; i < CALLS; i++)
        if (length == strlen(calls[i].name) && memcmp(line, calls[i].name, length) == 0) {
            call_name = calls[i].name;
            calls[i].attempt(&reader);
            passed[i] += line_failed ? 0 : 1;
            return;
        }
    fail("a line begins with check, reserve, measure, sheet, import, program, let or #: '%.40s'", line);
}

// Tries each line of a file's text, which it cuts at byte 10.
static void try_lines(struct bytes text, size_t passed[CALLS])
{
    append_byte(&text, 0);
    char *line = (char *)text.at;
    while (line != NULL) {
        char *end = strchr(line, '\n');
        if (end != NULL)
            *end++ = 0;
        line_number++;
        try_line(line, passed);
        line = end;
    }
}

static void try_file(const char *name)
{
    size_t passed[CALLS] = {0}, all = 0;
    file_name = name;
    call_name = "the file";
    line_number = 0;
    line_failed = false;
    names = 0;
    FILE *file = fopen(name, "r");
    if (file == NULL) {
        fail("it cannot be read");
        return;
    }
    alarm(FILE_SECONDS);
    try_lines(rest_of(file), passed);
    fclose(file);
    call_name = "the file";
    for (size_t i = 0; i < CALLS; i++) {
        all += passed[i];
        if (passed[i] > 0)
            printf("ok: %zu %s of %s\n", passed[i], calls[i].name, name);
    }
    if (all == 0)
        fail("not one case of it passed");
}

// Buffers of length 0 lent as NULL, as cerrundix.h allows: check refuses for the area and then for the text, reserve and the
// sheet for the pack, measure for the term; the sheet of a pack without rules needs no page.
static void try_null(void)
{
    int64_t area[CERRUNDIX_AREA] = {0};
    file_name = "tests/calls.c";
    line_number = __LINE__;
    call_name = "NULL";
    line_failed = false;
    if (check(NULL, 0, NULL, 0) != 1 || check(NULL, 0, area, CERRUNDIX_AREA) != 3)
        fail("check of an empty text gives another word than 1 without an area and 3 with one");
    else if (reserve(NULL, 0, NULL, 0) != ('R' | 3 << 16))
        fail("reserve of an empty pack gives another word than that of R,3,0");
    else if (measure(NULL, 0) != 11)
        fail("measure of an empty term gives another word than 11");
    else if (cerrundix_sheet(NULL, 0, NULL, 0).number != 3 || cerrundix_sheet((const uint8_t *)"E\n", 2, NULL, 0).number != 0)
        fail("the sheet's number is another than 3 of an empty pack and 0 of one without rules");
    else if (cerrundix_import(NULL, 0, NULL, 0).number != 0 || cerrundix_import((const uint8_t *)"a.", 2, NULL, 0).number != 27)
        fail("the import's number is another than 0 of an empty text and 27 of a clause without a buffer");
    else
        printf("ok: 8 calls on empty buffers lent as NULL\n");
}

// The room that cerrundix.h has for a text: `a.` needs all of it.
static void try_room(void)
{
    static const uint8_t text[] = {'a', '.'};
    uint8_t buffer[CERRUNDIX_IMPORT_ROOM(sizeof text)];
    file_name = "tests/calls.c";
    line_number = __LINE__;
    call_name = "CERRUNDIX_IMPORT_ROOM";
    line_failed = false;
    struct cerrundix_answer got = cerrundix_import(text, sizeof text, buffer, sizeof buffer);
    if (got.number != 0 || got.rule != sizeof buffer)
        fail("the import of a. answers %" PRIu64 ", with %" PRIu64 " bytes: expected 0, and all %zu bytes of its room", got.number,
             got.rule, sizeof buffer);
    else
        printf("ok: 1 call on a buffer of the room that the header has\n");
}

int main(int count, char **words)
{
    if (count < 3) {
        fprintf(stderr, "calls: give the path of the program packcheck and one or more vector files\n");
        return 2;
    }
    // A line at a time, so that a call that crashes takes no line with it.
    setvbuf(stdout, NULL, _IOLBF, BUFSIZ);
    watch_for_signals();
    program = words[1];
    try_null();
    try_room();
    for (int i = 2; i < count; i++)
        try_file(words[i]);
    return any_failed ? 1 : 0;
}
