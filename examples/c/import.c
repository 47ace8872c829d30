/* Imports a maker's clauses: reads a clause text, and prints the lines that it becomes in a pack, or why it is refused.
 *
 *   import CLAUSES
 *
 * Exit status 0: imported; 1: refused; 2: the text could not be read. */
#include "cerrundix.h"

#include <inttypes.h>
#include <stdio.h>
#include <stdlib.h>

/* Reads a whole file into memory that the caller frees. */
static uint8_t *load(const char *path, size_t *length) {
    FILE *file = fopen(path, "rb");
    if (file == NULL) {
        perror(path);
        exit(2);
    }
    size_t room = 4096;
    uint8_t *text = malloc(room);
    *length = 0;
    while (text != NULL) {
        *length += fread(text + *length, 1, room - *length, file);
        if (*length < room) {
            break;
        }
        room *= 2;
        uint8_t *longer = realloc(text, room);
        if (longer == NULL) {
            free(text);
        }
        text = longer;
    }
    if (text == NULL || ferror(file)) {
        fprintf(stderr, "%s cannot be read\n", path);
        exit(2);
    }
    fclose(file);
    return text;
}

/* Says why the text is refused: at which byte and line of it, or in which clause. */
static void say_refusal(struct cerrundix_answer answer, const uint8_t *text) {
    printf("refused (%" PRIu64 "): %s\n", answer.number, cerrundix_reason((unsigned)answer.number));
    if (answer.number != 25) {
        printf("  clause %" PRIu64 "\n", answer.line);
        return;
    }
    uint64_t line = 1, column = 1;
    for (uint64_t at = 0; at < answer.line; at++) {
        column = text[at] == '\n' ? 1 : column + 1;
        line += text[at] == '\n';
    }
    printf("  byte %" PRIu64 ", which is on line %" PRIu64 " in column %" PRIu64 "\n", answer.line, line, column);
}

/* Prints the lines of a text, or why there are none; 1 if it is imported. */
static int print_lines(const uint8_t *text, size_t length) {
    size_t room = CERRUNDIX_IMPORT_ROOM(length);
    uint8_t *lines = malloc(room + 1);
    if (lines == NULL) {
        fprintf(stderr, "there is no memory for the lines\n");
        exit(2);
    }
    struct cerrundix_answer answer = cerrundix_import(text, length, lines, room);
    if (answer.number == 0) {
        fwrite(lines, 1, answer.rule, stdout);
    } else {
        say_refusal(answer, text);
    }
    free(lines);
    return answer.number == 0;
}

int main(int argc, char **argv) {
    if (argc != 2) {
        fprintf(stderr, "usage: import CLAUSES, for instance: import join.pl\n");
        return 2;
    }
    size_t length;
    uint8_t *text = load(argv[1], &length);
    int is_imported = print_lines(text, length);
    free(text);
    return is_imported ? 0 : 1;
}
