/* A terminal's part of the work: load a pack, check it, say why it is refused, reserve for a query and take the memory,
 * and print the pack's sheet for the job folder.
 *
 *   terminal PACK QUERY
 *
 * Exit status 0: reserved; 1: refused, no bound or impossible; 2: the pack could not be read. */
#include "cerrundix.h"

#include <inttypes.h>
#include <stdio.h>
#include <stdlib.h>
#include <string.h>

/* Reads a file of at most the pack's limit and one byte more, so that check can see that it is too long. */
static size_t load(const char *path, uint8_t *text, size_t room) {
    FILE *file = fopen(path, "rb");
    if (file == NULL) {
        perror(path);
        exit(2);
    }
    size_t length = fread(text, 1, room, file);
    fclose(file);
    return length;
}

/* Says why a pack is refused, and for an unjustified claim what is left over. */
static void say_refusal(uint64_t word, const int64_t *area) {
    unsigned number = cerrundix_number(word);
    printf("refused (%u): %s\n", number, cerrundix_reason(number));
    if (cerrundix_line(word) != 0) {
        printf("  on line %u\n", cerrundix_line(word));
    }
    if (number == 13) {
        printf("  rule %u, claim %u; the residual: %" PRId64, cerrundix_rule(word), cerrundix_claim(word), area[0]);
        for (int i = 1; i < CERRUNDIX_AREA; i++) {
            if (area[i] != 0) {
                printf(", variable %d: %" PRId64, i, area[i]);
            }
        }
        printf("\n");
    }
}

/* Checks the pack; 1 if it is accepted. */
static int is_accepted(const uint8_t *text, size_t length) {
    int64_t area[CERRUNDIX_AREA];
    uint64_t word = cerrundix_check(text, length, area, CERRUNDIX_AREA);
    if (cerrundix_number(word) != 0) {
        say_refusal(word, area);
        return 0;
    }
    printf("accepted: %u lines, %u rules, %u M lines\n", cerrundix_lines(word), cerrundix_rules(word), cerrundix_multiplier_lines(word));
    return 1;
}

/* Reserves for a query: a list of size s is kept in s / 2 cells, since each cons adds two edges. */
static int reserve_cells(const uint8_t *text, size_t length, const char *query) {
    uint64_t word = cerrundix_reserve(text, length, (const uint8_t *)query, strlen(query));
    switch (cerrundix_letter(word)) {
    case 'B': {
        uint64_t cells = cerrundix_middle(word) / 2;
        void *trail = calloc(cells + 1, sizeof(int32_t));
        printf("%s: size at most %" PRIu64 " by claim %u: %" PRIu64 " cells %s\n", query, cerrundix_middle(word), cerrundix_by(word), cells, trail == NULL ? "cannot be had" : "reserved");
        free(trail);
        return trail != NULL;
    }
    case 'I': printf("%s: there is no such fact, by claim %u\n", query, cerrundix_by(word)); return 0;
    case 'N': printf("%s: no claim gives a bound\n", query); return 0;
    default: printf("%s: refused (%" PRIu64 "): %s\n", query, cerrundix_middle(word), cerrundix_reason((unsigned)cerrundix_middle(word))); return 0;
    }
}

/* Prints the sheet of an accepted pack; the page has room for the sheet of any. */
static void print_sheet(const uint8_t *text, size_t length) {
    uint8_t page[CERRUNDIX_SHEET_LIMIT];
    struct cerrundix_answer answer = cerrundix_sheet(text, length, page, sizeof page);
    if (answer.number != 0) {
        printf("no sheet (%" PRIu64 "): %s\n", answer.number, cerrundix_reason((unsigned)answer.number));
        return;
    }
    fwrite(page, CERRUNDIX_SHEET_LINE, answer.rule, stdout);
}

int main(int argc, char **argv) {
    static uint8_t text[CERRUNDIX_PACK_LIMIT + 1];
    if (argc != 3) {
        fprintf(stderr, "usage: terminal PACK QUERY, for instance: terminal join.pack join,3,20,6,-\n");
        return 2;
    }
    size_t length = load(argv[1], text, sizeof text);
    if (!is_accepted(text, length)) {
        return 1;
    }
    int is_reserved = reserve_cells(text, length, argv[2]);
    print_sheet(text, length);
    return is_reserved ? 0 : 1;
}
