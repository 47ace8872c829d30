// Imports texts of clauses with the library: reads texts on standard input, each a line with its length and then its bytes,
// and prints for each a line with the import's four numbers and then the bytes written. tests/prolog/run uses it.
#include "cerrundix.h"

#include <inttypes.h>
#include <stdio.h>

enum { MOST_BYTES = 1 << 20 };

int main(void)
{
    static uint8_t text[MOST_BYTES], buffer[MOST_BYTES];
    size_t length;
    while (scanf("%zu", &length) == 1) {
        if (length > MOST_BYTES || getchar() != '\n' || fread(text, 1, length, stdin) != length) {
            fprintf(stderr, "import_texts: a text is too long, or shorter than its length says\n");
            return 2;
        }
        struct cerrundix_answer answer = cerrundix_import(text, length, buffer, sizeof buffer);
        printf("%" PRIu64 ",%" PRIu64 ",%" PRIu64 ",%" PRIu64 "\n", answer.number, answer.line, answer.rule, answer.claim);
        fwrite(buffer, 1, answer.number == 0 && answer.rule <= sizeof buffer ? answer.rule : 0, stdout);
    }
    return 0;
}
