// Calls the library by prefixed names alone; tests/renaming builds it twice. With -DRENAMED it is a program that has
// functions check, reserve and measure of its own, and includes the header by docs/LIBRARY.md's recipe, from recipe.h.
#ifdef RENAMED
#include "recipe.h"
static int own_calls;
int check(void), reserve(void), measure(void);
int check(void) { return ++own_calls; }
int reserve(void) { return ++own_calls; }
int measure(void) { return ++own_calls; }
static int are_own_names_free(void) { return check() + reserve() + measure() == 1 + 2 + 3; }
#else
#include "cerrundix.h"
static int are_own_names_free(void) { return 1; }
#endif

#include <stdio.h>
#include <string.h>

static const char pack[] = "P,k,1,R\nC,k,4,-1\nH,k,f/2 a/0 a/0\nM\nE\n";
static const char sheet[] = "   1 k                 0   1                                    \n";
static const char clause[] = "k(f(a, _)).";
static const char lines[] = "H,k,f/2 a/0 V1\n";

int main(void)
{
    const uint8_t *text = (const uint8_t *)pack;
    int64_t area[CERRUNDIX_AREA] = {0};
    uint8_t page[CERRUNDIX_SHEET_LINE], buffer[sizeof lines];
    uint64_t checked = cerrundix_check(text, strlen(pack), area, CERRUNDIX_AREA);
    uint64_t reserved = cerrundix_reserve(text, strlen(pack), (const uint8_t *)"k,1,-", strlen("k,1,-"));
    uint64_t measured = cerrundix_measure((const uint8_t *)"f/1 a/0", strlen("f/1 a/0"));
    struct cerrundix_answer filed = cerrundix_sheet(text, strlen(pack), page, sizeof page);
    struct cerrundix_answer imported = cerrundix_import((const uint8_t *)clause, strlen(clause), buffer, sizeof buffer);
    int is_checked = cerrundix_number(checked) == 0 && cerrundix_lines(checked) == 5;
    int is_reserved = cerrundix_letter(reserved) == 'B' && cerrundix_middle(reserved) == 4;
    int is_measured = cerrundix_refusal(measured) == 0 && cerrundix_size(measured) == 1;
    int is_filed = filed.number == 0 && filed.rule == 1 && memcmp(page, sheet, sizeof page) == 0;
    int is_imported = imported.number == 0 && imported.rule == strlen(lines) && memcmp(buffer, lines, strlen(lines)) == 0;
    printf("own names %d, check %d, reserve %d, measure %d, sheet %d, import %d\n", are_own_names_free(), is_checked,
           is_reserved, is_measured, is_filed, is_imported);
    return 0;
}
