/* Cerrundix: checks the size claims of a rule pack, reserves by them, measures ground terms, writes a pack's sheet, and
 * imports the clauses that makers send as Prolog text, as lines of a pack.
 *
 * Link with libcerrundix.a (`scripts/prepare library` makes it, for x86-64 Linux). The library keeps no state, so threads
 * may call it at the same time; it takes no memory from the heap, and calls nothing but memset and memcpy. Each call
 * returns, whatever the bytes, given enough stack (check, reserve and the sheet used 17,608 bytes at most, the import
 * 12,544, measure 1,944: bench/README.md); no call reads or writes outside the buffers that it is lent. What each answer
 * means is proved against documents 01 and 02 (docs/MAP.md).
 *
 * A buffer is a pointer and a length. A buffer of length 0 may be lent as NULL and 0. No buffer needs to end with a zero
 * byte. What a call may write to, the residual area, the page or the buffer for lines, must not overlap the text.
 */
#ifndef CERRUNDIX_H
#define CERRUNDIX_H

#include <stddef.h>
#include <stdint.h>

#ifdef __cplusplus
extern "C" {
#endif

/* The numbers that the residual area holds for an unjustified claim: the constant, then 16 coefficients in the order in
 * which the rule's variables first occur, zeros after the last. */
#define CERRUNDIX_AREA 17

/* The longest texts that are accepted, in bytes: a pack with the byte 10 of its last line, a query or a term without. */
#define CERRUNDIX_PACK_LIMIT 32768
#define CERRUNDIX_LINE_LIMIT 1024

/* The bytes that a rule takes on the sheet, and those of the longest sheet, which is of 64 rules. */
#define CERRUNDIX_SHEET_LINE 65
#define CERRUNDIX_SHEET_LIMIT (64 * CERRUNDIX_SHEET_LINE)

/* Checks a pack. The area holds at least CERRUNDIX_AREA numbers; it changes only for refusal 13, and then only its first
 * CERRUNDIX_AREA numbers. Take the word apart with cerrundix_number, _line, _rule, _claim:
 *   number 0: accepted; line, rule and claim hold the counts of lines, rules and `M` lines (cerrundix_lines and so on)
 *   number 1 to 13, 20 to 22, 24: refused, see cerrundix_reason; line is the line, from 1, or 0; for 13 rule and claim
 *   are those of the claim that is not justified, for all others they are 0 */
uint64_t check(const uint8_t *text, size_t text_length, int64_t *area, size_t area_length);

/* Reserves by a pack and a query, the query without its byte 10. Writes to no lent memory. Take the word apart with
 * cerrundix_letter, _middle, _by:
 *   'B': the asked size is at most middle, by claim `by`
 *   'N': no claim gives a bound
 *   'I': there is no such fact, by claim `by`
 *   'R': refused; middle is the pack's number (2 to 13, 20 to 22, 24) or the query's (4, 14, 16 to 18), see
 *   cerrundix_reason */
uint64_t reserve(const uint8_t *text, size_t text_length, const uint8_t *query, size_t query_length);

/* Measures a ground term. Writes to no lent memory. Take the word apart with cerrundix_refusal and _size: refusal 0 and the
 * size, or 4, 11 or 19 and size 0. */
uint64_t measure(const uint8_t *term, size_t term_length);

/* Four numbers, returned by value. Where `number` is 0 the others hold counts, which the call names; else they are those
 * of a refusal, see cerrundix_reason. */
struct cerrundix_answer {
    uint64_t number, line, rule, claim;
};

/* Writes the sheet of a pack to the front of a page, for the job folder: for each rule a line of 64 columns and byte 10,
 * so CERRUNDIX_SHEET_LINE bytes a rule. From the left a line has
 *    4 columns   the rule's number in the pack, from 1, at their right edge
 *   16           the name of its head, at their left edge; no arity
 *    2           how many subgoals it has, at their right edge
 *    3           how many `M` lines it has, at their right edge
 * with a space between them, and spaces up to column 64. There is no zero byte at the end. The answer is
 *   number 0: the sheet is written; line, rule and claim hold check's counts of lines, rules and `M` lines. So the sheet
 *   has rule * CERRUNDIX_SHEET_LINE bytes; what lies after it on the page is unchanged
 *   number 2 to 13, 20 to 22, 24: the pack is refused; the four numbers are check's. There is no area here: 13 leaves
 *   no residual, ask check for it
 *   number 23: the pack is accepted, and the page is shorter than its sheet; line, rule and claim are 0
 * A refusal leaves the whole page as it was, and a pack's own comes before 23. A page of CERRUNDIX_SHEET_LIMIT bytes is
 * long enough for every pack; a pack without rules needs none, and NULL and 0 will do. */
struct cerrundix_answer cerrundix_sheet(const uint8_t *text, size_t text_length, uint8_t *page, size_t page_length);

/* Imports clause text: facts and rules in a subset of Prolog (docs/FORMAT.md says which). To the front of a buffer it
 * writes for each clause an `H` line, the head, and a `B` line for each subgoal, as a pack has them, each with its byte 10:
 * of `p(a,f(X,_)) :- q(X), r.` the three lines `H,p,a/0,f/2 X V1`, `B,q,X` and `B,r`. There is no zero byte at the end. The
 * lines are no pack yet: P, C, M and E lines have to be put with them. The answer is
 *   number 0: the lines are written; line holds the count of clauses, rule that of the bytes written, claim is 0. What
 *   lies after them in the buffer is unchanged. A text without clauses, an empty one too, is answered 0, 0, 0, 0
 *   number 25: the text is not in the subset; line is the byte, from 0, where the first token starts that cannot continue
 *   it, or the text's length where it ends inside a clause
 *   number 26: a clause would pass a limit of packs: a line of over 1,024 bytes, over 8 arguments of a head or subgoal, 9
 *   of a symbol inside them, a name or variable of over 16 bytes, over 8 subgoals or 16 variables; line is the clause, from 1
 *   number 27: the buffer is shorter than the lines up to and including this clause's; line is the clause, from 1
 * rule and claim are 0 for these three. A refusal leaves the whole buffer as it was. The clauses are tested one after the
 * other, each for 25, then 26, then 27. The text may have any length; NULL and 0 will do for the buffer of a text without
 * clauses. */
struct cerrundix_answer cerrundix_import(const uint8_t *text, size_t text_length, uint8_t *buffer, size_t buffer_length);

/* A buffer of so many bytes is long enough for every text of this length: 27 is never given, which is proved. Two bytes of
 * text give four at most, as `a.` gives `H,a` and its byte 10, `,a` gives `,a/0`, and `,_` gives `,V16` or shorter. */
#define CERRUNDIX_IMPORT_ROOM(text_length) (2 * (size_t)(text_length))

/* The first three calls by prefixed names, for code that has the prefix everywhere. Where a name is a macro, as when the
 * archive's own names are changed (docs/LIBRARY.md), the declaration above has the name that it stands for, and there is
 * none here. */
#ifndef check
static inline uint64_t cerrundix_check(const uint8_t *text, size_t text_length, int64_t *area, size_t area_length) {
    return check(text, text_length, area, area_length);
}
#endif
#ifndef reserve
static inline uint64_t cerrundix_reserve(const uint8_t *text, size_t text_length, const uint8_t *query, size_t query_length) {
    return reserve(text, text_length, query, query_length);
}
#endif
#ifndef measure
static inline uint64_t cerrundix_measure(const uint8_t *term, size_t term_length) {
    return measure(term, term_length);
}
#endif

/* The word of check: the numbers times 1, 2^8, 2^24, 2^32. */
static inline unsigned cerrundix_number(uint64_t word) { return (unsigned)(word & 0xff); }
static inline unsigned cerrundix_line(uint64_t word) { return (unsigned)(word >> 8 & 0xffff); }
static inline unsigned cerrundix_rule(uint64_t word) { return (unsigned)(word >> 24 & 0xff); }
static inline unsigned cerrundix_claim(uint64_t word) { return (unsigned)(word >> 32); }

/* The same, where the pack is accepted. */
static inline unsigned cerrundix_lines(uint64_t word) { return cerrundix_line(word); }
static inline unsigned cerrundix_rules(uint64_t word) { return cerrundix_rule(word); }
static inline unsigned cerrundix_multiplier_lines(uint64_t word) { return cerrundix_claim(word); }

/* The word of reserve: the letter as its byte, the claim times 2^8, the middle field times 2^16. */
static inline char cerrundix_letter(uint64_t word) { return (char)(word & 0xff); }
static inline unsigned cerrundix_by(uint64_t word) { return (unsigned)(word >> 8 & 0xff); }
static inline uint64_t cerrundix_middle(uint64_t word) { return word >> 16; }

/* The word of measure: the refusal or 0, the size times 2^8. */
static inline unsigned cerrundix_refusal(uint64_t word) { return (unsigned)(word & 0xff); }
static inline uint64_t cerrundix_size(uint64_t word) { return word >> 8; }

/* A refusal in words, with what to mend. Predicates go by name and arity, and the arity of a line or a query is what its
 * count of fields leaves for arguments. So a wrong count of fields is 8 on C, G, H and B lines, and 14 in a query. 15,
 * which a query of a declared name and a wrong count had before, is no longer given, and stands for nothing else. */
static inline const char *cerrundix_reason(unsigned number) {
    switch (number) {
    case 0: return "accepted";
    case 1: return "the residual area is shorter than 17 numbers: lend a longer one";
    case 2: return "the text is over 32,768 bytes: split the pack";
    case 3: return "the text is empty or its last byte is not 10: end the last line";
    case 4: return "over 1,024 bytes, or a byte outside 32 to 126: shorten it, look for tabs and letters that are not ASCII";
    case 5: return "a line of this letter may not stand here: check the order, count the M lines; comments and blank lines are not allowed";
    case 6: return "the text ends without an E line: add it";
    case 7: return "the second field is missing or no name: a small letter first, at most 16 characters";
    case 8: return "on a P line the name is taken with this arity; on other lines no P line declares it with so many arguments, or on H it is of a given predicate: compare name and number of fields with the P lines";
    case 9: return "the wrong number of fields on a P, M or E line: P has four, M one and a multiplier for each claim on a subgoal, E one";
    case 10: return "an arity, kind, claim number or multiplier is malformed or out of range";
    case 11: return "a field is no term: each symbol needs its arity and that many terms, parted by single spaces";
    case 12: return "the line passes a count limit";
    case 13: return "a claim is not justified, check's area holds the residual: other multipliers, one more claim on a subgoal, another base case, or a weaker claim";
    case 14: return "the query's name is missing or malformed, or no P line declares it with so many arguments: a query has two fields more than its predicate has arguments";
    case 15: return "no longer given: a query of a declared name with a wrong number of fields is 14";
    case 16: return "the asked argument is malformed, or the predicate has none of that number";
    case 17: return "a size is malformed or over 65535";
    case 18: return "the asked argument's own size is not -";
    case 19: return "the term has a variable";
    case 20: return "a G line names a ruled predicate: make the predicate G, or the fact a rule without subgoals";
    case 21: return "a fact on a G line has a variable: a constant starts with a small letter and has its arity";
    case 22: return "a fact on a G line fails a claim on its predicate: correct the fact or weaken the claim";
    case 23: return "the page is shorter than the sheet, 65 bytes for each rule: lend a longer one, 4,160 bytes do for every pack";
    case 24: return "a ruled predicate has a claim and heads no rule: look for a head that is misspelt or has another number of arguments, add its rules, or take its claims out";
    case 25: return "the text is not in the subset of Prolog that is imported: look at the token at this byte; where it is the text's length, the last clause is not ended";
    case 26: return "a clause passes a limit: a line of 1,024 bytes, 8 arguments of a head or subgoal, 9 of a symbol, 16 bytes of a name or variable, 8 subgoals, 16 variables: shorten or split it";
    case 27: return "the buffer is shorter than the lines up to this clause: lend a longer one, twice as long as the text does for every text";
    default: return "no refusal of this library";
    }
}

#ifdef __cplusplus
}
#endif

#endif
