/* A preview beside an add on a copy, in each way in which an add can end, on books that cannot be written. Prints each answer that is not the expected one
   or not that of the add, and ends with status 1 if there is any. */
#include "jogcairn.h"

#include <inttypes.h>
#include <stdio.h>
#include <string.h>

/* A removed record with 1000 and a live one with 1015: with no room behind them, with room for eight bytes, and with a stray byte. They are constants, so
   that a call that writes to one ends the program. */
static const uint8_t full[16] = {'M', '-', 1, 7, 0, 0, 0, 0x00, 'M', 'W', 1, 8, 0, 0, 0, 0x15};
static const uint8_t roomy[24] = {'M', '-', 1, 7, 0, 0, 0, 0x00, 'M', 'W', 1, 8, 0, 0, 0, 0x15};
static const uint8_t stray[24] = {'M', '-', 1, 7, 0, 0, 0, 0x00, 'M', 'W', 1, 8, 0, 0, 0, 0x15, 0, 0, 1};

/* An add, and what it comes to: accepted, with a start and whether the book is tidied; or refused, with a place. */
static const struct {
    const uint8_t *book;
    size_t bytes;
    uint16_t word[JOGCAIRN_WORD_LIMIT + 1];
    size_t count;
    unsigned refusal;
    uint32_t place, start;
    int tidies;
} adds[] = {
    {roomy, sizeof roomy, {0x1021}, 1, 0, 0, 16, 0},
    {full, sizeof full, {0x1021}, 1, 0, 0, 8, 1},
    {roomy, sizeof roomy, {0x1015, 0x102B}, 2, 0, 0, 8, 1},
    {full, sizeof full, {0x1015, 0x102B}, 2, JOGCAIRN_BOOK_FULL, 8, 0, 0},
    {full, sizeof full, {0x1015}, 1, JOGCAIRN_ALREADY_LIVE, 8, 0, 0},
    {stray, sizeof stray, {0x1015}, 1, JOGCAIRN_NOT_A_BOOK, 18, 0, 0},
    {stray, sizeof stray, {0}, JOGCAIRN_WORD_LIMIT + 1, JOGCAIRN_TOO_LONG, JOGCAIRN_WORD_LIMIT, 0, 0},
    {stray, sizeof stray, {0}, 0, JOGCAIRN_EMPTY_WORD, 0, 0, 0},
    {stray, sizeof stray, {0x1000, 0x1022, 0x1039}, 3, JOGCAIRN_FOREIGN, 1, 0, 0},
    {stray, sizeof stray, {0x1000, 0x1039}, 2, JOGCAIRN_NO_CONTINUATION, 1, 0, 0},
    {stray, sizeof stray, {0x1000, 0x1000, 0x1039}, 3, JOGCAIRN_UNFINISHED, 3, 0, 0},
};

/* Whether the preview of an add says what it comes to, and is the number that it answers on a copy. */
static int holds(size_t at)
{
    uint8_t copy[24];
    memcpy(copy, adds[at].book, adds[at].bytes);
    uint64_t preview = jogcairn_book_preview(adds[at].book, adds[at].bytes, adds[at].word, adds[at].count, 9);
    uint64_t answer = jogcairn_book_add(copy, adds[at].bytes, adds[at].word, adds[at].count, 9);
    if (preview == answer && jogcairn_tag(preview) == adds[at].refusal && jogcairn_add_start(preview) == adds[at].start &&
        jogcairn_add_tidies(preview) == adds[at].tidies && (adds[at].refusal == 0 || jogcairn_first(preview) == adds[at].place))
        return 1;
    printf("add %zu: preview %016" PRIX64 ", add %016" PRIX64 "\n", at, preview, answer);
    return 0;
}

int main(void)
{
    int wrong = 0;
    for (size_t at = 0; at < sizeof adds / sizeof adds[0]; at++)
        wrong |= !holds(at);
    return wrong;
}
