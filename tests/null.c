/* A null pointer is allowed wherever its count is 0: every call with every such argument, and what it answers then. Prints each answer that is not
   the expected one, and ends with status 1 if there is any. */
#include "jogcairn.h"

#include <inttypes.h>
#include <stdio.h>

static int wrong;

static void expect(const char *call, uint64_t answer, unsigned tag, uint32_t second, uint32_t first)
{
    if (jogcairn_tag(answer) == tag && jogcairn_second(answer) == second && jogcairn_first(answer) == first)
        return;
    printf("%s: tag %u, second %" PRIu32 ", first %" PRIu32 "\n", call, jogcairn_tag(answer), jogcairn_second(answer), jogcairn_first(answer));
    wrong = 1;
}

/* The calls on words: an empty word, line or row, and outputs of no elements. */
static void on_words(void)
{
    static const uint16_t ka[] = {0x1000};
    static const uint8_t line[] = {0xE1, 0x80, 0x80};
    static const uint8_t row[JOGCAIRN_RECORD_SIZE];
    uint16_t values[1];
    uint8_t record[JOGCAIRN_RECORD_SIZE], key[JOGCAIRN_KEY_SIZE];
    expect("read", jogcairn_read(NULL, 0), 0, 0, 0);
    expect("record", jogcairn_record(NULL, 0, 0, record, sizeof record), JOGCAIRN_NONE, 0, 0);
    expect("record, no word and no output", jogcairn_record(NULL, 0, 0, NULL, 0), JOGCAIRN_NONE, 0, 0);
    expect("record, no output", jogcairn_record(ka, 1, 0, NULL, 0), JOGCAIRN_OUTPUT_TOO_SHORT, 0, JOGCAIRN_RECORD_SIZE);
    expect("record, no syllable and no output", jogcairn_record(ka, 1, 1, NULL, 0), JOGCAIRN_NONE, 0, 0);
    expect("part", jogcairn_part(NULL, 0, 0), JOGCAIRN_NONE, 0, 0);
    expect("spell", jogcairn_spell(NULL, 0, NULL, 0, NULL, 0), 0, 0, 0);
    expect("spell, no values", jogcairn_spell(ka, 1, NULL, 0, NULL, 0), JOGCAIRN_OUTPUT_TOO_SHORT, 0, 1);
    expect("spell, no starts", jogcairn_spell(ka, 1, values, 1, NULL, 0), JOGCAIRN_OUTPUT_TOO_SHORT, 0, 1);
    expect("write", jogcairn_write(NULL, 0, NULL, 0), 0, 0, 0);
    expect("write, no output", jogcairn_write(row, sizeof row, NULL, 0), JOGCAIRN_OUTPUT_TOO_SHORT, 0, 1);
    expect("normalise", jogcairn_normalise(NULL, 0, NULL, 0), 0, 0, 0);
    expect("normalise, no output", jogcairn_normalise(ka, 1, NULL, 0), JOGCAIRN_OUTPUT_TOO_SHORT, 0, 1);
    expect("stored form", jogcairn_stored_form(NULL, 0, NULL, 0), 0, 0, 0);
    expect("stored form, no output", jogcairn_stored_form(ka, 1, NULL, 0), JOGCAIRN_OUTPUT_TOO_SHORT, 0, 1);
    expect("typed place", jogcairn_typed_place(NULL, 0, 0), JOGCAIRN_NONE, 0, 0);
    expect("key", jogcairn_key(NULL, 0, key, sizeof key), 0, 0, 0);
    expect("key, no output", jogcairn_key(NULL, 0, NULL, 0), JOGCAIRN_OUTPUT_TOO_SHORT, 0, JOGCAIRN_KEY_SIZE);
    expect("compare", jogcairn_compare(NULL, 0, NULL, 0), 0, 0, 1);
    expect("compare, first", jogcairn_compare(NULL, 0, ka, 1), 0, 0, 0);
    expect("compare, second", jogcairn_compare(ka, 1, NULL, 0), 0, 0, 2);
    expect("label", jogcairn_label(NULL, 0), 0, 0, 0);
    expect("skeleton", jogcairn_skeleton(NULL, 0, NULL, 0), 0, 0, 0);
    expect("skeleton, no word", jogcairn_skeleton(NULL, 0, values, 1), 0, 0, 0);
    expect("skeleton, no output", jogcairn_skeleton(ka, 1, NULL, 0), JOGCAIRN_OUTPUT_TOO_SHORT, 0, 1);
    expect("look alike", jogcairn_look_alike(NULL, 0, NULL, 0), 0, 0, 1);
    expect("look alike, first", jogcairn_look_alike(NULL, 0, ka, 1), 0, 0, 0);
    expect("look alike, second", jogcairn_look_alike(ka, 1, NULL, 0), 0, 0, 0);
    expect("decode", jogcairn_decode(NULL, 0, NULL, 0), 0, 0, 0);
    expect("decode, no output", jogcairn_decode(line, sizeof line, NULL, 0), JOGCAIRN_OUTPUT_TOO_SHORT, 0, 1);
}

/* The calls on books: a buffer of no bytes, which is a book, an empty word, and outputs of no elements. */
static void on_books(void)
{
    static const uint16_t ka[] = {0x1000};
    uint8_t book[8] = {'M', 'W', 1, 7, 0, 0, 0, 0};
    expect("check", jogcairn_book_check(NULL, 0), 0, 0, 0);
    expect("add", jogcairn_book_add(NULL, 0, ka, 1, 7), JOGCAIRN_BOOK_FULL, 0, 0);
    expect("add, no word", jogcairn_book_add(book, sizeof book, NULL, 0, 7), JOGCAIRN_EMPTY_WORD, 0, 0);
    expect("preview", jogcairn_book_preview(NULL, 0, ka, 1, 7), JOGCAIRN_BOOK_FULL, 0, 0);
    expect("preview, no word", jogcairn_book_preview(book, sizeof book, NULL, 0, 7), JOGCAIRN_EMPTY_WORD, 0, 0);
    expect("preview, no book and no word", jogcairn_book_preview(NULL, 0, NULL, 0, 7), JOGCAIRN_EMPTY_WORD, 0, 0);
    expect("remove", jogcairn_book_remove(NULL, 0, ka, 1), JOGCAIRN_NOT_LIVE, 0, 0);
    expect("remove, no word", jogcairn_book_remove(book, sizeof book, NULL, 0), JOGCAIRN_EMPTY_WORD, 0, 0);
    expect("tidy", jogcairn_book_tidy(NULL, 0), 0, 0, 0);
    expect("find", jogcairn_book_find(NULL, 0, ka, 1), JOGCAIRN_NOT_LIVE, 0, 0);
    expect("find, no word", jogcairn_book_find(book, sizeof book, NULL, 0), JOGCAIRN_EMPTY_WORD, 0, 0);
    expect("find prefix", jogcairn_book_find_prefix(NULL, 0, ka, 1, NULL, 0), 0, 0, 0);
    expect("find prefix, no word", jogcairn_book_find_prefix(book, sizeof book, NULL, 0, NULL, 0), JOGCAIRN_EMPTY_WORD, 0, 0);
    expect("find prefix, no output", jogcairn_book_find_prefix(book, sizeof book, ka, 1, NULL, 0), JOGCAIRN_OUTPUT_TOO_SHORT, 0, 1);
    expect("rank", jogcairn_book_rank(NULL, 0, 0), JOGCAIRN_RANK_TOO_HIGH, 0, 0);
    expect("order", jogcairn_book_order(NULL, 0, NULL, 0), 0, 0, 0);
    expect("order, no output", jogcairn_book_order(book, sizeof book, NULL, 0), JOGCAIRN_OUTPUT_TOO_SHORT, 0, 1);
    expect("word", jogcairn_book_word(NULL, 0, 0, NULL, 0), JOGCAIRN_NONE, 0, 0);
    expect("word, no output", jogcairn_book_word(book, sizeof book, 0, NULL, 0), JOGCAIRN_OUTPUT_TOO_SHORT, 0, 1);
}

int main(void)
{
    on_words();
    on_books();
    return wrong;
}
