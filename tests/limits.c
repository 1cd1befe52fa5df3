/* The limits and sizes of the header: the numbers of the documents, each written here once more, and the line that the library draws at each. Prints what
   is otherwise, and ends with status 1 if there is any. */
#include "jogcairn.h"

#include <inttypes.h>
#include <stdio.h>

static int wrong;

static void expect_number(const char *name, size_t number, size_t document)
{
    if (number == document)
        return;
    printf("%s: %zu, not %zu\n", name, number, document);
    wrong = 1;
}

static void expect(const char *call, uint64_t answer, unsigned tag, uint32_t first)
{
    if (jogcairn_tag(answer) == tag && jogcairn_first(answer) == first)
        return;
    printf("%s: tag %u, first %" PRIu32 "\n", call, jogcairn_tag(answer), jogcairn_first(answer));
    wrong = 1;
}

static void numbers_are_those_of_the_documents(void)
{
    expect_number("values of a word", JOGCAIRN_WORD_LIMIT, 64);
    expect_number("bytes of a line", JOGCAIRN_LINE_LIMIT, 192);
    expect_number("values of a spelled word", JOGCAIRN_SPELLED_LIMIT, 190);
    expect_number("syllables of a label", JOGCAIRN_LABEL_LIMIT, 10);
    expect_number("values of a skeleton", JOGCAIRN_SKELETON_LIMIT, 73);
    expect_number("bytes of a syllable's record", JOGCAIRN_RECORD_SIZE, 8);
    expect_number("bytes of a key", JOGCAIRN_KEY_SIZE, 384);
    expect_number("bytes of a book", JOGCAIRN_BOOK_LIMIT, 16384);
    expect_number("bytes before a word", JOGCAIRN_BOOK_RECORD_HEAD, 7);
    expect_number("records of a book", JOGCAIRN_BOOK_RECORDS_LIMIT, 2048);
}

/* Words, lines and labels that are as long as they may be, and one longer. */
static void on_words(void)
{
    static uint16_t word[JOGCAIRN_WORD_LIMIT + 1], great_sa[JOGCAIRN_WORD_LIMIT], values[JOGCAIRN_SPELLED_LIMIT], starts[JOGCAIRN_WORD_LIMIT];
    static uint8_t line[JOGCAIRN_LINE_LIMIT + 1], record[JOGCAIRN_RECORD_SIZE], key[JOGCAIRN_KEY_SIZE];
    for (size_t at = 0; at <= JOGCAIRN_WORD_LIMIT; at++)
        word[at] = 0x1000;
    for (size_t at = 0; at < JOGCAIRN_WORD_LIMIT; at++)
        great_sa[at] = at == 0 ? 0x1000 : 0x103F;
    for (size_t at = 0; at <= JOGCAIRN_LINE_LIMIT; at++)
        line[at] = at % 3 == 0 ? 0xE1 : 0x80;
    expect("read", jogcairn_read(word, JOGCAIRN_WORD_LIMIT), 0, JOGCAIRN_WORD_LIMIT);
    expect("read, too long", jogcairn_read(word, JOGCAIRN_WORD_LIMIT + 1), JOGCAIRN_TOO_LONG, JOGCAIRN_WORD_LIMIT);
    expect("decode", jogcairn_decode(line, JOGCAIRN_LINE_LIMIT, values, JOGCAIRN_WORD_LIMIT), 0, JOGCAIRN_WORD_LIMIT);
    expect("decode, too long", jogcairn_decode(line, JOGCAIRN_LINE_LIMIT + 1, values, JOGCAIRN_WORD_LIMIT), JOGCAIRN_TOO_LONG, JOGCAIRN_WORD_LIMIT);
    expect("spell", jogcairn_spell(great_sa, JOGCAIRN_WORD_LIMIT, values, JOGCAIRN_SPELLED_LIMIT, starts, JOGCAIRN_WORD_LIMIT), 0, JOGCAIRN_SPELLED_LIMIT);
    expect("label", jogcairn_label(word, JOGCAIRN_LABEL_LIMIT), 0, JOGCAIRN_LABEL_LIMIT);
    expect("label, too long", jogcairn_label(word, JOGCAIRN_LABEL_LIMIT + 1), JOGCAIRN_TOO_MANY_SYLLABLES, JOGCAIRN_LABEL_LIMIT);
    expect("record", jogcairn_record(word, 1, 0, record, JOGCAIRN_RECORD_SIZE), 0, JOGCAIRN_RECORD_SIZE);
    expect("record, too short", jogcairn_record(word, 1, 0, record, JOGCAIRN_RECORD_SIZE - 1), JOGCAIRN_OUTPUT_TOO_SHORT, JOGCAIRN_RECORD_SIZE);
    expect("key", jogcairn_key(word, 1, key, JOGCAIRN_KEY_SIZE), 0, 1);
    expect("key, too short", jogcairn_key(word, 1, key, JOGCAIRN_KEY_SIZE - 1), JOGCAIRN_OUTPUT_TOO_SHORT, JOGCAIRN_KEY_SIZE);
}

/* A book that is as long as it may be, full of the shortest records, and one longer; and room for one such record, and for a byte less. */
static void on_books(void)
{
    enum { SHORTEST = JOGCAIRN_BOOK_RECORD_HEAD + 1 };
    static const uint16_t ka[] = {0x1000};
    static uint8_t full[JOGCAIRN_BOOK_LIMIT], longer[JOGCAIRN_BOOK_LIMIT + 1], book[SHORTEST];
    for (size_t number = 0; number < JOGCAIRN_BOOK_RECORDS_LIMIT; number++) {
        full[number * SHORTEST] = 'M';
        full[number * SHORTEST + 1] = '-';
        full[number * SHORTEST + 2] = 1;
    }
    expect("check", jogcairn_book_check(full, sizeof full), 0, 0);
    expect("check, too long", jogcairn_book_check(longer, sizeof longer), JOGCAIRN_NOT_A_BOOK, JOGCAIRN_BOOK_LIMIT);
    expect("word of the last record", jogcairn_book_word(full, sizeof full, sizeof full - SHORTEST, (uint16_t[1]){0}, 1), 0, 0);
    expect("add, too short", jogcairn_book_add(book, SHORTEST - 1, ka, 1, 7), JOGCAIRN_BOOK_FULL, 0);
    expect("add", jogcairn_book_add(book, SHORTEST, ka, 1, 7), 0, 0);
}

int main(void)
{
    numbers_are_those_of_the_documents();
    on_words();
    on_books();
    return wrong;
}
