/* How much stack each call needs: it runs on a stack of its own that was painted before, and the deepest byte that changed is looked for. Prints a line
   for each call, and ends with status 1 where one needs more than the header says. */
#define _XOPEN_SOURCE 700
#include "jogcairn.h"

#include <stdio.h>
#include <string.h>
#include <ucontext.h>

enum { PAINT = 0xA5, STACK_SIZE = 1 << 18 };

static unsigned char stack[STACK_SIZE];
static ucontext_t here, there;
static void (*measured)(void);

struct word {
    uint16_t values[JOGCAIRN_WORD_LIMIT];
    size_t count;
};

/* The longest word, which is a row of syllables; one as long that has to be sorted; one that is refused; a row of independent vowels with finals; one of
   syllables with two finals; and the label with the longest skeleton. */
static struct word words[6];
static const struct word *word = &words[0], *const label = &words[5];

/* The longest book, full; the same with every second record removed; a copy of either to be changed; and a full one whose words all begin with the same
   syllable. */
static uint8_t full[JOGCAIRN_BOOK_LIMIT], gaps[JOGCAIRN_BOOK_LIMIT], book[JOGCAIRN_BOOK_LIMIT], alike[JOGCAIRN_BOOK_LIMIT];
static const uint8_t *const books[] = {full, gaps};
static const uint16_t first_syllable[] = {0x1021};
static uint16_t values[JOGCAIRN_SPELLED_LIMIT], starts[JOGCAIRN_BOOK_RECORDS_LIMIT];
static uint8_t bytes[JOGCAIRN_WORD_LIMIT * JOGCAIRN_RECORD_SIZE], record[JOGCAIRN_RECORD_SIZE], key[JOGCAIRN_KEY_SIZE];

static void run_nothing(void) {}
static void run_read(void) { jogcairn_read(word->values, word->count); }
static void run_part(void) { jogcairn_part(word->values, word->count, word->count - 1); }
static void run_spell(void) { jogcairn_spell(word->values, word->count, values, JOGCAIRN_SPELLED_LIMIT, starts, JOGCAIRN_WORD_LIMIT); }
static void run_write(void) { jogcairn_write(bytes, sizeof bytes, values, JOGCAIRN_WORD_LIMIT); }
static void run_normalise(void) { jogcairn_normalise(word->values, word->count, values, JOGCAIRN_WORD_LIMIT); }
static void run_stored_form(void) { jogcairn_stored_form(word->values, word->count, values, JOGCAIRN_WORD_LIMIT); }
static void run_typed_place(void) { jogcairn_typed_place(word->values, word->count, word->count - 4); }
static void run_key(void) { jogcairn_key(word->values, word->count, key, sizeof key); }
static void run_compare(void) { jogcairn_compare(word->values, word->count, words[1].values, words[1].count); }
static void run_label(void) { jogcairn_label(word->values, word->count); }
static void run_skeleton(void) { jogcairn_skeleton(word->values, word->count, values, JOGCAIRN_SKELETON_LIMIT); }
static void run_decode(void) { jogcairn_decode((const uint8_t *)"\xE1\x80\x80\xE1\x80\x81", 6, values, JOGCAIRN_WORD_LIMIT); }
static void run_check(void) { jogcairn_book_check(book, sizeof book); }
static void run_add(void) { jogcairn_book_add(book, sizeof book, word->values, word->count, 1); }
static void run_preview(void) { jogcairn_book_preview(book, sizeof book, word->values, word->count, 1); }
static void run_remove(void) { jogcairn_book_remove(book, sizeof book, word->values, 1); }
static void run_tidy(void) { jogcairn_book_tidy(book, sizeof book); }
static void run_find(void) { jogcairn_book_find(book, sizeof book, word->values, word->count); }
static void run_rank(void) { jogcairn_book_rank(book, sizeof book, 1000); }
static void run_order(void) { jogcairn_book_order(book, sizeof book, starts, JOGCAIRN_BOOK_RECORDS_LIMIT); }
static void run_word(void) { jogcairn_book_word(book, sizeof book, 0, values, JOGCAIRN_WORD_LIMIT); }

/* The last syllable of the longest row, and the first of any. */
static void run_record(void)
{
    jogcairn_record(word->values, word->count, word->count - 1, record, sizeof record);
    jogcairn_record(word->values, word->count, 0, record, sizeof record);
}

/* With the longest label on either side, so that the other word is looked at wherever it stands. */
static void run_look_alike(void)
{
    jogcairn_look_alike(word->values, word->count, label->values, label->count);
    jogcairn_look_alike(label->values, label->count, word->values, word->count);
}

/* The longest query, and one that every record fits. */
static void run_find_prefix(void)
{
    jogcairn_book_find_prefix(alike, sizeof alike, word->values, word->count, starts, JOGCAIRN_BOOK_RECORDS_LIMIT);
    jogcairn_book_find_prefix(alike, sizeof alike, first_syllable, 1, starts, JOGCAIRN_BOOK_RECORDS_LIMIT);
}

static const struct {
    const char *name;
    void (*run)(void);
    size_t limit;
} calls[] = {
    {"jogcairn_read", run_read, JOGCAIRN_STACK_WORD},
    {"jogcairn_record", run_record, JOGCAIRN_STACK_WORD},
    {"jogcairn_part", run_part, JOGCAIRN_STACK_WORD},
    {"jogcairn_spell", run_spell, JOGCAIRN_STACK_WORD},
    {"jogcairn_write", run_write, JOGCAIRN_STACK_WORD},
    {"jogcairn_normalise", run_normalise, JOGCAIRN_STACK_WORD},
    {"jogcairn_stored_form", run_stored_form, JOGCAIRN_STACK_WORD},
    {"jogcairn_typed_place", run_typed_place, JOGCAIRN_STACK_WORD},
    {"jogcairn_key", run_key, JOGCAIRN_STACK_WORD},
    {"jogcairn_compare", run_compare, JOGCAIRN_STACK_WORD},
    {"jogcairn_label", run_label, JOGCAIRN_STACK_WORD},
    {"jogcairn_skeleton", run_skeleton, JOGCAIRN_STACK_WORD},
    {"jogcairn_look_alike", run_look_alike, JOGCAIRN_STACK_WORD},
    {"jogcairn_decode", run_decode, JOGCAIRN_STACK_WORD},
    {"jogcairn_book_check", run_check, JOGCAIRN_STACK_BOOK},
    {"jogcairn_book_add", run_add, JOGCAIRN_STACK_BOOK},
    {"jogcairn_book_preview", run_preview, JOGCAIRN_STACK_BOOK},
    {"jogcairn_book_remove", run_remove, JOGCAIRN_STACK_BOOK},
    {"jogcairn_book_tidy", run_tidy, JOGCAIRN_STACK_BOOK},
    {"jogcairn_book_find", run_find, JOGCAIRN_STACK_BOOK},
    {"jogcairn_book_word", run_word, JOGCAIRN_STACK_BOOK},
    {"jogcairn_book_rank", run_rank, JOGCAIRN_STACK_ORDER},
    {"jogcairn_book_order", run_order, JOGCAIRN_STACK_ORDER},
    {"jogcairn_book_find_prefix", run_find_prefix, JOGCAIRN_STACK_ORDER},
};

static void run_measured(void)
{
    measured();
}

/* The bytes of the painted stack that a run changes, from the deepest to its top. */
static size_t depth_of(void (*run)(void))
{
    size_t untouched = 0;
    memset(stack, PAINT, sizeof stack);
    measured = run;
    getcontext(&there);
    there.uc_stack.ss_sp = stack;
    there.uc_stack.ss_size = sizeof stack;
    there.uc_link = &here;
    makecontext(&there, run_measured, 0);
    swapcontext(&here, &there);
    while (untouched < sizeof stack && stack[untouched] == PAINT)
        untouched++;
    return sizeof stack - untouched;
}

/* The most that a call needs for any of the words and books, beyond what running nothing takes. */
static size_t deepest(void (*run)(void))
{
    size_t most = 0;
    for (size_t at = 0; at < sizeof words / sizeof words[0]; at++)
        for (size_t which = 0; which < sizeof books / sizeof books[0]; which++) {
            word = &words[at];
            memcpy(book, books[which], sizeof book);
            size_t depth = depth_of(run);
            most = depth > most ? depth : most;
        }
    return most - depth_of(run_nothing);
}

/* Puts values behind those that a word has. */
static void put(struct word *longer, const uint16_t *more, size_t count)
{
    memcpy(longer->values + longer->count, more, count * sizeof more[0]);
    longer->count += count;
}

static void make_words(void)
{
    static const uint16_t sorted[] = {0x1000, 0x1037, 0x103A, 0x102F}, refused[] = {0x1000, 0x1038, 0x1037, 0x103B};
    static const uint16_t closed[] = {0x1025, 0x1000, 0x1039, 0x1000}, twice[] = {0x1018, 0x1010, 0x103A, 0x1005, 0x103A};
    static const uint16_t longer[] = {0x1029, 0x1000, 0x103A, 0x1005, 0x103A, 0x1038};
    static const uint16_t last[] = {0x1015, 0x103C, 0x1031, 0x102B, 0x103A, 0x1000, 0x103A, 0x1005, 0x103A, 0x1037};
    for (size_t at = 0; at < JOGCAIRN_WORD_LIMIT; at++) {
        words[0].values[at] = 0x1000;
        words[1].values[at] = at < 2 ? 0x1000 : sorted[at % 4];
        words[2].values[at] = refused[at % 4];
        words[3].values[at] = closed[at % 4];
        words[4].values[at] = twice[at % 5];
    }
    for (size_t which = 0; which < 5; which++)
        words[which].count = JOGCAIRN_WORD_LIMIT;
    for (size_t syllable = 1; syllable < JOGCAIRN_LABEL_LIMIT; syllable++)
        put(&words[5], longer, sizeof longer / sizeof longer[0]);
    put(&words[5], last, sizeof last / sizeof last[0]);
}

/* Fills a book with words of one, two and three letters until no other fits; `front` values of the first syllable stand before the letters. */
static int make_book(uint8_t *filled, unsigned front)
{
    for (unsigned count = 1; count <= 3; count++)
        for (unsigned number = 0; number < (count == 1 ? 33u : count == 2 ? 33u * 33 : 33u * 33 * 33); number++) {
            uint16_t letters[] = {first_syllable[0], (uint16_t)(0x1000 + number % 33), (uint16_t)(0x1000 + number / 33 % 33), (uint16_t)(0x1000 + number / 33 / 33)};
            uint64_t answer = jogcairn_book_add(filled, JOGCAIRN_BOOK_LIMIT, letters + 1 - front, front + count, number);
            if (jogcairn_tag(answer) == JOGCAIRN_BOOK_FULL)
                return 1;
            if (!jogcairn_accepted(answer))
                return 0;
        }
    return 0;
}

/* Removes every second record of the full book; the longest word is then added by tidying, as the answer says. */
static int make_gaps(void)
{
    memcpy(gaps, full, sizeof gaps);
    for (size_t start = 0, number = 0; start < sizeof gaps && gaps[start] != 0; start += JOGCAIRN_BOOK_RECORD_HEAD + gaps[start + 2], number++)
        if (number % 2 == 1)
            gaps[start + 1] = 0x2D;
    memcpy(book, gaps, sizeof book);
    return jogcairn_add_tidies(jogcairn_book_add(book, sizeof book, words[0].values, words[0].count, 1));
}

int main(void)
{
    int wrong = 0;
    make_words();
    if (jogcairn_skeleton(label->values, label->count, values, JOGCAIRN_SKELETON_LIMIT) != JOGCAIRN_SKELETON_LIMIT) {
        printf("the longest skeleton is not made\n");
        return 1;
    }
    if (!make_book(full, 0) || !make_book(alike, 1) || !make_gaps()) {
        printf("a book is not filled, or not tidied\n");
        return 1;
    }
    for (size_t at = 0; at < sizeof calls / sizeof calls[0]; at++) {
        size_t depth = deepest(calls[at].run);
        printf("%-25s %6zu of %6zu bytes\n", calls[at].name, depth, calls[at].limit);
        wrong |= depth > calls[at].limit;
    }
    return wrong;
}
