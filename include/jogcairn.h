/*
 * Jogcairn: Myanmar (Burmese) words, their syllables, their dictionary order, labels that look alike, and a word book in a buffer that the caller
 * lends.
 *
 * Link with the archive that `scripts/archive` writes, target/libjogcairn.a (x86-64 Linux).
 *
 * A word is a list of 16-bit code values. Any list of any length may be handed in: what is no word is refused. A list goes in as a
 * pointer and the number of its elements, never of its bytes. Nothing is kept between calls, nothing is allocated, and calls from several
 * threads do not touch each other, unless they share a book.
 *
 * The caller owes what C cannot say: a pointer points to as many elements as its count says, and an output shares no byte with any other
 * argument of the call. Where a count is 0 the pointer is not looked at, and may be null.
 *
 * A call needs this much stack, its own frame and those of what it calls: JOGCAIRN_STACK_WORD bytes on words and lines,
 * JOGCAIRN_STACK_BOOK on books, JOGCAIRN_STACK_ORDER for jogcairn_book_rank, jogcairn_book_order and jogcairn_book_find_prefix.
 *
 * Every answer is one number:
 *
 *     bits 56 to 63: the tag        bits 32 to 55: the second number        bits 0 to 31: the first number
 *
 *     accepted: tag 0, and the two numbers as each function says; the second is 0 where nothing is said of it
 *     refused: the tag is the refusal, 1 to 23, the first number is its place, and the second is 0
 *         (in jogcairn_compare and jogcairn_look_alike 1 or 2: the word that is refused)
 *     tag JOGCAIRN_NONE: there is no such syllable, place or record, which is no refusal (jogcairn_record, jogcairn_part,
 *         jogcairn_typed_place, jogcairn_book_word)
 *
 * A refusal writes nothing, and nor does JOGCAIRN_NONE. What is accepted is written to the front of an output, and the rest of the output is left as
 * it was.
 */
#ifndef JOGCAIRN_H
#define JOGCAIRN_H

#include <stddef.h>
#include <stdint.h>

#ifdef __cplusplus
extern "C" {
#endif

#define JOGCAIRN_WORD_LIMIT 64      /* the most values of a word: room for any normalised, written or decoded word */
#define JOGCAIRN_SPELLED_LIMIT 190  /* the most values of a spelled word; it has at most JOGCAIRN_WORD_LIMIT syllables */
#define JOGCAIRN_LABEL_LIMIT 10     /* the most syllables of a label */
#define JOGCAIRN_SKELETON_LIMIT 73  /* the most values of a skeleton */
#define JOGCAIRN_RECORD_SIZE 8      /* the bytes of a syllable's record */
#define JOGCAIRN_WEIGHTS 6          /* the weights of a syllable, a byte of a key each */
#define JOGCAIRN_BOOK_LIMIT 16384   /* the most bytes of a book */
#define JOGCAIRN_BOOK_RECORD_HEAD 7 /* the bytes of a book's record before its word, which takes a byte a value */

/* What follows from them: the most bytes of a line, three a value; the bytes of a key, of which those of the word's syllables are used; and the most records
   of a book, none of which is without a value. */
#define JOGCAIRN_LINE_LIMIT (3 * JOGCAIRN_WORD_LIMIT)
#define JOGCAIRN_KEY_SIZE (JOGCAIRN_WEIGHTS * JOGCAIRN_WORD_LIMIT)
#define JOGCAIRN_BOOK_RECORDS_LIMIT (JOGCAIRN_BOOK_LIMIT / (JOGCAIRN_BOOK_RECORD_HEAD + 1))

/* The most stack that a call needs, in bytes; tests/stack.c measures it. */
#define JOGCAIRN_STACK_WORD 4096
#define JOGCAIRN_STACK_BOOK 40960
#define JOGCAIRN_STACK_ORDER 114688

/* The tag where there is nothing of the number that is asked for. */
#define JOGCAIRN_NONE 128

/* The refusals. Each has a place, which is the first number of the answer. */
enum jogcairn_refusal {
    JOGCAIRN_TOO_LONG = 1,          /* more than JOGCAIRN_WORD_LIMIT values, or a line over JOGCAIRN_LINE_LIMIT bytes; place: JOGCAIRN_WORD_LIMIT */
    JOGCAIRN_FOREIGN = 2,           /* a foreign value; place: the first, in the word as handed in */
    JOGCAIRN_NO_CONTINUATION = 3,   /* no continuation makes it a word; place: the length of its longest beginning that has one */
    JOGCAIRN_UNFINISHED = 4,        /* no word, but some continuation makes it one; place: its length */
    JOGCAIRN_OUTPUT_TOO_SHORT = 5,  /* an output is too short; place: the elements needed */
    JOGCAIRN_NO_SUCH_ROW = 6,       /* records that no word has, or of a word over JOGCAIRN_WORD_LIMIT values; place 0 */
    JOGCAIRN_FAULTY_LINE = 7,       /* bytes that are no Myanmar value in UTF-8; place: the first such byte */
    JOGCAIRN_EMPTY_WORD = 8,        /* the empty word, in calls on a book; place 0 */
    JOGCAIRN_NOT_A_BOOK = 11,       /* place: the first byte where the buffer stops being a book; JOGCAIRN_BOOK_LIMIT where it is too long */
    JOGCAIRN_ALREADY_LIVE = 12,     /* add, preview: the word is there already; place: the start of its record */
    JOGCAIRN_NOT_LIVE = 13,         /* find, remove: the word is not there; place 0 */
    JOGCAIRN_BOOK_FULL = 14,        /* add, preview: the live records and the new one together pass the buffer's end; place: the live length */
    JOGCAIRN_RANK_TOO_HIGH = 15,    /* rank: so many live records there are not; place: how many there are */
    JOGCAIRN_STOP_OR_SIGN = 21,     /* no label, by a stop or a sign; place: the first, in the stored spelling */
    JOGCAIRN_CONFUSABLE_DIGIT = 22, /* no label, by a 1040 or 1047 next to a value that is no digit; place: the first such, in the stored spelling */
    JOGCAIRN_TOO_MANY_SYLLABLES = 23 /* no label, by more than JOGCAIRN_LABEL_LIMIT syllables; place: JOGCAIRN_LABEL_LIMIT */
};

static inline unsigned jogcairn_tag(uint64_t answer)
{
    return (unsigned)(answer >> 56);
}

static inline uint32_t jogcairn_second(uint64_t answer)
{
    return (uint32_t)(answer >> 32) & 0xFFFFFFu;
}

static inline uint32_t jogcairn_first(uint64_t answer)
{
    return (uint32_t)answer;
}

static inline int jogcairn_accepted(uint64_t answer)
{
    return jogcairn_tag(answer) == 0;
}

/* Of what jogcairn_book_word answers: how many values the record's word has, and whether the record is live. */
static inline unsigned jogcairn_word_count(uint64_t answer)
{
    return jogcairn_second(answer) & 0xFFu;
}

static inline int jogcairn_word_live(uint64_t answer)
{
    return jogcairn_second(answer) >> 8 != 0;
}

/* Of what jogcairn_book_add and jogcairn_book_preview answer: where the new record starts, after tidying where there is any, and whether the book is
   tidied for it. Both are 0 where the add is refused. */
static inline uint32_t jogcairn_add_start(uint64_t answer)
{
    return jogcairn_accepted(answer) ? jogcairn_first(answer) : 0;
}

static inline int jogcairn_add_tidies(uint64_t answer)
{
    return jogcairn_second(answer) == 1;
}

/* Words. The refusals that a call can give stand in brackets. */

/* Reads a word as it is handed in. First: its syllables. [1 to 4] */
uint64_t jogcairn_read(const uint16_t *word, size_t count);

/* Writes the record of the syllable `number`, from 0, its JOGCAIRN_RECORD_SIZE bytes: head, medial, vowel, tall, final, second final, link, tone. First:
   the bytes written. A second final stands behind a plain one alone, and the link is that of both, 1. Behind an independent vowel and behind 104E, medial,
   vowel and tall are 0; behind a digit, a stop or another sign all seven are. None comes before 5, so that the end of a word is told whatever the room.
   [1 to 5, none] */
uint64_t jogcairn_record(const uint16_t *word, size_t count, size_t number, uint8_t *record, size_t room);

/* The part of the word that the syllable `number` is, from 0. First: the place of its first value; second: how many values it has.
   [1 to 4, none] */
uint64_t jogcairn_part(const uint16_t *word, size_t count, size_t number);

/* Spells a word out: each syllable by itself, each of its finals as a letter and 103A. Writes the values, and to `starts` the place among them where
   each syllable begins. First: the values; second: the syllables. Of two outputs too short, `values` is told first. [1 to 5] */
uint64_t jogcairn_spell(const uint16_t *word, size_t count, uint16_t *values, size_t room, uint16_t *starts, size_t starts_room);

/* Writes the word of records, JOGCAIRN_RECORD_SIZE bytes a syllable. First: its values. [5, 6] */
uint64_t jogcairn_write(const uint8_t *records, size_t bytes, uint16_t *word, size_t room);

/* Writes the one spelling that a word is stored in: its marks in order. First: its values. Places of 3 and 4 are places in the stored
   spelling, for the calls below too. [1 to 5] */
uint64_t jogcairn_normalise(const uint16_t *word, size_t count, uint16_t *output, size_t room);

/* Writes the stored spelling of any admitted values, whether or not it is a word: what the places of 3 and 4 of jogcairn_normalise, of the
   calls below and of those on a book are places in. First: its values. [1, 2, 5] */
uint64_t jogcairn_stored_form(const uint16_t *word, size_t count, uint16_t *output, size_t room);

/* Which value of the word, as typed, stands at a place of the stored spelling. First: its place in the word. So a counter can point at the
   letter that makes a word refused: refusal 3, 21 or 22 at a place is the typed value that this call gives for that place. A 1026 that was
   typed as 1025 102E is pointed at by its 1025. None where the stored spelling ends before the place. [1, 2, none] */
uint64_t jogcairn_typed_place(const uint16_t *word, size_t count, size_t place);

/* Writes the collation key of a word, normalised, always JOGCAIRN_KEY_SIZE bytes: JOGCAIRN_WEIGHTS a syllable (head, medial, final, second final, vowel,
   tone), then zeros. memcmp orders keys as the dictionary files words; words that weigh the same have the same key, and jogcairn_compare tells them apart.
   An independent vowel weighs as its mark on 1021, whatever finals and tone it has. First: the syllables. [1 to 5] */
uint64_t jogcairn_key(const uint16_t *word, size_t count, uint8_t *key, size_t room);

/* Compares two words, normalised. First: 0 where the first comes before the second, 1 where they are one word, 2 where it comes after.
   [1 to 4; second: 1 or 2, the word that is refused] */
uint64_t jogcairn_compare(const uint16_t *first, size_t first_count, const uint16_t *second, size_t second_count);

/* Writes the values of a line of UTF-8, without the byte that ends it. First: the values. [1, 5, 7] */
uint64_t jogcairn_decode(const uint8_t *line, size_t bytes, uint16_t *word, size_t room);

/*
 * A label names a web shop: a word, normalised, without a stop (104A, 104B) or a sign (104C to 104F), without a 1040 or 1047 next to a value that is
 * no digit, and of at most JOGCAIRN_LABEL_LIMIT syllables. They are tested in this order, each over the whole word. The word's end is no value: 1040
 * alone is a label, and so is the empty word.
 *
 * Two labels look alike exactly when they have the same skeleton: the normalised word with 1040 as 101D, 1047 as 101B, 1025 as 1009, and 1029 as 101E
 * 103C. A host keeps the skeleton as the key under which a label is registered, and finds what a new label looks like by one search.
 */

/* Whether a word is a label. First: its syllables. [1 to 4, 21 to 23] */
uint64_t jogcairn_label(const uint16_t *word, size_t count);

/* Writes the skeleton of a label, which has its own length: at most JOGCAIRN_SKELETON_LIMIT values. First: its values. [1 to 5, 21 to 23] */
uint64_t jogcairn_skeleton(const uint16_t *word, size_t count, uint16_t *skeleton, size_t room);

/* Whether two labels look alike. First: 1 where they do, 0 where not. [1 to 4, 21 to 23; second: 1 or 2, the word that is refused] */
uint64_t jogcairn_look_alike(const uint16_t *first, size_t first_count, const uint16_t *second, size_t second_count);

/*
 * A book: a buffer of at most JOGCAIRN_BOOK_LIMIT bytes, which are its only state. It has records one behind the other from the first byte on,
 * and zeros behind the last to the buffer's end, so that a buffer of zeros is an empty book. The bytes of a record:
 *
 *     0, 1        4D 57 ("MW") where it is live, 4D 2D ("M-") where it is removed
 *     2           n, how many values its word has, 1 to JOGCAIRN_WORD_LIMIT
 *     3 to 6      the stock number, lowest byte first
 *     7 to 6 + n  the values of the word in the stored spelling, each minus 1000 (hexadecimal)
 *
 * No two live records have the same word. The live length is the sum of the live records' bytes. Each call tests the whole buffer, and normalises the
 * word that is handed in.
 */

/* Whether the buffer is a book. First: its live records. [11] */
uint64_t jogcairn_book_check(const uint8_t *book, size_t bytes);

/* Adds a word with its stock number behind the last record. Where the record would pass the buffer's end there, but fits after tidying, the book is
   tidied first, and in no other case. First: the start of the new record; second: 1 where the book was tidied, else 0. After a 1, as after
   jogcairn_book_tidy, no start that the caller keeps holds any more: it is to be asked for again. With 14 nothing is moved, and its place is the live
   length. [1 to 4, 8, 11, 12, 14] */
uint64_t jogcairn_book_add(uint8_t *book, size_t bytes, const uint16_t *word, size_t count, uint32_t stock);

/* Shows an add before it is done: answers the very number that jogcairn_book_add would give on a copy of the book, refusal and place included. The book
   is only read. First: where the new record would start, after tidying where add would tidy; second: 1 where the book would be tidied, else 0.
   jogcairn_add_start and jogcairn_add_tidies take both from the answer, and give 0 where the add would be refused. [1 to 4, 8, 11, 12, 14] */
uint64_t jogcairn_book_preview(const uint8_t *book, size_t bytes, const uint16_t *word, size_t count, uint32_t stock);

/* Marks the record of a word as removed; its room is used again through tidying alone. First: its start. [1 to 4, 8, 11, 13] */
uint64_t jogcairn_book_remove(uint8_t *book, size_t bytes, const uint16_t *word, size_t count);

/* Tidies a book: moves the live records to the front, in the order of their starts, closes the gaps of the removed ones, and fills the rest with zeros.
   Words keep their stock numbers and their ranks, but not their starts. First: the live length, which is where the next record starts. [11] */
uint64_t jogcairn_book_tidy(uint8_t *book, size_t bytes);

/* Finds a word. First: its stock number; second: the start of its record. [1 to 4, 8, 11, 13] */
uint64_t jogcairn_book_find(const uint8_t *book, size_t bytes, const uint16_t *word, size_t count);

/* Finds by the first syllables: writes the starts of all live records whose words begin with the syllables of `query`, in word order. First: how
   many they are; 0 is no refusal. Whole syllables are compared, by their weights: a word begins with itself, a plain final finds a stacked one, kinzi
   and great sa too, and a syllable does not find one that has a mark or a final more. Tested in the order 1, 8, 2, 3 or 4, 11, 5; the place
   of 5 is how many they are, at most JOGCAIRN_BOOK_RECORDS_LIMIT. [1 to 5, 8, 11] */
uint64_t jogcairn_book_find_prefix(const uint8_t *book, size_t bytes, const uint16_t *query, size_t count, uint16_t *starts, size_t room);

/* The live record with exactly `rank` live records before it in word order. First: its stock number; second: its start. [11, 15] */
uint64_t jogcairn_book_rank(const uint8_t *book, size_t bytes, size_t rank);

/* The whole book: writes the starts of all live records, in word order. First: how many there are. A book has at most
   JOGCAIRN_BOOK_RECORDS_LIMIT records. [5, 11] */
uint64_t jogcairn_book_order(const uint8_t *book, size_t bytes, uint16_t *starts, size_t room);

/* The record that starts at a byte, live or removed: writes its word. First: its stock number; second: jogcairn_word_count and
   jogcairn_word_live take it apart. None where no record starts there. [5, 11, none] */
uint64_t jogcairn_book_word(const uint8_t *book, size_t bytes, size_t start, uint16_t *word, size_t room);

/*
 * Example: file a part under the name that a line holds.
 *
 *     uint8_t book[4096] = {0};
 *     uint16_t word[JOGCAIRN_WORD_LIMIT];
 *     uint64_t answer = jogcairn_decode(line, bytes, word, JOGCAIRN_WORD_LIMIT);
 *     if (jogcairn_accepted(answer))
 *         answer = jogcairn_book_add(book, sizeof book, word, jogcairn_first(answer), 4711);
 *     if (!jogcairn_accepted(answer))
 *         printf("refusal %u at %" PRIu32 "\n", jogcairn_tag(answer), jogcairn_first(answer));
 */

#ifdef __cplusplus
}
#endif

#endif
