/* A day at the counter of a parts shop: names are filed, one is found, those that begin with what the clerk typed are listed, then all, in dictionary
   order, and in a misspelt one the letter that breaks it is pointed at. Parts are renamed in the full book, which makes room by tidying, and adds are
   shown to the clerk before they are done. Then labels of the web shop are registered, no two of which look alike. */
#include "jogcairn.h"

#include <inttypes.h>
#include <stdio.h>
#include <string.h>

/* A name as it was typed. */
struct name {
    uint16_t values[JOGCAIRN_WORD_LIMIT];
    size_t count;
};

/* A part: its name as typed, and its stock number. */
struct part {
    const char *name;
    uint32_t stock;
};

static const struct part parts[] = {
    {"ပန်ကာ", 1207},        /* fan */
    {"လေအေးပေးစက်", 88},   /* air conditioner */
    {"ပိုက်", 4000000000},   /* pipe */
    {"ပုိက်", 4},            /* pipe, its marks typed in another order */
    {"အပူပေးစက်", 15},     /* heater */
    {"လေဝင်ပေါက်", 310},   /* air inlet */
    {"ပတ္တာ", 52},          /* hinge */
    {"ဥက္က", 61},           /* an independent vowel with a stacked final */
    {"၎င်း", 62},            /* the sign "aforementioned" with a final and a tone */
    {"ဘတ်စ်", 63},          /* a brand name, one syllable with two finals */
    {"လေအေးပေးစ်က", 9},   /* killer and letter exchanged */
    {"ပုိက့း်", 5},           /* two tones, and its marks typed in another order */
    {"ဘတ်စ်မ်", 8},         /* a third final */
    {"ပန်ကက္", 6},          /* the stacker at the end waits for a letter */
    {"fan", 7},             /* no Myanmar letters */
};

/* Labels that are asked for. */
static const char *const wanted[] = {
    "ဩဇာ",     /* a name that begins with the letter 1029 */
    "သြဇာ",    /* the same to the eye, typed with 101E and the medial 103C */
    "ရတနာ",    /* jewel */
    "ဦး၇တနာ", /* Mr Jewel, with the digit seven for the letter 101B, and its first letter typed as 1025 102E */
    "ရတနာ။",   /* a stop at its end */
};

/* A registered label, with the skeleton that it is kept under. */
struct label {
    const char *text;
    uint16_t skeleton[JOGCAIRN_SKELETON_LIMIT];
    size_t count;
};

static struct label labels[sizeof wanted / sizeof wanted[0]];
static size_t registered;

/* The parts that are accepted fill the book to its last byte. */
static uint8_t book[121];

/* The most records that it has room for: no word is without a value. */
enum { RECORDS = sizeof book / (JOGCAIRN_BOOK_RECORD_HEAD + 1) };

/* Prints values as UTF-8: each is 1000 to 107F, which takes three bytes. */
static void print_values(const uint16_t *values, size_t count)
{
    for (size_t at = 0; at < count; at++)
        printf("\xE1%c%c", 0x80 + ((values[at] >> 6) & 0x3F), 0x80 + (values[at] & 0x3F));
}

/* Prints a name with one of its values in brackets, on a dotted circle, since it may be a mark. */
static void print_pointed(const struct name *name, size_t at)
{
    print_values(name->values, at);
    printf("[\xE2\x97\x8C");
    print_values(name->values + at, 1);
    printf("]");
    print_values(name->values + at + 1, name->count - at - 1);
}

/* Whether the place of a refusal is one in the stored spelling, with the value there that is to be blamed: nothing before it can be continued with it,
   or a label may not have it there. */
static int blames_value(unsigned refusal)
{
    return refusal == JOGCAIRN_NO_CONTINUATION || refusal == JOGCAIRN_STOP_OR_SIGN || refusal == JOGCAIRN_CONFUSABLE_DIGIT;
}

/* Says why an answer is a refusal. A value that is to be blamed is pointed at where it was typed. */
static void print_refusal(uint64_t answer, const struct name *name)
{
    printf("refusal %u, place %" PRIu32, jogcairn_tag(answer), jogcairn_first(answer));
    if (blames_value(jogcairn_tag(answer))) {
        uint64_t typed = jogcairn_typed_place(name->values, name->count, jogcairn_first(answer));
        printf(", typed ");
        print_pointed(name, jogcairn_first(typed));
    }
    printf("\n");
}

/* Takes the values of a name; where that is refused, says why. */
static int decode(const char *text, struct name *name)
{
    uint64_t answer = jogcairn_decode((const uint8_t *)text, strlen(text), name->values, JOGCAIRN_WORD_LIMIT);
    if (!jogcairn_accepted(answer)) {
        print_refusal(answer, name);
        return 0;
    }
    name->count = jogcairn_first(answer);
    return 1;
}

/* Adds a record and says where it starts, or why it is refused. Gives the answer. */
static uint64_t add_name(const struct name *name, uint32_t stock)
{
    uint64_t answer = jogcairn_book_add(book, sizeof book, name->values, name->count, stock);
    if (jogcairn_accepted(answer))
        printf("at byte %" PRIu32 "%s\n", jogcairn_add_start(answer), jogcairn_add_tidies(answer) ? ", tidied, so starts have moved" : "");
    else
        print_refusal(answer, name);
    return answer;
}

/* Says where a record would start, or why it would be refused, and leaves the book as it is. Gives the answer. */
static uint64_t preview_name(const struct name *name, uint32_t stock)
{
    uint64_t answer = jogcairn_book_preview(book, sizeof book, name->values, name->count, stock);
    if (jogcairn_accepted(answer))
        printf("would start at byte %" PRIu32 "%s\n", jogcairn_add_start(answer), jogcairn_add_tidies(answer) ? " after tidying" : "");
    else
        print_refusal(answer, name);
    return answer;
}

static void file_part(struct part part)
{
    struct name name;
    printf("file %s: ", part.name);
    if (decode(part.name, &name))
        add_name(&name, part.stock);
}

/* Shows the clerk what filing a part would come to, and then files it: both answers are one number. */
static void file_previewed(struct part part)
{
    struct name name;
    printf("preview %s: ", part.name);
    if (!decode(part.name, &name))
        return;
    uint64_t previewed = preview_name(&name, part.stock);
    printf("file %s: ", part.name);
    uint64_t added = add_name(&name, part.stock);
    printf(added == previewed ? "  as previewed\n" : "  not as previewed\n");
}

static void find_part(const char *text)
{
    struct name name;
    printf("find %s: ", text);
    if (!decode(text, &name))
        return;
    uint64_t answer = jogcairn_book_find(book, sizeof book, name.values, name.count);
    if (jogcairn_accepted(answer))
        printf("stock number %" PRIu32 ", at byte %" PRIu32 "\n", jogcairn_first(answer), jogcairn_second(answer));
    else
        print_refusal(answer, &name);
}

static void remove_part(const char *text)
{
    struct name name;
    printf("remove %s: ", text);
    if (!decode(text, &name))
        return;
    uint64_t answer = jogcairn_book_remove(book, sizeof book, name.values, name.count);
    if (jogcairn_accepted(answer))
        printf("at byte %" PRIu32 "\n", jogcairn_first(answer));
    else
        print_refusal(answer, &name);
}

/* Gives a part another name. Its record is removed first, so that its room can be used; where the new name does not fit even so, the old one does. */
static void rename_part(const char *text, const char *other)
{
    struct name name, renamed;
    printf("rename %s to %s: ", text, other);
    if (!decode(text, &name) || !decode(other, &renamed))
        return;
    uint64_t found = jogcairn_book_find(book, sizeof book, name.values, name.count);
    if (!jogcairn_accepted(found)) {
        print_refusal(found, &name);
        return;
    }
    jogcairn_book_remove(book, sizeof book, name.values, name.count);
    if (!jogcairn_accepted(add_name(&renamed, jogcairn_first(found)))) {
        printf("  kept as %s: ", text);
        add_name(&name, jogcairn_first(found));
    }
}

/* Tidies the book, and says how much of it is used. */
static void tidy_book(void)
{
    uint64_t answer = jogcairn_book_tidy(book, sizeof book);
    printf("tidy: ");
    if (jogcairn_accepted(answer))
        printf("%" PRIu32 " bytes of live records, %zu free\n", jogcairn_first(answer), sizeof book - jogcairn_first(answer));
    else
        print_refusal(answer, NULL);
}

/* The record that starts at a byte: its stock number, its word, and whether it is removed. */
static void print_record(size_t start)
{
    uint16_t word[JOGCAIRN_WORD_LIMIT];
    uint64_t answer = jogcairn_book_word(book, sizeof book, start, word, JOGCAIRN_WORD_LIMIT);
    if (!jogcairn_accepted(answer)) {
        printf("  no record starts at byte %zu\n", start);
        return;
    }
    printf("  %" PRIu32 " ", jogcairn_first(answer));
    print_values(word, jogcairn_word_count(answer));
    printf(jogcairn_word_live(answer) ? "\n" : ", removed\n");
}

static void print_records(const uint16_t *starts, size_t count)
{
    for (size_t at = 0; at < count; at++)
        print_record(starts[at]);
}

/* Lists the book in dictionary order. */
static void list_parts(void)
{
    uint16_t starts[RECORDS];
    uint64_t answer = jogcairn_book_order(book, sizeof book, starts, RECORDS);
    if (!jogcairn_accepted(answer)) {
        print_refusal(answer, NULL);
        return;
    }
    printf("list of %" PRIu32 ":\n", jogcairn_first(answer));
    print_records(starts, jogcairn_first(answer));
}

/* Lists the parts whose names begin with the syllables that were typed, in dictionary order. */
static void list_continued(const char *text)
{
    struct name name;
    uint16_t starts[RECORDS];
    printf("continue %s: ", text);
    if (!decode(text, &name))
        return;
    uint64_t answer = jogcairn_book_find_prefix(book, sizeof book, name.values, name.count, starts, RECORDS);
    if (!jogcairn_accepted(answer)) {
        print_refusal(answer, &name);
        return;
    }
    printf("%" PRIu32 "\n", jogcairn_first(answer));
    print_records(starts, jogcairn_first(answer));
}

/* The part with so many before it in dictionary order. */
static void print_rank(size_t rank)
{
    uint64_t answer = jogcairn_book_rank(book, sizeof book, rank);
    printf("rank %zu of %" PRIu32 ": ", rank, jogcairn_first(jogcairn_book_check(book, sizeof book)));
    if (jogcairn_accepted(answer))
        printf("stock number %" PRIu32 "\n", jogcairn_first(answer));
    else
        print_refusal(answer, NULL);
}

/* The syllables of a name: the part that each is, its record, and how it is spelled. */
static void print_syllables(const char *text)
{
    uint16_t values[JOGCAIRN_SPELLED_LIMIT], starts[JOGCAIRN_WORD_LIMIT];
    struct name name;
    printf("syllables of %s: ", text);
    if (!decode(text, &name))
        return;
    uint64_t spelled = jogcairn_spell(name.values, name.count, values, JOGCAIRN_SPELLED_LIMIT, starts, JOGCAIRN_WORD_LIMIT);
    if (!jogcairn_accepted(spelled)) {
        printf("refusal %u, place %" PRIu32 " of it as typed\n", jogcairn_tag(spelled), jogcairn_first(spelled));
        return;
    }
    printf("%" PRIu32 "\n", jogcairn_second(spelled));
    for (size_t number = 0; number < jogcairn_second(spelled); number++) {
        uint64_t part = jogcairn_part(name.values, name.count, number);
        uint8_t record[JOGCAIRN_RECORD_SIZE];
        jogcairn_record(name.values, name.count, number, record, sizeof record);
        size_t end = number + 1 < jogcairn_second(spelled) ? starts[number + 1] : jogcairn_first(spelled);
        printf("  ");
        print_values(name.values + jogcairn_first(part), jogcairn_second(part));
        for (size_t byte = 0; byte < sizeof record; byte++)
            printf(" %02X", record[byte]);
        printf(" ");
        print_values(values + starts[number], end - starts[number]);
        printf("\n");
    }
}

/* Two names that are held side by side. */
struct pair {
    struct name first, second;
};

/* Takes the values of two names; where that is refused, says why. */
static int decode_pair(const char *one, const char *other, struct pair *pair)
{
    printf("%s and %s: ", one, other);
    return decode(one, &pair->first) && decode(other, &pair->second);
}

/* Whether both names are accepted; where one is not, says why. */
static int both_accepted(uint64_t answer, const struct pair *pair)
{
    if (!jogcairn_accepted(answer))
        print_refusal(answer, jogcairn_second(answer) == 1 ? &pair->first : &pair->second);
    return jogcairn_accepted(answer);
}

/* How two names compare, and the used bytes of the first one's key. */
static void print_order(const char *one, const char *other)
{
    static const char *const orders[] = {"before", "the same as", "after"};
    struct pair pair;
    uint8_t key[JOGCAIRN_KEY_SIZE];
    if (!decode_pair(one, other, &pair))
        return;
    uint64_t order = jogcairn_compare(pair.first.values, pair.first.count, pair.second.values, pair.second.count);
    if (!both_accepted(order, &pair))
        return;
    uint64_t keyed = jogcairn_key(pair.first.values, pair.first.count, key, sizeof key);
    printf("the first is %s the second, its key", orders[jogcairn_first(order)]);
    for (size_t byte = 0; byte < JOGCAIRN_WEIGHTS * jogcairn_first(keyed); byte++)
        printf(byte % JOGCAIRN_WEIGHTS == 0 ? " %02X" : "%02X", key[byte]);
    printf("\n");
}

/* The word of a name, written again from its records. */
static void print_written(const uint16_t *stored, size_t count)
{
    uint16_t written[JOGCAIRN_WORD_LIMIT];
    uint8_t records[JOGCAIRN_WORD_LIMIT * JOGCAIRN_RECORD_SIZE];
    size_t syllables = jogcairn_first(jogcairn_read(stored, count));
    for (size_t number = 0; number < syllables; number++)
        jogcairn_record(stored, count, number, records + number * JOGCAIRN_RECORD_SIZE, JOGCAIRN_RECORD_SIZE);
    uint64_t answer = jogcairn_write(records, syllables * JOGCAIRN_RECORD_SIZE, written, JOGCAIRN_WORD_LIMIT);
    printf(", written from its records ");
    print_values(written, jogcairn_first(answer));
}

/* The stored spelling of a name, and whether it is a word. */
static void print_stored(const char *text)
{
    struct name name;
    uint16_t stored[JOGCAIRN_WORD_LIMIT];
    printf("%s is stored as ", text);
    if (!decode(text, &name))
        return;
    uint64_t answer = jogcairn_stored_form(name.values, name.count, stored, JOGCAIRN_WORD_LIMIT);
    print_values(stored, jogcairn_first(answer));
    answer = jogcairn_normalise(name.values, name.count, stored, JOGCAIRN_WORD_LIMIT);
    if (jogcairn_accepted(answer))
        print_written(stored, jogcairn_first(answer));
    else
        printf(", right as far as %" PRIu32 " of its values", jogcairn_first(answer));
    printf("\n");
}

/* The registered label with the same skeleton; none where there is no such label. */
static const struct label *label_like(const struct label *label)
{
    for (size_t at = 0; at < registered; at++)
        if (labels[at].count == label->count && memcmp(labels[at].skeleton, label->skeleton, label->count * sizeof label->skeleton[0]) == 0)
            return &labels[at];
    return NULL;
}

/* Keeps a label under its skeleton, where none is kept there yet. */
static void keep_label(const struct label *label, const struct name *name)
{
    const struct label *other = label_like(label);
    if (other != NULL) {
        printf("looks like %s\n", other->text);
        return;
    }
    labels[registered++] = *label;
    printf("%" PRIu32 " syllables, skeleton ", jogcairn_first(jogcairn_label(name->values, name->count)));
    for (size_t at = 0; at < label->count; at++)
        printf(at == 0 ? "%04X" : "-%04X", (unsigned)label->skeleton[at]);
    printf("\n");
}

static void register_label(const char *text)
{
    struct name name;
    struct label label = {text, {0}, 0};
    printf("register %s: ", text);
    if (!decode(text, &name))
        return;
    uint64_t answer = jogcairn_skeleton(name.values, name.count, label.skeleton, JOGCAIRN_SKELETON_LIMIT);
    if (!jogcairn_accepted(answer)) {
        print_refusal(answer, &name);
        return;
    }
    label.count = jogcairn_first(answer);
    keep_label(&label, &name);
}

/* Whether two labels look alike, by themselves: the register is not asked. */
static void print_alike(const char *one, const char *other)
{
    struct pair pair;
    if (!decode_pair(one, other, &pair))
        return;
    uint64_t alike = jogcairn_look_alike(pair.first.values, pair.first.count, pair.second.values, pair.second.count);
    if (both_accepted(alike, &pair))
        printf(jogcairn_first(alike) ? "look alike\n" : "do not look alike\n");
}

int main(void)
{
    for (size_t at = 0; at < sizeof parts / sizeof parts[0]; at++)
        file_part(parts[at]);
    find_part("ပိုက်");
    find_part("ပန်းကာ");
    find_part("ဥက္က");
    find_part("၎င်း");
    find_part("ဘတ်စ်");
    list_continued("လေ");
    list_continued("ပတ်");
    list_continued("ဥက်");
    list_continued("ဘတ်စ်");
    list_continued("ဘတ်");
    list_continued("ပ");
    list_continued("ပတ္");
    list_parts();
    print_rank(8);
    list_continued("ပန်");
    remove_part("ပန်ကာ");
    remove_part("ပန်ကာ");
    list_continued("ပန်");
    list_parts();
    print_rank(8);
    print_record(0);
    print_record(1);
    file_part((struct part){"ရေပိုက်ခေါင်း", 19});
    find_part("ပတ္တာ");
    rename_part("ပိုက်", "ရေပိုက်");
    find_part("ပတ္တာ");
    print_record(75);
    rename_part("ပတ္တာ", "လေအေးပေးစက်ပတ္တာ");
    remove_part("ဥက္က");
    file_part((struct part){"မီး", 20});
    tidy_book();
    find_part("ပတ္တာ");
    list_parts();
    file_previewed((struct part){"ဆီ", 21});
    file_previewed((struct part){"ဘီး", 22});
    remove_part("မီး");
    file_previewed((struct part){"ဘီး", 22});
    print_syllables("တက္ကသိုလ်");
    print_syllables("ဥက္က");
    print_syllables("၎င်း");
    print_syllables("ဘတ်စ်");
    print_syllables("ဘတ်စ်ကား");
    print_syllables("ပုိက်");
    print_order("ပိုက်", "ပန်ကာ");
    print_order("ပုိက်", "ပိုက်");
    print_order("ဥက္က", "အုက္က");
    print_order("၎င်း", "ဥက္က");
    print_order("ဘတ်စ်", "ဘတ်");
    print_order("ပန်ကာ", "ပုိက့း်");
    print_stored("ပုိက်");
    print_stored("ဥက္က");
    print_stored("၎ငး်");
    print_stored("ဘတ်စ့်");
    print_stored("ပုိက့း်");
    for (size_t at = 0; at < sizeof wanted / sizeof wanted[0]; at++)
        register_label(wanted[at]);
    print_alike("ဥယျာဉ်", "ဉယျာဉ်");
    print_alike("ဥယျာဉ်", "ရတနာ");
    print_alike("ရတနာ", "၇တနာ");
    return 0;
}
