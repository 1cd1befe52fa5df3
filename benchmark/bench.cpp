// Times the calls of the proved library on the words of a file, beside ICU, the other implementation and a plain pass over the same
// values, in one run. Usage: bench FILE [ROUNDS]. scripts/benchmark builds and runs it.
#include "jogcairn.h"

#include <unicode/ucol.h>
#include <unicode/unorm2.h>
#include <unicode/uspoof.h>

#include <algorithm>
#include <chrono>
#include <cstdio>
#include <cstdlib>
#include <cstring>
#include <fstream>
#include <functional>
#include <iterator>
#include <set>
#include <string>
#include <vector>

extern "C" {
uint64_t peer_read(const uint16_t *, size_t);
uint64_t peer_spell(const uint16_t *, size_t);
uint64_t peer_write(const uint8_t *, size_t, uint16_t *, size_t);
uint64_t peer_normalise(const uint16_t *, size_t, uint16_t *, size_t);
uint64_t peer_stored_form(const uint16_t *, size_t, uint16_t *, size_t);
uint64_t peer_typed_place(const uint16_t *, size_t, size_t);
uint64_t peer_key(const uint16_t *, size_t, size_t);
uint64_t peer_compare(const uint16_t *, size_t, const uint16_t *, size_t);
uint64_t peer_label(const uint16_t *, size_t);
uint64_t peer_skeleton(const uint16_t *, size_t, uint16_t *, size_t);
uint64_t peer_look_alike(const uint16_t *, size_t, const uint16_t *, size_t);
uint64_t peer_book_check(const uint8_t *, size_t);
uint64_t peer_book_find(const uint8_t *, size_t, const uint16_t *, size_t);
uint64_t peer_book_rank(const uint8_t *, size_t, size_t);
uint64_t peer_book_order(const uint8_t *, size_t, uint16_t *, size_t);
uint64_t peer_book_find_prefix(const uint8_t *, size_t, const uint16_t *, size_t, uint16_t *, size_t);
uint64_t peer_book_word(const uint8_t *, size_t, size_t, uint16_t *, size_t);
}

using Word = std::vector<uint16_t>;

static volatile uint64_t sink;
static int rounds = 15;

// What is timed: a loop of calls, and the shortest time of it so far, in ns a call.
struct Case {
    const char *name;
    std::function<double()> round;
    double shortest;
};

// The calls f(0) to f(count - 1).
template <typename F> static Case timed(const char *name, size_t count, F f)
{
    auto round = [=]() mutable {
        auto begin = std::chrono::steady_clock::now();
        uint64_t sum = 0;
        for (size_t i = 0; i < count; i++)
            sum += f(i);
        sink = sum;
        std::chrono::duration<double, std::nano> took = std::chrono::steady_clock::now() - begin;
        return took.count() / double(count);
    };
    return {name, round, 0};
}

// Each round times every case once, so that a machine that is slower for a while is so for all of them. One round goes before, to warm up.
static void run(std::vector<Case> &cases)
{
    for (int round = 0; round <= rounds; round++)
        for (Case &each : cases) {
            double took = each.round();
            if (round == 1 || (round > 1 && took < each.shortest))
                each.shortest = took;
        }
}

static void need(bool holds, const char *what)
{
    if (!holds) {
        std::fprintf(stderr, "bench: %s\n", what);
        std::exit(1);
    }
}

// The places of two bytes of a record, and the link of plain finals.
enum { SECOND_FINAL = 5, LINK = 6, PLAIN = 1 };

static Word stored(const Word &word)
{
    uint16_t form[JOGCAIRN_WORD_LIMIT];
    return Word(form, form + jogcairn_first(jogcairn_normalise(word.data(), word.size(), form, JOGCAIRN_WORD_LIMIT)));
}

// The records of a word's stored form.
static std::vector<uint8_t> records_of(const Word &word)
{
    Word form = stored(word);
    size_t syllables = jogcairn_first(jogcairn_read(form.data(), form.size()));
    std::vector<uint8_t> records(syllables * JOGCAIRN_RECORD_SIZE);
    for (size_t number = 0; number < syllables; number++)
        jogcairn_record(form.data(), form.size(), number, &records[number * JOGCAIRN_RECORD_SIZE], JOGCAIRN_RECORD_SIZE);
    return records;
}

// Whether a syllable of the word has two finals.
static bool closes_twice(const Word &word)
{
    std::vector<uint8_t> records = records_of(word);
    for (size_t at = SECOND_FINAL; at < records.size(); at += JOGCAIRN_RECORD_SIZE)
        if (records[at] != 0)
            return true;
    return false;
}

// The words of a file, one a line, that are stored. Those with two finals are counted apart and left out, and so are those that are refused: two libraries
// for which the sum of both counts differs were timed on different words.
static std::vector<Word> words_of(const char *path, size_t &refused, size_t &apart)
{
    std::ifstream file(path);
    need(bool(file), "the file of words cannot be read");
    std::vector<Word> words;
    std::string line;
    refused = apart = 0;
    while (std::getline(file, line)) {
        uint16_t word[JOGCAIRN_WORD_LIMIT], form[JOGCAIRN_WORD_LIMIT];
        uint64_t answer = jogcairn_decode(reinterpret_cast<const uint8_t *>(line.data()), line.size(), word, JOGCAIRN_WORD_LIMIT);
        size_t count = jogcairn_first(answer);
        if (!jogcairn_accepted(answer) || count == 0 || !jogcairn_accepted(jogcairn_normalise(word, count, form, JOGCAIRN_WORD_LIMIT)))
            refused++;
        else if (closes_twice(Word(word, word + count)))
            apart++;
        else
            words.emplace_back(word, word + count);
    }
    return words;
}

// A line for each case: its time, and that as a multiple of the first one's.
static void print_times(const char *what, const char *first, const std::vector<Case> &cases)
{
    std::printf("  %-34s %9s %10s\n", what, "ns", first);
    for (const Case &each : cases)
        std::printf("  %-34s %9.1f %10.2f\n", each.name, each.shortest, each.shortest / cases[0].shortest);
    std::printf("\n");
}

static void aim(const char *name, double ratio, double most)
{
    std::printf("  %-54s %6.3f  aim %.3f: %s\n", name, ratio, most, ratio <= most ? "met" : "missed");
}

// A word far off in the file.
static size_t far_from(size_t i, size_t count)
{
    return (i * 7919 + 1) % count;
}

static void time_words(const std::vector<Word> &words)
{
    size_t count = words.size();
    static uint8_t table[65536];
    for (int i = 0; i < 65536; i++)
        table[i] = uint8_t(i * 7);
    static uint16_t form[JOGCAIRN_WORD_LIMIT], spelled[JOGCAIRN_SPELLED_LIMIT], starts[JOGCAIRN_WORD_LIMIT];
    static uint8_t key[JOGCAIRN_KEY_SIZE], sort_key[4096];
    UErrorCode status = U_ZERO_ERROR;
    UCollator *collator = ucol_open("my", &status);
    const UNormalizer2 *nfc = unorm2_getNFCInstance(&status);
    need(U_SUCCESS(status), "ICU has no Burmese collation or no NFC");
    std::vector<std::vector<uint8_t>> records;
    std::transform(words.begin(), words.end(), std::back_inserter(records), records_of);
    auto text = [&](size_t i) { return reinterpret_cast<const UChar *>(words[i].data()); };
    auto size = [&](size_t i) { return int32_t(words[i].size()); };

    auto ours_compare = [&](size_t i, size_t k) { return jogcairn_compare(words[i].data(), words[i].size(), words[k].data(), words[k].size()); };
    auto peer_order = [&](size_t i, size_t k) { return peer_compare(words[i].data(), words[i].size(), words[k].data(), words[k].size()); };
    auto icu_order = [&](size_t i, size_t k) { return uint64_t(ucol_strcoll(collator, text(i), size(i), text(k), size(k)) + 1); };
    enum { PASS, READ, SPELL, WRITE, NORMALISE, STORED_FORM, TYPED_PLACE, KEY, FAR, NEXT, PEER_READ, PEER_SPELL, PEER_WRITE, PEER_NORMALISE, PEER_STORED_FORM, PEER_TYPED_PLACE, PEER_KEY, PEER_FAR, PEER_NEXT, NFC, ICU_KEY, ICU_FAR, ICU_NEXT };
    std::vector<Case> cases = {
        timed("a plain pass, a table look a value", count,
              [&](size_t i) {
                  uint64_t sum = 0;
                  for (uint16_t value : words[i])
                      sum += table[value];
                  return sum;
              }),
        timed("read", count, [&](size_t i) { return jogcairn_read(words[i].data(), words[i].size()); }),
        timed("spell", count,
              [&](size_t i) {
                  return jogcairn_spell(words[i].data(), words[i].size(), spelled, JOGCAIRN_SPELLED_LIMIT, starts, JOGCAIRN_WORD_LIMIT) + spelled[i % 8];
              }),
        timed("write", count,
              [&](size_t i) { return jogcairn_write(records[i].data(), records[i].size(), form, JOGCAIRN_WORD_LIMIT) + form[i % 8]; }),
        timed("normalise", count,
              [&](size_t i) { return jogcairn_normalise(words[i].data(), words[i].size(), form, JOGCAIRN_WORD_LIMIT) + form[i % 8]; }),
        timed("stored form", count,
              [&](size_t i) { return jogcairn_stored_form(words[i].data(), words[i].size(), form, JOGCAIRN_WORD_LIMIT) + form[i % 8]; }),
        timed("typed place", count, [&](size_t i) { return jogcairn_typed_place(words[i].data(), words[i].size(), i % 8); }),
        timed("key", count, [&](size_t i) { return jogcairn_key(words[i].data(), words[i].size(), key, JOGCAIRN_KEY_SIZE) + key[i % 32]; }),
        timed("compare, words far off", count, [&](size_t i) { return ours_compare(i, far_from(i, count)); }),
        timed("compare, neighbours of the file", count, [&](size_t i) { return ours_compare(i, (i + 1) % count); }),
        timed("other implementation: read", count, [&](size_t i) { return peer_read(words[i].data(), words[i].size()); }),
        timed("other implementation: spell", count, [&](size_t i) { return peer_spell(words[i].data(), words[i].size()); }),
        timed("other implementation: write", count,
              [&](size_t i) { return peer_write(records[i].data(), records[i].size(), form, JOGCAIRN_WORD_LIMIT) + form[i % 8]; }),
        timed("other implementation: normalise", count,
              [&](size_t i) { return peer_normalise(words[i].data(), words[i].size(), form, JOGCAIRN_WORD_LIMIT) + form[i % 8]; }),
        timed("other implementation: stored form", count,
              [&](size_t i) { return peer_stored_form(words[i].data(), words[i].size(), form, JOGCAIRN_WORD_LIMIT) + form[i % 8]; }),
        timed("other implementation: typed place", count, [&](size_t i) { return peer_typed_place(words[i].data(), words[i].size(), i % 8); }),
        timed("other implementation: key", count, [&](size_t i) { return peer_key(words[i].data(), words[i].size(), i % 32); }),
        timed("other implementation: far off", count, [&](size_t i) { return peer_order(i, far_from(i, count)); }),
        timed("other implementation: neighbours", count, [&](size_t i) { return peer_order(i, (i + 1) % count); }),
        timed("ICU: NFC", count,
              [&](size_t i) {
                  UErrorCode error = U_ZERO_ERROR;
                  return uint64_t(unorm2_normalize(nfc, text(i), size(i), reinterpret_cast<UChar *>(spelled), JOGCAIRN_SPELLED_LIMIT, &error));
              }),
        timed("ICU: sort key, Burmese", count,
              [&](size_t i) { return uint64_t(ucol_getSortKey(collator, text(i), size(i), sort_key, sizeof sort_key)); }),
        timed("ICU: compare, far off", count, [&](size_t i) { return icu_order(i, far_from(i, count)); }),
        timed("ICU: compare, neighbours", count, [&](size_t i) { return icu_order(i, (i + 1) % count); }),
    };
    run(cases);
    ucol_close(collator);

    auto ns = [&](int which) { return cases[which].shortest; };
    print_times("a word", "passes", cases);
    aim("key / ICU's sort key", ns(KEY) / ns(ICU_KEY), 1.0 / 6);
    aim("key / the other implementation's", ns(KEY) / ns(PEER_KEY), 1.2);
    aim("compare / ICU's, neighbours", ns(NEXT) / ns(ICU_NEXT), 1);
    aim("compare / ICU's, words far off", ns(FAR) / ns(ICU_FAR), 1);
    aim("normalise / ICU's NFC", ns(NORMALISE) / ns(NFC), 0.5);
}

// The words of which both implementations say that they are labels.
static std::vector<Word> labels_of(const std::vector<Word> &words)
{
    std::vector<Word> labels;
    for (const Word &word : words) {
        uint64_t answer = jogcairn_label(word.data(), word.size()), other = peer_label(word.data(), word.size());
        need(jogcairn_accepted(answer) ? other == answer : other == UINT64_MAX, "the other implementation takes other words for labels");
        if (jogcairn_accepted(answer))
            labels.push_back(word);
    }
    return labels;
}

// The calls on labels, beside normalise, on the same words, ICU's skeletons of confusable strings and the other implementation. Two labels are compared
// that differ, far off in the file, and a label with itself, whose skeleton is the same to the end.
static void time_labels(const std::vector<Word> &words)
{
    std::vector<Word> labels = labels_of(words);
    size_t count = labels.size();
    std::printf("\n  labels: %zu of the words\n", count);
    if (count == 0)
        return;
    static uint16_t form[JOGCAIRN_WORD_LIMIT], skeleton[JOGCAIRN_SKELETON_LIMIT];
    static UChar icu_skeleton[4 * JOGCAIRN_WORD_LIMIT];
    UErrorCode status = U_ZERO_ERROR;
    USpoofChecker *checker = uspoof_open(&status);
    uspoof_setChecks(checker, USPOOF_CONFUSABLE, &status);
    need(U_SUCCESS(status), "ICU has no test for confusable strings");
    auto text = [&](size_t i) { return reinterpret_cast<const UChar *>(labels[i].data()); };
    auto size = [&](size_t i) { return int32_t(labels[i].size()); };
    auto alike = [&](size_t i, size_t k) { return jogcairn_look_alike(labels[i].data(), labels[i].size(), labels[k].data(), labels[k].size()); };
    auto peer_alike = [&](size_t i, size_t k) { return peer_look_alike(labels[i].data(), labels[i].size(), labels[k].data(), labels[k].size()); };
    auto icu_alike = [&](size_t i, size_t k) {
        UErrorCode error = U_ZERO_ERROR;
        return uint64_t(uspoof_areConfusable(checker, text(i), size(i), text(k), size(k), &error));
    };
    enum { NORMALISE, LABEL, SKELETON, FAR, SAME, PEER_LABEL, PEER_SKELETON, PEER_FAR, PEER_SAME, ICU_SKELETON, ICU_FAR, ICU_SAME };
    std::vector<Case> cases = {
        timed("normalise", count,
              [&](size_t i) { return jogcairn_normalise(labels[i].data(), labels[i].size(), form, JOGCAIRN_WORD_LIMIT) + form[i % 8]; }),
        timed("label", count, [&](size_t i) { return jogcairn_label(labels[i].data(), labels[i].size()); }),
        timed("skeleton", count,
              [&](size_t i) { return jogcairn_skeleton(labels[i].data(), labels[i].size(), skeleton, JOGCAIRN_SKELETON_LIMIT) + skeleton[i % 8]; }),
        timed("look alike, labels far off", count, [&](size_t i) { return alike(i, far_from(i, count)); }),
        timed("look alike, a label and itself", count, [&](size_t i) { return alike(i, i); }),
        timed("other implementation: label", count, [&](size_t i) { return peer_label(labels[i].data(), labels[i].size()); }),
        timed("other implementation: skeleton", count,
              [&](size_t i) { return peer_skeleton(labels[i].data(), labels[i].size(), skeleton, JOGCAIRN_SKELETON_LIMIT) + skeleton[i % 8]; }),
        timed("other implementation: far off", count, [&](size_t i) { return peer_alike(i, far_from(i, count)); }),
        timed("other implementation: itself", count, [&](size_t i) { return peer_alike(i, i); }),
        timed("ICU: skeleton", count,
              [&](size_t i) {
                  UErrorCode error = U_ZERO_ERROR;
                  return uint64_t(uspoof_getSkeleton(checker, 0, text(i), size(i), icu_skeleton, std::size(icu_skeleton), &error)) + icu_skeleton[i % 8];
              }),
        timed("ICU: confusable, far off", count, [&](size_t i) { return icu_alike(i, far_from(i, count)); }),
        timed("ICU: confusable, itself", count, [&](size_t i) { return icu_alike(i, i); }),
    };
    run(cases);
    uspoof_close(checker);
    print_times("a label", "normalise", cases);
    auto ratio = [&](const char *name, int ours, int others) { std::printf("  %-54s %6.3f\n", name, cases[ours].shortest / cases[others].shortest); };
    ratio("label / the other implementation's", LABEL, PEER_LABEL);
    ratio("skeleton / the other implementation's", SKELETON, PEER_SKELETON);
    ratio("skeleton / ICU's", SKELETON, ICU_SKELETON);
    ratio("look alike / ICU's confusable, labels far off", FAR, ICU_FAR);
    ratio("look alike / ICU's confusable, a label and itself", SAME, ICU_SAME);
}

// Different words of at most two values, a head or a head and a mark, until the book is full.
static std::vector<Word> short_names()
{
    std::vector<Word> names;
    for (uint16_t head = 0x1000; head <= 0x104F; head++)
        names.push_back({head});
    for (uint16_t head = 0x1000; head <= 0x1021; head++)
        for (uint16_t next = 0x1000; next <= 0x104F; next++)
            names.push_back({head, next});
    std::vector<Word> stored;
    std::set<Word> seen;
    for (const Word &name : names) {
        uint16_t form[2];
        uint64_t answer = jogcairn_normalise(name.data(), name.size(), form, 2);
        if (jogcairn_accepted(answer) && seen.insert(Word(form, form + jogcairn_first(answer))).second)
            stored.push_back(name);
    }
    return stored;
}

// A book of the first names, each live, in an order that is not the dictionary's; then as many removed records as make `records`.
static size_t fill_book(std::vector<uint8_t> &book, std::vector<Word> names, size_t live, size_t records)
{
    std::fill(book.begin(), book.end(), 0);
    size_t added = 0;
    for (; added < records; added++) {
        const Word &name = added < live ? names[added * 997 % live] : names[0];
        if (added >= live)
            jogcairn_book_remove(book.data(), book.size(), name.data(), name.size());
        uint64_t answer = jogcairn_book_add(book.data(), book.size(), name.data(), name.size(), uint32_t(added));
        if (jogcairn_tag(answer) == JOGCAIRN_BOOK_FULL)
            break;
        need(jogcairn_accepted(answer) && jogcairn_second(answer) == 0, "a book could not be filled without tidying");
    }
    return added;
}

static void time_book(const std::vector<Word> &names, size_t live, size_t records)
{
    std::vector<uint8_t> book(JOGCAIRN_BOOK_LIMIT);
    records = fill_book(book, names, std::min(live, records), records);
    size_t lives = jogcairn_first(jogcairn_book_check(book.data(), book.size()));
    const Word &name = names[lives / 2], &absent = names[names.size() - 1];
    size_t turns = 1 + 20000 / (records + 20);
    uint8_t *bytes = book.data();
    size_t length = book.size();
    static uint16_t starts[JOGCAIRN_BOOK_RECORDS_LIMIT], values[JOGCAIRN_WORD_LIMIT];
    size_t room = sizeof starts / sizeof starts[0];
    size_t start = jogcairn_second(jogcairn_book_find(bytes, length, name.data(), name.size()));
    std::vector<Case> cases = {
        timed("pass", turns,
              [&](size_t) {
                  uint64_t sum = 0;
                  for (uint8_t byte : book)
                      sum = sum * 31 + byte;
                  return sum;
              }),
        timed("check", turns, [&](size_t) { return jogcairn_book_check(bytes, length); }),
        timed("find", turns, [&](size_t) { return jogcairn_book_find(bytes, length, name.data(), name.size()); }),
        timed("add", turns,
              [&](size_t) {
                  uint64_t answer = jogcairn_book_add(bytes, length, absent.data(), absent.size(), 7);
                  if (jogcairn_accepted(answer)) {
                      need(jogcairn_second(answer) == 0, "an add of the table of calls tidied its book");
                      std::memset(bytes + jogcairn_first(answer), 0, JOGCAIRN_BOOK_RECORD_HEAD + absent.size());
                  }
                  return answer;
              }),
        timed("remove", turns,
              [&](size_t) {
                  uint64_t answer = jogcairn_book_remove(bytes, length, name.data(), name.size());
                  bytes[jogcairn_first(answer) + 1] = 0x57;
                  return answer;
              }),
        timed("rank", turns, [&](size_t i) { return jogcairn_book_rank(bytes, length, i % lives); }),
        timed("order", turns, [&](size_t) { return jogcairn_book_order(bytes, length, starts, room) + starts[0]; }),
        timed("word", turns, [&](size_t) { return jogcairn_book_word(bytes, length, start, values, JOGCAIRN_WORD_LIMIT) + values[0]; }),
        timed("check", turns, [&](size_t) { return peer_book_check(bytes, length); }),
        timed("find", turns, [&](size_t) { return peer_book_find(bytes, length, name.data(), name.size()); }),
        timed("rank", turns, [&](size_t i) { return peer_book_rank(bytes, length, i % lives); }),
        timed("order", turns, [&](size_t) { return peer_book_order(bytes, length, starts, room) + starts[0]; }),
        timed("word", turns, [&](size_t) { return peer_book_word(bytes, length, start, values, JOGCAIRN_WORD_LIMIT) + values[0]; }),
    };
    run(cases);
    std::printf("  %7zu %6zu", records, lives);
    for (const Case &each : cases)
        std::printf(" %8.1f", each.shortest / 1000);
    std::printf("\n");
}

// The names, of which every `step`th is put behind 1021; the others that begin with it are left out.
static std::vector<Word> names_behind(const std::vector<Word> &names, size_t step)
{
    std::vector<Word> behind;
    for (size_t i = 0; i < names.size(); i++)
        if (i % step == 0) {
            behind.push_back({0x1021});
            behind.back().insert(behind.back().end(), names[i].begin(), names[i].end());
        } else if (names[i][0] != 0x1021) {
            behind.push_back(names[i]);
        }
    return behind;
}

// How many live records of a book begin with the query's syllables.
static size_t fitting(const std::vector<uint8_t> &book, const Word &query)
{
    static uint16_t starts[JOGCAIRN_BOOK_RECORDS_LIMIT];
    uint64_t answer = jogcairn_book_find_prefix(book.data(), book.size(), query.data(), query.size(), starts, JOGCAIRN_BOOK_RECORDS_LIMIT);
    need(jogcairn_accepted(answer), "a query is refused");
    return jogcairn_first(answer);
}

// Of the queries the one that finds the number of records nearest to `wanted`.
static Word query_finding(const std::vector<uint8_t> &book, const std::vector<Word> &queries, size_t wanted)
{
    Word nearest;
    size_t least = SIZE_MAX;
    for (const Word &query : queries) {
        size_t found = fitting(book, query), distance = found < wanted ? wanted - found : found - wanted;
        if (distance < least) {
            least = distance;
            nearest = query;
        }
    }
    return nearest;
}

// The search by first syllables in a full book, beside find, rank and order in the same one and beside the other implementation's search.
static void time_prefix(const char *what, const std::vector<uint8_t> &book, const Word &name, const Word &query)
{
    static uint16_t starts[JOGCAIRN_BOOK_RECORDS_LIMIT];
    const uint8_t *bytes = book.data();
    size_t length = book.size(), room = sizeof starts / sizeof starts[0], turns = 20;
    size_t lives = jogcairn_first(jogcairn_book_check(bytes, length));
    enum { FIND, RANK, ORDER, PREFIX, PEER };
    std::vector<Case> cases = {
        timed("find", turns, [&](size_t) { return jogcairn_book_find(bytes, length, name.data(), name.size()); }),
        timed("rank", turns, [&](size_t i) { return jogcairn_book_rank(bytes, length, i % lives); }),
        timed("order", turns, [&](size_t) { return jogcairn_book_order(bytes, length, starts, room) + starts[0]; }),
        timed("prefix", turns,
              [&](size_t) { return jogcairn_book_find_prefix(bytes, length, query.data(), query.size(), starts, room) + starts[0]; }),
        timed("other", 1, [&](size_t) { return peer_book_find_prefix(bytes, length, query.data(), query.size(), starts, room) + starts[0]; }),
    };
    run(cases);
    need(peer_book_find_prefix(bytes, length, query.data(), query.size(), starts, room) == fitting(book, query), "the other search finds another number");
    std::printf("  %-22s %6zu %7zu", what, lives, fitting(book, query));
    for (const Case &each : cases)
        std::printf(" %8.1f", each.shortest / 1000);
    for (int beside : {FIND, RANK, ORDER, PEER})
        std::printf(" %8.3f", cases[PREFIX].shortest / cases[beside].shortest);
    std::printf("\n");
}

// Queries that find none, one and the most records of the full book; then books made for a tenth and for all.
static void time_prefixes(const std::vector<Word> &names)
{
    std::printf("\n  the search by first syllables, in microseconds, beside other calls on the same full book of %d bytes and the other implementation\n", JOGCAIRN_BOOK_LIMIT);
    std::printf("  %-22s %6s %7s", "records that fit", "live", "fit");
    for (const char *name : {"find", "rank", "order", "prefix", "other", "/ find", "/ rank", "/ order", "/ other"})
        std::printf(" %8s", name);
    std::printf("\n");
    std::vector<uint8_t> book(JOGCAIRN_BOOK_LIMIT);
    fill_book(book, names, names.size(), names.size());
    time_prefix("none", book, names[0], query_finding(book, names, 0));
    time_prefix("one", book, names[0], query_finding(book, names, 1));
    time_prefix("the most of any query", book, names[0], query_finding(book, names, names.size()));
    for (size_t step : {10, 1}) {
        std::vector<Word> behind = names_behind(names, step);
        fill_book(book, behind, behind.size(), behind.size());
        time_prefix(step == 1 ? "all *" : "a tenth *", book, behind[0], {0x1021});
    }
    std::printf("  * a book made for it: every word, or every tenth, is put behind 1021\n");
}

// The book with every `step`th record removed, from the first on; none where it is 0.
static std::vector<uint8_t> with_removed(std::vector<uint8_t> book, size_t step)
{
    for (size_t start = 0, number = 0; start < book.size() && book[start] != 0; start += JOGCAIRN_BOOK_RECORD_HEAD + book[start + 2], number++)
        if (step != 0 && number % step == 0)
            book[start + 1] = 0x2D;
    return book;
}

// The book without as many of its last records as leave room for so many bytes.
static std::vector<uint8_t> with_room(std::vector<uint8_t> book, size_t room)
{
    size_t end = 0;
    while (book[end] != 0 && end + JOGCAIRN_BOOK_RECORD_HEAD + book[end + 2] + room <= book.size())
        end += JOGCAIRN_BOOK_RECORD_HEAD + book[end + 2];
    std::fill(book.begin() + ptrdiff_t(end), book.end(), 0);
    return book;
}

// A name that is in no book of short names, which have at most two values.
static const Word longer_name(3, 0x1000);

// Tidying a full book, beside check; and an add to it, which tidies where records are removed, beside one to the same book with room for the record.
// Each call that changes the book has a copy of it made anew, and the time of the copy alone is taken off.
static void time_tidying(const char *removed, const std::vector<uint8_t> &full)
{
    const std::vector<uint8_t> roomy = with_room(full, JOGCAIRN_BOOK_RECORD_HEAD + longer_name.size());
    std::vector<uint8_t> book(full.size());
    size_t length = book.size(), turns = 20, lives = jogcairn_first(jogcairn_book_check(full.data(), length));
    auto copy_of = [&](const std::vector<uint8_t> &from) { return static_cast<uint8_t *>(std::memcpy(book.data(), from.data(), length)); };
    auto add_to = [&](const std::vector<uint8_t> &from) { return jogcairn_book_add(copy_of(from), length, longer_name.data(), longer_name.size(), 7); };
    enum { COPY, CHECK, TIDY, ADD_FITTING, ADD_TIDYING };
    std::vector<Case> cases = {
        timed("copy", turns, [&](size_t i) { return uint64_t(copy_of(full)[i]); }),
        timed("check", turns, [&](size_t) { return jogcairn_book_check(full.data(), length); }),
        timed("tidy", turns, [&](size_t) { return jogcairn_book_tidy(copy_of(full), length); }),
        timed("add, fits", turns, [&](size_t) { return add_to(roomy); }),
        timed("add, tidies", turns, [&](size_t) { return add_to(full); }),
    };
    uint64_t fits = add_to(roomy), tidies = add_to(full);
    need(jogcairn_accepted(fits) && jogcairn_second(fits) == 0, "an add to a book with room is refused, or tidies");
    need(jogcairn_second(tidies) == 1 || jogcairn_tag(tidies) == JOGCAIRN_BOOK_FULL, "an add to a full book does not tidy");
    run(cases);
    std::printf("  %-14s %6zu %8.1f %8.1f", removed, lives, cases[COPY].shortest / 1000, cases[CHECK].shortest / 1000);
    for (int changing : {TIDY, ADD_FITTING, ADD_TIDYING})
        std::printf(" %12.1f", (cases[changing].shortest - cases[COPY].shortest) / 1000);
    std::printf("%s\n", jogcairn_accepted(tidies) ? "" : ", refused with 14");
}

// The full book with none, every second and all of its records removed.
static void time_tidyings(const std::vector<Word> &names)
{
    std::printf("\n  tidying a full book of %d bytes, in microseconds; each change is on a new copy, whose time is taken off\n", JOGCAIRN_BOOK_LIMIT);
    std::printf("  %-14s %6s %8s %8s %12s %12s %12s\n", "removed", "live", "copy", "check", "tidy", "add, fits", "add, tidies");
    std::vector<uint8_t> book(JOGCAIRN_BOOK_LIMIT);
    fill_book(book, names, names.size(), names.size());
    time_tidying("none", with_removed(book, 0));
    time_tidying("every second", with_removed(book, 2));
    time_tidying("all", with_removed(book, 1));
}

// The live word in the middle of a book's order.
static Word middle_word(const std::vector<uint8_t> &book)
{
    uint16_t values[JOGCAIRN_WORD_LIMIT];
    size_t lives = jogcairn_first(jogcairn_book_check(book.data(), book.size()));
    uint64_t ranked = jogcairn_book_rank(book.data(), book.size(), lives / 2);
    need(jogcairn_accepted(ranked), "a book has no live word");
    uint64_t told = jogcairn_book_word(book.data(), book.size(), jogcairn_second(ranked), values, JOGCAIRN_WORD_LIMIT);
    return Word(values, values + jogcairn_word_count(told));
}

// What an add comes to, in words.
static std::string outcome(uint64_t answer)
{
    if (!jogcairn_accepted(answer))
        return "refused with " + std::to_string(jogcairn_tag(answer));
    return jogcairn_add_tidies(answer) ? "tidies" : "fits";
}

// The preview of an add, beside finds in the same book, of a live word and of the one to be added, and beside the add itself, which has a copy of the book
// made anew: the time of the copy alone is taken off.
static void time_preview(const char *what, const std::vector<uint8_t> &book)
{
    const Word name = middle_word(book);
    std::vector<uint8_t> changed(book.size());
    const uint8_t *bytes = book.data();
    size_t length = book.size(), turns = 20, lives = jogcairn_first(jogcairn_book_check(bytes, length));
    auto find = [&](const Word &word) { return jogcairn_book_find(bytes, length, word.data(), word.size()); };
    auto preview = [&] { return jogcairn_book_preview(bytes, length, longer_name.data(), longer_name.size(), 7); };
    auto copy = [&] { return static_cast<uint8_t *>(std::memcpy(changed.data(), bytes, length)); };
    auto add = [&] { return jogcairn_book_add(copy(), length, longer_name.data(), longer_name.size(), 7); };
    need(preview() == add(), "a preview answers another number than its add");
    enum { FIND, FIND_ABSENT, PREVIEW, COPY, ADD };
    std::vector<Case> cases = {
        timed("find", turns, [&](size_t) { return find(name); }),
        timed("find, absent", turns, [&](size_t) { return find(longer_name); }),
        timed("preview", turns, [&](size_t) { return preview(); }),
        timed("copy", turns, [&](size_t i) { return uint64_t(copy()[i]); }),
        timed("add", turns, [&](size_t) { return add(); }),
    };
    run(cases);
    double seen = cases[PREVIEW].shortest, added = cases[ADD].shortest - cases[COPY].shortest;
    std::printf("  %-22s %6zu", what, lives);
    for (double took : {cases[FIND].shortest, cases[FIND_ABSENT].shortest, seen, added})
        std::printf(" %8.1f", took / 1000);
    for (double beside : {cases[FIND].shortest, cases[FIND_ABSENT].shortest, added})
        std::printf(" %8.3f", seen / beside);
    std::printf("  %s\n", outcome(preview()).c_str());
}

// Books with room, with few records and with many, and full ones without and with removed records.
static void time_previews(const std::vector<Word> &names)
{
    std::printf("\n  the preview of an add on a book of %d bytes, in microseconds; the add is on a new copy, whose time is taken off\n", JOGCAIRN_BOOK_LIMIT);
    std::printf("  %-22s %6s", "book", "live");
    for (const char *name : {"find", "absent", "preview", "add", "/ find", "/ absent", "/ add"})
        std::printf(" %8s", name);
    std::printf("  the add\n");
    std::vector<uint8_t> book(JOGCAIRN_BOOK_LIMIT);
    fill_book(book, names, 10, 10);
    time_preview("ten records", book);
    fill_book(book, names, names.size(), names.size());
    time_preview("with room for one more", with_room(book, JOGCAIRN_BOOK_RECORD_HEAD + longer_name.size()));
    time_preview("full", book);
    time_preview("every second removed", with_removed(book, 2));
}

// The word with 1005 103A put behind its last plain final; empty where it has none, or would be too long.
static Word with_second_final(const Word &word)
{
    std::vector<uint8_t> records = records_of(word);
    for (size_t at = records.size(); at > 0;) {
        at -= JOGCAIRN_RECORD_SIZE;
        if (records[at + LINK] != PLAIN)
            continue;
        uint16_t made[JOGCAIRN_WORD_LIMIT];
        records[at + SECOND_FINAL] = 6; // 1005
        uint64_t answer = jogcairn_write(records.data(), records.size(), made, JOGCAIRN_WORD_LIMIT);
        return jogcairn_accepted(answer) ? Word(made, made + jogcairn_first(answer)) : Word();
    }
    return {};
}

// Words in stored form, and the records of each.
struct Words {
    std::vector<Word> words;
    std::vector<std::vector<uint8_t>> records;

    void push(const Word &word)
    {
        words.push_back(word);
        records.push_back(records_of(word));
    }
};

// The calls on words for one list, which outlives them.
static std::vector<Case> word_cases(const Words &list)
{
    static uint16_t form[JOGCAIRN_WORD_LIMIT], spelled[JOGCAIRN_SPELLED_LIMIT], starts[JOGCAIRN_WORD_LIMIT];
    static uint8_t record[JOGCAIRN_RECORD_SIZE], key[JOGCAIRN_KEY_SIZE];
    const std::vector<Word> &words = list.words;
    const std::vector<std::vector<uint8_t>> &records = list.records;
    size_t count = words.size();
    auto compare = [&words](size_t i, size_t k) { return jogcairn_compare(words[i].data(), words[i].size(), words[k].data(), words[k].size()); };
    auto last = [&records](size_t i) { return records[i].size() / JOGCAIRN_RECORD_SIZE - 1; };
    return {
        timed("read", count, [&words](size_t i) { return jogcairn_read(words[i].data(), words[i].size()); }),
        timed("record of the last syllable", count,
              [&words, last](size_t i) { return jogcairn_record(words[i].data(), words[i].size(), last(i), record, JOGCAIRN_RECORD_SIZE) + record[i % JOGCAIRN_RECORD_SIZE]; }),
        timed("spell", count,
              [&words](size_t i) {
                  return jogcairn_spell(words[i].data(), words[i].size(), spelled, JOGCAIRN_SPELLED_LIMIT, starts, JOGCAIRN_WORD_LIMIT) + spelled[i % 8];
              }),
        timed("write", count,
              [&records](size_t i) { return jogcairn_write(records[i].data(), records[i].size(), form, JOGCAIRN_WORD_LIMIT) + form[i % 8]; }),
        timed("normalise", count,
              [&words](size_t i) { return jogcairn_normalise(words[i].data(), words[i].size(), form, JOGCAIRN_WORD_LIMIT) + form[i % 8]; }),
        timed("key", count, [&words](size_t i) { return jogcairn_key(words[i].data(), words[i].size(), key, JOGCAIRN_KEY_SIZE) + key[i % 32]; }),
        timed("compare, words far off", count, [compare, count](size_t i) { return compare(i, far_from(i, count)); }),
        timed("compare, neighbours of the file", count, [compare, count](size_t i) { return compare(i, (i + 1) % count); }),
        timed("other implementation: read", count, [&words](size_t i) { return peer_read(words[i].data(), words[i].size()); }),
        timed("other implementation: key", count, [&words](size_t i) { return peer_key(words[i].data(), words[i].size(), i % 32); }),
    };
}

static double mean_values(const std::vector<Word> &words)
{
    size_t values = 0;
    for (const Word &word : words)
        values += word.size();
    return double(values) / double(words.size());
}

// Times the calls on two lists of as many words, and prints them side by side: a word of each, and a value of each.
static void time_beside(const Words &without, const Words &with)
{
    std::vector<Case> cases = word_cases(without), others = word_cases(with);
    size_t half = cases.size();
    cases.insert(cases.end(), others.begin(), others.end());
    run(cases);
    double values = mean_values(without.words), more = mean_values(with.words);
    std::printf("  %zu words of %.1f values, and with a second final of %.1f\n", without.words.size(), values, more);
    std::printf("  %-34s %9s %9s %8s %10s\n", "a word, in ns", "without", "with", "ratio", "a value");
    for (size_t at = 0; at < half; at++) {
        double ratio = cases[half + at].shortest / cases[at].shortest;
        std::printf("  %-34s %9.1f %9.1f %8.3f %10.3f\n", cases[at].name, cases[at].shortest, cases[half + at].shortest, ratio, ratio * values / more);
    }
}

// Words of the file beside the same words with a second final.
static void time_second_finals(const std::vector<Word> &words)
{
    Words without, with;
    for (const Word &word : words) {
        Word made = with_second_final(word);
        if (made.empty())
            continue;
        need(closes_twice(made) && peer_read(made.data(), made.size()) == jogcairn_read(made.data(), made.size()), "a made word is read otherwise");
        without.push(stored(word));
        with.push(made);
    }
    std::printf("\n  words with two finals, which are made: 1005 103A is put behind the last plain final of each word of the file that has one\n");
    if (with.words.size() > 1)
        time_beside(without, with);
    else
        std::printf("  the file has no two such words\n");
}

// Names of one syllable and five values: a medial, a vowel and a final, or two finals.
static std::vector<Word> syllable_names(bool twice)
{
    std::vector<Word> names;
    for (uint16_t other = 0; other < 6; other++)
        for (uint16_t first = 0x1000; first < 0x1007; first++)
            for (uint16_t head = 0x1000; head <= 0x1020; head++) {
                if (twice)
                    names.push_back({head, first, 0x103A, uint16_t(0x1000 + other), 0x103A});
                else
                    names.push_back({head, 0x103D, uint16_t(0x102D + other), first, 0x103A});
            }
    return names;
}

// A full book of names of five values with one final, and one of names with two.
static void time_second_final_books()
{
    std::printf("\n  a full book of %d bytes, in microseconds; words of one syllable and five values\n", JOGCAIRN_BOOK_LIMIT);
    std::printf("  %-22s %6s %8s %8s %8s %8s\n", "finals of a syllable", "live", "check", "find", "rank", "order");
    static uint16_t starts[JOGCAIRN_BOOK_RECORDS_LIMIT];
    for (bool twice : {false, true}) {
        std::vector<Word> names = syllable_names(twice);
        std::vector<uint8_t> book(JOGCAIRN_BOOK_LIMIT);
        size_t lives = fill_book(book, names, names.size(), names.size()), turns = 20, room = sizeof starts / sizeof starts[0];
        const uint8_t *bytes = book.data();
        size_t length = book.size();
        const Word &name = names[0];
        std::vector<Case> cases = {
            timed("check", turns, [&](size_t) { return jogcairn_book_check(bytes, length); }),
            timed("find", turns, [&](size_t) { return jogcairn_book_find(bytes, length, name.data(), name.size()); }),
            timed("rank", turns, [&](size_t i) { return jogcairn_book_rank(bytes, length, i % lives); }),
            timed("order", turns, [&](size_t) { return jogcairn_book_order(bytes, length, starts, room) + starts[0]; }),
        };
        run(cases);
        std::printf("  %-22s %6zu", twice ? "two" : "one", lives);
        for (const Case &each : cases)
            std::printf(" %8.1f", each.shortest / 1000);
        std::printf("\n");
    }
}

int main(int argc, char **argv)
{
    need(argc > 1, "usage: bench FILE [ROUNDS]");
    if (argc > 2)
        rounds = std::max(1, std::atoi(argv[2]));
    size_t refused, apart;
    std::vector<Word> words = words_of(argv[1], refused, apart);
    need(words.size() > 1, "the file has no two words that are stored");
    std::printf("%zu words of %.1f values (%zu lines refused and left out); the shortest of %d rounds\n", words.size(), mean_values(words), refused, rounds);
    std::printf("%zu words with two finals are left out too, so that a library that refuses them is timed on the same words\n\n", apart);
    time_words(words);
    time_labels(words);

    std::vector<Word> names = short_names();
    std::printf("\n  a call on a book of %d bytes, in microseconds; words of one and two values\n", JOGCAIRN_BOOK_LIMIT);
    std::printf("  %7s %6s %8s", "", "", "plain");
    std::printf("%63s %53s\n", "the library", "the other implementation");
    std::printf("  %7s %6s", "records", "live");
    for (const char *name : {"pass", "check", "find", "add", "remove", "rank", "order", "word", "check", "find", "rank", "order", "word"})
        std::printf(" %8s", name);
    std::printf("\n");
    for (size_t records : {10, 100, 500})
        time_book(names, records, records);
    time_book(names, names.size(), names.size());
    time_book(names, 300, 2000);
    time_prefixes(names);
    time_tidyings(names);
    time_previews(names);
    time_second_finals(words);
    time_second_final_books();
}
