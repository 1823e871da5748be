/* Calls that the table of rows has no form for: lookups, options, kinds, counts, replacements, calls
 * that pass each match on, and what a caller may pass. Each row of a table here gives what the call must do. */
#include "daachorse.h"

#include "each.h"

#include <stdio.h>
#include <stdlib.h>
#include <string.h>

enum { ROOM = 64 };

static void need(bool holds, const char *what, size_t row) {
    if (!holds) {
        fprintf(stderr, "row %zu is not as it should be: %s\n", row, what);
        exit(1);
    }
}

static const uint8_t *bytes_of(const char *text) {
    return (const uint8_t *)text;
}

/* The patterns ab, abcd, bc, ab and cd, with the values 0, 1, 2, 3 and 4. */
static void build(daachorse *handle, daachorse_options options) {
    const size_t ends[] = {2, 6, 8, 10, 12};
    const uint32_t values[] = {0, 1, 2, 3, 4};
    need(daachorse_build_with(handle, &options, bytes_of("ababcdbcabcd"), 12, ends, 5, values, 5) == DAACHORSE_DONE, "build", 0);
}

static void accelerate(daachorse *handle) {
    daachorse rowed = DAACHORSE_EMPTY;
    need(daachorse_accelerate(handle, &rowed) == DAACHORSE_DONE, "accelerate", 0);
    daachorse_free(handle);
    *handle = rowed;
}

static void see_options(void) {
    static const struct {
        daachorse_options options;
        uint32_t answer;
    } rows[] = {
        {{0, 0, 0, 0, {0}}, DAACHORSE_DONE},
        {{2, 1, 1, 1, {0}}, DAACHORSE_DONE},
        {{3, 0, 0, 0, {0}}, DAACHORSE_UNKNOWN_KIND},
        {{0, 2, 0, 0, {0}}, DAACHORSE_UNKNOWN_OPTION},
        {{0, 0, 2, 0, {0}}, DAACHORSE_UNKNOWN_OPTION},
        {{0, 0, 0, 2, {0}}, DAACHORSE_UNKNOWN_OPTION},
        {{0, 0, 0, 0, {1}}, DAACHORSE_UNKNOWN_OPTION},
        {{0, 0, 0, 0, {0, 0, 0, 1}}, DAACHORSE_UNKNOWN_OPTION},
    };
    for (size_t i = 0; i < sizeof rows / sizeof *rows; i++) {
        const size_t ends[] = {1};
        const uint32_t values[] = {0};
        daachorse handle = DAACHORSE_EMPTY;
        uint32_t kind = 7;
        bool any_case = true;
        uint32_t answer = daachorse_build_with(&handle, &rows[i].options, bytes_of("a"), 1, ends, 1, values, 1);
        need(answer == rows[i].answer, daachorse_answer_text(answer), i);
        answer = daachorse_kind(&handle, &kind, &any_case);
        if (rows[i].answer == DAACHORSE_DONE)
            need(answer == DAACHORSE_DONE && kind == rows[i].options.kind && any_case == (rows[i].options.ascii_case_insensitive == 1),
                "the kind", i);
        else
            need(answer == DAACHORSE_EMPTY_HANDLE && kind == 7 && any_case, "the kind of nothing", i);
        daachorse_free(&handle);
    }
    need(daachorse_version() == DAACHORSE_VERSION_NUMBER, "the version", 0);
}

static void see_counts(void) {
    daachorse handle = DAACHORSE_EMPTY;
    daachorse_counts counts = {7, 7, 7, 7};
    size_t size;
    need(daachorse_count(&handle, &counts) == DAACHORSE_EMPTY_HANDLE && counts.patterns == 7, "the counts of nothing", 0);
    build(&handle, (daachorse_options){0});
    need(daachorse_count(&handle, &counts) == DAACHORSE_DONE, "count", 0);
    need(counts.patterns == 5 && counts.states == 9 && counts.longest == 4, "the counts", 0);
    need(daachorse_write(&handle, NULL, 0, &size) == DAACHORSE_NO_ROOM && size == counts.size, "the size", 0);
    build(&handle, (daachorse_options){.kind = DAACHORSE_LEFTMOST_FIRST});
    need(daachorse_count(&handle, &counts) == DAACHORSE_DONE && counts.patterns == 4 && counts.states == 7, "the counts of another kind", 1);
    daachorse_free(&handle);
}

/* The matches of a lookup as text, each as END=VALUE. */
static void see_lookups(void) {
    static const struct {
        bool any_case;
        const char *text, *whole, *prefixes;
    } rows[] = {
        {false, "", "", ""},
        {false, "ab", " 2=0 2=3", " 2=0 2=3"},
        {false, "abc", "", " 2=0 2=3"},
        {false, "abcd", " 4=1", " 2=0 2=3 4=1"},
        {false, "abcde", "", " 2=0 2=3 4=1"},
        {false, "xab", "", ""},
        {false, "AB", "", ""},
        {true, "AbCd", " 4=1", " 2=0 2=3 4=1"},
    };
    typedef uint32_t lookup_fn(daachorse *, const uint8_t *, size_t, daachorse_match *, size_t, size_t *);
    lookup_fn *const lookups[] = {daachorse_get, daachorse_common_prefixes};
    for (size_t i = 0; i < sizeof rows / sizeof *rows; i++)
        for (uint32_t kind = 0; kind < 2; kind++)
            for (size_t fast = 0; fast < 2; fast++)
                for (size_t j = 0; j < 2; j++) {
                    daachorse handle = DAACHORSE_EMPTY;
                    daachorse_match found[ROOM];
                    char text[ROOM] = "";
                    size_t written;
                    build(&handle, (daachorse_options){.kind = kind, .ascii_case_insensitive = rows[i].any_case});
                    if (fast)
                        accelerate(&handle);
                    need(lookups[j](&handle, bytes_of(rows[i].text), strlen(rows[i].text), found, ROOM, &written) == DAACHORSE_DONE, "a lookup", i);
                    for (size_t k = 0; k < written; k++) {
                        need(found[k].start == 0, "where a match of a lookup starts", i);
                        sprintf(text + strlen(text), " %zu=%u", found[k].end, (unsigned)found[k].value);
                    }
                    need(strcmp(text, j == 0 ? rows[i].whole : rows[i].prefixes) == 0, "what a lookup found", i);
                    daachorse_free(&handle);
                }
}

/* Places in a text of four characters, of 1, 2, 3 and 1 bytes, which is given from a byte on. */
static void see_characters(void) {
    static const char text[] = "a\xc3\xa9\xe6\xbc\xa2z";
    static const struct {
        size_t bytes, characters, origin;
        daachorse_match given, turned;
    } rows[] = {
        {0, 0, 0, {0, 0, 1}, {0, 0, 1}},
        {0, 0, 0, {0, 1, 2}, {0, 1, 2}},
        {0, 0, 0, {1, 6, 3}, {1, 3, 3}},
        {0, 0, 0, {7, 7, 4}, {4, 4, 4}},
        {0, 0, 0, {4, 4, 5}, {3, 2, 5}},
        {0, 0, 0, {100, 200, 6}, {4, 4, 6}},
        {2, 2, 0, {3, 6, 7}, {2, 3, 7}},
        {2, 2, 3, {0, 3, 8}, {2, 3, 8}},
        {3, 1002, 3, {0, 4, 9}, {1002, 1004, 9}},
        {0, SIZE_MAX, 0, {1, 3, 10}, {SIZE_MAX, SIZE_MAX, 10}},
        {0, 0, SIZE_MAX, {1, 1, 11}, {4, 4, 11}},
    };
    for (size_t i = 0; i < sizeof rows / sizeof *rows; i++) {
        daachorse_match match = rows[i].given;
        size_t bytes = rows[i].bytes;
        daachorse_to_characters(bytes_of(text) + bytes, strlen(text) - bytes, bytes, rows[i].characters, rows[i].origin, &match, 1);
        need(match.start == rows[i].turned.start && match.end == rows[i].turned.end && match.value == rows[i].turned.value,
            "the places in characters", i);
    }
    daachorse_to_characters(NULL, 0, 0, 0, 0, NULL, 0);
}

/* A null pointer may have a length of 0, and what is written to needs no value. */
static void see_nulls(void) {
    daachorse handle = DAACHORSE_EMPTY;
    daachorse_match found[1];
    size_t size, count;
    bool is_found;
    daachorse_free(NULL);
    need(daachorse_build(&handle, 0, true, false, NULL, 0, NULL, 0, NULL, 0) == DAACHORSE_DONE, "build", 0);
    need(daachorse_find(&handle, NULL, 0, NULL, 0, &count) == DAACHORSE_DONE && count == 0, "find", 0);
    need(daachorse_get(&handle, NULL, 0, found, 1, &count) == DAACHORSE_DONE && count == 0, "get", 0);
    need(daachorse_is_match(&handle, NULL, 0, &is_found) == DAACHORSE_DONE && !is_found, "is_match", 0);
    need(daachorse_replace(&handle, NULL, 0, NULL, 0, NULL, 0, NULL, 0, &size) == DAACHORSE_DONE && size == 0, "replace", 0);
    need(daachorse_begin(&handle, DAACHORSE_OVERLAPPING) == DAACHORSE_DONE, "begin", 0);
    need(daachorse_consume(&handle, NULL, 0, NULL, 0, &size, &count) == DAACHORSE_DONE && size == 0 && count == 0, "consume", 0);
    need(daachorse_list(&handle, NULL, 0, NULL, 0, NULL, 0, &size, &count) == DAACHORSE_DONE && size == 0 && count == 0, "list", 0);
    need(daachorse_write(&handle, NULL, 0, &size) == DAACHORSE_NO_ROOM && size > 0, "write", 0);
    need(daachorse_read(&handle, NULL, 0, &size) == DAACHORSE_INVALID_AUTOMATON && size == 0, "read", 0);
    daachorse_free(&handle);
}

/* Where a search goes on, and where it does not. */
static void see_places(void) {
    static const struct {
        uint32_t kind;
        size_t at, len;
        uint32_t answer;
    } rows[] = {
        {DAACHORSE_LEFTMOST_LONGEST, 0, 0, DAACHORSE_DONE},
        {DAACHORSE_LEFTMOST_LONGEST, 4, 4, DAACHORSE_DONE},
        {DAACHORSE_LEFTMOST_FIRST, 5, 4, DAACHORSE_WRONG_PLACE},
        {DAACHORSE_LEFTMOST_FIRST, SIZE_MAX, 4, DAACHORSE_WRONG_PLACE},
        {DAACHORSE_STANDARD, 2, 4, DAACHORSE_DONE},
        {DAACHORSE_STANDARD, 5, 4, DAACHORSE_WRONG_PLACE},
    };
    for (size_t i = 0; i < sizeof rows / sizeof *rows; i++) {
        daachorse handle = DAACHORSE_EMPTY;
        daachorse_place place = {rows[i].at, false, false};
        daachorse_match found[ROOM];
        size_t written = 7;
        need(daachorse_find_on(&handle, bytes_of("xxxx"), rows[i].len, &place, found, ROOM, &written) == DAACHORSE_EMPTY_HANDLE, "no handle", i);
        build(&handle, (daachorse_options){.kind = rows[i].kind});
        uint32_t answer = daachorse_find_on(&handle, bytes_of("xxxx"), rows[i].len, &place, found, ROOM, &written);
        need(answer == rows[i].answer && written == 0, daachorse_answer_text(answer), i);
        need(place.at == rows[i].at && place.over == (answer == DAACHORSE_DONE), "the place", i);
        daachorse_free(&handle);
    }
}

/* What becomes of a haystack whose matches are replaced, in each room. The values 0, 1 and 2 have
 * the texts "-", "" and "two". */
static void see_replacements(void) {
    static const struct {
        uint32_t kind;
        bool any_case;
        const char *haystack, *whole;
    } rows[] = {
        {DAACHORSE_STANDARD, false, "", ""},
        {DAACHORSE_STANDARD, false, "xyz", "xyz"},
        {DAACHORSE_STANDARD, false, "xabcdbcx", "x-cdtwox"},
        {DAACHORSE_STANDARD, false, "ababbc", "--two"},
        {DAACHORSE_STANDARD, true, "XaBCDbC", "X-CDtwo"},
        {DAACHORSE_LEFTMOST_LONGEST, false, "xabcdbcx", "xtwox"},
        {DAACHORSE_LEFTMOST_LONGEST, true, "ABcD", ""},
        {DAACHORSE_LEFTMOST_FIRST, false, "xabcdbcx", "x-cdtwox"},
    };
    const size_t ends[] = {1, 1, 4};
    for (size_t i = 0; i < sizeof rows / sizeof *rows; i++)
        for (size_t fast = 0; fast < 2; fast++) {
            daachorse handle = DAACHORSE_EMPTY;
            size_t len = strlen(rows[i].whole);
            build(&handle, (daachorse_options){.kind = rows[i].kind, .ascii_case_insensitive = rows[i].any_case});
            if (fast)
                accelerate(&handle);
            for (size_t room = 0; room <= len + 1; room++) {
                char out[ROOM];
                size_t size = 7;
                memset(out, '?', ROOM);
                uint32_t answer = daachorse_replace(&handle, bytes_of(rows[i].haystack), strlen(rows[i].haystack), bytes_of("-two"), 4,
                    ends, 3, (uint8_t *)out, room, &size);
                size_t copied = room < len ? room : len;
                need(answer == (room < len ? DAACHORSE_NO_ROOM : DAACHORSE_DONE) && size == len, daachorse_answer_text(answer), i);
                need(memcmp(out, rows[i].whole, copied) == 0 && out[copied] == '?', "what was replaced", i);
            }
            daachorse_free(&handle);
        }
}

/* Why nothing is replaced. */
static void see_no_replacements(void) {
    static const struct {
        size_t ends[2];
        uint32_t answer;
    } rows[] = {
        {{0, 4}, DAACHORSE_DONE},
        {{4, 4}, DAACHORSE_DONE},
        {{3, 2}, DAACHORSE_WRONG_PATTERNS},
        {{0, 5}, DAACHORSE_WRONG_PATTERNS},
        {{SIZE_MAX, SIZE_MAX}, DAACHORSE_WRONG_PATTERNS},
    };
    daachorse handle = DAACHORSE_EMPTY;
    uint8_t out[ROOM] = {7};
    size_t size = 7;
    need(daachorse_replace(&handle, bytes_of("ab"), 2, bytes_of("-two"), 4, rows[0].ends, 2, out, ROOM, &size) == DAACHORSE_EMPTY_HANDLE, "no handle", 0);
    need(size == 0 && out[0] == 7, "what nothing replaces", 0);
    build(&handle, (daachorse_options){0});
    for (size_t i = 0; i < sizeof rows / sizeof *rows; i++) {
        out[0] = size = 7;
        uint32_t answer = daachorse_replace(&handle, bytes_of("xx"), 2, bytes_of("-two"), 4, rows[i].ends, 2, out, ROOM, &size);
        bool done = answer == DAACHORSE_DONE;
        need(answer == rows[i].answer && size == (done ? 2 : 0) && out[0] == (done ? 'x' : 7), daachorse_answer_text(answer), i);
    }
    daachorse_free(&handle);
}

/* Feeds bytes to a stream that has reported so many matches, and returns how many it has then. */
static size_t feed(daachorse *handle, const char *text, size_t size, daachorse_match *found, size_t told, size_t row) {
    size_t taken, written;
    need(daachorse_consume(handle, bytes_of(text), size, found + told, ROOM - told, &taken, &written) == DAACHORSE_DONE, "consume", row);
    need(taken == size, "the bytes consumed", row);
    return told + written;
}

/* Where a leftmost stream of secret and secretary is cut after each number of bytes: it has reported
 * each match that ends at ends as soon as it has consumed as many bytes as after says, or else after
 * its end. */
static void see_certain(void) {
    static const struct {
        uint32_t kind;
        const char *text;
        size_t count, ends[2], after[2];
    } rows[] = {
        {DAACHORSE_LEFTMOST_LONGEST, "a secret", 1, {8}, {9}},
        {DAACHORSE_LEFTMOST_LONGEST, "secrets", 1, {6}, {7}},
        {DAACHORSE_LEFTMOST_LONGEST, "secretarsecretary", 2, {6, 17}, {9, 17}},
        {DAACHORSE_LEFTMOST_FIRST, "secretary", 1, {6}, {6}},
        {DAACHORSE_LEFTMOST_FIRST, "secretsecret", 2, {6, 12}, {6, 12}},
    };
    const size_t ends[] = {6, 15};
    const uint32_t values[] = {0, 1};
    for (size_t i = 0; i < sizeof rows / sizeof *rows; i++)
        for (size_t cut = 0, len = strlen(rows[i].text); cut <= len; cut++) {
            daachorse handle = DAACHORSE_EMPTY;
            daachorse_match found[ROOM];
            size_t wanted = 0;
            need(daachorse_build(&handle, rows[i].kind, true, false, bytes_of("secretsecretary"), 15, ends, 2, values, 2) == DAACHORSE_DONE,
                "build", i);
            need(daachorse_begin(&handle, DAACHORSE_LEFTMOST) == DAACHORSE_DONE, "begin", i);
            size_t told = feed(&handle, rows[i].text, cut, found, 0, i);
            while (wanted < rows[i].count && rows[i].after[wanted] <= cut)
                wanted++;
            need(told == wanted, "what is certain before a cut", i);
            told = feed(&handle, rows[i].text + cut, len - cut, found, told, i);
            need(daachorse_end(&handle) == DAACHORSE_DONE, "end", i);
            need(feed(&handle, "", 0, found, told, i) == rows[i].count, "what is left at the end", i);
            for (size_t j = 0; j < rows[i].count; j++)
                need(found[j].end == rows[i].ends[j], "a match of a leftmost stream", i);
            daachorse_free(&handle);
        }
}

/* An automaton of these patterns, each ended by a comma, with the values 0, 1, 2 and so on. */
static void build_of(daachorse *handle, uint32_t kind, const char *patterns, size_t row) {
    uint8_t bytes[ROOM];
    size_t ends[ROOM], size = 0, count = 0;
    uint32_t values[ROOM];
    for (; *patterns != '\0'; patterns++)
        if (*patterns == ',') {
            ends[count] = size;
            values[count] = (uint32_t)count;
            count++;
        } else {
            bytes[size++] = (uint8_t)*patterns;
        }
    need(daachorse_build(handle, kind, true, false, bytes, size, ends, count, values, count) == DAACHORSE_DONE, "build", row);
}

/* What the calls that pass each match on do, whether and when they are asked to stop. */
static void see_each(void) {
    static const each_row rows[] = {
        {DAACHORSE_STANDARD, "ab,abcd,bc,cd,", "abcdxab", daachorse_find_each, DAACHORSE_DONE, " 0-2=0 2-4=3 5-7=0"},
        {DAACHORSE_STANDARD, "ab,abcd,bc,cd,", "abcdxab", stream_find_each, DAACHORSE_DONE, " 0-2=0 2-4=3 5-7=0"},
        {DAACHORSE_STANDARD, "ab,abcd,bc,cd,", "abcdxab", daachorse_find_overlapping_each, DAACHORSE_DONE, " 0-2=0 1-3=2 0-4=1 2-4=3 5-7=0"},
        {DAACHORSE_STANDARD, "ab,abcd,bc,cd,", "abcdxab", stream_overlapping_each, DAACHORSE_DONE, " 0-2=0 1-3=2 0-4=1 2-4=3 5-7=0"},
        {DAACHORSE_STANDARD, "ab,abcd,bc,cd,", "abcdxab", daachorse_find_overlapping_no_suffix_each, DAACHORSE_DONE, " 0-2=0 1-3=2 0-4=1 5-7=0"},
        {DAACHORSE_STANDARD, "ab,abcd,bc,cd,", "abcdxab", stream_no_suffix_each, DAACHORSE_DONE, " 0-2=0 1-3=2 0-4=1 5-7=0"},
        {DAACHORSE_STANDARD, "b,b,", "ab", daachorse_find_overlapping_each, DAACHORSE_DONE, " 1-2=0 1-2=1"},
        {DAACHORSE_STANDARD, ",", "ab", daachorse_find_each, DAACHORSE_DONE, " 0-0=0 1-1=0 2-2=0"},
        {DAACHORSE_STANDARD, ",", "", daachorse_find_each, DAACHORSE_DONE, " 0-0=0"},
        {DAACHORSE_STANDARD, ",", "", daachorse_find_overlapping_each, DAACHORSE_DONE, " 0-0=0"},
        {DAACHORSE_STANDARD, "", "ab", daachorse_find_overlapping_no_suffix_each, DAACHORSE_DONE, ""},
        {DAACHORSE_STANDARD, "b,", "\x80" "b", daachorse_find_each, DAACHORSE_DONE, " 1-2=0"},
        /* The end alone decides the last of these. */
        {DAACHORSE_LEFTMOST_LONGEST, "ab,abcd,", "abxab", daachorse_find_each, DAACHORSE_DONE, " 0-2=0 3-5=0"},
        {DAACHORSE_LEFTMOST_LONGEST, "ab,abcd,", "abxab", stream_leftmost_each, DAACHORSE_DONE, " 0-2=0 3-5=0"},
        {DAACHORSE_LEFTMOST_LONGEST, "a,aaab,", "aaa", daachorse_find_each, DAACHORSE_DONE, " 0-1=0 1-2=0 2-3=0"},
        {DAACHORSE_LEFTMOST_LONGEST, "a,aaab,", "aaa", stream_leftmost_each, DAACHORSE_DONE, " 0-1=0 1-2=0 2-3=0"},
        {DAACHORSE_LEFTMOST_LONGEST, ",a,", "ba", daachorse_find_each, DAACHORSE_DONE, " 0-0=0 1-2=1"},
        {DAACHORSE_LEFTMOST_LONGEST, ",a,", "ba", stream_leftmost_each, DAACHORSE_DONE, " 0-0=0 1-2=1"},
        {DAACHORSE_LEFTMOST_LONGEST, ",", "", stream_leftmost_each, DAACHORSE_DONE, " 0-0=0"},
        {DAACHORSE_LEFTMOST_FIRST, "abcd,ab,bc,", "abcdxab", daachorse_find_each, DAACHORSE_DONE, " 0-4=0 5-7=1"},
        {DAACHORSE_LEFTMOST_FIRST, "abcd,ab,bc,", "abcdxab", stream_leftmost_each, DAACHORSE_DONE, " 0-4=0 5-7=1"},
        {DAACHORSE_LEFTMOST_FIRST, "ab,abcd,cd,", "abcdxab", daachorse_find_each, DAACHORSE_DONE, " 0-2=0 2-4=2 5-7=0"},
        {DAACHORSE_LEFTMOST_FIRST, "ab,abcd,cd,", "abcdxab", stream_leftmost_each, DAACHORSE_DONE, " 0-2=0 2-4=2 5-7=0"},
        {DAACHORSE_LEFTMOST_FIRST, "ab,", "ab", daachorse_find_overlapping_each, DAACHORSE_WRONG_KIND, ""},
        {DAACHORSE_LEFTMOST_LONGEST, "ab,", "ab", daachorse_find_overlapping_no_suffix_each, DAACHORSE_WRONG_KIND, ""},
        {DAACHORSE_LEFTMOST_LONGEST, "ab,", "ab", stream_find_each, DAACHORSE_WRONG_KIND, ""},
        {DAACHORSE_STANDARD, "ab,", "ab", stream_leftmost_each, DAACHORSE_WRONG_KIND, ""},
        {DAACHORSE_STANDARD, "ab,", "ab", stream_unknown_each, DAACHORSE_UNKNOWN_SEARCH, ""},
        {DAACHORSE_STANDARD, NULL, "ab", daachorse_find_each, DAACHORSE_EMPTY_HANDLE, ""},
        {DAACHORSE_STANDARD, NULL, "ab", daachorse_find_overlapping_each, DAACHORSE_EMPTY_HANDLE, ""},
        {DAACHORSE_STANDARD, NULL, "ab", daachorse_find_overlapping_no_suffix_each, DAACHORSE_EMPTY_HANDLE, ""},
        {DAACHORSE_STANDARD, NULL, "ab", stream_leftmost_each, DAACHORSE_EMPTY_HANDLE, ""},
    };
    for (size_t i = 0; i < sizeof rows / sizeof *rows; i++)
        for (size_t fast = 0; fast < 2; fast++) {
            daachorse handle = DAACHORSE_EMPTY;
            if (rows[i].patterns != NULL) {
                build_of(&handle, rows[i].kind, rows[i].patterns, i);
                if (fast)
                    accelerate(&handle);
            }
            for (size_t stop = 0; stop <= 6; stop++)
                need(is_each_row(&handle, &rows[i], stop), "the matches passed on", i);
            daachorse_free(&handle);
        }
}

/* The calls that pass each match on do so behind any number of matches, and leave a stream of the
 * handle as it was. */
static void see_many_passed_on(void) {
    static const struct {
        uint32_t kind;
        each_fn *call;
        size_t count;
        daachorse_match part[5];
    } rows[] = {
        {DAACHORSE_STANDARD, daachorse_find_each, 2, {{0, 2, 0}, {2, 4, 4}}},
        {DAACHORSE_STANDARD, stream_find_each, 2, {{0, 2, 0}, {2, 4, 4}}},
        {DAACHORSE_STANDARD, daachorse_find_overlapping_each, 5, {{0, 2, 0}, {0, 2, 3}, {1, 3, 2}, {0, 4, 1}, {2, 4, 4}}},
        {DAACHORSE_STANDARD, daachorse_find_overlapping_no_suffix_each, 3, {{0, 2, 0}, {1, 3, 2}, {0, 4, 1}}},
        {DAACHORSE_LEFTMOST_LONGEST, daachorse_find_each, 1, {{0, 4, 1}}},
        {DAACHORSE_LEFTMOST_LONGEST, stream_leftmost_each, 1, {{0, 4, 1}}},
        {DAACHORSE_LEFTMOST_FIRST, daachorse_find_each, 2, {{0, 2, 0}, {2, 4, 4}}},
        {DAACHORSE_LEFTMOST_FIRST, stream_leftmost_each, 2, {{0, 2, 0}, {2, 4, 4}}},
    };
    enum { PARTS = 1280 };
    static const size_t stops[] = {0, 1, 63, 64, 65, 128, 129, 1279, 1280};
    uint8_t haystack[4 * PARTS];
    for (size_t i = 0; i < PARTS; i++)
        memcpy(haystack + 4 * i, "abcd", 4);
    for (size_t i = 0; i < sizeof rows / sizeof *rows; i++)
        for (size_t j = 0; j < sizeof stops / sizeof *stops; j++) {
            daachorse handle = DAACHORSE_EMPTY;
            daachorse_match found[ROOM];
            each_part wanted = {rows[i].part, rows[i].count, 4, stops[j], 0, false};
            build(&handle, (daachorse_options){.kind = rows[i].kind});
            need(daachorse_begin(&handle, rows[i].kind == DAACHORSE_STANDARD ? DAACHORSE_FIND : DAACHORSE_LEFTMOST) == DAACHORSE_DONE, "begin", i);
            need(feed(&handle, "xa", 2, found, 0, i) == 0, "a stream before", i);
            need(is_each_part(&handle, rows[i].call, haystack, PARTS, wanted), "many matches passed on", i);
            need(feed(&handle, "b!", 2, found, 0, i) == 1 && found[0].start == 1, "a stream after", i);
            daachorse_free(&handle);
        }
}

/* More matches than the room of a call may be left at the end of a stream. */
static void see_many_left(void) {
    enum { LEFT = 200 };
    uint8_t bytes[LEFT + 2];
    const size_t ends[] = {1, LEFT + 2};
    const uint32_t values[] = {0, 1};
    const daachorse_match part = {0, 1, 0};
    daachorse handle = DAACHORSE_EMPTY;
    memset(bytes, 'a', LEFT + 1);
    bytes[LEFT + 1] = 'b';
    need(daachorse_build(&handle, DAACHORSE_LEFTMOST_LONGEST, true, false, bytes, LEFT + 2, ends, 2, values, 2) == DAACHORSE_DONE, "build", 0);
    for (size_t stop = 0; stop <= LEFT; stop++) {
        each_part wanted = {&part, 1, 1, stop, 0, false};
        need(is_each_part(&handle, stream_leftmost_each, bytes, LEFT, wanted), "matches that are left", stop);
    }
    daachorse_free(&handle);
}

/* A handle may be moved, also with a stream. */
static void see_moves(void) {
    daachorse first = DAACHORSE_EMPTY, second;
    daachorse_match found[4];
    size_t taken, written;
    build(&first, (daachorse_options){0});
    need(daachorse_begin(&first, DAACHORSE_OVERLAPPING) == DAACHORSE_DONE, "begin", 0);
    need(daachorse_consume(&first, bytes_of("a"), 1, found, 4, &taken, &written) == DAACHORSE_DONE && written == 0, "consume", 0);
    second = first;
    need(daachorse_consume(&second, bytes_of("b"), 1, found, 4, &taken, &written) == DAACHORSE_DONE && written == 2, "consume", 1);
    need(found[1].start == 0 && found[1].end == 2 && found[1].value == 3, "a match of a moved stream", 1);
    daachorse_free(&second);
}

int main(void) {
    see_options();
    see_counts();
    see_lookups();
    see_characters();
    see_nulls();
    see_places();
    see_replacements();
    see_no_replacements();
    see_certain();
    see_each();
    see_many_passed_on();
    see_many_left();
    see_moves();
    return 0;
}
