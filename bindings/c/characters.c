/* Automata over characters: what each call does with text, and with bytes that are none. Each row
 * of a table here gives what the call must do. */
#include "daachorse.h"

#include "each.h"

#include <stdio.h>
#include <stdlib.h>
#include <string.h>

enum { ROOM = 64 };

static void need(bool holds, const char *what, size_t row) {
    if (!holds) {
        fprintf(stderr, "row %zu is not as it should be: %s\n", row, what);
        exit(1);
    }
}

static const uint8_t *bytes_of(const char *text) {
    return (const uint8_t *)text;
}

/* The patterns, each ended by a comma, with the values 0, 1, 2 and so on. */
static uint32_t build(daachorse *handle, daachorse_options options, const char *patterns) {
    uint8_t bytes[ROOM];
    size_t ends[ROOM], size = 0, count = 0;
    uint32_t values[ROOM];
    for (; *patterns != '\0'; patterns++)
        if (*patterns == ',') {
            ends[count] = size;
            values[count] = (uint32_t)count;
            count++;
        } else {
            bytes[size++] = (uint8_t)*patterns;
        }
    options.unit = DAACHORSE_CHARACTERS;
    return daachorse_build_with(handle, &options, bytes, size, ends, count, values, count);
}

static void accelerate(daachorse *handle) {
    daachorse rowed = DAACHORSE_EMPTY;
    need(daachorse_accelerate(handle, &rowed) == DAACHORSE_DONE, "accelerate", 0);
    daachorse_free(handle);
    *handle = rowed;
}

/* Writes the automaton, and reads it back over characters. */
static void write_and_read(daachorse *handle, size_t row) {
    static uint8_t form[1 << 18];
    size_t size, taken;
    need(daachorse_write(handle, form, sizeof form, &size) == DAACHORSE_DONE, "write", row);
    need(daachorse_read_with(handle, 2, form, size, &taken) == DAACHORSE_UNKNOWN_OPTION && taken == 0, "no unit", row);
    need(daachorse_read_with(handle, DAACHORSE_CHARACTERS, form, size, &taken) == DAACHORSE_DONE && taken == size, "read", row);
}

/* Matches as text, each as START-END=VALUE. */
static void show(char *text, const daachorse_match *found, size_t written) {
    *text = '\0';
    for (size_t i = 0; i < written; i++)
        sprintf(text + strlen(text), " %zu-%zu=%u", found[i].start, found[i].end, (unsigned)found[i].value);
}

typedef uint32_t search_fn(daachorse *, const uint8_t *, size_t, daachorse_match *, size_t, size_t *);

/* Of each search of a haystack what it finds, by patterns with characters of 1, 2 and 3 bytes. */
static void see_searches(void) {
    static const struct {
        uint32_t kind;
        bool any_case;
        const char *patterns, *haystack;
        search_fn *search;
        const char *found;
    } rows[] = {
        {DAACHORSE_STANDARD, false, "\xc3\xa9,\xe6\xbc\xa2z,", "a\xc3\xa9\xe6\xbc\xa2z", daachorse_find, " 1-3=0 3-7=1"},
        {DAACHORSE_STANDARD, false, "\xc3\xa9,\xc3\xa9\xe6\xbc\xa2,\xe6\xbc\xa2,", "\xc3\xa9\xe6\xbc\xa2", daachorse_find_overlapping, " 0-2=0 0-5=1 2-5=2"},
        {DAACHORSE_STANDARD, false, "\xc3\xa9\xe6\xbc\xa2,\xe6\xbc\xa2,", "\xc3\xa9\xe6\xbc\xa2", daachorse_find_overlapping_no_suffix, " 0-5=0"},
        {DAACHORSE_STANDARD, false, ",", "a\xc3\xa9z", daachorse_find, " 0-0=0 1-1=0 3-3=0 4-4=0"},
        {DAACHORSE_STANDARD, true, "\xc3\xa9Z,", "\xc3\xa9z\xc3\x89Z", daachorse_find, " 0-3=0"},
        {DAACHORSE_LEFTMOST_LONGEST, false, "\xe6\xbc\xa2,\xe6\xbc\xa2\xc3\xa9,", "\xe6\xbc\xa2\xc3\xa9\xe6\xbc\xa2", daachorse_leftmost_find, " 0-5=1 5-8=0"},
        {DAACHORSE_LEFTMOST_FIRST, false, "\xe6\xbc\xa2,\xe6\xbc\xa2\xc3\xa9,", "\xe6\xbc\xa2\xc3\xa9", daachorse_leftmost_find, " 0-3=0"},
        {DAACHORSE_LEFTMOST_FIRST, false, ",", "\xe6\xbc\xa2\xc3\xa9", daachorse_leftmost_find, " 0-0=0 3-3=0 5-5=0"},
        {DAACHORSE_STANDARD, false, "\xc3\xa9,\xc3\xa9z,\xc3\xa9,", "\xc3\xa9", daachorse_get, " 0-2=0 0-2=2"},
        {DAACHORSE_LEFTMOST_LONGEST, false, "\xc3\xa9,\xc3\xa9z,z,", "\xc3\xa9z!", daachorse_common_prefixes, " 0-2=0 0-3=1"},
    };
    for (size_t i = 0; i < sizeof rows / sizeof *rows; i++)
        for (size_t way = 0; way < 3; way++) {
            daachorse handle = DAACHORSE_EMPTY;
            daachorse_match found[ROOM];
            char text[ROOM * 8];
            size_t written = 7;
            bool is_found = true;
            need(build(&handle, (daachorse_options){.kind = rows[i].kind, .ascii_case_insensitive = rows[i].any_case}, rows[i].patterns) == DAACHORSE_DONE,
                "build", i);
            if (way == 1)
                accelerate(&handle);
            if (way == 2)
                write_and_read(&handle, i);
            need(rows[i].search(&handle, bytes_of(rows[i].haystack), strlen(rows[i].haystack), found, ROOM, &written) == DAACHORSE_DONE, "a search", i);
            show(text, found, written);
            need(strcmp(text, rows[i].found) == 0, text, i);
            /* A haystack that ends inside a character is refused, and nothing is found. */
            need(rows[i].search(&handle, bytes_of("z\xe6\xbc"), 3, found, ROOM, &written) == DAACHORSE_INVALID_UTF8 && written == 0, "no text", i);
            need(daachorse_is_match(&handle, bytes_of(rows[i].haystack), strlen(rows[i].haystack), &is_found) == DAACHORSE_DONE && is_found, "is_match", i);
            need(daachorse_is_match(&handle, bytes_of("\x80"), 1, &is_found) == DAACHORSE_INVALID_UTF8 && !is_found, "is_match of no text", i);
            daachorse_free(&handle);
        }
}

/* Each search that goes on, match by match, finds what it finds at once. */
static void see_places(void) {
    static const struct {
        uint32_t kind;
        const char *patterns, *haystack, *found;
    } rows[] = {
        {DAACHORSE_STANDARD, ",", "\xe6\xbc\xa2z\xc3\xa9", " 0-0=0 3-3=0 4-4=0 6-6=0"},
        {DAACHORSE_STANDARD, "\xc3\xa9,", "\xc3\xa9\xe6\xbc\xa2\xc3\xa9", " 0-2=0 5-7=0"},
        {DAACHORSE_LEFTMOST_LONGEST, ",\xc3\xa9,", "\xc3\xa9\xe6\xbc\xa2\xc3\xa9", " 0-2=1 5-7=1"},
        {DAACHORSE_LEFTMOST_FIRST, "\xc3\xa9,,", "z\xc3\xa9\xe6\xbc\xa2", " 0-0=1 1-3=0 6-6=1"},
    };
    for (size_t i = 0; i < sizeof rows / sizeof *rows; i++)
        for (size_t room = 1; room <= 3; room++) {
            daachorse handle = DAACHORSE_EMPTY;
            daachorse_place place = {0, false, false}, inside = {1, false, false};
            daachorse_match found[ROOM];
            size_t len = strlen(rows[i].haystack), count = 0, written = room;
            char text[ROOM * 8];
            need(build(&handle, (daachorse_options){.kind = rows[i].kind}, rows[i].patterns) == DAACHORSE_DONE, "build", i);
            while (written == room) {
                need(daachorse_find_on(&handle, bytes_of(rows[i].haystack), len, &place, found + count, room, &written) == DAACHORSE_DONE, "find_on", i);
                count += written;
            }
            show(text, found, count);
            need(strcmp(text, rows[i].found) == 0, text, i);
            need(daachorse_find_on(&handle, bytes_of("\xe6\xbc\xa2"), 3, &inside, found, room, &written) == DAACHORSE_WRONG_PLACE && inside.at == 1,
                "a place inside a character", i);
            need(daachorse_find_on(&handle, bytes_of("z\xff"), 2, &inside, found, room, &written) == DAACHORSE_INVALID_UTF8 && inside.at == 1, "no text", i);
            daachorse_free(&handle);
        }
}

/* What is written of an automaton over characters is told in bytes. */
static void see_lists(void) {
    static const char patterns[] = "\xe6\xbc\xa2z,\xc3\xa9,a,";
    daachorse handle = DAACHORSE_EMPTY;
    daachorse_counts counts;
    uint8_t bytes[ROOM], out[ROOM];
    size_t ends[ROOM], size, count;
    uint32_t values[ROOM], kind = 7;
    bool any_case = false;
    need(build(&handle, (daachorse_options){.kind = DAACHORSE_LEFTMOST_LONGEST, .ascii_case_insensitive = 1}, patterns) == DAACHORSE_DONE, "build", 0);
    need(daachorse_kind(&handle, &kind, &any_case) == DAACHORSE_DONE && kind == DAACHORSE_LEFTMOST_LONGEST && any_case, "the kind", 0);
    need(daachorse_count(&handle, &counts) == DAACHORSE_DONE, "count", 0);
    need(counts.patterns == 3 && counts.states == 5 && counts.longest == 4, "the counts", 0);
    need(daachorse_list(&handle, bytes, ROOM, ends, ROOM, values, ROOM, &size, &count) == DAACHORSE_DONE && size == 7 && count == 3, "list", 0);
    need(memcmp(bytes, "a\xc3\xa9\xe6\xbc\xa2z", 7) == 0 && ends[0] == 1 && ends[1] == 3 && ends[2] == 7, "the patterns", 0);
    need(values[0] == 2 && values[1] == 1 && values[2] == 0, "their values", 0);
    const size_t text_ends[] = {1, 1};
    need(daachorse_replace(&handle, bytes_of("\xe6\xbc\xa2Z\xc3\xa9x"), 7, bytes_of("-"), 1, text_ends, 2, out, ROOM, &size) == DAACHORSE_DONE
            && size == 2 && memcmp(out, "-x", 2) == 0,
        "replace", 0);
    out[0] = 7;
    need(daachorse_replace(&handle, bytes_of("x\xc3"), 2, bytes_of("-"), 1, text_ends, 2, out, ROOM, &size) == DAACHORSE_INVALID_UTF8 && size == 0
            && out[0] == 7,
        "replace in no text", 0);
    daachorse_free(&handle);
}

/* A stream that is cut after each number of bytes, inside characters too, finds the same. */
static void see_streams(void) {
    static const struct {
        uint32_t kind, search;
        const char *patterns, *haystack, *found;
    } rows[] = {
        {DAACHORSE_STANDARD, DAACHORSE_FIND, "\xc3\xa9,\xe6\xbc\xa2z,", "a\xc3\xa9\xe6\xbc\xa2z", " 1-3=0 3-7=1"},
        {DAACHORSE_STANDARD, DAACHORSE_FIND, ",", "\xf0\x9f\x99\x82z", " 0-0=0 4-4=0 5-5=0"},
        {DAACHORSE_STANDARD, DAACHORSE_OVERLAPPING, "\xc3\xa9,\xc3\xa9\xe6\xbc\xa2,\xe6\xbc\xa2,", "\xc3\xa9\xe6\xbc\xa2", " 0-2=0 0-5=1 2-5=2"},
        {DAACHORSE_STANDARD, DAACHORSE_NO_SUFFIX, "\xc3\xa9\xe6\xbc\xa2,\xe6\xbc\xa2,", "\xc3\xa9\xe6\xbc\xa2", " 0-5=0"},
        {DAACHORSE_LEFTMOST_LONGEST, DAACHORSE_LEFTMOST, "\xe6\xbc\xa2,\xe6\xbc\xa2\xc3\xa9,", "\xe6\xbc\xa2\xc3\xa9\xe6\xbc\xa2", " 0-5=1 5-8=0"},
        {DAACHORSE_LEFTMOST_FIRST, DAACHORSE_LEFTMOST, "\xe6\xbc\xa2,\xe6\xbc\xa2\xc3\xa9,", "z\xe6\xbc\xa2\xc3\xa9", " 1-4=0"},
    };
    for (size_t i = 0; i < sizeof rows / sizeof *rows; i++)
        for (size_t cut = 0, len = strlen(rows[i].haystack); cut <= len; cut++) {
            daachorse handle = DAACHORSE_EMPTY;
            daachorse_match found[ROOM];
            size_t taken, written, count = 0;
            char text[ROOM * 8];
            need(build(&handle, (daachorse_options){.kind = rows[i].kind}, rows[i].patterns) == DAACHORSE_DONE, "build", i);
            need(daachorse_begin(&handle, rows[i].search) == DAACHORSE_DONE, "begin", i);
            need(daachorse_consume(&handle, bytes_of(rows[i].haystack), cut, found, ROOM, &taken, &written) == DAACHORSE_DONE && taken == cut, "the first piece", i);
            count += written;
            bool inside = cut < len && (rows[i].haystack[cut] & 0xc0) == 0x80;
            if (inside) {
                need(daachorse_end(&handle) == DAACHORSE_INVALID_UTF8, "an end inside a character", i);
                need(daachorse_consume(&handle, bytes_of("z"), 1, found, ROOM, &taken, &written) == DAACHORSE_INVALID_UTF8 && taken == 0 && written == 0,
                    "a wrong byte", i);
            }
            need(daachorse_consume(&handle, bytes_of(rows[i].haystack) + cut, len - cut, found + count, ROOM - count, &taken, &written) == DAACHORSE_DONE
                    && taken == len - cut,
                "the second piece", i);
            count += written;
            need(daachorse_end(&handle) == DAACHORSE_DONE, "end", i);
            need(daachorse_consume(&handle, NULL, 0, found + count, ROOM - count, &taken, &written) == DAACHORSE_DONE, "what is left", i);
            show(text, found, count + written);
            need(strcmp(text, rows[i].found) == 0, text, i);
            daachorse_free(&handle);
        }
}

/* Bytes with which no character begins are not consumed, and then refused. */
static void see_wrong_bytes(void) {
    daachorse handle = DAACHORSE_EMPTY;
    daachorse_match found[ROOM];
    size_t taken, written;
    need(build(&handle, (daachorse_options){0}, "\xc3\xa9,") == DAACHORSE_DONE, "build", 0);
    need(daachorse_begin(&handle, DAACHORSE_OVERLAPPING) == DAACHORSE_DONE, "begin", 0);
    need(daachorse_consume(&handle, bytes_of("\xc3\xa9\xffz"), 4, found, ROOM, &taken, &written) == DAACHORSE_DONE && taken == 2 && written == 1, "up to them", 0);
    need(daachorse_consume(&handle, bytes_of("\xffz"), 2, found, ROOM, &taken, &written) == DAACHORSE_INVALID_UTF8 && taken == 0 && written == 0, "with them", 0);
    need(daachorse_consume(&handle, bytes_of("\xc3\xa9"), 2, found, ROOM, &taken, &written) == DAACHORSE_DONE && taken == 2 && written == 1 && found[0].start == 2,
        "without them", 0);
    daachorse_free(&handle);
}

/* What the calls that pass each match on do with text and with bytes that are none, whether and when
 * they are asked to stop. Only those by a stream pass on what comes before such bytes. */
static void see_each(void) {
    static const each_row rows[] = {
        {DAACHORSE_STANDARD, "\xc3\xa9,\xe6\xbc\xa2z,", "a\xc3\xa9\xe6\xbc\xa2z", daachorse_find_each, DAACHORSE_DONE, " 1-3=0 3-7=1"},
        {DAACHORSE_STANDARD, "\xc3\xa9,\xe6\xbc\xa2z,", "a\xc3\xa9\xe6\xbc\xa2z", stream_find_each, DAACHORSE_DONE, " 1-3=0 3-7=1"},
        {DAACHORSE_STANDARD, "\xc3\xa9,\xc3\xa9\xe6\xbc\xa2,\xe6\xbc\xa2,", "\xc3\xa9\xe6\xbc\xa2", daachorse_find_overlapping_each, DAACHORSE_DONE, " 0-2=0 0-5=1 2-5=2"},
        {DAACHORSE_STANDARD, "\xc3\xa9,\xc3\xa9\xe6\xbc\xa2,\xe6\xbc\xa2,", "\xc3\xa9\xe6\xbc\xa2", daachorse_find_overlapping_no_suffix_each, DAACHORSE_DONE, " 0-2=0 0-5=1"},
        {DAACHORSE_STANDARD, ",", "a\xc3\xa9", daachorse_find_each, DAACHORSE_DONE, " 0-0=0 1-1=0 3-3=0"},
        {DAACHORSE_STANDARD, ",", "a\xc3\xa9", daachorse_find_overlapping_each, DAACHORSE_DONE, " 0-0=0 1-1=0 3-3=0"},
        {DAACHORSE_LEFTMOST_LONGEST, "\xe6\xbc\xa2,\xe6\xbc\xa2\xc3\xa9,", "\xe6\xbc\xa2\xc3\xa9\xe6\xbc\xa2", daachorse_find_each, DAACHORSE_DONE, " 0-5=1 5-8=0"},
        {DAACHORSE_LEFTMOST_LONGEST, "\xe6\xbc\xa2,\xe6\xbc\xa2\xc3\xa9,", "\xe6\xbc\xa2\xc3\xa9\xe6\xbc\xa2", stream_leftmost_each, DAACHORSE_DONE, " 0-5=1 5-8=0"},
        {DAACHORSE_LEFTMOST_FIRST, "\xe6\xbc\xa2\xc3\xa9,\xe6\xbc\xa2,", "\xe6\xbc\xa2\xc3\xa9\xe6\xbc\xa2", daachorse_find_each, DAACHORSE_DONE, " 0-5=0 5-8=1"},
        {DAACHORSE_LEFTMOST_FIRST, "\xe6\xbc\xa2\xc3\xa9,\xe6\xbc\xa2,", "\xe6\xbc\xa2\xc3\xa9\xe6\xbc\xa2", stream_leftmost_each, DAACHORSE_DONE, " 0-5=0 5-8=1"},
        {DAACHORSE_LEFTMOST_FIRST, ",", "\xe6\xbc\xa2", daachorse_find_each, DAACHORSE_DONE, " 0-0=0 3-3=0"},
        {DAACHORSE_LEFTMOST_FIRST, ",", "\xe6\xbc\xa2", stream_leftmost_each, DAACHORSE_DONE, " 0-0=0 3-3=0"},
        /* A text that is cut inside a character. */
        {DAACHORSE_STANDARD, "\xc3\xa9,", "a\xc3\xa9\xc3", daachorse_find_each, DAACHORSE_INVALID_UTF8, ""},
        {DAACHORSE_STANDARD, "\xc3\xa9,", "a\xc3\xa9\xc3", stream_find_each, DAACHORSE_INVALID_UTF8, " 1-3=0"},
        {DAACHORSE_STANDARD, "a,\xc3\xa9,", "a\xc3\xa9\xc3", daachorse_find_overlapping_each, DAACHORSE_INVALID_UTF8, " 0-1=0 1-3=1"},
        {DAACHORSE_STANDARD, "a,\xc3\xa9,", "a\xc3\xa9\xc3", daachorse_find_overlapping_no_suffix_each, DAACHORSE_INVALID_UTF8, " 0-1=0 1-3=1"},
        {DAACHORSE_STANDARD, "a,", "\xe6\xbc", daachorse_find_overlapping_each, DAACHORSE_INVALID_UTF8, ""},
        {DAACHORSE_LEFTMOST_LONGEST, "\xc3\xa9,\xc3\xa9\xe6\xbc\xa2,", "\xc3\xa9z\xc3\xa9\xe6\xbc", daachorse_find_each, DAACHORSE_INVALID_UTF8, ""},
        {DAACHORSE_LEFTMOST_LONGEST, "\xc3\xa9,\xc3\xa9\xe6\xbc\xa2,", "\xc3\xa9z\xc3\xa9\xe6\xbc", stream_leftmost_each, DAACHORSE_INVALID_UTF8, " 0-2=0"},
        {DAACHORSE_LEFTMOST_FIRST, "\xc3\xa9,\xc3\xa9\xe6\xbc\xa2,", "\xc3\xa9z\xc3\xa9\xe6\xbc", stream_leftmost_each, DAACHORSE_INVALID_UTF8, " 0-2=0 3-5=0"},
        /* A byte with which no character begins, in the middle. */
        {DAACHORSE_STANDARD, "\xc3\xa9,", "\xc3\xa9\xff\xc3\xa9", daachorse_find_each, DAACHORSE_INVALID_UTF8, ""},
        {DAACHORSE_STANDARD, "\xc3\xa9,", "\xc3\xa9\xff\xc3\xa9", stream_find_each, DAACHORSE_INVALID_UTF8, " 0-2=0"},
        {DAACHORSE_STANDARD, "\xc3\xa9,", "\xc3\xa9\xff\xc3\xa9", daachorse_find_overlapping_each, DAACHORSE_INVALID_UTF8, " 0-2=0"},
        {DAACHORSE_STANDARD, "\xc3\xa9,", "\xc3\xa9\xc3z\xc3\xa9", daachorse_find_overlapping_no_suffix_each, DAACHORSE_INVALID_UTF8, " 0-2=0"},
        {DAACHORSE_LEFTMOST_LONGEST, "\xc3\xa9,\xc3\xa9z,", "\xc3\xa9\xc3\xa9\xff\xc3\xa9", daachorse_find_each, DAACHORSE_INVALID_UTF8, ""},
        {DAACHORSE_LEFTMOST_LONGEST, "\xc3\xa9,\xc3\xa9z,", "\xc3\xa9\xc3\xa9\xff\xc3\xa9", stream_leftmost_each, DAACHORSE_INVALID_UTF8, " 0-2=0"},
        {DAACHORSE_LEFTMOST_FIRST, "\xc3\xa9,", "\xc3\xa9\xff\xc3\xa9", stream_leftmost_each, DAACHORSE_INVALID_UTF8, " 0-2=0"},
        {DAACHORSE_STANDARD, "z,", "\xffz", stream_overlapping_each, DAACHORSE_INVALID_UTF8, ""},
        {DAACHORSE_STANDARD, NULL, "\xc3\xa9", daachorse_find_each, DAACHORSE_EMPTY_HANDLE, ""},
        {DAACHORSE_STANDARD, NULL, "\xff", stream_find_each, DAACHORSE_EMPTY_HANDLE, ""},
    };
    for (size_t i = 0; i < sizeof rows / sizeof *rows; i++)
        for (size_t fast = 0; fast < 2; fast++) {
            daachorse handle = DAACHORSE_EMPTY;
            if (rows[i].patterns != NULL) {
                need(build(&handle, (daachorse_options){.kind = rows[i].kind}, rows[i].patterns) == DAACHORSE_DONE, "build", i);
                if (fast)
                    accelerate(&handle);
            }
            for (size_t stop = 0; stop <= 4; stop++)
                need(is_each_row(&handle, &rows[i], stop), "the matches passed on", i);
            daachorse_free(&handle);
        }
}

/* The calls that pass each match on do so behind any number of matches, and leave a stream of the
 * handle as it was. */
static void see_many_passed_on(void) {
    static const char part[] = "\xe6\xbc\xa2\xc3\xa9z";
    static const struct {
        uint32_t kind;
        each_fn *call;
        size_t count;
        daachorse_match part[4];
    } rows[] = {
        {DAACHORSE_STANDARD, daachorse_find_each, 3, {{0, 3, 0}, {3, 5, 1}, {5, 6, 3}}},
        {DAACHORSE_STANDARD, stream_find_each, 3, {{0, 3, 0}, {3, 5, 1}, {5, 6, 3}}},
        {DAACHORSE_STANDARD, daachorse_find_overlapping_each, 4, {{0, 3, 0}, {3, 5, 1}, {3, 6, 2}, {5, 6, 3}}},
        {DAACHORSE_STANDARD, daachorse_find_overlapping_no_suffix_each, 3, {{0, 3, 0}, {3, 5, 1}, {3, 6, 2}}},
        {DAACHORSE_LEFTMOST_LONGEST, daachorse_find_each, 2, {{0, 3, 0}, {3, 6, 2}}},
        {DAACHORSE_LEFTMOST_LONGEST, stream_leftmost_each, 2, {{0, 3, 0}, {3, 6, 2}}},
        {DAACHORSE_LEFTMOST_FIRST, daachorse_find_each, 3, {{0, 3, 0}, {3, 5, 1}, {5, 6, 3}}},
        {DAACHORSE_LEFTMOST_FIRST, stream_leftmost_each, 3, {{0, 3, 0}, {3, 5, 1}, {5, 6, 3}}},
    };
    enum { PARTS = 1280 };
    /* daachorse_find_each has room for 64 matches, and then for one for each 64 bytes. */
    static const size_t stops[] = {0, 1, 63, 64, 65, 183, 184, 185, 304, 305, 2559, 2560};
    uint8_t haystack[6 * PARTS];
    for (size_t i = 0; i < PARTS; i++)
        memcpy(haystack + 6 * i, part, 6);
    for (size_t i = 0; i < sizeof rows / sizeof *rows; i++)
        for (size_t j = 0; j < sizeof stops / sizeof *stops; j++) {
            daachorse handle = DAACHORSE_EMPTY;
            daachorse_match found[ROOM];
            size_t taken, written;
            each_part wanted = {rows[i].part, rows[i].count, 6, stops[j], 0, false};
            need(build(&handle, (daachorse_options){.kind = rows[i].kind}, "\xe6\xbc\xa2,\xc3\xa9,\xc3\xa9z,z,") == DAACHORSE_DONE, "build", i);
            need(daachorse_begin(&handle, rows[i].kind == DAACHORSE_STANDARD ? DAACHORSE_FIND : DAACHORSE_LEFTMOST) == DAACHORSE_DONE, "begin", i);
            need(daachorse_consume(&handle, bytes_of("a\xe6"), 2, found, ROOM, &taken, &written) == DAACHORSE_DONE && taken == 2 && written == 0,
                "a stream before", i);
            need(is_each_part(&handle, rows[i].call, haystack, PARTS, wanted), "many matches passed on", i);
            need(daachorse_consume(&handle, bytes_of("\xbc\xa2"), 2, found, ROOM, &taken, &written) == DAACHORSE_DONE && written == 1 && found[0].start == 1,
                "a stream after", i);
            daachorse_free(&handle);
        }
}

/* A pattern that is no text is refused, and the handle keeps what it had. */
static void see_refusals(void) {
    daachorse handle = DAACHORSE_EMPTY;
    bool found = false;
    need(build(&handle, (daachorse_options){0}, "\xc3\xa9,") == DAACHORSE_DONE, "build", 0);
    need(build(&handle, (daachorse_options){0}, "a,\xc3,") == DAACHORSE_INVALID_UTF8, "build of no text", 0);
    need(daachorse_is_match(&handle, bytes_of("\xc3\xa9"), 2, &found) == DAACHORSE_DONE && found, "the automaton before", 0);
    daachorse_free(&handle);
}

int main(void) {
    see_searches();
    see_places();
    see_lists();
    see_streams();
    see_wrong_bytes();
    see_each();
    see_many_passed_on();
    see_refusals();
    return 0;
}
