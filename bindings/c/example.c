/* Builds automata, searches a haystack in each way, lists their patterns, and frees them. Anything
 * unexpected ends it with status 1. */
#include "daachorse.h"

#include <stdio.h>
#include <stdlib.h>
#include <string.h>

typedef uint32_t search_fn(daachorse *, const uint8_t *, size_t, daachorse_match *, size_t, size_t *);

static void need(bool holds, const char *what) {
    if (!holds) {
        fprintf(stderr, "not as it should be: %s\n", what);
        exit(1);
    }
}

/* Prints all matches of a search. The room is doubled until it is not full. */
static void show(daachorse *handle, const char *name, search_fn *search, const char *haystack) {
    size_t room = 1, written;
    daachorse_match *found = NULL;
    do {
        room *= 2;
        written = 0;
        free(found);
        found = calloc(room, sizeof *found);
        need(found != NULL, "calloc");
        need(search(handle, (const uint8_t *)haystack, strlen(haystack), found, room, &written) == DAACHORSE_DONE, name);
    } while (written == room);
    printf("%s:", name);
    for (size_t i = 0; i < written; i++)
        printf(" (%zu, %zu, %u)", found[i].start, found[i].end, (unsigned)found[i].value);
    printf("\n");
    free(found);
}

/* The patterns ab, abcd, bc and cd, with the values 0, 1, 2 and 3. */
static const uint8_t bytes[] = "ababcdbccd";
static const size_t bytes_len = 10;
static const size_t ends[] = {2, 6, 8, 10};
static const uint32_t values[] = {0, 1, 2, 3};

static void build(daachorse *handle, uint32_t kind, bool use_prefilter) {
    need(daachorse_build(handle, kind, use_prefilter, false, bytes, bytes_len, ends, 4, values, 4) == DAACHORSE_DONE, "build");
}

static void build_for_any_case(daachorse *handle) {
    need(daachorse_build(handle, DAACHORSE_STANDARD, true, true, bytes, bytes_len, ends, 4, values, 4) == DAACHORSE_DONE, "build");
}

/* Prints the patterns of an automaton of this kind. The first call gets the room they need. */
static void show_patterns(const char *name, uint32_t kind) {
    daachorse handle = DAACHORSE_EMPTY;
    uint8_t byte = 7, *texts;
    size_t end = 7, *text_ends, size = 0, count = 0, start = 0;
    uint32_t value = 7, *text_values;
    build(&handle, kind, true);
    need(daachorse_list(&handle, &byte, 0, &end, 0, &value, 0, &size, &count) == DAACHORSE_NO_ROOM, "no room for a listing");
    need(byte == 7 && end == 7 && value == 7, "nothing listed");
    texts = calloc(size, sizeof *texts);
    text_ends = calloc(count, sizeof *text_ends);
    text_values = calloc(count, sizeof *text_values);
    need(texts != NULL && text_ends != NULL && text_values != NULL, "calloc");
    need(daachorse_list(&handle, texts, size, text_ends, count, text_values, count, &size, &count) == DAACHORSE_DONE, "list");
    printf("%s:", name);
    for (size_t i = 0; i < count; i++) {
        printf(" %.*s (%u)", (int)(text_ends[i] - start), (const char *)texts + start, (unsigned)text_values[i]);
        start = text_ends[i];
    }
    printf("\n");
    free(texts);
    free(text_ends);
    free(text_values);
    daachorse_free(&handle);
}

static void show_searches(void) {
    daachorse handle = DAACHORSE_EMPTY;
    build(&handle, DAACHORSE_STANDARD, true);
    show(&handle, "find", daachorse_find, "abcd");
    show(&handle, "find_overlapping", daachorse_find_overlapping, "abcd");
    show(&handle, "find_overlapping_no_suffix", daachorse_find_overlapping_no_suffix, "abcd");
    build(&handle, DAACHORSE_LEFTMOST_LONGEST, false);
    show(&handle, "leftmost_find, longest", daachorse_leftmost_find, "abcd");
    build(&handle, DAACHORSE_LEFTMOST_FIRST, true);
    show(&handle, "leftmost_find, first", daachorse_leftmost_find, "abcd");
    build(&handle, DAACHORSE_STANDARD, true);
    show(&handle, "find, case regarded", daachorse_find, "aBCDab");
    build_for_any_case(&handle);
    show(&handle, "find, case disregarded", daachorse_find, "aBCDab");
    daachorse_free(&handle);
}

/* A search writes no more than there is room for, and leaves what follows unchanged. */
static void see_room(void) {
    daachorse handle = DAACHORSE_EMPTY;
    daachorse_match found[3] = {{7, 7, 7}, {7, 7, 7}, {7, 7, 7}};
    size_t written = 7;
    build(&handle, DAACHORSE_STANDARD, true);
    need(daachorse_find_overlapping(&handle, (const uint8_t *)"abcd", 4, found, 2, &written) == DAACHORSE_DONE, "little room");
    need(written == 2 && found[1].value == 2 && found[2].value == 7, "two of four matches");
    need(daachorse_find(&handle, (const uint8_t *)"", 0, found, 3, &written) == DAACHORSE_DONE && written == 0, "empty haystack");
    daachorse_free(&handle);
}

/* A stream reports each match once, even across pieces, whatever the room. It ends before the last
 * piece, which has no bytes. */
static void show_stream(const char *name, uint32_t kind, uint32_t search) {
    const char *pieces[] = {"", "a", "bcda", "b", ""};
    const size_t count = sizeof pieces / sizeof *pieces;
    daachorse handle = DAACHORSE_EMPTY;
    build(&handle, kind, true);
    need(daachorse_begin(&handle, search) == DAACHORSE_DONE, "begin");
    printf("%s:", name);
    for (size_t i = 0; i < count; i++) {
        if (i == count - 1)
            need(daachorse_end(&handle) == DAACHORSE_DONE, "end");
        const uint8_t *bytes = (const uint8_t *)pieces[i];
        size_t left = strlen(pieces[i]), taken = 0, written = 0;
        do {
            daachorse_match found = {7, 7, 7};
            need(daachorse_consume(&handle, bytes, left, &found, 1, &taken, &written) == DAACHORSE_DONE, "consume");
            need(taken <= left && written <= 1, "too much");
            bytes += taken;
            left -= taken;
            if (written == 1)
                printf(" (%zu, %zu, %u)", found.start, found.end, (unsigned)found.value);
        } while (written == 1);
        need(left == 0, "bytes are left");
    }
    printf("\n");
    daachorse_free(&handle);
}

static void see_stream_refusals(void) {
    daachorse handle = DAACHORSE_EMPTY;
    daachorse_match found[1] = {{7, 7, 7}};
    size_t taken = 7, written = 7;
    need(daachorse_begin(&handle, DAACHORSE_OVERLAPPING) == DAACHORSE_EMPTY_HANDLE, "begin with an empty handle");
    need(daachorse_consume(&handle, bytes, 2, found, 1, &taken, &written) == DAACHORSE_EMPTY_HANDLE, "consume with an empty handle");
    need(daachorse_end(&handle) == DAACHORSE_EMPTY_HANDLE, "end with an empty handle");
    need(taken == 0 && written == 0, "nothing consumed");
    build(&handle, DAACHORSE_LEFTMOST_FIRST, true);
    for (uint32_t search = DAACHORSE_FIND; search <= DAACHORSE_NO_SUFFIX; search++)
        need(daachorse_begin(&handle, search) == DAACHORSE_WRONG_KIND, "stream of another kind");
    build(&handle, DAACHORSE_STANDARD, true);
    need(daachorse_begin(&handle, DAACHORSE_LEFTMOST) == DAACHORSE_WRONG_KIND, "leftmost stream of another kind");
    need(daachorse_begin(&handle, 4) == DAACHORSE_UNKNOWN_SEARCH, "stream of no search");
    need(daachorse_consume(&handle, bytes, 2, found, 1, &taken, &written) == DAACHORSE_NO_STREAM, "no stream");
    need(taken == 0 && written == 0 && found[0].value == 7, "nothing told");
    need(daachorse_end(&handle) == DAACHORSE_NO_STREAM, "no stream to end");
    need(daachorse_begin(&handle, DAACHORSE_FIND) == DAACHORSE_DONE, "begin");
    need(daachorse_consume(&handle, bytes, 2, found, 1, &taken, &written) == DAACHORSE_DONE, "consume");
    need(taken == 2 && written == 1 && found[0].end == 2, "the first match");
    need(daachorse_end(&handle) == DAACHORSE_DONE && daachorse_end(&handle) == DAACHORSE_DONE, "end");
    need(daachorse_consume(&handle, bytes, 1, found, 1, &taken, &written) == DAACHORSE_STREAM_ENDED, "bytes after the end");
    need(taken == 0 && written == 0, "nothing consumed after the end");
    need(daachorse_consume(&handle, bytes, 0, found, 1, &taken, &written) == DAACHORSE_DONE && written == 0, "nothing is left");
    build(&handle, DAACHORSE_STANDARD, true);
    need(daachorse_consume(&handle, bytes, 2, found, 1, &taken, &written) == DAACHORSE_NO_STREAM, "a stream of another automaton");
    daachorse_free(&handle);
}

static void see_refusals(void) {
    daachorse handle = DAACHORSE_EMPTY;
    daachorse_match found[1] = {{7, 7, 7}};
    const size_t falling[] = {3, 2}, past[] = {11};
    size_t written = 7, end = 7, count = 7;
    uint8_t byte = 7;
    uint32_t value = 7;
    need(daachorse_find(&handle, bytes, bytes_len, found, 1, &written) == DAACHORSE_EMPTY_HANDLE && written == 0, "empty handle");
    written = 7;
    need(daachorse_list(&handle, &byte, 1, &end, 1, &value, 1, &written, &count) == DAACHORSE_EMPTY_HANDLE, "list with an empty handle");
    need(written == 0 && count == 0 && byte == 7 && end == 7 && value == 7, "nothing listed");
    need(daachorse_build(&handle, 3, true, false, bytes, bytes_len, ends, 4, values, 4) == DAACHORSE_UNKNOWN_KIND, "kind");
    need(daachorse_build(&handle, 0, true, false, bytes, bytes_len, falling, 2, values, 2) == DAACHORSE_WRONG_PATTERNS, "falling ends");
    need(daachorse_build(&handle, 0, true, false, bytes, bytes_len, past, 1, values, 1) == DAACHORSE_WRONG_PATTERNS, "end past the bytes");
    need(daachorse_build(&handle, 0, true, false, bytes, bytes_len, ends, 4, values, 3) == DAACHORSE_WRONG_PATTERNS, "too few values");
    build(&handle, DAACHORSE_STANDARD, true);
    need(daachorse_leftmost_find(&handle, bytes, bytes_len, found, 1, &written) == DAACHORSE_WRONG_KIND, "search of another kind");
    need(daachorse_build(&handle, 3, true, false, bytes, bytes_len, ends, 4, values, 4) == DAACHORSE_UNKNOWN_KIND, "kind again");
    need(daachorse_find(&handle, bytes, bytes_len, found, 1, &written) == DAACHORSE_DONE && written == 1, "unchanged by a refusal");
    daachorse_free(&handle);
    daachorse_free(&handle);
}

/* A written automaton is read back, whatever follows it, and finds the same. */
static void see_written(void) {
    daachorse handle = DAACHORSE_EMPTY, again = DAACHORSE_EMPTY;
    uint8_t little[1] = {7}, *form;
    size_t size = 0, taken = 0;
    bool found = false;
    build(&handle, DAACHORSE_STANDARD, true);
    need(daachorse_write(&handle, little, 1, &size) == DAACHORSE_NO_ROOM && little[0] == 7, "no room");
    form = calloc(size + 1, 1);
    need(form != NULL, "calloc");
    need(daachorse_write(&handle, form, size, &size) == DAACHORSE_DONE, "write");
    need(daachorse_read(&again, form, size - 1, &taken) == DAACHORSE_INVALID_AUTOMATON && taken == 0, "cut form");
    need(daachorse_is_match(&again, bytes, bytes_len, &found) == DAACHORSE_EMPTY_HANDLE && !found, "still empty");
    need(daachorse_read(&again, form, size + 1, &taken) == DAACHORSE_DONE && taken == size, "read");
    need(daachorse_is_match(&again, (const uint8_t *)"xcdx", 4, &found) == DAACHORSE_DONE && found, "cd occurs");
    need(daachorse_is_match(&again, (const uint8_t *)"acbd", 4, &found) == DAACHORSE_DONE && !found, "none occurs");
    show(&again, "find_overlapping, read back", daachorse_find_overlapping, "abcd");
    free(form);
    daachorse_free(&handle);
    daachorse_free(&again);
}

int main(void) {
    show_searches();
    show_patterns("patterns", DAACHORSE_STANDARD);
    show_patterns("patterns, leftmost first", DAACHORSE_LEFTMOST_FIRST);
    see_room();
    see_written();
    show_stream("stream", DAACHORSE_STANDARD, DAACHORSE_FIND);
    show_stream("stream, overlapping", DAACHORSE_STANDARD, DAACHORSE_OVERLAPPING);
    show_stream("stream, no suffix", DAACHORSE_STANDARD, DAACHORSE_NO_SUFFIX);
    show_stream("stream, longest", DAACHORSE_LEFTMOST_LONGEST, DAACHORSE_LEFTMOST);
    show_stream("stream, first", DAACHORSE_LEFTMOST_FIRST, DAACHORSE_LEFTMOST);
    see_refusals();
    see_stream_refusals();
    return 0;
}
