/* What the tests of the calls that pass each match on have in common. */
#ifndef EACH_H
#define EACH_H

#include "daachorse.h"

#include <stdio.h>
#include <string.h>

typedef uint32_t each_fn(daachorse *, const uint8_t *, size_t, daachorse_each *, void *);

/* The searches by a stream, and one that there is not. */
#define STREAM_EACH(name, search)                                                                              \
    static inline uint32_t name(daachorse *handle, const uint8_t *haystack, size_t len, daachorse_each *each,   \
            void *context) {                                                                                    \
        return daachorse_stream_each(handle, search, haystack, len, each, context);                             \
    }
STREAM_EACH(stream_find_each, DAACHORSE_FIND)
STREAM_EACH(stream_overlapping_each, DAACHORSE_OVERLAPPING)
STREAM_EACH(stream_no_suffix_each, DAACHORSE_NO_SUFFIX)
STREAM_EACH(stream_leftmost_each, DAACHORSE_LEFTMOST)
STREAM_EACH(stream_unknown_each, 4)
#undef STREAM_EACH

/* A haystack, the call that searches it, what that answers, and all matches that it passes on, each
 * as START-END=VALUE behind a space. Without patterns the handle is empty. */
typedef struct {
    uint32_t kind;
    const char *patterns, *haystack;
    each_fn *call;
    uint32_t answer;
    const char *found;
} each_row;

/* What was passed on. After so many matches it asks to stop, if stop is not 0. */
typedef struct {
    size_t stop, told;
    char text[512];
} each_told;

static inline int tell(void *context, daachorse_match found) {
    each_told *told = context;
    sprintf(told->text + strlen(told->text), " %zu-%zu=%u", found.start, found.end, (unsigned)found.value);
    told->told++;
    return told->told == told->stop ? -1 : 0;
}

/* Whether the call of a row does what the row says, if it is asked to stop after so many matches. */
static inline bool is_each_row(daachorse *handle, const each_row *row, size_t stop) {
    each_told told = {stop, 0, ""};
    const uint8_t *haystack = *row->haystack != '\0' ? (const uint8_t *)row->haystack : NULL;
    uint32_t answer = row->call(handle, haystack, strlen(row->haystack), tell, &told);
    const char *end = row->found;
    size_t count = 0;
    while (*end != '\0' && (stop == 0 || count < stop)) {
        end += 1 + strcspn(end + 1, " ");
        count++;
    }
    return answer == (stop > 0 && count == stop ? DAACHORSE_DONE : row->answer) && told.told == count
        && strlen(told.text) == (size_t)(end - row->found) && strncmp(told.text, row->found, strlen(told.text)) == 0;
}

/* The first matches that are to be passed on: those of each part of a haystack, one after another. */
typedef struct {
    const daachorse_match *part;
    size_t count, len, stop, told;
    bool differ;
} each_part;

static inline int compare(void *context, daachorse_match found) {
    each_part *parts = context;
    daachorse_match wanted = parts->part[parts->told % parts->count];
    size_t at = parts->told / parts->count * parts->len;
    parts->differ |= found.start != at + wanted.start || found.end != at + wanted.end || found.value != wanted.value;
    parts->told++;
    return parts->told == parts->stop;
}

/* Whether the call passes on the matches of so many parts, whether or not it is asked to stop. */
static inline bool is_each_part(daachorse *handle, each_fn *call, const uint8_t *haystack, size_t parts, each_part wanted) {
    size_t count = parts * wanted.count;
    uint32_t answer = call(handle, haystack, parts * wanted.len, compare, &wanted);
    return answer == DAACHORSE_DONE && !wanted.differ && wanted.told == (wanted.stop > 0 && wanted.stop < count ? wanted.stop : count);
}

#endif
