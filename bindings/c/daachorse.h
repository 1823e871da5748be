/* Many patterns searched at once, in bytes or in the characters of UTF-8.
 *
 * A handle begins as DAACHORSE_EMPTY. daachorse_build or daachorse_read fills it, the searches use
 * it, and daachorse_free empties it. Each call but daachorse_free and daachorse_version returns an
 * enum daachorse_answer: DAACHORSE_DONE, or why it was refused. No call stops the process.
 *
 * The caller must keep to this:
 *
 * - The field of a handle is neither read nor written. A handle may be copied, if from then on only
 *   one of the two is used, and freed.
 * - No pointer is null, but one with a length of 0 and that of daachorse_free. Each length is that
 *   of what its pointer points to. What a call writes to overlaps nothing else passed to the call,
 *   and needs no value before.
 * - A handle is used by one call at a time. If two threads use one at once, searches may find
 *   nothing, and the automaton may be lost. Calls with different handles may run at once, also if
 *   the handles share an automaton (daachorse_share): a thread each searches with a handle of its
 *   own. A handle may move to another thread, if a lock, a join or the like orders its calls after
 *   earlier ones.
 * - Memory comes from malloc and realloc, and goes back to free. They are of one allocator, which
 *   aligns a block to each power of two up to 16 that divides its size. No call is made in a signal
 *   handler, or in the forked child of a process with threads.
 *
 * All offsets and lengths are in bytes, unless stated otherwise. */
#ifndef DAACHORSE_H
#define DAACHORSE_H

#include <stdbool.h>
#include <stddef.h>
#include <stdint.h>
#include <stdlib.h>

/* The version of the Rust crate whose searches these are, as text and as daachorse_version returns
 * it. */
#define DAACHORSE_VERSION "5.1.0"
#define DAACHORSE_VERSION_NUMBER 50100

#ifdef __cplusplus
extern "C" {
#endif

/* Nothing, or an automaton, alone or shared with other handles. daachorse_free empties it, and
 * frees an automaton that no other handle has. */
typedef struct daachorse {
    void *opaque;
} daachorse;

#define DAACHORSE_EMPTY {NULL}

/* A match: the pattern with this value stands in the haystack from start to end, one past its last
 * byte. If the automaton ignores ASCII case, so does this. */
typedef struct daachorse_match {
    size_t start;
    size_t end;
    uint32_t value;
} daachorse_match;

/* The kinds of automata, by the searches that they serve. */
enum daachorse_kind {
    DAACHORSE_STANDARD = 0,         /* all searches but daachorse_leftmost_find */
    DAACHORSE_LEFTMOST_LONGEST = 1, /* daachorse_leftmost_find: the longest pattern at a start */
    DAACHORSE_LEFTMOST_FIRST = 2    /* daachorse_leftmost_find: the earliest pattern at a start */
};

/* What the patterns and haystacks of an automaton are made of. Over characters they are UTF-8, and
 * no match begins or ends inside a character: the empty pattern matches between characters alone. */
enum daachorse_unit {
    DAACHORSE_BYTES = 0,
    DAACHORSE_CHARACTERS = 1
};

/* The searches of streams. */
enum daachorse_search {
    DAACHORSE_FIND = 0,        /* the matches of daachorse_find */
    DAACHORSE_OVERLAPPING = 1, /* those of daachorse_find_overlapping */
    DAACHORSE_NO_SUFFIX = 2,   /* those of daachorse_find_overlapping_no_suffix */
    DAACHORSE_LEFTMOST = 3     /* those of daachorse_leftmost_find */
};

/* What the calls return. */
enum daachorse_answer {
    DAACHORSE_DONE = 0,
    DAACHORSE_OUT_OF_MEMORY = 1,     /* an allocation failed */
    DAACHORSE_EMPTY_HANDLE = 2,      /* the handle has no automaton */
    DAACHORSE_UNKNOWN_KIND = 3,      /* no kind has this number */
    DAACHORSE_WRONG_KIND = 4,        /* the search does not serve automata of this kind */
    DAACHORSE_WRONG_PATTERNS = 5,    /* ends fall or pass the bytes, or ends_len != values_len */
    DAACHORSE_PATTERN_TOO_LONG = 6,  /* a pattern has more than 4294967295 bytes */
    DAACHORSE_TOO_MANY_STATES = 7,   /* the patterns have more than 4294967295 prefixes */
    DAACHORSE_TOO_MANY_PATTERNS = 8, /* there are more than 16777215 patterns */
    DAACHORSE_TOO_MANY_ELEMENTS = 9, /* the double array would pass 4294967295 elements */
    DAACHORSE_INVALID_AUTOMATON = 10, /* the bytes do not begin with an automaton */
    DAACHORSE_NO_ROOM = 11,          /* the output is longer than the room for it */
    DAACHORSE_NO_STREAM = 12,        /* no stream was begun */
    DAACHORSE_STREAM_TOO_LONG = 13,  /* an offset or the number of matches would pass size_t */
    DAACHORSE_UNKNOWN_OPTION = 14,   /* an option is neither 0 nor 1, or a spare one is not 0 */
    DAACHORSE_WRONG_PLACE = 15,      /* a search would go on behind the haystack, or in a character */
    DAACHORSE_UNKNOWN_SEARCH = 16,   /* no search of a stream has this number */
    DAACHORSE_STREAM_ENDED = 17,     /* bytes come after the end of the stream */
    DAACHORSE_INVALID_UTF8 = 18      /* the automaton is over characters, and bytes are no UTF-8 */
};

/* The options of a build. One that is all 0 asks for the standard kind, over bytes, with a
 * prefilter, and regards case. */
typedef struct daachorse_options {
    uint32_t kind;                   /* an enum daachorse_kind */
    uint32_t no_prefilter;           /* 1: searches do not skip places where no pattern begins */
    uint32_t ascii_case_insensitive; /* 1: A to Z are read as a to z */
    uint32_t unit;                   /* an enum daachorse_unit */
    uint32_t spare[4];               /* 0 */
} daachorse_options;

/* How much an automaton holds. */
typedef struct daachorse_counts {
    size_t patterns; /* where equal ones count each */
    size_t states;   /* one for each prefix of a pattern, the empty one included */
    size_t size;     /* the length of what daachorse_write writes */
    size_t longest;  /* the bytes of the longest pattern, or 0 if there is none */
} daachorse_counts;

/* Where daachorse_find_on goes on. One that is all 0 is the beginning. Others come from calls. */
typedef struct daachorse_place {
    size_t at;  /* the offset from which it goes on */
    bool after; /* whether a nonempty match ends there */
    bool over;  /* whether no match is left */
} daachorse_place;

/* What an answer means, as text. */
static inline const char *daachorse_answer_text(uint32_t answer) {
    switch (answer) {
    case DAACHORSE_DONE: return "done";
    case DAACHORSE_OUT_OF_MEMORY: return "an allocation failed";
    case DAACHORSE_EMPTY_HANDLE: return "the handle has no automaton";
    case DAACHORSE_UNKNOWN_KIND: return "no kind has this number";
    case DAACHORSE_WRONG_KIND: return "the search does not serve automata of this kind";
    case DAACHORSE_WRONG_PATTERNS: return "ends fall or pass the bytes, or are not as many as the values";
    case DAACHORSE_PATTERN_TOO_LONG: return "a pattern has more than 4294967295 bytes";
    case DAACHORSE_TOO_MANY_STATES: return "the patterns have too many prefixes";
    case DAACHORSE_TOO_MANY_PATTERNS: return "there are too many patterns";
    case DAACHORSE_TOO_MANY_ELEMENTS: return "the double array would have too many elements";
    case DAACHORSE_INVALID_AUTOMATON: return "the bytes do not begin with an automaton";
    case DAACHORSE_NO_ROOM: return "the output is longer than the room for it";
    case DAACHORSE_NO_STREAM: return "no stream was begun";
    case DAACHORSE_STREAM_TOO_LONG: return "an offset or the number of matches would pass 64 bits";
    case DAACHORSE_UNKNOWN_OPTION: return "an option is neither 0 nor 1, or a spare one is not 0";
    case DAACHORSE_WRONG_PLACE: return "a search would go on behind the haystack, or in a character";
    case DAACHORSE_UNKNOWN_SEARCH: return "no search of a stream has this number";
    case DAACHORSE_STREAM_ENDED: return "bytes come after the end of the stream";
    case DAACHORSE_INVALID_UTF8: return "the automaton is over characters, and bytes are no UTF-8";
    default: return "no answer of this library";
    }
}

/* Fills the handle with an automaton over bytes, of this kind, and frees what it held. Pattern i,
 * counted from 0, stands in bytes from ends[i - 1], or 0 for the first, up to ends[i], exclusive,
 * and has the value values[i]. Patterns may be empty, and equal ones are all kept. use_prefilter
 * lets searches skip places where no pattern begins, and changes no result. With
 * ascii_case_insensitive, A to Z, and no other bytes, are read as a to z in the patterns, in all
 * haystacks and in streams, so that "Ab" matches ab, aB, Ab and AB. Patterns that differ only in
 * case are then equal.
 *
 * Returns DAACHORSE_DONE or, with the handle unchanged, DAACHORSE_OUT_OF_MEMORY, _UNKNOWN_KIND,
 * _WRONG_PATTERNS, _PATTERN_TOO_LONG, _TOO_MANY_STATES, _TOO_MANY_PATTERNS or
 * _TOO_MANY_ELEMENTS. */
uint32_t daachorse_build(daachorse *handle, uint32_t kind, bool use_prefilter, bool ascii_case_insensitive,
        const uint8_t *bytes, size_t bytes_len, const size_t *ends, size_t ends_len, const uint32_t *values,
        size_t values_len);

/* Does what daachorse_build does, with the options in a struct. Over characters it takes time as the
 * square of the number of different characters in the patterns, if these are many. It may return
 * DAACHORSE_UNKNOWN_OPTION besides, or DAACHORSE_INVALID_UTF8 if the automaton is to be over
 * characters and a pattern is no UTF-8, with the handle unchanged.
 *
 * Each call below that searches a haystack with an automaton over characters returns
 * DAACHORSE_INVALID_UTF8 if it is no UTF-8, and then does what it does for an empty handle. Calls
 * that go by a stream say what they do. */
uint32_t daachorse_build_with(daachorse *handle, const daachorse_options *options, const uint8_t *bytes,
        size_t bytes_len, const size_t *ends, size_t ends_len, const uint32_t *values, size_t values_len);

/* Empties the handle, and frees the automaton if no other handle has it. */
void daachorse_free(daachorse *handle);

/* Returns 10000 times the major version, 100 times the minor one and the patch of the library. */
uint32_t daachorse_version(void);

/* Writes the kind of the automaton, and whether it ignores ASCII case. It allocates nothing.
 * Returns DAACHORSE_DONE or, with both unchanged, DAACHORSE_EMPTY_HANDLE. */
uint32_t daachorse_kind(daachorse *handle, uint32_t *kind, bool *ascii_case_insensitive);

/* Counts what the automaton holds. It walks over all patterns twice, as daachorse_list does once, and
 * writes the automaton to memory that it frees. Returns DAACHORSE_DONE or, with counts unchanged,
 * DAACHORSE_EMPTY_HANDLE or DAACHORSE_OUT_OF_MEMORY. */
uint32_t daachorse_count(daachorse *handle, daachorse_counts *counts);

/* Turns the places of matches, in bytes, into places in characters of a text in UTF-8. The places
 * count from origin, and so many bytes and characters come before the text, of which all from there
 * to the last place are given. An empty match inside a character ends before that character, and
 * starts after it. Where ends rise, it takes time linear in the text and in what matches it. */
void daachorse_to_characters(const uint8_t *text, size_t text_len, size_t bytes, size_t characters, size_t origin,
        daachorse_match *matches, size_t matches_len);

/* Fills other with the automaton of the handle, and frees what it held. Nothing is copied: a few
 * words are allocated. Each handle has a stream of its own, and other has none at first. Returns
 * DAACHORSE_DONE or, with other unchanged, DAACHORSE_EMPTY_HANDLE or DAACHORSE_OUT_OF_MEMORY. */
uint32_t daachorse_share(daachorse *handle, daachorse *other);

/* Fills other with a copy of the automaton that has rows of the states near its root, and frees
 * what it held. Searches of a whole haystack find the same, faster if patterns are few and short.
 * The rows take at most 319,484 bytes, and 2 for each element of the automaton. If more than 485
 * texts of at most two bytes begin patterns, or over characters more than 196 of at most two
 * characters, the copy may have none. It takes time linear in the automaton's size, however many
 * patterns it has. Returns DAACHORSE_DONE or, with other unchanged, DAACHORSE_EMPTY_HANDLE or
 * DAACHORSE_OUT_OF_MEMORY. */
uint32_t daachorse_accelerate(daachorse *handle, daachorse *other);

/* The searches write their first matches to out, as many as there is room for, and their number to
 * written. If that is out_len, there may be more: call again with more room. They allocate nothing,
 * and take time linear in the haystack and the matches, but for daachorse_leftmost_find.
 * They return DAACHORSE_DONE or, with out unchanged and 0 in written, DAACHORSE_EMPTY_HANDLE or
 * DAACHORSE_WRONG_KIND. */

/* Matches that do not overlap, each ending as early as possible, the longest of those that end
 * there. */
uint32_t daachorse_find(daachorse *handle, const uint8_t *haystack, size_t haystack_len, daachorse_match *out,
        size_t out_len, size_t *written);

/* Every match, by ascending ends, the longest first of those that end together. */
uint32_t daachorse_find_overlapping(daachorse *handle, const uint8_t *haystack, size_t haystack_len,
        daachorse_match *out, size_t out_len, size_t *written);

/* The longest match at each end. */
uint32_t daachorse_find_overlapping_no_suffix(daachorse *handle, const uint8_t *haystack, size_t haystack_len,
        daachorse_match *out, size_t out_len, size_t *written);

/* Matches that do not overlap, each starting as early as possible, for automata of the leftmost
 * kinds. It may read as many bytes behind each match as the longest pattern has, so it takes at
 * most the time of the matches times that length: patterns of strangers may make it slow. */
uint32_t daachorse_leftmost_find(daachorse *handle, const uint8_t *haystack, size_t haystack_len,
        daachorse_match *out, size_t out_len, size_t *written);

/* Goes on, where an earlier call left the place, with the search of daachorse_find, or for an
 * automaton of a leftmost kind with that of daachorse_leftmost_find, and moves the place behind the
 * last match written. The haystack is the same in all calls. If written is less than out_len, every
 * match was reported; else call again. The calls together read what one search of the whole reads,
 * and take a few steps more for each match, whatever out_len is. Over characters each call also
 * reads the whole haystack, to see that it is UTF-8: with little room many calls take the square of
 * its length (daachorse_find_each does not). They allocate nothing. Returns DAACHORSE_DONE
 * or, with place and out unchanged and 0 in written, DAACHORSE_EMPTY_HANDLE, or
 * DAACHORSE_WRONG_PLACE if the place is behind the haystack or inside a character. The other
 * searches go on by a stream (daachorse_begin). */
uint32_t daachorse_find_on(daachorse *handle, const uint8_t *haystack, size_t haystack_len, daachorse_place *place,
        daachorse_match *out, size_t out_len, size_t *written);

/* The patterns that are the whole text, in order of registration, and those that begin it, the
 * shortest first. Both serve automata of every kind. */
uint32_t daachorse_get(daachorse *handle, const uint8_t *text, size_t text_len, daachorse_match *out,
        size_t out_len, size_t *written);
uint32_t daachorse_common_prefixes(daachorse *handle, const uint8_t *text, size_t text_len, daachorse_match *out,
        size_t out_len, size_t *written);

/* Writes to found whether some pattern occurs in the haystack. It serves automata of every kind,
 * and allocates nothing. Returns DAACHORSE_DONE or, with false in found, DAACHORSE_EMPTY_HANDLE. */
uint32_t daachorse_is_match(daachorse *handle, const uint8_t *haystack, size_t haystack_len, bool *found);

/* Writes the haystack, with its matches replaced, to the front of out, and the length of the whole
 * to size, or SIZE_MAX if it is longer. The matches are those of daachorse_find, or for a leftmost
 * kind those of daachorse_leftmost_find. Text i, counted from 0, stands in bytes from ends[i - 1],
 * or 0 for the first, up to ends[i], exclusive. It replaces the matches with the value i, and a
 * match whose value is ends_len or more stays as it is. The call allocates nothing, and takes time
 * linear in the haystack, the ends and out_len, but with a leftmost kind that of
 * daachorse_leftmost_find and of copying.
 *
 * Returns DAACHORSE_DONE or, with out unchanged and 0 in size, DAACHORSE_EMPTY_HANDLE, or
 * DAACHORSE_WRONG_PATTERNS if ends fall or pass the bytes, or, with the first out_len bytes of the
 * whole in out, DAACHORSE_NO_ROOM. */
uint32_t daachorse_replace(daachorse *handle, const uint8_t *haystack, size_t haystack_len, const uint8_t *bytes,
        size_t bytes_len, const size_t *ends, size_t ends_len, uint8_t *out, size_t out_len, size_t *size);

/* A stream is a haystack that comes in pieces. Matches may cross pieces, and offsets count from the
 * beginning of the stream. A handle has at most one, which daachorse_build, daachorse_read and
 * daachorse_free end and the searches leave as it is: for more streams at once share the automaton
 * with a handle each. Pieces need not be kept after the call. */

/* Begins a stream for the matches of a search, an enum daachorse_search, and drops a previous one.
 * It allocates nothing, but for DAACHORSE_LEFTMOST a byte for each element of the automaton and one,
 * or over characters four, for each byte of the longest pattern. For DAACHORSE_LEFTMOST it also takes
 * time linear in the automaton's size, and memory that is freed before the call returns. Returns
 * DAACHORSE_DONE or, with the handle unchanged, DAACHORSE_EMPTY_HANDLE, DAACHORSE_UNKNOWN_SEARCH,
 * DAACHORSE_OUT_OF_MEMORY, or DAACHORSE_WRONG_KIND if the search does not serve the automaton. */
uint32_t daachorse_begin(daachorse *handle, uint32_t search);

/* Fills other with the automaton of the handle, as daachorse_share does, and begins a stream there, as
 * daachorse_begin does. If it is refused, other is unchanged or empty. */
static inline uint32_t daachorse_stream(daachorse *handle, uint32_t search, daachorse *other) {
    uint32_t answer = daachorse_share(handle, other);
    if (answer == DAACHORSE_DONE && (answer = daachorse_begin(other, search)) != DAACHORSE_DONE)
        daachorse_free(other);
    return answer;
}

/* Feeds bytes to the stream, as few as one, and writes its next matches to out, the number of bytes
 * consumed to taken, and that of matches to written. If written is less than out_len, all bytes
 * were consumed and every match so far was reported. If it is out_len, call again with the bytes
 * after the first taken, even if there are none: no match is lost.
 *
 * Over characters a piece may end inside a character: a match is reported when its last byte came.
 * Bytes with which no character begins are not consumed, nor those after them, even if written is
 * less than out_len. A call with them is then refused.
 *
 * A match of DAACHORSE_LEFTMOST is reported as soon as it is certain: as soon as no byte, or over
 * characters no character, that follows can change it. So some are reported only after the end
 * (daachorse_end).
 *
 * The call allocates nothing. The calls take time linear in the bytes and the matches, whatever
 * out_len is, but for DAACHORSE_LEFTMOST at most the length of the longest pattern more for each
 * match and each call. Returns DAACHORSE_DONE or, with the stream and out unchanged and 0 in taken
 * and written, DAACHORSE_EMPTY_HANDLE, DAACHORSE_NO_STREAM, DAACHORSE_STREAM_TOO_LONG,
 * DAACHORSE_STREAM_ENDED if bytes come after the end, or DAACHORSE_INVALID_UTF8 if no character
 * begins with the first byte, behind the bytes of one that has begun. */
uint32_t daachorse_consume(daachorse *handle, const uint8_t *bytes, size_t bytes_len, daachorse_match *out,
        size_t out_len, size_t *taken, size_t *written);

/* Ends the stream: no more bytes come. daachorse_consume with no bytes then reports the matches that
 * were left, all of them if it writes less than out_len. Returns DAACHORSE_DONE or, with the handle
 * unchanged, DAACHORSE_EMPTY_HANDLE, DAACHORSE_NO_STREAM, or DAACHORSE_INVALID_UTF8 inside a
 * character. */
uint32_t daachorse_end(daachorse *handle);

/* Writes the automaton to the front of out, and its length to size. daachorse_read_with reads it
 * back, with its kind and whether it ignores ASCII case, if it is told the unit. Returns
 * DAACHORSE_DONE or, with out unchanged, DAACHORSE_EMPTY_HANDLE or DAACHORSE_OUT_OF_MEMORY, with 0
 * in size, or DAACHORSE_NO_ROOM, with the length needed in size. */
uint32_t daachorse_write(daachorse *handle, uint8_t *out, size_t out_len, size_t *size);

/* Writes the automaton's patterns to the fronts of bytes, ends and values, in the form that
 * daachorse_build takes: in byte order, equal ones in order of registration. The number of their
 * bytes is written to size, and that of patterns to count. An automaton of the kind
 * DAACHORSE_LEFTMOST_FIRST holds no pattern that extends one registered before it, and one that
 * ignores ASCII case holds a to z in place of A to Z. Memory for a walk over the automaton is
 * allocated, with a copy of the patterns for which there is room, and freed before the call
 * returns. The time is linear in the bytes of all patterns: an automaton of a stranger may list
 * many for each of its own bytes.
 *
 * Returns DAACHORSE_DONE or, with bytes, ends and values unchanged, DAACHORSE_EMPTY_HANDLE or
 * DAACHORSE_OUT_OF_MEMORY, with 0 in size and count, or DAACHORSE_NO_ROOM, with the room needed:
 * size in bytes, and count in ends and in values. */
uint32_t daachorse_list(daachorse *handle, uint8_t *bytes, size_t bytes_len, size_t *ends, size_t ends_len,
        uint32_t *values, size_t values_len, size_t *size, size_t *count);

/* Fills the handle with the automaton over bytes that the bytes begin with, frees what it held,
 * and writes the automaton's length to taken. The bytes may be untrusted. Returns DAACHORSE_DONE
 * or, with the handle unchanged and 0 in taken, DAACHORSE_OUT_OF_MEMORY or
 * DAACHORSE_INVALID_AUTOMATON. */
uint32_t daachorse_read(daachorse *handle, const uint8_t *bytes, size_t bytes_len, size_t *taken);

/* Does what daachorse_read does for an automaton over this unit, an enum daachorse_unit. What was
 * written does not tell its unit: read over another it is refused, or is another automaton. It may
 * return DAACHORSE_UNKNOWN_OPTION besides, with the handle unchanged and 0 in taken. */
uint32_t daachorse_read_with(daachorse *handle, uint32_t unit, const uint8_t *bytes, size_t bytes_len, size_t *taken);

/* The calls above as C uses them: a null pointer with a length of 0 becomes one that is not null,
 * and a number that the library writes has a value before. */

static inline const void *daachorse_some(const void *at) {
    static const size_t none = 0;
    return at != NULL ? at : &none;
}

static inline void *daachorse_room(void *at) {
    static size_t none = 0;
    return at != NULL ? at : &none;
}

static inline uint32_t daachorse_build_in_c(daachorse *handle, uint32_t kind, bool use_prefilter,
        bool ascii_case_insensitive, const uint8_t *bytes, size_t bytes_len, const size_t *ends, size_t ends_len,
        const uint32_t *values, size_t values_len) {
    return daachorse_build(handle, kind, use_prefilter, ascii_case_insensitive, (const uint8_t *)daachorse_some(bytes),
            bytes_len, (const size_t *)daachorse_some(ends), ends_len, (const uint32_t *)daachorse_some(values),
            values_len);
}
#define daachorse_build daachorse_build_in_c

static inline uint32_t daachorse_build_with_in_c(daachorse *handle, const daachorse_options *options,
        const uint8_t *bytes, size_t bytes_len, const size_t *ends, size_t ends_len, const uint32_t *values,
        size_t values_len) {
    return daachorse_build_with(handle, options, (const uint8_t *)daachorse_some(bytes), bytes_len,
            (const size_t *)daachorse_some(ends), ends_len, (const uint32_t *)daachorse_some(values), values_len);
}
#define daachorse_build_with daachorse_build_with_in_c

static inline void daachorse_free_in_c(daachorse *handle) {
    if (handle != NULL)
        daachorse_free(handle);
}
#define daachorse_free daachorse_free_in_c

static inline uint32_t daachorse_kind_in_c(daachorse *handle, uint32_t *kind, bool *ascii_case_insensitive) {
    uint32_t its_kind = 0;
    bool ignores_case = false;
    uint32_t answer = daachorse_kind(handle, &its_kind, &ignores_case);
    if (answer == DAACHORSE_DONE) {
        *kind = its_kind;
        *ascii_case_insensitive = ignores_case;
    }
    return answer;
}
#define daachorse_kind daachorse_kind_in_c

static inline void daachorse_to_characters_in_c(const uint8_t *text, size_t text_len, size_t bytes, size_t characters,
        size_t origin, daachorse_match *matches, size_t matches_len) {
    if (matches_len > 0)
        daachorse_to_characters((const uint8_t *)daachorse_some(text), text_len, bytes, characters, origin, matches, matches_len);
}
#define daachorse_to_characters daachorse_to_characters_in_c

#define DAACHORSE_SEARCH_IN_C(search)                                                                                \
    static inline uint32_t search##_in_c(daachorse *handle, const uint8_t *haystack, size_t haystack_len,             \
            daachorse_match *out, size_t out_len, size_t *written) {                                                  \
        *written = 0;                                                                                                 \
        return search(handle, (const uint8_t *)daachorse_some(haystack), haystack_len,                                \
                (daachorse_match *)daachorse_room(out), out_len, written);                                            \
    }
DAACHORSE_SEARCH_IN_C(daachorse_find)
DAACHORSE_SEARCH_IN_C(daachorse_find_overlapping)
DAACHORSE_SEARCH_IN_C(daachorse_find_overlapping_no_suffix)
DAACHORSE_SEARCH_IN_C(daachorse_leftmost_find)
DAACHORSE_SEARCH_IN_C(daachorse_get)
DAACHORSE_SEARCH_IN_C(daachorse_common_prefixes)
#undef DAACHORSE_SEARCH_IN_C
#define daachorse_find daachorse_find_in_c
#define daachorse_find_overlapping daachorse_find_overlapping_in_c
#define daachorse_find_overlapping_no_suffix daachorse_find_overlapping_no_suffix_in_c
#define daachorse_leftmost_find daachorse_leftmost_find_in_c
#define daachorse_get daachorse_get_in_c
#define daachorse_common_prefixes daachorse_common_prefixes_in_c

static inline uint32_t daachorse_find_on_in_c(daachorse *handle, const uint8_t *haystack, size_t haystack_len,
        daachorse_place *place, daachorse_match *out, size_t out_len, size_t *written) {
    *written = 0;
    return daachorse_find_on(handle, (const uint8_t *)daachorse_some(haystack), haystack_len, place,
            (daachorse_match *)daachorse_room(out), out_len, written);
}
#define daachorse_find_on daachorse_find_on_in_c

static inline uint32_t daachorse_is_match_in_c(daachorse *handle, const uint8_t *haystack, size_t haystack_len,
        bool *found) {
    *found = false;
    return daachorse_is_match(handle, (const uint8_t *)daachorse_some(haystack), haystack_len, found);
}
#define daachorse_is_match daachorse_is_match_in_c

static inline uint32_t daachorse_replace_in_c(daachorse *handle, const uint8_t *haystack, size_t haystack_len,
        const uint8_t *bytes, size_t bytes_len, const size_t *ends, size_t ends_len, uint8_t *out, size_t out_len,
        size_t *size) {
    *size = 0;
    return daachorse_replace(handle, (const uint8_t *)daachorse_some(haystack), haystack_len,
            (const uint8_t *)daachorse_some(bytes), bytes_len, (const size_t *)daachorse_some(ends), ends_len,
            (uint8_t *)daachorse_room(out), out_len, size);
}
#define daachorse_replace daachorse_replace_in_c

static inline uint32_t daachorse_consume_in_c(daachorse *handle, const uint8_t *bytes, size_t bytes_len,
        daachorse_match *out, size_t out_len, size_t *taken, size_t *written) {
    *taken = *written = 0;
    return daachorse_consume(handle, (const uint8_t *)daachorse_some(bytes), bytes_len,
            (daachorse_match *)daachorse_room(out), out_len, taken, written);
}
#define daachorse_consume daachorse_consume_in_c

static inline uint32_t daachorse_write_in_c(daachorse *handle, uint8_t *out, size_t out_len, size_t *size) {
    *size = 0;
    return daachorse_write(handle, (uint8_t *)daachorse_room(out), out_len, size);
}
#define daachorse_write daachorse_write_in_c

static inline uint32_t daachorse_list_in_c(daachorse *handle, uint8_t *bytes, size_t bytes_len, size_t *ends,
        size_t ends_len, uint32_t *values, size_t values_len, size_t *size, size_t *count) {
    *size = *count = 0;
    return daachorse_list(handle, (uint8_t *)daachorse_room(bytes), bytes_len, (size_t *)daachorse_room(ends), ends_len,
            (uint32_t *)daachorse_room(values), values_len, size, count);
}
#define daachorse_list daachorse_list_in_c

static inline uint32_t daachorse_read_in_c(daachorse *handle, const uint8_t *bytes, size_t bytes_len, size_t *taken) {
    *taken = 0;
    return daachorse_read(handle, (const uint8_t *)daachorse_some(bytes), bytes_len, taken);
}
#define daachorse_read daachorse_read_in_c

static inline uint32_t daachorse_read_with_in_c(daachorse *handle, uint32_t unit, const uint8_t *bytes, size_t bytes_len,
        size_t *taken) {
    *taken = 0;
    return daachorse_read_with(handle, unit, (const uint8_t *)daachorse_some(bytes), bytes_len, taken);
}
#define daachorse_read_with daachorse_read_with_in_c

/* Calls that pass each match to a function of the caller's, in order, until it returns other than 0.
 * They need no room, and find what the search of that name finds in a haystack of any length. One
 * that is stopped so returns DAACHORSE_DONE, whatever comes behind. A stream of the handle stays as
 * it was. */

/* Gets what the caller passed as context, and a match. Returns 0 to go on. A jump out of it in place
 * of a return leaves memory behind. */
typedef int daachorse_each(void *context, daachorse_match found);

enum { DAACHORSE_EACH_ROOM = 64 };

/* Passes on matches, and returns whether a call asked to stop. */
static inline bool daachorse_pass(const daachorse_match *found, size_t count, daachorse_each *each, void *context) {
    for (size_t i = 0; i < count; i++)
        if (each(context, found[i]) != 0)
            return true;
    return false;
}

/* Passes on the next matches, at most so many, and sets whether more may follow. */
static inline uint32_t daachorse_find_on_each(daachorse *handle, const uint8_t *haystack, size_t haystack_len,
        daachorse_place *place, daachorse_match *found, size_t room, daachorse_each *each, void *context, bool *goes_on) {
    size_t written;
    uint32_t answer = daachorse_find_on(handle, haystack, haystack_len, place, found, room, &written);
    *goes_on = !daachorse_pass(found, written, each, context) && written == room;
    return answer;
}

/* Whether the automaton is over characters: then it reads no byte that begins none. */
static inline bool daachorse_is_over_characters(daachorse *handle) {
    const uint8_t no_text = 0x80;
    bool found;
    return daachorse_is_match(handle, &no_text, 1, &found) == DAACHORSE_INVALID_UTF8;
}

/* daachorse_find, or for an automaton of a leftmost kind daachorse_leftmost_find, in their time.
 * Returns what daachorse_find_on does, and passes no match on if it is refused. It allocates nothing,
 * but over characters, if there are 64 matches or more, room for one for each 64 bytes of the
 * haystack, which is freed before it returns. If that is refused it goes on without, and takes time
 * as the product of the haystack and the matches. */
static inline uint32_t daachorse_find_each(daachorse *handle, const uint8_t *haystack, size_t haystack_len,
        daachorse_each *each, void *context) {
    daachorse_place place = {0, false, false};
    daachorse_match few[DAACHORSE_EACH_ROOM], *many = NULL, *found = few;
    size_t room = DAACHORSE_EACH_ROOM, more = haystack_len / DAACHORSE_EACH_ROOM;
    bool goes_on;
    uint32_t answer = daachorse_find_on_each(handle, haystack, haystack_len, &place, found, room, each, context, &goes_on);
    /* Over characters each call reads the whole haystack, so few calls are to find the rest. */
    if (goes_on && more > room && daachorse_is_over_characters(handle))
        many = (daachorse_match *)malloc(more * sizeof *many);
    if (many != NULL) {
        found = many;
        room = more;
    }
    while (goes_on)
        answer = daachorse_find_on_each(handle, haystack, haystack_len, &place, found, room, each, context, &goes_on);
    free(many);
    return answer;
}

/* Passes on what a stream reports of these bytes, and sets whether a call asked to stop. */
static inline uint32_t daachorse_consume_each(daachorse *stream, const uint8_t *bytes, size_t bytes_len,
        daachorse_each *each, void *context, bool *stopped) {
    daachorse_match found[DAACHORSE_EACH_ROOM];
    size_t at = 0, taken, written;
    uint32_t answer;
    do {
        const uint8_t *rest = bytes != NULL ? bytes + at : NULL;
        answer = daachorse_consume(stream, rest, bytes_len - at, found, DAACHORSE_EACH_ROOM, &taken, &written);
        at += taken;
        *stopped = daachorse_pass(found, written, each, context);
    } while (answer == DAACHORSE_DONE && !*stopped && (written == DAACHORSE_EACH_ROOM || at < bytes_len));
    return answer;
}

/* The matches of a search of streams, by a stream of its own, which takes what daachorse_stream takes
 * and is freed. Returns what daachorse_stream, daachorse_consume and daachorse_end do. If that is
 * DAACHORSE_INVALID_UTF8, the matches that were certain before the wrong bytes, or before the
 * character in which the haystack ends, were passed on. */
static inline uint32_t daachorse_stream_each(daachorse *handle, uint32_t search, const uint8_t *haystack,
        size_t haystack_len, daachorse_each *each, void *context) {
    daachorse stream = DAACHORSE_EMPTY;
    bool stopped = false;
    uint32_t answer = daachorse_stream(handle, search, &stream);
    if (answer == DAACHORSE_DONE)
        answer = daachorse_consume_each(&stream, haystack, haystack_len, each, context, &stopped);
    if (answer == DAACHORSE_DONE && !stopped)
        answer = daachorse_end(&stream);
    if (answer == DAACHORSE_DONE && !stopped)
        answer = daachorse_consume_each(&stream, NULL, 0, each, context, &stopped);
    daachorse_free(&stream);
    return answer;
}

/* daachorse_find_overlapping and daachorse_find_overlapping_no_suffix, as daachorse_stream_each. */
static inline uint32_t daachorse_find_overlapping_each(daachorse *handle, const uint8_t *haystack, size_t haystack_len,
        daachorse_each *each, void *context) {
    return daachorse_stream_each(handle, DAACHORSE_OVERLAPPING, haystack, haystack_len, each, context);
}

static inline uint32_t daachorse_find_overlapping_no_suffix_each(daachorse *handle, const uint8_t *haystack,
        size_t haystack_len, daachorse_each *each, void *context) {
    return daachorse_stream_each(handle, DAACHORSE_NO_SUFFIX, haystack, haystack_len, each, context);
}

#ifdef __cplusplus
}
#endif

#endif
