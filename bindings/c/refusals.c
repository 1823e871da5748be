/* Refuses each allocation of each call that allocates in turn. The call must return
 * DAACHORSE_OUT_OF_MEMORY, change nothing and leak nothing, but for daachorse_find_each, which goes
 * on without. Link with -Wl,--wrap=malloc,--wrap=realloc. */
#include "daachorse.h"

#include <stdio.h>
#include <stdlib.h>

void *__real_malloc(size_t size);
void *__real_realloc(void *block, size_t size);

/* How many more requests are granted. */
static size_t granted;

static bool grants(void) {
    if (granted == 0)
        return false;
    granted--;
    return true;
}

void *__wrap_malloc(size_t size) {
    return grants() ? __real_malloc(size) : NULL;
}

void *__wrap_realloc(void *block, size_t size) {
    return grants() ? __real_realloc(block, size) : NULL;
}

static void need(bool holds, const char *what) {
    if (!holds) {
        fprintf(stderr, "not as it should be: %s\n", what);
        exit(1);
    }
}

static const uint8_t bytes[] = "ababcdbccd";
static const size_t ends[] = {2, 6, 8, 10};
static const uint32_t values[] = {0, 1, 2, 3};
static uint8_t form[1 << 17];
static size_t form_len;

static uint32_t build(daachorse *handle) {
    return daachorse_build(handle, DAACHORSE_STANDARD, true, false, bytes, 10, ends, 4, values, 4);
}

static uint32_t build_for_any_case(daachorse *handle) {
    return daachorse_build(handle, DAACHORSE_STANDARD, true, true, bytes, 10, ends, 4, values, 4);
}

static uint32_t begin_leftmost(daachorse *handle) {
    return daachorse_begin(handle, DAACHORSE_LEFTMOST);
}

static uint32_t write_form(daachorse *handle) {
    return daachorse_write(handle, form, sizeof form, &form_len);
}

static uint32_t read_form(daachorse *handle) {
    size_t taken = 0;
    return daachorse_read(handle, form, form_len, &taken);
}

/* Holds the automaton that is shared. */
static daachorse full = DAACHORSE_EMPTY;

static uint32_t share(daachorse *handle) {
    return daachorse_share(&full, handle);
}

static uint32_t accelerate(daachorse *handle) {
    return daachorse_accelerate(&full, handle);
}

static uint32_t count(daachorse *handle) {
    daachorse_counts counts = {7, 7, 7, 7};
    uint32_t answer = daachorse_count(handle, &counts);
    bool done = answer == DAACHORSE_DONE;
    need(counts.patterns == (done ? 4 : 7) && counts.states == (done ? 9 : 7), "the counts");
    return answer;
}

static uint32_t list_patterns(daachorse *handle) {
    uint8_t room[10] = {7};
    size_t room_for_ends[4] = {7}, size = 7, count = 7;
    uint32_t room_for_values[4] = {7};
    uint32_t answer = daachorse_list(handle, room, 10, room_for_ends, 4, room_for_values, 4, &size, &count);
    bool done = answer == DAACHORSE_DONE;
    need(size == (done ? 10 : 0) && count == (done ? 4 : 0), "the size of a listing");
    need(room[0] == (done ? 'a' : 7) && room_for_ends[0] == (done ? 2 : 7) && room_for_values[0] == (done ? 0 : 7), "a listing");
    return answer;
}

static int count_passed(void *context, daachorse_match found) {
    size_t *passed = context;
    need(found.start == 2 * *passed && found.end == found.start + 2 && found.value == 0, "a match passed on");
    ++*passed;
    return 0;
}

static uint32_t pass_on(daachorse *handle) {
    size_t passed = 0;
    uint32_t answer = daachorse_stream_each(handle, DAACHORSE_LEFTMOST, bytes, 2, count_passed, &passed);
    need(passed == (answer == DAACHORSE_DONE ? 1 : 0), "what a stream passed on");
    return answer;
}

/* daachorse_find_each passes on the same with memory and without, and over bytes asks for none. */
static void pass_on_without_memory(uint32_t unit, size_t requests) {
    static uint8_t text[10000];
    const daachorse_options options = {.unit = unit};
    const size_t end = 2;
    daachorse handle = DAACHORSE_EMPTY;
    for (size_t i = 0; i < sizeof text; i++)
        text[i] = i % 2 ? 0xa9 : 0xc3;
    need(daachorse_build_with(&handle, &options, text, 2, &end, 1, values, 1) == DAACHORSE_DONE, "build");
    for (size_t grants = 0; grants <= 2; grants++) {
        size_t passed = 0, left = grants < requests ? 0 : grants - requests;
        granted = grants;
        need(daachorse_find_each(&handle, text, sizeof text, count_passed, &passed) == DAACHORSE_DONE, "a search for each match");
        need(passed == sizeof text / 2 && granted == left, "the matches passed on");
    }
    granted = (size_t)-1;
    daachorse_free(&handle);
}

/* Makes the call with 0, 1, 2 and so on requests granted, until it succeeds. */
static void refuse_each(const char *name, uint32_t (*call)(daachorse *), daachorse *handle) {
    size_t refused = 0;
    for (;; refused++) {
        granted = refused;
        uint32_t answer = call(handle);
        if (answer == DAACHORSE_DONE)
            break;
        need(answer == DAACHORSE_OUT_OF_MEMORY, name);
    }
    need(refused > 0, "no request was refused");
    granted = (size_t)-1;
    printf("%s: %zu refusals\n", name, refused);
}

int main(void) {
    daachorse handle = DAACHORSE_EMPTY, again = DAACHORSE_EMPTY;
    bool found = false;
    refuse_each("build", build, &handle);
    refuse_each("build for any case", build_for_any_case, &handle);
    refuse_each("write", write_form, &handle);
    refuse_each("list", list_patterns, &handle);
    refuse_each("count", count, &handle);
    need(build_for_any_case(&full) == DAACHORSE_DONE, "build");
    refuse_each("share", share, &again);
    need(daachorse_is_match(&again, (const uint8_t *)"xCdx", 4, &found) == DAACHORSE_DONE && found, "a shared one");
    refuse_each("accelerate", accelerate, &again);
    daachorse_free(&full);
    need(daachorse_is_match(&again, (const uint8_t *)"xCdx", 4, &found) == DAACHORSE_DONE && found, "one with rows");
    need(daachorse_build(&full, DAACHORSE_LEFTMOST_LONGEST, true, false, bytes, 10, ends, 4, values, 4) == DAACHORSE_DONE, "build");
    refuse_each("begin", begin_leftmost, &full);
    refuse_each("stream_each", pass_on, &full);
    pass_on_without_memory(DAACHORSE_BYTES, 0);
    pass_on_without_memory(DAACHORSE_CHARACTERS, 1);
    daachorse_free(&full);
    refuse_each("read", read_form, &again);
    need(daachorse_is_match(&again, (const uint8_t *)"xCdx", 4, &found) == DAACHORSE_DONE && found, "is_match");
    daachorse_free(&handle);
    daachorse_free(&again);
    return 0;
}
