/* Reports the matches of as many equal patterns as its second argument says, one at a time, if the
 * first is patterns, and if it is text those of a pattern in as many characters, by calls for each.
 * If it is form it reads a form of as many texts that share as many values, accelerates it, and
 * begins a stream for leftmost matches. build.sh counts its steps by valgrind: twice the number may
 * take about twice the steps. */
#include "daachorse.h"

#include <stdio.h>
#include <stdlib.h>
#include <string.h>

static void need(bool holds, const char *what) {
    if (!holds) {
        fprintf(stderr, "not as it should be: %s\n", what);
        exit(1);
    }
}

static void report_patterns(size_t patterns) {
    size_t told = 0, size = 1, taken, written;
    uint8_t *bytes = malloc(patterns);
    size_t *ends = malloc(patterns * sizeof *ends);
    uint32_t *values = malloc(patterns * sizeof *values);
    need(bytes != NULL && ends != NULL && values != NULL, "malloc");
    for (size_t i = 0; i < patterns; i++) {
        bytes[i] = 'a';
        ends[i] = i + 1;
        values[i] = (uint32_t)i;
    }
    daachorse handle = DAACHORSE_EMPTY;
    need(daachorse_build(&handle, DAACHORSE_STANDARD, true, false, bytes, patterns, ends, patterns, values, patterns) == DAACHORSE_DONE, "build");
    need(daachorse_begin(&handle, DAACHORSE_OVERLAPPING) == DAACHORSE_DONE, "begin");
    do {
        daachorse_match found;
        need(daachorse_consume(&handle, bytes, size, &found, 1, &taken, &written) == DAACHORSE_DONE, "consume");
        need(written == 0 || found.value == told, "a match");
        size -= taken;
        told += written;
    } while (written == 1);
    need(told == patterns, "the number of matches");
    daachorse_free(&handle);
    free(bytes);
    free(ends);
    free(values);
}

static int count_match(void *context, daachorse_match found) {
    size_t *told = context;
    need(found.start == 2 * *told, "a match passed on");
    ++*told;
    return 0;
}

/* In a text of this character alone each is a match. */
static void search_text(uint32_t kind, size_t characters) {
    const daachorse_options options = {.kind = kind, .unit = DAACHORSE_CHARACTERS};
    const size_t end = 2;
    const uint32_t value = 0;
    size_t told = 0;
    daachorse handle = DAACHORSE_EMPTY;
    uint8_t *text = malloc(2 * characters);
    need(text != NULL, "malloc");
    for (size_t i = 0; i < characters; i++)
        memcpy(text + 2 * i, "\xc3\xa9", 2);
    need(daachorse_build_with(&handle, &options, text, 2, &end, 1, &value, 1) == DAACHORSE_DONE, "build");
    need(daachorse_find_each(&handle, text, 2 * characters, count_match, &told) == DAACHORSE_DONE, "find_each");
    need(told == characters, "the number of matches");
    daachorse_free(&handle);
    free(text);
}

static uint32_t read_number(const uint8_t *form, size_t at) {
    uint32_t number;
    memcpy(&number, form + at, sizeof number);
    return number;
}

/* The position, of those in the form's list of outputs, from which most outputs follow. */
static uint32_t longest_run(const uint8_t *form, size_t at) {
    uint32_t count = read_number(form, at), longest = 0, *runs = calloc(count + 1, sizeof *runs);
    need(runs != NULL, "calloc");
    for (uint32_t i = 1; i <= count; i++) {
        runs[i] = runs[read_number(form, at + 4 + 12 * (i - 1) + 8)] + 1;
        longest = runs[i] > runs[longest] ? i : longest;
    }
    free(runs);
    return longest;
}

/* Lets each element of the form that has outputs have those of the longest run. */
static void share_outputs(uint8_t *form, uint32_t kind) {
    bool standard = kind == DAACHORSE_STANDARD;
    size_t first = standard ? 4 : 8, size = standard ? 12 : 8, count = read_number(form, first - 4);
    uint32_t run = longest_run(form, first + count * size + (standard ? 8 : 4 + 4 * count));
    for (size_t i = 0; i < count; i++) {
        size_t at = first + i * size + size - 4;
        uint32_t packed = read_number(form, at);
        if (packed >> 8 != 0) {
            packed = run << 8 | (packed & 255);
            memcpy(form + at, &packed, sizeof packed);
        }
    }
}

/* Reads texts of three bytes, each of which has as many values as there are texts. */
static void read_shared(daachorse *handle, uint32_t kind, size_t texts) {
    size_t patterns = 2 * texts, taken;
    uint8_t *bytes = malloc(3 * patterns);
    size_t *ends = malloc(patterns * sizeof *ends);
    uint32_t *values = malloc(patterns * sizeof *values);
    need(bytes != NULL && ends != NULL && values != NULL, "malloc");
    for (size_t i = 0; i < patterns; i++) {
        size_t text = i < texts ? i : 0;
        bytes[3 * i] = 1;
        bytes[3 * i + 1] = (uint8_t)(text >> 8);
        bytes[3 * i + 2] = (uint8_t)text;
        ends[i] = 3 * i + 3;
        values[i] = (uint32_t)i;
    }
    need(daachorse_build(handle, kind, true, false, bytes, 3 * patterns, ends, patterns, values, patterns) == DAACHORSE_DONE, "build");
    daachorse_counts counts;
    need(daachorse_count(handle, &counts) == DAACHORSE_DONE, "count");
    uint8_t *form = malloc(counts.size);
    need(form != NULL && daachorse_write(handle, form, counts.size, &taken) == DAACHORSE_DONE, "write");
    share_outputs(form, kind);
    need(daachorse_read(handle, form, counts.size, &taken) == DAACHORSE_DONE, "read");
    free(form);
    free(bytes);
    free(ends);
    free(values);
}

static void walk_form(size_t texts) {
    daachorse handle = DAACHORSE_EMPTY, fast = DAACHORSE_EMPTY;
    read_shared(&handle, DAACHORSE_STANDARD, texts);
    need(daachorse_accelerate(&handle, &fast) == DAACHORSE_DONE, "accelerate");
    daachorse_free(&fast);
    read_shared(&handle, DAACHORSE_LEFTMOST_LONGEST, texts);
    need(daachorse_begin(&handle, DAACHORSE_LEFTMOST) == DAACHORSE_DONE, "begin leftmost");
    daachorse_free(&handle);
}

int main(int count, char **arguments) {
    need(count == 3, "the arguments");
    size_t number = strtoul(arguments[2], NULL, 10);
    if (strcmp(arguments[1], "patterns") == 0) {
        report_patterns(number);
    } else if (strcmp(arguments[1], "form") == 0) {
        walk_form(number);
    } else {
        search_text(DAACHORSE_STANDARD, number);
        search_text(DAACHORSE_LEFTMOST_LONGEST, number);
    }
    return 0;
}
