/* Eight threads search at once, four of them one automaton and four another, which has rows, each
 * with a handle and a stream of its own. The handles that these were shared from are freed before
 * they end. The argument is the number of rounds. */
#include "daachorse.h"

#include <pthread.h>
#include <stdio.h>
#include <stdlib.h>

#define THREADS 8

static size_t rounds;

static void need(bool holds, const char *what) {
    if (!holds) {
        fprintf(stderr, "not as it should be: %s\n", what);
        exit(1);
    }
}

/* Searches abcd for all of ab, abcd, bc and cd, as a whole and in a stream of single bytes. */
static void *search(void *argument) {
    daachorse *handle = argument;
    const uint8_t *haystack = (const uint8_t *)"abcd";
    for (size_t round = 0; round < rounds; round++) {
        daachorse_match found[8] = {{0, 0, 0}};
        size_t taken = 0, written = 0, told = 0;
        need(daachorse_find_overlapping(handle, haystack, 4, found, 8, &written) == DAACHORSE_DONE, "find");
        need(written == 4 && found[2].start == 0 && found[2].end == 4 && found[2].value == 1, "what is found");
        need(daachorse_begin(handle, true) == DAACHORSE_DONE, "begin");
        for (size_t at = 0; at < 4; at++) {
            need(daachorse_consume(handle, haystack + at, 1, found, 8, &taken, &written) == DAACHORSE_DONE, "consume");
            told += written;
        }
        need(told == 4 && found[1].start == 2 && found[1].end == 4 && found[1].value == 3, "what a stream finds");
    }
    daachorse_free(handle);
    return NULL;
}

int main(int count, char **words) {
    static const size_t ends[] = {2, 6, 8, 10};
    static const uint32_t values[] = {0, 1, 2, 3};
    daachorse first = DAACHORSE_EMPTY, fast = DAACHORSE_EMPTY, handles[THREADS] = {DAACHORSE_EMPTY};
    pthread_t threads[THREADS];
    rounds = count > 1 ? strtoul(words[1], NULL, 10) : 1;
    need(daachorse_share(&first, &handles[0]) == DAACHORSE_EMPTY_HANDLE, "nothing to share");
    need(daachorse_build(&first, DAACHORSE_STANDARD, true, false, (const uint8_t *)"ababcdbccd", 10, ends, 4, values, 4)
        == DAACHORSE_DONE, "build");
    need(daachorse_accelerate(&first, &fast) == DAACHORSE_DONE, "accelerate");
    for (size_t i = 0; i < THREADS; i++) {
        daachorse *shared = i % 4 < 2 ? &first : &fast;
        uint32_t answer = i % 2 ? daachorse_share(shared, &handles[i]) : daachorse_stream(shared, DAACHORSE_FIND, &handles[i]);
        need(answer == DAACHORSE_DONE, daachorse_answer_text(answer));
        need(pthread_create(&threads[i], NULL, search, &handles[i]) == 0, "pthread_create");
    }
    daachorse_free(&first);
    daachorse_free(&fast);
    for (size_t i = 0; i < THREADS; i++)
        need(pthread_join(threads[i], NULL) == 0, "pthread_join");
    return 0;
}
