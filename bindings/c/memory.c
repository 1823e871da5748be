/* Lists an automaton in whose written form many states share a run of outputs, so that its patterns
 * are many more than its bytes. Without room the call must hold memory for a walk alone.
 * Link with -Wl,--wrap=malloc,--wrap=realloc,--wrap=free. */
#include "daachorse.h"

#include <stdio.h>
#include <stdlib.h>
#include <string.h>

/* 256 states of one byte and 65,536 of two follow a block with the root. Each of the latter has all
 * outputs. */
enum { BLOCK = 256, ELEMENTS = BLOCK * (2 + BLOCK), OUTPUTS = 16, SIZE = 4 * (3 * ELEMENTS + 3 * OUTPUTS + 5) + 2 };

void *__real_malloc(size_t size);
void *__real_realloc(void *block, size_t size);
void __real_free(void *block);

/* Each block begins with its size. */
typedef union {
    size_t size;
    max_align_t align;
} head;

static size_t held, most;

static void *hold(head *block, size_t size) {
    if (block == NULL)
        return NULL;
    block->size = size;
    held += size;
    most = held > most ? held : most;
    return block + 1;
}

void *__wrap_malloc(size_t size) {
    return hold(__real_malloc(sizeof(head) + size), size);
}

void *__wrap_realloc(void *block, size_t size) {
    head *old = (head *)block - 1;
    held -= old->size;
    return hold(__real_realloc(old, sizeof(head) + size), size);
}

void __wrap_free(void *block) {
    if (block == NULL)
        return;
    head *old = (head *)block - 1;
    held -= old->size;
    __real_free(old);
}

static void need(bool holds, const char *what) {
    if (!holds) {
        fprintf(stderr, "not as it should be: %s\n", what);
        exit(1);
    }
}

static uint8_t *put(uint8_t *at, uint32_t number) {
    for (int i = 0; i < 4; i++)
        *at++ = (uint8_t)(number >> 8 * i);
    return at;
}

/* An element: its base, its failure link, its byte and the position of its first output. */
static uint8_t *put_element(uint8_t *at, uint32_t base, uint32_t link, uint32_t byte, uint32_t output) {
    return put(put(put(at, base), link), byte | output << 8);
}

static void write_form(uint8_t *at) {
    at = put(at, ELEMENTS);
    for (uint32_t i = 0; i < ELEMENTS; i++) {
        uint32_t byte = i % BLOCK, block = i / BLOCK;
        if (i == 0)
            at = put_element(at, BLOCK, 0, 0, 0);
        else if (block == 0)
            at = put_element(at, 0, 0, byte, 0);
        else if (block == 1)
            at = put_element(at, BLOCK * (2 + byte), 0, byte, 0);
        else
            at = put_element(at, 0, BLOCK + byte, byte, OUTPUTS);
    }
    at = put(put(at, 0), 0);
    at = put(at, OUTPUTS);
    for (uint32_t i = 0; i < OUTPUTS; i++)
        at = put(put(put(at, i), 2), i);
    *at++ = 0;
    at = put(at, 1 + BLOCK + BLOCK * BLOCK);
    *at++ = 0;
}

int main(void) {
    static uint8_t form[SIZE];
    daachorse handle = DAACHORSE_EMPTY;
    size_t taken, size, count;
    write_form(form);
    need(daachorse_read(&handle, form, SIZE, &taken) == DAACHORSE_DONE && taken == SIZE, "read");
    size_t before = most = held;
    need(daachorse_list(&handle, NULL, 0, NULL, 0, NULL, 0, &size, &count) == DAACHORSE_NO_ROOM, "list");
    need(count == (size_t)BLOCK * BLOCK * OUTPUTS && size == 2 * count, "the counts of a listing");
    need(held == before && most - before <= SIZE, "the memory of a listing");
    printf("listing: %zu patterns in %zu bytes, %zu held\n", count, (size_t)SIZE, most - before);
    daachorse_free(&handle);
    need(held == 0, "memory is left");
    return 0;
}
