/* candidates WORDS TEXT [RULE [FACTOR [STRIDE]]]: counts the places of the text at which some bucket lets the window
 * pass, as crates/daachorse_prefilter defines it. For each byte it prints these candidates, those of them that the
 * prefilter lets pass too, and the prefilter's own; then the share of a scan's rounds that are read twice.
 *
 * RULE says which bucket a pattern goes to: "lengths" as `Filling` does, "short" by length and order with those below
 * five bytes apart, and "order" by order alone. FACTOR is that of the hash, and STRIDE how far the places read lie
 * apart. */
#include <stdint.h>
#include <stdio.h>
#include <stdlib.h>
#include <string.h>

enum { LONGEST = 9, NEAR_END = 26, ROUND = 16 };
static uint64_t table[8192], mask = ~0ull;
static uint32_t factor = 2246822400u;
static unsigned char pairs[65536];
static unsigned long counts[LONGEST + 2], placed[LONGEST + 1];

static char *read_file(const char *path, size_t *length) {
    FILE *file = fopen(path, "rb");
    if (!file) perror(path), exit(1);
    fseek(file, 0, SEEK_END);
    *length = (size_t)ftell(file);
    rewind(file);
    char *bytes = calloc(*length + 1, 1);
    if (!bytes || fread(bytes, 1, *length, file) != *length) perror(path), exit(1);
    return bytes;
}

static int compare(const void *one, const void *other) {
    return strcmp(*(char *const *)one, *(char *const *)other);
}

static unsigned slot(unsigned char a, unsigned char b, unsigned char c) {
    return (uint32_t)((a | 32u) + 256 * (b | 32u) + 65536 * (c | 32u)) * factor >> 19;
}

/* How many patterns have a length from one on and below another. */
static unsigned long sum(size_t from, size_t to) {
    unsigned long patterns = 0;
    while (from < to) patterns += counts[from++];
    return patterns;
}

/* The first bucket of a length. */
static unsigned long first_bucket(size_t length) {
    unsigned long shorter = 0, lengths = 0;
    for (size_t k = 0; k <= LONGEST; k++) lengths += counts[k] > 0, shorter += k < length && counts[k] > 0;
    return shorter + sum(0, length) * (lengths < 8 ? 8 - lengths : 0) / sum(0, LONGEST + 1);
}

/* The bucket of the next pattern, behind `shown` others. */
static unsigned long next_bucket(const char *rule, size_t length, unsigned long shown) {
    if (length > LONGEST) length = LONGEST;
    unsigned long rank = placed[length]++, first = first_bucket(length), all = sum(0, LONGEST + 1), few = sum(0, 5);
    unsigned long split = few == all ? 8 : few && few * 8 < all ? 1 : few * 8 / all, bucket;
    if (!strcmp(rule, "order")) bucket = shown * 8 / all;
    else if (strcmp(rule, "short")) bucket = first + rank * (first_bucket(length + 1) - first) / counts[length];
    else if (length < 5) bucket = (sum(0, length) + rank) * split / few;
    else bucket = split + (sum(5, length) + rank) * (8 - split) / (all - few);
    return bucket < 8 ? bucket : 7;
}

static void add(const unsigned char *pattern, size_t length, unsigned long bucket) {
    for (size_t k = 0; k < 8; k++) {
        uint64_t bit = 1ull << (56 - 8 * k + bucket);
        if (k + 3 <= length) table[slot(pattern[k], pattern[k + 1], pattern[k + 2])] &= ~bit;
        else if (k + 2 == length) for (int c = 0; c < 256; c++) table[slot(pattern[k], pattern[k + 1], c)] &= ~bit;
        else mask &= ~bit;
    }
    for (size_t j = 0; j + 1 < length && j < 8; j++) pairs[pattern[j] + 256 * pattern[j + 1]] &= ~(1 << j);
}

static uint64_t entry(const unsigned char *w) {
    return table[slot(w[0], w[1], w[2])] & mask;
}

static int lets(const unsigned char *w) {
    uint64_t refused = 0;
    for (int k = 0; k < 8; k++) refused |= entry(w + k) >> (56 - 8 * k);
    return (refused & 0xff) != 0xff;
}

static int admits(const unsigned char *w, size_t window) {
    for (size_t j = 0; j + 1 < window; j++)
        if (pairs[w[j] + 256 * w[j + 1]] >> j & 1) return 0;
    return 1;
}

/* Adds the patterns in order, and returns the length of the shortest. */
static size_t add_all(char **words, unsigned long n, const char *rule) {
    size_t shortest = SIZE_MAX;
    memset(table, 255, sizeof table), memset(pairs, 255, sizeof pairs);
    qsort(words, n, sizeof *words, compare);
    for (unsigned long i = 0; i < n; i++) {
        size_t length = strlen(words[i]);
        counts[length < LONGEST ? length : LONGEST]++;
        if (length < shortest) shortest = length;
    }
    for (unsigned long i = 0; i < n; i++)
        add((unsigned char *)words[i], strlen(words[i]), next_bucket(rule, strlen(words[i]), i));
    return shortest;
}

/* The share of the rounds of sixteen places that a scan of the whole text reads twice. */
static double read_twice(const unsigned char *text, size_t length, unsigned stride) {
    uint64_t state = ~0ull, low = (1ull << (8 * stride)) - 1;
    unsigned long rounds = 0, again = 0;
    for (size_t place = 0; place + NEAR_END <= length; place += ROUND, rounds++) {
        int is_sure = 1;
        for (unsigned k = 0; k < ROUND; k += stride) {
            state = state >> (8 * stride) | entry(text + place + k);
            is_sure &= (state & low) == low;
        }
        again += !is_sure;
    }
    return rounds ? (double)again / rounds : 0;
}

int main(int count, char **arguments) {
    if (count < 3) return fputs("candidates WORDS TEXT [RULE [FACTOR [STRIDE]]]\n", stderr), 1;
    size_t size, length;
    char *lines = read_file(arguments[1], &size), **words = calloc(size + 1, sizeof *words);
    const unsigned char *text = (unsigned char *)read_file(arguments[2], &length);
    unsigned long n = 0, by_buckets = 0, by_both = 0, by_prefilter = 0;
    if (count > 4) factor = (uint32_t)strtoul(arguments[4], NULL, 0);
    for (char *word = strtok(lines, "\n"); word; word = strtok(NULL, "\n")) words[n++] = word;
    size_t shortest = add_all(words, n, count > 3 ? arguments[3] : "lengths");
    if (!n || shortest < 3) return puts("no buckets"), 0;
    unsigned stride = count > 5 ? (unsigned)atoi(arguments[5]) : shortest < 4 ? 1 : 2;
    for (size_t place = 0; place + NEAR_END <= length; place++) {
        int is_let = lets(text + place), is_admitted = admits(text + place, shortest < 9 ? shortest : 9);
        by_buckets += is_let, by_both += is_let && is_admitted, by_prefilter += is_admitted;
    }
    printf("%.5f\t%.5f\t%.5f\t%.3f\n", (double)by_buckets / length, (double)by_both / length,
           (double)by_prefilter / length, read_twice(text, length, stride));
}
