/* hyperscan WORDS TEXT ROUNDS: counts every match by Hyperscan in block mode. It prints how many
 * there are, and the median of the rounds in nanoseconds a byte. */
#include <hs/hs.h>
#include <stdio.h>
#include <stdlib.h>
#include <string.h>
#include <time.h>

struct tally {
    unsigned long long count, sum;
};

static int found(unsigned id, unsigned long long from, unsigned long long to, unsigned flags, void *tally) {
    (void)from, (void)flags;
    ((struct tally *)tally)->count++;
    ((struct tally *)tally)->sum += to + id;
    return 0;
}

static void need(int is_well, const char *what) {
    if (!is_well) fprintf(stderr, "hyperscan: %s\n", what), exit(1);
}

static char *read_file(const char *path, size_t *length) {
    FILE *file = fopen(path, "rb");
    need(file != NULL, path);
    fseek(file, 0, SEEK_END);
    *length = (size_t)ftell(file);
    rewind(file);
    char *bytes = malloc(*length + 1);
    need(bytes != NULL && fread(bytes, 1, *length, file) == *length, path);
    bytes[*length] = 0;
    fclose(file);
    return bytes;
}

/* The database of the lines. */
static hs_database_t *compile(char *lines, size_t length) {
    const char **words = calloc(length + 1, sizeof *words);
    size_t *lengths = calloc(length + 1, sizeof *lengths);
    unsigned *ids = calloc(length + 1, sizeof *ids), *flags = calloc(length + 1, sizeof *flags), count = 0;
    need(words && lengths && ids && flags, "no memory");
    for (char *word = strtok(lines, "\n"); word; word = strtok(NULL, "\n")) {
        words[count] = word, lengths[count] = strlen(word), ids[count] = count;
        count++;
    }
    hs_database_t *database;
    hs_compile_error_t *error;
    need(hs_compile_lit_multi(words, flags, ids, lengths, count, HS_MODE_BLOCK, NULL, &database, &error) == HS_SUCCESS,
         "the words do not compile");
    return database;
}

static int compare(const void *one, const void *other) {
    double difference = *(const double *)one - *(const double *)other;
    return (difference > 0) - (difference < 0);
}

static double seconds(void) {
    struct timespec now;
    clock_gettime(CLOCK_MONOTONIC, &now);
    return (double)now.tv_sec + (double)now.tv_nsec / 1e9;
}

int main(int argc, char **argv) {
    need(argc == 4, "hyperscan WORDS TEXT ROUNDS");
    size_t length, rounds = strtoul(argv[3], NULL, 10);
    char *lines = read_file(argv[1], &length);
    hs_database_t *database = compile(lines, length);
    char *text = read_file(argv[2], &length);
    hs_scratch_t *scratch = NULL;
    double *times = calloc(rounds, sizeof *times);
    need(times != NULL && hs_alloc_scratch(database, &scratch) == HS_SUCCESS, "no memory");
    struct tally tally;
    for (size_t round = 0; round < rounds; round++) {
        double began = seconds();
        tally = (struct tally){0, 0};
        need(hs_scan(database, text, (unsigned)length, 0, scratch, found, &tally) == HS_SUCCESS, "the scan fails");
        times[round] = seconds() - began;
    }
    qsort(times, rounds, sizeof *times, compare);
    printf("%llu\t%g\n", tally.count, times[rounds / 2] * 1e9 / (double)length);
}
