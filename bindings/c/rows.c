/* Runs the rows of the table crates/daachorse_table/stdin, which says how a row is read, from standard
 * input: each whose call the library has, over each unit of the row and in each of its ways, or with an
 * argument in the first of them. It counts those that it skips, since they name what is not in
 * daachorse.h. Rows below the line that begins with #! must not hold. */
#include "daachorse.h"

#include <inttypes.h>
#include <stdio.h>
#include <stdlib.h>
#include <string.h>

/* The longest line and text, the most patterns or matches, the longest written form, and how many rows
 * are run at least. */
enum { LINE = 1 << 14, TEXT = 1 << 12, COUNT = 1 << 10, FORM = 1 << 23, LEAST = 1000 };

typedef struct {
    uint8_t bytes[TEXT];
    size_t len;
} text;

/* Patterns in the form that the library takes and returns. */
typedef struct {
    text text;
    size_t ends[COUNT];
    uint32_t values[COUNT];
    size_t count;
} pattern_list;

/* Matches, and after how many units of a stream each comes, and whether bytes that are no UTF-8 follow. */
typedef struct {
    daachorse_match at[COUNT];
    size_t times[COUNT];
    size_t count;
    bool invalid;
} match_list;

typedef struct {
    uint8_t bytes[FORM];
    size_t len;
} written_form;

typedef struct {
    char *automaton, *patterns, *call, *text, *expected;
} fields;

/* One way to make an automaton. */
typedef struct {
    bool no_filter, any_case, is_read, is_fast;
} way;

/* What the first field says: the units, the kind, the ways, and a byte that is changed. */
typedef struct {
    bool over[2];
    uint32_t kind;
    way ways[5];
    size_t count;
    bool is_changed;
    size_t place;
    uint8_t byte;
} making;

/* A row over one unit and in one way, and its automaton. */
typedef struct {
    const fields *row;
    const making *made;
    uint32_t unit;
    way way;
    daachorse handle;
} run;

typedef enum { DIFFERS, HOLDS, SKIPPED } outcome;

/* Reading the fields. */

static char *trimmed(char *from, char *to) {
    while (from < to && *from == ' ')
        from++;
    while (from < to && to[-1] == ' ')
        to--;
    *to = '\0';
    return from;
}

/* Cuts the next word off, and returns it, or null if there is none. */
static char *next_word(char **rest) {
    char *word = *rest + strspn(*rest, " ");
    size_t len = strcspn(word, " ");
    if (len == 0)
        return NULL;
    *rest = word + len + (word[len] != '\0');
    word[len] = '\0';
    return word;
}

static bool put(text *out, uint32_t byte) {
    if (out->len == TEXT)
        return false;
    out->bytes[out->len++] = (uint8_t)byte;
    return true;
}

static bool put_character(text *out, uint32_t c) {
    if (c < 0x80)
        return put(out, c);
    if (c < 0x800)
        return put(out, 0xc0 | c >> 6) && put(out, 0x80 | (c & 0x3f));
    if (c < 0x10000)
        return put(out, 0xe0 | c >> 12) && put(out, 0x80 | (c >> 6 & 0x3f)) && put(out, 0x80 | (c & 0x3f));
    return put(out, 0xf0 | c >> 18) && put(out, 0x80 | (c >> 12 & 0x3f)) && put(out, 0x80 | (c >> 6 & 0x3f)) && put(out, 0x80 | (c & 0x3f));
}

/* The number of bytes of the character that begins with this one. Any other byte stands for itself. */
static size_t width_of(uint8_t first) {
    return first >= 0xf0 ? 4 : first >= 0xe0 ? 3 : first >= 0xc0 ? 2 : 1;
}

static uint32_t character_in(const text *it) {
    size_t width = it->len > 0 ? width_of(it->bytes[0]) : 0;
    if (width == 0 || it->len != width)
        return UINT32_MAX;
    uint32_t c = width == 1 ? it->bytes[0] : it->bytes[0] & (0x7fU >> width);
    for (size_t i = 1; i < width; i++)
        c = c << 6 | (it->bytes[i] & 0x3f);
    return c;
}

static bool append(text *out, const char *at, const char *end, size_t number);

/* Appends the characters of A-B, or the first of the texts that each follow them. */
static bool read_range(const char *at, const char *end, uint32_t range[2]) {
    const char *middle = at < end ? memchr(at + 1, '-', (size_t)(end - at - 1)) : NULL;
    text first = {.len = 0}, last = {.len = 0};
    if (middle == NULL || !append(&first, at, middle, 0) || !append(&last, middle + 1, end, 0))
        return false;
    range[0] = character_in(&first);
    range[1] = character_in(&last);
    return range[0] <= range[1] && range[1] < 0x110000;
}

/* Appends the first characters of a text that is repeated: N:TEXT, where N is a number or the letter. */
static bool append_repeated(text *out, const char *at, const char *end, size_t number) {
    const char *middle = memchr(at, ':', (size_t)(end - at));
    text part = {.len = 0};
    if (middle == NULL || !append(&part, middle + 1, end, 0) || part.len == 0)
        return false;
    size_t count = *at == 'N' ? number : strtoul(at, NULL, 10);
    for (size_t place = 0; count > 0; count--) {
        for (size_t left = width_of(part.bytes[place]); left > 0 && place < part.len; left--)
            if (!put(out, part.bytes[place++]))
                return false;
        if (place == part.len)
            place = 0;
    }
    return true;
}

/* Appends what stands for the escape at `at`, and returns the place behind it, or null. */
static const char *append_escape(text *out, const char *at, const char *end, size_t number) {
    static const char names[] = "\\speclh", bytes[] = "\\ |=,<#";
    const char *name = at + 1 < end ? strchr(names, at[1]) : NULL;
    const char digits[] = {end - at > 3 ? at[2] : '\0', end - at > 3 ? at[3] : '\0', '\0'};
    char close = end - at > 1 && at[1] == '[' ? ']' : '}';
    const char *last = memchr(at, close, (size_t)(end - at));
    uint32_t range[2];
    if (name != NULL)
        return put(out, (uint8_t)bytes[name - names]) ? at + 2 : NULL;
    if (end - at > 3 && at[1] == 'x' && strspn(digits, "0123456789abcdef") == 2)
        return put(out, (uint32_t)strtoul(digits, NULL, 16)) ? at + 4 : NULL;
    if (last == NULL || (at[1] != '[' && at[1] != '{'))
        return NULL;
    if (at[1] == '{')
        return append_repeated(out, at + 2, last, number) ? last + 1 : NULL;
    if (!read_range(at + 2, last, range))
        return NULL;
    for (uint32_t c = range[0]; c <= range[1]; c++)
        if (!put_character(out, c))
            return NULL;
    return last + 1;
}

/* Appends the bytes of a text, and returns whether it is one. */
static bool append(text *out, const char *at, const char *end, size_t number) {
    while (at != NULL && at < end) {
        if (*at == '\\')
            at = append_escape(out, at, end, number);
        else
            at = put(out, (uint8_t)*at) ? at + 1 : NULL;
    }
    return at != NULL;
}

static bool append_word(text *out, const char *at, const char *end) {
    return (end - at == 2 && memcmp(at, "\"\"", 2) == 0) || append(out, at, end, 0);
}

static bool put_pattern(pattern_list *list, uint32_t value) {
    if (list->count == COUNT)
        return false;
    list->ends[list->count] = list->text.len;
    list->values[list->count++] = value;
    return true;
}

/* The patterns that are a text followed by each character of a range, all with the value 0. */
static bool put_patterns_after(pattern_list *list, const char *from, const char *to, const char *end) {
    uint32_t range[2];
    if (!read_range(to + 1, end - 1, range))
        return false;
    for (uint32_t c = range[0]; c <= range[1]; c++)
        if (!append(&list->text, from, to, 0) || !put_character(&list->text, c) || !put_pattern(list, 0))
            return false;
    return true;
}

static bool read_number(const char *word, uint32_t *number) {
    char *end;
    unsigned long long found = strtoull(word, &end, 10);
    *number = (uint32_t)found;
    return *word >= '0' && *word <= '9' && *end == '\0' && found <= UINT32_MAX;
}

static bool read_patterns(const char *field, pattern_list *list) {
    char copy[LINE], *rest = strcpy(copy, field);
    list->count = list->text.len = 0;
    for (char *word; (word = next_word(&rest)) != NULL;) {
        char *end = word + strlen(word), *mark = strpbrk(word, "=<");
        uint32_t value = (uint32_t)list->count;
        if (mark != NULL && *mark == '<') {
            if (end[-1] != '>' || !put_patterns_after(list, word, mark, end))
                return false;
            continue;
        }
        if (mark != NULL && !read_number(mark + 1, &value))
            return false;
        if (!append_word(&list->text, word, mark != NULL ? mark : end) || !put_pattern(list, value))
            return false;
    }
    return true;
}

/* Reads matches, which with + before them are `number` further on. */
static bool read_matches(const char *field, size_t number, match_list *list) {
    char copy[LINE], *rest = strcpy(copy, field);
    list->count = 0;
    list->invalid = false;
    for (char *word; (word = next_word(&rest)) != NULL;) {
        size_t further = *word == '+' ? number : 0;
        int len = 0, behind = 0;
        daachorse_match *found = &list->at[list->count];
        if (list->invalid || list->count == COUNT)
            return false;
        if (strcmp(word, "invalid") == 0) {
            list->invalid = true;
            continue;
        }
        word += *word == '+';
        if (sscanf(word, "%zu-%zu:%" SCNu32 "%n", &found->start, &found->end, &found->value, &len) != 3)
            return false;
        if (word[len] == '@' && sscanf(word + len, "@%zu%n", &list->times[list->count], &behind) != 1)
            return false;
        if (word[len + behind] != '\0')
            return false;
        found->start += further;
        found->end += further;
        list->count++;
    }
    return true;
}

static bool put_number(written_form *form, uint32_t number, size_t width) {
    if (FORM - form->len < width)
        return false;
    for (size_t i = 0; i < width; i++)
        form->bytes[form->len++] = (uint8_t)(number >> 8 * i);
    return true;
}

static bool put_vacant(written_form *form, const char *word) {
    uint32_t first, last;
    if (sscanf(word, "v%" SCNu32 "-%" SCNu32, &first, &last) != 2)
        return false;
    for (uint32_t i = first; i <= last; i++)
        if (!put_number(form, 0, 4) || !put_number(form, 0, 4) || !put_number(form, i, 4))
            return false;
    return true;
}

/* Reads the words of a form. */
static bool read_form(const char *field, written_form *form) {
    char copy[LINE], *rest = strcpy(copy, field);
    form->len = 0;
    for (char *word; (word = next_word(&rest)) != NULL;) {
        char *times = strchr(word, '*');
        uint32_t number, count = 1;
        size_t width = *word == 'b' ? 1 : 4;
        if (*word == 'v') {
            if (!put_vacant(form, word))
                return false;
            continue;
        }
        if (times != NULL) {
            *times = '\0';
            if (!read_number(times + 1, &count))
                return false;
        }
        if (!read_number(word + (width == 1), &number))
            return false;
        for (; count > 0; count--)
            if (!put_number(form, number, width))
                return false;
    }
    return true;
}

/* Whether a field has an ASCII capital letter, which is no name of an escape. */
static bool has_capital(const char *field) {
    return strpbrk(field, "ABCDEFGHIJKLMNOPQRSTUVWXYZ") != NULL && strstr(field, "{N:") == NULL;
}

/* Reads the first two words of the first field, and returns what is left, or null. */
static char *read_kind(char *rest, making *made) {
    static const char *const kinds[] = {"standard", "longest", "first"};
    const char *unit = next_word(&rest), *kind = next_word(&rest);
    bool both = unit != NULL && strcmp(unit, "both") == 0;
    if (unit == NULL || kind == NULL)
        return NULL;
    made->over[DAACHORSE_BYTES] = both || strcmp(unit, "bytes") == 0;
    made->over[DAACHORSE_CHARACTERS] = both || strcmp(unit, "chars") == 0;
    for (made->kind = 0; made->kind < 3; made->kind++)
        if (strcmp(kinds[made->kind], kind) == 0)
            return made->over[0] || made->over[1] ? rest : NULL;
    return NULL;
}

/* Reads the other words: one way, or that there is none. A corpus and the read without a check are not in
 * daachorse.h. */
static outcome read_way(char *rest, making *made, way *one, bool *is_one) {
    for (char *word; (word = next_word(&rest)) != NULL;) {
        uint32_t byte = 0;
        if (strncmp(word, "corpus=", 7) == 0 || strcmp(word, "unchecked") == 0)
            return SKIPPED;
        *is_one = *is_one || strcmp(word, "anycase") != 0;
        if (strcmp(word, "anycase") == 0)
            one->any_case = true;
        else if (strcmp(word, "nofilter") == 0)
            one->no_filter = true;
        else if (strcmp(word, "read") == 0)
            one->is_read = true;
        else if (strcmp(word, "rows") == 0)
            one->is_fast = true;
        else if (sscanf(word, "change=%zu:%" SCNu32, &made->place, &byte) == 2)
            made->is_changed = true;
        else if (strcmp(word, "once") != 0)
            return DIFFERS;
        made->byte = (uint8_t)byte;
    }
    return HOLDS;
}

/* Reads the first field. Without a word for one way there are five, or four if one of them ignores case. */
static outcome read_making(const fields *row, making *made) {
    char copy[LINE], *rest = read_kind(strcpy(copy, row->automaton), made);
    way one = {false, false, false, false};
    bool is_one = false;
    outcome answer = rest == NULL ? DIFFERS : read_way(rest, made, &one, &is_one);
    if (answer != HOLDS)
        return answer;
    const bool any_case = one.any_case;
    const way ways[] = {{false, any_case, false, false}, {true, any_case, false, false}, {false, any_case, true, false},
        {false, any_case, false, true}, {false, true, false, false}};
    made->ways[0] = one;
    made->count = 1;
    if (is_one)
        return HOLDS;
    made->count = any_case || has_capital(row->patterns) || has_capital(row->text) ? 4 : 5;
    memcpy(made->ways, ways, sizeof ways);
    return HOLDS;
}

/* Making the automaton. */

static bool build(daachorse *handle, const run *it, const pattern_list *list) {
    const daachorse_options options = {it->made->kind, it->way.no_filter, it->way.any_case, it->unit, {0}};
    return daachorse_build_with(handle, &options, list->text.bytes, list->text.len, list->ends, list->count, list->values,
            list->count) == DAACHORSE_DONE;
}

static bool write_form(daachorse *handle, written_form *form) {
    return daachorse_write(handle, form->bytes, FORM, &form->len) == DAACHORSE_DONE;
}

static uint32_t read_back(daachorse *handle, uint32_t unit, const uint8_t *bytes, size_t len, size_t *taken) {
    return daachorse_read_with(handle, unit, bytes, len, taken);
}

static bool is_form(const fields *row) {
    return strncmp(row->patterns, "form", 4) == 0 && (row->patterns[4] == ' ' || row->patterns[4] == '\0');
}

/* The form of the row: its words, or what is written of its patterns, with the change. */
static bool take_form(const run *it, written_form *form) {
    static pattern_list list;
    daachorse handle = DAACHORSE_EMPTY;
    if (is_form(it->row))
        return read_form(it->row->patterns + 4, form);
    if (!read_patterns(it->row->patterns, &list) || !build(&handle, it, &list))
        return false;
    bool is_written = write_form(&handle, form);
    daachorse_free(&handle);
    if (!is_written || !it->made->is_changed)
        return is_written;
    if (it->made->place >= form->len)
        return false;
    form->bytes[it->made->place] = it->made->byte;
    return true;
}

/* Writes the automaton and a byte 42, and reads it, which leaves that byte. */
static bool make_by_form(run *it) {
    static written_form form;
    size_t taken = 0, len;
    if (!take_form(it, &form) || form.len == FORM)
        return false;
    len = form.len;
    form.bytes[form.len++] = 42;
    return read_back(&it->handle, it->unit, form.bytes, form.len, &taken) == DAACHORSE_DONE && taken == len;
}

static bool make(run *it) {
    static pattern_list list;
    daachorse fast = DAACHORSE_EMPTY;
    if (is_form(it->row) || it->made->is_changed || it->way.is_read)
        return make_by_form(it);
    if (!read_patterns(it->row->patterns, &list) || !build(&it->handle, it, &list))
        return false;
    if (!it->way.is_fast)
        return true;
    bool is_made = daachorse_accelerate(&it->handle, &fast) == DAACHORSE_DONE;
    daachorse_free(&it->handle);
    it->handle = fast;
    return is_made;
}

/* Searches. */

typedef uint32_t search_fn(daachorse *, const uint8_t *, size_t, daachorse_match *, size_t, size_t *);
typedef uint32_t each_fn(daachorse *, const uint8_t *, size_t, daachorse_each *, void *);

/* A search: of a whole haystack, that passes each match on, and of a stream. */
typedef struct {
    const char *name;
    search_fn *search;
    each_fn *each;
    uint32_t number;
} search_calls;

static const search_calls searches[] = {
    {"find", daachorse_find, daachorse_find_each, DAACHORSE_FIND},
    {"overlapping", daachorse_find_overlapping, daachorse_find_overlapping_each, DAACHORSE_OVERLAPPING},
    {"nosuffix", daachorse_find_overlapping_no_suffix, daachorse_find_overlapping_no_suffix_each, DAACHORSE_NO_SUFFIX},
    {"leftmost", daachorse_leftmost_find, daachorse_find_each, DAACHORSE_LEFTMOST},
};

static const search_calls *search_named(const char *name, size_t len) {
    for (size_t i = 0; i < sizeof searches / sizeof *searches; i++)
        if (strlen(searches[i].name) == len && memcmp(searches[i].name, name, len) == 0)
            return &searches[i];
    return NULL;
}

static bool is_same(daachorse_match found, daachorse_match wanted) {
    return found.start == wanted.start && found.end == wanted.end && found.value == wanted.value;
}

/* Whether these matches come next, which adds their number to what was told. */
static bool are_next(const daachorse_match *found, size_t count, const match_list *wanted, size_t *told) {
    if (count > wanted->count - *told)
        return false;
    for (size_t i = 0; i < count; i++)
        if (!is_same(found[i], wanted->at[*told + i]))
            return false;
    *told += count;
    return true;
}

/* Feeds the haystack to a stream in pieces of this size, ends it, and compares the matches it tells. What
 * is no UTF-8 is refused, so all matches before it are asked for before it is given. */
static bool is_streamed(daachorse *handle, uint32_t search, const text *haystack, size_t piece, size_t room,
        const match_list *wanted) {
    daachorse_match found[4];
    size_t at = 0, told = 0, written = 0;
    bool ended = false;
    if (daachorse_begin(handle, search) != DAACHORSE_DONE)
        return false;
    while (!ended || written == room) {
        size_t taken = 0, size = haystack->len - at < piece ? haystack->len - at : piece;
        size = wanted->invalid && written == room ? 0 : size;
        uint32_t answer = daachorse_consume(handle, haystack->bytes + at, size, found, room, &taken, &written);
        if (!are_next(found, written, wanted, &told) || taken > size)
            return false;
        at += taken;
        if (answer == DAACHORSE_DONE && (at < haystack->len || written == room))
            continue;
        if (answer == DAACHORSE_DONE && !ended) {
            answer = daachorse_end(handle);
            written = room;
            ended = true;
        }
        if (answer != DAACHORSE_DONE)
            return answer == DAACHORSE_INVALID_UTF8 && wanted->invalid && told == wanted->count;
    }
    return told == wanted->count && !wanted->invalid;
}

/* Finds matches with this room, each call going on from where the last one ended. */
static bool is_gone_on(daachorse *handle, const text *haystack, size_t room, const match_list *wanted) {
    daachorse_place place = {0, false, false};
    daachorse_match found[4];
    size_t told = 0, written = room;
    while (written == room)
        if (daachorse_find_on(handle, haystack->bytes, haystack->len, &place, found, room, &written) != DAACHORSE_DONE
                || !are_next(found, written, wanted, &told))
            return false;
    uint32_t answer = daachorse_find_on(handle, haystack->bytes, haystack->len, &place, NULL, 0, &written);
    return told == wanted->count && answer == DAACHORSE_DONE && written == 0;
}

/* What calls for each match are still to pass on, and after how many of them they stop. */
typedef struct {
    const match_list *wanted;
    size_t told, stop;
    bool holds;
} each_match;

static int see_each(void *context, daachorse_match found) {
    each_match *each = context;
    each->holds = each->holds && each->told < each->stop && are_next(&found, 1, each->wanted, &each->told);
    return !each->holds || each->told == each->stop;
}

/* Passes each match on, and stops at the first, at the second and so on, or at none. */
static bool are_passed_on(daachorse *handle, each_fn *call, const text *haystack, const match_list *wanted) {
    for (size_t stop = 1; stop <= wanted->count + 1; stop++) {
        each_match each = {wanted, 0, stop, true};
        if (call(handle, haystack->bytes, haystack->len, see_each, &each) != DAACHORSE_DONE || !each.holds)
            return false;
        if (each.told != (stop < wanted->count ? stop : wanted->count))
            return false;
    }
    return true;
}

/* Whether the haystack is searched so as a whole. */
static bool is_found(daachorse *handle, const search_calls *calls, const text *haystack, const match_list *wanted) {
    static daachorse_match found[COUNT];
    size_t written = 7, told = 0;
    bool any = false;
    uint32_t answer = calls->search(handle, haystack->bytes, haystack->len, found, COUNT, &written);
    if (wanted->invalid)
        return answer == DAACHORSE_INVALID_UTF8 && written == 0;
    if (answer != DAACHORSE_DONE || !are_next(found, written, wanted, &told) || told != wanted->count)
        return false;
    if (daachorse_is_match(handle, haystack->bytes, haystack->len, &any) != DAACHORSE_DONE || any != (wanted->count > 0))
        return false;
    for (size_t room = 1; calls->each == daachorse_find_each && room < 4; room++)
        if (!is_gone_on(handle, haystack, room, wanted))
            return false;
    return are_passed_on(handle, calls->each, haystack, wanted);
}

/* Whether the kind is that of the row, unless its form was changed. */
static bool is_of_kind(run *it) {
    uint32_t kind = 7;
    bool any_case = false;
    if (is_form(it->row) || it->made->is_changed)
        return true;
    return daachorse_kind(&it->handle, &kind, &any_case) == DAACHORSE_DONE && kind == it->made->kind && any_case == it->way.any_case;
}

/* A search, and with `each K` one for each number from 0 to K. Long haystacks are streamed once. */
static bool see_search(run *it) {
    static text haystack;
    static match_list wanted;
    const char *call = it->row->call, *behind = call + strcspn(call, " ");
    const search_calls *calls = search_named(call, (size_t)(behind - call));
    uint32_t most = 0;
    if (calls == NULL || !is_of_kind(it))
        return false;
    if (*behind != '\0' && (strncmp(behind, " each ", 6) != 0 || !read_number(behind + 6, &most)))
        return false;
    for (size_t number = 0; number <= most; number++) {
        haystack.len = 0;
        if (!append(&haystack, it->row->text, it->row->text + strlen(it->row->text), number)
                || !read_matches(it->row->expected, number, &wanted) || !is_found(&it->handle, calls, &haystack, &wanted))
            return false;
        for (size_t piece = haystack.len > 100 ? 3 : 1; piece < 4; piece++)
            for (size_t room = haystack.len > 100 ? 3 : 1; room < 4; room++)
                if (!is_streamed(&it->handle, calls->number, &haystack, piece, room, &wanted))
                    return false;
    }
    return true;
}

/* Whether all matches that come now are next, each after so many units. */
static bool are_certain(const daachorse_match *found, size_t count, const match_list *wanted, size_t units, size_t *told) {
    for (size_t i = 0; i < count; i++) {
        if (!are_next(&found[i], 1, wanted, told) || wanted->times[*told - 1] != units)
            return false;
    }
    return true;
}

/* A stream that gets unit by unit, before them nothing, and behind them the end. */
static bool see_certain(run *it) {
    static text haystack;
    static match_list wanted;
    static daachorse_match found[COUNT];
    size_t told = 0, units = 0, at = 0, width = 0, taken, written;
    haystack.len = 0;
    if (!append(&haystack, it->row->text, it->row->text + strlen(it->row->text), 0) || !read_matches(it->row->expected, 0, &wanted)
            || daachorse_begin(&it->handle, DAACHORSE_LEFTMOST) != DAACHORSE_DONE)
        return false;
    for (;; units++) {
        if (daachorse_consume(&it->handle, haystack.bytes + at, width, found, COUNT, &taken, &written) != DAACHORSE_DONE || taken != width
                || !are_certain(found, written, &wanted, units, &told))
            return false;
        at += width;
        if (at == haystack.len)
            break;
        width = it->unit == DAACHORSE_BYTES ? 1 : width_of(haystack.bytes[at]);
    }
    return daachorse_end(&it->handle) == DAACHORSE_DONE
        && daachorse_consume(&it->handle, NULL, 0, found, COUNT, &taken, &written) == DAACHORSE_DONE
        && are_certain(found, written, &wanted, units + 1, &told) && told == wanted.count;
}

/* What an automaton holds. */

/* Lists the patterns in this room, and compares them, or the sizes returned if the room is too little. No
 * more is written. */
static bool is_listed(daachorse *handle, size_t size_room, size_t ends_room, size_t values_room, const pattern_list *wanted) {
    static pattern_list found, before;
    memset(&found, 7, sizeof found);
    before = found;
    bool fits = size_room >= wanted->text.len && ends_room >= wanted->count && values_room >= wanted->count;
    uint32_t answer = daachorse_list(handle, found.text.bytes, size_room, found.ends, ends_room, found.values, values_room,
            &found.text.len, &found.count);
    size_t size = fits ? wanted->text.len : 0, count = fits ? wanted->count : 0;
    return answer == (fits ? DAACHORSE_DONE : DAACHORSE_NO_ROOM) && found.text.len == wanted->text.len && found.count == wanted->count
        && memcmp(found.text.bytes, wanted->text.bytes, size) == 0
        && memcmp(found.ends, wanted->ends, count * sizeof *found.ends) == 0
        && memcmp(found.values, wanted->values, count * sizeof *found.values) == 0
        && memcmp(found.text.bytes + size, before.text.bytes + size, TEXT - size) == 0
        && memcmp(found.ends + count, before.ends + count, (COUNT - count) * sizeof *found.ends) == 0
        && memcmp(found.values + count, before.values + count, (COUNT - count) * sizeof *found.values) == 0;
}

/* The listing, in enough room and in too little, and that of a standard automaton that is built of it. */
static bool see_patterns(run *it) {
    static pattern_list wanted;
    if (!read_patterns(it->row->expected, &wanted))
        return false;
    size_t size = wanted.text.len, count = wanted.count;
    if (!is_listed(&it->handle, size, count, count, &wanted) || !is_listed(&it->handle, size + 1, count + 2, count + 3, &wanted)
            || (size > 0 && !is_listed(&it->handle, size - 1, count, count, &wanted))
            || (count > 0 && !is_listed(&it->handle, size, count - 1, count, &wanted))
            || (count > 0 && !is_listed(&it->handle, size, count, count - 1, &wanted)))
        return false;
    making standard = *it->made;
    standard.kind = DAACHORSE_STANDARD;
    run another = {it->row, &standard, it->unit, it->way, DAACHORSE_EMPTY};
    bool holds = build(&another.handle, &another, &wanted) && is_listed(&another.handle, size, count, count, &wanted);
    daachorse_free(&another.handle);
    return holds;
}

/* A lookup by this call: the values of the matches, and the matches if `wanted` has any. */
static bool is_looked_up(run *it, search_fn *lookup, daachorse_match *found, size_t *written) {
    static text whole;
    whole.len = 0;
    return append(&whole, it->row->text, it->row->text + strlen(it->row->text), 0)
        && lookup(&it->handle, whole.bytes, whole.len, found, COUNT, written) == DAACHORSE_DONE;
}

static bool see_values(run *it) {
    static daachorse_match found[COUNT];
    char copy[LINE], *rest = strcpy(copy, it->row->expected);
    size_t written, told = 0;
    if (!is_looked_up(it, daachorse_get, found, &written))
        return false;
    for (char *word; (word = next_word(&rest)) != NULL; told++) {
        uint32_t value;
        if (!read_number(word, &value) || told == written || found[told].value != value || found[told].start != 0)
            return false;
    }
    return told == written;
}

static bool see_prefixes(run *it) {
    static daachorse_match found[COUNT];
    static match_list wanted;
    size_t written, told = 0;
    return read_matches(it->row->expected, 0, &wanted) && is_looked_up(it, daachorse_common_prefixes, found, &written)
        && are_next(found, written, &wanted, &told) && told == wanted.count;
}

/* What is counted, where the length of the longest pattern is in bytes. */
static bool see_counts(run *it) {
    daachorse_counts counts;
    uint32_t wanted;
    if (!read_number(it->row->expected, &wanted) || daachorse_count(&it->handle, &counts) != DAACHORSE_DONE)
        return false;
    const size_t found = strcmp(it->row->call, "states") == 0 ? counts.states : strcmp(it->row->call, "count") == 0 ? counts.patterns
        : strcmp(it->row->call, "length") == 0 ? counts.size : counts.longest;
    return found == wanted;
}

static bool see_kind(run *it) {
    static const char *const kinds[] = {"standard", "longest", "first"};
    uint32_t kind = 3;
    bool any_case = false;
    char told[32];
    if (daachorse_kind(&it->handle, &kind, &any_case) != DAACHORSE_DONE || kind > 2)
        return false;
    snprintf(told, sizeof told, "%s%s", kinds[kind], any_case ? " anycase" : "");
    return strcmp(told, it->row->expected) == 0;
}

/* The text with matches of value 0 and 1 replaced, in enough room and in too little. */
static bool see_replaced(run *it) {
    static text haystack, wanted, out;
    const size_t ends[] = {1, 1};
    haystack.len = wanted.len = 0;
    if (!append(&haystack, it->row->text, it->row->text + strlen(it->row->text), 0)
            || !append(&wanted, it->row->expected, it->row->expected + strlen(it->row->expected), 0))
        return false;
    for (size_t room = 0; room < wanted.len + 2; room++) {
        size_t size, fits = room < wanted.len ? room : wanted.len;
        uint32_t answer = daachorse_replace(&it->handle, haystack.bytes, haystack.len, (const uint8_t *)"-", 1, ends, 2, out.bytes, room, &size);
        if (answer != (room < wanted.len ? DAACHORSE_NO_ROOM : DAACHORSE_DONE) || size != wanted.len || memcmp(out.bytes, wanted.bytes, fits) != 0)
            return false;
    }
    return true;
}

/* Written forms. */

static bool see_written(run *it) {
    static written_form form, wanted;
    return read_form(it->row->expected, &wanted) && write_form(&it->handle, &form) && form.len == wanted.len
        && memcmp(form.bytes, wanted.bytes, form.len) == 0;
}

static bool see_word(run *it) {
    static written_form form;
    uint32_t place, wanted, found = 0;
    if (!read_number(it->row->text, &place) || !read_number(it->row->expected, &wanted) || !write_form(&it->handle, &form)
            || form.len < 4 || place > form.len - 4)
        return false;
    for (size_t i = 0; i < 4; i++)
        found |= (uint32_t)form.bytes[place + i] << 8 * i;
    return found == wanted;
}

/* Whether the bytes are read, or refused as no automaton. */
static bool is_answered(run *it, const uint8_t *bytes, size_t len, bool is_accepted) {
    daachorse handle = DAACHORSE_EMPTY;
    size_t taken = 7;
    uint32_t answer = read_back(&handle, it->unit, bytes, len, &taken);
    daachorse_free(&handle);
    return answer == (is_accepted ? DAACHORSE_DONE : DAACHORSE_INVALID_AUTOMATON) && taken == (is_accepted ? len : 0);
}

static bool see_read(run *it) {
    static written_form form;
    bool is_accepted = strcmp(it->row->expected, "accepted") == 0;
    return (is_accepted || strcmp(it->row->expected, "refused") == 0) && take_form(it, &form)
        && is_answered(it, form.bytes, form.len, is_accepted);
}

/* Each beginning is refused, of these lengths or of all. */
static bool see_beginnings(run *it) {
    static written_form form;
    size_t first = 0, last = FORM;
    if (strcmp(it->row->expected, "refused") != 0 || !take_form(it, &form))
        return false;
    if (*it->row->text != '\0' && sscanf(it->row->text, "%zu-%zu", &first, &last) != 2)
        return false;
    for (size_t len = first; len <= last && len < form.len; len++)
        if (!is_answered(it, form.bytes, len, false))
            return false;
    return true;
}

/* A call of the table, and whether the automaton is made before it. Those that are not in daachorse.h have
 * none. */
static const struct {
    const char *name;
    bool (*see)(run *);
    bool is_made;
} calls[] = {
    {"certain", see_certain, true},
    {"patterns", see_patterns, true},
    {"values", see_values, true},
    {"prefixes", see_prefixes, true},
    {"states", see_counts, true},
    {"count", see_counts, true},
    {"longest", see_counts, true},
    {"length", see_counts, true},
    {"kind", see_kind, true},
    {"replaced", see_replaced, true},
    {"written", see_written, true},
    {"word", see_word, true},
    {"read", see_read, false},
    {"beginnings", see_beginnings, false},
    {"bracketed", NULL, false},
    {"changes", NULL, false},
    {"depths-find", NULL, false},
    {"depths-overlapping", NULL, false},
    {"elements", NULL, false},
    {"summary", NULL, false},
};

/* Runs a row over one unit in one way. */
static outcome run_once(run *it) {
    size_t i = 0;
    if (strstr(it->row->call, " beginnings") != NULL || strcmp(it->row->expected, "plain") == 0)
        return SKIPPED;
    if (it->unit == DAACHORSE_CHARACTERS && strcmp(it->row->call, "longest") == 0)
        return SKIPPED;
    while (i < sizeof calls / sizeof *calls && strcmp(calls[i].name, it->row->call) != 0)
        i++;
    if (i == sizeof calls / sizeof *calls)
        return make(it) && see_search(it);
    if (calls[i].see == NULL)
        return SKIPPED;
    return (!calls[i].is_made || make(it)) && calls[i].see(it);
}

/* Runs a row over each of its units in each of its ways, and returns whether it holds in all that are run. */
static outcome run_row(const fields *row, bool is_quick) {
    making made = {.count = 0};
    outcome all = read_making(row, &made);
    if (all != HOLDS)
        return all;
    all = SKIPPED;
    made.count = is_quick ? 1 : made.count;
    for (uint32_t unit = 0; unit < 2; unit++)
        for (size_t i = 0; made.over[unit] && i < made.count; i++) {
            run it = {row, &made, unit, made.ways[i], DAACHORSE_EMPTY};
            outcome one = run_once(&it);
            daachorse_free(&it.handle);
            if (one == DIFFERS)
                return DIFFERS;
            all = one == HOLDS ? HOLDS : all;
        }
    return all;
}

/* Reads the five fields of a line. */
static bool read_fields(char *line, fields *row) {
    char **const each[] = {&row->automaton, &row->patterns, &row->call, &row->text, &row->expected};
    for (size_t i = 0; i < 5; i++) {
        size_t len = strcspn(line, "|");
        if ((line[len] == '|') != (i < 4))
            return false;
        *each[i] = trimmed(line, line + len);
        line += len + 1;
    }
    return true;
}

int main(int argc, char **argv) {
    static char line[LINE], copy[LINE];
    size_t count[3] = {0, 0, 0}, told_apart = 0, bad = 0;
    bool are_wrong = false, is_quick = argc > 1 && argv[1] != NULL;
    while (fgets(line, sizeof line, stdin) != NULL) {
        fields row;
        line[strcspn(line, "\n")] = '\0';
        are_wrong = are_wrong || strncmp(line, "#!", 2) == 0;
        if (*line == '#' || *line == '\0')
            continue;
        outcome answer = read_fields(strcpy(copy, line), &row) ? run_row(&row, is_quick) : DIFFERS;
        if (answer != SKIPPED && (answer == HOLDS) == are_wrong) {
            fprintf(stderr, "%s: %s\n", are_wrong ? "holds" : "differs", line);
            bad++;
        }
        count[answer] += !are_wrong;
        told_apart += are_wrong && answer == DIFFERS;
    }
    printf("%zu rows hold, %zu are skipped, and %zu are wrong as they should be\n", count[HOLDS], count[SKIPPED], told_apart);
    return bad > 0 || count[HOLDS] < LEAST || told_apart == 0;
}
