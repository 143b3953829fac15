/*
 * Makes each call in the table of known answers, and compares what it returns and the state that it leaves.
 * The table is tests/answers/answers.tsv, so the program is run at the top of the repository. The rows of
 * `stream` are used for `keystream` as well, except the rows of `part`, which are used for `keystream` alone.
 */
#include <stdlib.h>

#include "answers.h"

enum { LONGEST = 1 << 20, COLUMNS = 7, NUMBERS = 3, UNTOUCHED = 7 };

/* A row of the table. If its arguments are numbers, `numbers` has them; a negative one is modulo 2^64. */
struct row {
    const char *before, *call, *arguments, *result, *after;
    uint64_t numbers[NUMBERS];
    unsigned status;
};

static int is(const char *text, const char *other)
{
    return strcmp(text, other) == 0;
}

/* Reads the numbers of a list, at most `most`, and returns how many there are. */
static size_t read_numbers(const char *list, uint64_t *out, size_t most)
{
    size_t count = 0;
    for (const char *next = is(list, "-") ? NULL : list; next != NULL && count < most; count++) {
        out[count] = strtoull(next, NULL, 10);
        next = strchr(next, ',');
        next = next == NULL ? NULL : next + 1;
    }
    return count;
}

static unsigned digit_of(char digit)
{
    return (unsigned)(digit <= '9' ? digit - '0' : digit - 'a' + 10);
}

/* Reads the pairs of hexadecimal digits with which a text begins, at most MOST, and returns how many there are. */
static size_t read_bytes(const char *text, uint8_t *out)
{
    const size_t pairs = strspn(text, "0123456789abcdef") / 2;
    const size_t length = pairs < (size_t)MOST ? pairs : (size_t)MOST;
    for (size_t place = 0; place < length; place++) {
        out[place] = (uint8_t)(16 * digit_of(text[2 * place]) + digit_of(text[2 * place + 1]));
    }
    return length;
}

/* Whether these bytes are the result of the row, and the bytes around them were not written. */
static int wanted_bytes(const struct row *row, size_t length)
{
    static uint8_t wanted[MOST];
    return read_bytes(row->result, wanted) == length && bytes_are(wanted, length);
}

/* Whether these items are the result of the row. After an error they are 0, 1, .. still. */
static int wanted_items(const struct row *row, size_t length)
{
    static uint64_t numbers[MOST];
    static size_t wanted[MOST];
    const int read = row->status != 0 || read_numbers(row->result, numbers, MOST) == length;
    for (size_t place = 0; place < length; place++) {
        wanted[place] = row->status == 0 ? (size_t)numbers[place] : place;
    }
    return read && items_are(wanted, length);
}

/* Whether the number is the result of the row. After an error it is untouched. */
static int wanted_number(const struct row *row, uint64_t number)
{
    return number == (row->status == 0 ? strtoull(row->result, NULL, 10) : (uint64_t)UNTOUCHED);
}

/* The calls of every generator. S is the type of its state, without the prefix. */
#define CALLS(G, S)                                                                                \
    static int range_##G(const struct row *row, nanorand_##S *state)                               \
    {                                                                                              \
        const uint64_t first = row->numbers[0], last = row->numbers[1];                            \
        uint32_t narrow = UNTOUCHED;                                                               \
        uint64_t wide = UNTOUCHED;                                                                 \
        int64_t sign = UNTOUCHED;                                                                  \
        size_t place = UNTOUCHED;                                                                  \
        if (is(row->call, "range_u32")) {                                                          \
            return nanorand_##G##_range_u32(state, (uint32_t)first, (uint32_t)last, &narrow) == row->status \
                && wanted_number(row, narrow);                                                     \
        }                                                                                          \
        if (is(row->call, "range_u64")) {                                                          \
            return nanorand_##G##_range_u64(state, first, last, &wide) == row->status              \
                && wanted_number(row, wide);                                                       \
        }                                                                                          \
        if (is(row->call, "range_i64")) {                                                          \
            return nanorand_##G##_range_i64(state, (int64_t)first, (int64_t)last, &sign) == row->status \
                && wanted_number(row, (uint64_t)sign);                                             \
        }                                                                                          \
        return is(row->call, "range_usize")                                                        \
            && nanorand_##G##_range_usize(state, first, last, &place) == row->status               \
            && wanted_number(row, place);                                                          \
    }                                                                                              \
                                                                                                   \
    /* The sample with tables of several lengths, in one piece and in two, the first of which may be empty. */ \
    static int extend_sample_##G(const struct row *row, const nanorand_##S *start, const nanorand_##S *end) \
    {                                                                                              \
        const uint64_t count = row->numbers[0];                                                    \
        const size_t length = row->numbers[1], most = row->status == 0 ? length : 0;               \
        int holds = 1;                                                                             \
        for (size_t room = 0; room <= 3 * length; room += length / 2 + 1) {                        \
            for (size_t half = 0; half <= most; half += length / 2 + 1) {                          \
                nanorand_##S state = *start;                                                       \
                begin(length);                                                                     \
                holds = holds && (half == 0 || nanorand_##G##_extend_sample(&state, count - (length - half), \
                                                   inner_items, half, 0, table, room) == 0);       \
                holds = holds && nanorand_##G##_extend_sample(&state, count, inner_items, length, half, \
                                     table, room) == row->status                                   \
                    && wanted_items(row, length) && same_##S(&state, end);                         \
            }                                                                                      \
        }                                                                                          \
        return holds;                                                                              \
    }                                                                                              \
                                                                                                   \
    static int sample_##G(const struct row *row, nanorand_##S *state)                              \
    {                                                                                              \
        const nanorand_##S start = *state;                                                         \
        const size_t length = row->numbers[1];                                                     \
        begin(length);                                                                             \
        return nanorand_##G##_sample(state, row->numbers[0], inner_items, length) == row->status   \
            && wanted_items(row, length) && extend_sample_##G(row, &start, state);                 \
    }                                                                                              \
                                                                                                   \
    static int call_##G(const struct row *row, nanorand_##S *state)                                \
    {                                                                                              \
        const size_t length = row->numbers[0];                                                     \
        if (is(row->call, "u64")) {                                                                \
            return wanted_number(row, nanorand_##G##_u64(state));                                  \
        }                                                                                          \
        if (is(row->call, "fill_bytes")) {                                                         \
            begin(0);                                                                              \
            nanorand_##G##_fill_bytes(state, odd_bytes, length);                                   \
            return wanted_bytes(row, length);                                                      \
        }                                                                                          \
        if (is(row->call, "shuffle")) {                                                            \
            begin(length);                                                                         \
            return nanorand_##G##_shuffle(state, inner_items, length) == row->status               \
                && wanted_items(row, length);                                                      \
        }                                                                                          \
        if (is(row->call, "shuffle_full")) {                                                       \
            begin(length);                                                                         \
            return nanorand_##G##_shuffle_full(state, inner_items, length) == row->status          \
                && wanted_items(row, length);                                                      \
        }                                                                                          \
        if (is(row->call, "seed_from_u64")) {                                                      \
            nanorand_##G##_seed_from_u64(state, row->numbers[0]);                                  \
            return 1;                                                                              \
        }                                                                                          \
        return is(row->call, "sample") ? sample_##G(row, state) : range_##G(row, state);           \
    }

CALLS(wyrand, wyrand)
CALLS(pcg64, pcg64)
CALLS(chacha8, chacha)
CALLS(chacha12, chacha)
CALLS(chacha20, chacha)
CALLS(stream, stream)
CALLS(keystream, keystream)

/* The calls of some generators: parts of a stream, and further ones. */
#define PARTS(G, S)                                                                                \
    static int part_##G(const struct row *row, nanorand_##S *state)                                \
    {                                                                                              \
        return nanorand_##G##_part(state, row->numbers[0], row->numbers[1]) == row->status;        \
    }

PARTS(wyrand, wyrand)
PARTS(pcg64, pcg64)
PARTS(chacha8, chacha)
PARTS(chacha12, chacha)
PARTS(chacha20, chacha)
PARTS(keystream, keystream)

#define BLOCKS(G)                                                                                  \
    static int special_##G(const struct row *row, nanorand_chacha *state)                          \
    {                                                                                              \
        if (!is(row->call, "block")) {                                                             \
            return is(row->call, "part") ? part_##G(row, state) : call_##G(row, state);            \
        }                                                                                          \
        begin(0);                                                                                  \
        nanorand_##G##_block(state, odd_bytes);                                                    \
        return wanted_bytes(row, 64);                                                              \
    }

BLOCKS(chacha8)
BLOCKS(chacha12)
BLOCKS(chacha20)

static int special_wyrand(const struct row *row, nanorand_wyrand *state)
{
    if (is(row->call, "new_seed")) {
        *state = nanorand_wyrand_new_seed(row->numbers[0]);
        return 1;
    }
    if (is(row->call, "jump")) {
        nanorand_wyrand_jump(state, row->numbers[0]);
        return 1;
    }
    return is(row->call, "part") ? part_wyrand(row, state) : call_wyrand(row, state);
}

static int special_pcg64(const struct row *row, nanorand_pcg64 *state)
{
    if (is(row->call, "jump")) {
        const nanorand_pcg64 draws = {row->numbers[0], row->numbers[1]};
        nanorand_pcg64_jump(state, &draws);
        return draws.low == row->numbers[0] && draws.high == row->numbers[1];
    }
    return is(row->call, "part") ? part_pcg64(row, state) : call_pcg64(row, state);
}

static int special_stream(const struct row *row, nanorand_stream *state)
{
    return call_stream(row, state);
}

static int special_keystream(const struct row *row, nanorand_keystream *state)
{
    return is(row->call, "part") ? part_keystream(row, state) : call_keystream(row, state);
}

/* Whether a row holds for a generator. A call that sets a new state begins with the one that it leaves. */
#define ROWS(G, S)                                                                                 \
    static int holds_for_##G(const struct row *row)                                                \
    {                                                                                              \
        static uint8_t before[MOST], after[MOST];                                                  \
        const size_t left = read_bytes(row->after, after);                                         \
        const size_t given = read_bytes(is(row->before, "-") ? row->after : row->before, before);  \
        const nanorand_##S wanted = S##_of(after, left);                                           \
        nanorand_##S state = S##_of(before, given);                                                \
        return special_##G(row, &state) && same_##S(&state, &wanted);                              \
    }

ROWS(wyrand, wyrand)
ROWS(pcg64, pcg64)
ROWS(chacha8, chacha)
ROWS(chacha12, chacha)
ROWS(chacha20, chacha)
ROWS(stream, stream)
ROWS(keystream, keystream)

/* After status 2 the places are unchanged. After other errors the test does not look at them. */
static int draw(const struct row *row, const uint8_t *seed, size_t length)
{
    uint64_t numbers[2] = {0, 0};
    const char *comma = strchr(row->arguments, ',');
    if (comma == NULL || read_numbers(comma + 1, numbers, 2) != 2) {
        return 0;
    }
    begin(0);
    return nanorand_lots_draw(seed, length, inner_items, numbers[0], numbers[1]) == row->status
        && (row->status == 0 ? wanted_items(row, numbers[0]) : row->status != 2 || are_untouched(numbers[0]));
}

static int holds_for_lots(const struct row *row)
{
    static uint8_t text[MOST];
    const size_t length = read_bytes(row->arguments, text);
    size_t number = UNTOUCHED;
    if (is(row->call, "digest")) {
        begin(0);
        nanorand_lots_digest(text, length, odd_bytes);
        return wanted_bytes(row, 32);
    }
    if (is(row->call, "count")) {
        return nanorand_lots_count(text, length, &number) == row->status
            && number == strtoull(row->result, NULL, 10);
    }
    return is(row->call, "draw") && draw(row, text, length);
}

static const struct generator {
    const char *name;
    int (*holds)(const struct row *row);
} generators[] = {
    {"wyrand", holds_for_wyrand},     {"pcg64", holds_for_pcg64},       {"chacha8", holds_for_chacha8},
    {"chacha12", holds_for_chacha12}, {"chacha20", holds_for_chacha20}, {"stream", holds_for_stream},
    {"keystream", holds_for_keystream}, {"lots", holds_for_lots},       {NULL, NULL},
};

/* Counts the row of this number for the generator of this name. One that is not known fails. */
static void check_row(unsigned number, const char *name, const struct row *row)
{
    const struct generator *known = generators;
    while (known->name != NULL && !is(known->name, name)) {
        known++;
    }
    check(number, name, row->call, known->name != NULL && known->holds(row));
}

/* Splits a line at its tabs, whose place the ends of the columns take. A line with too few columns fails. */
static void check_line(unsigned number, char *line)
{
    char *columns[COLUMNS];
    struct row row;
    for (int column = 0; column < COLUMNS; column++) {
        columns[column] = line;
        line = strchr(line, column < COLUMNS - 1 ? '\t' : '\0');
        if (line == NULL) {
            check(number, columns[0], "columns", 0);
            return;
        }
        *line++ = '\0';
    }
    row.before = columns[1];
    row.call = columns[2];
    row.arguments = columns[3];
    row.status = (unsigned)atoi(columns[4]);
    row.result = columns[5];
    row.after = columns[6];
    memset(row.numbers, 0, sizeof row.numbers);
    read_numbers(row.arguments, row.numbers, NUMBERS);
    if (!is(columns[0], "stream") || !is(row.call, "part")) {
        check_row(number, columns[0], &row);
    }
    if (is(columns[0], "stream")) {
        check_row(number, "keystream", &row);
    }
}

int main(void)
{
    static char text[LONGEST];
    FILE *file = fopen("tests/answers/answers.tsv", "r");
    const size_t length = file == NULL ? 0 : fread(text, 1, LONGEST - 1, file);
    unsigned number = 1;
    char *end = NULL;
    if (file == NULL || fclose(file) != 0 || length == LONGEST - 1) {
        puts("the table cannot be read\n0 passed, 1 failed");
        return 1;
    }
    for (char *line = text; (end = strchr(line, '\n')) != NULL; line = end + 1) {
        *end = '\0';
        if (line[0] != '#') {
            check_line(number, line);
        }
        number++;
    }
    printf("%u passed, %u failed\n", passed, failed);
    return failed == 0 ? 0 : 1;
}
