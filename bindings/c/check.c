/*
 * check: krosstavel.h against the archive. Stored token lists, one accepted in each entry and three that are refused, and stored nights of jobs over
 * lists that they share. Number, place, row count, every element of the table and every field of the records are compared, and the elements and records
 * beside them have to stay as they were. Exit status 0: all as stored.
 */
#include <stdio.h>
#include <string.h>

#include "krosstavel.h"

#define COUNT(array) (sizeof(array) / sizeof((array)[0]))

/* An answer of three numbers and a record of eight with no gap, as the archive has them. (An array of -1 elements does not compile.) */
#define FIELDS 8
typedef char answer_is_three_numbers[sizeof(struct krosstavel_answer) == 3 * sizeof(uint32_t) ? 1 : -1];
typedef char job_is_eight_numbers[sizeof(struct krosstavel_job) == FIELDS * sizeof(uint32_t) ? 1 : -1];

enum { ROOT = KROSSTAVEL_ENTRY_ROOT, EXPRS = KROSSTAVEL_ENTRY_EXPRS, FORMAT = KROSSTAVEL_ENTRY_FORMAT, NO_ENTRY };

#define MOST_TOKENS 8
#define MOST_ROWS 14

/* Odd elements at a table's end, which become zero, and elements and records on either side, which nobody may touch. */
#define ODD 3
#define ELEMENTS(rows) ((rows) * (size_t)KROSSTAVEL_ROW + ODD)
#define BESIDE 8
#define NOISE(at) (0xdeadbeefu + (uint32_t)(at))

struct stored {
    const char *text;
    uint32_t entry;
    uint32_t limit;
    size_t tokens;
    uint8_t kinds[MOST_TOKENS];
    uint32_t lens[MOST_TOKENS];
    struct krosstavel_answer answer;
    uint32_t rows[MOST_ROWS][KROSSTAVEL_ROW];
};

/* Kinds by short names, to read the lists below. */
enum {
    ident = KROSSTAVEL_KIND_IDENT,
    number = KROSSTAVEL_KIND_NUMBER,
    space = KROSSTAVEL_KIND_WHITESPACE,
    plus = KROSSTAVEL_KIND_PLUS,
    eqeq = KROSSTAVEL_KIND_EQ_EQ,
    let = KROSSTAVEL_KIND_LET,
    equal = KROSSTAVEL_KIND_EQUAL,
    semicolon = KROSSTAVEL_KIND_SEMICOLON,
    colon = KROSSTAVEL_KIND_COLON,
    pound = KROSSTAVEL_KIND_POUND,
    bracket = KROSSTAVEL_KIND_OPEN_BRACKET,
    Root = KROSSTAVEL_KIND_ROOT,
    Expr = KROSSTAVEL_KIND_EXPR,
    Local = KROSSTAVEL_KIND_LOCAL,
    Pat = KROSSTAVEL_KIND_PAT,
    Path = KROSSTAVEL_KIND_PATH,
    Lit = KROSSTAVEL_KIND_LIT,
    ExprBinary = KROSSTAVEL_KIND_EXPR_BINARY,
    ExprOperator = KROSSTAVEL_KIND_EXPR_OPERATOR
};

static const struct stored all[] = {
    {"a + b", EXPRS, 256, 5, {ident, space, plus, space, ident}, {1, 1, 1, 1, 1}, {0, 0, 11},
        {{ident, 0, 0, 1}, {Path, 1, 0, 1}, {space, 0, 1, 1}, {plus, 0, 2, 1}, {ExprOperator, 1, 2, 1}, {space, 0, 3, 1}, {ident, 0, 4, 1},
            {Path, 1, 4, 1}, {ExprBinary, 8, 0, 5}, {Expr, 9, 0, 5}, {Root, 10, 0, 5}}},
    {"let a = 1;", ROOT, 256, 8, {let, space, ident, space, equal, space, number, semicolon}, {3, 1, 1, 1, 1, 1, 1, 1}, {0, 0, 14},
        {{let, 0, 0, 3}, {space, 0, 3, 1}, {ident, 0, 4, 1}, {Path, 1, 4, 1}, {Pat, 2, 4, 1}, {space, 0, 5, 1}, {equal, 0, 6, 1}, {space, 0, 7, 1},
            {number, 0, 8, 1}, {Lit, 1, 8, 1}, {Expr, 2, 8, 1}, {Local, 11, 0, 9}, {semicolon, 0, 9, 1}, {Root, 13, 0, 10}}},
    {"a:1", FORMAT, 256, 3, {ident, colon, number}, {1, 1, 1}, {0, 0, 6},
        {{ident, 0, 0, 1}, {Path, 1, 0, 1}, {Expr, 2, 0, 1}, {colon, 0, 1, 1}, {number, 0, 2, 1}, {Root, 5, 0, 3}}},
    {"a==b==c", EXPRS, 256, 5, {ident, eqeq, ident, eqeq, ident}, {1, 2, 1, 2, 1}, {KROSSTAVEL_REFUSED_GROUPING, 2, 0}, {{0}}},
    {"# [", ROOT, 256, 3, {pound, space, bracket}, {1, 1, 1}, {KROSSTAVEL_REFUSED_STUCK, 0, 0}, {{0}}},
    {"a, at limit 1", FORMAT, 1, 1, {ident}, {1}, {KROSSTAVEL_REFUSED_DEPTH, 0, 0}, {{0}}},
};

/* The lists that the nights share: `a + b`, `a==b==c`, `let a = 1;` and `a:1`, one behind the other. */
#define SHARED 21
static const uint8_t shared_kinds[SHARED] = {ident, space, plus, space, ident, ident, eqeq, ident, eqeq, ident, let, space, ident, space, equal, space,
    number, semicolon, ident, colon, number};
static const uint32_t shared_lens[SHARED] = {1, 1, 1, 1, 1, 1, 2, 1, 2, 1, 3, 1, 1, 1, 1, 1, 1, 1, 1, 1, 1};

/* A job as it has to be after the call, and the rows that it takes. */
struct stored_job {
    struct krosstavel_job record;
    const uint32_t (*rows)[KROSSTAVEL_ROW];
};

static const uint32_t lone_root[1][KROSSTAVEL_ROW] = {{Root, 0, 0, 0}};

static const struct stored_job mixed[] = {
    {{EXPRS, KROSSTAVEL_KIND_COMMA, 256, 0, 5, {0, 0, 11}}, all[0].rows},
    {{NO_ENTRY, 0, 256, 0, 5, {KROSSTAVEL_REFUSED_JOB, 0, 0}}, NULL},
    {{EXPRS, KROSSTAVEL_KIND_COMMA, 256, 5, 5, {KROSSTAVEL_REFUSED_GROUPING, 2, 0}}, NULL},
    {{EXPRS, space, 256, 0, 5, {KROSSTAVEL_REFUSED_SETTING, 0, 0}}, NULL},
    {{FORMAT, 0, 256, 18, 3, {0, 0, 6}}, all[2].rows},
    {{ROOT, 0, 256, 10, 12, {KROSSTAVEL_REFUSED_JOB, 0, 0}}, NULL},         /* one token too many */
    {{ROOT, 0, 0, SHARED + 1, 0, {KROSSTAVEL_REFUSED_JOB, 0, 0}}, NULL},    /* begins behind the end; tried before the limit */
    {{ROOT, 0, 256, 0xffffffffu, 2, {KROSSTAVEL_REFUSED_JOB, 0, 0}}, NULL}, /* does not wrap round to one token */
    {{ROOT, 0, 256, SHARED, 0, {0, 0, 1}}, lone_root},
    {{ROOT, 0, 256, 10, 8, {0, 0, 14}}, all[1].rows},
};

/* Seventeen rows: the second job needs fourteen and finds six, the third takes them, and none is left for the last. */
static const struct stored_job full[] = {
    {{EXPRS, KROSSTAVEL_KIND_COMMA, 256, 0, 5, {0, 0, 11}}, all[0].rows},
    {{ROOT, 0, 256, 10, 8, {KROSSTAVEL_REFUSED_ROOM, 4, 0}}, NULL},
    {{FORMAT, 0, 256, 18, 3, {0, 0, 6}}, all[2].rows},
    {{ROOT, 0, 256, 0, 0, {KROSSTAVEL_REFUSED_ROOM, 0, 0}}, NULL},
};

static const struct stored_job empty[] = {{{ROOT, 0, 256, 0, 0, {0, 0, 1}}, lone_root}};

struct stored_night {
    const char *text;
    size_t lens_len;
    size_t table_len;
    const struct stored_job *jobs; /* so many different ones, by turns */
    size_t different;
    size_t jobs_len;
    struct krosstavel_answer answer;
};

static const struct stored_night nights[] = {
    {"accepted and refused jobs", SHARED, ELEMENTS(40), mixed, COUNT(mixed), COUNT(mixed), {0, 0, 32}},
    {"a table that runs full", SHARED, ELEMENTS(17), full, COUNT(full), COUNT(full), {0, 0, 17}},
    {"no jobs", SHARED, ELEMENTS(4), empty, 1, 0, {0, 0, 0}},
    {"400 jobs", SHARED, ELEMENTS(400), empty, 1, 400, {0, 0, 400}},
    {"401 jobs", SHARED, ELEMENTS(401), empty, 1, 401, {KROSSTAVEL_REFUSED_JOB, 0, 0}},
    {"lists that differ", SHARED - 1, ELEMENTS(40), mixed, COUNT(mixed), COUNT(mixed), {KROSSTAVEL_REFUSED_LENGTHS, 0, 0}},
    {"401 jobs over lists that differ", SHARED - 1, ELEMENTS(4), empty, 1, 401, {KROSSTAVEL_REFUSED_JOB, 0, 0}},
};

/* The largest table and the most records, and what stands beside them. */
static uint32_t elements[BESIDE + ELEMENTS(401) + BESIDE];
static uint32_t *const table = elements + BESIDE;
static struct krosstavel_job records[BESIDE + KROSSTAVEL_MOST_JOBS + 1 + BESIDE];
static struct krosstavel_job *const jobs = records + BESIDE;

/* What the table has to hold: the rows so far, and zeros behind them. */
static uint32_t wanted[ELEMENTS(401)];
static size_t wanted_len;

static void begin(void)
{
    size_t at;

    for (at = 0; at < COUNT(elements); at++) {
        elements[at] = NOISE(at);
    }
    memset(wanted, 0, sizeof wanted);
    wanted_len = 0;
}

static void want_rows(const uint32_t rows[][KROSSTAVEL_ROW], uint32_t count)
{
    size_t size = count * (size_t)KROSSTAVEL_ROW;

    if (size != 0) {
        memcpy(wanted + wanted_len, rows, size * sizeof(uint32_t));
        wanted_len += size;
    }
}

/* One comparison; 1 if it fails. */
static int differs(const char *text, const char *what, size_t at, uint32_t want, uint32_t got)
{
    if (want == got) {
        return 0;
    }
    printf("%s: %s %lu: stored %lu, answered %lu\n", text, what, (unsigned long)at, (unsigned long)want, (unsigned long)got);
    return 1;
}

/* How many things differ, here and below. */
static int check_answer(const char *text, struct krosstavel_answer want, struct krosstavel_answer got)
{
    return differs(text, "number", 0, want.number, got.number) + differs(text, "place", 0, want.place, got.place)
        + differs(text, "rows", 0, want.rows, got.rows);
}

static int check_table(const char *text, size_t table_len)
{
    size_t at;
    int bad = 0;

    for (at = 0; at < table_len; at++) {
        bad += differs(text, "element", at, wanted[at], table[at]);
    }
    for (at = 0; at < BESIDE; at++) {
        bad += differs(text, "before the table", at, NOISE(at), elements[at]);
    }
    for (at = BESIDE + table_len; at < COUNT(elements); at++) {
        bad += differs(text, "behind the table", at, NOISE(at), elements[at]);
    }
    return bad;
}

static struct krosstavel_answer call(const struct stored *s, size_t table_len)
{
    switch (s->entry) {
    case ROOT:
        return krosstavel_root(s->kinds, s->tokens, s->lens, s->tokens, table, table_len, s->limit);
    case EXPRS:
        return krosstavel_exprs(s->kinds, s->tokens, s->lens, s->tokens, table, table_len, KROSSTAVEL_KIND_COMMA, s->limit);
    default:
        return krosstavel_format(s->kinds, s->tokens, s->lens, s->tokens, table, table_len, s->limit);
    }
}

static int check(const struct stored *s)
{
    struct krosstavel_answer got;

    begin();
    want_rows(s->rows, s->answer.rows);
    got = call(s, ELEMENTS(MOST_ROWS));
    return check_answer(s->text, s->answer, got) + check_table(s->text, ELEMENTS(MOST_ROWS));
}

static const struct stored_job *job_of(const struct stored_night *n, size_t at)
{
    return &n->jobs[at % n->different];
}

/* A record as it stands before the call: what is asked, where there is a job, and noise. */
static struct krosstavel_job before(const struct stored_night *n, size_t at)
{
    const struct krosstavel_answer noise = {NOISE(at), NOISE(at + 1), NOISE(at + 2)};
    struct krosstavel_job job = {NOISE(at), NOISE(at), NOISE(at), NOISE(at), NOISE(at), {0, 0, 0}};

    if (at >= BESIDE && at < BESIDE + n->jobs_len) {
        job = job_of(n, at - BESIDE)->record;
    }
    job.answer = noise;
    return job;
}

/* As it has to stand after the call: a refusal of the whole changes none. */
static struct krosstavel_job after(const struct stored_night *n, size_t at)
{
    struct krosstavel_job job = before(n, at);

    if (n->answer.number == 0 && at >= BESIDE && at < BESIDE + n->jobs_len) {
        job.answer = job_of(n, at - BESIDE)->record.answer;
    }
    return job;
}

static int check_record(const char *text, size_t at, struct krosstavel_job want, struct krosstavel_job got)
{
    uint32_t wants[FIELDS], gots[FIELDS];
    size_t field;
    int bad = 0;

    memcpy(wants, &want, sizeof want);
    memcpy(gots, &got, sizeof got);
    for (field = 0; field < FIELDS; field++) {
        bad += differs(text, "record's field", at * FIELDS + field, wants[field], gots[field]);
    }
    return bad;
}

static int check_night(const struct stored_night *n)
{
    struct krosstavel_answer got;
    size_t at;
    int bad;

    begin();
    for (at = 0; at < COUNT(records); at++) {
        records[at] = before(n, at);
    }
    for (at = 0; at < n->jobs_len && n->answer.number == 0; at++) {
        want_rows(job_of(n, at)->rows, job_of(n, at)->record.answer.rows);
    }
    got = krosstavel_batch(shared_kinds, SHARED, shared_lens, n->lens_len, jobs, n->jobs_len, table, n->table_len);
    bad = check_answer(n->text, n->answer, got) + check_table(n->text, n->table_len);
    for (at = 0; at < COUNT(records); at++) {
        bad += check_record(n->text, at, after(n, at), records[at]);
    }
    return bad;
}

int main(void)
{
    size_t at;
    int bad = 0;

    for (at = 0; at < COUNT(all); at++) {
        bad += check(&all[at]);
    }
    for (at = 0; at < COUNT(nights); at++) {
        bad += check_night(&nights[at]);
    }
    printf("check: %lu stored lists, %lu stored nights, %d differences\n", (unsigned long)COUNT(all), (unsigned long)COUNT(nights), bad);
    return bad != 0;
}
