/*
 * The fuzz target: an input is read as a case (fuzz/src/input.rs), the archive answers it, and the answer and every element of the table are compared
 * with the oracle's. Then jobs are drawn from the input's bytes, and krosstavel_batch answers these over the same lists: its answer, every record and
 * every element of the table are compared with what the single calls make of the jobs, one after the other.
 *
 * Each of the lists that are lent stands alone between two pages that nobody may touch. Each case is answered twice: with the lists' ends, then
 * with their beginnings, right at such a page, so that a read or write one element too far faults there. The two token lists are made read-only for
 * the call. A fault, a difference or a touched byte beside the table or the records ends the run with the input on file.
 */
#define _DEFAULT_SOURCE /* MAP_ANONYMOUS */
#include <stdio.h>
#include <stdlib.h>
#include <string.h>
#include <sys/mman.h>
#include <unistd.h>

#include "krosstavel.h"

/* As fuzz/src/linked.rs has them. */
struct view {
    uint32_t entry, separator, limit;
    const uint8_t *kinds;
    size_t kinds_len;
    const uint32_t *lens;
    size_t lens_len;
    const uint32_t *table;
    size_t table_len;
    uint32_t number, place, rows;
};
struct answered;
struct answered *fuzz_answer(const uint8_t *data, size_t size, struct view *view);
void fuzz_print(const struct answered *answered);
void fuzz_free(struct answered *answered);

enum entry { ROOT, EXPRS, FORMAT };
enum side { AT_END, AT_BEGIN, SIDES };

/* fuzz/src/input.rs cuts longer inputs. */
#define MOST_TOKENS 4096

/* One more than a night takes. */
#define MOST_JOBS (KROSSTAVEL_MOST_JOBS + 1)

/* Bytes between two pages that nobody may touch. */
struct lent {
    unsigned char *from;
    size_t size;
};

static struct lent kinds, lens, jobs, table;

static void die(const char *what)
{
    fprintf(stderr, "fuzz: %s\n", what);
    abort();
}

/* Whole pages that hold so many bytes, with one that cannot be touched on either side. */
static struct lent map(size_t bytes)
{
    size_t page = (size_t)sysconf(_SC_PAGESIZE);
    size_t size = (bytes + page - 1) / page * page;
    unsigned char *all = mmap(NULL, size + 2 * page, PROT_NONE, MAP_PRIVATE | MAP_ANONYMOUS, -1, 0);
    struct lent lent = {all + page, size};

    if (all == MAP_FAILED || mprotect(lent.from, size, PROT_READ | PROT_WRITE) != 0) {
        die("no memory");
    }
    return lent;
}

/* Where a list of so many bytes stands. */
static void *place(const struct lent *lent, enum side side, size_t bytes)
{
    if (bytes > lent->size) {
        die("a list is longer than was planned for");
    }
    return side == AT_END ? lent->from + lent->size - bytes : lent->from;
}

static void protect(const struct lent *lent, int protection)
{
    if (mprotect(lent->from, lent->size, protection) != 0) {
        die("mprotect");
    }
}

static const void *copied(const struct lent *lent, enum side side, const void *list, size_t bytes)
{
    void *at = place(lent, side, bytes);

    protect(lent, PROT_READ | PROT_WRITE);
    if (bytes != 0) {
        memcpy(at, list, bytes);
    }
    protect(lent, PROT_READ);
    return at;
}

static struct krosstavel_answer call(const struct view *v, const uint8_t *k, const uint32_t *l, uint32_t *t)
{
    switch (v->entry) {
    case ROOT:
        return krosstavel_root(k, v->kinds_len, l, v->lens_len, t, v->table_len, v->limit);
    case EXPRS:
        return krosstavel_exprs(k, v->kinds_len, l, v->lens_len, t, v->table_len, v->separator, v->limit);
    default:
        return krosstavel_format(k, v->kinds_len, l, v->lens_len, t, v->table_len, v->limit);
    }
}

/* What a byte holds before the call where something may be written, so that none left alone looks right. */
#define NOISE 0xa7

/* How far beside a list is looked at: further off, writes are caught by the pages alone. */
#define BESIDE 256

/* A list that is lent to be written to, and the bytes beside it that are looked at. */
struct written {
    unsigned char *first, *from, *to, *last;
};

static struct written noisy(const struct lent *lent, enum side side, size_t bytes)
{
    unsigned char *from = place(lent, side, bytes), *to = from + bytes;
    unsigned char *end = lent->from + lent->size;
    struct written w = {from - lent->from < BESIDE ? lent->from : from - BESIDE, from, to, end - to < BESIDE ? end : to + BESIDE};

    memset(w.first, NOISE, (size_t)(w.last - w.first));
    return w;
}

static int is_noise(const unsigned char *from, const unsigned char *to)
{
    for (; from < to; from++) {
        if (*from != NOISE) {
            return 0;
        }
    }
    return 1;
}

static int is_written_beside(const struct written *w)
{
    return !is_noise(w->first, w->from) || !is_noise(w->to, w->last);
}

static int is_other(struct krosstavel_answer want, struct krosstavel_answer got)
{
    if (got.number == want.number && got.place == want.place && got.rows == want.rows) {
        return 0;
    }
    fprintf(stderr, "fuzz: answered %u %u %u, not %u %u %u\n", got.number, got.place, got.rows, want.number, want.place, want.rows);
    return 1;
}

/* The archive's answer with the lists on one side; what is wrong with it, or NULL. */
static const char *wrong(const struct view *v, enum side side)
{
    const struct krosstavel_answer want = {v->number, v->place, v->rows};
    size_t bytes = v->table_len * sizeof(uint32_t);
    struct written t = noisy(&table, side, bytes);
    const uint8_t *k = copied(&kinds, side, v->kinds, v->kinds_len);
    const uint32_t *l = copied(&lens, side, v->lens, v->lens_len * sizeof(uint32_t));

    if (is_other(want, call(v, k, l, (uint32_t *)t.from))) {
        return "another answer than the oracle's";
    }
    if (bytes != 0 && memcmp(t.from, v->table, bytes) != 0) {
        return "another table than the oracle's";
    }
    if (is_written_beside(&t)) {
        return "written beside the table";
    }
    return NULL;
}

/* A night over a case's lists and table: its jobs, and what has to come of them. */
static struct {
    size_t jobs_len;
    struct krosstavel_job asked[MOST_JOBS], wanted[MOST_JOBS];
    struct krosstavel_answer answer;
    uint32_t table[KROSSTAVEL_ROOM(MOST_TOKENS) + BESIDE];
} night;

/* An input's bytes from the last to the first, and round again. */
struct bytes {
    const uint8_t *data;
    size_t size, left;
};

static uint32_t next(struct bytes *b)
{
    b->left = (b->left == 0 ? b->size : b->left) - 1;
    return b->data[b->left];
}

/* A number up to a bound. */
static uint32_t next_to(struct bytes *b, size_t most)
{
    uint32_t high = next(b);

    return (uint32_t)((high << 8 | next(b)) % (most + 1));
}

/* A job on tokens of a list: most ranges are inside, some one token too long, few so far off that their end would wrap. */
static struct krosstavel_job draw(struct bytes *b, size_t tokens)
{
    uint32_t how = next(b);
    struct krosstavel_job job = {how % 4, 0, 0, 0, 0, {NOISE, NOISE, NOISE}};

    job.separator = next(b) % 128;
    job.limit = next(b) + (how < 128);
    job.first = next_to(b, tokens);
    job.count = next_to(b, tokens - job.first + 1);
    if (how > 250) {
        job.first = UINT32_MAX - next(b);
    }
    return job;
}

/* What the call of the job's entry answers, the table's first elements being taken. */
static struct krosstavel_answer single(const struct view *v, const struct krosstavel_job *job, size_t taken)
{
    const struct krosstavel_answer refused = {KROSSTAVEL_REFUSED_JOB, 0, 0};
    const struct view one = {.entry = job->entry, .separator = job->separator, .limit = job->limit, .kinds_len = job->count, .lens_len = job->count,
        .table_len = v->table_len - taken};

    if (job->entry > FORMAT || (uint64_t)job->first + job->count > v->kinds_len) {
        return refused;
    }
    return call(&one, v->kinds + job->first, v->lens + job->first, night.table + taken);
}

/* Draws the jobs, up to seven or one too many, and answers them by the single calls, which are held to the oracle. */
static void plan(const struct view *v, const uint8_t *data, size_t size)
{
    struct bytes b = {data, size, 0};
    uint32_t many = next(&b);
    size_t at;

    if (v->table_len > sizeof night.table / sizeof night.table[0]) {
        die("a table is longer than was planned for");
    }
    night.jobs_len = many == 255 ? MOST_JOBS : many % 8;
    for (at = 0; at < night.jobs_len; at++) {
        night.asked[at] = night.wanted[at] = draw(&b, v->kinds_len);
    }
    memset(night.table, 0, v->table_len * sizeof(uint32_t));
    memset(&night.answer, 0, sizeof night.answer);
    if (night.jobs_len > KROSSTAVEL_MOST_JOBS) {
        night.answer.number = KROSSTAVEL_REFUSED_JOB;
    } else if (v->kinds_len != v->lens_len) {
        night.answer.number = KROSSTAVEL_REFUSED_LENGTHS;
    }
    for (at = 0; at < night.jobs_len && night.answer.number == 0; at++) {
        night.wanted[at].answer = single(v, &night.asked[at], night.answer.rows * (size_t)KROSSTAVEL_ROW);
        night.answer.rows += night.wanted[at].answer.rows;
    }
}

/* The archive's answer to the night with the lists on one side; what is wrong with it, or NULL. */
static const char *wrong_night(const struct view *v, enum side side)
{
    size_t size = night.jobs_len * sizeof(struct krosstavel_job), bytes = v->table_len * sizeof(uint32_t);
    struct written j = noisy(&jobs, side, size), t = noisy(&table, side, bytes);
    const uint8_t *k = copied(&kinds, side, v->kinds, v->kinds_len);
    const uint32_t *l = copied(&lens, side, v->lens, v->lens_len * sizeof(uint32_t));
    struct krosstavel_answer got;

    memcpy(j.from, night.asked, size);
    got = krosstavel_batch(k, v->kinds_len, l, v->lens_len, (struct krosstavel_job *)j.from, night.jobs_len, (uint32_t *)t.from, v->table_len);
    if (is_other(night.answer, got)) {
        return "another answer to a night than the single calls make";
    }
    if (memcmp(j.from, night.wanted, size) != 0) {
        return "other records than the single calls make";
    }
    if (bytes != 0 && memcmp(t.from, night.table, bytes) != 0) {
        return "another table of a night than the single calls make";
    }
    if (is_written_beside(&j) || is_written_beside(&t)) {
        return "written beside the records or the table";
    }
    return NULL;
}

int LLVMFuzzerInitialize(int *argc, char ***argv)
{
    (void)argc;
    (void)argv;
    kinds = map(MOST_TOKENS);
    lens = map(MOST_TOKENS * sizeof(uint32_t));
    jobs = map(MOST_JOBS * sizeof(struct krosstavel_job) + BESIDE);
    table = map(KROSSTAVEL_ROOM(MOST_TOKENS) * sizeof(uint32_t) + BESIDE);
    return 0;
}

static const char *on_both_sides(const char *(*wrong_with)(const struct view *, enum side), const struct view *v)
{
    const char *what = NULL;
    enum side side;

    for (side = AT_END; side < SIDES && what == NULL; side++) {
        what = wrong_with(v, side);
    }
    return what;
}

int LLVMFuzzerTestOneInput(const uint8_t *data, size_t size)
{
    struct view view;
    struct answered *answered = fuzz_answer(data, size, &view);
    const char *what;

    if (answered == NULL) {
        return -1;
    }
    what = on_both_sides(wrong, &view);
    if (what == NULL) {
        plan(&view, data, size);
        what = on_both_sides(wrong_night, &view);
    }
    if (what != NULL) {
        fuzz_print(answered);
        die(what);
    }
    fuzz_free(answered);
    return 0;
}
