/*
 * Sixteen ways for a call to go wrong, the last six for a night, one of them chosen by FAULT (0: none), round the archive's own. `tools/fuzz` tries
 * each: the target has to see it. The linker puts these in place of the calls (--wrap).
 */
#include <stdlib.h>

#include "krosstavel.h"

enum {
    NONE,
    READS_BEHIND_KINDS,
    READS_BEFORE_KINDS,
    READS_BEHIND_LENS,
    READS_BEFORE_LENS,
    WRITES_BEHIND_TABLE,
    WRITES_BEFORE_TABLE,
    WRITES_KINDS,
    WRITES_LENS,
    OTHER_PLACE,
    OTHER_ELEMENT,
    WRITES_BEHIND_JOBS,
    WRITES_BEFORE_JOBS,
    OTHER_ASKED,
    OTHER_JOB_PLACE,
    OTHER_NIGHT_ROWS,
    OTHER_NIGHT_ELEMENT
};

static int fault(void)
{
    const char *given = getenv("FAULT");
    return given == NULL ? NONE : atoi(given);
}

/* Before the call. */
static void stray(const uint8_t *kinds, size_t kinds_len, const uint32_t *lens, size_t lens_len, uint32_t *table, size_t table_len)
{
    volatile uint8_t *k = (volatile uint8_t *)kinds;
    volatile uint32_t *l = (volatile uint32_t *)lens;
    volatile uint32_t *t = table;

    switch (fault()) {
    case READS_BEHIND_KINDS:
        (void)k[kinds_len];
        break;
    case READS_BEFORE_KINDS:
        (void)k[-1];
        break;
    case READS_BEHIND_LENS:
        (void)l[lens_len];
        break;
    case READS_BEFORE_LENS:
        (void)l[-1];
        break;
    case WRITES_BEHIND_TABLE:
        t[table_len] = 0;
        break;
    case WRITES_BEFORE_TABLE:
        t[-1] = 0;
        break;
    case WRITES_KINDS:
        k[0] = 1;
        break;
    case WRITES_LENS:
        l[0] = 1;
        break;
    }
}

/* After it. */
static struct krosstavel_answer altered(struct krosstavel_answer answer, uint32_t *table, size_t table_len)
{
    if (fault() == OTHER_PLACE) {
        answer.place++;
    }
    if (fault() == OTHER_ELEMENT) {
        table[table_len - 1]++;
    }
    return answer;
}

#define LISTS const uint8_t *kinds, size_t kinds_len, const uint32_t *lens, size_t lens_len, uint32_t *table, size_t table_len
#define LENT kinds, kinds_len, lens, lens_len, table, table_len

struct krosstavel_answer __real_krosstavel_root(LISTS, uint32_t limit);
struct krosstavel_answer __real_krosstavel_exprs(LISTS, uint32_t separator, uint32_t limit);
struct krosstavel_answer __real_krosstavel_format(LISTS, uint32_t limit);

struct krosstavel_answer __wrap_krosstavel_root(LISTS, uint32_t limit)
{
    stray(LENT);
    return altered(__real_krosstavel_root(LENT, limit), table, table_len);
}

struct krosstavel_answer __wrap_krosstavel_exprs(LISTS, uint32_t separator, uint32_t limit)
{
    stray(LENT);
    return altered(__real_krosstavel_exprs(LENT, separator, limit), table, table_len);
}

struct krosstavel_answer __wrap_krosstavel_format(LISTS, uint32_t limit)
{
    stray(LENT);
    return altered(__real_krosstavel_format(LENT, limit), table, table_len);
}

/* After the call of a night, which has a job at least. */
static struct krosstavel_answer altered_night(
    struct krosstavel_answer answer, struct krosstavel_job *jobs, size_t jobs_len, uint32_t *table, size_t table_len)
{
    volatile struct krosstavel_job *j = jobs;

    switch (fault()) {
    case WRITES_BEHIND_JOBS:
        j[jobs_len].entry = 0;
        break;
    case WRITES_BEFORE_JOBS:
        j[-1].answer.rows = 0;
        break;
    case OTHER_ASKED:
        j[0].limit++;
        break;
    case OTHER_JOB_PLACE:
        j[jobs_len - 1].answer.place++;
        break;
    case OTHER_NIGHT_ROWS:
        answer.rows++;
        break;
    case OTHER_NIGHT_ELEMENT:
        table[table_len - 1]++;
        break;
    }
    return answer;
}

#define NIGHT \
    const uint8_t *kinds, size_t kinds_len, const uint32_t *lens, size_t lens_len, struct krosstavel_job *jobs, size_t jobs_len, uint32_t *table, \
        size_t table_len

struct krosstavel_answer __real_krosstavel_batch(NIGHT);

struct krosstavel_answer __wrap_krosstavel_batch(NIGHT)
{
    struct krosstavel_answer answer = __real_krosstavel_batch(kinds, kinds_len, lens, lens_len, jobs, jobs_len, table, table_len);
    return altered_night(answer, jobs, jobs_len, table, table_len);
}
