/* The search and the notes at their full depth on a small stack, to be run under `ulimit -s 256`. It prints a line for
 * each, and gives status 1 if one does not hold.
 * Searched: of 24 operations each comes behind the one before it, and 16 instances cost nothing. So the walk goes
 * straight down to all 24 placed, operation i in step i + 1, and that plan is the best; on the way back up every option
 * left is visited once, and the walk goes no further from it.
 * Noted: 24 operations in four rows of six, each row on a free instance of its own, where it just fills the 31 steps. The
 * last operation of all finds no free instance, and what it costs is the claim. So the note follows each row down to its
 * end, and closes wherever an operation is placed on an instance that is not free. */
#include <stdio.h>
#include <string.h>

#include "tolmupung.h"

enum { N = TOLMUPUNG_OP_CELLS, K = TOLMUPUNG_INST_CELLS, STEPS = 31, COPIES_OF_TYPE_0 = 7 };

/* Of the job that is noted: a row's first five operations take five steps each and are of one kind, its last takes six
 * and is of another. */
enum { ROWS = 4, ROW = 6, SHORT = 5, LONG = 6, DEAR = 7, LAST_OF_ALL = 5, COST = 9 };

/* Sheets and notes are kept off the stack. */
static uint8_t sheet[TOLMUPUNG_JOB_BYTES], planned[TOLMUPUNG_PLAN_BYTES], noted[TOLMUPUNG_NOTE_BYTES];
static int failed = 0;

static void check(int holds, const char *what, uint32_t amount, const char *unit)
{
    printf("%s: 24 operations placed by %s of %u %s\n", holds ? "as expected" : "does not hold", what,
           (unsigned)amount, unit);
    failed = failed || !holds;
}

/* 64 links: to the next operation, to the one behind it, and from the first 19 to the third. */
static void put_links(tolmupung_job *job)
{
    uint16_t from, gap;
    for (from = 0; from < N; from++) {
        for (gap = 1; gap <= 3; gap++) {
            if (from + gap < N && (gap < 3 || from < 19)) {
                job->from[job->e] = from;
                job->to[job->e++] = (uint16_t)(from + gap);
            }
        }
    }
}

/* An operation fills its step. */
static tolmupung_job deep_job(void)
{
    static const uint16_t copies[3] = {COPIES_OF_TYPE_0, 7, 2};
    tolmupung_job job;
    int type;
    memset(&job, 0, sizeof job);
    job.n = N, job.m = 3, job.t = STEPS, job.clock = 100;
    put_links(&job);
    for (type = 0; type < 3; type++) {
        job.copies[type] = copies[type];
        job.times[TOLMUPUNG_KINDS * type] = job.intervals[TOLMUPUNG_KINDS * type] = 100;
    }
    return job;
}

/* The empty start, and for operation i the steps from i + 1 on, on every instance. */
static uint32_t visits_of_the_walk(void)
{
    uint32_t visits = 1;
    int op;
    for (op = 0; op < N; op++)
        visits += K * (uint32_t)(STEPS - op);
    return visits;
}

static int is_the_first_plan(const tolmupung_plan *plan)
{
    int holds = plan->n == N && plan->k == K;
    int op, inst;
    for (op = 0; op < N; op++)
        holds = holds && plan->starts[op] == op + 1 && plan->insts[op] == 0;
    for (inst = 0; inst < K; inst++)
        holds = holds && plan->selection[inst] == (inst < COPIES_OF_TYPE_0);
    return holds;
}

static void search(void)
{
    uint32_t visits = visits_of_the_walk();
    tolmupung_answer written = tolmupung_write_job(deep_job(), sheet, sizeof sheet);
    tolmupung_answer spent = tolmupung_search(sheet, written.length, visits - 1, planned, sizeof planned);
    tolmupung_answer found = tolmupung_search(sheet, written.length, visits, planned, sizeof planned);
    tolmupung_plan plan = tolmupung_read_plan(planned, found.length).plan;
    check(spent.outcome == TOLMUPUNG_SPENT && spent.visits == visits - 1 && found.outcome == TOLMUPUNG_FOUND &&
              found.cost == 0 && found.visits == visits && is_the_first_plan(&plan),
          "a search", visits, "visits");
}

static void can_do(tolmupung_job *job, int type, int kind)
{
    int cell = TOLMUPUNG_KINDS * type + kind;
    job->times[cell] = kind % 2 ? LONG : SHORT;
    job->intervals[cell] = SHORT;
}

static void add_type(tolmupung_job *job, uint16_t cost, uint16_t copies, int first_kind, int last_kind)
{
    int kind, type = job->m++;
    job->costs[type] = cost, job->copies[type] = copies;
    for (kind = first_kind; kind <= last_kind; kind++)
        can_do(job, type, kind);
}

/* The kinds of row r are 2 r and 2 r + 1; a step is 1 ns. */
static tolmupung_job job_in_rows(void)
{
    tolmupung_job job;
    int op, row;
    memset(&job, 0, sizeof job);
    job.n = N, job.t = STEPS, job.clock = 1;
    for (op = 0; op < N; op++) {
        int is_last = op % ROW == ROW - 1;
        job.kinds[op] = (uint16_t)(op / ROW * 2 + is_last);
        if (!is_last)
            job.from[job.e] = (uint16_t)op, job.to[job.e++] = (uint16_t)(op + 1);
    }
    for (row = 0; row < ROWS; row++)
        add_type(&job, 0, 1, 2 * row, row < ROWS - 1 ? 2 * row + 1 : 2 * row);
    add_type(&job, COST, DEAR, 0, TOLMUPUNG_KINDS - 1);
    add_type(&job, COST, LAST_OF_ALL, TOLMUPUNG_KINDS - 1, TOLMUPUNG_KINDS - 1);
    return job;
}

/* Every row from step 1 on, on its own instance; only the last operation of all on the last instance. */
static tolmupung_plan plan_in_rows(void)
{
    tolmupung_plan plan;
    int op, row;
    memset(&plan, 0, sizeof plan);
    plan.n = N, plan.k = K;
    for (op = 0; op < N; op++)
        plan.starts[op] = (uint16_t)(1 + SHORT * (op % ROW)), plan.insts[op] = (uint16_t)(op / ROW);
    for (row = 0; row < ROWS; row++)
        plan.selection[row] = 1;
    plan.insts[N - 1] = K - 1, plan.selection[K - 1] = 1;
    return plan;
}

/* The bits of the house note from a place on, with the operations before op placed on free instances and op to start in
 * this step or later: its split, and for each start what follows on the free instance, and a bit for each dear one. */
static uint32_t bits_from(int op, int first)
{
    int is_last = op % ROW == ROW - 1, delay = is_last ? LONG : SHORT, start;
    uint32_t bits = 6;
    if (op == N - 1)
        return bits;
    for (start = first; start + delay - 1 <= STEPS; start++)
        bits += DEAR + bits_from(op + 1, is_last ? 1 : start + delay);
    return bits;
}

static void note(void)
{
    uint32_t bytes = (5 + bits_from(0, 1) + 7) / 8;
    uint32_t job = tolmupung_write_job(job_in_rows(), sheet, sizeof sheet).length;
    uint32_t plan = tolmupung_write_plan(plan_in_rows(), planned, sizeof planned).length;
    tolmupung_answer shorter = tolmupung_write_note(sheet, job, planned, plan, noted, bytes - 1);
    tolmupung_answer written = tolmupung_write_note(sheet, job, planned, plan, noted, sizeof noted);
    tolmupung_answer checked = tolmupung_check_note(sheet, job, planned, plan, noted, written.length);
    tolmupung_answer cut = tolmupung_check_note(sheet, job, planned, plan, noted, bytes - 1);
    check(shorter.outcome == TOLMUPUNG_REFUSED && shorter.number == TOLMUPUNG_OUTPUT_SHORT &&
              written.outcome == TOLMUPUNG_WRITTEN && written.length == bytes,
          "the writing of a note", bytes, "bytes");
    check(checked.outcome == TOLMUPUNG_CHEAPEST && checked.cost == COST && cut.outcome == TOLMUPUNG_REFUSED &&
              cut.number == TOLMUPUNG_BITS_RUN_OUT,
          "the check of a note", bytes, "bytes");
}

int main(void)
{
    search();
    note();
    return failed;
}
