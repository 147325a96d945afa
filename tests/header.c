/* The header against the library: the records' layout, every entry, the records' cells told apart, and NULL.
 * Compiled as C and as C++. It prints each check that fails, and gives status 1 if one did. */
#include <stddef.h>
#include <stdio.h>
#include <string.h>

#include "tolmupung.h"

static int failed = 0;

static void check(int holds, const char *what)
{
    if (!holds) {
        printf("does not hold: %s\n", what);
        failed = 1;
    }
}

static int is(tolmupung_answer a, uint32_t outcome, uint32_t number, uint32_t paper, uint32_t cost, uint32_t visits,
              uint32_t length)
{
    return a.outcome == outcome && a.number == number && a.paper == paper && a.cost == cost && a.visits == visits &&
           a.length == length;
}

static int answers(tolmupung_answer a, uint32_t outcome, uint32_t number, uint32_t paper, uint32_t length)
{
    return is(a, outcome, number, paper, 0, 0, length);
}

static void layout(void)
{
    check(sizeof(tolmupung_answer) == 24, "an answer is six 32-bit numbers");
    check(sizeof(tolmupung_job) == 604 && offsetof(tolmupung_job, kinds) == 12, "a job is 302 numbers of 16 bits");
    check(sizeof(tolmupung_plan) == 132 && offsetof(tolmupung_plan, selection) == 4, "a plan is 66 numbers of 16 bits");
    check(offsetof(tolmupung_job_read, job) == 24 && offsetof(tolmupung_plan_read, plan) == 24,
          "the record follows the answer");
}

/* Every name of a number, an outcome, a paper and a length, against document 01. */
static void numbers(void)
{
    check(TOLMUPUNG_REFUSED == 0 && TOLMUPUNG_PASSED == 1 && TOLMUPUNG_FOUND == 2 && TOLMUPUNG_NONE == 3 &&
              TOLMUPUNG_SPENT == 4 && TOLMUPUNG_CHEAPEST == 5 && TOLMUPUNG_WRITTEN == 6 && TOLMUPUNG_READ == 7,
          "the outcomes");
    check(TOLMUPUNG_PAPER_JOB == 0 && TOLMUPUNG_PAPER_PLAN == 1 && TOLMUPUNG_PAPER_NOTE == 2 &&
              TOLMUPUNG_PAPER_DOSSIER == 3 && TOLMUPUNG_PAPER_REQUEST == 4,
          "the papers");
    check(TOLMUPUNG_JOB_BYTES == 274 && TOLMUPUNG_PLAN_BYTES == 31 && TOLMUPUNG_NOTE_BYTES == 60000 &&
              TOLMUPUNG_DOSSIER_BYTES == 65536,
          "the lengths");
    check(TOLMUPUNG_BITS_RUN_OUT == 1 && TOLMUPUNG_FORM_DIFFERS == 2 && TOLMUPUNG_OUTSIDE_LIMIT == 3 &&
              TOLMUPUNG_LINK_BROKEN == 4 && TOLMUPUNG_TYPE_BROKEN == 5 && TOLMUPUNG_FILL_BROKEN == 6 &&
              TOLMUPUNG_RECORD_BROKEN == 7,
          "the numbers of sheets");
    check(TOLMUPUNG_COUNTS_DIFFER == 10 && TOLMUPUNG_ORDER_BROKEN == 11 && TOLMUPUNG_ROW_INSTANCE == 12 &&
              TOLMUPUNG_ROW_KIND == 13 && TOLMUPUNG_ROW_UNSELECTED == 14 && TOLMUPUNG_ROW_STEP == 15 &&
              TOLMUPUNG_PRECEDENCE_BROKEN == 16 && TOLMUPUNG_RESOURCE_BROKEN == 17 && TOLMUPUNG_CHAIN_BROKEN == 18,
          "the numbers of judging");
    check(TOLMUPUNG_DISTANCE_FAR == 20 && TOLMUPUNG_MOVED_OUT == 21 && TOLMUPUNG_OUTPUT_SHORT == 22,
          "the numbers of slides");
    check(TOLMUPUNG_BUDGET_SPENT == 30 && TOLMUPUNG_NO_PLAN == 31, "the numbers of the search");
    check(TOLMUPUNG_NOTE_LONG == 40 && TOLMUPUNG_VERDICT_DIFFERS == 41 && TOLMUPUNG_SPLIT_BROKEN == 42 &&
              TOLMUPUNG_CLOSE_BROKEN == 43 && TOLMUPUNG_CHEAPER == 44,
          "the numbers of notes");
    check(TOLMUPUNG_LENGTHS_DIFFER == 50 && TOLMUPUNG_DOSSIER_LONG == 51, "the numbers of dossiers");
}

/* A job whose every used cell differs from its neighbours, so that no two tables can be taken for one another. */
static tolmupung_job some_job(void)
{
    tolmupung_job job;
    int c;
    memset(&job, 0, sizeof job);
    job.n = 4, job.e = 3, job.m = 2, job.t = 9, job.clock = 101, job.wire = 7;
    for (c = 0; c < 4; c++)
        job.kinds[c] = (uint16_t)(c + 2);
    for (c = 0; c < 3; c++)
        job.from[c] = (uint16_t)c, job.to[c] = (uint16_t)(c + 1);
    for (c = 0; c < 2; c++)
        job.costs[c] = (uint16_t)(65535 - c), job.copies[c] = (uint16_t)(c + 3);
    for (c = 0; c < 16; c++)
        job.times[c] = (uint16_t)(1023 - c), job.intervals[c] = (uint16_t)(c + 1);
    return job;
}

static tolmupung_plan some_plan(void)
{
    tolmupung_plan plan;
    int c;
    memset(&plan, 0, sizeof plan);
    plan.n = 5, plan.k = 6;
    for (c = 0; c < 6; c++)
        plan.selection[c] = (uint16_t)(c % 2);
    for (c = 0; c < 5; c++)
        plan.starts[c] = (uint16_t)(31 - c), plan.insts[c] = (uint16_t)(c + 9);
    return plan;
}

static void jobs(void)
{
    uint8_t sheet[TOLMUPUNG_JOB_BYTES];
    tolmupung_job job = some_job();
    tolmupung_answer a = tolmupung_write_job(job, sheet, sizeof sheet);
    check(answers(a, TOLMUPUNG_WRITTEN, 0, 0, (45 + 3 * 4 + 10 * 3 + 179 * 2 + 7) / 8), "a job is written");
    tolmupung_job_read r = tolmupung_read_job(sheet, a.length);
    check(answers(r.answer, TOLMUPUNG_READ, 0, 0, 0), "a job is read");
    check(memcmp(&r.job, &job, sizeof job) == 0, "the job read is the job written");
    check(answers(tolmupung_read_plan(sheet, a.length).answer, TOLMUPUNG_REFUSED, TOLMUPUNG_FORM_DIFFERS,
                  TOLMUPUNG_PAPER_PLAN, 0),
          "a job's sheet is no plan's");
}

static void plans(void)
{
    uint8_t sheet[TOLMUPUNG_PLAN_BYTES];
    tolmupung_plan plan = some_plan();
    tolmupung_answer a = tolmupung_write_plan(plan, sheet, sizeof sheet);
    check(answers(a, TOLMUPUNG_WRITTEN, 0, 0, (14 + 6 + 9 * 5 + 7) / 8), "a plan is written");
    tolmupung_plan_read r = tolmupung_read_plan(sheet, a.length);
    check(answers(r.answer, TOLMUPUNG_READ, 0, 0, 0), "a plan is read");
    check(memcmp(&r.plan, &plan, sizeof plan) == 0, "the plan read is the plan written");
    plan.starts[0] = 32;
    check(answers(tolmupung_write_plan(plan, sheet, sizeof sheet), TOLMUPUNG_REFUSED, TOLMUPUNG_RECORD_BROKEN,
                  TOLMUPUNG_PAPER_PLAN, 0),
          "a start of 32 is too wide");
}

/* Job and plan are told apart, and the cost comes back in its place. */
static void judging(void)
{
    uint8_t sheet[TOLMUPUNG_JOB_BYTES], planned[TOLMUPUNG_PLAN_BYTES];
    tolmupung_job job = some_job();
    tolmupung_plan plan;
    tolmupung_answer a, b, r;
    int c;
    job.e = 0, memset(job.from, 0, sizeof job.from), memset(job.to, 0, sizeof job.to);
    job.clock = 1023, a = tolmupung_write_job(job, sheet, sizeof sheet);
    memset(&plan, 0, sizeof plan);
    plan.n = 4, plan.k = 7;
    for (c = 0; c < 4; c++)
        plan.starts[c] = (uint16_t)(c + 1), plan.insts[c] = (uint16_t)(2 + c % 2 * 4);
    plan.selection[2] = plan.selection[6] = 1;
    b = tolmupung_write_plan(plan, planned, sizeof planned);
    r = tolmupung_judge(sheet, a.length, planned, b.length);
    check(is(r, TOLMUPUNG_PASSED, 0, 0, 65535 + 65534, 0, 0), "a plan passes at its cost");
    check(answers(tolmupung_judge(planned, b.length, sheet, a.length), TOLMUPUNG_REFUSED, TOLMUPUNG_FORM_DIFFERS,
                  TOLMUPUNG_PAPER_JOB, 0),
          "a plan's sheet is no job's");
    plan.selection[2] = 0, b = tolmupung_write_plan(plan, planned, sizeof planned);
    check(answers(tolmupung_judge(sheet, a.length, planned, b.length), TOLMUPUNG_REFUSED, TOLMUPUNG_ROW_UNSELECTED,
                  TOLMUPUNG_PAPER_PLAN, 0),
          "a row on an unselected instance");
    check(answers(tolmupung_judge(sheet, a.length, NULL, 9), TOLMUPUNG_REFUSED, TOLMUPUNG_BITS_RUN_OUT,
                  TOLMUPUNG_PAPER_PLAN, 0),
          "NULL judged as a plan");
    check(answers(tolmupung_judge(NULL, 9, planned, b.length), TOLMUPUNG_REFUSED, TOLMUPUNG_BITS_RUN_OUT,
                  TOLMUPUNG_PAPER_JOB, 0),
          "NULL judged as a job");
}

/* Nine steps, and seven instances of two types, of which the last costs least. */
static tolmupung_job job_of_one_operation(void)
{
    tolmupung_job job = some_job();
    job.n = 1, memset(job.kinds + 1, 0, sizeof job.kinds - sizeof job.kinds[0]);
    job.e = 0, memset(job.from, 0, sizeof job.from), memset(job.to, 0, sizeof job.to);
    job.clock = 1023;
    return job;
}

/* The operation on the last instance. */
static tolmupung_plan plan_of_one_operation(void)
{
    tolmupung_plan plan;
    memset(&plan, 0, sizeof plan);
    plan.n = 1, plan.k = 7, plan.starts[0] = 1, plan.insts[0] = 6, plan.selection[6] = 1;
    return plan;
}

/* Nine steps and seven instances are 63 visits, and one is the empty start. */
static void searching(void)
{
    uint8_t sheet[TOLMUPUNG_JOB_BYTES], planned[TOLMUPUNG_PLAN_BYTES], out[TOLMUPUNG_PLAN_BYTES];
    tolmupung_job job = job_of_one_operation();
    tolmupung_plan plan = plan_of_one_operation();
    tolmupung_answer a = tolmupung_write_job(job, sheet, sizeof sheet), b;
    memset(planned, 0xa5, sizeof planned), memset(out, 0xa5, sizeof out);
    check(is(tolmupung_search(sheet, a.length, 63, out, sizeof out), TOLMUPUNG_SPENT, TOLMUPUNG_BUDGET_SPENT,
             TOLMUPUNG_PAPER_REQUEST, 0, 63, 0),
          "a budget is spent");
    check(answers(tolmupung_search(sheet, a.length, 64, out, 3), TOLMUPUNG_REFUSED, TOLMUPUNG_OUTPUT_SHORT,
                  TOLMUPUNG_PAPER_REQUEST, 0),
          "an output of three bytes is too short for the plan found");
    check(answers(tolmupung_search(sheet, a.length, 64, NULL, 9), TOLMUPUNG_REFUSED, TOLMUPUNG_OUTPUT_SHORT,
                  TOLMUPUNG_PAPER_REQUEST, 0),
          "NULL is too short for the plan found");
    check(answers(tolmupung_search(NULL, 9, 64, out, sizeof out), TOLMUPUNG_REFUSED, TOLMUPUNG_BITS_RUN_OUT,
                  TOLMUPUNG_PAPER_JOB, 0),
          "NULL searched as a job");
    check(memcmp(out, planned, sizeof out) == 0, "without a plan found the output stays");
    b = tolmupung_write_plan(plan, planned, sizeof planned);
    check(is(tolmupung_search(sheet, a.length, 64, out, sizeof out), TOLMUPUNG_FOUND, 0, 0, 65534, 64, b.length) &&
              b.length == 4,
          "the cheapest plan is found");
    check(memcmp(out, planned, sizeof out) == 0, "the plan found begins the output, and the rest stays");
    job.t = 0, a = tolmupung_write_job(job, sheet, sizeof sheet);
    check(is(tolmupung_search(sheet, a.length, UINT32_MAX, out, sizeof out), TOLMUPUNG_NONE, TOLMUPUNG_NO_PLAN,
             TOLMUPUNG_PAPER_JOB, 0, 1, 0),
          "without steps no plan meets the rules");
}

static int refuses(tolmupung_answer a, uint32_t number, uint32_t paper)
{
    return answers(a, TOLMUPUNG_REFUSED, number, paper, 0);
}

/* The sheets of the job of one operation and of its plan. */
static uint8_t job[TOLMUPUNG_JOB_BYTES], plan[TOLMUPUNG_PLAN_BYTES];
static size_t job_len, plan_len;

/* The house note is one split, on operation 0: none of its 63 options costs less than the plan. Without steps there is no
 * plan, and the split has no options. */
static const uint8_t note_of_plan[2] = {0x3c, 0x00}, note_of_none[2] = {0x34, 0x00};

static void lend(uint16_t steps)
{
    tolmupung_job record = job_of_one_operation();
    record.t = steps;
    job_len = tolmupung_write_job(record, job, sizeof job).length;
    plan_len = tolmupung_write_plan(plan_of_one_operation(), plan, sizeof plan).length;
}

static void writing_notes(void)
{
    static const uint8_t before[4] = {9, 9, 9, 9}, after[4] = {0x3c, 0x00, 9, 9};
    uint8_t out[4] = {9, 9, 9, 9};
    lend(9);
    check(refuses(tolmupung_write_note(NULL, 9, plan, plan_len, out, sizeof out), TOLMUPUNG_BITS_RUN_OUT,
                  TOLMUPUNG_PAPER_JOB),
          "a note written beside NULL as a job");
    check(refuses(tolmupung_write_note(job, job_len, NULL, 9, out, sizeof out), TOLMUPUNG_CHEAPER,
                  TOLMUPUNG_PAPER_NOTE),
          "a note for NULL as a plan, where there is one");
    check(refuses(tolmupung_write_note(job, job_len, plan, plan_len, NULL, 9), TOLMUPUNG_OUTPUT_SHORT,
                  TOLMUPUNG_PAPER_REQUEST),
          "a note written to NULL");
    check(refuses(tolmupung_write_note(job, job_len, plan, plan_len, out, 1), TOLMUPUNG_OUTPUT_SHORT,
                  TOLMUPUNG_PAPER_REQUEST),
          "an output of one byte is too short for the note");
    check(memcmp(out, before, sizeof out) == 0, "without a note the output stays");
    check(answers(tolmupung_write_note(job, job_len, plan, plan_len, out, sizeof out), TOLMUPUNG_WRITTEN, 0, 0, 2),
          "a note is written");
    check(memcmp(out, after, sizeof out) == 0, "the note begins the output, and the rest stays");
    lend(0);
    check(answers(tolmupung_write_note(job, job_len, NULL, 9, out, sizeof out), TOLMUPUNG_WRITTEN, 0, 0, 2) &&
              memcmp(out, note_of_none, 2) == 0,
          "a note for none is written");
}

/* Beside the job and the plan. */
static void check_refused(const uint8_t *note, size_t note_len, uint32_t number, const char *what)
{
    tolmupung_answer a = tolmupung_check_note(job, job_len, plan, plan_len, note, note_len);
    check(refuses(a, number, TOLMUPUNG_PAPER_NOTE), what);
}

static void checking_notes(void)
{
    static uint8_t long_note[TOLMUPUNG_NOTE_BYTES + 1] = {0x3c};
    static const uint8_t close[1] = {0x38}, split_on_1[2] = {0x3c, 0x20};
    lend(9);
    check(is(tolmupung_check_note(job, job_len, plan, plan_len, note_of_plan, 2), TOLMUPUNG_CHEAPEST, 0, 0, 65534, 0, 0),
          "the plan is cheapest");
    check(refuses(tolmupung_check_note(NULL, 9, plan, plan_len, note_of_plan, 2), TOLMUPUNG_BITS_RUN_OUT,
                  TOLMUPUNG_PAPER_JOB),
          "a note checked beside NULL as a job");
    check(refuses(tolmupung_check_note(job, job_len, NULL, 9, note_of_plan, 2), TOLMUPUNG_VERDICT_DIFFERS,
                  TOLMUPUNG_PAPER_NOTE),
          "a note checked beside NULL as a plan");
    check(refuses(tolmupung_check_note(job, job_len, NULL, 9, note_of_none, 2), TOLMUPUNG_CHEAPER, TOLMUPUNG_PAPER_NOTE),
          "a note for none, where there is a plan");
    check_refused(NULL, 9, TOLMUPUNG_BITS_RUN_OUT, "NULL checked as a note");
    check_refused(job, job_len, TOLMUPUNG_FORM_DIFFERS, "a job's sheet is no note");
    check_refused(close, 1, TOLMUPUNG_CLOSE_BROKEN, "nothing is placed, and nothing can be closed");
    check_refused(split_on_1, 2, TOLMUPUNG_SPLIT_BROKEN, "there is no operation 1");
    check_refused(long_note, sizeof long_note, TOLMUPUNG_NOTE_LONG, "a note of 60,001 bytes");
    check_refused(long_note, sizeof long_note - 1, TOLMUPUNG_FILL_BROKEN, "of 60,000 bytes all but two follow the note");
    lend(0);
    check(answers(tolmupung_check_note(job, job_len, NULL, 9, note_of_none, 2), TOLMUPUNG_NONE, 0, 0, 0),
          "without steps there is no plan");
}

/* Slides the plan of one operation, whose sheet has four bytes. */
static tolmupung_answer slid(int32_t distance, uint8_t *out, size_t out_len)
{
    return tolmupung_slide(job, job_len, plan, plan_len, distance, out, out_len);
}

/* The operation takes one of the nine steps. */
static void sliding(void)
{
    static const uint8_t before[6] = {9, 9, 9, 9, 9, 9};
    uint8_t out[6] = {9, 9, 9, 9, 9, 9};
    tolmupung_plan_read last;
    lend(9);
    check(refuses(slid(9, out, sizeof out), TOLMUPUNG_MOVED_OUT, TOLMUPUNG_PAPER_PLAN), "slid behind the deadline");
    check(refuses(slid(-1, out, sizeof out), TOLMUPUNG_MOVED_OUT, TOLMUPUNG_PAPER_PLAN), "slid before step 1");
    check(refuses(slid(32, out, sizeof out), TOLMUPUNG_DISTANCE_FAR, TOLMUPUNG_PAPER_REQUEST), "slid by 32");
    check(refuses(slid(INT32_MIN, out, sizeof out), TOLMUPUNG_DISTANCE_FAR, TOLMUPUNG_PAPER_REQUEST),
          "slid by the least distance");
    check(refuses(slid(0, out, 3), TOLMUPUNG_OUTPUT_SHORT, TOLMUPUNG_PAPER_REQUEST), "slid into three bytes");
    check(refuses(slid(0, NULL, 9), TOLMUPUNG_OUTPUT_SHORT, TOLMUPUNG_PAPER_REQUEST), "slid into NULL");
    check(refuses(tolmupung_slide(NULL, 9, plan, plan_len, 0, out, sizeof out), TOLMUPUNG_BITS_RUN_OUT,
                  TOLMUPUNG_PAPER_JOB),
          "slid beside NULL as a job");
    check(refuses(tolmupung_slide(job, job_len, NULL, 9, 0, out, sizeof out), TOLMUPUNG_BITS_RUN_OUT,
                  TOLMUPUNG_PAPER_PLAN),
          "NULL slid as a plan");
    check(memcmp(out, before, sizeof out) == 0, "without a plan slid the output stays");
    check(answers(slid(0, out, sizeof out), TOLMUPUNG_WRITTEN, 0, 0, 4) && memcmp(out, plan, 4) == 0 &&
              memcmp(out + 4, before, 2) == 0,
          "slid by 0 the plan begins the output, and the rest stays");
    check(answers(slid(8, out, sizeof out), TOLMUPUNG_WRITTEN, 0, 0, 4), "slid by 8");
    last = tolmupung_read_plan(out, 4);
    check(last.plan.starts[0] == 9 && last.plan.insts[0] == 6 && last.plan.selection[6] == 1,
          "the start moved by 8, and nothing else did");
}

/* Document 01's job P, and plans for it. Case 4's last row is on an adder that is not selected, the untidy plan's on the
 * one that is. */
static const uint8_t job_p[54] = {
    0x11, 0x82, 0x21, 0x8c, 0x80, 0x29, 0x20, 0x02, 0x08, 0x80, 0x02, 0x90, 0x50, 0x14, 0x00, 0x00, 0x00, 0x00,
    0x00, 0x00, 0x00, 0x00, 0x00, 0x00, 0x00, 0x00, 0x00, 0x00, 0x00, 0x00, 0x00, 0x00, 0x00, 0xf1, 0x00, 0x00,
    0x01, 0x68, 0x5a, 0x00, 0x00, 0x00, 0x00, 0x00, 0x00, 0x00, 0x00, 0x00, 0x00, 0x00, 0x00, 0x00, 0x00, 0x00,
};
static const uint8_t plan_1[6] = {0x21, 0x8d, 0x84, 0x84, 0x43, 0x10};
static const uint8_t plan_4[6] = {0x21, 0x8e, 0x84, 0x84, 0x43, 0x10};
static const uint8_t untidy[6] = {0x21, 0x8e, 0x84, 0x84, 0x43, 0x00};

static void tidying(void)
{
    static const uint8_t before[7] = {9, 9, 9, 9, 9, 9, 9};
    uint8_t out[7] = {9, 9, 9, 9, 9, 9, 9};
    check(refuses(tolmupung_judge(job_p, sizeof job_p, untidy, sizeof untidy), TOLMUPUNG_ORDER_BROKEN,
                  TOLMUPUNG_PAPER_PLAN),
          "the untidy plan breaks selection order");
    check(refuses(tolmupung_tidy(job_p, sizeof job_p, plan_4, sizeof plan_4, out, sizeof out), TOLMUPUNG_ROW_UNSELECTED,
                  TOLMUPUNG_PAPER_PLAN),
          "case 4's plan breaks another rule too");
    check(refuses(tolmupung_tidy(NULL, 9, untidy, sizeof untidy, out, sizeof out), TOLMUPUNG_BITS_RUN_OUT,
                  TOLMUPUNG_PAPER_JOB),
          "tidied beside NULL as a job");
    check(refuses(tolmupung_tidy(job_p, sizeof job_p, NULL, 9, out, sizeof out), TOLMUPUNG_BITS_RUN_OUT,
                  TOLMUPUNG_PAPER_PLAN),
          "NULL tidied as a plan");
    check(refuses(tolmupung_tidy(job_p, sizeof job_p, untidy, sizeof untidy, out, 5), TOLMUPUNG_OUTPUT_SHORT,
                  TOLMUPUNG_PAPER_REQUEST),
          "tidied into five bytes");
    check(refuses(tolmupung_tidy(job_p, sizeof job_p, untidy, sizeof untidy, NULL, 9), TOLMUPUNG_OUTPUT_SHORT,
                  TOLMUPUNG_PAPER_REQUEST),
          "tidied into NULL");
    check(memcmp(out, before, sizeof out) == 0, "without a plan tidied the output stays");
    check(answers(tolmupung_tidy(job_p, sizeof job_p, untidy, sizeof untidy, out, sizeof out), TOLMUPUNG_WRITTEN, 0, 0, 6),
          "a plan is tidied");
    check(memcmp(out, plan_1, 6) == 0 && out[6] == 9, "tidied it is case 1's plan, and the rest of the output stays");
    check(answers(tolmupung_tidy(job_p, sizeof job_p, plan_1, sizeof plan_1, out, sizeof out), TOLMUPUNG_WRITTEN, 0, 0,
                  6) &&
              memcmp(out, plan_1, 6) == 0,
          "case 1's plan is left as it is");
}

/* Case 12, and the same with its first byte or its length changed. */
static void checking_dossiers(void)
{
    static const uint8_t case_12[16] = {0x40, 0, 6, 0, 2, 0, 1, 0x10, 0, 0, 0, 0x20, 0, 0x20, 0, 0x38};
    static uint8_t dossier[TOLMUPUNG_DOSSIER_BYTES + 1];
    check(answers(tolmupung_check_dossier(case_12, sizeof case_12), TOLMUPUNG_CHEAPEST, 0, 0, 0),
          "case 12 is cheapest at 0");
    memcpy(dossier, case_12, sizeof case_12);
    check(refuses(tolmupung_check_dossier(NULL, 9), TOLMUPUNG_BITS_RUN_OUT, TOLMUPUNG_PAPER_DOSSIER),
          "NULL checked as a dossier");
    check(refuses(tolmupung_check_dossier(dossier, 6), TOLMUPUNG_BITS_RUN_OUT, TOLMUPUNG_PAPER_DOSSIER),
          "a dossier of six bytes");
    check(refuses(tolmupung_check_dossier(dossier, 15), TOLMUPUNG_LENGTHS_DIFFER, TOLMUPUNG_PAPER_DOSSIER),
          "a dossier that lacks its last byte");
    check(refuses(tolmupung_check_dossier(dossier, sizeof dossier - 1), TOLMUPUNG_LENGTHS_DIFFER, TOLMUPUNG_PAPER_DOSSIER),
          "bytes follow the papers");
    check(refuses(tolmupung_check_dossier(dossier, sizeof dossier), TOLMUPUNG_DOSSIER_LONG, TOLMUPUNG_PAPER_DOSSIER),
          "a dossier of 65,537 bytes");
    dossier[0] = 0x41;
    check(refuses(tolmupung_check_dossier(dossier, 16), TOLMUPUNG_FILL_BROKEN, TOLMUPUNG_PAPER_DOSSIER),
          "a bit set behind the form");
    dossier[0] = 0x30;
    check(refuses(tolmupung_check_dossier(dossier, 16), TOLMUPUNG_FORM_DIFFERS, TOLMUPUNG_PAPER_DOSSIER),
          "a note's form is no dossier's");
    dossier[0] = 0x40, dossier[4] = 0, memmove(dossier + 13, dossier + 15, 1);
    check(refuses(tolmupung_check_dossier(dossier, 14), TOLMUPUNG_VERDICT_DIFFERS, TOLMUPUNG_PAPER_NOTE),
          "a dossier without a plan, and a note for one");
}

static void nothing(void)
{
    size_t length;
    for (length = 0; length < 400; length += 399) {
        check(answers(tolmupung_read_job(NULL, length).answer, TOLMUPUNG_REFUSED, TOLMUPUNG_BITS_RUN_OUT,
                      TOLMUPUNG_PAPER_JOB, 0),
              "NULL read as a job");
        check(answers(tolmupung_read_plan(NULL, length).answer, TOLMUPUNG_REFUSED, TOLMUPUNG_BITS_RUN_OUT,
                      TOLMUPUNG_PAPER_PLAN, 0),
              "NULL read as a plan");
        check(answers(tolmupung_write_job(some_job(), NULL, length), TOLMUPUNG_REFUSED, TOLMUPUNG_OUTPUT_SHORT,
                      TOLMUPUNG_PAPER_REQUEST, 0),
              "a job written to NULL");
        check(answers(tolmupung_write_plan(some_plan(), NULL, length), TOLMUPUNG_REFUSED, TOLMUPUNG_OUTPUT_SHORT,
                      TOLMUPUNG_PAPER_REQUEST, 0),
              "a plan written to NULL");
    }
}

int main(void)
{
    layout();
    numbers();
    jobs();
    plans();
    judging();
    searching();
    writing_notes();
    checking_notes();
    sliding();
    tidying();
    checking_dossiers();
    nothing();
    return failed;
}
