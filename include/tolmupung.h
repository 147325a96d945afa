/* Tolmupung: job and plan sheets, read and written exactly, plans judged, slid and tidied, the cheapest plan searched for,
 * closing notes checked and written, and dossiers of all three checked.
 *
 * Every entry takes any bytes and any numbers, and ends. A refusal gives its number and the paper at fault,
 * and changes no output byte. Nothing here allocates, and nothing is kept between calls.
 * A pointer points to as many bytes as the length beside it says, and an output overlaps no input: neither can be tested
 * here. NULL is taken for no bytes at all, whatever length comes with it; the functions at the end of this header see to
 * that, so a program that calls the library's symbols without including it must not pass NULL.
 */
#ifndef TOLMUPUNG_H
#define TOLMUPUNG_H

#include <stddef.h>
#include <stdint.h>

#ifdef __cplusplus
extern "C" {
#endif

/* Cells of a record's tables, and the most bytes that a sheet of each form has. */
enum {
    TOLMUPUNG_OP_CELLS = 24,
    TOLMUPUNG_LINK_CELLS = 64,
    TOLMUPUNG_TYPE_CELLS = 8,
    TOLMUPUNG_INST_CELLS = 16,
    TOLMUPUNG_KINDS = 8,
    TOLMUPUNG_PAIR_CELLS = TOLMUPUNG_TYPE_CELLS * TOLMUPUNG_KINDS,
    TOLMUPUNG_JOB_BYTES = 274,
    TOLMUPUNG_PLAN_BYTES = 31,
    TOLMUPUNG_NOTE_BYTES = 60000,
    TOLMUPUNG_DOSSIER_BYTES = 65536
};

/* What an answer can be. */
enum {
    TOLMUPUNG_REFUSED = 0,
    TOLMUPUNG_PASSED = 1,
    TOLMUPUNG_FOUND = 2,
    TOLMUPUNG_NONE = 3,
    TOLMUPUNG_SPENT = 4,
    TOLMUPUNG_CHEAPEST = 5,
    TOLMUPUNG_WRITTEN = 6,
    TOLMUPUNG_READ = 7
};

/* The number of a refusal, and of spent and none. */
enum {
    TOLMUPUNG_BITS_RUN_OUT = 1,
    TOLMUPUNG_FORM_DIFFERS = 2,
    TOLMUPUNG_OUTSIDE_LIMIT = 3,       /* N, E, M, K or clock */
    TOLMUPUNG_LINK_BROKEN = 4,
    TOLMUPUNG_TYPE_BROKEN = 5,         /* or copies so far exceed 16 */
    TOLMUPUNG_FILL_BROKEN = 6,         /* not zero, or bytes follow */
    TOLMUPUNG_RECORD_BROKEN = 7,       /* T, wire, a kind, a selection cell or a row's number too wide, or an unused cell not zero */
    TOLMUPUNG_COUNTS_DIFFER = 10,      /* the plan's N or K differs from the job's */
    TOLMUPUNG_ORDER_BROKEN = 11,       /* within a type a selected instance precedes an unselected one */
    TOLMUPUNG_ROW_INSTANCE = 12,       /* not below K */
    TOLMUPUNG_ROW_KIND = 13,           /* the instance cannot do it */
    TOLMUPUNG_ROW_UNSELECTED = 14,     /* the instance is not selected */
    TOLMUPUNG_ROW_STEP = 15,           /* start or finish outside 1 to T */
    TOLMUPUNG_PRECEDENCE_BROKEN = 16,
    TOLMUPUNG_RESOURCE_BROKEN = 17,    /* two operations hold one instance in one step */
    TOLMUPUNG_CHAIN_BROKEN = 18,
    TOLMUPUNG_DISTANCE_FAR = 20,       /* outside -31 to 31 */
    TOLMUPUNG_MOVED_OUT = 21,          /* a moved start below 1, or its finish behind T */
    TOLMUPUNG_OUTPUT_SHORT = 22,
    TOLMUPUNG_BUDGET_SPENT = 30,       /* the search needs more visits than its budget */
    TOLMUPUNG_NO_PLAN = 31,            /* no plan meets the rules */
    TOLMUPUNG_NOTE_LONG = 40,          /* over 60,000 bytes */
    TOLMUPUNG_VERDICT_DIFFERS = 41,    /* 1 without a plan, or 0 with one */
    TOLMUPUNG_SPLIT_BROKEN = 42,       /* on a number not below N, or on an operation already placed */
    TOLMUPUNG_CLOSE_BROKEN = 43,       /* bit 0 not allowed */
    TOLMUPUNG_CHEAPER = 44,            /* all placed and cheaper than the claim, or under verdict 0 */
    TOLMUPUNG_LENGTHS_DIFFER = 50,     /* the papers' lengths do not total the dossier's */
    TOLMUPUNG_DOSSIER_LONG = 51        /* over 65,536 bytes */
};

/* The paper at fault. */
enum {
    TOLMUPUNG_PAPER_JOB = 0,
    TOLMUPUNG_PAPER_PLAN = 1,
    TOLMUPUNG_PAPER_NOTE = 2,
    TOLMUPUNG_PAPER_DOSSIER = 3,
    TOLMUPUNG_PAPER_REQUEST = 4
};

/* The answer of every entry. A number that does not belong to the outcome is 0. */
typedef struct {
    uint32_t outcome, number, paper, cost, visits, length;
} tolmupung_answer;

/* A job. Every cell is a 16-bit number, as wide as the widest field; cells that the counts do not use are zero. */
typedef struct {
    uint16_t n;                               /* operations */
    uint16_t e;                               /* links */
    uint16_t m;                               /* unit types */
    uint16_t t;                               /* deadline, in steps */
    uint16_t clock;                           /* ns */
    uint16_t wire;                            /* ns */
    uint16_t kinds[TOLMUPUNG_OP_CELLS];       /* of each operation */
    uint16_t from[TOLMUPUNG_LINK_CELLS];      /* link i runs from operation from[i] .. */
    uint16_t to[TOLMUPUNG_LINK_CELLS];        /* .. to operation to[i] */
    uint16_t costs[TOLMUPUNG_TYPE_CELLS];     /* of each type */
    uint16_t copies[TOLMUPUNG_TYPE_CELLS];    /* of each type */
    uint16_t times[TOLMUPUNG_PAIR_CELLS];     /* kind k at type y: cell 8 * y + k; ns, 0: cannot be done */
    uint16_t intervals[TOLMUPUNG_PAIR_CELLS]; /* likewise */
} tolmupung_job;

/* A plan, with cells likewise. */
typedef struct {
    uint16_t n;                               /* operations, a row each */
    uint16_t k;                               /* instances */
    uint16_t selection[TOLMUPUNG_INST_CELLS]; /* of each instance: 1 selected, 0 not */
    uint16_t starts[TOLMUPUNG_OP_CELLS];      /* of each row */
    uint16_t insts[TOLMUPUNG_OP_CELLS];       /* of each row: the instance that does the operation */
} tolmupung_plan;

/* What a reader gives: outcome read and the record, or refused and a record of zeros. */
typedef struct {
    tolmupung_answer answer;
    tolmupung_job job;
} tolmupung_job_read;

typedef struct {
    tolmupung_answer answer;
    tolmupung_plan plan;
} tolmupung_plan_read;

/* The readers: read, or refused by 1 to 6 (job) or by 1, 2, 3, 6 (plan). */
tolmupung_job_read tolmupung_read_job(const uint8_t *sheet, size_t sheet_len);
tolmupung_plan_read tolmupung_read_plan(const uint8_t *sheet, size_t sheet_len);

/* The writers: written with the length of the sheet, or refused by 3, 4, 5, 7 (job) or by 3, 7 (plan), then by 22.
 * The bytes of the output behind the sheet stay as they were. */
tolmupung_answer tolmupung_write_job(tolmupung_job job, uint8_t *out, size_t out_len);
tolmupung_answer tolmupung_write_plan(tolmupung_plan plan, uint8_t *out, size_t out_len);

/* The judge: passed with the cost of the plan's selection, or refused by the job reader's numbers, the plan reader's, or
 * 10 to 18. A plan of length 0 is refused by 1, paper 1. */
tolmupung_answer tolmupung_judge(const uint8_t *job, size_t job_len, const uint8_t *plan, size_t plan_len);

/* The search: found with the cost, the visits and the length of the plan's sheet, whose bytes begin the output; the bytes behind
 * them stay as they were. Else no byte of it changes: spent (number 30, paper 4, visits = budget) where the walk needs more
 * visits than the budget; none (number 31, paper 0, and the visits) where no plan meets the rules; or refused, by the job reader's
 * numbers or at last by 22. */
tolmupung_answer tolmupung_search(const uint8_t *job, size_t job_len, uint32_t budget, uint8_t *out, size_t out_len);

/* The check of a closing note beside a plan; a plan of length 0 means no plan. Cheapest with the cost: the plan meets the rules,
 * and no plan that does costs less. None (all numbers 0): no plan meets the rules. Else refused, by the job reader's numbers, the
 * plan reader's, 10 to 18, or (paper 2) by 40, 1, 2, 41, then 1, 42, 43 or 44 where the tree first breaks, and at last 6. */
tolmupung_answer tolmupung_check_note(const uint8_t *job, size_t job_len, const uint8_t *plan, size_t plan_len,
                                      const uint8_t *note, size_t note_len);

/* The house writer of closing notes, for a plan, or for none where the plan's length is 0: written with the length of the note,
 * whose bytes begin the output; the bytes behind them stay as they were. Else no byte of it changes: refused by the job reader's
 * numbers, the plan reader's, 10 to 18, or by 44 (paper 2: a plan that is cheaper exists, or one at all where none was lent) or
 * 22, the one that its walk meets first. More than 60,000 bytes of the output are not used. */
tolmupung_answer tolmupung_write_note(const uint8_t *job, size_t job_len, const uint8_t *plan, size_t plan_len, uint8_t *out,
                                      size_t out_len);

/* Slides a passed plan: written with the length of the sheet of the plan with the distance added to every start, whose bytes
 * begin the output; the bytes behind them stay as they were. Else no byte of it changes: refused by the judge's numbers, then
 * by 20 (paper 4), 21 (paper 1) or 22. A slid plan passes, at the same cost. */
tolmupung_answer tolmupung_slide(const uint8_t *job, size_t job_len, const uint8_t *plan, size_t plan_len, int32_t distance,
                                 uint8_t *out, size_t out_len);

/* Tidies a plan that the judge refuses by nothing but possibly 11: each type's selected instances move to its last numbers,
 * their order kept, and the rows follow. Written as above, or refused by the judge's numbers but for 11, or by 22. A tidied plan
 * passes; its cost is that of the selection lent, its starts are those lent. */
tolmupung_answer tolmupung_tidy(const uint8_t *job, size_t job_len, const uint8_t *plan, size_t plan_len, uint8_t *out,
                                size_t out_len);

/* The check of a dossier: its job, plan and note, checked as tolmupung_check_note does. Before that it is refused (paper 3) by
 * 51, 1 (under 7 bytes), 2, 6 or 50. */
tolmupung_answer tolmupung_check_dossier(const uint8_t *dossier, size_t dossier_len);

#ifdef __cplusplus
}
#endif

/* The library's own functions want a pointer that is not NULL, so from here on each name means a function that
 * sees to it. */
static inline const uint8_t *tolmupung_from(const uint8_t *bytes)
{
    static const uint8_t none = 0;
    return bytes ? bytes : &none;
}

static inline uint8_t *tolmupung_into(uint8_t *bytes)
{
    static uint8_t none;
    return bytes ? bytes : &none;
}

static inline tolmupung_job_read tolmupung_safe_read_job(const uint8_t *sheet, size_t sheet_len)
{
    return tolmupung_read_job(tolmupung_from(sheet), sheet ? sheet_len : 0);
}

static inline tolmupung_plan_read tolmupung_safe_read_plan(const uint8_t *sheet, size_t sheet_len)
{
    return tolmupung_read_plan(tolmupung_from(sheet), sheet ? sheet_len : 0);
}

static inline tolmupung_answer tolmupung_safe_write_job(tolmupung_job job, uint8_t *out, size_t out_len)
{
    return tolmupung_write_job(job, tolmupung_into(out), out ? out_len : 0);
}

static inline tolmupung_answer tolmupung_safe_write_plan(tolmupung_plan plan, uint8_t *out, size_t out_len)
{
    return tolmupung_write_plan(plan, tolmupung_into(out), out ? out_len : 0);
}

static inline tolmupung_answer tolmupung_safe_judge(const uint8_t *job, size_t job_len, const uint8_t *plan,
                                                    size_t plan_len)
{
    return tolmupung_judge(tolmupung_from(job), job ? job_len : 0, tolmupung_from(plan), plan ? plan_len : 0);
}

static inline tolmupung_answer tolmupung_safe_search(const uint8_t *job, size_t job_len, uint32_t budget, uint8_t *out,
                                                     size_t out_len)
{
    return tolmupung_search(tolmupung_from(job), job ? job_len : 0, budget, tolmupung_into(out), out ? out_len : 0);
}

static inline tolmupung_answer tolmupung_safe_check_note(const uint8_t *job, size_t job_len, const uint8_t *plan,
                                                         size_t plan_len, const uint8_t *note, size_t note_len)
{
    return tolmupung_check_note(tolmupung_from(job), job ? job_len : 0, tolmupung_from(plan), plan ? plan_len : 0,
                                tolmupung_from(note), note ? note_len : 0);
}

static inline tolmupung_answer tolmupung_safe_write_note(const uint8_t *job, size_t job_len, const uint8_t *plan,
                                                         size_t plan_len, uint8_t *out, size_t out_len)
{
    return tolmupung_write_note(tolmupung_from(job), job ? job_len : 0, tolmupung_from(plan), plan ? plan_len : 0,
                                tolmupung_into(out), out ? out_len : 0);
}

static inline tolmupung_answer tolmupung_safe_slide(const uint8_t *job, size_t job_len, const uint8_t *plan, size_t plan_len,
                                                    int32_t distance, uint8_t *out, size_t out_len)
{
    return tolmupung_slide(tolmupung_from(job), job ? job_len : 0, tolmupung_from(plan), plan ? plan_len : 0, distance,
                           tolmupung_into(out), out ? out_len : 0);
}

static inline tolmupung_answer tolmupung_safe_tidy(const uint8_t *job, size_t job_len, const uint8_t *plan, size_t plan_len,
                                                   uint8_t *out, size_t out_len)
{
    return tolmupung_tidy(tolmupung_from(job), job ? job_len : 0, tolmupung_from(plan), plan ? plan_len : 0,
                          tolmupung_into(out), out ? out_len : 0);
}

static inline tolmupung_answer tolmupung_safe_check_dossier(const uint8_t *dossier, size_t dossier_len)
{
    return tolmupung_check_dossier(tolmupung_from(dossier), dossier ? dossier_len : 0);
}

#define tolmupung_read_job tolmupung_safe_read_job
#define tolmupung_read_plan tolmupung_safe_read_plan
#define tolmupung_write_job tolmupung_safe_write_job
#define tolmupung_write_plan tolmupung_safe_write_plan
#define tolmupung_judge tolmupung_safe_judge
#define tolmupung_search tolmupung_safe_search
#define tolmupung_check_note tolmupung_safe_check_note
#define tolmupung_write_note tolmupung_safe_write_note
#define tolmupung_slide tolmupung_safe_slide
#define tolmupung_tidy tolmupung_safe_tidy
#define tolmupung_check_dossier tolmupung_safe_check_dossier

#endif
