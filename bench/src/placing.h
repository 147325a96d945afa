/* What the walk and the notes in C share: a job as tables, the operations placed, and the options of the next operation
 * where operations are placed in number order. Links ascend, so no link then leads from a new operation to one that is
 * placed, and every run of operations started in one step that it joins ends with it. */
#ifndef PLACING_H
#define PLACING_H

#include "tolmupung.h"

enum { OPS = TOLMUPUNG_OP_CELLS, INSTS = TOLMUPUNG_INST_CELLS, TYPES = TOLMUPUNG_TYPE_CELLS };

/* What an operation takes on an instance: ns and steps. Delay 0 where the instance cannot do it. */
typedef struct {
    int time, delay, spacing;
} needs;

/* An operation placed, and the ns of the longest run in its step that ends with it. */
typedef struct {
    int start, inst, delay, spacing, run;
} place;

typedef struct {
    int n, k, steps, clock, wire;
    int preds[OPS], pred[OPS][OPS];   /* of each operation, those that a link leads from */
    int succs[OPS], succ[OPS][OPS];   /* and those that a link leads to */
    needs needs[OPS][INSTS];
    int type[INSTS];                  /* of each instance */
    uint32_t cost[INSTS];
    int first_used[TYPES];            /* of each type, its end while no instance is used */
    place placed[OPS];
} board;

void set_up(board *b, const tolmupung_job *job);

/* The cost once this instance is used too: its type is selected from the first instance used on. */
static inline uint32_t cost_using(const board *b, int inst, uint32_t cost)
{
    int first = b->first_used[b->type[inst]];
    return inst >= first ? cost : cost + (uint32_t)(first - inst) * b->cost[inst];
}

/* Gives the first instance of the type that was used before, to be put back. */
static inline int use(board *b, int inst)
{
    int *first_used = &b->first_used[b->type[inst]];
    int first = *first_used;
    if (inst < first)
        *first_used = inst;
    return first;
}

/* Resource, between two starts on one instance: the later is the earlier operation's spacing away, or further. */
static inline int are_spaced(int start, int spacing, int other_start, int other_spacing)
{
    int later = start - other_start;
    return later > 0 ? later >= other_spacing : later < 0 && -later >= spacing;
}

/* Precedence. An operation of delay 1 may share its step with one that it feeds; whether that one may is asked below. */
static inline int earliest_start(const board *b, int op)
{
    int p, earliest = 1;
    for (p = 0; p < b->preds[op]; p++) {
        const place *before = &b->placed[b->pred[op][p]];
        int start = before->delay == 1 ? before->start : before->start + before->delay;
        if (start > earliest)
            earliest = start;
    }
    return earliest;
}

/* Chain, and precedence within a step. Gives the ns of the longest run that would end with the operation, or 0 where it
 * may not start here. */
static inline int run_of(const board *b, int op, int start, const needs *need)
{
    int p, run = need->time;
    for (p = 0; p < b->preds[op]; p++) {
        const place *before = &b->placed[b->pred[op][p]];
        if (before->start == start) {
            int longer = before->run + b->wire + need->time;
            if (need->delay != 1 || longer > b->clock)
                return 0;
            if (longer > run)
                run = longer;
        }
    }
    return run;
}

/* Resource. */
static inline int is_free(const board *b, int op, int start, int inst, int spacing)
{
    const place *other = b->placed, *end = b->placed + op;
    for (; other < end; other++) {
        if (other->inst == inst && !are_spaced(start, spacing, other->start, other->spacing))
            return 0;
    }
    return 1;
}

/* Before the first option of the operation. */
static inline void before_options(board *b, int op)
{
    b->placed[op].start = earliest_start(b, op);
    b->placed[op].inst = -1;
}

/* Places the operation at its next live option, those before it being placed. Gives 0 where there is none left. */
static inline int next_option(board *b, int op)
{
    place *here = &b->placed[op];
    int start = here->start, inst = here->inst + 1;
    for (; start <= b->steps; start++, inst = 0) {
        for (; inst < b->k; inst++) {
            const needs *need = &b->needs[op][inst];
            int run;
            if (need->delay == 0 || start + need->delay - 1 > b->steps)
                continue;
            run = run_of(b, op, start, need);
            if (run == 0 || !is_free(b, op, start, inst, need->spacing))
                continue;
            here->start = start, here->inst = inst, here->run = run;
            here->delay = need->delay, here->spacing = need->spacing;
            return 1;
        }
    }
    return 0;
}

#endif
