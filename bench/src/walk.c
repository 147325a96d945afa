/* The search's walk in C, visit by visit as document 01 defines it, for the library to be measured by: a recursion by
 * level, loops over starts and instances, and each option tested against what is placed already. */
#include <string.h>

#include "placing.h"

typedef struct {
    board b;
    place best[OPS];
    uint32_t best_cost;               /* UINT32_MAX while none is held */
    uint32_t budget, visits;
} walk;

static int place_next(walk *w, int op, uint32_t cost);

/* With the operations before op placed at this cost. Gives 0 where the budget is spent, as the next function does. */
static inline int arrive(walk *w, int op, uint32_t cost)
{
    if (w->visits == w->budget)
        return 0;
    w->visits++;
    if (cost >= w->best_cost)
        return 1;
    if (op < w->b.n)
        return place_next(w, op, cost);
    w->best_cost = cost;
    memcpy(w->best, w->b.placed, sizeof w->best);
    return 1;
}

static int place_next(walk *w, int op, uint32_t cost)
{
    before_options(&w->b, op);
    while (next_option(&w->b, op)) {
        int inst = w->b.placed[op].inst;
        uint32_t using = cost_using(&w->b, inst, cost);
        int first = use(&w->b, inst);
        int goes_on = arrive(w, op + 1, using);
        w->b.first_used[w->b.type[inst]] = first;
        if (!goes_on)
            return 0;
    }
    return 1;
}

/* The best plan with its smallest selection: an instance is selected if it or one before it in its type is used. */
static void put_best(const walk *w, tolmupung_plan *plan)
{
    const board *b = &w->b;
    int op, inst;
    plan->n = (uint16_t)b->n, plan->k = (uint16_t)b->k;
    for (op = 0; op < b->n; op++) {
        plan->starts[op] = (uint16_t)w->best[op].start;
        plan->insts[op] = (uint16_t)w->best[op].inst;
        for (inst = w->best[op].inst; inst < b->k && b->type[inst] == b->type[w->best[op].inst]; inst++)
            plan->selection[inst] = 1;
    }
}

/* The answer as tolmupung_search gives it, but for the length, and the plan where one is found. */
tolmupung_plan_read walk_in_c(const tolmupung_job *job, uint32_t budget)
{
    walk w;
    tolmupung_plan_read found;
    memset(&found, 0, sizeof found);
    set_up(&w.b, job);
    w.best_cost = UINT32_MAX, w.budget = budget, w.visits = 0;
    if (!arrive(&w, 0, 0)) {
        found.answer.outcome = TOLMUPUNG_SPENT;
        found.answer.number = TOLMUPUNG_BUDGET_SPENT;
        found.answer.paper = TOLMUPUNG_PAPER_REQUEST;
    } else if (w.best_cost == UINT32_MAX) {
        found.answer.outcome = TOLMUPUNG_NONE;
        found.answer.number = TOLMUPUNG_NO_PLAN;
    } else {
        found.answer.outcome = TOLMUPUNG_FOUND;
        found.answer.cost = w.best_cost;
        put_best(&w, &found.plan);
    }
    found.answer.visits = w.visits;
    return found;
}
