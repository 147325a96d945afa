/* A job as tables. */
#include <string.h>

#include "placing.h"

static int rounded_up(int ns, int clock)
{
    return (ns + clock - 1) / clock;
}

static void add_instance(board *b, const tolmupung_job *job, int type)
{
    int op, inst = b->k++;
    b->type[inst] = type;
    b->cost[inst] = job->costs[type];
    for (op = 0; op < b->n; op++) {
        int cell = TOLMUPUNG_KINDS * type + job->kinds[op];
        b->needs[op][inst].time = job->times[cell];
        b->needs[op][inst].delay = rounded_up(job->times[cell], b->clock);
        b->needs[op][inst].spacing = rounded_up(job->intervals[cell], b->clock);
    }
}

void set_up(board *b, const tolmupung_job *job)
{
    int link, type, copy;
    memset(b, 0, sizeof *b);
    b->n = job->n, b->steps = job->t, b->clock = job->clock, b->wire = job->wire;
    for (link = 0; link < job->e; link++) {
        int from = job->from[link], to = job->to[link];
        b->pred[to][b->preds[to]++] = from;
        b->succ[from][b->succs[from]++] = to;
    }
    for (type = 0; type < job->m; type++) {
        for (copy = 0; copy < job->copies[type]; copy++)
            add_instance(b, job, type);
        b->first_used[type] = b->k;
    }
}
