/* The check and the writing of closing notes in C, place by place as document 01 defines the tree, for the library to
 * be measured by: a recursion by operations placed, each option tested against what is placed already. A note may split
 * in any order, so the check looks at links both ways; the house note splits in number order, as the walk does. */
#include <string.h>

#include "placing.h"

enum { FORM = 3, HEADER_BITS = 5, SPLIT_BITS = 6 };

/* The claim where no plan is lent: no cost comes near it, so bit 0 is never allowed. */
#define NO_PLAN UINT32_MAX

typedef struct {
    board b;
    uint32_t claim;
    const uint8_t *note;
    size_t next, end;                 /* in bits */
    int is_placed[OPS];
    int used[INSTS], op_on[INSTS][OPS]; /* of each instance, the operations placed on it */
} reading;

/* What links ask of the operation to be placed, before it is known where. */
typedef struct {
    int earliest;                     /* start that the operations before it leave */
    int preds, succs;                 /* how many of those linked to it are placed */
    int pred[OPS], succ[OPS];
} bounds;

static uint32_t take_bits(reading *r, int width)
{
    const uint8_t *byte = r->note + r->next / 8;
    int in_first = 8 - (int)(r->next % 8);
    uint32_t bits = *byte;
    if (width > in_first)
        bits = bits << 8 | byte[1], in_first += 8;
    r->next += (size_t)width;
    return bits >> (in_first - width) & ((1u << width) - 1);
}

static void bounds_of(const reading *r, int op, bounds *links)
{
    const board *b = &r->b;
    int l;
    links->earliest = 1, links->preds = links->succs = 0;
    for (l = 0; l < b->preds[op]; l++) {
        int pred = b->pred[op][l];
        if (r->is_placed[pred]) {
            const place *before = &b->placed[pred];
            int start = before->delay == 1 ? before->start : before->start + before->delay;
            links->pred[links->preds++] = pred;
            if (start > links->earliest)
                links->earliest = start;
        }
    }
    for (l = 0; l < b->succs[op]; l++) {
        int succ = b->succ[op][l];
        if (r->is_placed[succ])
            links->succ[links->succs++] = succ;
    }
}

/* The ns of the longest run of placed operations in the step of this one, from it on by the links of one side. */
static int longest(const reading *r, int op, const int links[], const int link[][OPS])
{
    const board *b = &r->b;
    const place *here = &b->placed[op];
    int l, most = 0;
    for (l = 0; l < links[op]; l++) {
        int other = link[op][l];
        if (r->is_placed[other] && b->placed[other].start == here->start) {
            int further = b->wire + longest(r, other, links, link);
            if (further > most)
                most = further;
        }
    }
    return most + b->needs[op][here->inst].time;
}

/* Precedence towards the operations placed, and the chain rule where one of them starts in the same step. */
static int links_hold(const reading *r, int op, const bounds *links)
{
    const board *b = &r->b;
    const place *here = &b->placed[op];
    int l, in_one_step = 0;
    for (l = 0; l < links->preds; l++)
        in_one_step |= b->placed[links->pred[l]].start == here->start;
    for (l = 0; l < links->succs; l++) {
        const place *after = &b->placed[links->succ[l]];
        if (after->start >= here->start + here->delay)
            continue;
        if (after->start != here->start || after->delay != 1)
            return 0;
        in_one_step = 1;
    }
    if (!in_one_step)
        return 1;
    return here->delay == 1 &&
           longest(r, op, b->preds, b->pred) + longest(r, op, b->succs, b->succ) - b->needs[op][here->inst].time <=
               b->clock;
}

/* Resource. */
static int instance_is_free(const reading *r, const place *here)
{
    int o;
    for (o = 0; o < r->used[here->inst]; o++) {
        const place *other = &r->b.placed[r->op_on[here->inst][o]];
        if (!are_spaced(here->start, here->spacing, other->start, other->spacing))
            return 0;
    }
    return 1;
}

/* Places the operation if the option is live. */
static int is_live(reading *r, int op, int start, int inst, const bounds *links)
{
    place *here = &r->b.placed[op];
    const needs *need = &r->b.needs[op][inst];
    if (need->delay == 0 || start + need->delay - 1 > r->b.steps)
        return 0;
    here->start = start, here->inst = inst, here->delay = need->delay, here->spacing = need->spacing;
    return instance_is_free(r, here) && (links->preds + links->succs == 0 || links_hold(r, op, links));
}

static uint32_t read_child(reading *r, int op, int unplaced, uint32_t cost);

/* The place and all below it, with so many operations unplaced. Gives the number of the refusal, or 0. */
static uint32_t read_place(reading *r, int unplaced, uint32_t cost)
{
    int op, start, inst;
    bounds links;
    if (unplaced == 0)
        return cost >= r->claim ? 0 : TOLMUPUNG_CHEAPER;
    if (r->next == r->end)
        return TOLMUPUNG_BITS_RUN_OUT;
    if (take_bits(r, 1) == 0)
        return cost >= r->claim ? 0 : TOLMUPUNG_CLOSE_BROKEN;
    if (r->end - r->next < SPLIT_BITS - 1)
        return TOLMUPUNG_BITS_RUN_OUT;
    op = (int)take_bits(r, SPLIT_BITS - 1);
    if (op >= r->b.n || r->is_placed[op])
        return TOLMUPUNG_SPLIT_BROKEN;
    bounds_of(r, op, &links);
    for (start = links.earliest; start <= r->b.steps; start++) {
        for (inst = 0; inst < r->b.k; inst++) {
            if (is_live(r, op, start, inst, &links)) {
                uint32_t number = read_child(r, op, unplaced - 1, cost);
                if (number != 0)
                    return number;
            }
        }
    }
    return 0;
}

/* With the operation placed where it is live. */
static uint32_t read_child(reading *r, int op, int unplaced, uint32_t cost)
{
    int inst = r->b.placed[op].inst;
    uint32_t number, using = cost_using(&r->b, inst, cost);
    int first = use(&r->b, inst);
    r->is_placed[op] = 1, r->op_on[inst][r->used[inst]++] = op;
    number = read_place(r, unplaced, using);
    r->is_placed[op] = 0, r->used[inst]--;
    r->b.first_used[r->b.type[inst]] = first;
    return number;
}

/* Nothing follows but the zero bits that fill the last byte. */
static int only_fill_left(const reading *r)
{
    size_t left = r->end - r->next;
    return left < 8 && (left == 0 || (r->note[r->end / 8 - 1] & ((1 << left) - 1)) == 0);
}

static uint32_t read_note(reading *r, size_t length)
{
    uint32_t number;
    if (length > TOLMUPUNG_NOTE_BYTES)
        return TOLMUPUNG_NOTE_LONG;
    if (length == 0)
        return TOLMUPUNG_BITS_RUN_OUT;
    if (take_bits(r, 4) != FORM)
        return TOLMUPUNG_FORM_DIFFERS;
    if (take_bits(r, 1) != (r->claim != NO_PLAN))
        return TOLMUPUNG_VERDICT_DIFFERS;
    number = read_place(r, r->b.n, 0);
    return number == 0 && !only_fill_left(r) ? TOLMUPUNG_FILL_BROKEN : number;
}

static tolmupung_answer refusal(uint32_t number)
{
    tolmupung_answer answer = {TOLMUPUNG_REFUSED, 0, TOLMUPUNG_PAPER_NOTE, 0, 0, 0};
    answer.number = number;
    if (number == TOLMUPUNG_OUTPUT_SHORT)
        answer.paper = TOLMUPUNG_PAPER_REQUEST;
    return answer;
}

/* The answer as tolmupung_check_note gives it. */
tolmupung_answer check_note_in_c(const tolmupung_job *job, uint32_t claim, const uint8_t *note, size_t length)
{
    tolmupung_answer answer = {TOLMUPUNG_NONE, 0, 0, 0, 0, 0};
    reading r;
    uint32_t number;
    memset(&r, 0, sizeof r);
    set_up(&r.b, job);
    r.claim = claim, r.note = note, r.end = 8 * length;
    number = read_note(&r, length);
    if (number != 0)
        return refusal(number);
    if (claim != NO_PLAN)
        answer.outcome = TOLMUPUNG_CHEAPEST, answer.cost = claim;
    return answer;
}

typedef struct {
    board b;
    uint32_t claim;
    size_t next, end;                 /* in bits */
    uint8_t note[TOLMUPUNG_NOTE_BYTES];
} writing;

/* Up to eight bits, behind which the byte is zero. Gives 0 where they do not fit. */
static int put_bits(writing *w, unsigned value, int width)
{
    uint8_t *byte = w->note + w->next / 8;
    unsigned placed = value << (16 - width - (int)(w->next % 8));
    if (w->end - w->next < (size_t)width)
        return 0;
    w->next += (size_t)width;
    byte[0] |= (uint8_t)(placed >> 8);
    if (placed & 0xff)
        byte[1] = (uint8_t)placed;
    return 1;
}

/* The place and all below it, with the operations before op placed. Gives the number of the refusal, or 0. */
static uint32_t write_place(writing *w, int op, uint32_t cost)
{
    if (cost >= w->claim)
        return op == w->b.n || put_bits(w, 0, 1) ? 0 : TOLMUPUNG_OUTPUT_SHORT;
    if (op == w->b.n)
        return TOLMUPUNG_CHEAPER;
    if (!put_bits(w, 1u << (SPLIT_BITS - 1) | (unsigned)op, SPLIT_BITS))
        return TOLMUPUNG_OUTPUT_SHORT;
    before_options(&w->b, op);
    while (next_option(&w->b, op)) {
        int inst = w->b.placed[op].inst;
        uint32_t using = cost_using(&w->b, inst, cost);
        int first = use(&w->b, inst);
        uint32_t number = write_place(w, op + 1, using);
        w->b.first_used[w->b.type[inst]] = first;
        if (number != 0)
            return number;
    }
    return 0;
}

/* The answer as tolmupung_write_note gives it, and the note. */
tolmupung_answer write_note_in_c(const tolmupung_job *job, uint32_t claim, uint8_t *out, size_t length)
{
    tolmupung_answer answer = {TOLMUPUNG_WRITTEN, 0, 0, 0, 0, 0};
    writing w;
    uint32_t number;
    memset(&w, 0, sizeof w);
    set_up(&w.b, job);
    w.claim = claim;
    w.end = 8 * (length < TOLMUPUNG_NOTE_BYTES ? length : TOLMUPUNG_NOTE_BYTES);
    if (!put_bits(&w, FORM << 1 | (claim != NO_PLAN), HEADER_BITS))
        return refusal(TOLMUPUNG_OUTPUT_SHORT);
    number = write_place(&w, 0, 0);
    if (number != 0)
        return refusal(number);
    answer.length = (uint32_t)((w.next + 7) / 8);
    memcpy(out, w.note, answer.length);
    return answer;
}
