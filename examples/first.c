/* A first use of the library: for document 01's job P a plan drawn by hand is judged, the cheapest one is searched for
 * and its closing note written, and job, plan and note are packed into a dossier and checked there. */
#include <stdio.h>
#include <string.h>

#include "tolmupung.h"

static const uint8_t job[54] = {
    0x11, 0x82, 0x21, 0x8c, 0x80, 0x29, 0x20, 0x02, 0x08, 0x80, 0x02, 0x90, 0x50, 0x14, 0x00, 0x00, 0x00, 0x00,
    0x00, 0x00, 0x00, 0x00, 0x00, 0x00, 0x00, 0x00, 0x00, 0x00, 0x00, 0x00, 0x00, 0x00, 0x00, 0xf1, 0x00, 0x00,
    0x01, 0x68, 0x5a, 0x00, 0x00, 0x00, 0x00, 0x00, 0x00, 0x00, 0x00, 0x00, 0x00, 0x00, 0x00, 0x00, 0x00, 0x00,
};

/* Both adders are selected, and one of them is not used: rows (1,2) (2,2) (3,0). */
static const uint8_t drawn[6] = {0x21, 0x8f, 0x84, 0x84, 0x43, 0x00};

/* A dossier begins with its form and four zero bits in one byte, and with the lengths of the papers in two bytes each. */
enum { PAPERS = 3, DOSSIER_FORM = 0x40, DOSSIER_HEADER = 1 + 2 * PAPERS };

/* Whether the answer is what was hoped for. If not, it says why. */
static int gave(uint32_t outcome, tolmupung_answer answer, const char *step)
{
    if (answer.outcome != outcome)
        printf("%s: number %u, paper %u\n", step, answer.number, answer.paper);
    return answer.outcome == outcome;
}

int main(void)
{
    static uint8_t plan[TOLMUPUNG_PLAN_BYTES], note[TOLMUPUNG_NOTE_BYTES], dossier[TOLMUPUNG_DOSSIER_BYTES];

    tolmupung_answer judged = tolmupung_judge(job, sizeof job, drawn, sizeof drawn);
    if (gave(TOLMUPUNG_PASSED, judged, "the plan drawn is refused"))
        printf("the plan drawn passes, cost %u\n", judged.cost);

    tolmupung_answer found = tolmupung_search(job, sizeof job, UINT32_MAX, plan, sizeof plan);
    if (!gave(TOLMUPUNG_FOUND, found, "no plan is found"))
        return 1;
    printf("the cheapest plan costs %u, found in %u visits\n", found.cost, found.visits);

    tolmupung_answer written = tolmupung_write_note(job, sizeof job, plan, found.length, note, sizeof note);
    if (!gave(TOLMUPUNG_WRITTEN, written, "no note is written"))
        return 1;
    printf("its closing note has %u bytes\n", written.length);

    const uint8_t *papers[PAPERS] = {job, plan, note};
    const size_t lengths[PAPERS] = {sizeof job, found.length, written.length};
    size_t end = DOSSIER_HEADER; /* the longest job, plan and note leave room in a dossier */
    dossier[0] = DOSSIER_FORM;
    for (int i = 0; i < PAPERS; i++) {
        dossier[1 + 2 * i] = (uint8_t)(lengths[i] >> 8);
        dossier[2 + 2 * i] = (uint8_t)lengths[i];
        memcpy(dossier + end, papers[i], lengths[i]);
        end += lengths[i];
    }
    printf("the dossier has %zu bytes\n", end);

    tolmupung_answer checked = tolmupung_check_dossier(dossier, end);
    if (!gave(TOLMUPUNG_CHEAPEST, checked, "the dossier is refused"))
        return 1;
    printf("checked: no plan costs less than %u\n", checked.cost);
    return 0;
}
