/* The smallest whole program: compiles an expression, feeds the truth of each gate's primitive and prints the answer. */
#include <stdio.h>
#include <string.h>

#include "blist.h"

static int refused(const char *step, unsigned number, size_t at)
{
    printf("%s: refused %u at %zu: %s\n", step, number, at, blist_refusal_text(number));
    return 1;
}

int main(void)
{
    static const char text[] = "1+2*3";
    static const uint8_t inside[4] = {0, 0, 1, 1}; /* the point is outside solid 1, inside 2 and 3 */
    uint8_t table[BLIST_ROOM];

    struct blist_table made = blist_compile(text, strlen(text), table, sizeof table);
    if (made.refusal)
        return refused("compile", made.refusal, made.at);
    struct blist_counts counts = blist_header(table, made.length);
    printf("%zu bytes, %zu gates\n", made.length, counts.gates);

    struct blist_run run = blist_start(table, made.length);
    for (size_t k = 0; k < counts.gates && !run.refusal; k++) {
        unsigned primitive = blist_gate(table, made.length, k).primitive;
        printf("gate %zu asks solid %u: %s\n", k, primitive, inside[primitive] ? "true" : "false");
        run = blist_feed(run.gate, run.label, table, made.length, inside[primitive]);
    }
    if (run.refusal)
        return refused("run", run.refusal, run.at);

    struct blist_truth end = blist_answer(run.gate, run.label, table, made.length);
    if (end.refusal)
        return refused("answer", end.refusal, end.at);
    printf("1+2*3 is %s\n", end.truth ? "true" : "false");
    return 0;
}
