/* The stack that blist_compile takes, to the lowest byte that it writes: it runs in a thread whose stack was painted beforehand.
 * The worst texts that were found. Fails above MOST, so that blist.h and docs/limits.md stay true. */
#include <pthread.h>
#include <stdint.h>
#include <stdio.h>
#include <string.h>

#include "blist.h"

enum { STACK = 524288, PAINT = 0xa5, MOST = 108000 };

/* A text: up to four parts, each so many times. */
static const struct {
    const char *name;
    struct {
        const char *part;
        int times;
    } parts[4];
} texts[] = {
    {"1,024 literals in a sum", {{"1+", 1023}, {"1", 1}}},
    {"1,024 literals in a product", {{"1*", 1023}, {"1", 1}}},
    {"1,024 literals in a row of differences", {{"1-", 1023}, {"1", 1}}},
    {"1,024 literals in a sum inside 64 parentheses", {{"(", 64}, {"1+", 1023}, {"1", 1}, {")", 64}}},
    {"1,024 literals, all operators exchanged", {{"(1+2)", 1}, {"*(3+4)*5", 340}, {"*(3+4)", 1}}},
    {"one literal inside 64 parentheses", {{"(", 64}, {"1", 1}, {")", 64}}},
    {"one literal behind 16,383 complements", {{"!", 16383}, {"1", 1}}},
    {"one literal", {{"1", 1}}},
};

static char text[BLIST_LONGEST_TEXT + 1];
static unsigned char stack[STACK] __attribute__((aligned(4096)));

/* What a call began with, and what it refused. */
struct call {
    const unsigned char *top;
    int refusal;
};

static void *compile(void *made)
{
    static uint8_t table[BLIST_ROOM];
    unsigned char here = 0;
    struct call *call = made;
    call->top = &here;
    call->refusal = blist_compile(text, strlen(text), table, sizeof table).refusal;
    return NULL;
}

/* How many bytes the call takes; more than any stack has where it is refused or cannot be made. */
static size_t taken(void)
{
    struct call call = {stack, 1};
    const unsigned char *lowest = stack;
    pthread_t thread;
    pthread_attr_t attributes;
    memset(stack, PAINT, sizeof stack);
    pthread_attr_init(&attributes);
    if (pthread_attr_setstack(&attributes, stack, sizeof stack) || pthread_create(&thread, &attributes, compile, &call))
        return SIZE_MAX;
    pthread_join(thread, NULL);
    while (lowest < call.top && *lowest == PAINT)
        lowest++;
    return call.refusal ? SIZE_MAX : (size_t)(call.top - lowest);
}

int main(void)
{
    size_t most = 0;
    for (size_t k = 0; k < sizeof texts / sizeof *texts; k++) {
        text[0] = 0;
        for (int part = 0; part < 4; part++)
            for (int times = 0; times < texts[k].parts[part].times; times++)
                strcat(text, texts[k].parts[part].part);
        size_t bytes = taken();
        printf("%6zu bytes: %s\n", bytes, texts[k].name);
        if (bytes > most)
            most = bytes;
    }
    if (most > MOST)
        printf("more than the %d bytes that docs/limits.md and blist.h tell of\n", MOST);
    return most > MOST;
}
