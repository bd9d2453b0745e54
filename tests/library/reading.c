/* How long reading a text of 16,384 bytes takes: the median of nine rounds of fifty calls, with the second and the eighth. */
#include <stdio.h>
#include <stdlib.h>
#include <string.h>
#include <time.h>
#include "blist.h"

static unsigned char text[16384], out[BLIST_ROOM];

static double now(void)
{
    struct timespec t;
    clock_gettime(CLOCK_PROCESS_CPUTIME_ID, &t);
    return t.tv_sec * 1e3 + t.tv_nsec / 1e6;
}

static int by_size(const void *a, const void *b)
{
    double x = *(const double *)a, y = *(const double *)b;
    return x < y ? -1 : x > y;
}

static void measure(const char *name)
{
    double rounds[9];
    struct blist_table made = {0};
    for (int k = 0; k < 9; k++) {
        double start = now();
        for (int i = 0; i < 50; i++)
            made = blist_compile(text, sizeof text, out, sizeof out);
        rounds[k] = (now() - start) / 50;
    }
    qsort(rounds, 9, sizeof *rounds, by_size);
    printf("%s: %.3f ms (%.3f to %.3f), refusal %d at %zu\n", name, rounds[4], rounds[1], rounds[7], made.refusal, (size_t)made.at);
}

int main(void)
{
    memset(text, '!', 16383);
    text[16383] = '5';
    measure("16,383 complements and a number");
    memset(text, ' ', 16384);
    measure("16,384 blanks");
    memset(text, '(', 16384);
    measure("16,384 openings");
    for (int i = 0; i < 16382; i++)
        text[i] = i % 2 ? '+' : '1';
    text[16382] = text[16383] = ' ';
    measure("8,191 numbers and a plus");
    memset(text, ' ', 16384);
    for (int i = 0; i < 1024; i++) {
        text[i * 16] = '7';
        if (i < 1023)
            text[i * 16 + 8] = i % 3 ? '*' : '+';
    }
    measure("1,024 literals, compiled");
    return 0;
}
