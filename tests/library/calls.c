/* Calls the library as blist.h allows, to its edges: nought lengths with null pointers, guard bytes round the buffer, truths of every
 * kind, readers of what is no table, and a sentence for each refusal. Prints nothing where all is right. */
#include <stdio.h>
#include <string.h>

#include "blist.h"

static int wrong;

static void expect(int right, int line)
{
    if (!right) {
        printf("calls.c:%d: not as the header says\n", line);
        wrong = 1;
    }
}
#define EXPECT(fact) expect((fact), __LINE__)

static int table_is(struct blist_table t, unsigned refusal, size_t at, size_t length)
{
    return t.refusal == refusal && t.at == at && t.length == length;
}

static int run_is(struct blist_run r, unsigned refusal, size_t at, size_t gate, unsigned label)
{
    return r.refusal == refusal && r.at == at && r.gate == gate && r.label == label;
}

static int truth_is(struct blist_truth t, unsigned refusal, size_t at, unsigned truth)
{
    return t.refusal == refusal && t.at == at && t.truth == truth;
}

static int counts_are(struct blist_counts c, unsigned refusal, size_t at, size_t gates, unsigned labels, unsigned first)
{
    return c.refusal == refusal && c.at == at && c.gates == gates && c.labels == labels && c.first_label == first;
}

static int record_is(struct blist_record r, unsigned refusal, size_t at, unsigned primitive, unsigned complemented, const char *labels)
{
    return r.refusal == refusal && r.at == at && r.primitive == primitive && r.complemented == complemented
        && r.own == labels[0] - '0' && r.on_true == labels[1] - '0' && r.on_false == labels[2] - '0';
}

static int ends_are(struct blist_end_labels e, unsigned refusal, size_t at, unsigned on_true, unsigned on_false)
{
    return e.refusal == refusal && e.at == at && e.on_true == on_true && e.on_false == on_false;
}

static struct blist_table compile(const char *text, uint8_t *out, size_t room)
{
    return blist_compile(text, strlen(text), out, room);
}

static const uint8_t five[] = {'H', 1, 0, 2, 'P', 5, 0, 0, 0, 1, 'E', 0, 1};
static const size_t most = (size_t)-1;

/* null pointers of length nought */
static void nulls(void)
{
    uint8_t out[BLIST_ROOM];
    EXPECT(table_is(blist_compile(NULL, 0, NULL, 0), 5, 0, 0));
    EXPECT(table_is(blist_compile(NULL, 0, out, sizeof out), 5, 0, 0));
    EXPECT(table_is(compile("5", NULL, 0), 8, 13, 0));
    EXPECT(run_is(blist_start(NULL, 0), 9, 0, 0, 0));
    EXPECT(run_is(blist_feed(3, 4, NULL, 0, 1), 9, 0, 3, 4));
    EXPECT(truth_is(blist_answer(3, 4, NULL, 0), 9, 0, 0));
    EXPECT(counts_are(blist_header(NULL, 0), 9, 0, 0, 0, 0));
    EXPECT(record_is(blist_gate(NULL, 0, 3), 9, 0, 0, 0, "000"));
    EXPECT(ends_are(blist_ends(NULL, 0), 9, 0, 0, 0));
}

/* a lent buffer of each room, with guard bytes on both sides: a table and nothing else, or nothing at all */
static void guards(void)
{
    uint8_t held[64], before[64];
    memset(before, 0xa5, sizeof before);
    for (size_t room = 0; room <= 32; room++) {
        memcpy(held, before, sizeof held);
        struct blist_table made = compile("5", held + 16, room);
        size_t written = room < 13 ? 0 : 13;
        EXPECT(room < 13 ? table_is(made, 8, 13, 0) : table_is(made, 0, 0, 13));
        EXPECT(memcmp(held, before, 16) == 0);
        EXPECT(memcmp(held + 16, five, written) == 0);
        EXPECT(memcmp(held + 16 + written, before, sizeof held - 16 - written) == 0);
        memcpy(held, before, sizeof held);
        EXPECT(table_is(compile("5+", held + 16, room), 5, 2, 0));
        EXPECT(memcmp(held, before, sizeof held) == 0);
    }
}

/* nought is false, all else true, whatever its type */
static void truths(void)
{
    unsigned flags = 0x100;
    uint64_t many = (uint64_t)1 << 40;
    EXPECT(blist_feed(0, 0, five, sizeof five, flags & 0x100).label == 0);
    EXPECT(blist_feed(0, 0, five, sizeof five, flags & 0x200).label == 1);
    EXPECT(blist_feed(0, 0, five, sizeof five, many).label == 0);
    EXPECT(blist_feed(0, 0, five, sizeof five, 0.5).label == 0);
    const uint8_t *held = five;
    EXPECT(blist_feed(0, 0, five, sizeof five, held).label == 0);
    for (unsigned byte = 0; byte < 256; byte++) {
        struct blist_run run = blist_feed(0, 0, five, sizeof five, (uint8_t)byte);
        EXPECT(run_is(run, 0, 0, 1, byte ? 0 : 1));
        EXPECT(truth_is(blist_answer(run.gate, run.label, five, sizeof five), 0, 0, byte ? 1 : 0));
    }
}

/* refusals of a run, at the largest numbers too */
static void runs(void)
{
    uint8_t bad[sizeof five];
    EXPECT(run_is(blist_start(five, sizeof five), 0, 0, 0, 0));
    EXPECT(run_is(blist_feed(0, 9, five, sizeof five, 1), 0, 0, 1, 9));
    EXPECT(run_is(blist_feed(1, 9, five, sizeof five, 1), 11, 1, 1, 9));
    EXPECT(run_is(blist_feed(most, 255, five, sizeof five, 1), 11, most, most, 255));
    EXPECT(truth_is(blist_answer(0, 0, five, sizeof five), 10, 0, 0));
    EXPECT(truth_is(blist_answer(most, 0, five, sizeof five), 10, most, 0));
    EXPECT(truth_is(blist_answer(1, 255, five, sizeof five), 12, 255, 0));
    for (size_t length = 0; length < sizeof five; length++)
        EXPECT(run_is(blist_start(five, length), 9, 0, 0, 0));
    memcpy(bad, five, sizeof five);
    bad[10] = 'e';
    EXPECT(run_is(blist_start(bad, sizeof bad), 9, 10, 0, 0));
    EXPECT(run_is(blist_feed(0, 0, bad, sizeof bad, 0), 0, 0, 1, 1));
    EXPECT(truth_is(blist_answer(1, 1, bad, sizeof bad), 9, 10, 0));
}

/* what a table says; each reader looks at its own part alone */
static void readers(void)
{
    uint8_t out[BLIST_ROOM], bad[sizeof five];
    struct blist_table made = compile("1*2+3*4-5", out, sizeof out);
    EXPECT(counts_are(blist_header(five, sizeof five), 0, 0, 1, 2, 0));
    EXPECT(record_is(blist_gate(five, sizeof five, 0), 0, 0, 5, 0, "001"));
    EXPECT(record_is(blist_gate(five, sizeof five, 1), 11, 1, 0, 0, "000"));
    EXPECT(record_is(blist_gate(five, sizeof five, most), 11, most, 0, 0, "000"));
    EXPECT(ends_are(blist_ends(five, sizeof five), 0, 0, 0, 1));
    EXPECT(counts_are(blist_header(out, made.length), 0, 0, 5, out[3], 0));
    for (size_t k = 0; k < 5; k++) {
        const uint8_t *at = out + 4 + 6 * k;
        struct blist_record r = blist_gate(out, made.length, k);
        EXPECT(r.refusal == 0 && r.at == 0 && r.primitive == at[1] + 256 * at[2] && r.complemented == (at[0] == 'N'));
        EXPECT(r.own == at[3] && r.on_true == at[4] && r.on_false == at[5]);
    }
    EXPECT(ends_are(blist_ends(out, made.length), 0, 0, out[made.length - 2], out[made.length - 1]));
    for (size_t length = 0; length < sizeof five; length++) {
        EXPECT(counts_are(blist_header(five, length), 9, 0, 0, 0, 0));
        EXPECT(record_is(blist_gate(five, length, 7), 9, 0, 0, 0, "000"));
        EXPECT(ends_are(blist_ends(five, length), 9, 0, 0, 0));
    }
    memcpy(bad, five, sizeof five);
    bad[10] = 'e';
    EXPECT(counts_are(blist_header(bad, sizeof bad), 0, 0, 1, 2, 0));
    EXPECT(record_is(blist_gate(bad, sizeof bad, 0), 0, 0, 5, 0, "001"));
    EXPECT(ends_are(blist_ends(bad, sizeof bad), 9, 10, 0, 0));
    memcpy(bad, five, sizeof five);
    bad[9] = 2;
    EXPECT(record_is(blist_gate(bad, sizeof bad, 0), 9, 4, 0, 0, "000"));
    EXPECT(ends_are(blist_ends(bad, sizeof bad), 0, 0, 0, 1));
}

/* the longest texts */
static void limits(void)
{
    static char text[BLIST_LONGEST_TEXT + 2];
    static uint8_t out[BLIST_ROOM];
    EXPECT(BLIST_ROOM == 6151 && BLIST_TABLE_BYTES(1) == 13);
    memset(text, '!', BLIST_LONGEST_TEXT);
    text[BLIST_LONGEST_TEXT - 1] = '5';
    EXPECT(table_is(compile(text, out, sizeof out), 0, 0, 13));
    EXPECT(out[4] == 'N');
    text[BLIST_LONGEST_TEXT] = ' ';
    EXPECT(table_is(compile(text, out, sizeof out), 1, BLIST_LONGEST_TEXT, 0));
    text[0] = '\0';
    for (size_t k = 0; k < BLIST_MOST_LITERALS; k++)
        strcat(text, k ? "*1" : "1");
    EXPECT(table_is(compile(text, out, sizeof out), 0, 0, BLIST_ROOM));
    EXPECT(blist_header(out, BLIST_ROOM).gates == BLIST_MOST_LITERALS && blist_gate(out, BLIST_ROOM, 1023).primitive == 1);
    EXPECT(blist_start(out, BLIST_ROOM).refusal == 0);
    strcat(text, "*1");
    EXPECT(table_is(compile(text, out, sizeof out), 6, 2048, 0));
}

/* each refusal has a sentence of its own */
static void sentences(void)
{
    const unsigned none = BLIST_NO_SUCH_END + 1;
    for (unsigned a = 0; a <= none; a++)
        for (unsigned b = 0; b < a; b++)
            EXPECT(strcmp(blist_refusal_text(a), blist_refusal_text(b)) != 0);
    EXPECT(blist_refusal_text(none) == blist_refusal_text(255));
}

int main(void)
{
    nulls();
    guards();
    truths();
    runs();
    readers();
    EXPECT(blist_version() == BLIST_VERSION_NUMBER);
    limits();
    sentences();
    return wrong;
}
