/* blist.h: the manual of the Blist library.
 *
 * The library compiles a Boolean expression of solids, written as text, to a
 * Blist table, runs such a table with one truth per gate, and reads what the
 * table says, for a shader or a loop of the caller's own.
 *
 *     blist_compile   text -> table
 *     blist_start     table -> run
 *     blist_feed      run, table, truth -> run
 *     blist_answer    run, table -> truth
 *     blist_header    table -> gates, label count, first label
 *     blist_gate      table, gate -> what the gate's record says
 *     blist_ends      table -> True's label, False's label
 *     blist_version   -> the version of the archive
 *
 * Each function is proved to return what this page says, on all inputs. What
 * is proved is the code of the library. This header and the caller are not
 * covered by the proof: pass pointers and lengths that belong together.
 *
 * A whole use:
 *
 *     uint8_t table[BLIST_ROOM];
 *     struct blist_table made = blist_compile(text, length, table, sizeof table);
 *     if (made.refusal) return puts(blist_refusal_text(made.refusal));
 *     struct blist_run run = blist_start(table, made.length);
 *     for (size_t k = 0; k < blist_header(table, made.length).gates; k++)
 *         run = blist_feed(run.gate, run.label, table, made.length,
 *                          inside(point, blist_gate(table, made.length, k).primitive));
 *     struct blist_truth end = blist_answer(run.gate, run.label, table, made.length);
 *
 * examples/c/smallest.c is this as a program, and examples/c/pixels.c draws a
 * solid, a label for each pixel and a pass for each gate.
 *
 * The archive is for x86-64 Linux. It calls nothing but the C library's
 * memory functions (memset and its like).
 *
 * How many bits a label takes
 *
 * Compiling needs 2 labels for up to 3 literals, 3 for up to 9, 4 for up to 21,
 * 5 for up to 45, 6 for up to 93, 7 for up to 189, 8 for up to 381, 9 for up to
 * 765, and 10 for up to 1,024, or fewer. So three bits a pixel suffice for
 * every text of up to 381 literals, and four bits always do. If you keep three,
 * test the table's label count before you draw (blist_header): above 8 the
 * labels do not fit, and label 8 cut to three bits reads as 0, which is True's.
 *
 * What holds for all functions
 *
 * - They return on all inputs, given the stack below. They allocate nothing,
 *   keep no state between calls, read and write no global, open no file and
 *   never end the program. So several threads may call them at the same time,
 *   as long as no thread writes bytes that another call reads.
 * - The stack that blist_compile takes is measured, not proved: 1,024 literals
 *   in one chain, the worst that was found, take 102,527 bytes (up to 106,655
 *   in earlier archives of this number), and one literal takes 24,791
 *   (tests/library/stack.c). Give a thread that compiles 128 KB over what it
 *   needs itself. The others take under 1 KB.
 * - They read only the bytes that are lent, and only blist_compile writes:
 *   to `out` and nowhere else.
 * - The caller owns every buffer, before, during and after the call. No
 *   pointer is kept.
 * - A length of nought is allowed, and with it a null pointer. With any other
 *   length the pointer must point to that many bytes.
 * - They answer a result or one refusal. `refusal` is its number, nought for
 *   none, and `at` is its place. A field that has no meaning is nought.
 */
#ifndef BLIST_H
#define BLIST_H

#include <stdbool.h>
#include <stddef.h>
#include <stdint.h>

#define BLIST_VERSION_MAJOR 1
#define BLIST_VERSION_MINOR 1
#define BLIST_VERSION_PATCH 1
#define BLIST_VERSION "1.1.1"
#define BLIST_VERSION_NUMBER (10000 * BLIST_VERSION_MAJOR + 100 * BLIST_VERSION_MINOR + BLIST_VERSION_PATCH)

#ifdef __cplusplus
extern "C" {
#endif

/* Limits. */
#define BLIST_LONGEST_TEXT 16384 /* bytes of a text */
#define BLIST_GREATEST_PRIMITIVE 1023
#define BLIST_DEEPEST 64 /* open parentheses */
#define BLIST_MOST_LITERALS 1024
#define BLIST_MOST_LABELS 15 /* in a table; compiling never needs more than 10 */

/* The bytes of a table of n literals, and the room that holds every table. */
#define BLIST_TABLE_BYTES(n) (6 * (size_t)(n) + 7)
#define BLIST_ROOM BLIST_TABLE_BYTES(BLIST_MOST_LITERALS)

/* The text
 *
 * Bytes allowed: digits, `+` (union), `*` (intersection), `-` (difference),
 * `!` (complement), `(`, `)`, space and newline (10). Spaces and newlines may
 * stand anywhere but inside a number, and mean nothing. No byte ends the text
 * but its length: a byte 0 is not allowed.
 *
 *   sum      products joined by `+` or `-`
 *   product  factors joined by `*`
 *   factor   `!` and a factor, or a number, or a sum in parentheses
 *
 * Both levels group from the left: `1+2-3` is (1+2) less 3, and `1-2*3` is 1
 * less 2*3. A number has 1 to 4 digits and a value from 0 to 1,023; it names a
 * primitive, and each occurrence is a literal of its own.
 *
 * The table
 *
 * One byte of kind, then a body. Two-byte numbers have their low byte first.
 *
 *   'H'         n, two bytes; label count, one byte
 *   'P' or 'N'  primitive, two bytes; own label; label of the true place;
 *               label of the false place      (N: a complemented gate)
 *   'E'         True's label; False's label
 *
 * A table is one H, n gates, one E: BLIST_TABLE_BYTES(n) bytes. It is plain
 * data: store it, send it, and run it elsewhere. Gates stand in the order in
 * which a run takes them, which need not be the order of the text.
 */

/* The numbered refusals. docs/refusals has a page for each. */
enum blist_refusal {
    BLIST_NO_REFUSAL = 0,
    /* blist_compile, tested in this order, each over the whole text */
    BLIST_TEXT_TOO_LONG = 1,     /* text longer than 16,384 bytes; at: 16,384 */
    BLIST_BYTE_NOT_ALLOWED = 2,  /* a byte not allowed; at: the first such */
    BLIST_NUMBER_TOO_LARGE = 3,  /* a run of over 4 digits, or a value over 1,023; at: its first digit */
    BLIST_TOO_DEEP = 4,          /* the count of `(` less `)` passes 64; at: that `(` */
    BLIST_NOT_A_SUM = 5,         /* not a sum by the grammar; at: length of the longest beginning that some ending would complete */
    BLIST_TOO_MANY_LITERALS = 6, /* over 1,024 literals; at: first digit of the 1,025th number */
    BLIST_TOO_MANY_LABELS = 7,   /* the table would need over 15 labels; at: 0. No text gives this */
    BLIST_TOO_LITTLE_ROOM = 8,   /* `out` is too short; at: the bytes that the table needs */
    /* blist_start, blist_feed, blist_answer, blist_header, blist_gate, blist_ends */
    BLIST_NOT_A_TABLE = 9,       /* not a well-formed table; at: start of the first record at fault */
    BLIST_NOT_AT_THE_END = 10,   /* answer asked with gate number other than n; at: the gate number */
    BLIST_NO_GATE_LEFT = 11,     /* truth fed, or record asked, with gate number n or more; at: the gate number */
    BLIST_NO_SUCH_END = 12       /* answer: the label is neither True's nor False's; at: the label */
};

/* What a refusal means and what to do, as one English text. The text is
 * constant and is not to be freed. */
static inline const char *blist_refusal_text(unsigned number)
{
    switch (number) {
    case BLIST_NO_REFUSAL:
        return "No refusal.";
    case BLIST_TEXT_TOO_LONG:
        return "The text is longer than 16,384 bytes. Shorten it: leave out spaces, or split the solid.";
    case BLIST_BYTE_NOT_ALLOWED:
        return "The text has a byte that is not allowed. Take out the byte at the place given; "
               "only digits, + * - ! ( ) space and newline may stand there.";
    case BLIST_NUMBER_TOO_LARGE:
        return "A number has more than four digits or is over 1,023. Number the primitives from 0 to 1,023; "
               "the number starts at the place given.";
    case BLIST_TOO_DEEP:
        return "More than 64 parentheses are open at once. Take out parentheses that are not needed; "
               "the one too many is at the place given.";
    case BLIST_NOT_A_SUM:
        return "The text is not an expression. Up to the place given it could still become one; mend what stands there.";
    case BLIST_TOO_MANY_LITERALS:
        return "The text has more than 1,024 numbers. Split the solid; the first number too many is at the place given.";
    case BLIST_TOO_MANY_LABELS:
        return "The table would need more than 15 labels. No text gives this refusal: please report it with the text.";
    case BLIST_TOO_LITTLE_ROOM:
        return "The buffer is too short for the table. Lend as many bytes as the place says, or BLIST_ROOM.";
    case BLIST_NOT_A_TABLE:
        return "The bytes are not a well-formed table. Check that the table and its length are those that compiling gave; "
               "the first record at fault starts at the place given.";
    case BLIST_NOT_AT_THE_END:
        return "The answer was asked before every gate was fed, or after too many. Feed one truth for each gate first; "
               "the place is the run's gate number.";
    case BLIST_NO_GATE_LEFT:
        return "There is no such gate: a truth was fed, or a record asked, past the last one. Ask for the answer instead; "
               "the place is the gate number.";
    case BLIST_NO_SUCH_END:
        return "The run's label is neither True's nor False's. Feed the run as the library gave it back, "
               "over the table that it was started on.";
    default:
        return "Not a refusal number. Take the header that belongs to the library.";
    }
}

/* What blist_compile returns. */
struct blist_table {
    uint8_t refusal;
    size_t at;
    size_t length; /* bytes of the table; nought on refusal */
};

/* What blist_start and blist_feed return. A run is the two numbers gate and
 * label. It is a value: copy it, keep it, go back to it. */
struct blist_run {
    uint8_t refusal;
    size_t at;
    size_t gate;   /* the gate that the next truth is for; n: every gate is passed */
    uint8_t label;
};

/* What blist_answer returns. */
struct blist_truth {
    uint8_t refusal;
    size_t at;
    uint8_t truth; /* 1: inside the solid; 0: outside, and on refusal */
};

/* What blist_header returns. */
struct blist_counts {
    uint8_t refusal;
    size_t at;
    size_t gates;
    uint8_t labels;      /* how many labels there are */
    uint8_t first_label; /* the label that a run starts on */
};

/* What blist_gate returns. */
struct blist_record {
    uint8_t refusal;
    size_t at;
    uint16_t primitive;   /* the solid whose truth the gate takes */
    uint8_t complemented; /* 1: it takes the opposite of that truth */
    uint8_t own;          /* a run on this label is moved by the gate */
    uint8_t on_true;      /* to this label if true */
    uint8_t on_false;     /* to this label if false */
};

/* What blist_ends returns. */
struct blist_end_labels {
    uint8_t refusal;
    size_t at;
    uint8_t on_true;  /* a run that ends on this label is true */
    uint8_t on_false; /* a run that ends on this label is false */
};

/* The layout that the archive has, asserted for the compiler that reads this. */
#if defined __cplusplus
#define BLIST_ASSERT(fact) static_assert(fact, #fact)
#elif defined __STDC_VERSION__ && __STDC_VERSION__ >= 201112L
#define BLIST_ASSERT(fact) _Static_assert(fact, #fact)
#else
#define BLIST_JOIN(a, b) a##b
#define BLIST_NAME(line) BLIST_JOIN(blist_assert_, line)
#define BLIST_ASSERT(fact) extern char BLIST_NAME(__LINE__)[(fact) ? 1 : -1]
#endif
BLIST_ASSERT(sizeof(size_t) == 8);
BLIST_ASSERT(sizeof(bool) == 1);
BLIST_ASSERT(sizeof(struct blist_table) == 24);
BLIST_ASSERT(offsetof(struct blist_table, refusal) == 0);
BLIST_ASSERT(offsetof(struct blist_table, at) == 8);
BLIST_ASSERT(offsetof(struct blist_table, length) == 16);
BLIST_ASSERT(sizeof(struct blist_run) == 32);
BLIST_ASSERT(offsetof(struct blist_run, refusal) == 0);
BLIST_ASSERT(offsetof(struct blist_run, at) == 8);
BLIST_ASSERT(offsetof(struct blist_run, gate) == 16);
BLIST_ASSERT(offsetof(struct blist_run, label) == 24);
BLIST_ASSERT(sizeof(struct blist_truth) == 24);
BLIST_ASSERT(offsetof(struct blist_truth, refusal) == 0);
BLIST_ASSERT(offsetof(struct blist_truth, at) == 8);
BLIST_ASSERT(offsetof(struct blist_truth, truth) == 16);
BLIST_ASSERT(sizeof(struct blist_counts) == 32);
BLIST_ASSERT(offsetof(struct blist_counts, refusal) == 0);
BLIST_ASSERT(offsetof(struct blist_counts, at) == 8);
BLIST_ASSERT(offsetof(struct blist_counts, gates) == 16);
BLIST_ASSERT(offsetof(struct blist_counts, labels) == 24);
BLIST_ASSERT(offsetof(struct blist_counts, first_label) == 25);
BLIST_ASSERT(sizeof(struct blist_record) == 24);
BLIST_ASSERT(offsetof(struct blist_record, refusal) == 0);
BLIST_ASSERT(offsetof(struct blist_record, at) == 8);
BLIST_ASSERT(offsetof(struct blist_record, primitive) == 16);
BLIST_ASSERT(offsetof(struct blist_record, complemented) == 18);
BLIST_ASSERT(offsetof(struct blist_record, own) == 19);
BLIST_ASSERT(offsetof(struct blist_record, on_true) == 20);
BLIST_ASSERT(offsetof(struct blist_record, on_false) == 21);
BLIST_ASSERT(sizeof(struct blist_end_labels) == 24);
BLIST_ASSERT(offsetof(struct blist_end_labels, refusal) == 0);
BLIST_ASSERT(offsetof(struct blist_end_labels, at) == 8);
BLIST_ASSERT(offsetof(struct blist_end_labels, on_true) == 16);
BLIST_ASSERT(offsetof(struct blist_end_labels, on_false) == 17);

/* Compiles a text to a table in the lent buffer `out`.
 *
 * Returns  the table's length, or refusal 1 to 8.
 * Writes   the table's bytes at the start of `out`. The rest of `out` stays as
 *          it was. A refused compile has written nothing.
 * Never    writes outside `out`; writes to `text`.
 * Owns     nothing. `text` and `out` may not overlap.
 *
 * With BLIST_ROOM bytes, refusal 8 cannot come. To learn the length first,
 * lend no room: (NULL, 0) gives refusal 8 with the length as its place. */
struct blist_table blist_compile(const void *text, size_t text_length, uint8_t *out, size_t out_length);

/* Starts a run over a table, which may have come from anywhere: the whole table
 * is checked.
 *
 * Returns  the run at gate 0 with label 0, or refusal 9 (gate and label are
 *          then nought).
 * Never    writes. Owns nothing. */
struct blist_run blist_start(const uint8_t *table, size_t table_length);

/* Feeds a run one truth: that of the primitive of its gate. Hand in any number
 * or pointer: C makes 0 of nought and 1 of all else. (A caller in another
 * language hands in a byte, nought for false and any other for true.) For a
 * complemented gate too, hand in the truth of the primitive: the run takes the
 * opposite.
 *
 * Returns  the run after this gate, or refusal 9 or 11; on refusal gate and
 *          label are those handed in.
 * Checks   the table's header and length and the one record that it reads, each
 *          time: the table may have changed since the start.
 * Never    writes. Owns nothing. */
struct blist_run blist_feed(size_t gate, uint8_t label, const uint8_t *table, size_t table_length, bool truth);

/* Asks a run that has passed every gate for its truth.
 *
 * Returns  the truth of the expression, or refusal 9, 10 or 12.
 * Checks   the table's header and length and its last record.
 * Never    writes. Owns nothing. */
struct blist_truth blist_answer(size_t gate, uint8_t label, const uint8_t *table, size_t table_length);

/* What a table says of itself as a whole.
 *
 * Returns  the number of gates, the label count and the first label, or
 *          refusal 9.
 * Checks   the table's header and length, and no record.
 * Never    writes. Owns nothing. */
struct blist_counts blist_header(const uint8_t *table, size_t table_length);

/* What the record of a gate says.
 *
 * Returns  the primitive, whether it is complemented, and the three labels, or
 *          refusal 9 or 11.
 * Checks   the table's header and length and the one record that it reads.
 * Never    writes. Owns nothing. */
struct blist_record blist_gate(const uint8_t *table, size_t table_length, size_t gate);

/* The labels on which a run ends.
 *
 * Returns  True's and False's label, or refusal 9.
 * Checks   the table's header and length and its last record.
 * Never    writes. Owns nothing. */
struct blist_end_labels blist_ends(const uint8_t *table, size_t table_length);

/* The version of the archive: BLIST_VERSION_NUMBER of the header that belongs
 * to it. */
uint32_t blist_version(void);

#ifdef __cplusplus
}
#endif

#endif
