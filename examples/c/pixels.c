/* Draws a solid by labels of three bits a pixel, one pass for each gate, and writes the picture as a PPM file.
 *
 *     pixels SOLID text  < EXPRESSION > PICTURE      compiles the expression and draws its table
 *     pixels SOLID table < TABLE      > PICTURE      draws a table
 *
 * SOLID is `plate', three solids for 1-2-3, or `cover', the 300 solids of examples/pump-cover.txt.
 *
 * This is how a viewer uses a table. Every pixel starts on the first label. For each gate, every pixel whose label is the gate's own
 * takes the label for true or for false, as the gate's solid holds its point or not. At the end the label says material or not. A
 * pixel here has three bits for its label, as in README: a table of more than eight labels does not fit, and what is lost shows. */
#include <stdio.h>
#include <stdlib.h>
#include <string.h>

#include "blist.h"

#define BITS 3
#define CUT(label) ((uint8_t)((label) & ((1u << BITS) - 1)))
#define SIDE 800 /* pixels to a side; the picture's middle is the point (0, 0) and its edges lie at 100 */

static double square(double x) { return x * x; }
static int in_circle(double x, double y, double radius) { return square(x) + square(y) <= square(radius); }
static int in_box(double x, double y, double wide, double high) { return x >= -wide && x <= wide && y >= -high && y <= high; }

/* The plate: 1 is a plate, 2 a round hole, 3 a slot. */
static int in_plate(unsigned primitive, double x, double y)
{
    switch (primitive) {
    case 1: return in_box(x, y, 80, 55);
    case 2: return in_circle(x + 38, y, 26);
    case 3: return in_box(x - 38, y, 14, 34);
    default: return 0;
    }
}

/* The pump cover, in section: sixteen bodies, each the intersection of five solids, and a cutter.
 *
 * The ring: fourteen bodies are sectors of a round cover, with a bolt hole in each. The solids of a sector are a disc, the two
 * half-planes of its sides, all but the pocket, and all but the bolt hole. The eighth body is a rib across the pocket, as it was cast,
 * and the sixteenth a boss in the pocket. The cutter, the intersection of 80 and 81, mills the pocket free of the rib. The other
 * solids of the expression hold no point of this picture.
 *
 * The expression was made so that the old way sticks at nine labels, and the solids so that it shows: the only points that a viewer
 * tests and that are not material are those of the rib. */
enum { BODIES = 16, RIB = 7, BOSS = 15, SECTORS = 14 };
static const double along[SECTORS + 1][2] = { /* the directions of the sides of the sectors */
    {1.0000, 0.0000}, {0.9010, 0.4339}, {0.6235, 0.7818}, {0.2225, 0.9749}, {-0.2225, 0.9749},
    {-0.6235, 0.7818}, {-0.9010, 0.4339}, {-1.0000, 0.0000}, {-0.9010, -0.4339}, {-0.6235, -0.7818},
    {-0.2225, -0.9749}, {0.2225, -0.9749}, {0.6235, -0.7818}, {0.9010, -0.4339}, {1.0000, 0.0000},
};

static int in_sector(unsigned sector, unsigned part, double x, double y)
{
    const double *from = along[sector], *to = along[sector + 1];
    double middle_x = from[0] + to[0], middle_y = from[1] + to[1]; /* nearly 2 long */
    switch (part) {
    case 0: return in_circle(x, y, 92);
    case 1: return from[0] * y - from[1] * x >= 0;
    case 2: return to[0] * y - to[1] * x <= 0;
    case 3: return !in_circle(x, y, 60);
    default: return !in_circle(x - 39 * middle_x, y - 39 * middle_y, 6);
    }
}

static int in_body(unsigned body, unsigned part, double x, double y)
{
    if (body == BOSS)
        return in_circle(x, y - 34, 12);
    if (body == RIB)
        return part == 0 ? in_circle(x, y, 60) : part == 1 ? x - y <= 9 : part == 2 ? y - x <= 9 : 1;
    return in_sector(body < RIB ? body : body - 1, part, x, y);
}

static unsigned first_of(unsigned body) { return body < 8 ? 10 * body : 150 + 10 * (body - 8); }

static int in_cover(unsigned primitive, double x, double y)
{
    if (primitive == 80)
        return in_circle(x, y, 60);
    if (primitive == 81)
        return !in_body(BOSS, 0, x, y);
    for (unsigned body = 0; body < BODIES; body++)
        if (primitive >= first_of(body) && primitive < first_of(body) + 5)
            return in_body(body, primitive - first_of(body), x, y);
    return 0;
}

/* A viewer tests a point only where it draws a face: of the plate everywhere, of the cover where a body is. */
static int is_drawn(int cover, double x, double y)
{
    for (unsigned body = 0; cover && body < BODIES; body++) {
        unsigned part = 0;
        while (part < 5 && in_body(body, part, x, y))
            part++;
        if (part == 5)
            return 1;
    }
    return !cover;
}

static uint8_t label[SIDE][SIDE], drawn[SIDE][SIDE];
static double point(int pixel) { return (pixel + 0.5) * 200.0 / SIDE - 100; }

/* One pass over the pixels for one gate. */
static void pass(int cover, struct blist_record gate)
{
    for (int row = 0; row < SIDE; row++)
        for (int column = 0; column < SIDE; column++)
            if (drawn[row][column] && label[row][column] == gate.own) {
                double x = point(column), y = -point(row);
                int inside = cover ? in_cover(gate.primitive, x, y) : in_plate(gate.primitive, x, y);
                label[row][column] = CUT(inside != gate.complemented ? gate.on_true : gate.on_false);
            }
}

/* Material is grey with a dark edge; the rest is white. */
static int is_material(int row, int column, uint8_t on_true)
{
    return row >= 0 && row < SIDE && column >= 0 && column < SIDE && drawn[row][column] && label[row][column] == CUT(on_true);
}

static void write_picture(uint8_t on_true)
{
    static const uint8_t white[3] = {255, 255, 255}, grey[3] = {168, 180, 192}, dark[3] = {52, 60, 70};
    printf("P6\n%d %d\n255\n", SIDE, SIDE);
    for (int row = 0; row < SIDE; row++)
        for (int column = 0; column < SIDE; column++) {
            int whole = is_material(row - 3, column, on_true) && is_material(row + 3, column, on_true)
                && is_material(row, column - 3, on_true) && is_material(row, column + 3, on_true);
            fwrite(!is_material(row, column, on_true) ? white : whole ? grey : dark, 1, 3, stdout);
        }
}

static void refused(unsigned number, size_t at)
{
    fprintf(stderr, "pixels: refused %u at %zu: %s\n", number, at, blist_refusal_text(number));
    exit(1);
}

/* The table's bytes from standard input: as they are, or compiled. */
static size_t read_table(int compiled, uint8_t table[BLIST_ROOM])
{
    static char text[BLIST_LONGEST_TEXT + 1];
    if (!compiled)
        return fread(table, 1, BLIST_ROOM, stdin);
    size_t length = fread(text, 1, sizeof text, stdin);
    struct blist_table made = blist_compile(text, length, table, BLIST_ROOM);
    if (made.refusal)
        refused(made.refusal, made.at);
    return made.length;
}

int main(int count, char **words)
{
    static uint8_t table[BLIST_ROOM];
    if (count != 3) {
        fprintf(stderr, "usage: pixels plate|cover text|table\n");
        return 2;
    }
    int cover = strcmp(words[1], "cover") == 0;
    size_t length = read_table(strcmp(words[2], "text") == 0, table);
    struct blist_counts header = blist_header(table, length);
    struct blist_end_labels ends = blist_ends(table, length);
    if (header.refusal || ends.refusal)
        refused(header.refusal ? header.refusal : ends.refusal, header.refusal ? header.at : ends.at);
    for (int row = 0; row < SIDE; row++)
        for (int column = 0; column < SIDE; column++) {
            drawn[row][column] = (uint8_t)is_drawn(cover, point(column), -point(row));
            label[row][column] = CUT(header.first_label);
        }
    for (size_t k = 0; k < header.gates; k++) {
        struct blist_record gate = blist_gate(table, length, k);
        if (gate.refusal)
            refused(gate.refusal, gate.at);
        pass(cover, gate);
    }
    fprintf(stderr, "%zu gates, %u labels in %d bits\n", header.gates, (unsigned)header.labels, BITS);
    write_picture(ends.on_true);
    return 0;
}
