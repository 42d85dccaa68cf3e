/* What the parts of the picture have in common. */
#ifndef DRAWING_H
#define DRAWING_H

#include "layout.h"
#include "text.h"

struct picture {
    const struct program *program;
    struct layout layout;
    struct text text;
    enum start start; /* what stands at the entry point */
    int marked;       /* which is marked */
};

/* Colours: of a box that runs where it is loaded, of one whose blocks run at several
 * distances, of blocks that are not drawn, of gaps that are not folded, and of boxes that
 * run elsewhere, in turn. */
#define COLOURS 6
extern const char in_place[];
extern const char mixed[];
extern const char left_out[];
extern const char gap_open[];
extern const char *const elsewhere[COLOURS];

const char *colour_of(const struct box *box);

/* "s" where a number of things is not one. */
const char *plural(uint64_t number);

/* 16777216 as 16,777,216. The text stands until the fourth call after. */
const char *grouped(uint64_t number);

/* First and last address. The text stands until the second call after. */
const char *shown(struct range range);

/* A gap: open, or folded between two torn edges. */
void draw_gap(struct text *text, const struct stretch *gap, double x, double y, double width);

/* What stands in a label for the block: its number, or how many blocks the box has.
 * The text stands until the next call. */
const char *numbered(const struct picture *picture, const struct box *box);

/* The names of the box in a label, at the place where it begins. */
void draw_name(struct picture *picture, const struct box *box, double x, double y);

/* A pointer that rests on the box is told all about it. */
void draw_box(struct picture *picture, const struct box *box, double x, double y, double width, double height);

/* The mark of the entry point beside a place: left of it if that is in the memory as
 * run, else right of it. It is red unless a block is loaded and runs there. */
void draw_mark(struct picture *picture, double x, double y);

/* The memory as run of the panel's boxes that run elsewhere, and the bands that
 * lead there. */
void draw_run(struct picture *picture, const struct panel *panel, double y);

/* Says what the picture's signs mean, and answers where that ends. */
double draw_legend(struct picture *picture, double y);

#endif
