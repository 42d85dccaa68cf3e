/* Where everything stands in the picture of a program's memory. */
#ifndef LAYOUT_H
#define LAYOUT_H

#include "boxes.h"

/* Measures, in the picture's units. */
#define MARGIN 28.0
#define CAPTIONS 26.0  /* over each column */
#define ROW 15.0       /* a label */
#define NUMBER 40.0    /* in a label: the number of a block, */
#define COUNT 84.0     /* or how many are drawn together, */
#define NAME 108.0     /* and the name of a section at most, */
#define LEAST_NAME 32.0 /* and at least, if there are any */
#define SPACE 14.0     /* between these */
#define LABELS 236.0   /* left of the loaded memory beside them: addresses, size */
#define RUN_LABELS 160.0 /* right of the memory as run: addresses */
#define RUN_NAME 153.0 /* from there to the names */
#define COLUMN 128.0   /* the loaded memory */
#define BANDS 128.0    /* between the two memories */
#define RUN_COLUMN 104.0 /* the memory as run, unless its lanes take more */
#define LANE 16.0      /* a lane at least: a number of two digits */
#define MOST_LANES 12
#define MORE 64.0      /* beside that many lanes, how many blocks found none */
#define LEVEL 3.0      /* between two leaders over a row of lanes */
#define ENTRY 64.0     /* right of the loaded memory, where no band is drawn */
#define BETWEEN 40.0   /* two panels */
#define MOST_WIDTH 2300.0 /* of several panels */
#define LEGEND_ROW 22.0

/* A part of the boxes, drawn from top to bottom: their memory as loaded, and
 * beside it the memory as run of those that run elsewhere. */
struct panel {
    const struct box *boxes;
    size_t count;
    struct axis loaded;
    struct axis run;
    const struct box **moved; /* in the order of their run addresses */
    size_t moves;
    size_t *lane; /* of each of them; MOST_LANES if all are taken */
    size_t lanes; /* MOST_LANES + 1 if some box has none */
    double x;
    double run_y; /* how far below the loaded memory's top the memory as run begins */
};

struct layout {
    struct boxes boxes;
    struct panel *panels;
    size_t count;
    size_t moves; /* boxes that run elsewhere, in all panels */
    double scale;
    double fold;
    double height; /* of the memory, or of the labels if they take more */
    double numbers; /* room in a label for the number of a block, or how many there are, */
    double names;   /* and for names, with the space behind them; 0 if there are none */
    double panel_width;
    double run_width; /* of the memory as run */
};

/* Where the memory as loaded and the memory as run begin, from left to right. */
double loaded_x(const struct layout *layout, const struct panel *panel);
double run_x(const struct layout *layout, const struct panel *panel);

/* Where an address of the memory as run is drawn. */
double run_at(const struct panel *panel, uint64_t address);

/* How wide a lane of the panel is. */
double lane_width(const struct layout *layout, const struct panel *panel);

/* Lays out a program with at least one block, sorted by load address. */
struct layout lay_out(const struct program *program);

#endif
