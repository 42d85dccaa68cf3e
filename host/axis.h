/* A memory laid along a line: what is used to scale, gaps folded. */
#ifndef AXIS_H
#define AXIS_H

#include <stddef.h>
#include <stdint.h>

struct range {
    uint64_t from;
    uint64_t to; /* the first address behind */
};

/* A range in use. Where blocks are drawn together it holds fewer bytes than addresses. */
struct use {
    struct range range;
    uint64_t bytes;
};

/* Addresses between two neighbouring ends of ranges: all used, or none. */
struct stretch {
    struct range range;
    int used;
    int folded;
    double bytes; /* that its height stands for: of a gap, as many as addresses */
    double y;
    double height;
};

struct axis {
    struct stretch *stretches;
    size_t count;
    double height;
};

/* Nothing that is used is drawn lower than this. */
#define LEAST_HEIGHT 4.0

/* The memory in which these ranges lie; they may come in any order and meet. */
struct axis make_axis(const struct use *uses, size_t count);

/* Gives every stretch its place: `scale` for each byte, but no more than `fold`
 * for a gap. */
void lay_axis(struct axis *axis, double scale, double fold);

/* Where an address inside the axis, or its end, is drawn. */
double y_at(const struct axis *axis, uint64_t address);

/* Moves places, which ascend, so far apart that each has `row` of its own inside
 * 0 to `height`, and as little as can be. */
void spread(double *places, size_t count, double row, double height);

#endif
