#include "axis.h"
#include "files.h"

#include <stdlib.h>

static int compare_addresses(const void *left, const void *right)
{
    uint64_t a = *(const uint64_t *)left, b = *(const uint64_t *)right;
    return (a > b) - (a < b);
}

/* How many bytes of a use lie in a part of it, or 0 if it is none: they are taken to
 * lie evenly. */
static double bytes_in(struct use use, struct range part)
{
    if (part.from < use.range.from || part.to > use.range.to)
        return 0;
    return (double)use.bytes * ((double)(part.to - part.from) / (double)(use.range.to - use.range.from));
}

struct axis make_axis(const struct use *uses, size_t count)
{
    struct axis axis = { room_of(2 * count, sizeof(struct stretch)), 0, 0 };
    uint64_t *ends = room_of(2 * count, sizeof *ends);
    for (size_t i = 0; i < count; i++) {
        ends[2 * i] = uses[i].range.from;
        ends[2 * i + 1] = uses[i].range.to;
    }
    qsort(ends, 2 * count, sizeof *ends, compare_addresses);
    for (size_t i = 0; i + 1 < 2 * count; i++) {
        struct stretch stretch = { .range = { ends[i], ends[i + 1] } };
        if (ends[i] == ends[i + 1])
            continue;
        for (size_t j = 0; j < count; j++) {
            double bytes = bytes_in(uses[j], stretch.range);
            stretch.bytes = bytes > stretch.bytes ? bytes : stretch.bytes;
        }
        stretch.used = stretch.bytes > 0;
        if (!stretch.used)
            stretch.bytes = (double)(ends[i + 1] - ends[i]);
        axis.stretches[axis.count++] = stretch;
    }
    free(ends);
    return axis;
}

void lay_axis(struct axis *axis, double scale, double fold)
{
    double y = 0;
    for (size_t i = 0; i < axis->count; i++) {
        struct stretch *stretch = &axis->stretches[i];
        double height = stretch->bytes * scale;
        stretch->folded = !stretch->used && height > fold;
        if (stretch->folded)
            height = fold;
        else if (stretch->used && height < LEAST_HEIGHT)
            height = LEAST_HEIGHT;
        else if (height < LEAST_HEIGHT / 2)
            height = LEAST_HEIGHT / 2;
        stretch->y = y;
        stretch->height = height;
        y += height;
    }
    axis->height = y;
}

double y_at(const struct axis *axis, uint64_t address)
{
    size_t low = 0, high = axis->count;
    while (high - low > 1) {
        size_t middle = low + (high - low) / 2;
        if (axis->stretches[middle].range.from <= address)
            low = middle;
        else
            high = middle;
    }
    const struct stretch *stretch = &axis->stretches[low];
    double part = (double)(address - stretch->range.from) / (double)(stretch->range.to - stretch->range.from);
    return stretch->y + part * stretch->height;
}

/* Rows that lie close together form a heap, which lies around the middle of the
 * places that its rows would have; heaps that meet become one. */
void spread(double *places, size_t count, double row, double height)
{
    struct heap {
        size_t rows;
        double sum; /* of the tops that each of its rows would give the heap */
        double top;
    } *heaps = room_of(count, sizeof *heaps);
    size_t used = 0;
    for (size_t i = 0; i < count; i++) {
        struct heap heap = { 1, places[i] - row / 2, 0 };
        for (;;) {
            double most = height - (double)heap.rows * row;
            heap.top = heap.sum / (double)heap.rows;
            heap.top = heap.top > most ? most : heap.top;
            heap.top = heap.top < 0 ? 0 : heap.top;
            if (used == 0 || heaps[used - 1].top + (double)heaps[used - 1].rows * row <= heap.top)
                break;
            struct heap before = heaps[--used];
            heap.sum = before.sum + heap.sum - (double)before.rows * row * (double)heap.rows;
            heap.rows += before.rows;
        }
        heaps[used++] = heap;
    }
    size_t i = 0;
    for (size_t h = 0; h < used; h++)
        for (size_t r = 0; r < heaps[h].rows; r++)
            places[i++] = heaps[h].top + ((double)r + 0.5) * row;
    free(heaps);
}
