#include "boxes.h"
#include "headers.h"
#include "svg.h"

#include <stdio.h>

/* Which neighbours may share a box. */
enum share { IN_PLACE, SAME_DISTANCE, ANY };

struct range loaded_range(const struct box *box)
{
    const struct block *last = &box->blocks[box->count - 1];
    struct range range = { box->blocks->load, (uint64_t)last->load + last->size };
    return range;
}

struct range run_range(const struct box *box)
{
    struct range range = loaded_range(box);
    range.from += (uint64_t)box->distance;
    range.to += (uint64_t)box->distance;
    return range;
}

int is_moved(const struct box *box)
{
    return !box->mixed && box->distance != 0;
}

static const char *name_or_none(const struct program *program, uint32_t number)
{
    const char *name = program->names[number];
    return name != NULL ? name : "";
}

const char *name_of(const struct program *program, const struct box *box, double room)
{
    static char both[2 * MOST_NAME + sizeof "\u2013"];
    if (program->names == NULL)
        return "";
    const char *first = name_or_none(program, box->blocks[0].number);
    const char *last = name_or_none(program, box->blocks[box->count - 1].number);
    if (box->count == 1 || first[0] == '\0' || last[0] == '\0')
        return box->count == 1 ? first : "";
    snprintf(both, sizeof both, "%s\u2013%s", first, last);
    if (name_width(LABEL, both) > room)
        snprintf(both, sizeof both, "%s...", first);
    return both;
}

static int64_t distance_of(const struct block *block)
{
    return (int64_t)block->run - (int64_t)block->load;
}

static int may_share(const struct box *box, const struct block *block, enum share share, uint64_t reach)
{
    int64_t distance = distance_of(block);
    if ((uint64_t)block->load + block->size - box->blocks->load > reach)
        return 0;
    return share == ANY || (distance == box->distance && (share == SAME_DISTANCE || distance == 0));
}

/* From the lowest address on, each block into the box before it, if it may. The block
 * that is entered has a box of its own in any case. */
static void fill(struct boxes *boxes, const struct program *program, enum share share, uint64_t reach)
{
    const struct block *entered = entered_in(program).block;
    boxes->count = 0;
    boxes->reach = reach;
    for (size_t i = 0; i < program->count; i++) {
        const struct block *block = &program->blocks[i];
        struct box *box = boxes->count > 0 ? &boxes->at[boxes->count - 1] : NULL;
        if (box == NULL || block == entered || box->blocks == entered || !may_share(box, block, share, reach)) {
            struct box begun = { .blocks = block, .distance = distance_of(block) };
            box = &boxes->at[boxes->count++];
            *box = begun;
        }
        if (block == entered)
            boxes->entered = box;
        box->count++;
        box->moves += distance_of(block) != 0;
        box->bytes += block->size;
        box->mixed |= distance_of(block) != box->distance;
    }
}

/* A block that runs elsewhere has a box of its own where these, and the stretches of
 * blocks between them, take three quarters of the boxes at most. Where they take more,
 * those of one distance share boxes, so that one band leads from each; and where that
 * is not enough, any neighbours do. */
struct boxes boxes_of(const struct program *program)
{
    const uint64_t all = (uint64_t)1 << 32;
    struct boxes boxes = { .at = room_of(program->count, sizeof *boxes.at) };
    enum share share = IN_PLACE;
    uint64_t reach = 1;
    fill(&boxes, program, share, 0);
    if (boxes.count <= MOST_BOXES)
        return boxes;
    fill(&boxes, program, share, all);
    while (boxes.count > MOST_BOXES / 4 * 3 && share < ANY)
        fill(&boxes, program, ++share, all);
    do {
        reach *= 2;
        fill(&boxes, program, share, reach);
    } while (boxes.count > MOST_BOXES);
    return boxes;
}
