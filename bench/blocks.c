#include "blocks.h"

#include <stdlib.h>
#include <string.h>

/* Rows are so far apart that no window holds two of them: such images are read, and neither loaded nor checked. */
#define ROWS_APART 0x10000000u
#define MOST_ROWS 8
/* Between two blocks of a row, as linkers leave some bytes there. */
#define GAP 8
/* As many blocks of one row follow each other where they stand in runs. */
#define RUN 20

/* Which of the raw bytes a block has, and where it is loaded. */
struct block {
    size_t from, to;
    uint32_t load;
};

/* All raw bytes, in ascending order and without a gap. */
static struct block *cut(const struct setting *s)
{
    struct block *blocks = malloc(s->blocks * sizeof *blocks);
    if (blocks == NULL)
        stop("no memory");
    for (unsigned i = 0; i < s->blocks; i++) {
        blocks[i].from = stretch_end(s, i, s->blocks);
        blocks[i].to = stretch_end(s, i + 1u, s->blocks);
        blocks[i].load = BASE + (uint32_t)blocks[i].from;
    }
    return blocks;
}

static void exchange(struct block *a, struct block *b)
{
    struct block kept = *a;
    *a = *b;
    *b = kept;
}

static void reverse(struct block *blocks, unsigned count)
{
    for (unsigned i = 0; i < count / 2; i++)
        exchange(&blocks[i], &blocks[count - 1 - i]);
}

static void shuffle(struct block *blocks, unsigned count)
{
    for (unsigned i = count; i > 1; i--)
        exchange(&blocks[next() % i], &blocks[i - 1]);
}

/* The rows take turns, `run` blocks at a time. Each ascends from its own address. */
static void interleave(struct block *blocks, unsigned count, unsigned rows, unsigned run)
{
    uint32_t end[MOST_ROWS];
    for (unsigned row = 0; row < rows; row++)
        end[row] = ROWS_APART * row;
    for (unsigned i = 0; i < count; i++) {
        unsigned row = i / run % rows;
        blocks[i].load = end[row];
        end[row] += (uint32_t)(blocks[i].to - blocks[i].from) + GAP;
    }
}

/* The last block is refused, and no other is. */
static void let_last_meet(struct block *blocks, unsigned count)
{
    blocks[count - 1].load = blocks[0].load;
    given.code = SCANBOOT_BLOCKS_MEET;
    given.index = count - 1;
}

static void arrange(struct block *blocks, const struct setting *s)
{
    switch (s->order) {
    case DESCENDING: reverse(blocks, s->blocks); break;
    case SHUFFLED: shuffle(blocks, s->blocks); break;
    case TWO_ROWS: interleave(blocks, s->blocks, 2, 1); break;
    case FOUR_ROWS: interleave(blocks, s->blocks, 4, 1); break;
    case EIGHT_ROWS: interleave(blocks, s->blocks, 8, 1); break;
    case FOUR_ROWS_IN_RUNS: interleave(blocks, s->blocks, 4, RUN); break;
    case LAST_MEETS:
        shuffle(blocks, s->blocks);
        let_last_meet(blocks, s->blocks);
        break;
    default: break;
    }
}

/* Each four bytes reversed, if they are asked for so. */
static void turn(uint8_t *at, const uint8_t *end, uint32_t asked)
{
    for (; (given.byte_order & asked) != 0 && at < end; at += 4) {
        uint8_t four[4] = { at[3], at[2], at[1], at[0] };
        memcpy(at, four, 4);
    }
}

/* Answers where it ends. */
static uint8_t *put_block(uint8_t *at, const struct block *b)
{
    uint8_t *header = at;
    at = put(at, b->to - b->from, 4);
    at = put(at, b->load, 4);
    at = put(at, b->load + RUN_APART, 4);
    memcpy(at, given.raw_at + b->from, b->to - b->from);
    at += b->to - b->from;
    while ((at - given.image) % 4 != 0)
        *at++ = 0;
    turn(header, header + BLOCK_HEADER, SCANBOOT_ORDER_NUMBERS);
    turn(header + BLOCK_HEADER, at, SCANBOOT_ORDER_DATA);
    return at;
}

/* Entry point and end flag are 0, and so their own reversal. */
void make_image(const struct setting *s)
{
    struct block *blocks = cut(s);
    arrange(blocks, s);
    given.image = room(MOST);
    uint8_t *at = put(given.image, 0, 4);
    for (unsigned i = 0; i < s->blocks; i++) {
        given.last = (uint64_t)(at - given.image);
        at = put_block(at, &blocks[i]);
    }
    at = put(at, 0, 4);
    given.image_length = (size_t)(at - given.image);
    free(blocks);
}
