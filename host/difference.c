#include "difference.h"

static const uint64_t addresses = (uint64_t)1 << 32;

uint8_t byte_in(const struct block *block, uint32_t address)
{
    return block->raw[address - block->load];
}

uint32_t run_in(const struct block *block, uint32_t address)
{
    return block->run + (address - block->load);
}

struct walk begin_walk(struct program *file, struct program *image)
{
    struct walk walk = { file, image, 0, 0, 0 };
    sort_by_load(file);
    sort_by_load(image);
    return walk;
}

static uint64_t end_of(const struct block *block)
{
    return (uint64_t)block->load + block->size;
}

/* The block of a sorted program that `address` lies in, or NULL. `next` is moved
 * past the blocks that end before it, and `stop` back to where that changes. */
static const struct block *block_around(const struct program *program, size_t *next, uint64_t address, uint64_t *stop)
{
    while (*next < program->count && end_of(&program->blocks[*next]) <= address)
        ++*next;
    if (*next == program->count)
        return NULL;
    const struct block *block = &program->blocks[*next];
    uint64_t change = block->load <= address ? end_of(block) : block->load;
    if (change < *stop)
        *stop = change;
    return block->load <= address ? block : NULL;
}

/* How two blocks differ at an address, or 0. */
static int how_at(const struct block *section, const struct block *block, uint64_t address)
{
    uint32_t at = (uint32_t)address;
    return (byte_in(section, at) != byte_in(block, at) ? OTHER_BYTES : 0) |
           (run_in(section, at) != run_in(block, at) ? OTHER_RUN : 0);
}

/* Between two changes each side is one block or nothing. */
int next_difference(struct walk *walk, struct difference *found)
{
    while (walk->address < addresses) {
        uint64_t first = walk->address, stop = addresses;
        const struct block *section = block_around(walk->file, &walk->in_file, first, &stop);
        const struct block *block = block_around(walk->image, &walk->in_image, first, &stop);
        uint64_t end = stop;
        int how = 0;
        if (section != NULL && block != NULL) {
            while (first < stop && (how = how_at(section, block, first)) == 0)
                first++;
            for (end = first; end < stop && how_at(section, block, end) == how;)
                end++;
        }
        walk->address = end;
        if (first == end || (section == NULL && block == NULL))
            continue;
        struct difference difference = { (uint32_t)first, end - first, section, block, how };
        *found = difference;
        return 1;
    }
    return 0;
}
