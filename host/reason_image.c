#include "headers.h"
#include "reason.h"
#include "scanboot.h"

enum { SIZE_FIELD = 4, BLOCK_HEADER = 12 };

/* The block with this number, which is whole; and the place behind it. */
static struct block block_numbered(struct bytes image, uint64_t number, uint64_t *behind)
{
    struct block block = { 0, 0, 0, 0, NULL };
    *behind = SCANBOOT_FIRST_PLACE;
    for (uint64_t i = 0; i <= number && next_block(image, SCANBOOT_ORDER_PLAIN, behind, &block); i++)
        block.number = (uint32_t)i;
    return block;
}

/* The place behind so many whole blocks. */
static uint64_t place_behind(struct bytes image, uint64_t count)
{
    uint64_t place = SCANBOOT_FIRST_PLACE;
    if (count > 0)
        block_numbered(image, count - 1, &place);
    return place;
}

static void missing(struct reason *reason, const char *what, uint64_t place, uint64_t count)
{
    add(&reason->sentence, "%s at byte %llu is cut: ", what, (unsigned long long)place);
    add_bytes_of(&reason->sentence, count);
    add(&reason->sentence, " missing");
    note(reason, "place", place);
    note(reason, "missing", count);
}

/* What stands, cut, behind the whole blocks. */
static void cut(struct reason *reason, struct bytes image, uint64_t whole)
{
    uint64_t place = place_behind(image, whole), left = image.length - place;
    if (image.length < SCANBOOT_FIRST_PLACE) {
        missing(reason, "the entry point", 0, SCANBOOT_FIRST_PLACE - image.length);
        return;
    }
    if (left < SIZE_FIELD) {
        missing(reason, "a block's size, or the end flag,", place, SIZE_FIELD - left);
        return;
    }
    uint64_t size = number_at(image.at + place), padded = (size + 3) / 4 * 4;
    uint32_t turned = turned_number_at(image.at + place);
    if (left < BLOCK_HEADER)
        missing(reason, "a block's header", place, BLOCK_HEADER - left);
    else if (left - BLOCK_HEADER < size)
        missing(reason, "a block", place, size - (left - BLOCK_HEADER));
    else
        missing(reason, "the padding of a block", place, padded - (left - BLOCK_HEADER));
    add(&reason->sentence, "; it says that it has ");
    add_bytes_of(&reason->sentence, size);
    note(reason, "size", size);
    if (size > SCANBOOT_MOST_BYTES)
        add(&reason->sentence, ", more than any image");
    if (size > left && turned < left)
        add(&reason->sentence, "; in the other byte order it would be %u", turned);
}

static void padding(struct reason *reason, struct bytes image, uint64_t number)
{
    uint64_t behind;
    struct block block = block_numbered(image, number, &behind);
    uint64_t at = (uint64_t)(block.raw - image.at) + block.size;
    while (at < behind && image.at[at] == 0)
        at++;
    add(&reason->sentence, "block %llu has %02Xh at byte %llu, where its padding stands", (unsigned long long)number,
        image.at[at], (unsigned long long)at);
    note(reason, "at", at);
    note(reason, "byte", image.at[at]);
}

static void follow(struct reason *reason, struct bytes image, uint64_t blocks)
{
    uint64_t flag = place_behind(image, blocks), from = flag + SIZE_FIELD, at = from;
    while (at < image.length && image.at[at] == image.at[from])
        at++;
    add(&reason->sentence, "the end flag is at byte %llu, and ", (unsigned long long)flag);
    add_bytes_of(&reason->sentence, image.length - from);
    add(&reason->sentence, " behind it");
    if (at == image.length)
        add(&reason->sentence, ", %s%02Xh", at - from > 1 ? "all " : "", image.at[from]);
    note(reason, "place", flag);
    note(reason, "follow", image.length - from);
}

static void meeting(struct reason *reason, struct bytes image, uint64_t number)
{
    uint64_t place;
    struct block later = block_numbered(image, number, &place), earlier;
    uint32_t first, last, i = 0;
    for (place = SCANBOOT_FIRST_PLACE; i < number && next_block(image, SCANBOOT_ORDER_PLAIN, &place, &earlier); i++) {
        if (!shared(later, earlier, &first, &last))
            continue;
        add(&reason->sentence, "block %llu meets block %u", (unsigned long long)number, i);
        note(reason, "meets", i);
        add_shared(reason, later, earlier);
        return;
    }
}

static void passing(struct reason *reason, struct bytes image, struct outcome outcome)
{
    uint64_t behind;
    int load = outcome.code == SCANBOOT_BLOCK_LOAD;
    struct block block = block_numbered(image, outcome.index, &behind);
    add(&reason->sentence, "block %llu", outcome.index);
    add_passing(reason, load ? "load" : "run", load ? block.load : block.run, block.size);
}

struct reason why_no_image(struct bytes image, struct outcome outcome)
{
    struct reason reason = { .count = 0 };
    switch (outcome.code) {
    case SCANBOOT_IMAGE_TOO_LONG: add(&reason.sentence, "no more of it was read"); break;
    case SCANBOOT_IMAGE_CUT: cut(&reason, image, outcome.index); break;
    case SCANBOOT_TOO_MANY_BLOCKS:
        add(&reason.sentence, "a further block begins at byte %llu",
            (unsigned long long)place_behind(image, outcome.index));
        note(&reason, "place", place_behind(image, outcome.index));
        break;
    case SCANBOOT_BLOCK_LOAD:
    case SCANBOOT_BLOCK_RUN: passing(&reason, image, outcome); break;
    case SCANBOOT_PADDING: padding(&reason, image, outcome.index); break;
    case SCANBOOT_BYTES_FOLLOW: follow(&reason, image, outcome.index); break;
    case SCANBOOT_BLOCKS_MEET: meeting(&reason, image, outcome.index); break;
    default: break;
    }
    return reason;
}
