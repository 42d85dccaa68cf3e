/* examples/host.c from the inside: its memories after each of the files that are named,
 * beside what scanboot_load_image makes of the same blocks.
 * Prints what failed, then how many passed and failed. */
#define main host_main
#include "../examples/host.c"
#undef main

#include "images.h"

static struct image image;
enum { MEMORIES = sizeof memories / sizeof memories[0] };

static void fill(void)
{
    for (int i = 0; i < MEMORIES; i++)
        for (uint32_t k = 0; k < memories[i].size; k++)
            memories[i].bytes[k] = pattern(memories[i].base + k);
}

static int is_as_filled(void)
{
    int same = 1;
    for (int i = 0; i < MEMORIES; i++)
        for (uint32_t k = 0; k < memories[i].size; k++)
            same &= memories[i].bytes[k] == pattern(memories[i].base + k);
    return same;
}

static int is_as_loaded(void)
{
    static uint8_t window[0x40000];
    uint64_t placed = 0, sizes = 0;
    int same = 1;
    for (int i = 0; i < MEMORIES; i++) {
        placed += scanboot_placed(load_inside(&image, memories[i].base, window, memories[i].size));
        same &= memcmp(memories[i].bytes, window, memories[i].size) == 0;
    }
    for (uint32_t i = 0; i < block_count(&image); i++)
        sizes += block_of(&image, i).size;
    return same && placed == sizes;
}

/* A block at the address, behind one that the first memory holds: taken or refused. */
static void boot_two(const char *what, uint32_t load, uint32_t size, int taken)
{
    static const uint8_t bytes[16] = { 1, 2, 3, 4, 5, 6, 7, 8, 9, 10, 11, 12, 13, 14, 15, 16 };
    begin_image(&image, 0);
    add_block(&image, 0x100, bytes, 5);
    add_block(&image, load, bytes, size);
    end_image(&image);
    fill();
    int status = boot_image(image.bytes, image.length);
    says("taken or refused", what, status == (taken ? 0 : 1));
    says("what the memories hold", what, taken ? is_as_loaded() : is_as_filled());
}

int main(int count, char **given)
{
    for (int i = 1; i < count; i++)
        if (convert(given[i], &image) == SCANBOOT_OK) {
            fill();
            char *words[] = { given[0], given[i], NULL };
            says("it starts", given[i], host_main(2, words) == 0);
            says("the memories hold its blocks and nothing else", given[i], is_as_loaded());
        }
    for (int i = 0; i < MEMORIES; i++) {
        const uint32_t base = memories[i].base, end = base + memories[i].size;
        boot_two("at a memory's begin", base, 16, 1);
        boot_two("at its end", end - 16, 16, 1);
        if (end != 0) {
            boot_two("past its end", end - 15, 16, 0);
            boot_two("behind it", end, 1, 0);
        }
        if (base != 0) {
            boot_two("before it", base - 1, 1, 0);
            boot_two("before it and in it", base - 1, 16, 0);
        }
    }
    fill();
    says("a cut image is refused", "an image", boot_image(image.bytes, image.length - 1) == 1);
    says("and leaves the memories alone", "an image", is_as_filled());
    printf("%u passed, %u failed\n", passed, failed);
    return failed != 0;
}
