/* A host that does not see the processor's memory as its own, but reaches it a word at
 * a time through two registers, address and data: how it loads a boot image.
 *
 *     cc -c hpi.c $(pkg-config --cflags scanboot)
 *
 * Give it the three functions of hpi.h that are the board's own, and call hpi_load
 * while the processor is held in reset. */
#include "hpi.h"

/* The address is written before each word, whether the port counts up by itself or
 * not. */
static uint32_t read_word(uint32_t address)
{
    port_set_address(address);
    return port_read();
}

static void write_word(uint32_t address, uint32_t word)
{
    port_set_address(address);
    port_write(word);
}

/* Puts `size` bytes to the address `load` and those behind it. A block may begin and
 * end inside a word: the other bytes of such a word, which may be another block's,
 * are read and written back. A word that is the block's own is only written. */
static void put(uint32_t load, const uint8_t *bytes, uint32_t size)
{
    uint32_t done = 0;
    while (done < size) {
        uint32_t first = (load + done) % 4;
        uint32_t count = size - done < 4 - first ? size - done : 4 - first;
        uint32_t address = load + done - first;
        uint32_t word = count < 4 ? read_word(address) : 0;
        for (uint32_t i = first; i < first + count; i++) {
            word &= ~((uint32_t)0xff << 8 * i);
            word |= (uint32_t)bytes[done++] << 8 * i;
        }
        write_word(address, word);
    }
}

/* The image is read as a whole first; if it is refused, it has no blocks to walk. In one
 * that can be read no block is cut, none reaches past the last address, and no two load
 * to the same one. What no image tells is where the board has memory: a block that loads
 * elsewhere is written all the same, and is lost or does harm there. A host that knows its
 * memories asks of every block before the first word, as host.c does by seen_at. */
scanboot_reading hpi_load(const uint8_t *image, size_t length)
{
    scanboot_reading whole = scanboot_read_image(image, length);
    uint64_t place = SCANBOOT_FIRST_PLACE;
    for (uint32_t left = scanboot_blocks(whole); left > 0; left--) {
        scanboot_found block = scanboot_block_at(image, length, place);
        scanboot_addresses addresses = scanboot_block_addresses_at(image, length, place);
        put(scanboot_load_address(addresses), image + scanboot_offset(block), scanboot_size(block));
        place = scanboot_next_place(block);
    }
    return whole;
}
