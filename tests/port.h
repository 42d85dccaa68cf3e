/* A model of a host port, behind the functions of examples/hpi.h: memory as large as
 * the processor's addresses reach, filled with the pattern of images.h, and blocks whose
 * words may be touched. */
#ifndef PORT_H
#define PORT_H

#include <stdint.h>

struct port_use {
    unsigned addresses; /* how often the address register was written */
    unsigned reads;
    unsigned writes;
    unsigned faults; /* what may not be done; each is told on standard output */
};
extern struct port_use port_use;

/* A new memory, of which no word may be touched; whether the address register counts
 * up after each word. */
void port_begin(int counts_up);

/* Words that hold a byte of this block may be written, and read unless all their bytes
 * are the block's. */
void port_allow(uint32_t load, uint32_t size);

/* What the memory holds, past the port. */
uint8_t port_byte(uint32_t address);

#endif
