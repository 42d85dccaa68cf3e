/* Loading through a host port: what hpi.c gives, and what it needs of the board. */
#ifndef HPI_H
#define HPI_H

#include <scanboot.h>

/* The board's own. The port has two registers: the address of a word in the processor's
 * memory, a multiple of four, and that word itself, 32 bits, the byte at the lowest
 * address in the lowest bits. A read sees all that was written before. */
void port_set_address(uint32_t address);
void port_write(uint32_t word);
uint32_t port_read(void);

/* Loads an image: each block's bytes, exactly its size, stand from its load address on,
 * and every other byte of the memory is as it was. Answers as scanboot_read_image does;
 * where that is a refusal, the port has not been touched. Whether the board has memory at
 * those addresses is not asked: see hpi.c. */
SCANBOOT_TO_BE_READ scanboot_reading hpi_load(const uint8_t *image, size_t length);

#endif
