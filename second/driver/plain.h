/* The calls of plain.c under their own names (-DPLAIN_NAMES), for programs that
 * have them beside the library: the bench and the fuzzer. Answers are packed as
 * the library's are (include/scanboot.h). */
#ifndef SECOND_DRIVER_PLAIN_H
#define SECOND_DRIVER_PLAIN_H

#include <stddef.h>
#include <stdint.h>

uint64_t plain_measure(const uint8_t *file, size_t file_len);
uint64_t plain_convert(const uint8_t *file, size_t file_len, uint8_t *out, size_t out_len);
uint64_t plain_list(const uint8_t *file, size_t file_len, uint8_t *text, size_t text_len);
uint64_t plain_read_image(const uint8_t *image, size_t image_len);
uint64_t plain_block_at(const uint8_t *image, size_t image_len, uint64_t place);
uint64_t plain_block_addresses_at(const uint8_t *image, size_t image_len, uint64_t place);
uint64_t plain_block(const uint8_t *image, size_t image_len, uint64_t number);
uint64_t plain_block_addresses(const uint8_t *image, size_t image_len, uint64_t number);
uint64_t plain_load_image(const uint8_t *image, size_t image_len, uint64_t base, uint8_t *window, size_t window_len);
uint64_t plain_load_coff(const uint8_t *file, size_t file_len, uint64_t base, uint8_t *window, size_t window_len);
uint64_t plain_check(const uint8_t *file, size_t file_len, const uint8_t *image, size_t image_len);

/* `row` is the patterns, each ended by a zero byte or by the row; `order` that of the
 * image's bytes. */
uint64_t plain_measure_with(const uint8_t *file, size_t file_len, const uint8_t *row, size_t row_len);
uint64_t plain_convert_with(const uint8_t *file, size_t file_len, uint8_t *out, size_t out_len, const uint8_t *row,
                            size_t row_len, uint32_t order);
uint64_t plain_read_image_with(const uint8_t *image, size_t image_len, uint32_t order);
uint64_t plain_block_at_with(const uint8_t *image, size_t image_len, uint64_t place, uint32_t order);
uint64_t plain_block_addresses_at_with(const uint8_t *image, size_t image_len, uint64_t place, uint32_t order);
uint64_t plain_block_with(const uint8_t *image, size_t image_len, uint64_t number, uint32_t order);
uint64_t plain_block_addresses_with(const uint8_t *image, size_t image_len, uint64_t number, uint32_t order);
uint64_t plain_load_image_with(const uint8_t *image, size_t image_len, uint64_t base, uint8_t *window,
                               size_t window_len, uint32_t order);
uint64_t plain_load_coff_with(const uint8_t *file, size_t file_len, uint64_t base, uint8_t *window, size_t window_len,
                              const uint8_t *row, size_t row_len);
uint64_t plain_check_with(const uint8_t *file, size_t file_len, const uint8_t *image, size_t image_len,
                          const uint8_t *row, size_t row_len, uint32_t order);
uint32_t plain_takes(const uint8_t *pattern, size_t pattern_len, const uint8_t *name, size_t name_len);

#endif
