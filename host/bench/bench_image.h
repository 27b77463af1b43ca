/* Images for the benchmark, the same in every run. */
#ifndef BENCH_IMAGE_H
#define BENCH_IMAGE_H

#include <stddef.h>
#include <stdint.h>

/* Each writes a valid image of so many records. */

/* Records 1, or a multiple of 16 up to 512. The opcodes up to EXIT (for 1 record,
 * ASSIGN), with 0 to 25 data operands where an opcode carries data. */
void bench_mixed_image(uint8_t *image, size_t records);

/* As above: another image for each number, and the one above for 0. */
void bench_numbered_image(uint8_t *image, size_t records, uint32_t number);

/* Records a multiple of 32 up to 512: as above, in the 8 blocks from the given one on. */
enum { GUEST_BLOCKS = 8 };
void bench_guest_image(uint8_t *image, size_t records, uint32_t first_block);

void bench_exit_image(uint8_t *image, size_t records);

/* The value of an operand of this kind is below this. */
uint32_t bench_operand_limit(uint32_t kind);

#endif
