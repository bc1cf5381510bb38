/* Columns of six kinds, asked and filled from C, so that another program can compare its answers with these. Link with
 * libbeside_c.a, which `rt lib` writes to out/ in crates/beside_c. Columns: 1 a run of words, 2 a run of bytes, 3 strides, 4 bools over
 * a run of words, 5 bools over strides, 6 empties. Each call answers 0, or the number of a refusal (17 for a column of another
 * number), which leaves what the pointers of answers point to as it is. Elements are told as numbers: a mark as 0 or 1, an empty
 * element as 0. The areas of a call must not overlap; a pointer may be null only where its length is 0. Nothing is kept. */
#ifndef BESIDE_H
#define BESIDE_H

#include <stddef.h>
#include <stdint.h>

#ifdef __cplusplus
extern "C" {
#endif

/* Questions 1 to 9 of an image, and then how many elements its list has. */
uint32_t beside_admit(uint32_t column, const uint8_t *image, size_t length, size_t *elements);

/* The same, and then its element at a place: 10 at or past the length. */
uint32_t beside_element(uint32_t column, const uint8_t *image, size_t length, size_t place, uint64_t *element);

/* The same, and then `count` marks from a place on as a number, the first lowest, of columns 4 and 5 (17 of others): 11 for more
 * than 64, 10 where the range passes the end. */
uint32_t beside_bits(uint32_t column, const uint8_t *image, size_t length, size_t place, size_t count, uint64_t *bits);

/* The same of strides, and then the bounds of a block. */
uint32_t beside_bounds(const uint8_t *image, size_t length, size_t block, uint64_t *lower, uint64_t *upper);

/* Questions 1 to 4, 6 and 7, and then 10: where slice `k` stands in the bytes, and how many bytes it has. */
uint32_t beside_slice(const uint8_t *image, size_t length, size_t k, size_t *from, size_t *bytes);

/* A column that lives in the lent cells (`bytes` for a run of bytes, none for empties, `cells` for the others) is given elements by
 * pushes, and 12 is answered where one is refused. So it is, before any is pushed, where a number stands for no element: above 255
 * for a byte, above 1 for a mark, above 0 for an empty element. Then the image of the column is encoded over the start of `area`,
 * and `*words` is its length: 15 where it has more words than any image may have, 14 where it does not fit. A refusal leaves `area`;
 * what the cells hold afterwards is not said. */
uint32_t beside_encode(uint32_t column, const uint64_t *elements, size_t count,
                       uint64_t *cells, size_t cells_length,
                       uint8_t *bytes, size_t bytes_length,
                       uint64_t *area, size_t area_length, size_t *words);

/* The same with the image written to the byte area piece by piece; `*taken` is its length in bytes. A refusal with 14 leaves the
 * pieces before the one that does not fit in `area`. */
uint32_t beside_write(uint32_t column, const uint64_t *elements, size_t count,
                      uint64_t *cells, size_t cells_length,
                      uint8_t *bytes, size_t bytes_length,
                      uint8_t *area, size_t area_length, size_t *taken);

/* An image is admitted, converted in the lent cells, and written over the start of `area`: the refusals of beside_admit, and then
 * those of beside_write. */
uint32_t beside_convert(uint32_t column, const uint8_t *image, size_t length,
                        uint64_t *cells, size_t cells_length,
                        uint8_t *bytes, size_t bytes_length,
                        uint8_t *area, size_t area_length, size_t *taken);

#ifdef __cplusplus
}
#endif

#endif
