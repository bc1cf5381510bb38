/* The check of a stored image and the boot step, proved in Rattle. Link with libkinds.a, which is the out/libkinds_c.a that `rt lib` writes in
 * crates/kinds_c. */
#ifndef CHECK_IMAGE_H
#define CHECK_IMAGE_H

#include <stddef.h>
#include <stdint.h>

#ifdef __cplusplus
extern "C" {
#endif

/* The kinds of the card. */
enum card_kind {
    CARD_BLOCK_TABLE = 1,
    CARD_ERASE_MAP = 2,
    CARD_SPARE_COUNT = 3,
};

/* Answers 0 where the `length` bytes at `bytes` are an image of the kind, or else the number of the first question that
 * they fail: 17 for a kind that is not known, before the bytes are looked at, and 1 to 9 as docs/REFUSALS.md has them.
 * `bytes` may be null only where `length` is 0. Nothing is written, and nothing is kept. */
uint32_t check_image(uint32_t kind, const uint8_t *bytes, size_t length);

/* The boot step: admits the `length` bytes at `image` for the kind as check_image does, fills a column of the kind with their
 * list, and writes the image of that list over the start of the `out_length` bytes at `out`. Answers 0, and then `*bytes` is
 * that image's length, or else the number of a refusal:
 *   17, 1 to 9   as check_image; nothing is written but to the column's memory;
 *   12           the column's memory is too small for the list; as above;
 *   14           `out` is too small for the image: its start holds the words that fit, and nothing else of it has changed;
 *   15           the image has more words than any image may have; `out` has not changed.
 * A refusal leaves `*bytes` as it is. The column lives in the cells at `ends` (bounds of a block table or of an erase map), `bad`
 * (words of marks of a block table) and `wear` (wear classes of a block table); as many cells each as `image` has words, and as
 * many wear cells as it has bytes, are always enough, and so is an `out` as long as `image`. What the cells hold afterwards is
 * not said. The areas must not overlap; a pointer may be null only where its length is 0. Nothing is kept. */
uint32_t convert_image(uint32_t kind, const uint8_t *image, size_t length,
                       uint64_t *ends, size_t ends_length,
                       uint64_t *bad, size_t bad_length,
                       uint8_t *wear, size_t wear_length,
                       uint8_t *out, size_t out_length, size_t *bytes);

#ifdef __cplusplus
}
#endif

#endif
