/* Images good and bad, checked and converted as a boot loader would. Prints a line for each, and fails on the first answer
 * that is not the one wanted. */
#include "check_image.h"

#include <stdio.h>
#include <string.h>

#define L 4294967295u
#define MOST 12

struct image {
    const char *name;
    uint32_t kind;
    uint32_t wanted;
    size_t words;
    uint64_t word[MOST];
};

static const struct image images[] = {
    {"no kind 0", 0, 17, 0, {0}},
    {"no kind 4", 4, 17, 1, {8}},
    {"no word", CARD_SPARE_COUNT, 2, 0, {0}},
    {"first word 0", CARD_SPARE_COUNT, 3, 1, {0}},
    {"first word 12", CARD_SPARE_COUNT, 3, 2, {12, 0}},
    {"first word near 2^64", CARD_SPARE_COUNT, 4, 2, {UINT64_MAX - 7, 0}},
    {"16 alone", CARD_SPARE_COUNT, 4, 1, {16}},
    {"8 for one slice", CARD_SPARE_COUNT, 5, 1, {8}},
    {"end outside", CARD_SPARE_COUNT, 6, 3, {16, 25, 7}},
    {"end near 2^64", CARD_SPARE_COUNT, 6, 3, {16, UINT64_MAX, 7}},
    {"end before start", CARD_SPARE_COUNT, 7, 3, {16, 15, 7}},
    {"no count", CARD_SPARE_COUNT, 8, 2, {16, 16}},
    {"7 spare blocks", CARD_SPARE_COUNT, 0, 3, {16, 24, 7}},
    {"words after the last slice", CARD_SPARE_COUNT, 0, 4, {16, 24, 7, 1}},
    {"L spare blocks", CARD_SPARE_COUNT, 0, 3, {16, 24, L}},
    {"more than L", CARD_SPARE_COUNT, 9, 3, {16, 24, (uint64_t)L + 1}},
    {"128 marks", CARD_ERASE_MAP, 0, 8, {32, 48, 48, 64, 0, 2, 0, 0}},
    {"tail count 63", CARD_ERASE_MAP, 0, 8, {32, 48, 48, 64, 0, 2, 0, 63}},
    {"tail count 64", CARD_ERASE_MAP, 9, 8, {32, 48, 48, 64, 0, 2, 0, 64}},
    {"cut bounds", CARD_ERASE_MAP, 8, 9, {32, 48, 52, 72, 0, 2, 0, 0, 64}},
    {"three blocks", CARD_BLOCK_TABLE, 0, 12, {48, 64, 72, 72, 88, 91, 64, 2, 190, 2, 3, 0x050303}},
    {"two wear classes for three blocks", CARD_BLOCK_TABLE, 9, 12, {48, 64, 72, 72, 88, 90, 64, 2, 190, 2, 3, 0x0303}},
};

static void bytes_of(const struct image *image, uint8_t *bytes)
{
    for (size_t i = 0; i < image->words; i++)
        for (int j = 0; j < 8; j++)
            bytes[8 * i + j] = (uint8_t)(image->word[i] >> (8 * j));
}

static int differs(const char *name, uint32_t answer, uint32_t wanted)
{
    printf("%s: %u\n", name, (unsigned)answer);
    if (answer == wanted)
        return 0;
    printf("%s: wanted %u\n", name, (unsigned)wanted);
    return 1;
}

/* Converts a stored image with an `out` of so many bytes, and compares the answer, the length and the words with the wanted. */
static int converts(const char *name, const struct image *image, size_t cells, size_t room, uint32_t wanted, const uint64_t *words, size_t count)
{
    uint8_t bytes[8 * MOST], out[8 * MOST];
    uint64_t ends[MOST], bad[MOST];
    uint8_t wear[8 * MOST];
    size_t length = 77;
    int wrong = 0;
    bytes_of(image, bytes);
    memset(out, 0xee, sizeof out);
    uint32_t answer = convert_image(image->kind, bytes, 8 * image->words, ends, cells, bad, cells, wear, 8 * cells, out, room, &length);
    wrong += differs(name, answer, wanted);
    if (length != (wanted == 0 ? 8 * count : 77)) {
        printf("%s: length %zu\n", name, length);
        wrong++;
    }
    for (size_t i = 0; i < sizeof out; i++) {
        uint8_t byte = i < 8 * count ? (uint8_t)(words[i / 8] >> (8 * (i % 8))) : 0xee;
        if (out[i] != byte) {
            printf("%s: byte %zu of the image is %u, not %u\n", name, i, (unsigned)out[i], (unsigned)byte);
            return wrong + 1;
        }
    }
    return wrong;
}

/* The boot step: images that are rewritten, and refusals of the image, of the memory and of the room. */
static int conversions(void)
{
    static const struct image dirty = {"", CARD_ERASE_MAP, 0, 10, {32, 56, 64, 80, 5, 1, 7, 10, 1, 1}};
    static const struct image blocks = {"", CARD_BLOCK_TABLE, 0, 12, {48, 64, 72, 72, 88, 91, 64, 2, 190, 2, 3, 0xff050303}};
    static const struct image spare = {"", CARD_SPARE_COUNT, 0, 5, {16, 32, 7, 8, 9}};
    static const struct image cut = {"", CARD_SPARE_COUNT, 0, 1, {16}};
    static const struct image none = {"", 4, 0, 1, {8}};
    static const uint64_t map[] = {32, 48, 48, 64, 5, 2, 1, 1};
    static const uint64_t table[] = {48, 64, 72, 72, 88, 91, 64, 2, 190, 2, 3, 0x050303};
    static const uint64_t count[] = {16, 24, 7};
    int bad = 0;
    bad += converts("an erase map with a word too many", &dirty, MOST, 8 * MOST, 0, map, 8);
    bad += converts("three blocks with dirty padding", &blocks, MOST, 8 * MOST, 0, table, 12);
    bad += converts("a spare count and more words", &spare, MOST, 8 * MOST, 0, count, 3);
    bad += converts("in no cells", &blocks, 0, 8 * MOST, 12, NULL, 0);
    bad += converts("into two words", &spare, MOST, 16, 14, count, 2);
    bad += converts("16 alone, converted", &cut, MOST, 8 * MOST, 4, NULL, 0);
    bad += converts("no kind 4, converted", &none, MOST, 8 * MOST, 17, NULL, 0);
    return bad;
}

int main(void)
{
    uint8_t bytes[8 * MOST];
    int bad = 0;
    for (size_t i = 0; i < sizeof images / sizeof images[0]; i++) {
        bytes_of(&images[i], bytes);
        uint8_t before[8 * MOST];
        memcpy(before, bytes, sizeof bytes);
        uint32_t answer = check_image(images[i].kind, bytes, 8 * images[i].words);
        bad += differs(images[i].name, answer, images[i].wanted);
        if (memcmp(before, bytes, sizeof bytes) != 0) {
            printf("%s: the buffer was written to\n", images[i].name);
            bad++;
        }
    }
    bytes_of(&images[12], bytes);
    bad += differs("a byte short", check_image(CARD_SPARE_COUNT, bytes, 23), 1);
    bad += differs("a byte over", check_image(CARD_SPARE_COUNT, bytes, 25), 1);
    bad += differs("from an odd address", check_image(CARD_SPARE_COUNT, (memmove(bytes + 1, bytes, 24), bytes + 1), 24), 0);
    bad += conversions();
    return bad != 0;
}
