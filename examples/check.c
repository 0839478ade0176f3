/* Shows range_filter_check: images that are accepted, and the number for each damaged byte. */
#include "sample.h"

/* Prints what the check says of an image, and compares it with the number that is expected. */
static void show_check(const char *what, const uint8_t *image, size_t image_len,
                       uint32_t expected) {
    uint32_t refusal = range_filter_check(image, image_len);
    printf("%s: %u, %s\n", what, (unsigned)refusal, range_filter_refusal_text(refusal));
    if (refusal != expected) {
        unexpected = 1;
    }
}

/* Checks an image with another value in one byte, and puts the byte back. */
static void show_damage(const char *what, uint8_t *image, size_t image_len, size_t at,
                        uint8_t value, uint32_t expected) {
    uint8_t kept = image[at];
    image[at] = value;
    show_check(what, image, image_len, expected);
    image[at] = kept;
}

/* Checks list A's image in version 2, and damages its version and LV, which starts at 110. */
static void show_version_2(void) {
    uint8_t image[IMAGE_ROOM];
    size_t length = build_image(LIST_A, range_filter_settings(2, 0, 0, 0), image);
    show_check("A in version 2", image, length, 0);
    show_damage("version 1 with LV", image, length, 2, 1, RANGE_FILTER_FRAME_WRONG);
    show_damage("LV of 13 bytes", image, length, 112, 13, RANGE_FILTER_FRAME_WRONG);
    show_damage("level 1 starting with node 2", image, length, 120, 2, RANGE_FILTER_TABLE_WRONG);
}

/* Checks list A's image with 8 hash bits, and damages slots: those of D2 and D1 stand at 73, 74. */
static void show_hash_bits(void) {
    uint8_t image[IMAGE_ROOM];
    size_t length = build_image(LIST_A, range_filter_settings(1, 0, 0, 8), image);
    show_check("A with 8 hash bits", image, length, 0);
    show_damage("17 hash bits", image, length, 5, 17, RANGE_FILTER_HEADER_WRONG);
    show_damage("other hash bits for D2, an open leaf", image, length, 73, 0, 0);
    show_damage("a hash bit for D1, an exact leaf", image, length, 74, 1, RANGE_FILTER_SLOT_WRONG);
}

int main(void) {
    uint8_t image[IMAGE_ROOM];
    size_t length = build_image(LIST_A, PLAIN, image);
    show_check("A", image, length, 0);
    show_check("A less its last byte", image, length - 1, RANGE_FILTER_FRAME_WRONG);
    show_check("nothing at all", NULL, 0, RANGE_FILTER_FRAME_WRONG);
    show_damage("version 3", image, length, 2, 3, RANGE_FILTER_HEADER_WRONG);
    show_damage("9 dense levels", image, length, 3, 9, RANGE_FILTER_HEADER_WRONG);
    show_damage("bit 7 of SC, which has six", image, length, 58, 0x85, RANGE_FILTER_SPARE_BIT_SET);
    show_damage("root labels 60 56", image, length, 46, 0x60, RANGE_FILTER_TRIE_WRONG);
    show_damage("RS starting with 1", image, length, 96, 1, RANGE_FILTER_TABLE_WRONG);

    length = build_image(LIST_VAN, range_filter_settings(1, 0, 8, 0), image);
    show_check("VAN with 8 real bits", image, length, 0);
    show_damage("a real bit for D1, an exact leaf", image, length, 74, 1, RANGE_FILTER_SLOT_WRONG);
    show_hash_bits();
    show_version_2();
    return unexpected;
}
