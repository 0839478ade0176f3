/*
 * Shows hash bits: range_filter_hash on published keys, and what points say with hash bits and
 * without, beside ranges, which do not go by them.
 */
#include <inttypes.h>
#include <string.h>

#include "sample.h"

/* Prints the hash of a key, and compares it with the one that is published. */
static void show_hash(const char *name, const uint8_t *key, size_t key_len, uint64_t published) {
    uint64_t hash = range_filter_hash(key, key_len);
    printf("hash of '%s': %016" PRIx64 "\n", name, hash);
    if (hash != published) {
        unexpected = 1;
    }
}

/* Puts the point of a key, and the range from the key to itself, to an accepted image. */
static void show_both(const uint8_t *image, size_t length, const char *text, uint64_t point,
                      uint64_t range) {
    const uint8_t *key = (const uint8_t *)text;
    size_t key_len = strlen(text);
    printf("%s, ", text);
    show("point", range_filter_accepted_point(image, length, key, key_len), point);
    printf("%s to itself, ", text);
    show("range", range_filter_accepted_range(image, length, key, key_len, key, key_len), range);
}

/* Asks list A's image with some hash bits: D2 is stored, and D2x, which begins so, is not. */
static void ask_list_a(uint64_t hash_bits, uint64_t point) {
    uint8_t image[IMAGE_ROOM];
    size_t length = build_image(LIST_A, range_filter_settings(1, 0, 0, hash_bits), image);
    if (range_filter_check(image, length) != 0) {
        exit(1);
    }
    printf("with %u hash bits\n", (unsigned)hash_bits);
    show_both(image, length, "D2", 1, 1);
    show_both(image, length, "D2x", point, 1);
}

int main(void) {
    show_hash("", NULL, 0, UINT64_C(0xcbf29ce484222325));
    show_hash("a", TEXT("a"), UINT64_C(0xaf63dc4c8601ec8c));
    show_hash("foobar", TEXT("foobar"), UINT64_C(0x85944171f73967e8));
    ask_list_a(0, 1);
    ask_list_a(8, 0);
    return unexpected;
}
