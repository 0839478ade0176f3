/*
 * Shows range_filter_image_length and range_filter_build: the length first, then memory, then the
 * image; and what is refused.
 */
#include "sample.h"

/* Prints the mark of a record and the bytes of its body. */
static void print_body(const char *mark, const uint8_t *body, size_t body_len) {
    printf("%s", mark);
    for (size_t i = 0; i < body_len; i++) {
        printf(" %02X", body[i]);
    }
    printf("\n");
}

/* Builds list A in version 1, first with a wrong length and into too short an output. */
static void build_list_a(void) {
    uint64_t length = range_filter_image_length(LIST_A, PLAIN);
    show("length of A", length, 110);
    uint8_t *image = malloc(length);
    if (image == NULL) {
        exit(1);
    }
    show("111 stated", range_filter_build(LIST_A, PLAIN, length + 1, image, length),
         REFUSED(RANGE_FILTER_STATED_LENGTH_WRONG));
    show("109 bytes of output", range_filter_build(LIST_A, PLAIN, length, image, length - 1),
         REFUSED(RANGE_FILTER_OUTPUT_TOO_SHORT));
    show("110 stated, 110 bytes of output",
         range_filter_build(LIST_A, PLAIN, length, image, length), length);
    print_body("SL", image + 46, 6);
    print_body("SC", image + 58, 1);
    print_body("SB", image + 65, 1);
    free(image);
}

/* Builds list A in version 2: behind the other records stands LV, the first node of each level. */
static void build_version_2(void) {
    uint8_t image[IMAGE_ROOM];
    uint64_t settings = range_filter_settings(2, 0, 0, 0);
    uint64_t length = range_filter_image_length(LIST_A, settings);
    show("length of A in version 2", length, 128);
    show("128 stated", range_filter_build(LIST_A, settings, length, image, sizeof image), length);
    print_body("LV", image + 116, 12);
}

/* Builds list A with 8 hash bits: SV has a byte for each of V, D2, D1, which is exact, and D12. */
static void build_hash_bits(void) {
    uint8_t image[IMAGE_ROOM];
    uint64_t settings = range_filter_settings(1, 0, 0, 8);
    uint64_t length = range_filter_image_length(LIST_A, settings);
    show("length of A with 8 hash bits", length, 114);
    show("114 stated", range_filter_build(LIST_A, settings, length, image, sizeof image), length);
    print_body("settings", image + 2, 4);
    print_body("SV", image + 72, 4);
}

/* Shows settings: version, dense levels, real and hash bits. An empty list may have no buffer. */
static void show_settings(void) {
    show("A with 1 dense level",
         range_filter_image_length(LIST_A, range_filter_settings(1, 1, 0, 0)), 209);
    show("A with 8 real bits",
         range_filter_image_length(LIST_A, range_filter_settings(1, 0, 8, 0)), 114);
    show("A with 8 real and 4 hash bits",
         range_filter_image_length(LIST_A, range_filter_settings(1, 0, 8, 4)), 116);
    show("no key", range_filter_image_length(NULL, 0, PLAIN), 94);
    show("no key in version 2",
         range_filter_image_length(NULL, 0, range_filter_settings(2, 0, 0, 0)), 100);
}

/* Shows settings that are refused. */
static void show_bad_settings(void) {
    uint64_t refused = REFUSED(RANGE_FILTER_SETTING_OUT_OF_RANGE);
    show("A in version 3",
         range_filter_image_length(LIST_A, range_filter_settings(3, 0, 0, 0)), refused);
    show("A with 5 dense levels",
         range_filter_image_length(LIST_A, range_filter_settings(1, 5, 0, 0)), refused);
    show("A with 17 real bits",
         range_filter_image_length(LIST_A, range_filter_settings(1, 0, 17, 0)), refused);
    show("A with 17 hash bits",
         range_filter_image_length(LIST_A, range_filter_settings(1, 0, 0, 17)), refused);
    show("A with 256 dense levels",
         range_filter_image_length(LIST_A, range_filter_settings(1, 256, 0, 0)), refused);
}

/* Shows key lists that are refused. */
static void show_bad_lists(void) {
    show("an unfinished record", range_filter_image_length(TEXT("KY\x02" "D"), PLAIN),
         REFUSED(RANGE_FILTER_LIST_MALFORMED));
    show("a key of 65 bytes", range_filter_image_length(TEXT("KY\x41"), PLAIN),
         REFUSED(RANGE_FILTER_KEY_LENGTH_WRONG));
    show("V twice", range_filter_image_length(TEXT("KY\x01" "V" "KY\x01" "V"), PLAIN),
         REFUSED(RANGE_FILTER_KEYS_UNORDERED));
}

int main(void) {
    build_list_a();
    build_version_2();
    build_hash_bits();
    show_settings();
    show_bad_settings();
    show_bad_lists();
    return unexpected;
}
