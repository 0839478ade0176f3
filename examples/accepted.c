/*
 * Shows the calls over an accepted image: the check once, then point, rule, range, begins-with,
 * count and seek, one question a call.
 */
#include <string.h>

#include "sample.h"

/* Seeks from a start, prints the place and the key, and compares both. */
static void show_seek(const uint8_t *image, size_t length, const char *start, uint32_t place,
                      const char *key) {
    range_filter_key found = {0, {0}};
    uint64_t answer = range_filter_accepted_seek(image, length, (const uint8_t *)start,
                                                 strlen(start), &found);
    if (answer == RANGE_FILTER_NO_LEAF) {
        printf("seek '%s': none\n", start);
    } else {
        printf("seek '%s': %u %.*s\n", start, (unsigned)range_filter_number_of(answer),
               found.length, (const char *)found.bytes);
    }
    if (answer != place || found.length != strlen(key) ||
        memcmp(found.bytes, key, found.length) != 0) {
        unexpected = 1;
    }
}

/* Asks list A's image, which was accepted. */
static void ask_list_a(const uint8_t *image, size_t length) {
    show("point D1", range_filter_accepted_point(image, length, TEXT("D1")), 1);
    show("point D10", range_filter_accepted_point(image, length, TEXT("D10")), 0);
    show("rule of D1", range_filter_accepted_rule(image, length, TEXT("D1")),
         RANGE_FILTER_RULE_EXACT_LEAF);
    show("rule of D10", range_filter_accepted_rule(image, length, TEXT("D10")),
         RANGE_FILTER_RULE_BRANCH_MISSING);
    show("range D11 to D13",
         range_filter_accepted_range(image, length, TEXT("D11"), TEXT("D13")), 1);
    show("range D3 to U",
         range_filter_accepted_range(image, length, TEXT("D3"), TEXT("U")), 0);
    show("begins with D", range_filter_accepted_begins_with(image, length, TEXT("D")), 1);
    show("begins with E", range_filter_accepted_begins_with(image, length, TEXT("E")), 0);
    show("count D12Z to D2",
         range_filter_accepted_count(image, length, TEXT("D12Z"), TEXT("D2")), 2);
    show_seek(image, length, "", 0, "D1");
    show_seek(image, length, "D13", 2, "D2");
    show_seek(image, length, "D2a", 2, "D2a");
    show_seek(image, length, "W", RANGE_FILTER_NO_LEAF, "");
}

/* Asks the image of the list with VAN: 8 real bits tell VAX from VB. */
static void ask_list_van(const uint8_t *image, size_t length) {
    show("rule of VAX", range_filter_accepted_rule(image, length, TEXT("VAX")),
         RANGE_FILTER_RULE_SUFFIX_EQUAL);
    show("rule of VB", range_filter_accepted_rule(image, length, TEXT("VB")),
         RANGE_FILTER_RULE_SUFFIX_OTHER);
    show_seek(image, length, "V", 3, "VA");
    show_seek(image, length, "VB", RANGE_FILTER_NO_LEAF, "");
}

/* Shows keys and bounds that are refused. */
static void show_refusals(const uint8_t *image, size_t length) {
    static const uint8_t long_key[RANGE_FILTER_MAX_KEY + 1];
    show("point on 65 bytes", range_filter_accepted_point(image, length, long_key, sizeof long_key),
         REFUSED(RANGE_FILTER_KEY_TOO_LONG));
    show("range V to D",
         range_filter_accepted_range(image, length, TEXT("V"), TEXT("D")),
         REFUSED(RANGE_FILTER_BOUNDS_REVERSED));
}

int main(void) {
    uint8_t image[IMAGE_ROOM];
    size_t length = build_image(LIST_A, PLAIN, image);
    if (range_filter_check(image, length) != 0) {
        return 1;
    }
    ask_list_a(image, length);
    show_refusals(image, length);

    length = build_image(LIST_VAN, range_filter_settings(1, 0, 8, 0), image);
    if (range_filter_check(image, length) != 0) {
        return 1;
    }
    ask_list_van(image, length);
    return unexpected;
}
