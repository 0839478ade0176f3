/* Shows the library in short: builds a filter of four keys, asks it, checks it, and asks again. */
#include <stdio.h>
#include <stdlib.h>

#include "range_filter.h"

/* Four keys in ascending order, each a record: KY, a length byte, the key. */
#define LIST RANGE_FILTER_TEXT("KY\x02" "D1" "KY\x03" "D12" "KY\x02" "D2" "KY\x01" "V")

int main(void) {
    /* Settings: version 1, dense levels 0, real bits 0, hash bits 0. */
    uint64_t settings = range_filter_settings(1, 0, 0, 0);

    /* Ask for the image's length, take memory, and build. */
    uint64_t length = range_filter_image_length(LIST, settings);
    if (range_filter_refusal_of(length) != 0) {
        fprintf(stderr, "%s\n", range_filter_refusal_text(range_filter_refusal_of(length)));
        return 1;
    }
    uint8_t *image = malloc(length);
    if (image == NULL || range_filter_build(LIST, settings, length, image, length) != length) {
        return 1;
    }
    printf("image: %zu bytes\n", range_filter_bytes_of(length));

    /* A file of questions, over any bytes: here one question, the first key from D13 on. */
    uint8_t reply[RANGE_FILTER_LONGEST_REPLY];
    uint64_t written = range_filter_ask(image, length, RANGE_FILTER_TEXT("QS\x03" "D13"), reply,
                                        sizeof reply);
    if (range_filter_refusal_of(written) != 0) {
        return 1;
    }
    const char *key = (const char *)range_filter_reply_key(reply);
    printf("first from D13 on: %.*s\n", (int)range_filter_reply_key_length(reply), key);

    /* Checked once, asked often: here whether D12 may be held, and D10. */
    if (range_filter_check(image, length) != 0) {
        return 1;
    }
    uint64_t d12 = range_filter_accepted_point(image, length, RANGE_FILTER_TEXT("D12"));
    uint64_t d10 = range_filter_accepted_point(image, length, RANGE_FILTER_TEXT("D10"));
    printf("D12: %s\nD10: %s\n", d12 == 1 ? "maybe" : "no", d10 == 1 ? "maybe" : "no");
    free(image);
    return d12 == 1 && d10 == 0 ? 0 : 1;
}
