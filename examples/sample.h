/* What the examples share: two key lists, the building of an image, and the printing of answers. */
#ifndef SAMPLE_H
#define SAMPLE_H

#include <stdio.h>
#include <stdlib.h>

#include "range_filter.h"

/* A string literal as pointer and length. */
#define TEXT(literal) RANGE_FILTER_TEXT(literal)

/* List A: the keys D1, D12, D2 and V as records of a key list. */
#define LIST_A TEXT("KY\x02" "D1" "KY\x03" "D12" "KY\x02" "D2" "KY\x01" "V")

/* List A with VAN for V. */
#define LIST_VAN TEXT("KY\x02" "D1" "KY\x03" "D12" "KY\x02" "D2" "KY\x03" "VAN")

/* Bytes enough for the image of either list without dense levels, whatever the other settings. */
#define IMAGE_ROOM 144

/* Version 1 without dense levels, real bits and hash bits. */
#define PLAIN range_filter_settings(1, 0, 0, 0)

/* The answer of a call that refuses with a number. */
#define REFUSED(number) ((uint64_t)(number) << 32)

/* 1 once an answer was another than the example expects: then its exit status is 1. */
static int unexpected = 0;

/* Builds an image without dense levels and gives its length. Ends the program if it is refused. */
static inline size_t build_image(const uint8_t *list, size_t list_len, uint64_t settings,
                                 uint8_t image[IMAGE_ROOM]) {
    uint64_t length = range_filter_image_length(list, list_len, settings);
    uint64_t written = range_filter_build(list, list_len, settings, length, image, IMAGE_ROOM);
    if (range_filter_refusal_of(written) != 0) {
        fprintf(stderr, "%s\n", range_filter_refusal_text(range_filter_refusal_of(written)));
        exit(1);
    }
    return range_filter_bytes_of(written);
}

/* Prints the answer of a call, and compares it with the one that is expected. */
static inline void show(const char *call, uint64_t answer, uint64_t expected) {
    unsigned refusal = range_filter_refusal_of(answer);
    if (refusal == 0) {
        printf("%s: %u\n", call, (unsigned)range_filter_number_of(answer));
    } else {
        printf("%s: refused, %u, %s\n", call, refusal, range_filter_refusal_text(refusal));
    }
    if (answer != expected) {
        unexpected = 1;
    }
}

#endif
