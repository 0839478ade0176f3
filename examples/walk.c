/*
 * Shows range_filter_walk, which writes the leaves of an image in key order, and
 * range_filter_accepted_walk, here for the leaf at one place.
 */
#include "sample.h"

/* How many records a call writes here at most. With room for all leaves one call is enough. */
#define BATCH 3

/* Prints a leaf: its place, kind and cut key, and of an open leaf the suffix of h + n bits. */
static void print_leaf(uint64_t place, const uint8_t *record, unsigned width) {
    int is_open = range_filter_record_kind(record) == RANGE_FILTER_LEAF_OPEN;
    int cut_length = (int)range_filter_record_cut_length(record);
    const char *cut = (const char *)range_filter_record_cut(record);
    uint32_t suffix = range_filter_record_suffix(record);
    printf("%u %s %.*s", (unsigned)place, is_open ? "open" : "exact", cut_length, cut);
    for (unsigned bit = 0; is_open && bit < width; bit++) {
        printf("%s%u", bit == 0 ? " " : "", (unsigned)(suffix >> bit & 1));
    }
    printf("\n");
}

/* Prints the leaves of so many bytes of records, the first of which stands at a place. */
static void print_records(uint64_t place, const uint8_t *records, size_t written, unsigned width) {
    for (size_t at = 0; at < written; at += RANGE_FILTER_RECORD_SIZE) {
        print_leaf(place + at / RANGE_FILTER_RECORD_SIZE, records + at, width);
    }
}

/* Prints all leaves of an image, some a call, and gives their number. */
static uint64_t print_leaves(const uint8_t *image, size_t length, unsigned width) {
    uint8_t records[BATCH * RANGE_FILTER_RECORD_SIZE];
    uint64_t place = 0;
    size_t written;
    do {
        uint64_t answer = range_filter_walk(image, length, place, records, sizeof records);
        if (range_filter_refusal_of(answer) != 0) {
            exit(1);
        }
        written = range_filter_bytes_of(answer);
        print_records(place, records, written, width);
        place += written / RANGE_FILTER_RECORD_SIZE;
    } while (written != 0);
    return place;
}

/*
 * Shows one place of an accepted image after the other: a leaf, done, and one that is refused. A
 * buffer shorter than a record gets no bytes, as done does.
 */
static void show_places(const uint8_t *image, size_t length) {
    uint8_t record[RANGE_FILTER_RECORD_SIZE];
    show("bytes at place 2", range_filter_accepted_walk(image, length, 2, record, sizeof record),
         RANGE_FILTER_RECORD_SIZE);
    print_leaf(2, record, 0);
    show("bytes at place 2, one byte short",
         range_filter_accepted_walk(image, length, 2, record, sizeof record - 1), 0);
    show("bytes at place 4", range_filter_accepted_walk(image, length, 4, record, sizeof record),
         0);
    show("bytes at place 5", range_filter_accepted_walk(image, length, 5, record, sizeof record),
         REFUSED(RANGE_FILTER_PLACE_OUT_OF_RANGE));
}

int main(void) {
    uint8_t image[IMAGE_ROOM];
    size_t length = build_image(LIST_VAN, range_filter_settings(1, 0, 8, 0), image);
    show("leaves with 8 real bits", print_leaves(image, length, 8), 4);
    length = build_image(LIST_VAN, range_filter_settings(1, 0, 16, 16), image);
    show("leaves with 16 hash bits and 16 real bits", print_leaves(image, length, 32), 4);
    length = build_image(LIST_A, PLAIN, image);
    show("leaves of A", print_leaves(image, length, 0), 4);
    if (range_filter_check(image, length) != 0) {
        return 1;
    }
    show_places(image, length);
    return unexpected;
}
