/*
 * Shows range_filter_put_key, range_filter_put_question and range_filter_put_bound, which write key
 * lists and question files into a buffer and never past its end.
 */
#include <string.h>

#include "sample.h"

/* Prints where a put ended, and compares it with the offset that is expected. */
static void show_offset(const char *what, size_t offset, size_t expected) {
    if (offset == RANGE_FILTER_NOT_PUT) {
        printf("%s: not put\n", what);
    } else {
        printf("%s: %zu\n", what, offset);
    }
    if (offset != expected) {
        unexpected = 1;
    }
}

/* Puts the keys of list A. Where one does not fit, those behind it are not put either. */
static size_t put_list_a(uint8_t *list, size_t list_len) {
    size_t at = range_filter_put_key(list, list_len, 0, TEXT("D1"));
    at = range_filter_put_key(list, list_len, at, TEXT("D12"));
    at = range_filter_put_key(list, list_len, at, TEXT("D2"));
    return range_filter_put_key(list, list_len, at, TEXT("V"));
}

/* Puts a point question and a range question. */
static size_t put_questions(uint8_t *file, size_t file_len) {
    size_t at = range_filter_put_question(file, file_len, 0, RANGE_FILTER_POINT, TEXT("D1"));
    at = range_filter_put_question(file, file_len, at, RANGE_FILTER_RANGE, TEXT("D11"));
    return range_filter_put_bound(file, file_len, at, TEXT("D13"));
}

/* Compares bytes with those of a text, and prints whether they are the same. */
static void show_bytes(const char *what, const uint8_t *bytes, const uint8_t *text,
                       size_t text_len) {
    int same = memcmp(bytes, text, text_len) == 0;
    printf("%s: %s\n", what, same ? "as written by hand" : "other bytes");
    if (!same) {
        unexpected = 1;
    }
}

int main(void) {
    uint8_t list[20];
    show_offset("list A in 20 bytes", put_list_a(list, 20), 20);
    show_bytes("its bytes", list, LIST_A);
    show_offset("list A in 19 bytes", put_list_a(list, 19), RANGE_FILTER_NOT_PUT);
    show_offset("list A in 10 bytes", put_list_a(list, 10), RANGE_FILTER_NOT_PUT);

    uint8_t file[15];
    show_offset("questions in 15 bytes", put_questions(file, 15), 15);
    show_bytes("their bytes", file, TEXT("QP\x02" "D1" "QR\x03" "D11" "\x03" "D13"));
    show_offset("questions in 14 bytes", put_questions(file, 14), RANGE_FILTER_NOT_PUT);
    show_offset("questions in 11 bytes", put_questions(file, 11), RANGE_FILTER_NOT_PUT);

    static const uint8_t key[RANGE_FILTER_MAX_KEY + 1];
    uint8_t one[RANGE_FILTER_LONGEST_KEY_RECORD + 1];
    show_offset("a key of 64 bytes", range_filter_put_key(one, sizeof one, 0, key, 64), 67);
    show_offset("a key of 65 bytes", range_filter_put_key(one, sizeof one, 0, key, 65),
                RANGE_FILTER_NOT_PUT);
    return unexpected;
}
