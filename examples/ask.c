/*
 * Shows range_filter_ask: a file with questions of all five kinds, its replies, and files that are
 * refused.
 */
#include <string.h>

#include "sample.h"

/* Questions over list A with the numbers of their replies. */
static const struct {
    char letter;
    const char *key;
    const char *upper;
    uint32_t number;
} asked[] = {
    {RANGE_FILTER_POINT, "D1", NULL, 1},
    {RANGE_FILTER_POINT, "D10", NULL, 0},
    {RANGE_FILTER_POINT, "D", NULL, 0},
    {RANGE_FILTER_POINT, "D2x", NULL, 1},
    {RANGE_FILTER_POINT, "", NULL, 0},
    {RANGE_FILTER_RANGE, "D11", "D13", 1},
    {RANGE_FILTER_RANGE, "D3", "U", 0},
    {RANGE_FILTER_BEGINS_WITH, "D", NULL, 1},
    {RANGE_FILTER_BEGINS_WITH, "E", NULL, 0},
    {RANGE_FILTER_COUNT, "D11", "D13", 1},
    {RANGE_FILTER_COUNT, "D12Z", "D2", 2},
    {RANGE_FILTER_SEEK, "D13", NULL, 2},
    {RANGE_FILTER_SEEK, "D2a", NULL, 2},
    {RANGE_FILTER_SEEK, "W", NULL, RANGE_FILTER_NO_LEAF},
};
#define ASKED (sizeof asked / sizeof asked[0])

/* Writes the questions one behind the other and gives the file's length. */
static size_t write_questions(uint8_t *file, size_t file_len) {
    size_t at = 0;
    for (size_t i = 0; i < ASKED; i++) {
        at = range_filter_put_question(file, file_len, at, asked[i].letter,
                                       (const uint8_t *)asked[i].key, strlen(asked[i].key));
        if (asked[i].upper != NULL) {
            at = range_filter_put_bound(file, file_len, at, (const uint8_t *)asked[i].upper,
                                        strlen(asked[i].upper));
        }
    }
    if (at == RANGE_FILTER_NOT_PUT) {
        exit(1);
    }
    return at;
}

/* Prints a reply: its letter and number; for a point its rule, for a seek the key that it found. */
static void print_reply(const uint8_t *reply) {
    char letter = range_filter_reply_letter(reply);
    uint32_t number = range_filter_reply_number(reply);
    if (number == RANGE_FILTER_NO_LEAF) {
        printf("%c none\n", letter);
    } else if (letter == RANGE_FILTER_SEEK) {
        printf("%c %u %.*s\n", letter, (unsigned)number, (int)range_filter_reply_key_length(reply),
               (const char *)range_filter_reply_key(reply));
    } else if (letter == RANGE_FILTER_POINT) {
        printf("%c %u rule %u\n", letter, (unsigned)number, range_filter_reply_key(reply)[0]);
    } else {
        printf("%c %u\n", letter, (unsigned)number);
    }
}

/* Prints the replies and compares their numbers. */
static void print_replies(const uint8_t *replies) {
    for (size_t i = 0; i < ASKED; i++) {
        print_reply(replies);
        if (range_filter_reply_number(replies) != asked[i].number) {
            unexpected = 1;
        }
        replies += range_filter_reply_length(replies);
    }
}

/* Shows question files that are refused. */
static void show_bad_files(const uint8_t *image, size_t length) {
    static uint8_t many[3 * 1025];
    size_t many_len = 0;
    for (int i = 0; i < 1025; i++) {
        many_len = range_filter_put_question(many, sizeof many, many_len, RANGE_FILTER_POINT,
                                             NULL, 0);
    }
    uint8_t reply[RANGE_FILTER_LONGEST_REPLY];
    show("an unfinished question",
         range_filter_ask(image, length, TEXT("QP\x02" "D"), reply, sizeof reply),
         REFUSED(RANGE_FILTER_QUESTION_MALFORMED));
    show("a key of 65 bytes",
         range_filter_ask(image, length, TEXT("QP\x41"), reply, sizeof reply),
         REFUSED(RANGE_FILTER_KEY_TOO_LONG));
    show("from V to D",
         range_filter_ask(image, length, TEXT("QR\x01" "V" "\x01" "D"), reply, sizeof reply),
         REFUSED(RANGE_FILTER_BOUNDS_REVERSED));
    show("1,025 questions",
         range_filter_ask(image, length, many, many_len, reply, sizeof reply),
         REFUSED(RANGE_FILTER_TOO_MANY_QUESTIONS));
    show("half an image",
         range_filter_ask(image, length / 2, TEXT("QP\x02" "D1"), reply, sizeof reply),
         REFUSED(RANGE_FILTER_FRAME_WRONG));
}

int main(void) {
    uint8_t image[IMAGE_ROOM];
    size_t length = build_image(LIST_A, PLAIN, image);
    uint8_t questions[ASKED * RANGE_FILTER_LONGEST_QUESTION];
    size_t questions_len = write_questions(questions, sizeof questions);
    uint8_t replies[ASKED * RANGE_FILTER_LONGEST_REPLY];
    show("bytes of replies",
         range_filter_ask(image, length, questions, questions_len, replies, sizeof replies), 122);
    print_replies(replies);
    show("121 bytes for them",
         range_filter_ask(image, length, questions, questions_len, replies, 121),
         REFUSED(RANGE_FILTER_REPLY_BUFFER_TOO_SHORT));
    show("no question", range_filter_ask(image, length, NULL, 0, NULL, 0), 0);
    show_bad_files(image, length);
    return unexpected;
}
