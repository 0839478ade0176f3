/*
 * A proved succinct range filter.
 *
 * A filter image is a small stand-in for a sorted run of keys. It answers, from memory, whether the
 * run may hold a key, whether it may hold one in a range, how many it may hold there, and which
 * comes next. It never denies a stored key. `./archives` proves the library and writes its two
 * archives, target/staticlib/librange_filter.a and librange_filter_accepted.a, one for each group
 * of calls below; docs/format.md describes every byte of key lists, images, questions, replies and
 * records.
 *
 * TWO GROUPS OF CALLS
 *   Over any bytes: range_filter_image_length, range_filter_build, range_filter_check,
 *   range_filter_ask, range_filter_walk and range_filter_hash. They ask for nothing. Whatever the
 *   bytes, they do their work or refuse with a number. Ask and walk check the image in each call,
 *   in time linear in it.
 *   Over an accepted image: the calls whose names begin with range_filter_accepted_. They require
 *   that range_filter_check gave 0 for these bytes, check nothing themselves, and answer one
 *   question a call.
 *
 * ANSWERS
 *   A 64-bit answer is the number of a refusal times 2^32, plus the bytes or the number that the
 *   call gives. 0 is no refusal's number, and a refusal gives 0 bytes. range_filter_refusal_of,
 *   range_filter_bytes_of and range_filter_number_of take an answer apart. range_filter_check
 *   gives the number of the refusal alone, and range_filter_hash, which refuses nothing, a hash.
 *   After a refusal no byte of any buffer has changed. After success the bytes behind those that
 *   were written keep their values.
 *
 * BUFFERS
 *   A buffer is a pointer and a length in bytes. Where the length is 0 the pointer is not used and
 *   may be NULL. Any alignment will do. An output must not overlap an input. Inputs are never
 *   written to, and may overlap one another.
 *
 * VERSIONS
 *   An image has version 1 or 2, which is a setting of the build and stands in the image's header.
 *   Version 2 has a record more, the first node of each level of the trie, so that counts and seeks
 *   need not find it; the image is 6 bytes longer, and 4 for each level. Every call takes both
 *   versions, and both images of a list, other settings equal, get the same answers. Programs from
 *   before version 2 read version 1 alone.
 *
 * HASH BITS
 *   An image has a slot of h + n bits for each key: h hash bits, then n real bits. Both numbers are
 *   settings of the build, 0 to 16 each, and stand in the image's header.
 *   The real bits of a key are its n bits behind the cut. Every question goes by them.
 *   The hash bits of a key are the h lowest bits of the hash of the whole key (range_filter_hash).
 *   Points alone go by them. Each one about halves the points that are answered with 1 for a key
 *   that is not stored. Ranges, stems, counts and seeks say the same at every h.
 *   So a point may say 0 where the range from that one key to itself says 1: the range has only the
 *   real bits to go by. A stored key is never denied, at any h and n, by any question.
 *   That every 1 is true of some key list which builds the image is promised for h 0 alone. With h
 *   above 0, what ranges, stems, counts and seeks say is true of the key lists that have the
 *   image's cut keys and real bits; with h 0 these are just the lists that build the image.
 *   An image with h 0 has the bytes that it had before there were hash bits. Programs from before
 *   that refuse an image with h above 0, with the number 12.
 *
 * THREADS
 *   The library has no state, takes no memory from the heap, and makes no system call. Any thread
 *   may call it, any number of them at once, over one image too, as long as none writes to a buffer
 *   that another one uses.
 *
 * PLATFORM
 *   The archives are machine code for any x86-64, with the calling convention of System V and SSE2
 *   registers. They call memcpy and memset and nothing else; whoever links them provides these two.
 *   Numbers in images, replies and records are bytes, the low one first, so that files do not
 *   depend on the machine that wrote them.
 *
 * STACK
 *   Less than this was measured, the frame of the caller included:
 *     range_filter_image_length            2 KiB
 *     range_filter_build                   3 KiB
 *     range_filter_check                   2 KiB
 *     range_filter_ask                    15 KiB
 *     range_filter_walk                   26 KiB
 *     range_filter_hash                    1 KiB
 *     range_filter_accepted_point          2 KiB
 *     range_filter_accepted_rule           2 KiB
 *     range_filter_accepted_range          2 KiB
 *     range_filter_accepted_begins_with    2 KiB
 *     range_filter_accepted_count         13 KiB
 *     range_filter_accepted_seek          13 KiB
 *     range_filter_accepted_walk          23 KiB
 *   No bound on it is proved. Keys that share a long beginning take the most, however few they are.
 *   Where memcpy and memset are bound at their first call, the loader's own stack comes on top.
 */
#ifndef RANGE_FILTER_H
#define RANGE_FILTER_H

#include <stddef.h>
#include <stdint.h>

#ifdef __cplusplus
extern "C" {
#endif

/* ---- Limits and sizes ------------------------------------------------------------------------ */

/* The most bytes of a key. A stored key has at least one byte; a key in a question may be empty. */
#define RANGE_FILTER_MAX_KEY 64

/* The most keys of a key list. */
#define RANGE_FILTER_MAX_KEYS 65535

/* The most questions of a question file. */
#define RANGE_FILTER_MAX_QUESTIONS 1024

/* The newest version of an image. The first one is 1. */
#define RANGE_FILTER_MAX_VERSION 2

/* The most dense levels of an image. */
#define RANGE_FILTER_MAX_DENSE_LEVELS 4

/* The most real bits a key, the setting n. */
#define RANGE_FILTER_MAX_REAL_BITS 16

/* The most hash bits a key, the setting h. */
#define RANGE_FILTER_MAX_HASH_BITS 16

/* The bytes of the longest record of a key list: mark, length byte and key. */
#define RANGE_FILTER_LONGEST_KEY_RECORD 67

/* The bytes of the longest question: mark, and two bounds with a length byte each. */
#define RANGE_FILTER_LONGEST_QUESTION 132

/* The bytes of the longest reply, that of a seek. A point's reply has 9, the others have 8. */
#define RANGE_FILTER_LONGEST_REPLY 72

/* The bytes of a walk's record, one a leaf. */
#define RANGE_FILTER_RECORD_SIZE 70

/* The number that a seek gives where no key from the start on is held. */
#define RANGE_FILTER_NO_LEAF UINT32_C(0xFFFFFFFF)

/* What the functions that put keys and questions give where nothing was put. It is no offset. */
#define RANGE_FILTER_NOT_PUT SIZE_MAX

/* ---- Named numbers --------------------------------------------------------------------------- */

/* The numbers of refusals. range_filter_refusal_text says what to do about each. 6 is retired. */
enum range_filter_refusal {
    RANGE_FILTER_LIST_MALFORMED = 1,          /* a record cut off, or a mark that is not KY */
    RANGE_FILTER_KEY_LENGTH_WRONG = 2,        /* a key to store with no bytes or over 64 */
    RANGE_FILTER_KEYS_UNORDERED = 3,          /* a key that is not above the one before it */
    RANGE_FILTER_TOO_MANY_KEYS = 4,           /* a record behind 65,535 others */
    RANGE_FILTER_SETTING_OUT_OF_RANGE = 5,    /* version, dense levels, real or hash bits */
    RANGE_FILTER_OUTPUT_TOO_SHORT = 7,        /* the output is shorter than the image */
    RANGE_FILTER_STATED_LENGTH_WRONG = 8,     /* the stated length is not the image's */
    RANGE_FILTER_FRAME_WRONG = 11,            /* no image's header and records, or bytes behind */
    RANGE_FILTER_HEADER_WRONG = 12,           /* version, settings, counts or a body's length */
    RANGE_FILTER_SPARE_BIT_SET = 13,          /* a bit set behind the last one of a body */
    RANGE_FILTER_TRIE_WRONG = 14,             /* not a trie that a builder writes */
    RANGE_FILTER_TABLE_WRONG = 15,            /* a rank, a sample or a level start */
    RANGE_FILTER_SLOT_WRONG = 16,             /* a bit of a slot set where none can be */
    RANGE_FILTER_PLACE_OUT_OF_RANGE = 17,     /* a place above the number of leaves */
    RANGE_FILTER_QUESTION_MALFORMED = 21,     /* a question cut off, or another mark */
    RANGE_FILTER_KEY_TOO_LONG = 22,           /* a key in a question with over 64 bytes */
    RANGE_FILTER_BOUNDS_REVERSED = 23,        /* a lower bound above the upper one */
    RANGE_FILTER_TOO_MANY_QUESTIONS = 24,     /* a question behind 1,024 others */
    RANGE_FILTER_REPLY_BUFFER_TOO_SHORT = 25  /* the reply buffer is shorter than the replies */
};

/* The kinds of questions: the second letter of a question's mark, and the third of its reply's. */
enum range_filter_question {
    RANGE_FILTER_POINT = 'P',       /* a key: may it be held? */
    RANGE_FILTER_RANGE = 'R',       /* two bounds, both included: may a key between be held? */
    RANGE_FILTER_BEGINS_WITH = 'B', /* a stem: may a key that begins with it be held? */
    RANGE_FILTER_COUNT = 'C',       /* two bounds, both included: how many keys may be held? */
    RANGE_FILTER_SEEK = 'S'         /* a start: which is the first key from it on? */
};

/* The rules behind a point's reply: where the key's way from the root of the trie ends. */
enum range_filter_rule {
    RANGE_FILTER_RULE_BRANCH_MISSING = 1, /* 0: no branch with the key's next byte */
    RANGE_FILTER_RULE_KEY_ENDED = 2,      /* 0: the key ends at a node that is no exact leaf */
    RANGE_FILTER_RULE_EXACT_LEAF = 3,     /* 1: the key ends at an exact leaf */
    RANGE_FILTER_RULE_SUFFIX_EQUAL = 4,   /* 1: an open leaf; the key has its hash and real bits */
    RANGE_FILTER_RULE_SUFFIX_OTHER = 5,   /* 0: an open leaf; the key has others of either */
    RANGE_FILTER_RULE_NO_NODES = 6        /* 0: the image is empty */
};

/* The kinds of leaves. */
enum range_filter_leaf {
    RANGE_FILTER_LEAF_EXACT = 1, /* a whole key: it begins another key of the list */
    RANGE_FILTER_LEAF_OPEN = 2   /* a cut key: any key that begins with it and its real bits */
};

/* ---- Keys ------------------------------------------------------------------------------------ */

/* A key of at most 64 bytes by value: 65 bytes without a gap. */
typedef struct {
    uint8_t length;
    uint8_t bytes[RANGE_FILTER_MAX_KEY];
} range_filter_key;

/* Does not compile where the struct above has another size. */
typedef char range_filter_key_has_65_bytes[sizeof(range_filter_key) == 65 ? 1 : -1];

/* The bytes of a string literal, without its end, as the two arguments pointer and length. */
#define RANGE_FILTER_TEXT(literal) (const uint8_t *)("" literal), sizeof(literal) - 1

/* ---- Settings -------------------------------------------------------------------------------- */

/* Gives a part of the settings as a byte. 255, which is refused, stands for all above it. */
static inline uint64_t range_filter_setting_byte(uint64_t part) {
    return part < 255 ? part : 255;
}

/*
 * Gives the settings of a build as the one number that the calls below take. It is version + 256 *
 * dense_levels + 65536 * real_bits + 16777216 * hash_bits: bytes 2 to 5 of the image's header.
 *   version        which version the image has, 1 or 2
 *   dense_levels   how many levels of the trie from the root on are dense, 0 to 4
 *   real_bits      n: how many bits are kept of each key behind its cut, 0 to 16
 *   hash_bits      h: how many bits are kept of each key's hash, 0 to 16
 * Nothing is judged here: a part out of range, however large, makes a number that is refused.
 */
static inline uint64_t range_filter_settings(uint64_t version, uint64_t dense_levels,
                                             uint64_t real_bits, uint64_t hash_bits) {
    return range_filter_setting_byte(version) | range_filter_setting_byte(dense_levels) << 8 |
           range_filter_setting_byte(real_bits) << 16 | range_filter_setting_byte(hash_bits) << 24;
}

/* ---- Calls over any bytes -------------------------------------------------------------------- */

/*
 * Gives the exact length of the image of a key list, and writes nothing.
 *   list       records KY, length byte, key; keys strictly ascending by unsigned bytes
 *   settings   what range_filter_settings gives. Every number from 2^32 on is refused
 * Answer: the bytes of the image; or 5; or, for the first record at fault, 4, 1, 2 or 3. A record's
 * bytes are judged in the order 4, 1 (fewer than three bytes, or another mark), 2, 1 (key bytes
 * missing), 3.
 */
uint64_t range_filter_image_length(const uint8_t *list, size_t list_len, uint64_t settings);

/*
 * Builds the image of a key list at the front of the output.
 *   list, settings   as above; they are judged again
 *   stated           the length that range_filter_image_length gave for them
 *   out              gets the image; it may be longer, and the bytes behind the image stay
 * Answer: the bytes written, which are the stated length; or 5, or 4, 1, 2, 3 as above; then 8, and
 * last 7. What it writes is accepted by range_filter_check.
 */
uint64_t range_filter_build(const uint8_t *list, size_t list_len, uint64_t settings,
                            uint64_t stated, uint8_t *out, size_t out_len);

/*
 * Judges an image. With h 0 it is accepted exactly if some key list builds just these bytes. With h
 * above 0 it is accepted exactly if its spare bits and the slots of its exact leaves are zero, and
 * it would be accepted with h 0 and the hash bits struck out; what a key list builds is accepted.
 *   image     the image, of either version, with its own length and not that of a longer buffer
 * Answer: 0 for an accepted image, or the smallest of 11 to 16 that applies. Where the version byte
 * is 2, 11 asks for the thirteen records of version 2, else for the twelve of version 1.
 */
uint32_t range_filter_check(const uint8_t *image, size_t image_len);

/*
 * Replies to a file of questions over an image, which is checked first.
 *   image       the image
 *   questions   at most 1,024 questions: a mark (QP, QR, QB, QC, QS) and one key, or two for QR and
 *               QC; a key is a length byte and its bytes
 *   replies     gets a reply for each question, one behind the other: AN, the letter, a 32-bit
 *               number, a length byte and a key. 72 bytes for each question are always enough
 * Answer: the bytes of replies; or the smallest of 11 to 16 that applies; or, for the first
 * question at fault, which is read from left to right, 24, 21, 22 or 23; last 25.
 */
uint64_t range_filter_ask(const uint8_t *image, size_t image_len, const uint8_t *questions,
                          size_t questions_len, uint8_t *replies, size_t replies_len);

/*
 * Writes the leaves of an image, which is checked first, from a place on.
 *   image     the image
 *   place     the number in key order, from 0, of the first leaf to write; or the number of leaves,
 *             for done
 *   records   gets a record of 70 bytes for each leaf, of as many leaves as it holds whole: the
 *             kind, the cut key's length, 64 bytes with the cut key and zeros behind it, and the
 *             suffix as a number of four bytes, the low one first. Lend RANGE_FILTER_RECORD_SIZE
 *             bytes or more
 * Answer: the bytes of records; or the smallest of 11 to 16 that applies; then 17. The walk goes on
 * at the place plus the number of records that were written.
 * 0 bytes mean that the walk is done, or that the buffer has under RANGE_FILTER_RECORD_SIZE bytes:
 * a shorter one is not refused, and holds no record whole. The answer does not tell the two apart,
 * so that a loop which ends at 0 takes such a walk for done, with leaves left. With room for a
 * record 0 means done alone.
 */
uint64_t range_filter_walk(const uint8_t *image, size_t image_len, uint64_t place, uint8_t *records,
                           size_t records_len);

/*
 * Gives the 64-bit FNV-1a hash of a key, whose h lowest bits are the key's hash bits. Who builds
 * and asks does not need it: the calls hash the keys themselves.
 *   key       any bytes, of any length
 * Answer: the hash itself; nothing is refused.
 */
uint64_t range_filter_hash(const uint8_t *key, size_t key_len);

/* ---- Calls over an accepted image: checked once, asked often --------------------------------- */

/*
 * Each call below REQUIRES that range_filter_check gave 0 for just these bytes of the image, with
 * this length, and that none of them has changed since. A copy of accepted bytes is accepted too,
 * and so is what range_filter_build wrote. Over any other bytes nothing is promised: not the
 * answer, not that the call stays inside its buffers, not that it returns. So check first, once for
 * each image that is loaded or received.
 *
 * Nothing else is required: a key is any bytes, and one with over 64 of them is refused. The
 * answers are those of range_filter_ask and range_filter_walk, without the time for the check.
 */

/*
 * Says whether the image may hold a key.
 * Answer: 0 if the key's way ends elsewhere than at a leaf, or at a leaf with other hash or real
 * bits; then no key list that builds the image holds the key. Else 1; then, with h 0, some such
 * list does. Or 22.
 */
uint64_t range_filter_accepted_point(const uint8_t *image, size_t image_len, const uint8_t *key,
                                     size_t key_len);

/*
 * Says which rule decides the point question on a key.
 * Answer: the rule, 1 to 6 (enum range_filter_rule); the point is 1 with 3 and 4 alone; or 22.
 */
uint64_t range_filter_accepted_rule(const uint8_t *image, size_t image_len, const uint8_t *key,
                                    size_t key_len);

/*
 * Says whether the image may hold a key from the lower bound to the upper one, both included.
 * Answer: 1 if some key list with the image's cut keys and real bits has such a key, 0 if none
 * does; or 22 for either bound; then 23.
 */
uint64_t range_filter_accepted_range(const uint8_t *image, size_t image_len, const uint8_t *lower,
                                     size_t lower_len, const uint8_t *upper, size_t upper_len);

/*
 * Says whether the image may hold a key that begins with a stem. An empty stem covers every key.
 * Answer: 1 if some key list with the image's cut keys and real bits has such a key, 0 if none
 * does; or 22.
 */
uint64_t range_filter_accepted_begins_with(const uint8_t *image, size_t image_len,
                                           const uint8_t *stem, size_t stem_len);

/*
 * Counts the keys that the image may hold from the lower bound to the upper one, both included.
 * Answer: the most keys that a key list with the image's cut keys and real bits has there; none of
 * these lists has over two fewer; or 22 for either bound; then 23.
 */
uint64_t range_filter_accepted_count(const uint8_t *image, size_t image_len, const uint8_t *lower,
                                     size_t lower_len, const uint8_t *upper, size_t upper_len);

/*
 * Finds the first key from a start on.
 *   found     must not be NULL. It gets the smallest key, not below the start, that some key list
 *             with the image's cut keys and real bits holds; its bytes behind the key stay. Where
 *             there is none its length becomes 0 and its bytes stay. After a refusal all of it
 *             stays
 * Answer: the place of the leaf to which the key belongs, as in a walk; RANGE_FILTER_NO_LEAF where
 * there is none; or 22.
 */
uint64_t range_filter_accepted_seek(const uint8_t *image, size_t image_len, const uint8_t *start,
                                    size_t start_len, range_filter_key *found);

/*
 * Writes the leaves of the image from a place on, as range_filter_walk does.
 * Answer: the bytes of records; or 17. 0 bytes mean that the walk is done, or that the buffer has
 * under RANGE_FILTER_RECORD_SIZE bytes; with room for a record they mean done alone.
 */
uint64_t range_filter_accepted_walk(const uint8_t *image, size_t image_len, uint64_t place,
                                    uint8_t *records, size_t records_len);

/* ---- Taking an answer apart ------------------------------------------------------------------ */

/* Gives the number of the refusal in an answer, 0 if there is none. */
static inline uint32_t range_filter_refusal_of(uint64_t answer) {
    return (uint32_t)(answer >> 32);
}

/* Gives the bytes of an answer that counts bytes: a length, or bytes written. 0 for a refusal. */
static inline size_t range_filter_bytes_of(uint64_t answer) {
    return (size_t)(answer & UINT32_C(0xFFFFFFFF));
}

/* Gives the number of an answer over an accepted image: 0 or 1, rule, count or place. */
static inline uint32_t range_filter_number_of(uint64_t answer) {
    return (uint32_t)(answer & UINT32_C(0xFFFFFFFF));
}

/* Says what the number of a refusal means and what to do. */
static inline const char *range_filter_refusal_text(uint32_t number) {
    switch (number) {
    case 0: return "not refused";
    case RANGE_FILTER_LIST_MALFORMED: return "a key record is malformed: write KY, a length byte and the key";
    case RANGE_FILTER_KEY_LENGTH_WRONG: return "a key has no bytes or over 64: store keys of 1 to 64 bytes";
    case RANGE_FILTER_KEYS_UNORDERED: return "a key is not above the last: sort by unsigned bytes, drop doubles";
    case RANGE_FILTER_TOO_MANY_KEYS: return "the list has over 65,535 keys: build several images";
    case RANGE_FILTER_SETTING_OUT_OF_RANGE: return "a setting is out of range: take version 1 or 2, dense levels 0 to 4, real and hash bits 0 to 16";
    case RANGE_FILTER_OUTPUT_TOO_SHORT: return "the output is too short: lend what range_filter_image_length gives";
    case RANGE_FILTER_STATED_LENGTH_WRONG: return "the stated length is wrong: state what range_filter_image_length gives";
    case RANGE_FILTER_FRAME_WRONG: return "these bytes are not one whole image: load it again, with its own length";
    case RANGE_FILTER_HEADER_WRONG: return "the image's header or a record's length is wrong: load or build it again";
    case RANGE_FILTER_SPARE_BIT_SET: return "a spare bit of the image is set: load or build it again";
    case RANGE_FILTER_TRIE_WRONG: return "the image's trie is not a builder's: load or build it again";
    case RANGE_FILTER_TABLE_WRONG: return "a rank, sample or level start of the image is wrong: load or build it again";
    case RANGE_FILTER_SLOT_WRONG: return "a slot of the image has a bit that no key gives it: load or build it again";
    case RANGE_FILTER_PLACE_OUT_OF_RANGE: return "the place is past the end of the walk: take 0 up to the number of leaves";
    case RANGE_FILTER_QUESTION_MALFORMED: return "a question is malformed: write QP, QR, QB, QC or QS and its keys";
    case RANGE_FILTER_KEY_TOO_LONG: return "a key has over 64 bytes: ask with at most 64";
    case RANGE_FILTER_BOUNDS_REVERSED: return "the lower bound is above the upper one: exchange them";
    case RANGE_FILTER_TOO_MANY_QUESTIONS: return "the file has over 1,024 questions: ask in several calls";
    case RANGE_FILTER_REPLY_BUFFER_TOO_SHORT: return "the reply buffer is too short: lend 72 bytes a question";
    default: return "the number is unknown: take header and archives of one version";
    }
}

/* ---- Reading a reply: `reply` is the start of one that range_filter_ask wrote ---------------- */

/* Gives the letter of the question (enum range_filter_question). */
static inline char range_filter_reply_letter(const uint8_t *reply) {
    return (char)reply[2];
}

/* Gives the number: 0 or 1, a count, or the place of a seek. */
static inline uint32_t range_filter_reply_number(const uint8_t *reply) {
    return (uint32_t)reply[3] | (uint32_t)reply[4] << 8 | (uint32_t)reply[5] << 16 |
           (uint32_t)reply[6] << 24;
}

/* Gives the length of the key: 1 for a point, 0 to 64 for a seek, 0 for the others. */
static inline size_t range_filter_reply_key_length(const uint8_t *reply) {
    return reply[7];
}

/* Gives the key: for a point its rule in one byte (enum range_filter_rule), for a seek its find. */
static inline const uint8_t *range_filter_reply_key(const uint8_t *reply) {
    return reply + 8;
}

/* Gives the length of the whole reply: the next one starts that far behind. */
static inline size_t range_filter_reply_length(const uint8_t *reply) {
    return 8 + range_filter_reply_key_length(reply);
}

/* ---- Reading a record: `record` is the start of one that a walk wrote ------------------------ */

/* Gives the kind of the leaf (enum range_filter_leaf). */
static inline uint8_t range_filter_record_kind(const uint8_t *record) {
    return record[0];
}

/* Gives the length of the cut key, 1 to 64. */
static inline size_t range_filter_record_cut_length(const uint8_t *record) {
    return record[1];
}

/* Gives the cut key. */
static inline const uint8_t *range_filter_record_cut(const uint8_t *record) {
    return record + 2;
}

/*
 * Gives the suffix, which is the leaf's whole slot, as a number whose lowest bit is the first one:
 * the h lowest bits are the hash bits, the n above them the real bits. 0 for an exact leaf.
 */
static inline uint32_t range_filter_record_suffix(const uint8_t *record) {
    return (uint32_t)record[66] | (uint32_t)record[67] << 8 | (uint32_t)record[68] << 16 |
           (uint32_t)record[69] << 24;
}

/* ---- Writing key lists and question files ---------------------------------------------------- */

/*
 * Each function below writes at the offset `at` of a buffer, and gives the offset behind what it
 * wrote. Where that does not fit, or the key has over 64 bytes, it writes nothing and gives
 * RANGE_FILTER_NOT_PUT. A function that gets this as its offset gives it back, so that one test
 * behind the last of several calls is enough.
 */

/* Puts a length byte and a key: the second bound of a range or count, behind its question. */
static inline size_t range_filter_put_bound(uint8_t *out, size_t out_len, size_t at,
                                            const uint8_t *key, size_t key_len) {
    if (at >= out_len || key_len > RANGE_FILTER_MAX_KEY || key_len > out_len - at - 1) {
        return RANGE_FILTER_NOT_PUT;
    }
    out[at] = (uint8_t)key_len;
    for (size_t i = 0; i < key_len; i++) {
        out[at + 1 + i] = key[i];
    }
    return at + 1 + key_len;
}

/* Puts a mark of two letters, a length byte and a key: what the two functions below share. */
static inline size_t range_filter_put_marked(uint8_t *out, size_t out_len, size_t at,
                                             const char mark[2], const uint8_t *key,
                                             size_t key_len) {
    if (at > out_len || out_len - at < 2) {
        return RANGE_FILTER_NOT_PUT;
    }
    size_t end = range_filter_put_bound(out, out_len, at + 2, key, key_len);
    if (end != RANGE_FILTER_NOT_PUT) {
        out[at] = (uint8_t)mark[0];
        out[at + 1] = (uint8_t)mark[1];
    }
    return end;
}

/* Puts a key into a key list. Keys must come in ascending order; range_filter_build judges that. */
static inline size_t range_filter_put_key(uint8_t *list, size_t list_len, size_t at,
                                          const uint8_t *key, size_t key_len) {
    return range_filter_put_marked(list, list_len, at, "KY", key, key_len);
}

/*
 * Puts a question with its first key; `letter` is one of enum range_filter_question. A range and a
 * count go on with range_filter_put_bound.
 */
static inline size_t range_filter_put_question(uint8_t *questions, size_t questions_len, size_t at,
                                               char letter, const uint8_t *key, size_t key_len) {
    const char mark[2] = {'Q', letter};
    return range_filter_put_marked(questions, questions_len, at, mark, key, key_len);
}

#ifdef __cplusplus
}
#endif

#endif
