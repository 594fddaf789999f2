/* The calibration store: calls over a card's image that the caller lends.
 *
 * The library keeps nothing between calls: no heap, no files, no globals. Calls may run at the same time on different memory.
 * Link with crates/calstore/out/libcalstore.a, which `rt lib` in crates/calstore writes (Linux, x86-64).
 *
 * A slice is a pointer and its length in bytes. No alignment is asked of it. The pointer is not NULL, also where the length
 * is 0, and points to that many bytes. The slices of one call do not overlap. These are the caller's duty; beyond them any
 * bytes of any length may be given, and an answer tells what is wrong with them.
 *
 * The scratch is memory for the call's own work, at least as long as the image. Its first image_len bytes are 0 after
 * every call but those that are refused with 1 or 2, which write nothing; its other bytes stay.
 *
 * A table sorts its keys by unsigned bytes, a proper prefix first. A table whose name begins with "#" is an offset table: its
 * keys have exactly four bytes, a signed number in two's complement, high byte first, and sort as these numbers.
 *
 * Bytes 28 to 31 of an image, a number with its high byte first, are one more than its free pages, or 0 where the card does not
 * keep them. Every put, remove and create that is done writes them, so that the room left can be read there without a call. An
 * image with any other number there is not well-formed.
 */
#ifndef CALSTORE_H
#define CALSTORE_H

#include <stddef.h>
#include <stdint.h>

#ifdef __cplusplus
extern "C" {
#endif

/* Why a call is refused. Where several hold, the lowest number is given. */
enum calstore_refusal {
    CALSTORE_DONE = 0,
    CALSTORE_IMAGE_LENGTH = 1,    /* the image is not 4 to 4096 pages of 1024 bytes */
    CALSTORE_SCRATCH_LENGTH = 2,  /* the scratch is shorter than the image */
    CALSTORE_NOT_WELL_FORMED = 3, /* the image is not well-formed */
    CALSTORE_NAME_OR_KEY = 4,     /* the name is not 1 to 255 bytes of 21 to 7e hex; the key is empty (but for next) or over
                                     65,535 bytes, or has not four bytes in an offset table, whether that is there or not */
    CALSTORE_VALUE_LENGTH = 5,    /* the value is over 65,535 bytes */
    CALSTORE_NO_TABLE = 6,        /* there is no such table */
    CALSTORE_TABLE_EXISTS = 7,    /* create: the table is there already */
    CALSTORE_NO_KEY = 8,          /* there is no such key; next: there is none above */
    CALSTORE_BUFFER_SHORT = 9,    /* the answer buffer is shorter than the answer; length is what it needs */
    CALSTORE_NO_ROOM = 10         /* the image has too few free pages */
};

/* What a call answers. Numbers that an answer has not are 0. */
struct calstore_answer {
    uint32_t number; /* 0 if the call was done, else a calstore_refusal */
    uint32_t page;   /* 0 in this version: room for the page that a refusal is about */
    uint64_t length; /* the length of the value or key, also with CALSTORE_BUFFER_SHORT */
    uint64_t pages;  /* check: the pages of the image */
    uint64_t tables; /* check: the tables */
    uint64_t keys;   /* check: the keys in all tables */
    uint64_t free;   /* check: the free pages */
};

/* Is the image well-formed, and what does it hold: pages, tables, keys and free pages.
 *   image, image_len      the card's image; it is only read
 *   scratch, scratch_len  memory for the call's own work
 * Refusals: 1, 2, 3. */
struct calstore_answer calstore_check(const uint8_t *image, size_t image_len, uint8_t *scratch, size_t scratch_len);

/* The value under a key in a table.
 *   image, image_len      the card's image; it is only read
 *   scratch, scratch_len  memory for the call's own work
 *   name, name_len        the table's name
 *   key, key_len          the key
 *   answer, answer_len    the value is written at its start; its other bytes stay, with a refusal all of them
 * length is the value's length, at most 65,535. With CALSTORE_BUFFER_SHORT it is the length that the answer buffer needs; an
 * answer buffer of length 0 asks for it.
 * Refusals: 1, 2, 3, 4, 6, 8, 9. */
struct calstore_answer calstore_get(const uint8_t *image, size_t image_len, uint8_t *scratch, size_t scratch_len,
                                    const uint8_t *name, size_t name_len, const uint8_t *key, size_t key_len,
                                    uint8_t *answer, size_t answer_len);

/* The smallest key above the given one in a table, in the table's own order. The empty key (key_len 0) asks for the first key,
 * in an offset table too, so that the keys of a table are gone through by giving back the key before, until CALSTORE_NO_KEY.
 * Slices, length and refusals are those of get; the key is written at the start of answer. */
struct calstore_answer calstore_next(const uint8_t *image, size_t image_len, uint8_t *scratch, size_t scratch_len,
                                     const uint8_t *name, size_t name_len, const uint8_t *key, size_t key_len,
                                     uint8_t *answer, size_t answer_len);

/* Puts a value under a key in a table: a key that is there gets the value in place of its own, any other key is added.
 *   image, image_len      the card's image; it changes only where number is 0, with a refusal all of its bytes stay
 *   scratch, scratch_len  memory for the call's own work
 *   name, name_len        the table's name
 *   key, key_len          the key
 *   value, value_len      the value, which may be empty
 * length is 0. After a put that is done the image is again one that check accepts.
 * Refusals: 1, 2, 3, 4, 5, 6, 10. */
struct calstore_answer calstore_put(uint8_t *image, size_t image_len, uint8_t *scratch, size_t scratch_len,
                                    const uint8_t *name, size_t name_len, const uint8_t *key, size_t key_len,
                                    const uint8_t *value, size_t value_len);

/* Removes a key, with its value, from a table.
 *   image, image_len      the card's image; it changes only where number is 0, with a refusal all of its bytes stay
 *   scratch, scratch_len  memory for the call's own work
 *   name, name_len        the table's name
 *   key, key_len          the key
 * length is 0. After a remove that is done the image is again one that check accepts. It needs no free page: on a full card, too,
 * every key that is there can be removed.
 * Refusals: 1, 2, 3, 4, 6, 8. */
struct calstore_answer calstore_remove(uint8_t *image, size_t image_len, uint8_t *scratch, size_t scratch_len,
                                       const uint8_t *name, size_t name_len, const uint8_t *key, size_t key_len);

/* Creates a table, without keys.
 *   image, image_len      the card's image; it changes only where number is 0, with a refusal all of its bytes stay
 *   scratch, scratch_len  memory for the call's own work
 *   name, name_len        the table's name
 * length is 0. After a create that is done the image is again one that check accepts.
 * Refusals: 1, 2, 3, 4, 7, 10. */
struct calstore_answer calstore_create(uint8_t *image, size_t image_len, uint8_t *scratch, size_t scratch_len,
                                       const uint8_t *name, size_t name_len);

#ifdef __cplusplus
}
#endif

#endif
