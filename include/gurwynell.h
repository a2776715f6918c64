/* The exported calls (crate loc_exports; its archive is made by `rt lib` in its folder), for C and C++.
 * create_loc is the paired index (body and spans), delta_loc the single one (body alone).
 *
 * A slice is a pointer and a length in elements; NULL is allowed with length 0. What one call is lent (areas, lists, `answers`,
 * `value`) must not overlap, and `value` must not be NULL. Each call returns a gurwynell_refusal and stores its value, 0 on a
 * refusal; a refusal stores nothing else. Of create_loc_span_at all this holds with three values in place of one. */
#ifndef GURWYNELL_H
#define GURWYNELL_H

#include <stddef.h>
#include <stdint.h>

#ifdef __cplusplus
extern "C" {
#endif

/* What a call returns. Any call gives 1; create no other; open 2 to 5; the others 6, and append 7 to 13, 17 and 22 to 24,
 * truncate 14, read 15 to 17, append_listing 18 to 20 and then append's from 8 on, span_at 17 and then 21, parts 7, 15, 27 to
 * 29 and then 16. No call gives 25 or 26: the program face_load prints them, and 18 for its own input. */
enum gurwynell_refusal {
    GURWYNELL_ACCEPTED = 0,
    GURWYNELL_AREA_TOO_SMALL = 1,          /* an area under 16 bytes */
    GURWYNELL_SLOTS_ODD = 2,               /* slot data odd */
    GURWYNELL_CHECKPOINTS_NOT_WHOLE = 3,   /* checkpoint data not whole */
    GURWYNELL_ROWS_NOT_WHOLE = 4,          /* row data not whole */
    GURWYNELL_ROWS_NOT_ASCENDING = 5,      /* a row numbered 0, or not above the row before */
    GURWYNELL_NOT_OPENED = 6,              /* opening would refuse or change a stored length */
    GURWYNELL_LISTS_DIFFER = 7,            /* lists of a batch or of pairs differ in length */
    GURWYNELL_NO_SPANS = 8,                /* span count 0 (paired) */
    GURWYNELL_LENGTH_NOT_PADDED = 9,       /* length no multiple of 8 */
    GURWYNELL_TOO_MANY_STRIDES = 10,       /* more than 2^32 - 1 strides */
    GURWYNELL_BODY_NOT_CHAINED = 11,       /* next body start is not start + length, saturated */
    GURWYNELL_SPANS_NOT_CHAINED = 12,      /* the same for spans (paired) */
    GURWYNELL_PAST_AREA = 13,              /* a new end lies past its area */
    GURWYNELL_PAST_COUNT = 14,             /* truncation past the count */
    GURWYNELL_TOO_MANY_NUMBERS = 15,       /* more than 1,024 numbers, or pairs */
    GURWYNELL_ANSWERS_TOO_SHORT = 16,      /* answer buffer too short */
    GURWYNELL_ROW_MISSING = 17,            /* a slot that is looked at needs a row and has none */
    GURWYNELL_LISTING_MALFORMED = 18,      /* no names line, a line not of the form, or a 1,025th value line */
    GURWYNELL_LISTING_NUMBER = 19,         /* a record number not one above the line before, or not count + 1 on the first */
    GURWYNELL_LISTING_SPAN_LEN = 20,       /* a span length that is not 8 times the span count */
    GURWYNELL_ADDRESS_NOT_HELD = 21,       /* no record's span range holds the address */
    GURWYNELL_BODY_EMPTY = 22,             /* length 0 */
    GURWYNELL_BODY_NOT_AT_END = 23,        /* the batch's first body start is not where the list ends */
    GURWYNELL_SPANS_NOT_AT_END = 24,       /* the same for spans (paired) */
    GURWYNELL_SEED_ZERO = 25,              /* seed 0 (the program face_load) */
    GURWYNELL_TOO_MANY_RECORDS = 26,       /* more than 1,024 records (the program face_load) */
    GURWYNELL_NOT_A_RECORD = 27,           /* a number in a pair, or the record, that is 0 or past the count */
    GURWYNELL_COMPONENT_NOT_BELOW = 28,    /* a component not below its composite */
    GURWYNELL_PAIRS_NOT_ASCENDING = 29     /* pairs not strictly ascending by composite and then component */
};

/* Where the words of an answer stand, and how many there are for each wanted number. All are 0 where nothing is found. */
enum gurwynell_paired_word {
    GURWYNELL_PAIRED_FOUND = 0,
    GURWYNELL_PAIRED_BODY_START = 1,
    GURWYNELL_PAIRED_BODY_LEN = 2,
    GURWYNELL_PAIRED_SPAN_START = 3,
    GURWYNELL_PAIRED_SPAN_LEN = 4,
    GURWYNELL_PAIRED_SPAN_COUNT = 5,
    GURWYNELL_PAIRED_WORDS = 6
};

enum gurwynell_single_word {
    GURWYNELL_SINGLE_FOUND = 0,
    GURWYNELL_SINGLE_START = 1,
    GURWYNELL_SINGLE_LEN = 2,
    GURWYNELL_SINGLE_WORDS = 3
};

#define GURWYNELL_AREAS                                                                                                  \
    uint8_t *slots, size_t slots_len, uint8_t *rows, size_t rows_len, uint8_t *checkpoints, size_t checkpoints_len
#define GURWYNELL_LENT_AREAS                                                                                             \
    const uint8_t *slots, size_t slots_len, const uint8_t *rows, size_t rows_len, const uint8_t *checkpoints,            \
        size_t checkpoints_len
#define GURWYNELL_PAIRED_LISTS                                                                                           \
    const uint64_t *body_starts, size_t body_starts_len, const uint64_t *body_lens, size_t body_lens_len,                \
        const uint64_t *span_starts, size_t span_starts_len, const uint32_t *span_counts, size_t span_counts_len
#define GURWYNELL_SINGLE_LISTS const uint64_t *starts, size_t starts_len, const uint64_t *lens, size_t lens_len
#define GURWYNELL_PAIRS                                                                                                  \
    const uint64_t *composites, size_t composites_len, const uint64_t *components, size_t components_len
#define GURWYNELL_READING const uint64_t *wanted, size_t wanted_len, uint64_t *answers, size_t answers_len

/* A `*_run` makes the stores of the first `places` places and no others, as a power cut would leave them: for tests, not to
 * publish in steps. */
uint64_t create_loc_create(GURWYNELL_AREAS, uint64_t *value);
uint64_t create_loc_open(GURWYNELL_AREAS, uint64_t *value);
uint64_t create_loc_open_run(GURWYNELL_AREAS, uint64_t places, uint64_t *value);
uint64_t create_loc_append(GURWYNELL_AREAS, GURWYNELL_PAIRED_LISTS, uint64_t *value);
uint64_t create_loc_append_run(GURWYNELL_AREAS, GURWYNELL_PAIRED_LISTS, uint64_t places, uint64_t *value);
/* A listing as one batch. The text is the names line, `record body_start body_len span_start span_len spans`, and at most 1,024
 * lines of these six as decimal numbers without leading zeros, one space between two; a line feed ends every line. */
uint64_t create_loc_append_listing(GURWYNELL_AREAS, const uint8_t *text, size_t text_len, uint64_t *value);
uint64_t create_loc_append_listing_run(GURWYNELL_AREAS, const uint8_t *text, size_t text_len, uint64_t places, uint64_t *value);
uint64_t create_loc_truncate(GURWYNELL_AREAS, uint64_t count, uint64_t *value);
uint64_t create_loc_truncate_run(GURWYNELL_AREAS, uint64_t count, uint64_t places, uint64_t *value);
uint64_t create_loc_read(GURWYNELL_LENT_AREAS, GURWYNELL_READING, uint64_t *value);
/* The value is 1 where the index is sound, its published rows included, else 0. */
uint64_t create_loc_audit(GURWYNELL_LENT_AREAS, uint64_t *value);
/* How many records are safe to publish from where the row area has reached the medium up to `durable` bytes: the first so many use
 * rows before that length only. A length below 16 or within a row gives 0, one at or past the published end of the rows the count. */
uint64_t create_loc_withheld_ovf_limit(GURWYNELL_LENT_AREAS, uint64_t durable, uint64_t *value);
/* Whose crossing is at an address: the lowest record whose span range holds it, the index of the span in that record from 0 on, and
 * the remainder 0 to 7, so that address = span start + 8 * index + remainder. The whole index is read. */
uint64_t create_loc_span_at(GURWYNELL_LENT_AREAS, uint64_t address, uint64_t *record, uint64_t *index, uint64_t *remainder);
/* What a record needs, by at most 1,024 pairs of composite and component, ascending by composite and then component, each component
 * below its composite: the records that chains of pairs lead to from it, each one time, ascending. The value is how many; words of
 * `answers` past them are untouched. */
uint64_t create_loc_parts(GURWYNELL_LENT_AREAS, GURWYNELL_PAIRS, uint64_t record, uint64_t *answers, size_t answers_len, uint64_t *value);

uint64_t delta_loc_create(GURWYNELL_AREAS, uint64_t *value);
uint64_t delta_loc_open(GURWYNELL_AREAS, uint64_t *value);
uint64_t delta_loc_open_run(GURWYNELL_AREAS, uint64_t places, uint64_t *value);
uint64_t delta_loc_append(GURWYNELL_AREAS, GURWYNELL_SINGLE_LISTS, uint64_t *value);
uint64_t delta_loc_append_run(GURWYNELL_AREAS, GURWYNELL_SINGLE_LISTS, uint64_t places, uint64_t *value);
uint64_t delta_loc_truncate(GURWYNELL_AREAS, uint64_t count, uint64_t *value);
uint64_t delta_loc_truncate_run(GURWYNELL_AREAS, uint64_t count, uint64_t places, uint64_t *value);
uint64_t delta_loc_read(GURWYNELL_LENT_AREAS, GURWYNELL_READING, uint64_t *value);
uint64_t delta_loc_audit(GURWYNELL_LENT_AREAS, uint64_t *value);
uint64_t delta_loc_withheld_ovf_limit(GURWYNELL_LENT_AREAS, uint64_t durable, uint64_t *value);

#ifdef __cplusplus
}
#endif

#endif
