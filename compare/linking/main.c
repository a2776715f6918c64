/* README's example, compiled as C and as C++ against the archive: two records are created, appended, opened, read and audited.
 * Prints what differs from document 01's listing. Then a span by its address, the parts of a record, a third record from a
 * listing, and batches that are refused; lists of length 0 are NULL. */
#include "gurwynell.h"
#include <stdio.h>

static int failures = 0;

static void expect(const char *what, uint64_t got, uint64_t wanted)
{
    if (got != wanted) {
        printf("linking: %s is %llu, not %llu\n", what, (unsigned long long)got, (unsigned long long)wanted);
        failures++;
    }
}

int main(void)
{
    uint8_t slots[64] = {0}, rows[64] = {0}, checkpoints[64] = {0};
    const uint64_t starts[] = {16, 56}, lens[] = {40, 2048}, span_starts[] = {16, 40}, wanted[] = {2};
    const uint32_t spans[] = {3, 1};
    uint64_t answers[GURWYNELL_PAIRED_WORDS] = {0}, value = 9;

    expect("create", create_loc_create(slots, 64, rows, 64, checkpoints, 64, &value), GURWYNELL_ACCEPTED);
    expect("append", create_loc_append(slots, 64, rows, 64, checkpoints, 64, starts, 2, lens, 2, span_starts, 2, spans, 2, &value), GURWYNELL_ACCEPTED);
    expect("open", create_loc_open(slots, 64, rows, 64, checkpoints, 64, &value), GURWYNELL_ACCEPTED);
    expect("the count", value, 2);
    expect("read", create_loc_read(slots, 64, rows, 64, checkpoints, 64, wanted, 1, answers, GURWYNELL_PAIRED_WORDS, &value), GURWYNELL_ACCEPTED);
    expect("found", answers[GURWYNELL_PAIRED_FOUND], 1);
    expect("body start", answers[GURWYNELL_PAIRED_BODY_START], 56);
    expect("body length", answers[GURWYNELL_PAIRED_BODY_LEN], 2048);
    expect("span start", answers[GURWYNELL_PAIRED_SPAN_START], 40);
    expect("span length", answers[GURWYNELL_PAIRED_SPAN_LEN], 8);
    expect("span count", answers[GURWYNELL_PAIRED_SPAN_COUNT], 1);
    expect("audit", create_loc_audit(slots, 64, rows, 64, checkpoints, 64, &value), GURWYNELL_ACCEPTED);
    expect("soundness", value, 1);
    expect("durable without the row", create_loc_withheld_ovf_limit(slots, 64, rows, 64, checkpoints, 64, 16, &value), GURWYNELL_ACCEPTED);
    expect("how many that are", value, 1);
    expect("durable with the row", create_loc_withheld_ovf_limit(slots, 64, rows, 64, checkpoints, 64, 32, &value), GURWYNELL_ACCEPTED);
    expect("all of them", value, 2);
    expect("durable rows of no area", delta_loc_withheld_ovf_limit(NULL, 0, NULL, 0, NULL, 0, 32, &value), GURWYNELL_AREA_TOO_SMALL);

    uint64_t record = 9, index = 9, remainder = 9;
    expect("span at 37", create_loc_span_at(slots, 64, rows, 64, checkpoints, 64, 37, &record, &index, &remainder), GURWYNELL_ACCEPTED);
    expect("its record", record, 1);
    expect("its index", index, 2);
    expect("its remainder", remainder, 5);
    expect("span at 48", create_loc_span_at(slots, 64, rows, 64, checkpoints, 64, 48, &record, &index, &remainder), GURWYNELL_ADDRESS_NOT_HELD);
    expect("a refusal's three", record + index + remainder, 0);

    const uint64_t composites[] = {2}, components[] = {1};
    expect("parts of record 2", create_loc_parts(slots, 64, rows, 64, checkpoints, 64, composites, 1, components, 1, 2, answers, GURWYNELL_PAIRED_WORDS, &value), GURWYNELL_ACCEPTED);
    expect("how many they are", value, 1);
    expect("the part", answers[0], 1);
    expect("a word past it", answers[1], 56);
    expect("parts of record 3", create_loc_parts(slots, 64, rows, 64, checkpoints, 64, composites, 1, components, 1, 3, NULL, 0, &value), GURWYNELL_NOT_A_RECORD);
    expect("no pairs", create_loc_parts(slots, 64, rows, 64, checkpoints, 64, NULL, 0, NULL, 0, 2, NULL, 0, &value), GURWYNELL_ACCEPTED);

    const char listing[] = "record body_start body_len span_start span_len spans\n3 2104 8 48 16 2\n";
    const uint8_t *text = (const uint8_t *)listing;
    expect("append of a listing", create_loc_append_listing(slots, 64, rows, 64, checkpoints, 64, text, sizeof listing - 1, &value), GURWYNELL_ACCEPTED);
    expect("the count after it", value, 3);
    expect("the same again", create_loc_append_listing(slots, 64, rows, 64, checkpoints, 64, text, sizeof listing - 1, &value), GURWYNELL_LISTING_NUMBER);
    expect("no text", create_loc_append_listing_run(slots, 64, rows, 64, checkpoints, 64, NULL, 0, 4, &value), GURWYNELL_LISTING_MALFORMED);

    const uint64_t after[] = {2112}, none[] = {0}, ragged[] = {12}, span_after[] = {64};
    expect("an empty body", create_loc_append(slots, 64, rows, 64, checkpoints, 64, after, 1, none, 1, span_after, 1, spans, 1, &value), GURWYNELL_BODY_EMPTY);
    expect("a ragged body", create_loc_append(slots, 64, rows, 64, checkpoints, 64, after, 1, ragged, 1, span_after, 1, spans, 1, &value), GURWYNELL_LENGTH_NOT_PADDED);
    const uint64_t inside[] = {2104}, stride[] = {8}, span_inside[] = {48};
    expect("a body inside the list", create_loc_append(slots, 64, rows, 64, checkpoints, 64, inside, 1, stride, 1, span_after, 1, spans, 1, &value), GURWYNELL_BODY_NOT_AT_END);
    expect("spans inside the list", create_loc_append(slots, 64, rows, 64, checkpoints, 64, after, 1, stride, 1, span_inside, 1, spans, 1, &value), GURWYNELL_SPANS_NOT_AT_END);
    expect("an empty batch", create_loc_append(slots, 64, rows, 64, checkpoints, 64, NULL, 0, NULL, 0, NULL, 0, NULL, 0, &value), GURWYNELL_ACCEPTED);
    expect("an empty reading", delta_loc_read(NULL, 0, NULL, 0, NULL, 0, NULL, 0, NULL, 0, &value), GURWYNELL_AREA_TOO_SMALL);
    expect("a refusal's value", value, 0);
    expect("a short buffer", create_loc_read(slots, 64, rows, 64, checkpoints, 64, wanted, 1, NULL, 0, &value), GURWYNELL_ANSWERS_TOO_SHORT);
    return failures != 0;
}
