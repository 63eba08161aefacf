/* Areas of length 0 that are a null pointer, as those of an empty std::vector: nothing is read or written there. */
#include "samples.h"
#include "topics.h"

static area octets, more, counts;
static const uint16_t *table1;

/* Calls that take an empty area as it is. */
static void accepted(void)
{
    static const uint8_t filler[] = {0x7F, 0xFF, 0, 0};
    static const float list[] = {1, 2};
    const s3_fill_answer filled = s3_tlv_fill(1, NULL, 0, 0, 0, octets.octets, DATA_1, numbers(counts), 1);
    EXPECT(filled.number == S3_ACCEPTED && filled.taken == 0 && filled.owed == 2 && numbers(counts)[0] == 0);
    EXPECT(memcmp(octets.octets, filler, 4) == 0 && memcmp(octets.octets + DATA_1 - 6, filler, 4) == 0);
    EXPECT(s3_points(1, 1, NULL, 0, list, 2, list, 2, NULL, 0, NULL, 0) == S3_ACCEPTED);
}

/* A text of no octets, and a card of no blocks. */
static void texts_and_cards(void)
{
    static const s3_registers registers = {{MASK, START}, {BLOCK_MASK, START}};
    const area list = lend(S3_LIST_OCTETS);
    EXPECT(s3_plan_of_text(NULL, 0).number == S3_REFUSED_PLAN);
    EXPECT(s3_plan_list(NULL, 0, list.octets) == 10 && memcmp(list.octets, "refused 1\n", 10) == 0);
    EXPECT(s3_read_settings(NULL, 0, 0).number == S3_REFUSED_BLOCK);
    EXPECT(s3_replace_settings(NULL, 0, 0, mixed, registers) == S3_REFUSED_BLOCK);
    EXPECT(s3_replace_settings(NULL, 0, 0, no_plan, registers) == S3_REFUSED_BLOCK);
}

/* No table is a table that breaks its form. */
static void tables(void)
{
    const s3_state state = state_at(lowest, 1, START);
    EXPECT(s3_code_slot(state, NULL, 0, octets.octets, SOURCE_1, more.octets, 5610).number == S3_REFUSED_TABLE);
    EXPECT(s3_read_slot(state, NULL, 0, octets.octets, 5610, more.octets, SOURCE_1).number == S3_REFUSED_TABLE);
    EXPECT(s3_check_parity(1, NULL, 0, octets.octets, 5610).number == S3_REFUSED_TABLE);
    EXPECT(s3_code_tmcc(BLOCK_MASK, START, NULL, 0, octets.octets, 1178, more.octets, 3960) == S3_REFUSED_TABLE);
    EXPECT(s3_read_tmcc(BLOCK_MASK, START, NULL, 0, octets.octets, 3960, more.octets, 1178).number == S3_REFUSED_TABLE);
    EXPECT(s3_published_table(1, NULL, 0) == S3_REFUSED_LENGTH && s3_published_tables(mixed, NULL, 0) == S3_REFUSED_LENGTH);
}

/* The other areas are never empty. */
static void lengths(void)
{
    const s3_state state = state_at(lowest, 1, START);
    EXPECT(s3_code_slot(state, table1, 278, NULL, 0, NULL, 0).number == S3_REFUSED_LENGTH);
    EXPECT(s3_read_slot(state, table1, 278, NULL, 0, NULL, 0).number == S3_REFUSED_LENGTH);
    EXPECT(s3_check_parity(1, table1, 278, NULL, 0).number == S3_REFUSED_LENGTH);
    EXPECT(s3_code_frame(mixed, MASK, START, NULL, 0, NULL, 0, NULL, 0) == S3_REFUSED_LENGTH);
    EXPECT(s3_read_frame(mixed, MASK, START, NULL, 0, NULL, 0, NULL, 0, NULL, 0, NULL, 0, NULL, 0) == S3_REFUSED_LENGTH);
    EXPECT(s3_code_tmcc(BLOCK_MASK, START, NULL, 0, NULL, 0, NULL, 0) == S3_REFUSED_LENGTH);
    EXPECT(s3_read_tmcc(BLOCK_MASK, START, NULL, 0, NULL, 0, NULL, 0).number == S3_REFUSED_LENGTH);
    EXPECT(s3_labels(1, 1, NULL, 0, NULL, 0) == S3_REFUSED_LENGTH && s3_tmcc_labels(NULL, 0, NULL, 0) == S3_REFUSED_LENGTH);
    EXPECT(s3_slot_of_labels(1, 1, NULL, 0, NULL, 0) == S3_REFUSED_LENGTH);
    EXPECT(s3_tmcc_of_labels(NULL, 0, NULL, 0) == S3_REFUSED_LENGTH);
    EXPECT(s3_point(1, 0, 1, NULL, 0, NULL, 0).number == S3_REFUSED_LENGTH);
    EXPECT(s3_arranged_point(1, 0, 1, NULL, 0, NULL, 0, BLOCK_MASK, 1).number == S3_REFUSED_LENGTH);
    EXPECT(s3_points(1, 1, NULL, 0, NULL, 0, NULL, 0, NULL, 0, NULL, 0) == S3_REFUSED_LENGTH);
    EXPECT(s3_pack(1, NULL, 0, NULL, 0) == S3_REFUSED_LENGTH && s3_unpack(1, NULL, 0, NULL, 0) == S3_REFUSED_LENGTH);
    EXPECT(s3_tlv_fill(1, NULL, 0, 0, 0, NULL, 0, NULL, 0).number == S3_REFUSED_LENGTH);
    EXPECT(s3_tlv_read(1, NULL, 0, NULL, 0, NULL, 0, 0, NULL, 0).number == S3_REFUSED_LENGTH);
}

void test_empty_areas(void)
{
    octets = lend(S3_SLOT_OCTETS);
    more = lend(S3_SLOT_OCTETS);
    counts = lend(sizeof(uint16_t));
    table1 = published(1);
    tables();
    lengths();
    EXPECT(untouched(octets) && untouched(more) && untouched(counts));
    accepted();
    texts_and_cards();
}
