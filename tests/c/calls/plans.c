/* What a caller asks of a plan before it lends, where a slot lies, and opening. */
#include "samples.h"
#include "topics.h"

static void counts(void)
{
    for (uint32_t rate = 1; rate <= 11; rate++) {
        EXPECT(s3_packets_of(rate) == packet_counts[rate] && s3_table_entries(rate) == table_lengths[rate]);
    }
    for (size_t k = 0; k < COUNT(no_rates); k++) {
        EXPECT(s3_packets_of(no_rates[k]) == 0 && s3_table_entries(no_rates[k]) == 0);
    }
    EXPECT(s3_table_entries(10) == S3_MOST_TABLE && S3_HEADER_OCTETS + 187 * s3_packets_of(11) == S3_MOST_SOURCE);
    EXPECT(s3_source_octets(mixed) == MIXED_SOURCE && s3_tables_entries(mixed) == MIXED_TABLES);
    EXPECT(s3_source_octets(lowest) == 120 * SOURCE_1 && s3_tables_entries(lowest) == 278);
}

static void published_table(void)
{
    const area lent = lend(S3_MOST_TABLE * sizeof(uint16_t));
    uint16_t *const table = numbers(lent);
    for (size_t k = 0; k < COUNT(no_rates); k++) EXPECT(s3_published_table(no_rates[k], table, 278) == S3_REFUSED_PLAN);
    EXPECT(s3_published_table(12, table, 0) == S3_REFUSED_PLAN);
    for (uint32_t rate = 1; rate <= 11; rate++) {
        EXPECT(s3_published_table(rate, table, table_lengths[rate] - 1) == S3_REFUSED_LENGTH);
        EXPECT(s3_published_table(rate, table, table_lengths[rate] + 1) == S3_REFUSED_LENGTH);
    }
    EXPECT(untouched(lent));
    for (uint32_t rate = 1; rate <= 11; rate++) {
        put_found(lent);
        EXPECT(s3_published_table(rate, table, table_lengths[rate]) == S3_ACCEPTED);
        EXPECT(table[0] >= 1 && table[0] <= 16 && untouched_from(lent, table_lengths[rate] * sizeof *table));
    }
}

static void published_tables(void)
{
    const area lent = lend(MIXED_TABLES * sizeof(uint16_t));
    EXPECT(s3_published_tables(no_plan, numbers(lent), MIXED_TABLES) == S3_REFUSED_PLAN);
    EXPECT(s3_published_tables(mixed, numbers(lent), MIXED_TABLES - 1) == S3_REFUSED_LENGTH);
    EXPECT(s3_published_tables(mixed, numbers(lent), MIXED_TABLES + 1) == S3_REFUSED_LENGTH);
    EXPECT(untouched(lent));
    EXPECT(s3_published_tables(mixed, numbers(lent), MIXED_TABLES) == S3_ACCEPTED);
    EXPECT(memcmp(numbers(lent), published(7), 471 * sizeof(uint16_t)) == 0);
    EXPECT(memcmp(numbers(lent) + 471, published(3), 356 * sizeof(uint16_t)) == 0);
}

/* The place of a refusal. */
static const s3_slot_place none = {0, 0, 0, false};

static bool placed(s3_placed answer, uint32_t number, s3_slot_place place)
{
    const s3_slot_place found = answer.place;
    return answer.number == number && found.group == place.group && found.modulation == place.modulation
        && found.rate == place.rate && found.carries == place.carries;
}

static void places(void)
{
    static const s3_slot_place data[] = {{0, 4, 7, true}, {1, 2, 3, true}};
    static const s3_slot_place dummy[] = {{0, 4, 7, false}, {1, 2, 3, false}};
    static const uint32_t past[] = {121, 256 + 1, 65536, 65536 + 1, 65536 + 93, (1u << 31) + 1, UINT32_MAX};
    for (uint32_t slot = 1; slot <= S3_SLOTS; slot++) {
        const uint32_t group = slot > 115;
        const bool carries = slot <= 92 || slot == 116 || slot == 117;
        EXPECT(placed(s3_place(mixed, slot), S3_ACCEPTED, (carries ? data : dummy)[group]));
    }
    for (size_t k = 0; k < COUNT(past); k++) EXPECT(placed(s3_place(mixed, past[k]), S3_REFUSED_FULL, none));
    EXPECT(placed(s3_place(mixed, 0), S3_REFUSED_PLAN, none));
    EXPECT(placed(s3_place(no_plan, 121), S3_REFUSED_PLAN, none));
}

/* A state that is opened has the plan of the call, with what stands behind its groups. */
static void opening(void)
{
    static const struct {
        uint32_t mask, start;
    } wrong[] = {{0, 1}, {1, 1}, {1u << 23, 1}, {1u << 25, 1}, {3u << 24, 1}, {(1u << 31) | MASK, 1}, {UINT32_MAX, 1},
                 {MASK, 0}, {MASK, 1u << 25}, {MASK, (1u << 31) + 1}, {MASK, UINT32_MAX}};
    s3_state opened = state_at(mixed, 1, 5);
    opened.mask = 0x1234567;
    opened.start = 5;
    EXPECT(is_answer(s3_open(mixed, 0x1234567, 5), S3_ACCEPTED, opened));
    EXPECT(is_answer(s3_open(lowest, MASK, START), S3_ACCEPTED, state_at(lowest, 1, START)));
    opened.mask = opened.start = opened.register_ = (1u << 25) - 1;
    EXPECT(is_answer(s3_open(mixed, (1u << 25) - 1, (1u << 25) - 1), S3_ACCEPTED, opened));
    for (size_t k = 0; k < COUNT(wrong); k++) {
        EXPECT(is_answer(s3_open(mixed, wrong[k].mask, wrong[k].start), S3_REFUSED_REGISTER, no_state));
    }
}

/* Every call that is handed a plan answers the first rule that it breaks, whatever else is wrong: here the settings and all
 * lengths are. A slot's number 0 comes before the plan. */
static void refusing_plans(void)
{
    const area given = lend(1), octets = lend(1), answers = lend(1), stuff = lend(1), table = lend(2), positions = lend(2);
    for (size_t k = 0; k < refused_plan_count; k++) {
        const s3_plan plan = refused_plans[k].plan;
        const uint8_t number = refused_plans[k].number;
        EXPECT(s3_source_octets(plan) == 0 && s3_tables_entries(plan) == 0);
        EXPECT(s3_published_tables(plan, numbers(table), 1) == number);
        EXPECT(placed(s3_place(plan, 121), number, none) && placed(s3_place(plan, 1), number, none));
        EXPECT(placed(s3_place(plan, 0), S3_REFUSED_PLAN, none));
        EXPECT(is_answer(s3_open(plan, 0, 0), number, no_state) && is_answer(s3_open(plan, MASK, START), number, no_state));
        EXPECT(s3_code_frame(plan, 0, 0, numbers(table), 1, given.octets, 1, octets.octets, 1) == number);
        EXPECT(s3_read_frame(plan, 0, 0, numbers(table), 1, given.octets, 1, octets.octets, 1, answers.octets, 1,
                             stuff.octets, 1, numbers(positions), 1) == number);
    }
    EXPECT(untouched(octets) && untouched(answers) && untouched(stuff) && untouched(table) && untouched(positions));
}

void test_plans(void)
{
    counts();
    published_table();
    published_tables();
    places();
    opening();
    refusing_plans();
}
