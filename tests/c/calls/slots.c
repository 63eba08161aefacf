/* Coding and reading one data slot, the lone parity check, and where parity broke. */
#include "parity.h"
#include "samples.h"
#include "topics.h"

/* A slot of rate 1, and what it was coded from, with room for lengths that are too large. */
static uint8_t source1[SOURCE_3], slot1[S3_SLOT_OCTETS];
static const uint16_t *table1;
enum { TABLE_1 = 278 };

/* Where calls write. */
static area coded, source;

static s3_answer code(s3_state state, const uint16_t *table, size_t table_length, size_t source_length, size_t coded_length)
{
    return s3_code_slot(state, table, table_length, source1, source_length, coded.octets, coded_length);
}

static void coding(void)
{
    static const size_t wrong_sources[] = {0, SOURCE_1 - 1, SOURCE_1 + 1, SOURCE_3}, wrong_slots[] = {0, 5609, 5611};
    static uint16_t other[TABLE_1];
    const s3_state state = state_at(lowest, 1, START), last = state_at(lowest, 120, START);
    memcpy(other, table1, sizeof other);
    other[1] = 374 * 79; /* an address must be below this */
    for (size_t k = 0; k < COUNT(wrong_sources); k++) {
        EXPECT(is_answer(code(state, other, TABLE_1, wrong_sources[k], 5610), S3_REFUSED_LENGTH, state));
    }
    for (size_t k = 0; k < COUNT(wrong_slots); k++) {
        EXPECT(is_answer(code(state, other, TABLE_1, SOURCE_1, wrong_slots[k]), S3_REFUSED_LENGTH, state));
    }
    EXPECT(is_answer(code(state, other, TABLE_1, SOURCE_1, 5610), S3_REFUSED_TABLE, state));
    EXPECT(is_answer(code(state, table1, TABLE_1 - 1, SOURCE_1, 5610), S3_REFUSED_TABLE, state));
    EXPECT(is_answer(code(state, published(3), 356, SOURCE_1, 5610), S3_REFUSED_TABLE, state));
    EXPECT(untouched(coded));
    other[1] = 374 * 79 - 1;
    EXPECT(moved(code(state, other, TABLE_1, SOURCE_1, 5610), state, 512));
    EXPECT(moved(code(last, table1, TABLE_1, SOURCE_1, 5610), last, 512));
    EXPECT(moved(code(state, table1, TABLE_1, SOURCE_1, 5610), state, 512));
    memcpy(slot1, coded.octets, sizeof slot1);
    new_parity(coded.octets, ROWS_1, table1);
    EXPECT(memcmp(slot1, coded.octets, sizeof slot1) == 0);
}

static s3_slot_read read_slot(s3_state state, const uint8_t *octets, size_t table_length, size_t length)
{
    return s3_read_slot(state, table1, table_length, octets, length, source.octets, SOURCE_1);
}

/* Whether a slot was read with this answer, and the state after it. */
static bool told(s3_slot_read read, uint32_t number, s3_state state, uint32_t stuff, uint32_t position)
{
    return read.number == number && same_state(read.state, state) && read.stuff == stuff && read.position == position;
}

static bool no_slot(s3_slot_read read, uint32_t number, s3_state state)
{
    return told(read, number, state, S3_NO_STUFF, S3_NO_POSITION);
}

static void refusing_to_read(void)
{
    static const size_t wrong[] = {0, 5609, 5611};
    const s3_state state = state_at(lowest, 1, START);
    for (size_t k = 0; k < COUNT(wrong); k++) {
        EXPECT(no_slot(read_slot(state, coded.octets, TABLE_1 - 1, wrong[k]), S3_REFUSED_LENGTH, state));
    }
    for (size_t length = SOURCE_1 - 1; length <= SOURCE_1 + 1; length += 2) {
        EXPECT(no_slot(s3_read_slot(state, table1, TABLE_1 - 1, coded.octets, 5610, source.octets, length),
                       S3_REFUSED_LENGTH, state));
    }
    EXPECT(no_slot(read_slot(state, coded.octets, TABLE_1 - 1, 5610), S3_REFUSED_TABLE, state));
    EXPECT(untouched(source));
}

/* A damaged slot moves the state on as a sound one does. */
static void reading(void)
{
    static uint8_t damaged[S3_SLOT_OCTETS];
    const s3_state first = state_at(lowest, 1, START), second = state_at(lowest, 2, 512);
    memcpy(damaged, slot1, sizeof damaged);
    flip(damaged, 44879);
    EXPECT(told(read_slot(first, damaged, TABLE_1, 5610), S3_REFUSED_PARITY, second, S3_NO_STUFF, 29545));
    memcpy(damaged, slot1, sizeof damaged);
    flip(damaged, 176);
    new_parity(damaged, ROWS_1, table1);
    EXPECT(no_slot(read_slot(first, damaged, TABLE_1, 5610), S3_REFUSED_BCH, second));
    EXPECT(no_slot(read_slot(state_at(lowest, 120, START), damaged, TABLE_1, 5610), S3_REFUSED_BCH,
                   state_at(lowest, 121, 512)));
    EXPECT(untouched(source));
    EXPECT(told(read_slot(first, slot1, TABLE_1, 5610), S3_ACCEPTED, second, S3_STUFF_ONES, S3_NO_POSITION));
    EXPECT(memcmp(source.octets, source1, SOURCE_1) == 0);
}

/* A slot is read with any stuff bits, and what is read of it is coded as slot1, which alone has six ones. */
static void stuff_bits(void)
{
    static uint8_t sent[S3_SLOT_OCTETS];
    const s3_state third = state_at(lowest, 3, START), fourth = state_at(lowest, 4, 512);
    for (uint32_t stuff = 0; stuff < 64; stuff++) {
        memcpy(sent, slot1, sizeof sent);
        put_stuff(sent, ROWS_1, table1, stuff);
        put_found(source);
        EXPECT(told(read_slot(third, sent, TABLE_1, 5610), S3_ACCEPTED, fourth, stuff, S3_NO_POSITION));
        EXPECT(memcmp(source.octets, source1, SOURCE_1) == 0);
        EXPECT((memcmp(sent, slot1, sizeof sent) == 0) == (stuff == S3_STUFF_ONES));
    }
    EXPECT(moved(s3_code_slot(third, table1, TABLE_1, source.octets, SOURCE_1, coded.octets, 5610), third, 512));
    EXPECT(memcmp(coded.octets, slot1, sizeof slot1) == 0);
}

static bool checked(s3_word_answer answer, uint32_t number, uint32_t position)
{
    return answer.number == number && answer.position == position;
}

static void checking_parity(void)
{
    static uint8_t other[S3_SLOT_OCTETS + 1];
    memcpy(other, slot1, sizeof slot1);
    put_stuff(other, ROWS_1, table1, 62);
    EXPECT(checked(s3_check_parity(1, table1, TABLE_1, slot1, 5610), S3_ACCEPTED, S3_NO_POSITION));
    EXPECT(checked(s3_check_parity(1, table1, TABLE_1, other, 5610), S3_ACCEPTED, S3_NO_POSITION));
    flip(other, 44879);
    EXPECT(checked(s3_check_parity(1, table1, TABLE_1, other, 5610), S3_REFUSED_PARITY, 29545));
    EXPECT(checked(s3_check_parity(1, table1, TABLE_1 - 1, other, 5610), S3_REFUSED_TABLE, S3_NO_POSITION));
    EXPECT(checked(s3_check_parity(1, table1, TABLE_1 - 1, other, 5609), S3_REFUSED_LENGTH, S3_NO_POSITION));
    EXPECT(checked(s3_check_parity(1, table1, TABLE_1 - 1, other, 5611), S3_REFUSED_LENGTH, S3_NO_POSITION));
    for (size_t k = 0; k < COUNT(no_rates); k++) {
        EXPECT(checked(s3_check_parity(no_rates[k], table1, TABLE_1, slot1, 5610), S3_REFUSED_PLAN, S3_NO_POSITION));
        EXPECT(checked(s3_check_parity(no_rates[k], table1, 0, other, 5609), S3_REFUSED_PLAN, S3_NO_POSITION));
    }
}

/* Whether slot1 with these bits the other way breaks at a position, in the lone check and in the reader. */
static bool broken_at(const size_t *bits, size_t count, uint32_t position)
{
    static uint8_t damaged[S3_SLOT_OCTETS];
    memcpy(damaged, slot1, sizeof damaged);
    for (size_t k = 0; k < count; k++) flip(damaged, bits[k]);
    return checked(s3_check_parity(1, table1, TABLE_1, damaged, 5610), S3_REFUSED_PARITY, position)
        && told(read_slot(state_at(lowest, 9, START), damaged, TABLE_1, 5610), S3_REFUSED_PARITY,
                state_at(lowest, 10, 512), S3_NO_STUFF, position);
}

/* Slot1 has 374 * 41 bits before 29,546 parity bits; of its row 0 the lowest address is 625. */
static void where_parity_broke(void)
{
    enum { BEFORE = 374 * ROWS_1, LAST = 8 * 5610 - 1 };
    static const size_t alone[] = {0, 1, 2, 14773, 29544, 29545};
    static const size_t before[] = {
        0, 175, 176, 373, 374, 8 * SOURCE_1 - 1, 8 * SOURCE_1, BEFORE - 7, BEFORE - 6, BEFORE - 1};
    put_found(source);
    for (size_t k = 0; k < COUNT(alone); k++) {
        const size_t first = BEFORE + alone[k], all[] = {LAST, first, BEFORE + 20000};
        EXPECT(broken_at(&first, 1, (uint32_t)alone[k]));
        EXPECT(broken_at(all, COUNT(all), alone[k] < 20000 ? (uint32_t)alone[k] : 20000));
    }
    EXPECT(lowest_reached(ROWS_1, table1, 0) == 625);
    for (size_t k = 0; k < COUNT(before); k++) {
        const uint32_t reached = lowest_reached(ROWS_1, table1, before[k]);
        const size_t below[] = {before[k], BEFORE + reached - 1}, same[] = {before[k], BEFORE + reached};
        EXPECT(broken_at(before + k, 1, reached) && broken_at(below, 2, reached - 1));
        EXPECT(broken_at(same, 2, reached + 1)); /* both turn this one, and the bit before the parity the next */
    }
    EXPECT(untouched(source));
}

void test_slots(void)
{
    coded = lend(S3_SLOT_OCTETS);
    source = lend(SOURCE_1);
    table1 = published(1);
    fill(source1, sizeof source1);
    coding();
    refusing_to_read();
    reading();
    stuff_bits();
    checking_parity();
    where_parity_broke();
}
