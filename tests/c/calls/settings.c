/* Settings in the blocks of a card. */
#include "parity.h"
#include "samples.h"
#include "topics.h"

enum { BLOCK = 512, THREE = 3 * BLOCK, MOST = 64 * BLOCK };

/* A card with room for one block too many. */
static area card;

static const s3_registers registers = {{0x1234567, 0x89ABCD}, {0x4321, 0x7FFF}};
static const s3_registers no_registers = {{0, 0}, {0, 0}};

/* The block of these settings and `mixed`, but for its zeros; the octets add to 1,632, which is 0x660. */
static const uint8_t kept[46] = {
    'S', '3', 'P', 'L', 1, 2, 4, 7, 115, 2, 3, 5,
    0, 0, 0, 0, 0, 0, 0, 0, 0, 0, 0, 0, 0, 0, 0, 0, 0, 0, /* six groups that are not used */
    0x01, 0x23, 0x45, 0x67, 0, 0x89, 0xAB, 0xCD, 0, 0, 0x43, 0x21, 0, 0, 0x7F, 0xFF};

static bool is_kept(const uint8_t *block)
{
    return memcmp(block, kept, 46) == 0 && zeros(block + 46, 464) && block[510] == 0x06 && block[511] == 0x60;
}

static void put_sum(uint8_t *block)
{
    uint32_t sum = 0;
    for (size_t i = 0; i < 510; i++) sum += block[i];
    block[510] = (uint8_t)(sum >> 8);
    block[511] = (uint8_t)sum;
}

static void put_kept(uint8_t *block)
{
    memset(block, 0, BLOCK);
    memcpy(block, kept, sizeof kept);
    put_sum(block);
}

static uint8_t replace(size_t octets, size_t number)
{
    return s3_replace_settings(card.octets, octets, number, mixed, registers);
}

/* Whether all blocks but that of number 1 are as found. */
static bool others_left(void)
{
    return as_found(card.octets, BLOCK) && untouched_from(card, 2 * BLOCK);
}

/* Blocks of other plans, whatever was kept there: one of eight groups leaves none unused, one of one group leaves seven. */
static void replacing_plans(void)
{
    static const s3_plan eight = {8, {5, 5, 4, 4, 3, 3, 2, 1}, {11, 1, 7, 6, 11, 1, 3, 1}, {5, 5, 5, 5, 5, 5, 5, 85}};
    static const uint8_t octets[] = {8, 5, 11, 5, 5, 1, 5, 4, 7, 5, 4, 6, 5, 3, 11, 5, 3, 1, 5, 2, 3, 5, 1, 1, 85};
    static const uint8_t one[] = {1, 5, 1, 120};
    uint8_t *const block = card.octets + BLOCK;
    EXPECT(replace(THREE, 1) == S3_ACCEPTED && is_kept(block) && others_left());
    EXPECT(s3_replace_settings(card.octets, THREE, 1, eight, registers) == S3_ACCEPTED);
    EXPECT(memcmp(block + 5, octets, sizeof octets) == 0 && memcmp(block + 30, kept + 30, 16) == 0);
    EXPECT(s3_replace_settings(card.octets, THREE, 1, lowest, registers) == S3_ACCEPTED);
    EXPECT(memcmp(block + 5, one, sizeof one) == 0 && zeros(block + 9, 21) && memcmp(block + 30, kept + 30, 16) == 0);
    EXPECT(replace(THREE, 1) == S3_ACCEPTED && is_kept(block) && others_left());
}

static void replacing_blocks(void)
{
    uint8_t *const octets = card.octets;
    EXPECT(replace(BLOCK, 0) == S3_ACCEPTED && is_kept(octets) && is_kept(octets + BLOCK));
    EXPECT(replace(MOST, 63) == S3_ACCEPTED && is_kept(octets + 63 * BLOCK));
    EXPECT(replace(MOST, 30) == S3_ACCEPTED && is_kept(octets + 30 * BLOCK));
    EXPECT(as_found(octets + 2 * BLOCK, 28 * BLOCK) && as_found(octets + 31 * BLOCK, 32 * BLOCK));
    EXPECT(untouched_from(card, MOST));
}

/* Lengths that no card has; and numbers past three blocks: 2^23 of them are 2^32 octets, and 2^55 are 2^64. */
static const size_t no_cards[] = {1, BLOCK - 1, BLOCK + 1, THREE - 1, THREE + 1, MOST - 1, MOST + 1, MOST + BLOCK};
static const size_t past[] = {3, 4, 63, 64, 256, 65536, (size_t)1 << 23, ((size_t)1 << 23) + 1, (size_t)1 << 32,
                              (size_t)1 << 55, ((size_t)1 << 55) + 1, SIZE_MAX};

static void refusing_to_replace(void)
{
    put_found(card);
    for (size_t k = 0; k < COUNT(no_cards); k++) {
        EXPECT(replace(no_cards[k], 0) == S3_REFUSED_LENGTH);
        EXPECT(s3_replace_settings(card.octets, no_cards[k], SIZE_MAX, no_plan, no_registers) == S3_REFUSED_LENGTH);
    }
    for (size_t k = 0; k < COUNT(past); k++) {
        EXPECT(replace(THREE, past[k]) == S3_REFUSED_BLOCK);
        EXPECT(s3_replace_settings(card.octets, THREE, past[k], no_plan, no_registers) == S3_REFUSED_BLOCK);
    }
    EXPECT(replace(0, 0) == S3_REFUSED_BLOCK && replace(MOST, 64) == S3_REFUSED_BLOCK);
    for (size_t k = 0; k < refused_plan_count; k++) {
        const refused_plan *const wrong = refused_plans + k;
        EXPECT(s3_replace_settings(card.octets, THREE, 1, wrong->plan, registers) == wrong->number);
        EXPECT(s3_replace_settings(card.octets, THREE, 1, wrong->plan, no_registers) == wrong->number);
    }
    EXPECT(s3_replace_settings(card.octets, THREE, 2, mixed, no_registers) == S3_REFUSED_REGISTER);
    EXPECT(untouched(card));
}

/* The settings with one of the four numbers another one. */
static s3_registers with(size_t which, uint32_t value)
{
    s3_registers changed = registers;
    uint32_t *const all[] = {&changed.slots.mask, &changed.slots.start, &changed.tmcc.mask, &changed.tmcc.start};
    *all[which] = value;
    return changed;
}

static uint8_t keep(size_t which, uint32_t value)
{
    return s3_replace_settings(card.octets, BLOCK, 0, mixed, with(which, value));
}

/* Each of the four numbers with its least and its greatest value, and just outside them. */
static void limits_of_registers(void)
{
    static const uint32_t least[] = {MASK, 1, BLOCK_MASK, 1}, above[] = {1u << 25, 1u << 25, 1u << 15, 1u << 15};
    put_found(card);
    for (size_t k = 0; k < COUNT(least); k++) {
        EXPECT(keep(k, least[k] - 1) == S3_REFUSED_REGISTER && keep(k, above[k]) == S3_REFUSED_REGISTER);
        EXPECT(keep(k, 0) == S3_REFUSED_REGISTER && keep(k, (1u << 31) | least[k]) == S3_REFUSED_REGISTER);
        EXPECT(untouched(card));
    }
    for (size_t k = 0; k < COUNT(least); k++) {
        EXPECT(keep(k, least[k]) == S3_ACCEPTED && keep(k, above[k] - 1) == S3_ACCEPTED);
    }
    EXPECT(untouched_from(card, BLOCK));
}

static bool same_registers(s3_registers a, s3_registers b)
{
    return a.slots.mask == b.slots.mask && a.slots.start == b.slots.start && a.tmcc.mask == b.tmcc.mask
        && a.tmcc.start == b.tmcc.start;
}

static bool reads(size_t octets, size_t number, s3_plan plan)
{
    const s3_settings_answer answer = s3_read_settings(card.octets, octets, number);
    return answer.number == S3_ACCEPTED && same_plan(answer.plan, plan) && same_registers(answer.registers, registers);
}

/* What is refused, with zeros in place of plan and registers. */
static uint32_t refusal(size_t octets, size_t number)
{
    const s3_settings_answer answer = s3_read_settings(card.octets, octets, number);
    return same_plan(answer.plan, no_plan) && same_registers(answer.registers, no_registers) ? answer.number : UINT32_MAX;
}

/* Behind the groups of a plan that is read stand zeros. */
static void reading(void)
{
    static const s3_plan two = {2, {4, 2}, {7, 3}, {115, 5}};
    s3_settings_answer answer;
    put_found(card);
    put_kept(card.octets + BLOCK);
    EXPECT(reads(THREE, 1, two) && is_kept(card.octets + BLOCK) && others_left());
    put_kept(card.octets);
    put_kept(card.octets + 63 * BLOCK);
    EXPECT(reads(BLOCK, 0, two) && reads(MOST, 63, two));
    EXPECT(s3_replace_settings(card.octets, MOST, 7, lowest, registers) == S3_ACCEPTED && reads(MOST, 7, lowest));
    answer = s3_read_settings(card.octets, MOST, 7);
    EXPECT(s3_replace_settings(card.octets, MOST, 63, answer.plan, answer.registers) == S3_ACCEPTED);
    EXPECT(memcmp(card.octets + 7 * BLOCK, card.octets + 63 * BLOCK, BLOCK) == 0);
}

static void refusing_to_read(void)
{
    for (size_t k = 0; k <= S3_MOST_SETTINGS; k++) put_kept(card.octets + k * BLOCK);
    for (size_t k = 0; k < COUNT(no_cards); k++) {
        EXPECT(refusal(no_cards[k], 0) == S3_REFUSED_LENGTH && refusal(no_cards[k], SIZE_MAX) == S3_REFUSED_LENGTH);
    }
    for (size_t k = 0; k < COUNT(past); k++) EXPECT(refusal(THREE, past[k]) == S3_REFUSED_BLOCK);
    EXPECT(refusal(0, 0) == S3_REFUSED_BLOCK && refusal(0, SIZE_MAX) == S3_REFUSED_BLOCK);
    EXPECT(refusal(MOST, 64) == S3_REFUSED_BLOCK && refusal(MOST + BLOCK, 64) == S3_REFUSED_LENGTH);
    for (size_t k = 0; k <= S3_MOST_SETTINGS; k++) EXPECT(is_kept(card.octets + k * BLOCK));
}

/* Other octets in a block, one or more alike, and what it is refused with then where its sum is put right. */
static const struct {
    uint32_t number;
    size_t at, length;
    uint8_t octet;
} changes[] = {
    {S3_REFUSED_BLOCK, 0, 1, 's'},   {S3_REFUSED_BLOCK, 3, 1, 'M'},  {S3_REFUSED_BLOCK, 4, 1, 0},
    {S3_REFUSED_BLOCK, 4, 1, 2},     {S3_REFUSED_BLOCK, 12, 1, 1},   {S3_REFUSED_BLOCK, 29, 1, 128},
    {S3_REFUSED_BLOCK, 46, 1, 1},    {S3_REFUSED_BLOCK, 300, 1, 255}, {S3_REFUSED_BLOCK, 509, 1, 128},
    /* groups behind the count that are not zeros */
    {S3_REFUSED_BLOCK, 5, 1, 0},     {S3_REFUSED_BLOCK, 5, 1, 1},    {S3_REFUSED_BLOCK, 5, 505, 9},
    {S3_REFUSED_PLAN, 5, 7, 0},      {S3_REFUSED_PLAN, 5, 1, 9},     {S3_REFUSED_PLAN, 5, 1, 255},
    {S3_REFUSED_PLAN, 5, 25, 9},     {S3_REFUSED_VALUE, 5, 1, 3},    {S3_REFUSED_VALUE, 5, 1, 8},
    {S3_REFUSED_VALUE, 7, 1, 12},    {S3_REFUSED_VALUE, 8, 1, 114},  {S3_REFUSED_ORDER, 6, 1, 1},
    {S3_REFUSED_ORDER, 9, 1, 5},     {S3_REFUSED_TOTAL, 8, 1, 110},  {S3_REFUSED_TOTAL, 11, 1, 250},
    {S3_REFUSED_REGISTER, 30, 1, 0}, {S3_REFUSED_REGISTER, 30, 1, 2}, {S3_REFUSED_REGISTER, 34, 1, 2},
    {S3_REFUSED_REGISTER, 34, 4, 0}, {S3_REFUSED_REGISTER, 40, 1, 0x3F}, {S3_REFUSED_REGISTER, 40, 1, 0x80},
    {S3_REFUSED_REGISTER, 39, 1, 1}, {S3_REFUSED_REGISTER, 42, 4, 0}, {S3_REFUSED_REGISTER, 44, 1, 0x80},
};

static void changed_blocks(void)
{
    uint8_t *const block = card.octets + BLOCK;
    put_found(card);
    EXPECT(refusal(THREE, 1) == S3_REFUSED_BLOCK);
    for (size_t k = 0; k < COUNT(changes); k++) {
        put_kept(block);
        memset(block + changes[k].at, changes[k].octet, changes[k].length);
        EXPECT(refusal(THREE, 1) == S3_REFUSED_BLOCK);
        put_sum(block);
        EXPECT(refusal(THREE, 1) == changes[k].number);
        EXPECT(refusal(THREE, 3) == S3_REFUSED_BLOCK && refusal(THREE - 1, 1) == S3_REFUSED_LENGTH);
    }
    for (size_t bit_of_sum = 8 * 510; bit_of_sum < 8 * BLOCK; bit_of_sum++) {
        put_kept(block);
        flip(block, bit_of_sum);
        EXPECT(refusal(THREE, 1) == S3_REFUSED_BLOCK);
    }
    EXPECT(others_left());
}

/* Wrong registers, then a wrong plan with them, then a filler beside both. */
static void order_of_refusals(void)
{
    uint8_t *const block = card.octets + BLOCK;
    put_kept(block);
    memset(block + 30, 0, 16);
    put_sum(block);
    EXPECT(refusal(THREE, 1) == S3_REFUSED_REGISTER);
    block[8] = 110;
    put_sum(block);
    EXPECT(refusal(THREE, 1) == S3_REFUSED_TOTAL);
    block[46] = 1;
    put_sum(block);
    EXPECT(refusal(THREE, 1) == S3_REFUSED_BLOCK);
}

void test_settings(void)
{
    card = lend(MOST + BLOCK);
    replacing_plans();
    replacing_blocks();
    refusing_to_replace();
    limits_of_registers();
    reading();
    refusing_to_read();
    changed_blocks();
    order_of_refusals();
}
