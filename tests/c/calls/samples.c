#include "samples.h"

const size_t table_lengths[12] = {0, 278, 333, 356, 402, 432, 461, 471, 465, 481, 510, 439};
const size_t packet_counts[12] = {0, 10, 12, 15, 18, 20, 22, 23, 24, 25, 26, 27};

const uint32_t no_rates[7] = {0, 12, 256 + 1, 65536 + 1, 65536 + 11, (1u << 31) + 1, UINT32_MAX};
const uint32_t no_modulations[7] = {0, 6, 256 + 1, 65536 + 1, 65536 + 5, (1u << 31) + 1, UINT32_MAX};

const s3_plan mixed = {
    2, {4, 2, 2, 0, 6, 65535, 257, 99}, {7, 3, 3, 0, 12, 65535, 256, 98}, {115, 5, 5, 0, 4, 65535, 255, 97}};
const s3_plan lowest = {1, {5}, {1}, {120}};
const s3_plan no_plan = {0, {0}, {0}, {0}};
const s3_state no_state = {0, {0}, {0}, {0}, 0, 0, 0, 0};

const refused_plan refused_plans[] = {
    {S3_REFUSED_PLAN, {0, {4, 2}, {7, 3}, {115, 5}}},
    {S3_REFUSED_PLAN, {9, {1, 1, 1, 1, 1, 1, 1, 1}, {8, 7, 6, 5, 4, 3, 2, 1}, {5, 5, 5, 5, 5, 5, 5, 85}}},
    {S3_REFUSED_PLAN, {256 + 2, {4, 2}, {7, 3}, {115, 5}}},
    {S3_REFUSED_PLAN, {65535, {4, 2}, {7, 3}, {115, 5}}},
    {S3_REFUSED_VALUE, {2, {4, 2}, {7, 3}, {116, 4}}},
    {S3_REFUSED_VALUE, {2, {4, 2}, {7, 3}, {120, 0}}},
    {S3_REFUSED_VALUE, {2, {4, 0}, {7, 3}, {115, 5}}},
    {S3_REFUSED_VALUE, {1, {6}, {1}, {120}}},
    {S3_REFUSED_VALUE, {1, {5}, {0}, {120}}},
    {S3_REFUSED_VALUE, {1, {5}, {12}, {120}}},
    {S3_REFUSED_VALUE, {1, {256 + 5}, {1}, {120}}},
    {S3_REFUSED_VALUE, {1, {5}, {256 + 1}, {120}}},
    {S3_REFUSED_VALUE, {1, {5}, {1}, {256 + 120}}},
    {S3_REFUSED_ORDER, {2, {2, 4}, {3, 7}, {5, 115}}},
    {S3_REFUSED_ORDER, {2, {4, 4}, {7, 7}, {60, 60}}},
    {S3_REFUSED_ORDER, {2, {4, 4}, {6, 7}, {60, 60}}},
    {S3_REFUSED_TOTAL, {1, {4}, {7}, {115}}},
    {S3_REFUSED_TOTAL, {3, {4, 2, 1}, {7, 3, 1}, {115, 5, 255}}},
    {S3_REFUSED_TOTAL, {1, {5}, {1}, {120 + 5 * 256}}},
    /* 5 * 2^16 + 120 slots */
    {S3_REFUSED_TOTAL, {6, {1, 1, 1, 1, 1, 1}, {6, 5, 4, 3, 2, 1}, {65535, 65535, 65535, 65535, 65535, 125}}},
    /* wrong in two ways */
    {S3_REFUSED_PLAN, {9, {1, 1, 1, 1, 1, 1, 1, 1}, {12, 11, 10, 9, 8, 7, 6, 5}, {5, 5, 5, 5, 5, 5, 5, 85}}},
    {S3_REFUSED_PLAN, {9, {1, 1, 1, 1, 1, 1, 1, 1}, {1, 2, 3, 4, 5, 6, 7, 8}, {5, 5, 5, 5, 5, 5, 5, 85}}},
    {S3_REFUSED_PLAN, {9, {1, 1, 1, 1, 1, 1, 1, 1}, {8, 7, 6, 5, 4, 3, 2, 1}, {5, 5, 5, 5, 5, 5, 5, 80}}},
    {S3_REFUSED_VALUE, {2, {2, 4}, {3, 7}, {4, 116}}},
    {S3_REFUSED_VALUE, {1, {4}, {12}, {115}}},
    {S3_REFUSED_ORDER, {2, {2, 4}, {3, 7}, {5, 110}}},
};
const size_t refused_plan_count = COUNT(refused_plans);

s3_state state_at(s3_plan plan, uint16_t slot, uint32_t held)
{
    s3_state state = no_state;
    state.count = plan.count;
    memcpy(state.modulation, plan.modulation, sizeof state.modulation);
    memcpy(state.rate, plan.rate, sizeof state.rate);
    memcpy(state.slots, plan.slots, sizeof state.slots);
    state.mask = MASK;
    state.start = START;
    state.slot = slot;
    state.register_ = held;
    return state;
}

bool same_plan(s3_plan a, s3_plan b)
{
    return a.count == b.count && memcmp(a.modulation, b.modulation, sizeof a.modulation) == 0
        && memcmp(a.rate, b.rate, sizeof a.rate) == 0 && memcmp(a.slots, b.slots, sizeof a.slots) == 0;
}

bool same_state(s3_state a, s3_state b)
{
    return a.count == b.count && memcmp(a.modulation, b.modulation, sizeof a.modulation) == 0
        && memcmp(a.rate, b.rate, sizeof a.rate) == 0 && memcmp(a.slots, b.slots, sizeof a.slots) == 0
        && a.mask == b.mask && a.start == b.start && a.slot == b.slot && a.register_ == b.register_;
}

bool is_answer(s3_answer answer, uint32_t number, s3_state state)
{
    return answer.number == number && same_state(answer.state, state);
}

bool moved(s3_answer answer, s3_state from, uint32_t held)
{
    from.slot++;
    from.register_ = held;
    return is_answer(answer, S3_ACCEPTED, from);
}

const uint16_t *published(uint32_t rate)
{
    static uint16_t tables[12][S3_MOST_TABLE];
    EXPECT(s3_published_table(rate, tables[rate], table_lengths[rate]) == S3_ACCEPTED);
    return tables[rate];
}
