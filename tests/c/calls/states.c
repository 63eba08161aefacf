/* The three calls that take a state and hand one back: the order of their refusals, and each field of what comes back. */
#include "samples.h"
#include "topics.h"

/* One call with nothing right but the state. */
typedef s3_answer (*state_call)(s3_state state);

static area given, octets, table;

static s3_answer passed(s3_state state)
{
    return s3_pass(state);
}

static s3_answer coded(s3_state state)
{
    return s3_code_slot(state, numbers(table), 1, given.octets, 1, octets.octets, 1);
}

static s3_answer read_back(s3_state state)
{
    const s3_slot_read read = s3_read_slot(state, numbers(table), 1, given.octets, 1, octets.octets, 1);
    s3_answer answer;
    EXPECT(read.stuff == S3_NO_STUFF && read.position == S3_NO_POSITION);
    answer.number = read.number;
    answer.state = read.state;
    return answer;
}

static const state_call state_calls[] = {passed, coded, read_back};

/* Whether all three calls refuse a state with this number and hand it back. */
static bool all_refuse(s3_state state, uint32_t number)
{
    bool all = true;
    for (size_t k = 0; k < COUNT(state_calls); k++) all = all && is_answer(state_calls[k](state), number, state);
    return all;
}

/* A state in which no octet of a field is like another: fields that change places, or lose an octet, show. */
static void every_octet_another(void)
{
    s3_state state = no_state;
    state.count = 0x0102;
    for (uint16_t g = 0; g < S3_GROUPS; g++) {
        state.modulation[g] = (uint16_t)(0x0304 + 0x0202 * g);
        state.rate[g] = (uint16_t)(0x1314 + 0x0202 * g);
        state.slots[g] = (uint16_t)(0x2324 + 0x0202 * g);
    }
    state.mask = 0x33343536;
    state.start = 0x3738393A;
    state.slot = 0x3B3C;
    state.register_ = 0x3D3E3F40;
    EXPECT(all_refuse(state, S3_REFUSED_PLAN));
    state.count = 8;
    EXPECT(all_refuse(state, S3_REFUSED_VALUE));
}

/* All is wrong at first; then what was refused is put right, and the next test refuses. Behind the groups of `mixed` stand
 * numbers that come back too. */
static void order_of_refusals(void)
{
    s3_state state = state_at(mixed, 0, 0);
    state.count = 9;
    state.mask = state.start = 0;
    EXPECT(all_refuse(state, S3_REFUSED_PLAN));
    state.count = 2;
    EXPECT(all_refuse(state, S3_REFUSED_PLAN));
    state.slot = 121;
    EXPECT(all_refuse(state, S3_REFUSED_REGISTER));
    state.mask = MASK;
    EXPECT(all_refuse(state, S3_REFUSED_REGISTER));
    state.start = START;
    EXPECT(all_refuse(state, S3_REFUSED_REGISTER));
    state.register_ = 5;
    EXPECT(all_refuse(state, S3_REFUSED_FULL));
    state.slot = 256 + 93;
    EXPECT(all_refuse(state, S3_REFUSED_FULL));
    state.slot = 65535;
    EXPECT(all_refuse(state, S3_REFUSED_FULL));
    state.slot = 93;
    EXPECT(is_answer(coded(state), S3_REFUSED_DUMMY, state) && is_answer(read_back(state), S3_REFUSED_DUMMY, state));
    state.slot = 92;
    EXPECT(is_answer(passed(state), S3_REFUSED_DUMMY, state));
    EXPECT(is_answer(coded(state), S3_REFUSED_LENGTH, state) && is_answer(read_back(state), S3_REFUSED_LENGTH, state));
}

/* Settings and registers at both ends of what is right. */
static void registers_of_states(void)
{
    static const uint32_t wrong[] = {0, 1u << 25, 3u << 24, (1u << 31) + 1, UINT32_MAX};
    for (size_t k = 0; k < COUNT(wrong); k++) {
        s3_state masked = state_at(mixed, 93, 5), started = masked, held = masked;
        masked.mask = wrong[k];
        started.start = wrong[k];
        held.register_ = wrong[k];
        EXPECT(all_refuse(masked, S3_REFUSED_REGISTER) && all_refuse(started, S3_REFUSED_REGISTER));
        EXPECT(all_refuse(held, S3_REFUSED_REGISTER));
    }
    s3_state state = state_at(mixed, 93, (1u << 25) - 1);
    EXPECT(moved(s3_pass(state), state, (1u << 25) - 1));
    state.mask = MASK - 1;
    EXPECT(all_refuse(state, S3_REFUSED_REGISTER));
    state.mask = state.start = (1u << 25) - 1;
    EXPECT(moved(s3_pass(state), state, (1u << 25) - 1));
}

static void refused_plans_in_states(void)
{
    for (size_t k = 0; k < refused_plan_count; k++) {
        s3_state state = state_at(refused_plans[k].plan, 121, 0);
        state.mask = state.start = 0;
        EXPECT(all_refuse(state, refused_plans[k].number));
        state.slot = 0;
        EXPECT(all_refuse(state, S3_REFUSED_PLAN));
    }
}

/* From the first dummy on, each pass moves one slot on and leaves the rest. */
static void passing(void)
{
    s3_answer answer = s3_pass(state_at(mixed, 93, 5));
    EXPECT(is_answer(answer, S3_ACCEPTED, state_at(mixed, 94, 5)));
    while (answer.number == S3_ACCEPTED) answer = s3_pass(answer.state);
    EXPECT(is_answer(answer, S3_REFUSED_DUMMY, state_at(mixed, 116, 5)));
    answer = s3_pass(state_at(mixed, 120, 6));
    EXPECT(is_answer(answer, S3_ACCEPTED, state_at(mixed, 121, 6)));
    EXPECT(is_answer(s3_pass(answer.state), S3_REFUSED_FULL, state_at(mixed, 121, 6)));
}

void test_states(void)
{
    given = lend(1);
    octets = lend(1);
    table = lend(sizeof(uint16_t));
    every_octet_another();
    order_of_refusals();
    registers_of_states();
    refused_plans_in_states();
    passing();
    EXPECT(untouched(given) && untouched(octets) && untouched(table));
}
