/* Plans, states, tables and register settings that several topics use. */
#ifndef SAMPLES_H
#define SAMPLES_H

#include "checks.h"

/* The settings of document 01's register, mask 2^24 and start 1; the mask of a TMCC block's. */
#define MASK (1u << 24)
#define START 1u
#define BLOCK_MASK (1u << 14)

/* The tables' lengths and the packets of a slot, by rate. */
extern const size_t table_lengths[12], packet_counts[12];

/* Numbers that are no rate, or no modulation; some are one in their low octet or in their low 16 bits. */
extern const uint32_t no_rates[7], no_modulations[7];

/* Rows of the parity tables, and header and data octets, of the rates that the samples have. */
enum { ROWS_1 = 41, ROWS_3 = 61, ROWS_7 = 93 };
enum { DATA_1 = 187 * 10, SOURCE_1 = 22 + DATA_1, SOURCE_3 = 22 + 187 * 15, SOURCE_7 = 22 + 187 * 23 };

/* Document 01's plan of two groups: 92 data slots, 23 dummies, 2 data slots, 3 dummies. Behind its groups stand numbers that
 * break every rule, and must not count. And a plan of one group, all data slots. */
extern const s3_plan mixed, lowest;
enum { MIXED_SOURCE = 92 * SOURCE_7 + 2 * SOURCE_3, MIXED_TABLES = 471 + 356 };

/* Plans that break a rule, for each rule, each pair of rules, and numbers that an octet or 16 bits would cut off. */
typedef struct refused_plan {
    uint8_t number;
    s3_plan plan;
} refused_plan;
extern const refused_plan refused_plans[];
extern const size_t refused_plan_count;

extern const s3_plan no_plan;
extern const s3_state no_state;

/* The state of a plan under MASK and START. */
s3_state state_at(s3_plan plan, uint16_t slot, uint32_t held);

/* Whether all fields are equal: what stands between them does not count. */
bool same_plan(s3_plan a, s3_plan b);
bool same_state(s3_state a, s3_state b);

/* Whether an answer is this number with this state. */
bool is_answer(s3_answer answer, uint32_t number, s3_state state);

/* Whether a call moved a state one slot on, with this register. */
bool moved(s3_answer answer, s3_state from, uint32_t held);

/* The published table of a rate. */
const uint16_t *published(uint32_t rate);

#endif
