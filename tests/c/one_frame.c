/* Codes one frame of 32APSK 7/8 in all 120 slots, damages a slot, reads the frame back and prints how often each answer came,
 * and where the parity of the damaged slot broke. */
#include <stdio.h>
#include <stdlib.h>

#include "s3frame.h"

static uint16_t tables[S3_MOST_TABLE];
static uint8_t source[S3_SLOTS * S3_MOST_SOURCE], back[S3_SLOTS * S3_MOST_SOURCE];
static uint8_t frame[S3_FRAME_OCTETS], answers[S3_SLOTS], stuff[S3_SLOTS];
static uint16_t positions[S3_SLOTS];

static void accepted(uint32_t number) {
    if (number != S3_ACCEPTED) {
        fprintf(stderr, "refused %u %s\n", (unsigned)number, s3_word(number));
        exit(1);
    }
}

int main(void) {
    const uint32_t mask = 0x1234567, start = 1;
    unsigned read = 0, broken = 0;
    for (size_t k = 0; k < sizeof source; k++)
        source[k] = (uint8_t)(k % 251);

    const s3_plan plan = {1, {5}, {10}, {120}}; /* one group: modulation 5, rate 10, 120 slots */
    const size_t entries = s3_tables_entries(plan), octets = s3_source_octets(plan);
    accepted(s3_published_tables(plan, tables, entries));
    accepted(s3_code_frame(plan, mask, start, tables, entries, source, octets, frame, S3_FRAME_OCTETS));
    frame[S3_SLOT_OCTETS] ^= 1; /* slot 2 */
    accepted(s3_read_frame(plan, mask, start, tables, entries, frame, S3_FRAME_OCTETS, back, octets, answers, S3_SLOTS,
                           stuff, S3_SLOTS, positions, S3_SLOTS));

    for (size_t k = 0; k < S3_SLOTS; k++) {
        read += answers[k] == S3_ACCEPTED;
        broken += answers[k] == S3_REFUSED_PARITY;
    }
    printf("%u slots read, %u with wrong parity, first at position %u\n", read, broken, (unsigned)positions[1]);
    return read != 119 || broken != 1 || stuff[0] != S3_STUFF_ONES || stuff[1] != S3_NO_STUFF
        || positions[0] != S3_NO_POSITION;
}
