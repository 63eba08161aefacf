/* The labels of a slot, and the slot of labels. Any octets are a slot here. */
#include "parity.h"
#include "samples.h"
#include "topics.h"

static uint8_t slot[S3_SLOT_OCTETS + 1];
static area labels, back;

static uint8_t label(uint32_t modulation, uint32_t rate, size_t coded_length, size_t count)
{
    return s3_labels(modulation, rate, slot, coded_length, labels.octets, count);
}

static uint8_t unlabel(uint32_t modulation, uint32_t rate, size_t count, size_t coded_length)
{
    return s3_slot_of_labels(modulation, rate, labels.octets, count, back.octets, coded_length);
}

static void both_ways(uint32_t modulation, uint32_t rate)
{
    const size_t count = 44880 / modulation;
    put_found(labels);
    put_found(back);
    EXPECT(label(modulation, rate, 5610, count) == S3_ACCEPTED && untouched_from(labels, count));
    labels.octets[count - 1] ^= (uint8_t)(1u << modulation);
    EXPECT(unlabel(modulation, rate, count, 5610) == S3_REFUSED_LABEL && untouched(back));
    labels.octets[count - 1] ^= (uint8_t)(1u << modulation);
    EXPECT(unlabel(modulation, rate, count, 5610) == S3_ACCEPTED && memcmp(back.octets, slot, S3_SLOT_OCTETS) == 0);
}

/* The columns of 8PSK and 32APSK, by document 01: rates 1 and 2 read from right to left, and 32APSK at rate 7. */
static void columns(void)
{
    EXPECT(label(3, 2, 5610, 14960) == S3_ACCEPTED);
    EXPECT(labels.octets[0] == (bit(slot, 29920) << 2 | bit(slot, 14960) << 1 | bit(slot, 0)));
    EXPECT(label(3, 3, 5610, 14960) == S3_ACCEPTED);
    EXPECT(labels.octets[0] == (bit(slot, 0) << 2 | bit(slot, 14960) << 1 | bit(slot, 29920)));
    EXPECT(label(5, 8, 5610, 8976) == S3_ACCEPTED);
    EXPECT(labels.octets[8975] == (bit(slot, 8975) << 4 | bit(slot, 17951) << 3 | bit(slot, 26927) << 2
                                   | bit(slot, 35903) << 1 | bit(slot, 44879)));
    EXPECT(label(5, 7, 5610, 8976) == S3_ACCEPTED);
    EXPECT(labels.octets[8975] == (bit(slot, 44879) << 4 | bit(slot, 35903) << 3 | bit(slot, 26927) << 2
                                   | bit(slot, 17951) << 1 | bit(slot, 8975)));
}

static void refusing(void)
{
    put_found(labels);
    put_found(back);
    EXPECT(label(6, 1, 5610, 7480) == S3_REFUSED_PLAN && unlabel(6, 1, 7480, 5610) == S3_REFUSED_PLAN);
    for (size_t k = 0; k < COUNT(no_rates); k++) {
        EXPECT(label(no_modulations[k], 1, 5610, 44880) == S3_REFUSED_PLAN);
        EXPECT(unlabel(no_modulations[k], 1, 44880, 5610) == S3_REFUSED_PLAN);
        EXPECT(label(1, no_rates[k], 5610, 44880) == S3_REFUSED_PLAN && label(1, no_rates[k], 5609, 0) == S3_REFUSED_PLAN);
        EXPECT(unlabel(1, no_rates[k], 44880, 5610) == S3_REFUSED_PLAN && unlabel(1, no_rates[k], 0, 5609) == S3_REFUSED_PLAN);
    }
    for (uint32_t modulation = 1; modulation <= 5; modulation++) {
        const size_t count = 44880 / modulation;
        for (size_t off = 0; off < 3; off += 2) {
            EXPECT(label(modulation, 1, 5610, count - 1 + off) == S3_REFUSED_LENGTH);
            EXPECT(label(modulation, 1, 5609 + off, count) == S3_REFUSED_LENGTH);
            EXPECT(unlabel(modulation, 1, count - 1 + off, 5610) == S3_REFUSED_LENGTH);
            EXPECT(unlabel(modulation, 1, count, 5609 + off) == S3_REFUSED_LENGTH);
        }
        EXPECT(unlabel(modulation, 1, count, 5610) == S3_REFUSED_LABEL);
    }
    EXPECT(untouched(labels) && untouched(back));
}

void test_symbols(void)
{
    labels = lend(44880);
    back = lend(S3_SLOT_OCTETS);
    fill(slot, sizeof slot);
    for (uint32_t modulation = 1; modulation <= 5; modulation++) {
        for (uint32_t rate = 1; rate <= 11; rate++) both_ways(modulation, rate);
    }
    columns();
    refusing();
}
