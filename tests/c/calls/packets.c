/* TS packets into the data octets of a slot, and back; and from packets to a slot and back again. */
#include "samples.h"
#include "topics.h"

static uint8_t stream[188 * 27 + 1];
static area octets, back;

static void both_ways(void)
{
    for (uint32_t rate = 1; rate <= 11; rate++) {
        const size_t n = packet_counts[rate];
        unsigned same = 0;
        put_found(octets);
        put_found(back);
        EXPECT(s3_pack(rate, stream, 188 * n, octets.octets, 187 * n) == S3_ACCEPTED && untouched_from(octets, 187 * n));
        for (size_t k = 0; k < n; k++) same += memcmp(octets.octets + 187 * k, stream + 188 * k + 1, 187) == 0;
        EXPECT(same == n);
        EXPECT(s3_unpack(rate, octets.octets, 187 * n, back.octets, 188 * n) == S3_ACCEPTED);
        EXPECT(untouched_from(back, 188 * n) && memcmp(back.octets, stream, 188 * n) == 0);
    }
}

static void refusing(void)
{
    put_found(octets);
    put_found(back);
    stream[188 * 9] = 0x46;
    for (size_t k = 0; k < COUNT(no_rates); k++) {
        EXPECT(s3_pack(no_rates[k], stream, 1880, octets.octets, 1870) == S3_REFUSED_PLAN);
        EXPECT(s3_pack(no_rates[k], stream, 1879, octets.octets, 0) == S3_REFUSED_PLAN);
        EXPECT(s3_unpack(no_rates[k], octets.octets, 1870, back.octets, 1880) == S3_REFUSED_PLAN);
        EXPECT(s3_unpack(no_rates[k], octets.octets, 1869, back.octets, 0) == S3_REFUSED_PLAN);
    }
    for (size_t off = 0; off < 3; off += 2) {
        EXPECT(s3_pack(1, stream, 1879 + off, octets.octets, 1870) == S3_REFUSED_LENGTH);
        EXPECT(s3_pack(1, stream, 1880, octets.octets, 1869 + off) == S3_REFUSED_LENGTH);
        EXPECT(s3_unpack(1, octets.octets, 1869 + off, back.octets, 1880) == S3_REFUSED_LENGTH);
        EXPECT(s3_unpack(1, octets.octets, 1870, back.octets, 1879 + off) == S3_REFUSED_LENGTH);
    }
    EXPECT(s3_pack(1, stream, 1880, octets.octets, 1870) == S3_REFUSED_SYNC);
    EXPECT(untouched(octets) && untouched(back));
    stream[188 * 9] = 0x47;
}

/* Packets behind a header make the source of a slot, and come back from what is read of it. */
static void through_a_slot(void)
{
    const area source = lend(SOURCE_1), slot = lend(S3_SLOT_OCTETS), read = lend(SOURCE_1);
    const uint16_t *const table = published(1);
    const s3_state state = state_at(lowest, 1, START);
    fill(source.octets, S3_HEADER_OCTETS);
    EXPECT(s3_pack(1, stream, 1880, source.octets + S3_HEADER_OCTETS, DATA_1) == S3_ACCEPTED);
    EXPECT(moved(s3_code_slot(state, table, 278, source.octets, SOURCE_1, slot.octets, 5610), state, 512));
    EXPECT(s3_read_slot(state, table, 278, slot.octets, 5610, read.octets, SOURCE_1).number == S3_ACCEPTED);
    EXPECT(memcmp(read.octets, source.octets, S3_HEADER_OCTETS) == 0);
    EXPECT(s3_unpack(1, read.octets + S3_HEADER_OCTETS, DATA_1, back.octets, 1880) == S3_ACCEPTED);
    EXPECT(memcmp(back.octets, stream, 1880) == 0);
}

void test_packets(void)
{
    octets = lend(187 * 27);
    back = lend(S3_PACKET_OCTETS * 27);
    fill(stream, sizeof stream);
    for (size_t k = 0; k < 27; k++) stream[S3_PACKET_OCTETS * k] = 0x47;
    both_ways();
    refusing();
    through_a_slot();
}
