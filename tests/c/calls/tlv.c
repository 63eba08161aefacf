/* TLV packets into slots of rate 1, and back. */
#include "samples.h"
#include "topics.h"

/* Three slots. Their packets are of 1,004, 1,504, 304, 4 and 2,004 octets, the fourth an empty null: they begin at 0, 1004,
 * 2508, 2812 and 2816 and end at 4820. */
enum { THREE_SLOTS = 3 * DATA_1, PACKETS = 4820 };

static uint8_t packets[PACKETS + 1];
static area slots, begins, back;

static size_t put_packet(uint8_t *at, uint8_t type, size_t body)
{
    at[0] = 0x7F;
    at[1] = type;
    at[2] = (uint8_t)(body >> 8);
    at[3] = (uint8_t)body;
    fill(at + 4, body);
    return 4 + body;
}

static void put_packets(void)
{
    static const struct {
        uint8_t type;
        size_t body;
    } all[] = {{1, 1000}, {0xFE, 1500}, {3, 300}, {0xFF, 0}, {2, 2000}};
    size_t end = 0;
    for (size_t k = 0; k < COUNT(all); k++) end += put_packet(packets + end, all[k].type, all[k].body);
    EXPECT(end == PACKETS);
}

static s3_fill_answer fill_slots(size_t length, size_t taken, size_t owed, size_t octets, size_t count)
{
    return s3_tlv_fill(1, packets, length, taken, owed, slots.octets, octets, numbers(begins), count);
}

static bool fills(s3_fill_answer answer, size_t taken, size_t owed)
{
    return answer.number == S3_ACCEPTED && answer.taken == taken && answer.owed == owed;
}

/* The refusal of an answer whose other numbers are 0, as they must be. */
static uint32_t refusal(s3_fill_answer answer)
{
    return answer.taken == 0 && answer.owed == 0 ? answer.number : UINT32_MAX;
}

static void wrong_numbers_to_fill(void)
{
    static const size_t past[] = {PACKETS + 1, (size_t)1 << 32, ((size_t)1 << 32) + PACKETS, SIZE_MAX};
    static const size_t too_many[] = {4, 256, 65536, (size_t)1 << 32, SIZE_MAX};
    const size_t all = PACKETS, octets = THREE_SLOTS;
    EXPECT(refusal(fill_slots(all, 0, 0, 0, 0)) == S3_REFUSED_LENGTH);
    for (size_t off = 0; off < 3; off += 2) {
        EXPECT(refusal(fill_slots(all, 0, 0, octets - 1 + off, 3)) == S3_REFUSED_LENGTH);
        EXPECT(refusal(fill_slots(all, 0, 0, octets, 2 + off)) == S3_REFUSED_LENGTH);
    }
    EXPECT(refusal(fill_slots(all, 0, 0, DATA_1, 3)) == S3_REFUSED_LENGTH);
    for (size_t k = 0; k < COUNT(past); k++) EXPECT(refusal(fill_slots(all, past[k], 0, octets, 3)) == S3_REFUSED_LENGTH);
    for (size_t k = 0; k < COUNT(too_many); k++) {
        EXPECT(refusal(fill_slots(all, 0, too_many[k], octets, 3)) == S3_REFUSED_LENGTH);
        EXPECT(refusal(fill_slots(all - 1, all - 1, too_many[k], octets, 3)) == S3_REFUSED_LENGTH);
    }
    EXPECT(refusal(fill_slots(all, 1, 1, octets, 3)) == S3_REFUSED_LENGTH);
    EXPECT(refusal(fill_slots(all, all - 1, 3, octets, 3)) == S3_REFUSED_LENGTH);
}

static void wrong_packets_to_fill(void)
{
    EXPECT(refusal(fill_slots(PACKETS - 1, 0, 0, THREE_SLOTS, 3)) == S3_REFUSED_PACKET);
    EXPECT(refusal(fill_slots(PACKETS + 1, 0, 0, THREE_SLOTS, 3)) == S3_REFUSED_PACKET);
    packets[2813] = 4;
    EXPECT(refusal(fill_slots(PACKETS, 0, 0, THREE_SLOTS, 3)) == S3_REFUSED_PACKET);
    EXPECT(refusal(fill_slots(PACKETS, PACKETS, 0, THREE_SLOTS, 3)) == S3_REFUSED_PACKET);
    put_packets();
    packets[1005] = 0xFF; /* a null packet whose body is not all 0xFF */
    EXPECT(refusal(fill_slots(PACKETS, 0, 0, THREE_SLOTS, 3)) == S3_REFUSED_PACKET);
    put_packets();
    for (size_t k = 0; k < COUNT(no_rates); k++) {
        EXPECT(refusal(s3_tlv_fill(no_rates[k], packets, PACKETS, 0, 0, slots.octets, THREE_SLOTS, numbers(begins), 3))
               == S3_REFUSED_PLAN);
        EXPECT(refusal(s3_tlv_fill(no_rates[k], packets, PACKETS - 1, 0, 4, slots.octets, 0, numbers(begins), 0))
               == S3_REFUSED_PLAN);
    }
}

static void filling(void)
{
    static uint8_t once[THREE_SLOTS];
    static const uint8_t fillers[] = {0x7F, 0xFF, 0, 0, 0x7F, 0xFF};
    const uint16_t *const begin = numbers(begins);
    EXPECT(untouched(slots) && untouched(begins));
    EXPECT(fills(fill_slots(PACKETS, 0, 0, THREE_SLOTS, 3), PACKETS, 2));
    EXPECT(memcmp(slots.octets, packets, PACKETS) == 0 && memcmp(slots.octets + PACKETS, fillers, 6) == 0);
    EXPECT(memcmp(slots.octets + THREE_SLOTS - 6, fillers, 6) == 0);
    EXPECT(begin[0] == 0 && begin[1] == 2508 - DATA_1 && begin[2] == PACKETS - 2 * DATA_1);
    memcpy(once, slots.octets, sizeof once);
    /* The last slot alone: what was taken in the two before is not filled again. */
    EXPECT(fills(fill_slots(PACKETS, 0, 0, 2 * DATA_1, 2), 2 * DATA_1, 0));
    EXPECT(fills(fill_slots(PACKETS, 2 * DATA_1, 0, DATA_1, 1), PACKETS, 2));
    EXPECT(memcmp(slots.octets, once + 2 * DATA_1, DATA_1) == 0 && begin[0] == 1080);
    /* Nothing is left but the two octets owed. */
    EXPECT(fills(fill_slots(PACKETS, PACKETS, 2, DATA_1, 1), PACKETS, 0));
    EXPECT(memcmp(slots.octets, fillers + 2, 4) == 0 && begin[0] == 2);
    EXPECT(fills(fill_slots(0, 0, 1, DATA_1, 1), 0, 3) && begin[0] == 1);
    EXPECT(fills(fill_slots(0, 0, 3, DATA_1, 1), 0, 1) && begin[0] == 3);
    /* From the second octet of a packet on: it ends in the slot, or nothing begins there. */
    EXPECT(fills(fill_slots(1004, 1, 0, DATA_1, 1), 1004, 1) && begin[0] == 1003);
    EXPECT(fills(fill_slots(PACKETS, 2817, 0, DATA_1, 1), 4687, 0) && begin[0] == S3_NO_BEGIN);
    EXPECT(fills(fill_slots(PACKETS, 0, 0, THREE_SLOTS, 3), PACKETS, 2) && memcmp(slots.octets, once, sizeof once) == 0);
}

static s3_read_answer read_slots(const uint8_t *lost, uint32_t first)
{
    put_found(back);
    return s3_tlv_read(1, slots.octets, THREE_SLOTS, numbers(begins), 3, lost, 3, first, back.octets, THREE_SLOTS);
}

/* Whether the packets that come back are those of these places in `packets`, and the rest is left as found. */
static bool reads(const uint8_t *lost, uint32_t first, size_t from, size_t to, size_t unfinished)
{
    const s3_read_answer answer = read_slots(lost, first);
    return answer.number == S3_ACCEPTED && answer.written == to - from && answer.unfinished == unfinished
        && memcmp(back.octets, packets + from, to - from) == 0 && untouched_from(back, to - from);
}

static void reading(void)
{
    static const uint8_t sound[] = {0, 0, 0}, second[] = {0, 1, 0}, third[] = {0, 0, 1}, all[] = {1, 1, 1};
    const s3_read_answer answer = read_slots(sound, S3_NO_BEGIN);
    /* All packets without the empty null; a filler is cut by the slots' end. */
    EXPECT(answer.number == S3_ACCEPTED && answer.written == PACKETS - 4 && answer.unfinished == 5608);
    EXPECT(memcmp(back.octets, packets, 2812) == 0 && memcmp(back.octets + 2812, packets + 2816, 2004) == 0);
    EXPECT(untouched_from(back, PACKETS - 4));
    EXPECT(reads(third, 0, 0, 2812, THREE_SLOTS) && reads(third, 1004, 1004, 2812, THREE_SLOTS));
    EXPECT(reads(all, 0, 0, 0, THREE_SLOTS));
    memset(slots.octets + DATA_1, 0x7F, DATA_1); /* a lost slot's octets are not looked at */
    EXPECT(reads(second, S3_NO_BEGIN, 0, 1004, 5608));
    memcpy(slots.octets + DATA_1, packets + DATA_1, DATA_1);
    slots.octets[1] = 4; /* a wrong head loses the rest of its slot */
    slots.octets[2817] = 4;
    EXPECT(reads(sound, S3_NO_BEGIN, 2508, 2812, 5608));
    slots.octets[2508] = 0;
    EXPECT(reads(sound, S3_NO_BEGIN, 0, 0, 5608));
}

/* Lengths of slots, reports, marks and packets, and the first octet. */
static uint32_t refused_read(size_t octets, size_t reports, size_t marks, uint32_t first, size_t room)
{
    static const uint8_t lost[] = {0, 1, 0, 0};
    const s3_read_answer answer =
        s3_tlv_read(1, slots.octets, octets, numbers(begins), reports, lost, marks, first, back.octets, room);
    return answer.written == 0 && answer.unfinished == 0 ? answer.number : UINT32_MAX;
}

static void wrong_lengths_to_read(void)
{
    static const uint32_t firsts[] = {DATA_1, 65534, 65536, 65536 + 1, UINT32_MAX};
    const size_t octets = THREE_SLOTS;
    EXPECT(refused_read(0, 0, 0, 0, 0) == S3_REFUSED_LENGTH);
    for (size_t off = 0; off < 3; off += 2) {
        EXPECT(refused_read(octets - 1 + off, 3, 3, 0, octets - 1 + off) == S3_REFUSED_LENGTH);
        EXPECT(refused_read(octets, 2 + off, 3, 0, octets) == S3_REFUSED_LENGTH);
        EXPECT(refused_read(octets, 3, 2 + off, 0, octets) == S3_REFUSED_LENGTH);
        EXPECT(refused_read(octets, 3, 3, 0, octets - 1 + off) == S3_REFUSED_LENGTH);
    }
    for (size_t k = 0; k < COUNT(firsts); k++) EXPECT(refused_read(octets, 3, 3, firsts[k], octets) == S3_REFUSED_LENGTH);
    numbers(begins)[1] = DATA_1; /* of a lost slot */
    EXPECT(refused_read(octets, 3, 3, 0, octets) == S3_REFUSED_LENGTH);
    numbers(begins)[1] = 0;
}

static void refusing_to_read(void)
{
    static const uint8_t sound[] = {0, 0, 0}, marks[] = {2, 128, 255};
    put_found(back);
    wrong_lengths_to_read();
    for (size_t k = 0; k < COUNT(marks); k++) {
        const uint8_t lost[] = {0, 0, marks[k]};
        const s3_read_answer answer =
            s3_tlv_read(1, slots.octets, THREE_SLOTS, numbers(begins), 3, lost, 3, 0, back.octets, THREE_SLOTS);
        EXPECT(answer.number == S3_REFUSED_LENGTH && answer.written == 0 && answer.unfinished == 0);
    }
    for (size_t k = 0; k < COUNT(no_rates); k++) {
        const s3_read_answer right =
            s3_tlv_read(no_rates[k], slots.octets, THREE_SLOTS, numbers(begins), 3, sound, 3, 0, back.octets, THREE_SLOTS);
        const s3_read_answer wrong =
            s3_tlv_read(no_rates[k], slots.octets, 0, numbers(begins), 3, marks, 3, 65536, back.octets, 1);
        EXPECT(right.number == S3_REFUSED_PLAN && right.written == 0 && right.unfinished == 0);
        EXPECT(wrong.number == S3_REFUSED_PLAN && wrong.written == 0 && wrong.unfinished == 0);
    }
    EXPECT(untouched(back));
    EXPECT(read_slots(sound, 0).number == S3_ACCEPTED);
}

void test_tlv(void)
{
    slots = lend(THREE_SLOTS);
    begins = lend(3 * sizeof(uint16_t));
    back = lend(THREE_SLOTS);
    put_packets();
    wrong_numbers_to_fill();
    wrong_packets_to_fill();
    filling();
    reading();
    refusing_to_read();
}
