/* Coding and reading a TMCC block, and where its parity broke. */
#include "parity.h"
#include "samples.h"
#include "topics.h"

enum { TABLE_3 = 356, BITS = 9614 }; /* the bits before the 22,066 of the parity */

static const uint16_t *table3;
static uint8_t tmcc[S3_TMCC_OCTETS + 1];
static area block, back;

static uint8_t code(uint32_t mask, uint32_t start, size_t table_length, size_t source_length, size_t block_length)
{
    return s3_code_tmcc(mask, start, table3, table_length, tmcc, source_length, block.octets, block_length);
}

static bool read_as(uint32_t number, uint32_t position, s3_word_answer answer)
{
    return answer.number == number && answer.position == position;
}

static s3_word_answer read_block(uint32_t mask, uint32_t start, size_t table_length, size_t block_length, size_t source_length)
{
    return s3_read_tmcc(mask, start, table3, table_length, block.octets, block_length, back.octets, source_length);
}

/* Masks and starts, of which the register has 15 bits. */
static const struct {
    uint32_t mask, start;
} wrong[] = {{0, 1}, {1u << 13, 1}, {1u << 15, 1}, {3u << 14, 1}, {MASK, 1}, {(1u << 31) | BLOCK_MASK, 1},
             {BLOCK_MASK, 0}, {BLOCK_MASK, 1u << 15}, {BLOCK_MASK, (1u << 31) + 1}, {BLOCK_MASK, UINT32_MAX}};

static void refusing(void)
{
    for (size_t k = 0; k < COUNT(wrong); k++) {
        EXPECT(code(wrong[k].mask, wrong[k].start, TABLE_3 - 1, 1177, 3959) == S3_REFUSED_REGISTER);
        EXPECT(read_as(S3_REFUSED_REGISTER, S3_NO_POSITION, read_block(wrong[k].mask, wrong[k].start, TABLE_3, 3959, 1177)));
    }
    for (size_t off = 0; off < 3; off += 2) {
        EXPECT(code(BLOCK_MASK, START, TABLE_3 - 1, 1177 + off, 3960) == S3_REFUSED_LENGTH);
        EXPECT(code(BLOCK_MASK, START, TABLE_3 - 1, 1178, 3959 + off) == S3_REFUSED_LENGTH);
        EXPECT(read_as(S3_REFUSED_LENGTH, S3_NO_POSITION, read_block(BLOCK_MASK, START, TABLE_3 - 1, 3959 + off, 1178)));
        EXPECT(read_as(S3_REFUSED_LENGTH, S3_NO_POSITION, read_block(BLOCK_MASK, START, TABLE_3 - 1, 3960, 1177 + off)));
    }
    EXPECT(code(BLOCK_MASK, START, TABLE_3 - 1, 1178, 3960) == S3_REFUSED_TABLE);
    EXPECT(read_as(S3_REFUSED_TABLE, S3_NO_POSITION, read_block(BLOCK_MASK, START, TABLE_3 - 1, 3960, 1178)));
    for (uint8_t tail = 1; tail <= 3; tail++) {
        tmcc[S3_TMCC_OCTETS - 1] = (uint8_t)((tmcc[S3_TMCC_OCTETS - 1] & 0xFC) | tail);
        EXPECT(code(BLOCK_MASK, START, TABLE_3, 1178, 3960) == S3_REFUSED_TAIL);
    }
    EXPECT(untouched(block) && untouched(back));
}

static void coding_and_reading(void)
{
    tmcc[S3_TMCC_OCTETS - 1] &= 0xFC;
    EXPECT(code(BLOCK_MASK, START, TABLE_3, 1178, 3960) == S3_ACCEPTED);
    /* Another start: the parity is right all the same. */
    EXPECT(read_as(S3_REFUSED_BCH, S3_NO_POSITION, read_block(BLOCK_MASK, 2, TABLE_3, 3960, 1178)) && untouched(back));
    EXPECT(read_as(S3_ACCEPTED, S3_NO_POSITION, read_block(BLOCK_MASK, START, TABLE_3, 3960, 1178)));
    EXPECT(memcmp(back.octets, tmcc, S3_TMCC_OCTETS) == 0);
}

/* Whether the block with these two bits the other way, or one bit given twice, breaks at a position. */
static bool broken_at(size_t one, size_t other, uint32_t position)
{
    bool told;
    flip(block.octets, one);
    if (other != one) flip(block.octets, other);
    told = read_as(S3_REFUSED_PARITY, position, read_block(BLOCK_MASK, START, TABLE_3, 3960, 1178));
    flip(block.octets, one);
    if (other != one) flip(block.octets, other);
    return told;
}

/* A block's bits stand behind 1,870 zeros of the parity input. */
static void where_parity_broke(void)
{
    static const size_t alone[] = {0, 1, 11033, 22065}, before[] = {0, 1, 373, 374, 9421, 9422, 9613};
    put_found(back);
    for (size_t k = 0; k < COUNT(alone); k++) EXPECT(broken_at(BITS + alone[k], BITS + 22065, (uint32_t)alone[k]));
    for (size_t k = 0; k < COUNT(before); k++) {
        const uint32_t reached = lowest_reached(ROWS_3, table3, 1870 + before[k]);
        EXPECT(broken_at(before[k], before[k], reached));
        EXPECT(broken_at(before[k], BITS + reached - 1, reached - 1));
        EXPECT(broken_at(before[k], BITS + reached, reached + 1));
    }
    EXPECT(untouched(back));
}

/* A block as labels, and back. */
static void labels_of_a_block(void)
{
    const area labels = lend(S3_TMCC_BLOCK_LABELS), again = lend(S3_TMCC_BLOCK_OCTETS);
    for (size_t off = 0; off < 3; off += 2) {
        EXPECT(s3_tmcc_labels(block.octets, 3959 + off, labels.octets, 31680) == S3_REFUSED_LENGTH);
        EXPECT(s3_tmcc_labels(block.octets, 3960, labels.octets, 31679 + off) == S3_REFUSED_LENGTH);
        EXPECT(s3_tmcc_of_labels(labels.octets, 31679 + off, again.octets, 3960) == S3_REFUSED_LENGTH);
        EXPECT(s3_tmcc_of_labels(labels.octets, 31680, again.octets, 3959 + off) == S3_REFUSED_LENGTH);
    }
    EXPECT(untouched(labels) && s3_tmcc_labels(block.octets, 3960, labels.octets, 31680) == S3_ACCEPTED);
    EXPECT(labels.octets[0] == bit(block.octets, 0) && labels.octets[31679] == bit(block.octets, 31679));
    labels.octets[31679] ^= 2;
    EXPECT(s3_tmcc_of_labels(labels.octets, 31680, again.octets, 3960) == S3_REFUSED_LABEL && untouched(again));
    labels.octets[31679] ^= 2;
    EXPECT(s3_tmcc_of_labels(labels.octets, 31680, again.octets, 3960) == S3_ACCEPTED);
    EXPECT(memcmp(again.octets, block.octets, S3_TMCC_BLOCK_OCTETS) == 0);
}

void test_tmcc(void)
{
    block = lend(S3_TMCC_BLOCK_OCTETS);
    back = lend(S3_TMCC_OCTETS);
    table3 = published(3);
    fill(tmcc, sizeof tmcc);
    refusing();
    coding_and_reading();
    where_parity_broke();
    labels_of_a_block();
}
