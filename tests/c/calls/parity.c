#include "parity.h"

unsigned bit(const uint8_t *octets, size_t i)
{
    return octets[i / 8] >> (7 - i % 8) & 1u;
}

void flip(uint8_t *octets, size_t i)
{
    octets[i / 8] ^= (uint8_t)(1u << (7 - i % 8));
}

void new_parity(uint8_t *slot, size_t rows, const uint16_t *table)
{
    static uint8_t sums[8 * S3_SLOT_OCTETS];
    const uint16_t *row = table;
    const size_t step = 120 - rows, positions = 374 * step, covered = 374 * rows;
    memset(sums, 0, sizeof sums);
    for (size_t r = 0; r < rows; r++, row += 1 + row[0]) {
        for (size_t m = 0; m < 374; m++) {
            for (size_t k = 1; k <= row[0]; k++) sums[(row[k] + m * step) % positions] ^= (uint8_t)bit(slot, 374 * r + m);
        }
    }
    for (size_t i = 0; i < positions; i++) {
        if (i > 0) sums[i] ^= sums[i - 1];
        if (bit(slot, covered + i) != sums[i]) flip(slot, covered + i);
    }
}

void put_stuff(uint8_t *slot, size_t rows, const uint16_t *table, uint32_t stuff)
{
    for (size_t k = 0; k < 6; k++) {
        if ((stuff >> (5 - k) & 1u) == 0) flip(slot, 374 * rows - 6 + k);
    }
    new_parity(slot, rows, table);
}

uint32_t lowest_reached(size_t rows, const uint16_t *table, size_t before)
{
    const uint16_t *row = table;
    const size_t step = 120 - rows, m = before % 374;
    uint32_t found = S3_NO_POSITION;
    for (size_t r = before / 374; r > 0; r--) row += 1 + row[0];
    for (size_t k = 1; k <= row[0]; k++) {
        const uint32_t reached = (uint32_t)((row[k] + m * step) % (374 * step));
        if (reached < found) found = reached;
    }
    return found;
}
