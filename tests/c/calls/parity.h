/* The bits of a slot, and its parity by document 01, "Checks in the slot", as a second implementation to compare with. A
 * parity table is given as its rows' number and the published numbers. */
#ifndef PARITY_H
#define PARITY_H

#include "checks.h"

unsigned bit(const uint8_t *octets, size_t i);
void flip(uint8_t *octets, size_t i);

/* Makes the parity of a slot anew. */
void new_parity(uint8_t *slot, size_t rows, const uint16_t *table);

/* Puts stuff bits in place of the ones of a coded slot, and makes its parity anew. */
void put_stuff(uint8_t *slot, size_t rows, const uint16_t *table, uint32_t stuff);

/* The lowest position that a bit before the parity reaches: its row's addresses, stepped on to the bit. */
uint32_t lowest_reached(size_t rows, const uint16_t *table, size_t before);

#endif
