/* What all topics share: checks that are counted, and areas to lend. */
#ifndef CHECKS_H
#define CHECKS_H

#include "s3frame.h"

#include <stdbool.h>
#include <string.h>

#define COUNT(a) (sizeof(a) / sizeof((a)[0]))

/* Counts whether a test holds, and prints one that does not. */
#define EXPECT(test) expect((test), #test, __FILE__, __LINE__)
void expect(bool holds, const char *what, const char *file, int line);

/* Prints the counts; whether all tests held. */
bool all_passed(void);

/* An area to lend. It lies between guards that no call may touch; a length that is too large by a little reaches into them, so
 * that it still says what there is. All octets are FOUND at first. */
#define FOUND 0xA5
#define GUARD 64
typedef struct area {
    uint8_t *octets;
    size_t size;
} area;
area lend(size_t octets);
uint16_t *numbers(area lent);
float *floats(area lent);

/* Makes all octets FOUND again. */
void put_found(area lent);

/* Whether an area and its guards are as found, all of it or from an octet on. */
bool untouched(area lent);
bool untouched_from(area lent, size_t from);

/* Whether octets are all FOUND, or all zeros. */
bool as_found(const uint8_t *octets, size_t count);
bool zeros(const uint8_t *octets, size_t count);

/* Ends the use of all areas, whose guards must be as found: so calls that are accepted wrote nothing outside them either. */
void take_back(void);

/* Octets without order, the same in each run. */
void fill(uint8_t *octets, size_t count);

#endif
