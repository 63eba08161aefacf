#include "checks.h"

#include <stdio.h>
#include <stdlib.h>

static unsigned passed, failed;

/* A fault that every slot or rate shows is printed a few times, not a hundred. */
enum { SHOWN = 20 };

void expect(bool holds, const char *what, const char *file, int line)
{
    if (holds) {
        passed++;
    } else if (failed++ < SHOWN) {
        printf("%s:%d: %s\n", file, line, what);
    }
}

bool all_passed(void)
{
    printf("%u passed, %u failed\n", passed, failed);
    return passed > 0 && failed == 0;
}

static area lent_areas[32];
static size_t lent_count;

area lend(size_t octets)
{
    uint8_t *const whole = (uint8_t *)malloc(octets + 2 * GUARD);
    area lent;
    if (whole == NULL || lent_count == COUNT(lent_areas)) {
        puts("there is no room for an area");
        exit(2);
    }
    lent.octets = whole + GUARD;
    lent.size = octets;
    put_found(lent);
    lent_areas[lent_count++] = lent;
    return lent;
}

uint16_t *numbers(area lent)
{
    return (uint16_t *)(void *)lent.octets;
}

float *floats(area lent)
{
    return (float *)(void *)lent.octets;
}

void put_found(area lent)
{
    memset(lent.octets - GUARD, FOUND, lent.size + 2 * GUARD);
}

static bool all_are(const uint8_t *octets, size_t count, uint8_t value)
{
    for (size_t i = 0; i < count; i++) {
        if (octets[i] != value) return false;
    }
    return true;
}

bool as_found(const uint8_t *octets, size_t count)
{
    return all_are(octets, count, FOUND);
}

bool zeros(const uint8_t *octets, size_t count)
{
    return all_are(octets, count, 0);
}

bool untouched_from(area lent, size_t from)
{
    return as_found(lent.octets - GUARD, GUARD) && as_found(lent.octets + from, lent.size - from + GUARD);
}

bool untouched(area lent)
{
    return untouched_from(lent, 0);
}

void take_back(void)
{
    while (lent_count > 0) {
        const area lent = lent_areas[--lent_count];
        EXPECT(untouched_from(lent, lent.size));
        free(lent.octets - GUARD);
    }
}

void fill(uint8_t *octets, size_t count)
{
    static uint32_t seed = 1;
    for (size_t i = 0; i < count; i++) {
        seed = seed * 1664525u + 1013904223u;
        octets[i] = (uint8_t)(seed >> 24);
    }
}
