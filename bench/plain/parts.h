/* What the parts of the plain version share: limits, packed results, a profile, a synopsis. */
#ifndef PARTS_H
#define PARTS_H

#include <stdbool.h>
#include <stddef.h>
#include <stdint.h>

enum {
    MOST_SLOTS = 512,
    MOST_NODES = 2 * MOST_SLOTS,
    MOST_TERMS = MOST_NODES - 1,
    MOST_VALUE = 20000,
    MOST_BAND = 40000,
    MOST_BUDGET = 1023,
    MOST_STEP = 400,
    MOST_FLOW = 1000
};

static inline uint64_t refused(int refusal)
{
    return (uint64_t)refusal;
}

static inline uint64_t granted(unsigned first, unsigned second, unsigned third)
{
    return (uint64_t)first << 16 | (uint64_t)second << 32 | (uint64_t)third << 48;
}

/* A profile's setpoints, the band that each slot goes by, its own or the common one, and `leaves`, the power of two that the
 * tree stands on. A slot is special where its band is not the common one. */
struct profile {
    int rest;
    int band;
    int slots;
    int leaves;
    int16_t setpoints[MOST_SLOTS];
    uint16_t bands[MOST_SLOTS];
};

struct term {
    uint16_t node;
    int16_t value;
};

struct synopsis {
    int slots;
    int leaves;
    int band;
    int rest;
    int count;
    struct term terms[MOST_TERMS];
    uint16_t bands[MOST_SLOTS];
};

static inline bool is_beyond(int value)
{
    return value < -MOST_VALUE || value > MOST_VALUE;
}

static inline int leaves_over(int slots)
{
    int leaves = 1;
    while (leaves < slots)
        leaves *= 2;
    return leaves;
}

/* Both readers answer with the refusal, 0 for none. */
int read_profile(const uint8_t *text, size_t length, struct profile *profile);
int read_record(const uint8_t *record, size_t length, struct synopsis *synopsis);

size_t record_bytes(const struct synopsis *synopsis);

/* The bytes of the record at the front of a buffer, as its counts say; 0 where the buffer ends before, or the version is unknown. */
size_t front_bytes(const uint8_t *buffer, size_t length);

void write_record(const struct synopsis *synopsis, uint8_t *record);

/* Builds the first of the best synopses; the answer is its greatest error. */
int build(const struct profile *profile, struct synopsis *synopsis);

/* The least band for all slots for which `budget` terms are enough. The profile's bands are lost. */
int least_band(struct profile *profile, int budget);

#endif
