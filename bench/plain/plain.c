/* The panel's calls in plain C: the yardstick for speed, and a second opinion on every result. */
#include "plain.h"

#include "parts.h"

#include <stdlib.h>
#include <string.h>

/* The value of the lowest term on the path from a node up to the root. Terms ascend, so both go down together. */
static int restored(const struct synopsis *synopsis, unsigned node)
{
    for (int i = synopsis->count - 1; i >= 0; i--) {
        while (node > synopsis->terms[i].node)
            node /= 2;
        if (node == synopsis->terms[i].node)
            return synopsis->terms[i].value;
    }
    return synopsis->rest;
}

/* Hands values down from the root to every node; what comes in at the root stands at 0. */
static void restore_nodes(const struct synopsis *synopsis, int16_t *values)
{
    int next = 0;
    values[0] = (int16_t)synopsis->rest;
    for (int node = 1; node < 2 * synopsis->leaves; node++) {
        values[node] = values[node / 2];
        if (next < synopsis->count && synopsis->terms[next].node == node)
            values[node] = synopsis->terms[next++].value;
    }
}

/* Whether every error is within its slot's band: then the greatest error and the least of band minus error, else the lowest
 * slot where it is not. */
struct verdict {
    bool kept;
    int error;
    int margin;
    int slot;
};

/* The bands are the synopsis's. */
static struct verdict check(const struct profile *profile, const struct synopsis *synopsis)
{
    int16_t values[MOST_NODES];
    struct verdict verdict = { true, 0, MOST_BAND, 0 };
    restore_nodes(synopsis, values);
    for (int slot = 0; slot < profile->slots; slot++) {
        int error = abs(profile->setpoints[slot] - values[profile->leaves + slot]);
        int margin = synopsis->bands[slot] - error;
        if (margin < 0)
            return (struct verdict){ false, 0, 0, slot };
        if (error > verdict.error)
            verdict.error = error;
        if (margin < verdict.margin)
            verdict.margin = margin;
    }
    return verdict;
}

uint64_t plain_text_to_record(const uint8_t *text, size_t text_len, uint8_t *record, size_t record_len)
{
    struct profile profile;
    struct synopsis synopsis;
    int refusal = read_profile(text, text_len, &profile);
    if (refusal != 0)
        return refused(refusal);
    int error = build(&profile, &synopsis);
    size_t bytes = record_bytes(&synopsis);
    if (record_len < bytes)
        return refused(6);
    write_record(&synopsis, record);
    return granted((unsigned)bytes, (unsigned)synopsis.count, (unsigned)error);
}

uint64_t plain_record_slot(const uint8_t *record, size_t record_len, uint64_t slot)
{
    struct synopsis synopsis;
    int refusal = read_record(record, record_len, &synopsis);
    if (refusal != 0)
        return refused(refusal);
    if (slot >= (uint64_t)synopsis.slots)
        return refused(10);
    return granted((uint16_t)restored(&synopsis, (unsigned)synopsis.leaves + (unsigned)slot), 0, 0);
}

uint64_t plain_record_against_text(const uint8_t *record, size_t record_len, const uint8_t *text, size_t text_len)
{
    struct profile profile;
    struct synopsis synopsis;
    int refusal = read_profile(text, text_len, &profile);
    if (refusal == 0)
        refusal = read_record(record, record_len, &synopsis);
    if (refusal != 0)
        return refused(refusal);
    if (synopsis.slots != profile.slots)
        return refused(9);
    struct verdict verdict = check(&profile, &synopsis);
    return granted(verdict.kept, (unsigned)verdict.error, (unsigned)verdict.slot);
}

static bool has_specials(const struct profile *profile)
{
    for (int slot = 0; slot < profile->slots; slot++)
        if (profile->bands[slot] != profile->band)
            return true;
    return false;
}

uint64_t plain_least_band_of_text(const uint8_t *text, size_t text_len, uint64_t budget)
{
    struct profile profile;
    int refusal = read_profile(text, text_len, &profile);
    if (refusal != 0)
        return refused(refusal);
    if (has_specials(&profile))
        return refused(12);
    if (budget > MOST_BUDGET)
        return refused(5);
    return granted((unsigned)least_band(&profile, (int)budget), 0, 0);
}

/* What a buffer offers: the bytes of its record, 0 where that is no candidate. */
struct offer {
    size_t bytes;
    int count;
    int margin;
};

static struct offer read_offer(const struct profile *profile, const uint8_t *buffer, size_t length)
{
    struct offer none = { 0, 0, 0 };
    struct synopsis synopsis;
    size_t bytes = front_bytes(buffer, length);
    if (bytes == 0 || read_record(buffer, bytes, &synopsis) != 0)
        return none;
    if (synopsis.slots != profile->slots || synopsis.band != profile->band || synopsis.rest != profile->rest)
        return none;
    if (memcmp(synopsis.bands, profile->bands, (size_t)profile->slots * sizeof profile->bands[0]) != 0)
        return none;
    struct verdict verdict = check(profile, &synopsis);
    if (!verdict.kept)
        return none;
    return (struct offer){ bytes, synopsis.count, verdict.margin };
}

uint64_t plain_better_offer(const uint8_t *text, size_t text_len, const uint8_t *first, size_t first_len, const uint8_t *second, size_t second_len)
{
    struct profile profile;
    if (read_profile(text, text_len, &profile) != 0)
        return granted(0, 0, 0);
    struct offer one = read_offer(&profile, first, first_len);
    struct offer other = read_offer(&profile, second, second_len);
    bool better = other.count < one.count || (other.count == one.count && other.margin > one.margin);
    if (other.bytes > 0 && (one.bytes == 0 || better))
        return granted(2, (unsigned)other.bytes, 0);
    return granted(one.bytes > 0, (unsigned)one.bytes, 0);
}
