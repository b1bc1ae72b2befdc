/* Synopsis to record and back: fields packed most significant bit first. A record with special slots is a version 2. */
#include "parts.h"

enum {
    VERSION_BITS = 4,
    HEADER_BITS = 55,
    TERM_BITS = 26,
    COUNT_BITS = 10,
    SPECIAL_BITS = 25
};

/* Where a record ends: by its count of terms, and in version 2 by that of special slots. */
struct counts {
    unsigned version;
    int terms;
    int specials;
};

static int bits_of(struct counts counts)
{
    int bits = HEADER_BITS + TERM_BITS * counts.terms;
    return counts.version == 1 ? bits : bits + COUNT_BITS + SPECIAL_BITS * counts.specials;
}

static size_t bytes_of(int bits)
{
    return (size_t)(bits + 7) / 8;
}

static struct counts counts_of(const struct synopsis *synopsis)
{
    struct counts counts = { 1, synopsis->count, 0 };
    for (int slot = 0; slot < synopsis->slots; slot++)
        counts.specials += synopsis->bands[slot] != synopsis->band;
    if (counts.specials > 0)
        counts.version = 2;
    return counts;
}

size_t record_bytes(const struct synopsis *synopsis)
{
    return bytes_of(bits_of(counts_of(synopsis)));
}

struct bit_writer {
    uint8_t *next;
    uint32_t held;
    int bits;
};

static void put(struct bit_writer *to, int width, unsigned number)
{
    to->held = to->held << width | number;
    to->bits += width;
    while (to->bits >= 8) {
        to->bits -= 8;
        *to->next++ = (uint8_t)(to->held >> to->bits);
    }
}

static void put_specials(struct bit_writer *to, const struct synopsis *synopsis, int count)
{
    put(to, COUNT_BITS, (unsigned)count);
    for (int slot = 0; slot < synopsis->slots; slot++) {
        if (synopsis->bands[slot] != synopsis->band) {
            put(to, 9, (unsigned)slot);
            put(to, 16, synopsis->bands[slot]);
        }
    }
}

void write_record(const struct synopsis *synopsis, uint8_t *record)
{
    struct counts counts = counts_of(synopsis);
    struct bit_writer to = { record, 0, 0 };
    put(&to, VERSION_BITS, counts.version);
    put(&to, 9, (unsigned)(synopsis->slots - 1));
    put(&to, 16, (unsigned)synopsis->band);
    put(&to, 16, (uint16_t)synopsis->rest);
    put(&to, COUNT_BITS, (unsigned)synopsis->count);
    for (int i = 0; i < synopsis->count; i++) {
        put(&to, 10, synopsis->terms[i].node);
        put(&to, 16, (uint16_t)synopsis->terms[i].value);
    }
    if (counts.version == 2)
        put_specials(&to, synopsis, counts.specials);
    if (to.bits > 0)
        put(&to, 8 - to.bits, 0);
}

struct bit_reader {
    const uint8_t *next;
    uint32_t held;
    int bits;
};

static unsigned take(struct bit_reader *from, int width)
{
    while (from->bits < width) {
        from->held = from->held << 8 | *from->next++;
        from->bits += 8;
    }
    from->bits -= width;
    return from->held >> from->bits & ((1u << width) - 1);
}

/* The count that starts at a bit. */
static int count_at(const uint8_t *record, int bit)
{
    struct bit_reader from = { record + bit / 8, 0, 0 };
    take(&from, bit % 8);
    return (int)take(&from, COUNT_BITS);
}

/* Reads version and counts; false where the bytes end before a count, or the version is unknown. */
static bool read_counts(const uint8_t *record, size_t length, struct counts *counts)
{
    if (length < bytes_of(HEADER_BITS))
        return false;
    counts->version = record[0] >> 4;
    counts->terms = count_at(record, HEADER_BITS - COUNT_BITS);
    counts->specials = 0;
    if (counts->version != 2)
        return counts->version == 1;
    if (length < bytes_of(bits_of(*counts)))
        return false;
    counts->specials = count_at(record, HEADER_BITS + TERM_BITS * counts->terms);
    return true;
}

static bool is_fill_zero(const uint8_t *record, size_t length, int bits)
{
    int fill = (int)(8 * length) - bits;
    return (record[length - 1] & ((1 << fill) - 1)) == 0;
}

static bool read_terms(struct bit_reader *from, struct synopsis *synopsis)
{
    unsigned last = 0;
    for (int i = 0; i < synopsis->count; i++) {
        unsigned node = take(from, 10);
        int16_t value = (int16_t)take(from, 16);
        if (node <= last || node >= 2 * (unsigned)synopsis->leaves || is_beyond(value))
            return false;
        synopsis->terms[i].node = (uint16_t)node;
        synopsis->terms[i].value = value;
        last = node;
    }
    return true;
}

static bool read_specials(struct bit_reader *from, struct synopsis *synopsis)
{
    int last = -1;
    int count = (int)take(from, COUNT_BITS);
    for (int i = 0; i < count; i++) {
        int slot = (int)take(from, 9);
        int band = (int)take(from, 16);
        if (slot <= last || slot >= synopsis->slots || band > MOST_BAND || band == synopsis->band)
            return false;
        synopsis->bands[slot] = (uint16_t)band;
        last = slot;
    }
    return count > 0;
}

size_t front_bytes(const uint8_t *buffer, size_t length)
{
    struct counts counts;
    if (!read_counts(buffer, length, &counts))
        return 0;
    size_t bytes = bytes_of(bits_of(counts));
    return bytes <= length ? bytes : 0;
}

int read_record(const uint8_t *record, size_t length, struct synopsis *synopsis)
{
    struct counts counts;
    struct bit_reader from = { record, 0, 0 };
    if (!read_counts(record, length, &counts) || length != bytes_of(bits_of(counts)))
        return 7;
    if (!is_fill_zero(record, length, bits_of(counts)))
        return 7;
    take(&from, VERSION_BITS);
    synopsis->slots = (int)take(&from, 9) + 1;
    synopsis->leaves = leaves_over(synopsis->slots);
    synopsis->band = (int)take(&from, 16);
    synopsis->rest = (int16_t)take(&from, 16);
    synopsis->count = (int)take(&from, COUNT_BITS);
    if (is_beyond(synopsis->rest))
        return 2;
    if (synopsis->band > MOST_BAND)
        return 3;
    if (!read_terms(&from, synopsis))
        return 8;
    for (int slot = 0; slot < synopsis->slots; slot++)
        synopsis->bands[slot] = (uint16_t)synopsis->band;
    return counts.version == 1 || read_specials(&from, synopsis) ? 0 : 11;
}
