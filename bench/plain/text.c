/* Profile text to rest value, band, setpoints and the bands that the slots go by. */
#include "parts.h"

struct text {
    const uint8_t *next;
    const uint8_t *end;
};

static bool skip(struct text *text, uint8_t byte)
{
    if (text->next == text->end || *text->next != byte)
        return false;
    text->next++;
    return true;
}

/* Appends up to `most` digits to a number and tells how many there were. */
static int read_digits(struct text *text, int most, int *number)
{
    int digits = 0;
    while (digits < most && text->next < text->end && *text->next >= '0' && *text->next <= '9') {
        *number = 10 * *number + (*text->next - '0');
        text->next++;
        digits++;
    }
    return digits;
}

/* Reads a third digit after the comma, if there is one; the number has no sign yet, so from 5 on it counts one hundredth more. */
static int read_carry(struct text *text)
{
    int third = 0;
    read_digits(text, 1, &third);
    return third >= 5;
}

/* Reads a number as hundredths; false where there is none. */
static bool read_number(struct text *text, int *value)
{
    int number = 0;
    bool negative = skip(text, '-');
    if (read_digits(text, 3, &number) == 0)
        return false;
    bool comma = skip(text, ',');
    if (comma || skip(text, '.')) {
        int decimals = read_digits(text, 2, &number);
        if (decimals == 0)
            return false;
        if (decimals == 1)
            number *= 10;
        else if (comma)
            number += read_carry(text);
    } else {
        number *= 100;
    }
    *value = negative ? -number : number;
    return true;
}

/* Reads one line; false where it is not a number with its line end. */
static bool read_line(struct text *text, int *value)
{
    return read_number(text, value) && skip(text, '\n');
}

/* Reads a setpoint line, perhaps with a space and the slot's own band. */
static bool read_slot_line(struct text *text, int *setpoint, int *band)
{
    if (!read_number(text, setpoint))
        return false;
    if (skip(text, ' ') && !read_number(text, band))
        return false;
    return skip(text, '\n');
}

static bool is_band(int value)
{
    return value >= 0 && value <= MOST_BAND;
}

static int read_setpoints(struct text *text, struct profile *profile)
{
    profile->slots = 0;
    while (text->next < text->end) {
        int setpoint;
        int band = profile->band;
        if (profile->slots == MOST_SLOTS)
            return 4;
        if (!read_slot_line(text, &setpoint, &band))
            return 1;
        if (is_beyond(setpoint))
            return 2;
        if (!is_band(band))
            return 3;
        profile->setpoints[profile->slots] = (int16_t)setpoint;
        profile->bands[profile->slots] = (uint16_t)band;
        profile->slots++;
    }
    return profile->slots == 0 ? 4 : 0;
}

int read_profile(const uint8_t *bytes, size_t length, struct profile *profile)
{
    struct text text = { bytes, bytes + length };
    if (length == 0)
        return 4;
    if (!read_line(&text, &profile->rest))
        return 1;
    if (is_beyond(profile->rest))
        return 2;
    if (text.next == text.end)
        return 4;
    if (!read_line(&text, &profile->band))
        return 1;
    if (!is_band(profile->band))
        return 3;

    int refusal = read_setpoints(&text, profile);
    if (refusal != 0)
        return refusal;
    profile->leaves = leaves_over(profile->slots);
    return 0;
}
