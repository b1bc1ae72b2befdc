/* Makes inputs, calls every function of panel.h with them and prints the results and the bytes of each record that is
 * built. It prints the same on every machine, or the library does not do the same there.
 *
 * The benchmark's inputs stand in benchmark.h, which firmware/test writes from bench/cases.py. */
#include "panel.h"
#include "platform.h"

#include <stdbool.h>
#include <string.h>

enum call { TEXT_TO_RECORD, RECORD_SLOT, RECORD_AGAINST_TEXT, LEAST_BAND_OF_TEXT, BETTER_OFFER, FLOW_OF_STEP, STEP_FOR_FLOW, CALLS };

static const char *const CALL_NAMES[CALLS] = {
    "text_to_record", "record_slot", "record_against_text", "least_band_of_text", "better_offer", "flow_of_step",
    "step_for_flow"
};

/* A row of the benchmark: its records are made elsewhere, or both are the one built of the text of an earlier row. */
struct row {
    const char *name;
    enum call call;
    uint64_t number;
    const uint8_t *text;
    size_t text_len;
    const uint8_t *record;
    size_t record_len;
    const uint8_t *second;
    size_t second_len;
    int built_by;
};

#include "benchmark.h"

enum { PAINT = 0xA5 };

/* The request that is made, and its result. */
static enum call asked;
static const uint8_t *text;
static size_t text_len;
static const uint8_t *record;
static size_t record_len;
static const uint8_t *second;
static size_t second_len;
static uint64_t number;
static size_t destination_len;
static uint64_t result;

/* A byte more than the longest record that is built. */
static uint8_t built[PANEL_MOST_BUILT_BYTES + 1];
static uint8_t changed[sizeof built];
static uint8_t typed[PANEL_MOST_TEXT_BYTES + PANEL_LONGEST_SLOT_LINE];

static unsigned requests_made;
static struct taken most[CALLS];

/* A line of output; a longer one goes out in parts. */
static char line[80];
static size_t line_len;

static void send_line(void (*out)(const char *))
{
    line[line_len] = 0;
    out(line);
    line_len = 0;
}

static void add_character(char character)
{
    if (line_len + 1 == sizeof line)
        send_line(print);
    line[line_len++] = character;
}

static void add_text(const char *characters)
{
    while (*characters != 0)
        add_character(*characters++);
}

static void add_number(uint32_t value)
{
    if (value >= 10)
        add_number(value / 10);
    add_character((char)('0' + value % 10));
}

static void add_byte(uint8_t byte)
{
    static const char digits[] = "0123456789abcdef";
    add_character(digits[byte / 16]);
    add_character(digits[byte % 16]);
}

static void print_figures(const char *name, struct taken taken)
{
    add_number(taken.instructions);
    add_character(' ');
    add_number(taken.stack);
    add_character(' ');
    add_text(name);
    add_character('\n');
    send_line(print_figure);
}

static void call(void)
{
    switch (asked) {
    case TEXT_TO_RECORD:
        result = panel_text_to_record(text, text_len, built, destination_len);
        break;
    case RECORD_SLOT:
        result = panel_record_slot(record, record_len, number);
        break;
    case RECORD_AGAINST_TEXT:
        result = panel_record_against_text(record, record_len, text, text_len);
        break;
    case LEAST_BAND_OF_TEXT:
        result = panel_least_band_of_text(text, text_len, number);
        break;
    case BETTER_OFFER:
        result = panel_better_offer(text, text_len, record, record_len, second, second_len);
        break;
    case FLOW_OF_STEP:
        result = panel_flow_of_step(number);
        break;
    default:
        result = panel_step_for_flow(number);
    }
}

static void print_result(void)
{
    add_text(CALL_NAMES[asked]);
    for (unsigned field = 0; field < 4; field++) {
        add_character(' ');
        add_number(panel_field(result, field));
    }
    if (asked == TEXT_TO_RECORD) {
        size_t used = sizeof built;
        add_character(' ');
        while (used > 0 && built[used - 1] == PAINT)
            used--;
        for (size_t i = 0; i < used; i++)
            add_byte(built[i]);
    }
    add_character('\n');
    send_line(print);
}

static struct taken ask(enum call which)
{
    asked = which;
    if (which == TEXT_TO_RECORD)
        memset(built, PAINT, sizeof built);
    struct taken taken = measured(call);
    if (most[which].instructions < taken.instructions)
        most[which].instructions = taken.instructions;
    if (most[which].stack < taken.stack)
        most[which].stack = taken.stack;
    requests_made++;
    print_result();
    return taken;
}

static void ask_slot(uint64_t slot)
{
    number = slot;
    ask(RECORD_SLOT);
}

static void ask_least_band(uint64_t budget)
{
    number = budget;
    ask(LEAST_BAND_OF_TEXT);
}

static void ask_air(uint64_t step_or_flow)
{
    number = step_or_flow;
    ask(FLOW_OF_STEP);
    ask(STEP_FOR_FLOW);
}

/* The record and another one as offers for the text, each of them first once. */
static void ask_offers(const uint8_t *other, size_t other_len)
{
    const uint8_t *own = record;
    size_t own_len = record_len;
    second = other;
    second_len = other_len;
    ask(BETTER_OFFER);
    record = other;
    record_len = other_len;
    second = own;
    second_len = own_len;
    ask(BETTER_OFFER);
    record = own;
    record_len = own_len;
}

/* Builds the record of the text and takes it as the record that is asked about. */
static struct taken build(void)
{
    destination_len = sizeof built;
    struct taken taken = ask(TEXT_TO_RECORD);
    record = built;
    record_len = panel_bytes_written(result);
    return taken;
}

/* All calls on a profile's text and on the record that is built of it. */
static void fire(unsigned slots)
{
    build();
    ask(RECORD_AGAINST_TEXT);
    ask_offers(built, sizeof built);
    ask_slot(0);
    ask_slot(slots / 3);
    ask_slot(slots / 2);
    ask_slot(slots - 1);
    ask_slot(slots);
    ask_least_band(0);
    ask_least_band(1);
    ask_least_band(slots / 4);
}

static struct taken ask_row(const struct row *row)
{
    text = row->text;
    text_len = row->text_len;
    record = row->record;
    record_len = row->record_len;
    second = row->second;
    second_len = row->second_len;
    number = row->number;
    if (row->call == TEXT_TO_RECORD)
        return build();
    if (row->built_by >= 0) {
        ask_row(&BENCHMARK[row->built_by]);
        text = row->text;
        text_len = row->text_len;
        second = built;
        second_len = record_len;
        number = row->number;
    }
    return ask(row->call);
}

static void ask_benchmark(void)
{
    for (size_t i = 0; i < sizeof BENCHMARK / sizeof BENCHMARK[0]; i++) {
        print_figures(BENCHMARK[i].name, ask_row(&BENCHMARK[i]));
        if (BENCHMARK[i].call == TEXT_TO_RECORD) {
            ask(RECORD_AGAINST_TEXT);
            ask_slot(0);
            ask_slot(256);
        }
        if (BENCHMARK[i].call == BETTER_OFFER)
            ask_offers(second, second_len);
    }
}

/* Numbers without order (Marsaglia's xorshift). */
static uint32_t state = 2463534242u;

static uint32_t below(uint32_t limit)
{
    state ^= state << 13;
    state ^= state >> 17;
    state ^= state << 5;
    return state % limit;
}

static void type_character(char character)
{
    typed[text_len++] = (uint8_t)character;
}

/* Types a value in hundredths; one in four has a third digit, which may round it away from zero. */
static void type_value(int32_t value)
{
    uint32_t size = (uint32_t)(value < 0 ? -value : value);
    if (value < 0)
        type_character('-');
    if (size >= 10000)
        type_character((char)('0' + size / 10000));
    if (size >= 1000)
        type_character((char)('0' + size / 1000 % 10));
    type_character((char)('0' + size / 100 % 10));
    type_character(',');
    type_character((char)('0' + size / 10 % 10));
    type_character((char)('0' + size % 10));
    if (below(4) == 0)
        type_character((char)('0' + below(10)));
}

static void type_line(int32_t value)
{
    type_value(value);
    type_character('\n');
}

enum shape { ANYWHERE, NEAR, IN_STEPS, OF_THREE_VALUES, SHAPES };

static int32_t setpoint(enum shape shape, int32_t before)
{
    switch (shape) {
    case ANYWHERE:
        return (int32_t)below(40001) - 20000;
    case NEAR:
        return 1400 + (int32_t)below(200);
    case IN_STEPS:
        return below(4) > 0 ? before : (int32_t)below(4000) - 2000;
    default:
        return 500 * (int32_t)below(3);
    }
}

/* Which slots have a band of their own; it is up to twice the common one, and may be the common one. */
enum own { IN_NO_SLOT, IN_THE_FIRST_SLOTS, IN_SOME_SLOTS, IN_ALL_SLOTS, OWNS };

static bool has_own_band(enum own own, unsigned slot)
{
    switch (own) {
    case IN_THE_FIRST_SLOTS:
        return slot < 24;
    case IN_SOME_SLOTS:
        return below(5) == 0;
    default:
        return own == IN_ALL_SLOTS;
    }
}

static void type_profile(enum shape shape, unsigned slots, int32_t band, enum own own)
{
    int32_t value = 1400;
    text = typed;
    text_len = 0;
    type_line(value);
    type_line(band);
    for (unsigned slot = 0; slot < slots; slot++) {
        value = setpoint(shape, value);
        type_value(value);
        if (has_own_band(own, slot)) {
            type_character(' ');
            type_value((int32_t)below(2 * (uint32_t)band + 2));
        }
        type_character('\n');
    }
}

static void fire_profiles(void)
{
    static const unsigned lengths[] = { 1, 2, 3, 4, 5, 6, 7, 8, 9, 11, 13, 16, 17, 22, 27, 32, 50, 64, 100, 257, 300, 512 };
    static const int32_t bands[] = { 0, 30, 700 };
    for (size_t i = 0; i < sizeof lengths / sizeof lengths[0]; i++) {
        for (size_t j = 0; j < sizeof bands / sizeof bands[0]; j++) {
            for (int shape = 0; shape < SHAPES; shape++) {
                if (lengths[i] < 257 || (int)j == shape) {
                    type_profile((enum shape)shape, lengths[i], bands[j], IN_NO_SLOT);
                    fire(lengths[i]);
                }
            }
        }
    }
}

static void fire_profiles_with_own_bands(void)
{
    static const unsigned lengths[] = { 1, 2, 3, 5, 8, 13, 22, 32, 100, 300, 512 };
    for (size_t i = 0; i < sizeof lengths / sizeof lengths[0]; i++) {
        for (int own = IN_THE_FIRST_SLOTS; own < OWNS; own++) {
            for (int shape = 0; shape < SHAPES; shape++) {
                if (lengths[i] < 257 || own == shape) {
                    type_profile((enum shape)shape, lengths[i], 200, (enum own)own);
                    fire(lengths[i]);
                }
            }
        }
    }
}

static void take_text(const char *characters)
{
    text = (const uint8_t *)characters;
    text_len = strlen(characters);
}

static const char GOOD[] = "14,00\n0,25\n14,10\n13,90\n20,00\n19,50\n";
static const char WITH_OWN_BAND[] = "14,00\n0,25\n14,10\n13,90\n20,00 0,10\n19,50\n";

/* Texts that are refused, and some just within the limits. */
static void ask_texts(void)
{
    static const char *const texts[] = {
        "", "\n", "14,00", "14,00\n", "14,00\n0,25\n", "14,00\n0,25", "14,00\n0,25\n1", "14,00\n0,25\n14,\n", "14,00\n0,25\n1.450\n",
        "14,00\n0,25\n+3\n", "14,00\n0,25\n1234\n", "14,00\n0,25\n200,00\n", "14,00\n0,25\n200,01\n", "14,00\n0,25\n-200,00\n",
        "14,00\n0,25\n-200,01\n", "999,01\n", "14,00\n-0,01\n1\n", "14,00\n400,00\n1\n", "14,00\n400,01\n1\n", "14,00\n-0\n-0,00\n",
        "14,505\n0,254\n14,104\n-0,005\n", "-200,004\n400,004\n200,004\n0,995\n", "14,00\n-0,004\n-0,004\n", "14,00\n0,25\n200,005\n",
        "14,00\n-0,005\n1\n", "999,995\n", "14,00\n0,25\n14.505\n", "14,00\n0,25\n14,5050\n", "14,00\n0,25\n14,505",
        "14 \n0,25\n1\n", "14,00\n0,25\n1\n\n", "14,00\r\n0,25\r\n1\r\n", "-,5\n0\n1\n", "--1\n0\n1\n", "1\n2\n3\n4\n5\n6\n7\n8\n9",
        "14,00\n0,25\n14,10 0,10\n", "14,00\n0,25\n14,10 \n", "14,00\n0,25\n14,10  0,10\n", "14,00\n0,25\n14,10\t0,10\n",
        "14,00\n0,25\n 14,10 0,10\n", "14,00\n0,25\n14,10 0,10 \n", "14,00\n0,25\n14,10 0,10 0,10\n", "14,00\n0,25\n14,10 0,10",
        "14,00 0,10\n0,25\n14,10\n", "14,00\n0,25 0,10\n14,10\n", "14,00\n0,25\n300,00 x\n", "14,00\n0,25\nx 500,00\n",
        "14,00\n0,25\n300,00 500,00\n", "14,00\n0,25\n1,00 500,00\n", "14,00\n0,25\n1,00 -0,01\n", "14,00\n0,25\n1,00 -0,005\n",
        "14,00\n0,25\n1,00 400,005\n", "14,00\n0,25\n1,00 400,004\n", "14,00\n0,25\n1,00 -0\n", "14,00\n0,25\n1,00 -000,004\n",
        "14,00\n0,25\n14,10 0,25\n", "14,00\n0,25\n14,10 0,254\n13,90 0,245\n", "14,00\n0,25\n14,10 0,254\n13,90 0,244\n",
        "-200,004\n-000,004\n-200,004 -000,004\n", "-200,004\n400,004\n-200,004 -000,004\n"
    };
    record = changed;
    for (size_t i = 0; i < sizeof texts / sizeof texts[0]; i++) {
        take_text(texts[i]);
        build();
        ask_offers(built, sizeof built);
        record_len = 0;
        ask(RECORD_AGAINST_TEXT);
        ask_least_band(1024);
        ask_least_band(2);
    }
    type_profile(NEAR, 512, 10, IN_NO_SLOT);
    type_character('0');
    build();
    type_profile(NEAR, 512, 10, IN_ALL_SLOTS);
    type_character(' ');
    build();
}

/* Destinations of every length about the records', and numbers that do not fit 32 bits. */
static void ask_limits(void)
{
    static const uint64_t numbers[] = { 1023, 1024, 65536, 1ull << 32, (1ull << 32) + 1, (1ull << 63) + 2, UINT64_MAX };
    take_text(WITH_OWN_BAND);
    for (destination_len = 0; destination_len < 21; destination_len++)
        ask(TEXT_TO_RECORD);
    ask_least_band(1024);
    take_text(GOOD);
    for (destination_len = 0; destination_len < 14; destination_len++)
        ask(TEXT_TO_RECORD);
    build();
    for (size_t i = 0; i < sizeof numbers / sizeof numbers[0]; i++) {
        ask_slot(numbers[i]);
        ask_least_band(numbers[i]);
        ask_air(numbers[i]);
    }
}

static void ask_record(void)
{
    ask_slot(1);
    ask(RECORD_AGAINST_TEXT);
    ask_offers(built, sizeof built);
}

/* The record that was built, with one byte changed, with fewer bytes and with one more. */
static void ask_changed_records(void)
{
    static const uint8_t changes[] = { 0x01, 0x10, 0x80, 0xFF };
    size_t length = record_len;
    memcpy(changed, built, sizeof changed);
    record = changed;
    for (size_t i = 0; i < length; i++) {
        for (size_t j = 0; j < sizeof changes; j++) {
            changed[i] ^= changes[j];
            ask_record();
            changed[i] ^= changes[j];
        }
    }
    for (record_len = 0; record_len < length; record_len++)
        ask_record();
    changed[length] = 0;
    record_len = length + 1;
    ask_record();
}

static const char PAST_THE_END[] = "0\n0\n0\n0\n0\n0\n0\n1\n";

/* A record for that text's six slots with the terms (7, -20,000), over filler alone, and (13, 100). */
static const uint8_t OVER_FILLER[] = { 0x10, 0x28, 0x00, 0x00, 0x00, 0x00, 0x04, 0x03, 0xD8, 0xF0, 0x01, 0xA0, 0x0C, 0x80 };

/* A text of which the last slots decide, and a record that restores something else past them. */
static void ask_past_the_end(void)
{
    take_text(PAST_THE_END);
    fire(6);
    record = OVER_FILLER;
    record_len = sizeof OVER_FILLER;
    ask_record();
    ask_slot(5);
    ask_slot(6);
}

static const char TWO_BANDS[] = "5\n0,10\n0\n0 0,01\n";

/* Records of version 2 for that text's two slots, with a term for each: the first has errors of 5 and 0 and the greater least
 * margin, the second has errors of 0 and 1. */
static const uint8_t GREATER_MARGIN[] = {
    0x20, 0x08, 0x00, 0x50, 0x0F, 0xA0, 0x04, 0x01, 0x00, 0x02, 0x80, 0x60, 0x00, 0x00, 0x08, 0x04, 0x00, 0x04
};
static const uint8_t SMALLER_ERROR[] = {
    0x20, 0x08, 0x00, 0x50, 0x0F, 0xA0, 0x04, 0x01, 0x00, 0x00, 0x00, 0x60, 0x00, 0x20, 0x08, 0x04, 0x00, 0x04
};

/* A version 2 with no special slot, which is refused with 11; with fewer bytes it ends before its second count. */
static const uint8_t NO_SPECIAL_SLOT[] = { 0x20, 0x08, 0x00, 0x50, 0x0F, 0xA0, 0x00, 0x00, 0x00 };

/* Records with special slots against a text with the same and against one without. */
static void ask_own_bands(void)
{
    take_text(TWO_BANDS);
    fire(2);
    record = GREATER_MARGIN;
    record_len = sizeof GREATER_MARGIN;
    ask_record();
    ask_offers(SMALLER_ERROR, sizeof SMALLER_ERROR);
    take_text("5\n0,10\n0\n0,02 0,10\n");
    ask_record();
    ask_offers(SMALLER_ERROR, sizeof SMALLER_ERROR);
    record = NO_SPECIAL_SLOT;
    for (record_len = sizeof NO_SPECIAL_SLOT; record_len > 5; record_len--)
        ask_record();
}

/* Every step and every flow, and one beyond them. */
static void ask_steps_and_flows(void)
{
    for (unsigned step_or_flow = 0; step_or_flow <= PANEL_MOST_FLOW + 1; step_or_flow++)
        ask_air(step_or_flow);
}

static void ask_records(void)
{
    take_text(GOOD);
    build();
    ask_changed_records();
    type_profile(OF_THREE_VALUES, 23, 100, IN_NO_SLOT);
    build();
    ask_changed_records();
    take_text(WITH_OWN_BAND);
    build();
    ask_changed_records();
    type_profile(OF_THREE_VALUES, 7, 100, IN_ALL_SLOTS);
    build();
    ask_changed_records();
}

void requests(void)
{
    ask_benchmark();
    fire_profiles();
    fire_profiles_with_own_bands();
    ask_texts();
    ask_limits();
    ask_records();
    ask_past_the_end();
    ask_own_bands();
    ask_steps_and_flows();
    for (int i = 0; i < CALLS; i++)
        print_figures(CALL_NAMES[i], most[i]);
    add_number(requests_made);
    add_text(" requests\n");
    send_line(print);
}
