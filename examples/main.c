/* A first program on the burner panel's library: profile text to record, slots read back, the record
 * checked against its text, the least band for a few budgets, and the better of two offers.
 * A profile with special slots has no least band, and its record is a version 2.
 * Primary air stands by itself: the lowest step for a flow that the burnerman wants, and what that step gives.
 *
 *     main            the profiles below, a text that is refused, and some flows
 *     main FILE       the profile text in a file
 */
#include "panel.h"

#include <stdio.h>
#include <string.h>

static const char EMBEDDED[] = "14,00\n0,25\n14,10\n13,90\n20,00\n19,50\n";
/* Three synopses of two terms restore it exactly: terms at nodes 1 and 3, 1 and 2, or 2 and 3. Every panel sends the first. */
static const char SEVERAL[] = "0,50\n0,49\n0,00\n1,00\n";
/* The embedded profile with a tighter band in slot 2: it takes a term more, and the control room's offer below is none for it. */
static const char OWN_BAND[] = "14,00\n0,25\n14,10\n13,90\n20,00 0,10\n19,50\n";
static const char FAULTY[] = "14,00\n0,25\n14,10\n13,\n";

/* What the line has left in the control room's buffer: a record for the profile above, and bytes behind it. */
static const uint8_t FROM_CONTROL_ROOM[] = { 0x10, 0x18, 0x00, 0xC8, 0x2B, 0xC0, 0x02, 0x01, 0x83, 0xDB, 0x80, 0x7E, 0x00 };

/* Static, as in firmware: the stack is for the calls. One byte more than can be accepted, so that a longer file is refused and not cut. */
static uint8_t text[PANEL_MOST_TEXT_BYTES + 1];
static uint8_t record[PANEL_MOST_BUILT_BYTES];

static const char *meaning(enum panel_refusal refusal)
{
    switch (refusal) {
    case PANEL_GRANTED: return "granted";
    case PANEL_NOT_A_NUMBER: return "a field of a line is not a number";
    case PANEL_VALUE_BEYOND: return "a value is beyond 200,00";
    case PANEL_BAND_BEYOND: return "a band is not in 0,00 to 400,00";
    case PANEL_SLOTS_BEYOND: return "there are no setpoints, or more than 512";
    case PANEL_BUDGET_BEYOND: return "the budget is above 1,023";
    case PANEL_OUTPUT_SHORT: return "the record does not fit";
    case PANEL_NOT_A_RECORD: return "these bytes are not a record";
    case PANEL_TERMS_WRONG: return "the record's terms are wrong";
    case PANEL_LENGTH_DIFFERS: return "the record is for another number of slots";
    case PANEL_NO_SUCH_SLOT: return "there is no such slot";
    case PANEL_SPECIALS_WRONG: return "the record's special slots are wrong";
    case PANEL_HAS_SPECIALS: return "a profile with special slots has no least band";
    case PANEL_AIR_BEYOND: return "there is no such step or flow";
    }
    return "unknown";
}

static int is_refused(const char *call, uint64_t result)
{
    enum panel_refusal refusal = panel_refusal(result);
    if (refusal == PANEL_GRANTED)
        return 0;
    printf("%s: refused %d, %s\n", call, (int)refusal, meaning(refusal));
    return 1;
}

static void print_value(const char *before, int32_t hundredths)
{
    int32_t size = hundredths < 0 ? -hundredths : hundredths;
    printf("%s%s%d,%02d", before, hundredths < 0 ? "-" : "", (int)(size / 100), (int)(size % 100));
}

/* The first bytes of a record, or all of a short one. */
static void print_bytes(const uint8_t *bytes, size_t length)
{
    for (size_t i = 0; i < length && i < 11; i++)
        printf(" %02X", bytes[i]);
}

/* Builds the record; the answer is its length, 0 where the text was refused. */
static size_t build(size_t text_len)
{
    uint64_t built = panel_text_to_record(text, text_len, record, sizeof record);
    if (is_refused("text to record", built))
        return 0;
    size_t length = panel_bytes_written(built);
    printf("record: %zu bytes for %zu bytes of text, terms %u", length, text_len, (unsigned)panel_terms(built));
    print_value(", greatest error ", panel_greatest_error(built));
    printf("\nfirst bytes:");
    print_bytes(record, length);
    printf("\n");
    if (length > PANEL_RECORD_BYTES(panel_terms(built), 0))
        printf("version %u: the bands of special slots stand behind the terms\n", (unsigned)record[0] >> 4);
    return length;
}

/* Prints every slot, eight to a line. The first slot that is not there ends the profile. */
static void read_back(size_t record_len)
{
    uint64_t slot = 0;
    uint64_t found = panel_record_slot(record, record_len, slot);
    while (panel_refusal(found) == PANEL_GRANTED) {
        if (slot % 8 == 0)
            printf("slot %3u:", (unsigned)slot);
        print_value(" ", panel_setpoint(found));
        slot++;
        if (slot % 8 == 0)
            printf("\n");
        found = panel_record_slot(record, record_len, slot);
    }
    if (slot % 8 != 0)
        printf("\n");
    if (panel_refusal(found) == PANEL_NO_SUCH_SLOT)
        printf("slots: %u\n", (unsigned)slot);
    else
        is_refused("one slot", found);
}

static void check(size_t record_len, size_t text_len)
{
    uint64_t checked = panel_record_against_text(record, record_len, text, text_len);
    if (is_refused("record against text", checked))
        return;
    if (panel_kept(checked)) {
        print_value("kept, greatest error ", panel_check_error(checked));
        printf("\n");
    } else {
        printf("not kept in slot %u\n", (unsigned)panel_lowest_slot(checked));
    }
}

static void ask_least_bands(size_t text_len)
{
    static const uint64_t budgets[] = { 0, 1, 4, 16 };
    for (size_t i = 0; i < sizeof budgets / sizeof budgets[0]; i++) {
        uint64_t least = panel_least_band_of_text(text, text_len, budgets[i]);
        if (is_refused("least band", least))
            return;
        printf("least band for a budget of %u", (unsigned)budgets[i]);
        print_value(": ", panel_least_band(least));
        printf("\n");
    }
}

/* The control room's offer beside the panel's own; the winner is used where it lies. */
static void compare_offers(size_t record_len, size_t text_len)
{
    uint64_t better = panel_better_offer(text, text_len, FROM_CONTROL_ROOM, sizeof FROM_CONTROL_ROOM, record, record_len);
    switch (panel_winner(better)) {
    case PANEL_FIRST_OFFER:
        printf("better offer: the control room's,");
        print_bytes(FROM_CONTROL_ROOM, panel_winner_bytes(better));
        break;
    case PANEL_SECOND_OFFER:
        printf("better offer: the panel's own,");
        print_bytes(record, panel_winner_bytes(better));
        break;
    default:
        printf("better offer: none");
    }
    printf("\n");
}

/* Finds the lowest step for a flow, and what that step gives, which may be more. */
static void find_step(uint64_t wanted)
{
    uint64_t found = panel_step_for_flow(wanted);
    if (is_refused("step for a flow", found))
        return;
    uint64_t given = panel_flow_of_step(panel_step(found));
    if (is_refused("flow of a step", given))
        return;
    printf("flow %u: step %u, which gives %u\n", (unsigned)wanted, (unsigned)panel_step(found), (unsigned)panel_flow(given));
}

static void find_some_steps(void)
{
    static const uint64_t flows[] = { 0, 50, 51, 707, PANEL_MOST_FLOW, PANEL_MOST_FLOW + 1 };
    printf("== primary air\n");
    for (size_t i = 0; i < sizeof flows / sizeof flows[0]; i++)
        find_step(flows[i]);
}

/* The answer is the program's exit status. */
static int fire(const char *name, size_t text_len)
{
    printf("== %s\n", name);
    size_t record_len = build(text_len);
    if (record_len == 0)
        return 1;
    read_back(record_len);
    check(record_len, text_len);
    ask_least_bands(text_len);
    compare_offers(record_len, text_len);
    return 0;
}

static int fire_embedded(const char *name, const char *profile)
{
    size_t length = strlen(profile);
    memcpy(text, profile, length);
    return fire(name, length);
}

static int fire_file(const char *name)
{
    FILE *file = fopen(name, "rb");
    if (file == NULL) {
        perror(name);
        return 1;
    }
    size_t length = fread(text, 1, sizeof text, file);
    int broken = ferror(file);
    fclose(file);
    if (broken) {
        fprintf(stderr, "%s: cannot be read\n", name);
        return 1;
    }
    return fire(name, length);
}

int main(int argc, char **argv)
{
    if (argc > 1)
        return fire_file(argv[1]);
    fire_embedded("faulty", FAULTY);
    fire_embedded("several", SEVERAL);
    fire_embedded("own band", OWN_BAND);
    find_some_steps();
    return fire_embedded("embedded", EMBEDDED);
}
