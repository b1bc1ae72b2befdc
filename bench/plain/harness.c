/* Runs the library's calls and the plain version's on the cases of its input, for bench/run.
 *
 *     harness stack < CASES     measures the stack that each call takes
 *     harness count < CASES     under callgrind: a dump of the instructions for each call, in the order of its output
 *
 * A case is a line `CALL NUMBER TEXT-BYTES RECORD-BYTES SECOND-BYTES` and then the bytes of its text, of its record and of a
 * second one.
 * For each case a line for the library and one for the plain version: the four fields of the result, the
 * bytes of stack, and the record in hexadecimal where the call writes one. Fails where a record that one of
 * the two built is not kept in the other's eyes, or bytes behind it were touched.
 */
#define _XOPEN_SOURCE 700

#include "panel.h"
#include "plain.h"

#include <stdbool.h>
#include <stdio.h>
#include <stdlib.h>
#include <string.h>
#include <ucontext.h>
#include <valgrind/callgrind.h>

enum {
    PAINT = 0xA5,
    STACK_BYTES = 256 * 1024
};

struct calls {
    const char *name;
    uint64_t (*text_to_record)(const uint8_t *, size_t, uint8_t *, size_t);
    uint64_t (*record_slot)(const uint8_t *, size_t, uint64_t);
    uint64_t (*record_against_text)(const uint8_t *, size_t, const uint8_t *, size_t);
    uint64_t (*least_band_of_text)(const uint8_t *, size_t, uint64_t);
    uint64_t (*better_offer)(const uint8_t *, size_t, const uint8_t *, size_t, const uint8_t *, size_t);
    uint64_t (*flow_of_step)(uint64_t);
    uint64_t (*step_for_flow)(uint64_t);
};

static const struct calls LIBRARY = {
    "library", panel_text_to_record, panel_record_slot, panel_record_against_text, panel_least_band_of_text, panel_better_offer,
    panel_flow_of_step, panel_step_for_flow
};

static const struct calls PLAIN = {
    "plain", plain_text_to_record, plain_record_slot, plain_record_against_text, plain_least_band_of_text, plain_better_offer,
    plain_flow_of_step, plain_step_for_flow
};

enum call { TEXT_TO_RECORD, RECORD_SLOT, RECORD_AGAINST_TEXT, LEAST_BAND_OF_TEXT, BETTER_OFFER, FLOW_OF_STEP, STEP_FOR_FLOW, CALLS };

static const char *const CALL_NAMES[CALLS] = {
    "text_to_record", "record_slot", "record_against_text", "least_band_of_text", "better_offer", "flow_of_step",
    "step_for_flow"
};

struct test_case {
    enum call call;
    unsigned long long number;
    size_t text_len;
    size_t record_len;
    size_t second_len;
    uint8_t text[2 * PANEL_MOST_TEXT_BYTES];
    uint8_t record[PANEL_MOST_RECORD_BYTES];
    uint8_t second[PANEL_MOST_RECORD_BYTES];
};

static struct test_case now;
static const struct calls *callee;
static uint64_t result;
static uint8_t built[PANEL_MOST_RECORD_BYTES];

static uint8_t stack[STACK_BYTES];
static ucontext_t here, there;

static void fail(const char *what)
{
    fprintf(stderr, "harness: %s\n", what);
    exit(1);
}

static void call(void)
{
    switch (now.call) {
    case TEXT_TO_RECORD:
        result = callee->text_to_record(now.text, now.text_len, built, sizeof built);
        break;
    case RECORD_SLOT:
        result = callee->record_slot(now.record, now.record_len, now.number);
        break;
    case RECORD_AGAINST_TEXT:
        result = callee->record_against_text(now.record, now.record_len, now.text, now.text_len);
        break;
    case LEAST_BAND_OF_TEXT:
        result = callee->least_band_of_text(now.text, now.text_len, now.number);
        break;
    case BETTER_OFFER:
        result = callee->better_offer(now.text, now.text_len, now.record, now.record_len, now.second, now.second_len);
        break;
    case FLOW_OF_STEP:
        result = callee->flow_of_step(now.number);
        break;
    default:
        result = callee->step_for_flow(now.number);
    }
}

static void call_nothing(void)
{
}

/* The bytes of a painted stack that are no longer paint, from the lowest such byte up. */
static size_t stack_of(void (*function)(void))
{
    size_t untouched = 0;
    memset(stack, PAINT, sizeof stack);
    if (getcontext(&there) != 0)
        fail("no context");
    there.uc_stack.ss_sp = stack;
    there.uc_stack.ss_size = sizeof stack;
    there.uc_link = &here;
    makecontext(&there, function, 0);
    swapcontext(&here, &there);
    while (untouched < sizeof stack && stack[untouched] == PAINT)
        untouched++;
    return sizeof stack - untouched;
}

static void count(void)
{
    CALLGRIND_ZERO_STATS;
    call();
    CALLGRIND_DUMP_STATS_AT(callee->name);
}

static void run(const struct calls *calls, bool counting, uint8_t *record)
{
    size_t taken = 0;
    callee = calls;
    memset(built, PAINT, sizeof built);
    if (counting)
        count();
    else
        taken = stack_of(call) - stack_of(call_nothing);
    printf("%s %u %u %u %u %zu ", calls->name, (unsigned)panel_refusal(result), (unsigned)panel_field(result, 1),
           (unsigned)panel_field(result, 2), (unsigned)panel_field(result, 3), taken);
    memcpy(record, built, sizeof built);
}

static void inspect(const struct calls *checker, const uint8_t *record, size_t length, unsigned error)
{
    uint64_t checked = checker->record_against_text(record, length, now.text, now.text_len);
    if (panel_refusal(checked) != PANEL_GRANTED || !panel_kept(checked) || panel_check_error(checked) != error)
        fail("a record is not kept in the other's eyes");
    for (size_t i = length; i < sizeof built; i++)
        if (record[i] != PAINT)
            fail("bytes behind the record were touched");
}

static void run_case(bool counting)
{
    static uint8_t records[2][PANEL_MOST_RECORD_BYTES];
    const struct calls *sides[2] = { &LIBRARY, &PLAIN };
    for (int side = 0; side < 2; side++) {
        run(sides[side], counting, records[side]);
        if (now.call == TEXT_TO_RECORD && panel_refusal(result) == PANEL_GRANTED) {
            size_t length = panel_bytes_written(result);
            for (size_t i = 0; i < length; i++)
                printf("%02x", records[side][i]);
            inspect(sides[1 - side], records[side], length, panel_greatest_error(result));
        }
        printf("\n");
    }
}

static enum call call_named(const char *name)
{
    for (int i = 0; i < CALLS; i++)
        if (strcmp(name, CALL_NAMES[i]) == 0)
            return (enum call)i;
    fail("no such call");
    return CALLS;
}

static bool read_case(void)
{
    char line[120], name[32];
    if (fgets(line, sizeof line, stdin) == NULL)
        return false;
    if (sscanf(line, "%31s %llu %zu %zu %zu", name, &now.number, &now.text_len, &now.record_len, &now.second_len) != 5)
        fail("a case has five words");
    now.call = call_named(name);
    if (now.text_len > sizeof now.text || now.record_len > sizeof now.record || now.second_len > sizeof now.second)
        fail("a case is too long");
    if (fread(now.text, 1, now.text_len, stdin) != now.text_len)
        fail("a case lacks its text");
    if (fread(now.record, 1, now.record_len, stdin) != now.record_len)
        fail("a case lacks its record");
    if (fread(now.second, 1, now.second_len, stdin) != now.second_len)
        fail("a case lacks its second record");
    return true;
}

int main(int argc, char **argv)
{
    if (argc != 2 || (strcmp(argv[1], "stack") != 0 && strcmp(argv[1], "count") != 0))
        fail("say stack or count");
    while (read_case())
        run_case(strcmp(argv[1], "count") == 0);
    return 0;
}
