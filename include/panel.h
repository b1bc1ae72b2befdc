/* The burner panel's seven calls for C firmware: profile text to record, one slot of a record,
 * record against text, least band of a text, the better of two offers; and for primary air, which has nothing to do with
 * profiles, the flow of a step and the lowest step for a flow.
 *
 * A value (setpoint, rest value, band, error) is a whole number of hundredths: 14,50 is 1450. A number in a text may have a
 * third digit after a comma, which is rounded half away from zero: 14,505 is 1451 and -0,005 is -1. After a point three digits
 * are refused. The limits below hold for the rounded value.
 *
 * A text is a line for the rest value, one for the band, and one a setpoint. A setpoint line may carry one space and a band of
 * the slot's own after the setpoint; a slot whose own band is not the common one is special. A slot goes by its own band, or by
 * the common one where it has none. Its margin is that band less its error; a band is kept where no margin is below 0.
 * A record without special slots is a version 1; one with them is a version 2, and carries their bands.
 *
 * A profile has the slots of its text and no others: where their number is no power of two the tree has leaves past the last
 * slot, and no call looks at what a record restores there.
 *
 * A step is one of the air duct's 401 steps of differential pressure, 0 to 400; a flow is in thousandths, 0 to 1,000. The
 * factory's table gives the flow of each step: the whole part of the square root of 2,500 times the step.
 *
 * Every call returns four fields of 16 bits in one number; the functions below take them out.
 * The lowest field is the refusal's number, 0 for success. A refusal leaves the other fields 0
 * and lent memory as it was.
 *
 * What the caller owes:
 * - every pointer is valid for the length beside it, and not null, also where that length is 0;
 * - no length is above PTRDIFF_MAX;
 * - the bytes that panel_text_to_record may write do not overlap the text;
 * - 40 KiB of stack below the call; bench/run and, on the panel's core, firmware/test measure what each call takes.
 *
 * A length is a uint64_t on every core, as the library takes it, and a size_t of 32 bits is widened at the call. So include
 * this header: a declaration of one's own with size_t would link on a 32-bit core and answer wrongly. Beside the header it
 * does not compile.
 *
 * The calls take no heap and keep nothing from one call to the next.
 */
#ifndef PANEL_H
#define PANEL_H

#include <stddef.h>
#include <stdint.h>

#ifdef __cplusplus
extern "C" {
#endif

/* Setpoints, rest value and term values lie within PANEL_MOST_VALUE either way of 0. */
#define PANEL_MOST_VALUE 20000
#define PANEL_MOST_BAND 40000
#define PANEL_MOST_SLOTS 512
#define PANEL_MOST_BUDGET 1023
#define PANEL_MOST_STEP 400
#define PANEL_MOST_FLOW 1000

/* The bytes of the longest line of the first two: eight characters, as -200,004, and the line end. */
#define PANEL_LONGEST_LINE 9

/* The bytes of the longest setpoint line: two such numbers, the space between them, and the line end. */
#define PANEL_LONGEST_SLOT_LINE 18

/* A longer text is refused. */
#define PANEL_MOST_TEXT_BYTES (2 * PANEL_LONGEST_LINE + PANEL_MOST_SLOTS * PANEL_LONGEST_SLOT_LINE)

/* The bytes of a record of that many terms and special slots: of version 1 with no special slot, else of version 2. */
#define PANEL_RECORD_BYTES(terms, special_slots) \
    ((55u + 26u * (size_t)(terms) + ((special_slots) > 0 ? 10u + 25u * (size_t)(special_slots) : 0u) + 7u) / 8u)

/* A record made elsewhere that is not refused has at most 1,023 terms and 512 special slots: 4,933 bytes. */
#define PANEL_MOST_RECORD_BYTES PANEL_RECORD_BYTES(1023, PANEL_MOST_SLOTS)

/* The panel's own records have at most 512 terms and 512 special slots: 3,273 bytes are never too few (`longest_fits`,
 * crates/panel/proofs/Longest.antt). */
#define PANEL_MOST_BUILT_BYTES PANEL_RECORD_BYTES(PANEL_MOST_SLOTS, PANEL_MOST_SLOTS)

enum panel_refusal {
    PANEL_GRANTED = 0,
    PANEL_NOT_A_NUMBER = 1,    /* a field of a line is not a number, or the last line does not end in byte 10 */
    PANEL_VALUE_BEYOND = 2,    /* rest value or setpoint beyond 200,00 either way */
    PANEL_BAND_BEYOND = 3,     /* the common band or an own one below 0 or above 400,00 */
    PANEL_SLOTS_BEYOND = 4,    /* no setpoint, or more than 512 */
    PANEL_BUDGET_BEYOND = 5,   /* budget above 1,023 terms */
    PANEL_OUTPUT_SHORT = 6,    /* the record does not fit into the bytes lent for it */
    PANEL_NOT_A_RECORD = 7,    /* under 7 bytes, version not 1 or 2, wrong byte count, or fill not zero */
    PANEL_TERMS_WRONG = 8,     /* too many terms, a node not in the tree, nodes not ascending, or a term value beyond 200,00 */
    PANEL_LENGTH_DIFFERS = 9,  /* the record has another number of slots than the text */
    PANEL_NO_SUCH_SLOT = 10,   /* the slot asked for is not below the record's number of slots */
    PANEL_SPECIALS_WRONG = 11, /* a version 2 with no special slot; one not below the record's number of slots, or not ascending;
                                  a band of one above 400,00, or equal to the common band */
    PANEL_HAS_SPECIALS = 12,   /* the text has special slots, and so no least band */
    PANEL_AIR_BEYOND = 13      /* step above 400, or flow above 1,000 */
};

/* Builds the synopsis of a profile text with the fewest terms that keeps every slot's band and, among those, the greatest
 * least margin over the slots, and writes its record. Without special slots that is the least greatest error. Of several
 * such synopses it is the first: they are compared term by term, the lower node first, then the lower value. So the bytes
 * written follow from the text alone, and two panels that are fed one profile write identical records.
 * Bytes of `record` past the record hold what they held.
 * Gives panel_bytes_written, panel_terms, panel_greatest_error.
 * Refuses with 1, 2, 3 and 4, by lines from the first, and in a line 1 goes before 2 and 2 before 3; then 6. */
uint64_t panel_text_to_record(const uint8_t *text, uint64_t text_len, uint8_t *record, uint64_t record_len);

/* Restores the setpoint of one slot; slots are numbered from 0. `record_len` is exactly the record's.
 * Gives panel_setpoint.
 * Refuses with 7, 2, 3, 8, 11, 10, in this order. */
uint64_t panel_record_slot(const uint8_t *record, uint64_t record_len, uint64_t slot);

/* Checks whether a record keeps its own bands for a text's setpoints, with its own rest value. The text's rest value and its
 * bands, the common one and those of slots, have no part in it; they are read, and refused where they are wrong.
 * Gives panel_kept with panel_check_error where it does, and panel_lowest_slot where it does not.
 * Refuses the text with 1, 2, 3 and 4, by lines from the first; then with 7, 2, 3, 8, 11, 9, in this order. */
uint64_t panel_record_against_text(const uint8_t *record, uint64_t record_len, const uint8_t *text, uint64_t text_len);

/* Finds the least band, one for all slots, that some synopsis of at most `budget` terms keeps. The text's band has no part in
 * it, and a text with special slots has no least band.
 * Gives panel_least_band.
 * Refuses with 1, 2, 3 and 4, by lines from the first; then with 12, 5, in this order. */
uint64_t panel_least_band_of_text(const uint8_t *text, uint64_t text_len, uint64_t budget);

/* Chooses between two records for one text. Each stands at the front of bytes of its own, perhaps with bytes behind it, and
 * ends where its count of terms says, in version 2 together with its count of special slots; bytes that end before that, or
 * before a count, hold no record. A candidate is a record that is not refused, has the text's length, band, rest value and
 * special slots, and keeps its bands for the text's setpoints. Fewer terms win, then the greater least margin, then the first.
 * Gives panel_winner and panel_winner_bytes: the winning record is so many bytes from `first` or from `second` on.
 * Refuses nothing: with no candidate, or a text that is refused, the winner is PANEL_NO_OFFER. */
uint64_t panel_better_offer(const uint8_t *text, uint64_t text_len, const uint8_t *first, uint64_t first_len, const uint8_t *second, uint64_t second_len);

/* Looks up the flow of a step in the factory's table: step 1 gives 50, step 400 gives 1,000.
 * Gives panel_flow.
 * Refuses a step above 400 with 13. */
uint64_t panel_flow_of_step(uint64_t step);

/* Finds the lowest step whose flow reaches a given flow: its flow is that flow or more, and no lower step's is. It exists for
 * every flow up to 1,000, and is step 0 for the flow 0.
 * Gives panel_step.
 * Refuses a flow above 1,000 with 13. */
uint64_t panel_step_for_flow(uint64_t flow);

/* Field 0 of a result is the lowest. */
static inline uint16_t panel_field(uint64_t result, unsigned field)
{
    return (uint16_t)(result >> (16u * field));
}

/* Of every call: the refusal's number, PANEL_GRANTED for success. The better of two offers is always granted. */
static inline enum panel_refusal panel_refusal(uint64_t result)
{
    return (enum panel_refusal)panel_field(result, 0);
}

/* Of panel_text_to_record. */
static inline uint16_t panel_bytes_written(uint64_t result)
{
    return panel_field(result, 1);
}

static inline uint16_t panel_terms(uint64_t result)
{
    return panel_field(result, 2);
}

static inline uint16_t panel_greatest_error(uint64_t result)
{
    return panel_field(result, 3);
}

/* Of panel_record_slot: the field holds the setpoint in two's complement. */
static inline int16_t panel_setpoint(uint64_t result)
{
    int32_t field = panel_field(result, 1);
    return (int16_t)(field < 32768 ? field : field - 65536);
}

/* Of panel_record_against_text: 1 for kept, 0 for not kept. */
static inline int panel_kept(uint64_t result)
{
    return panel_field(result, 1) == 1;
}

/* The greatest error where the bands are kept, else 0. */
static inline uint16_t panel_check_error(uint64_t result)
{
    return panel_field(result, 2);
}

/* The lowest slot of the text whose error exceeds its band where they are not kept, else 0. */
static inline uint16_t panel_lowest_slot(uint64_t result)
{
    return panel_field(result, 3);
}

/* Of panel_least_band_of_text. */
static inline uint16_t panel_least_band(uint64_t result)
{
    return panel_field(result, 1);
}

/* Of panel_better_offer: whose record wins. */
#define PANEL_NO_OFFER 0
#define PANEL_FIRST_OFFER 1
#define PANEL_SECOND_OFFER 2

static inline uint16_t panel_winner(uint64_t result)
{
    return panel_field(result, 1);
}

/* The bytes of the winning record; 0 where there is none. */
static inline uint16_t panel_winner_bytes(uint64_t result)
{
    return panel_field(result, 2);
}

/* Of panel_flow_of_step. */
static inline uint16_t panel_flow(uint64_t result)
{
    return panel_field(result, 1);
}

/* Of panel_step_for_flow. */
static inline uint16_t panel_step(uint64_t result)
{
    return panel_field(result, 1);
}

#ifdef __cplusplus
}
#endif

#endif
