/* The panel's calls in plain C, with the arguments and packed results of include/panel.h. */
#ifndef PLAIN_H
#define PLAIN_H

#include <stddef.h>
#include <stdint.h>

uint64_t plain_text_to_record(const uint8_t *text, size_t text_len, uint8_t *record, size_t record_len);
uint64_t plain_record_slot(const uint8_t *record, size_t record_len, uint64_t slot);
uint64_t plain_record_against_text(const uint8_t *record, size_t record_len, const uint8_t *text, size_t text_len);
uint64_t plain_least_band_of_text(const uint8_t *text, size_t text_len, uint64_t budget);
uint64_t plain_better_offer(const uint8_t *text, size_t text_len, const uint8_t *first, size_t first_len, const uint8_t *second, size_t second_len);
uint64_t plain_flow_of_step(uint64_t step);
uint64_t plain_step_for_flow(uint64_t flow);

#endif
