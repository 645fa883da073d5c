/* The program of bench/yardstick, which shares nothing with the library, by calls like those of nrpdcch.h: for one cell at a time,
 * and for arguments that the library does not refuse before it looks at a watch. */
#ifndef YARDSTICK_H
#define YARDSTICK_H
#include "nrpdcch.h"

/* Opens a cell in the place of the last one. The tables have to be the same for all. False where a file is refused. */
bool yardstick_open(const uint8_t *settings, size_t settings_length, const uint8_t *reliability, size_t reliability_length,
                    const uint8_t *input_order, size_t input_order_length);
void yardstick_close(void);

/* Makes the plan of a handset in a slot, on which the calls below work: NRPDCCH_DONE, or NRPDCCH_OVER. */
uint32_t yardstick_plan(uint32_t handset, uint32_t frame, uint32_t slot, nrpdcch_watch *watches, size_t *count);

/* What is heard at a watch of the plan: NRPDCCH_DONE or NRPDCCH_SILENT. */
uint32_t yardstick_hear(uint32_t watch, const uint8_t *grid, nrpdcch_heard *heard, nrpdcch_silence *silence);

/* Spells at a watch of the plan: NRPDCCH_DONE, NRPDCCH_NOT_CARRIED or NRPDCCH_FIELD. */
uint32_t yardstick_spell(uint32_t watch, uint32_t format, const nrpdcch_field *fields, size_t fields_length, uint8_t *grid,
                         nrpdcch_fault *fault);

#endif
