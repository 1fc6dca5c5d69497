/* Documents 01 and 02 in plain C: the boundary's functions once more, under the name plain_. */
#ifndef PLAIN_H
#define PLAIN_H

#include <stddef.h>
#include <stdint.h>

uint32_t plain_read(const uint8_t *message, size_t length, uint16_t *parts, size_t count);
uint32_t plain_write(uint32_t circuit, uint32_t type, const uint8_t *fixed, size_t fixed_length, const uint8_t *first,
                     size_t first_length, const uint8_t *second, size_t second_length, const uint8_t *optional,
                     size_t optional_length, uint8_t *out, size_t room);
uint32_t plain_compact(const uint8_t *message, size_t length, uint8_t *out, size_t room);
uint32_t plain_find(const uint8_t *message, size_t length, const uint8_t *defaults, size_t defaults_length,
                    uint32_t name, size_t *stretch, size_t count);
uint64_t plain_number_read(const uint8_t *contents, size_t length, uint8_t *signals, size_t room);
uint32_t plain_number_write(uint32_t nature, uint32_t plan, uint32_t internal, const uint8_t *signals, size_t count,
                            uint8_t *out, size_t room);
uint32_t plain_act(uint8_t *states, size_t states_length, const uint8_t *owners, size_t owners_length,
                   const uint8_t *helpers, size_t helpers_length, uint8_t *totals, size_t totals_length, uint32_t sender,
                   const uint8_t *message, size_t length, uint8_t *answer, size_t room);
uint32_t plain_block(uint8_t *states, size_t states_length, uint8_t *totals, size_t totals_length, uint32_t circuit,
                     uint32_t set, uint8_t *answer, size_t room);
uint64_t plain_busy(const uint8_t *states, size_t states_length, const uint8_t *totals, size_t totals_length, uint32_t first,
                    uint32_t last);
uint32_t plain_rebuild(const uint8_t *states, size_t states_length, uint8_t *totals, size_t totals_length);
uint32_t plain_plan(const uint8_t *states, size_t states_length, const uint8_t *owners, size_t owners_length,
                    const uint8_t *helpers, size_t helpers_length, const uint8_t *ticks, size_t ticks_length, uint32_t sender,
                    uint32_t kind, uint8_t *plan, size_t room);
uint32_t plain_check_plan(const uint8_t *states, size_t states_length, const uint8_t *owners, size_t owners_length,
                          const uint8_t *helpers, size_t helpers_length, const uint8_t *ticks, size_t ticks_length,
                          uint32_t sender, uint32_t kind, const uint8_t *plan, size_t length);
uint32_t plain_bicc_read(const uint8_t *message, size_t length, uint32_t *parts, size_t count);
uint32_t plain_bicc_write(uint32_t code, uint32_t type, const uint8_t *fixed, size_t fixed_length, const uint8_t *first,
                          size_t first_length, const uint8_t *second, size_t second_length, const uint8_t *optional,
                          size_t optional_length, uint8_t *out, size_t room);
uint32_t plain_bicc_compact(const uint8_t *message, size_t length, uint8_t *out, size_t room);
uint32_t plain_sccp_read(const uint8_t *message, size_t length, uint16_t *parts, size_t count);
uint32_t plain_sccp_write(uint32_t type, const uint8_t *fixed, size_t fixed_length, const uint8_t *first, size_t first_length,
                          const uint8_t *second, size_t second_length, const uint8_t *third, size_t third_length,
                          const uint8_t *optional, size_t optional_length, uint8_t *out, size_t room);
uint32_t plain_sccp_compact(const uint8_t *message, size_t length, uint8_t *out, size_t room);
uint32_t plain_velocity_code(double bearing, double speed, uint16_t *codes, size_t count);
uint32_t plain_velocity_code_vertical(double bearing, double speed, double vertical, uint16_t *codes, size_t count);
uint32_t plain_velocity_read(uint32_t bearing, uint32_t speed, double *values, size_t count);

#endif
