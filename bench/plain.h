/*
 * The same two calls as include/sulboryq.h, written in plain C: what the
 * library is measured against.
 */
#ifndef PLAIN_H
#define PLAIN_H

#include <stddef.h>
#include <stdint.h>

uint8_t plain_read(uint8_t letter, uint8_t size, const uint8_t *part,
                   size_t length, int64_t *number);
uint8_t plain_write(uint8_t letter, uint8_t size, int64_t number,
                    uint8_t *part, size_t length);

#endif
