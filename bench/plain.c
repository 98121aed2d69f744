#include "plain.h"

#include <stdbool.h>

enum { DONE, LACKING, WRONG_WIDTH, OUT_OF_RANGE, NO_VALUE };

enum { MOST_DIGITS = 15 };

static const int64_t powers_of_ten[MOST_DIGITS + 1] = {
    1,
    10,
    100,
    1000,
    10000,
    100000,
    1000000,
    10000000,
    100000000,
    1000000000,
    10000000000,
    100000000000,
    1000000000000,
    10000000000000,
    100000000000000,
    1000000000000000,
};

/* 0 where there is no such form: every form has at least one byte. */
static size_t width_of(uint8_t letter, uint8_t size)
{
    switch (letter) {
    case 'z':
        return size <= MOST_DIGITS ? size : 0;
    case 'p':
        return size >= 1 && size <= MOST_DIGITS ? size / 2u + 1 : 0;
    case 'b':
    case 'n':
        return size == 2 || size == 4 ? size : 0;
    default:
        return 0;
    }
}

static bool holds(uint8_t letter, uint8_t size, int64_t number)
{
    int64_t limit;
    switch (letter) {
    case 'b':
        limit = INT64_C(1) << (8 * size - 1);
        return -limit <= number && number < limit;
    case 'n':
        limit = INT64_C(1) << (8 * size);
        return 0 <= number && number < limit;
    default:
        limit = powers_of_ten[size];
        return -limit < number && number < limit;
    }
}

static bool is_sign(unsigned half)
{
    return half >= 0xA;
}

static bool is_minus(unsigned half)
{
    return half == 0xB || half == 0xD;
}

static uint8_t read_zoned(const uint8_t *part, size_t width, int64_t *number)
{
    int64_t magnitude = 0;
    for (size_t i = 0; i < width; i++) {
        unsigned digit = part[i] & 0xF;
        if (digit > 9)
            return NO_VALUE;
        magnitude = 10 * magnitude + digit;
    }
    unsigned sign = part[width - 1] >> 4;
    if (!is_sign(sign))
        return NO_VALUE;
    *number = is_minus(sign) ? -magnitude : magnitude;
    return DONE;
}

static uint8_t read_packed(const uint8_t *part, size_t width, uint8_t size,
                           int64_t *number)
{
    if (size % 2 == 0 && part[0] >> 4 != 0)
        return NO_VALUE;
    int64_t magnitude = 0;
    for (size_t i = 0; i + 1 < width; i++) {
        unsigned high = part[i] >> 4;
        unsigned low = part[i] & 0xF;
        if (high > 9 || low > 9)
            return NO_VALUE;
        magnitude = 100 * magnitude + 10 * high + low;
    }
    unsigned digit = part[width - 1] >> 4;
    unsigned sign = part[width - 1] & 0xF;
    if (digit > 9 || !is_sign(sign))
        return NO_VALUE;
    magnitude = 10 * magnitude + digit;
    *number = is_minus(sign) ? -magnitude : magnitude;
    return DONE;
}

static uint8_t read_binary(const uint8_t *part, size_t width, bool is_signed,
                           int64_t *number)
{
    int64_t value = 0;
    for (size_t i = 0; i < width; i++)
        value = 256 * value + part[i];
    if (is_signed && part[0] >= 0x80)
        value -= INT64_C(1) << (8 * width);
    *number = value;
    return DONE;
}

static void write_zoned(int64_t number, uint8_t *part, size_t width)
{
    uint64_t rest = (uint64_t)(number < 0 ? -number : number);
    for (size_t i = width; i > 0; i--) {
        part[i - 1] = (uint8_t)(0xF0 | rest % 10);
        rest /= 10;
    }
    unsigned sign = number < 0 ? 0xD0 : 0xC0;
    part[width - 1] = (uint8_t)(sign | (part[width - 1] & 0xF));
}

static void write_packed(int64_t number, uint8_t *part, size_t width)
{
    uint64_t rest = (uint64_t)(number < 0 ? -number : number);
    unsigned sign = number < 0 ? 0xD : 0xC;
    part[width - 1] = (uint8_t)(rest % 10 << 4 | sign);
    rest /= 10;
    for (size_t i = width - 1; i > 0; i--) {
        unsigned two = (unsigned)(rest % 100);
        part[i - 1] = (uint8_t)(two / 10 << 4 | two % 10);
        rest /= 100;
    }
}

static void write_binary(int64_t number, uint8_t *part, size_t width)
{
    uint64_t rest = (uint64_t)number;
    for (size_t i = width; i > 0; i--) {
        part[i - 1] = (uint8_t)rest;
        rest >>= 8;
    }
}

uint8_t plain_read(uint8_t letter, uint8_t size, const uint8_t *part,
                   size_t length, int64_t *number)
{
    size_t width = width_of(letter, size);
    if (width == 0)
        return LACKING;
    if (length != width)
        return WRONG_WIDTH;
    switch (letter) {
    case 'z':
        return read_zoned(part, width, number);
    case 'p':
        return read_packed(part, width, size, number);
    default:
        return read_binary(part, width, letter == 'b', number);
    }
}

uint8_t plain_write(uint8_t letter, uint8_t size, int64_t number,
                    uint8_t *part, size_t length)
{
    size_t width = width_of(letter, size);
    if (width == 0)
        return LACKING;
    if (length != width)
        return WRONG_WIDTH;
    if (!holds(letter, size, number))
        return OUT_OF_RANGE;
    switch (letter) {
    case 'z':
        write_zoned(number, part, width);
        break;
    case 'p':
        write_packed(number, part, width);
        break;
    default:
        write_binary(number, part, width);
        break;
    }
    return DONE;
}
