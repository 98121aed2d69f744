/*
 * Checks the library from C, through its header alone. Every expected image
 * and number is worked out here, from the printed digits of the number or from
 * the hex text of the bytes, and none comes from the library.
 */
#include "sulboryq.h"

#include <ctype.h>
#include <inttypes.h>
#include <stdbool.h>
#include <stdio.h>
#include <string.h>

enum {
    MOST_DIGITS = 15,
    WIDEST = 16,
    GUARD = 16,          /* bytes on each side of a part, never to change */
    LONGEST = 32,        /* the longest part that is tried */
    ROOM = GUARD + LONGEST + GUARD,
    FILL = 0xA5,
    SHOWN_FAILURES = 20
};

static const int64_t UNTOUCHED = INT64_C(-7777777777777777);

static unsigned long checks;
static unsigned long failures;

/* A form and what it is known to hold. */
struct form {
    uint8_t letter;
    uint8_t size;
    size_t width;
    int64_t low;
    int64_t high;
};

static void check(bool holds, const char *what, uint8_t letter, uint8_t size,
                  int64_t number, const uint8_t *part, size_t length)
{
    checks++;
    if (holds)
        return;
    failures++;
    if (failures > SHOWN_FAILURES)
        return;
    printf("failed: %s: letter %u (%c) size %u number %" PRId64 " length %zu bytes",
           what, letter, isprint(letter) ? letter : '?', size, number, length);
    for (size_t i = 0; i < length; i++)
        printf(" %02X", part[i]);
    printf("\n");
}

static int64_t power(int64_t base, unsigned exponent)
{
    int64_t product = 1;
    for (unsigned i = 0; i < exponent; i++)
        product *= base;
    return product;
}

/* ---- The forms, and what is expected of them ---- */

static bool find_form(uint8_t letter, uint8_t size, struct form *form)
{
    bool decimal = letter == 'z' || letter == 'p';
    bool binary = letter == 'b' || letter == 'n';
    if (decimal && (size < 1 || size > MOST_DIGITS))
        return false;
    if (binary && size != 2 && size != 4)
        return false;
    if (!decimal && !binary)
        return false;
    form->letter = letter;
    form->size = size;
    form->width = letter == 'p' ? size / 2u + 1 : size;
    if (decimal) {
        form->high = power(10, size) - 1;
        form->low = -form->high;
    } else if (letter == 'b') {
        form->high = power(2, 8u * size - 1) - 1;
        form->low = -form->high - 1;
    } else {
        form->high = power(2, 8u * size) - 1;
        form->low = 0;
    }
    return true;
}

static uint64_t magnitude(int64_t number)
{
    return number < 0 ? 0 - (uint64_t)number : (uint64_t)number;
}

static void bytes_of_hex(const char *hex, uint8_t *bytes)
{
    for (; *hex != '\0'; hex += 2) {
        unsigned byte = 0;
        sscanf(hex, "%2x", &byte);
        *bytes++ = (uint8_t)byte;
    }
}

/* The image as hex text, laid out from the number's printed digits. */
static void image_of(const struct form *form, int64_t number, uint8_t *image)
{
    char sign = number < 0 ? 'D' : 'C';
    char digits[32];
    char hex[2 * WIDEST + 1];
    if (form->letter == 'p') {
        snprintf(hex, sizeof hex, "%0*" PRIu64 "%c", (int)(2 * form->width - 1),
                 magnitude(number), sign);
    } else if (form->letter == 'z') {
        snprintf(digits, sizeof digits, "%0*" PRIu64, (int)form->width,
                 magnitude(number));
        for (size_t i = 0; i < form->width; i++) {
            hex[2 * i] = i + 1 == form->width ? sign : 'F';
            hex[2 * i + 1] = digits[i];
        }
        hex[2 * form->width] = '\0';
    } else {
        uint64_t whole = (uint64_t)power(2, 8u * form->size);
        uint64_t bits = number < 0 ? whole - magnitude(number) : (uint64_t)number;
        snprintf(hex, sizeof hex, "%0*" PRIX64, (int)(2 * form->width), bits);
    }
    bytes_of_hex(hex, image);
}

/* Reads the decimal digits and the sign out of a string of half bytes. */
static bool decimal_value(const char *digits, char sign, int64_t *number)
{
    int64_t value = 0;
    for (; *digits != '\0'; digits++) {
        if (*digits < '0' || *digits > '9')
            return false;
        value = 10 * value + (*digits - '0');
    }
    if (strchr("ABCDEF", sign) == NULL)
        return false;
    *number = strchr("BD", sign) != NULL ? -value : value;
    return true;
}

/* The number that a part of the form's width stands for, if any. */
static bool value_of(const struct form *form, const uint8_t *part, int64_t *number)
{
    char hex[2 * WIDEST + 1];
    char digits[2 * WIDEST + 1];
    size_t width = form->width;
    for (size_t i = 0; i < width; i++)
        snprintf(hex + 2 * i, 3, "%02X", part[i]);
    if (form->letter == 'p') {
        if (form->size % 2 == 0 && hex[0] != '0')
            return false;
        snprintf(digits, sizeof digits, "%.*s", (int)(2 * width - 1), hex);
        return decimal_value(digits, hex[2 * width - 1], number);
    }
    if (form->letter == 'z') {
        for (size_t i = 0; i < width; i++)
            digits[i] = hex[2 * i + 1];
        digits[width] = '\0';
        return decimal_value(digits, hex[2 * width - 2], number);
    }
    uint64_t bits = 0;
    sscanf(hex, "%" SCNx64, &bits);
    *number = (int64_t)bits;
    if (form->letter == 'b' && *number > form->high)
        *number -= power(2, 8u * form->size);
    return true;
}

/* ---- One call, with what it must answer and leave ---- */

static bool guards_stand(const uint8_t *room, size_t length)
{
    for (size_t i = 0; i < ROOM; i++) {
        bool in_part = i >= GUARD && i < GUARD + length;
        if (!in_part && room[i] != FILL)
            return false;
    }
    return true;
}

static void expect_write(const struct form *form, int64_t number, const uint8_t *image)
{
    uint8_t room[ROOM];
    uint8_t *part = room + GUARD;
    memset(room, FILL, sizeof room);
    uint8_t answer = sulboryq_write(form->letter, form->size, number, part, form->width);
    bool right = answer == SULBORYQ_DONE && memcmp(part, image, form->width) == 0;
    check(right && guards_stand(room, form->width), "write", form->letter,
          form->size, number, part, form->width);
}

static void expect_read(const struct form *form, const uint8_t *bytes, int64_t number)
{
    uint8_t room[ROOM];
    uint8_t *part = room + GUARD;
    int64_t got = UNTOUCHED;
    memset(room, FILL, sizeof room);
    memcpy(part, bytes, form->width);
    uint8_t answer = sulboryq_read(form->letter, form->size, part, form->width, &got);
    bool kept = memcmp(part, bytes, form->width) == 0 && guards_stand(room, form->width);
    check(answer == SULBORYQ_DONE && got == number && kept, "read",
          form->letter, form->size, number, part, form->width);
}

static void expect_write_refused(uint8_t letter, uint8_t size, int64_t number,
                                 size_t length, uint8_t refusal)
{
    uint8_t room[ROOM];
    uint8_t *part = room + GUARD;
    memset(room, FILL, sizeof room);
    uint8_t answer = sulboryq_write(letter, size, number, part, length);
    check(answer == refusal && guards_stand(room, 0), "refused write", letter,
          size, number, part, length);
}

static void expect_read_refused(uint8_t letter, uint8_t size, const uint8_t *bytes,
                                size_t length, uint8_t refusal)
{
    uint8_t room[ROOM];
    uint8_t *part = room + GUARD;
    int64_t got = UNTOUCHED;
    memset(room, FILL, sizeof room);
    memcpy(part, bytes, length);
    uint8_t answer = sulboryq_read(letter, size, part, length, &got);
    bool kept = memcmp(part, bytes, length) == 0 && guards_stand(room, length);
    check(answer == refusal && got == UNTOUCHED && kept, "refused read", letter,
          size, got, part, length);
}

/* Written as its image and read back, or refused, as the range has it. */
static void try_number(const struct form *form, int64_t number)
{
    uint8_t image[WIDEST];
    if (number < form->low || number > form->high) {
        expect_write_refused(form->letter, form->size, number, form->width,
                             SULBORYQ_OUT_OF_RANGE);
        return;
    }
    image_of(form, number, image);
    expect_write(form, number, image);
    expect_read(form, image, number);
}

/* Read as its number, or refused for want of one. */
static void try_bytes(const struct form *form, const uint8_t *bytes)
{
    int64_t number = 0;
    if (value_of(form, bytes, &number))
        expect_read(form, bytes, number);
    else
        expect_read_refused(form->letter, form->size, bytes, form->width,
                            SULBORYQ_NO_VALUE);
}

/* ---- The checks ---- */

static void check_numbers(const struct form *form)
{
    static const int64_t small[] = {0, 1, -1, 9, -9};
    for (size_t i = 0; i < sizeof small / sizeof small[0]; i++)
        try_number(form, small[i]);
    try_number(form, form->low);
    try_number(form, form->high);
    try_number(form, form->low - 1);
    try_number(form, form->high + 1);
    try_number(form, INT64_MIN);
    try_number(form, INT64_MIN + 1);
    try_number(form, INT64_MAX);
}

/* Numbers of every digit count: 10..0, 99..9 and 12..5, of both signs. */
static void check_digit_counts(const struct form *form)
{
    const int64_t counting = INT64_C(123456789012345);
    for (unsigned count = 1; count <= MOST_DIGITS + 1; count++) {
        int64_t least = power(10, count - 1);
        int64_t most = 10 * least - 1;
        int64_t mixed = counting / power(10, count < MOST_DIGITS ? MOST_DIGITS - count : 0);
        try_number(form, least);
        try_number(form, -least);
        try_number(form, most);
        try_number(form, -most);
        try_number(form, mixed);
        try_number(form, -mixed);
    }
}

/* Every other length is refused, before the number or the bytes are looked at. */
static void check_lengths(const struct form *form)
{
    uint8_t bytes[LONGEST];
    memset(bytes, 0, sizeof bytes);
    for (size_t length = 0; length <= LONGEST; length++) {
        if (length == form->width)
            continue;
        expect_write_refused(form->letter, form->size, 0, length, SULBORYQ_WRONG_WIDTH);
        expect_write_refused(form->letter, form->size, INT64_MAX, length,
                             SULBORYQ_WRONG_WIDTH);
        expect_write_refused(form->letter, form->size, INT64_MIN, length,
                             SULBORYQ_WRONG_WIDTH);
        expect_read_refused(form->letter, form->size, bytes, length, SULBORYQ_WRONG_WIDTH);
    }
}

/* Every half byte of a part at each of its 16 values, the others a number's. */
static void check_half_bytes(const struct form *form, int64_t number)
{
    uint8_t image[WIDEST];
    image_of(form, number, image);
    for (size_t half = 0; half < 2 * form->width; half++) {
        for (unsigned value = 0; value < 16; value++) {
            uint8_t bytes[WIDEST];
            memcpy(bytes, image, form->width);
            uint8_t *byte = &bytes[half / 2];
            *byte = (uint8_t)(half % 2 == 0 ? value << 4 | (*byte & 0xF)
                                            : (*byte & 0xF0) | value);
            try_bytes(form, bytes);
        }
    }
}

/* All strings of two bytes, and in binary forms their way back. */
static void check_pairs(uint8_t letter, uint8_t size)
{
    struct form form;
    if (!find_form(letter, size, &form) || form.width != 2) {
        check(false, "a form of two bytes", letter, size, 0, NULL, 0);
        return;
    }
    for (unsigned pair = 0; pair < 65536; pair++) {
        uint8_t bytes[2] = {(uint8_t)(pair >> 8), (uint8_t)pair};
        int64_t number = 0;
        try_bytes(&form, bytes);
        if ((letter == 'b' || letter == 'n') && value_of(&form, bytes, &number))
            expect_write(&form, number, bytes);
    }
}

/* Bytes at random, by a fixed sequence, so that a failure comes again. */
static void check_random_bytes(const struct form *form, unsigned rounds)
{
    uint64_t state = 88172645463325252u;
    for (unsigned round = 0; round < rounds; round++) {
        uint8_t bytes[WIDEST];
        int64_t number = 0;
        for (size_t i = 0; i < form->width; i++) {
            state ^= state << 13;
            state ^= state >> 7;
            state ^= state << 17;
            bytes[i] = (uint8_t)(state >> 32);
        }
        try_bytes(form, bytes);
        if (value_of(form, bytes, &number))
            try_number(form, number);
    }
}

static void check_form(const struct form *form)
{
    bool decimal = form->letter == 'z' || form->letter == 'p';
    check_numbers(form);
    check_lengths(form);
    check_digit_counts(form);
    check_half_bytes(form, 0);
    check_half_bytes(form, form->high);
    check_half_bytes(form, form->low);
    if (!decimal)
        check_random_bytes(form, 20000);
}

/* A letter and size without a form are refused, whatever else is passed. */
static void check_lacking(uint8_t letter, uint8_t size)
{
    static const size_t lengths[] = {0, 1, 2, 3, 4, 8, 15, 16, 17};
    uint8_t bytes[LONGEST];
    memset(bytes, 0xF1, sizeof bytes);
    for (size_t i = 0; i < sizeof lengths / sizeof lengths[0]; i++) {
        expect_read_refused(letter, size, bytes, lengths[i], SULBORYQ_LACKING);
        expect_write_refused(letter, size, 1, lengths[i], SULBORYQ_LACKING);
        expect_write_refused(letter, size, INT64_MIN, lengths[i], SULBORYQ_LACKING);
    }
}

static void check_all_forms(void)
{
    unsigned forms = 0;
    for (unsigned letter = 0; letter < 256; letter++) {
        for (unsigned size = 0; size < 256; size++) {
            struct form form;
            if (find_form((uint8_t)letter, (uint8_t)size, &form)) {
                check_form(&form);
                forms++;
            } else {
                check_lacking((uint8_t)letter, (uint8_t)size);
            }
        }
    }
    check(forms == 34, "34 forms", 0, 0, forms, NULL, 0);
}

/* Images worked by hand. */
static void check_known(void)
{
    static const struct {
        uint8_t letter;
        uint8_t size;
        int64_t number;
        const char *hex;
    } known[] = {
        {'p', 1, 7, "7C"},
        {'p', 1, -7, "7D"},
        {'p', 3, 123, "123C"},
        {'p', 3, -123, "123D"},
        {'p', 3, 0, "000C"},
        {'p', 4, 1234, "01234C"},
        {'p', 14, 25594, "000000000025594C"},
        {'p', 15, 999999999999999, "999999999999999C"},
        {'p', 15, -999999999999999, "999999999999999D"},
        {'z', 1, 0, "C0"},
        {'z', 3, 123, "F1F2C3"},
        {'z', 3, -123, "F1F2D3"},
        {'z', 5, -123, "F0F0F1F2D3"},
        {'z', 15, 1, "F0F0F0F0F0F0F0F0F0F0F0F0F0F0C1"},
        {'b', 2, 32767, "7FFF"},
        {'b', 2, -32768, "8000"},
        {'b', 2, -26, "FFE6"},
        {'b', 4, -2, "FFFFFFFE"},
        {'b', 4, 25594, "000063FA"},
        {'n', 2, 65535, "FFFF"},
        {'n', 4, 2147483648, "80000000"},
        {'n', 4, 4294967295, "FFFFFFFF"},
    };
    for (size_t i = 0; i < sizeof known / sizeof known[0]; i++) {
        struct form form;
        uint8_t bytes[WIDEST];
        bytes_of_hex(known[i].hex, bytes);
        bool there = find_form(known[i].letter, known[i].size, &form);
        check(there, "known form", known[i].letter, known[i].size, 0, NULL, 0);
        if (!there)
            continue;
        expect_write(&form, known[i].number, bytes);
        expect_read(&form, bytes, known[i].number);
    }
}

int main(void)
{
    check_known();
    check_all_forms();
    check_pairs('b', 2);
    check_pairs('n', 2);
    check_pairs('p', 2);
    check_pairs('p', 3);
    check_pairs('z', 2);
    printf("forms from C: %lu checks, %lu failed\n", checks, failures);
    return failures == 0 ? 0 : 1;
}
