/*
 * Number forms: reading and writing fixed-width number fields.
 *
 * A form is a letter and a size.
 *
 *   letter        size            width in bytes   numbers held
 *   'z' zoned     1..15 digits    size             -(10^size - 1) .. 10^size - 1
 *   'p' packed    1..15 digits    size / 2 + 1     -(10^size - 1) .. 10^size - 1
 *   'b' signed    2 or 4 bytes    size             -2^(8*size-1) .. 2^(8*size-1) - 1
 *   'n' unsigned  2 or 4 bytes    size             0 .. 2^(8*size) - 1
 *
 * Packed: two digits a byte, the sign in the last half byte; with an even
 * size the first half byte is spare and 0. Zoned: a digit in each low half,
 * the sign in the last byte's high half; the other high halves are hex F when
 * written and are not looked at when read. Sign halves A, C, E and F are plus,
 * B and D minus; C is written for zero and above, D below zero. Binary: the
 * highest byte first, 'b' in two's complement.
 *
 * Letters are the ASCII codes of the small letters, as 'z'.
 *
 * Neither function allocates, keeps state or uses globals, so both may be
 * called from any number of threads at once.
 */
#ifndef SULBORYQ_H
#define SULBORYQ_H

#include <stddef.h>
#include <stdint.h>

#ifdef __cplusplus
extern "C" {
#endif

/* What a call answers. Where several refusals apply, the lowest is given. */
enum {
    SULBORYQ_DONE = 0,
    SULBORYQ_LACKING = 1,      /* there is no form of that letter and size */
    SULBORYQ_WRONG_WIDTH = 2,  /* length is not the form's width */
    SULBORYQ_OUT_OF_RANGE = 3, /* write: the form does not hold the number */
    SULBORYQ_NO_VALUE = 4      /* read: the bytes stand for no number */
};

/*
 * Reads the number that part[0 .. length) stands for.
 *
 *   letter, size  the form
 *   part          the field; it must not be null and must have length bytes
 *   length        its length in bytes, which has to be the form's width
 *   number        where the number goes; it must not be null
 *
 * Answers SULBORYQ_DONE, and has then stored the number in *number; or
 * SULBORYQ_LACKING, SULBORYQ_WRONG_WIDTH or SULBORYQ_NO_VALUE, and has then
 * left *number as it was. Reading accepts every image that writing makes, and
 * others: alternate sign halves, any zones, a zero with a minus sign.
 */
uint8_t sulboryq_read(uint8_t letter, uint8_t size, const uint8_t *part,
                      size_t length, int64_t *number);

/*
 * Writes a number's image into part[0 .. length).
 *
 *   letter, size  the form
 *   number        the number to write
 *   part          the field; it must not be null and must have length bytes
 *   length        its length in bytes, which has to be the form's width
 *
 * Answers SULBORYQ_DONE, and has then written every byte of the part; or
 * SULBORYQ_LACKING, SULBORYQ_WRONG_WIDTH or SULBORYQ_OUT_OF_RANGE, and has
 * then left every byte as it was. What is written reads back as the number.
 */
uint8_t sulboryq_write(uint8_t letter, uint8_t size, int64_t number,
                       uint8_t *part, size_t length);

#ifdef __cplusplus
}
#endif

#endif
