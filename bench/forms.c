/*
 * Times one read and one write of p 15 and z 15, by the library and by plain
 * C, in the same run on the same fields. Both are called across object files
 * and through the same pointer type, so neither is inlined here.
 */
#define _POSIX_C_SOURCE 199309L

#include "plain.h"
#include "sulboryq.h"

#include <stdbool.h>
#include <stdio.h>
#include <string.h>
#include <time.h>

enum { FIELDS = 4096, ROUNDS = 100, REPEATS = 15, SIZE = 15, WIDEST = 16 };

typedef uint8_t reader(uint8_t, uint8_t, const uint8_t *, size_t, int64_t *);
typedef uint8_t writer(uint8_t, uint8_t, int64_t, uint8_t *, size_t);

struct side {
    reader *read;
    writer *write;
};

static const struct side library = {sulboryq_read, sulboryq_write};
static const struct side plain = {plain_read, plain_write};

static int64_t numbers[FIELDS];
static uint8_t parts[FIELDS][WIDEST];
static uint8_t scratch[FIELDS][WIDEST];

/* Where results go, so that no call can be left out. */
static volatile uint64_t sink;

static double now(void)
{
    struct timespec t;
    clock_gettime(CLOCK_MONOTONIC, &t);
    return 1e9 * (double)t.tv_sec + (double)t.tv_nsec;
}

/* Magnitudes of 1 to 15 digits in turn, of both signs, by a fixed sequence. */
static void fill_numbers(void)
{
    uint64_t state = 88172645463325252u;
    uint64_t limit = 1;
    for (size_t i = 0; i < FIELDS; i++) {
        state ^= state << 13;
        state ^= state >> 7;
        state ^= state << 17;
        limit = i % SIZE == 0 ? 10 : 10 * limit;
        int64_t magnitude = (int64_t)(state % limit);
        numbers[i] = state >> 63 ? -magnitude : magnitude;
    }
}

static double time_reads(const struct side *side, uint8_t letter, size_t width)
{
    uint64_t sum = 0;
    double start = now();
    for (int round = 0; round < ROUNDS; round++) {
        for (size_t i = 0; i < FIELDS; i++) {
            int64_t number = 0;
            sum += side->read(letter, SIZE, parts[i], width, &number);
            sum += (uint64_t)number;
        }
    }
    double spent = now() - start;
    sink += sum;
    return spent / ROUNDS / FIELDS;
}

static double time_writes(const struct side *side, uint8_t letter, size_t width)
{
    uint64_t sum = 0;
    double start = now();
    for (int round = 0; round < ROUNDS; round++) {
        for (size_t i = 0; i < FIELDS; i++)
            sum += side->write(letter, SIZE, numbers[i], scratch[i], width);
    }
    double spent = now() - start;
    for (size_t i = 0; i < FIELDS; i++)
        sum += scratch[i][i % width];
    sink += sum;
    return spent / ROUNDS / FIELDS;
}

/* Both sides write every field alike and read it back: what is timed is right. */
static bool sides_agree(uint8_t letter, size_t width)
{
    for (size_t i = 0; i < FIELDS; i++) {
        int64_t by_library = 0;
        int64_t by_plain = 0;
        if (sulboryq_write(letter, SIZE, numbers[i], scratch[i], width) != 0)
            return false;
        if (plain_write(letter, SIZE, numbers[i], parts[i], width) != 0)
            return false;
        if (memcmp(scratch[i], parts[i], width) != 0)
            return false;
        if (sulboryq_read(letter, SIZE, parts[i], width, &by_library) != 0)
            return false;
        if (plain_read(letter, SIZE, parts[i], width, &by_plain) != 0)
            return false;
        if (by_library != numbers[i] || by_plain != numbers[i])
            return false;
    }
    return true;
}

typedef double timing(const struct side *, uint8_t, size_t);

/* The best of several turns of each side, taken in alternation. */
static void report(const char *call, timing *timed, uint8_t letter, size_t width)
{
    double best_library = 1e30;
    double best_plain = 1e30;
    for (int repeat = 0; repeat < REPEATS; repeat++) {
        double by_library = timed(&library, letter, width);
        double by_plain = timed(&plain, letter, width);
        best_library = by_library < best_library ? by_library : best_library;
        best_plain = by_plain < best_plain ? by_plain : best_plain;
    }
    printf("%-5s %c %-4d %10.1f %10.1f %8.2f\n", call, letter, SIZE,
           best_library, best_plain, best_library / best_plain);
}

int main(void)
{
    static const struct {
        uint8_t letter;
        size_t width;
    } forms[] = {{'p', 8}, {'z', 15}};
    fill_numbers();
    printf("ns for one call, best of %d\n", REPEATS);
    printf("%-5s %-6s %10s %10s %8s\n", "call", "form", "library", "plain C", "ratio");
    for (size_t i = 0; i < sizeof forms / sizeof forms[0]; i++) {
        if (!sides_agree(forms[i].letter, forms[i].width)) {
            printf("the library and plain C differ at %c %d\n", forms[i].letter, SIZE);
            return 1;
        }
        report("read", time_reads, forms[i].letter, forms[i].width);
        report("write", time_writes, forms[i].letter, forms[i].width);
    }
    return 0;
}
