/* Steps 1 to 7 of document 01's drawing for AVG_SUB, with Q-4's quarters, as fast as plain C makes them: a level for each x
   in a table, no division in a cell but by 16, rows handled whole, clamped edges outside the inner loop. See draw.h. */

#include "draw.h"

#include <string.h>

static inline uint32_t sample(const uint8_t *line, size_t column)
{
    uint16_t value;
    memcpy(&value, line + 2 * column, 2);
    return value;
}

/* Step 6 and 7 for one x. */
static uint8_t level_of(const picture *p, int64_t x)
{
    int64_t low = 2 * p->centre - p->window, y;
    if (2000 * x <= low)
        y = 0;
    else if (2000 * x > 2 * p->centre + p->window - 2000)
        y = 255;
    else
        y = (255 * (2000 * x - low) + p->window - 1000) / (2 * (p->window - 1000));
    if (y > 255)
        y = 255;
    return (uint8_t)(p->inverse ? 255 - y : y);
}

static const uint8_t *line_of(const picture *p, uint32_t frame, size_t row)
{
    return p->pixels + 2 * p->width * (p->height * (frame - 1) + row);
}

/* floor((2S + n) / 2n) for each column. For numbers below 2^24 and divisors up to 128 the product with
   `factor` = floor(2^31 / 2n) + 1, shifted down by 31, is the exact quotient. */
static void average(const picture *p, size_t row, uint32_t *mean, uint32_t *sums)
{
    const uint32_t bits = (1u << p->stored) - 1, n = p->masks;
    const uint64_t factor = (UINT64_C(1) << 31) / (2 * n) + 1;
    const size_t width = p->width;
    unsigned k = 0;
    memset(sums, 0, width * sizeof *sums);
    for (; k + 4 < n; k += 4) {
        const uint8_t *a = line_of(p, p->mask[k], row), *b = line_of(p, p->mask[k + 1], row);
        const uint8_t *c = line_of(p, p->mask[k + 2], row), *d = line_of(p, p->mask[k + 3], row);
        for (size_t i = 0; i < width; i++)
            sums[i] += (sample(a, i) & bits) + (sample(b, i) & bits) + (sample(c, i) & bits) + (sample(d, i) & bits);
    }
    if (n - k == 4) {
        const uint8_t *a = line_of(p, p->mask[k], row), *b = line_of(p, p->mask[k + 1], row);
        const uint8_t *c = line_of(p, p->mask[k + 2], row), *d = line_of(p, p->mask[k + 3], row);
        for (size_t i = 0; i < width; i++) {
            uint32_t sum = sums[i] + (sample(a, i) & bits) + (sample(b, i) & bits) + (sample(c, i) & bits) +
                           (sample(d, i) & bits);
            mean[i] = (uint32_t)((2 * sum + n) * factor >> 31);
        }
        return;
    }
    for (; k + 1 < n; k++) {
        const uint8_t *a = line_of(p, p->mask[k], row);
        for (size_t i = 0; i < width; i++)
            sums[i] += sample(a, i) & bits;
    }
    const uint8_t *a = line_of(p, p->mask[k], row);
    for (size_t i = 0; i < width; i++)
        mean[i] = (uint32_t)((2 * (sums[i] + (sample(a, i) & bits)) + n) * factor >> 31);
}

static size_t limited(int64_t value, size_t count)
{
    return value < 0 ? 0 : (size_t)value >= count ? count - 1 : (size_t)value;
}

enum { UNIT = 4 };

/* The whole number below a number of quarters. */
static int64_t whole_below(int64_t quarters)
{
    return quarters >= 0 ? quarters / UNIT : -((UNIT - 1 - quarters) / UNIT);
}

/* Whole shifts, by `down` and `right` cells: one mask cell for each cell. */
static void draw_whole(const picture *p, int64_t down, int64_t right, uint8_t *image, const uint8_t *levels, uint32_t *lines)
{
    const uint32_t bits = (1u << p->stored) - 1;
    const size_t width = p->width;
    uint32_t *mean = lines, *sums = lines + width;

    /* Columns before `from` take the mask's first cell, those from `to` on its last, those between cell c - right. */
    const size_t from = limited(right, width + 1);
    size_t to = limited((int64_t)width + right, width + 1);
    if (to < from)
        to = from;

    size_t averaged = SIZE_MAX;
    for (size_t row = 0; row < p->height; row++) {
        size_t source = limited((int64_t)row - down, p->height);
        if (source != averaged)
            average(p, source, mean, sums);
        averaged = source;
        const uint8_t *line = line_of(p, p->frame, row);
        uint8_t *out = image + row * width;
        size_t column = 0;
        for (; column < from; column++)
            out[column] = levels[(int32_t)((sample(line, column) & bits) - mean[0])];
        for (; column < to; column++)
            out[column] = levels[(int32_t)((sample(line, column) & bits) - mean[(int64_t)column - right])];
        for (; column < width; column++)
            out[column] = levels[(int32_t)((sample(line, column) & bits) - mean[width - 1])];
    }
}

/* The blend of four mask cells: columns `left` and `right` of two rows, by weights in sixteenths. */
static inline uint32_t blend(const uint32_t *upper, const uint32_t *lower, size_t left, size_t right, const uint32_t *weights)
{
    return (upper[left] * weights[0] + upper[right] * weights[1] + lower[left] * weights[2] + lower[right] * weights[3] + 8) / 16;
}

/* Any shift: four mask cells for each cell, from two rows of averages. What was the lower row is the upper row of the
   next, so each mask row is averaged once. */
static void draw_quarters(const picture *p, uint8_t *image, const uint8_t *levels, uint32_t *lines)
{
    const uint32_t bits = (1u << p->stored) - 1;
    const size_t width = p->width;
    uint32_t *upper = lines, *lower = lines + width, *sums = lines + 2 * width;
    const int64_t dy = whole_below(-(int64_t)p->vertical), dx = whole_below(-(int64_t)p->horizontal);
    const uint32_t a = (uint32_t)(-p->vertical - UNIT * dy), b = (uint32_t)(-p->horizontal - UNIT * dx);
    const uint32_t weights[4] = {(UNIT - a) * (UNIT - b), (UNIT - a) * b, a * (UNIT - b), a * b};

    /* Columns before `from` and from `to` on have a neighbour beyond an edge. */
    const size_t from = limited(-dx, width + 1);
    size_t to = limited((int64_t)width - 1 - dx, width + 1);
    if (to < from)
        to = from;

    size_t averaged = SIZE_MAX;
    for (size_t row = 0; row < p->height; row++) {
        size_t first = limited((int64_t)row + dy, p->height), second = limited((int64_t)row + dy + 1, p->height);
        if (first == averaged) {
            uint32_t *swapped = upper;
            upper = lower;
            lower = swapped;
        } else {
            average(p, first, upper, sums);
        }
        if (second == first)
            memcpy(lower, upper, width * sizeof *lower);
        else
            average(p, second, lower, sums);
        averaged = second;
        const uint8_t *line = line_of(p, p->frame, row);
        uint8_t *out = image + row * width;
        size_t column = 0;
        for (; column < from; column++) {
            size_t left = limited((int64_t)column + dx, width), right = limited((int64_t)column + dx + 1, width);
            out[column] = levels[(int32_t)((sample(line, column) & bits) - blend(upper, lower, left, right, weights))];
        }
        for (; column < to; column++) {
            size_t left = (size_t)((int64_t)column + dx);
            out[column] = levels[(int32_t)((sample(line, column) & bits) - blend(upper, lower, left, left + 1, weights))];
        }
        for (; column < width; column++) {
            size_t left = limited((int64_t)column + dx, width), right = limited((int64_t)column + dx + 1, width);
            out[column] = levels[(int32_t)((sample(line, column) & bits) - blend(upper, lower, left, right, weights))];
        }
    }
}

void draw(const picture *p, uint8_t *image, uint8_t *table, uint32_t *lines)
{
    /* The place of x in the table is sample - mask + bits, from 0 to 2 * bits. */
    const uint32_t bits = (1u << p->stored) - 1;
    for (uint32_t place = 0; place <= 2 * bits; place++)
        table[place] = level_of(p, (int64_t)place - bits + (INT64_C(1) << (p->stored - 1)));
    if (p->vertical % UNIT == 0 && p->horizontal % UNIT == 0)
        draw_whole(p, p->vertical / UNIT, p->horizontal / UNIT, image, table + bits, lines);
    else
        draw_quarters(p, image, table + bits, lines);
}
