/* What a masked frame (AVG_SUB) of 16-bit samples is drawn from, taken out of the rows of a data set. */
#ifndef PLAN_H
#define PLAN_H

#include "common.h"
#include "draw.h"
#include "walker.h"

static const uint8_t *data;
static uint32_t *rows;
static uint32_t row_count;

enum { NONE = 0xFFFFFFFF };

/* The row of a tag among the elements that start at row `at` and end before row `end`; NONE where it isn't. */
static uint32_t among(uint32_t at, uint32_t end, uint32_t tag)
{
    for (; at < end; at += 1 + rows[ROW_NUMBERS * at + 5])
        if (rows[ROW_NUMBERS * at] == tag)
            return at;
    return NONE;
}

static uint32_t in_root(uint32_t tag)
{
    uint32_t found = among(0, row_count, tag);
    if (found == NONE)
        stop("an element is missing", "drawing");
    return found;
}

/* Item `number`, from 1 on, of the sequence at row `sequence`. */
static uint32_t item(uint32_t sequence, uint32_t number)
{
    uint32_t at = sequence + 1, end = at + rows[ROW_NUMBERS * sequence + 5];
    for (; number > 1 && at < end; number--)
        at += 1 + rows[ROW_NUMBERS * at + 5];
    if (at >= end)
        stop("an item is missing", "drawing");
    return at;
}

static uint32_t in_item(uint32_t at, uint32_t tag)
{
    uint32_t found = among(at + 1, at + 1 + rows[ROW_NUMBERS * at + 5], tag);
    if (found == NONE)
        stop("an element is missing", "drawing");
    return found;
}

static const uint8_t *value(uint32_t row)
{
    return data + rows[ROW_NUMBERS * row + 3];
}

static uint16_t us(uint32_t row, uint32_t index)
{
    uint16_t number;
    memcpy(&number, value(row) + 2 * index, 2);
    return number;
}

static float fl(uint32_t row, uint32_t index)
{
    float number;
    memcpy(&number, value(row) + 4 * index, 4);
    return number;
}

/* The first value of a DS element, in thousandths: the windows of these objects have at most three decimals. */
static int64_t thousandths(uint32_t row)
{
    char text[32] = {0};
    uint32_t length = rows[ROW_NUMBERS * row + 4];
    memcpy(text, value(row), length < 31 ? length : 31);
    double number = strtod(text, NULL) * 1000;
    return (int64_t)(number < 0 ? number - 0.5 : number + 0.5);
}

static picture plan(uint32_t frame)
{
    picture p = {0};
    uint32_t mask = item(in_root(0x00286100), 1);
    uint32_t groups = item(in_root(0x52009230), frame);
    uint32_t numbers = in_item(mask, 0x00286110);
    uint32_t shift = in_item(item(in_item(groups, 0x00289415), 1), 0x00286114);
    uint32_t voi = item(in_item(groups, 0x00289132), 1);
    p.pixels = value(in_root(0x7FE00010));
    p.height = us(in_root(0x00280010), 0);
    p.width = us(in_root(0x00280011), 0);
    p.stored = us(in_root(0x00280101), 0);
    p.frame = frame;
    p.masks = rows[ROW_NUMBERS * numbers + 4] / 2;
    if (p.masks > MASK_LIMIT || us(in_root(0x00280100), 0) != 16)
        stop("not an object for this benchmark", "drawing");
    for (unsigned k = 0; k < p.masks; k++)
        p.mask[k] = us(numbers, k);
    p.vertical = (int32_t)(4 * fl(shift, 0));
    p.horizontal = (int32_t)(4 * fl(shift, 1));
    p.centre = thousandths(in_item(voi, 0x00281050));
    p.window = thousandths(in_item(voi, 0x00281051));
    p.inverse = memcmp(value(in_root(0x00280004)), "MONOCHROME1", 11) == 0;
    return p;
}

#endif
