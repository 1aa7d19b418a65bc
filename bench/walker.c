/* A careful plain C reader of one data set in Explicit VR Little Endian: the header checks of document 01
   in their order, one row of numbers for each element and item. See walker.h. */

#include "walker.h"

#include <string.h>

#define ALWAYS_INLINE static inline __attribute__((always_inline))
#define UNLIKELY(x) __builtin_expect((x), 0)

#define SIZE_LIMIT 1073741824u
#define UNDEFINED 0xFFFFFFFFu
#define ITEM 0xFFFEE000u
#define ITEM_END 0xFFFEE00Du
#define SEQUENCE_END 0xFFFEE0DDu
#define DEPTH_LIMIT 8

/* A tag as its four bytes read as one little-endian number. */
#define SWAPPED(tag) ((tag) << 16 | (tag) >> 16)

/* A VR: its two letters as in the bytes, read as a little-endian number. */
#define VR(a, b) ((a) | (b) << 8)

enum { NOT_LISTED, SHORT_FORM, LONG_FORM, SEQUENCE };

/* Only the few cache lines of the letters in use are ever touched. */
static const uint8_t vr_form[65536] = {
    [VR('A', 'E')] = SHORT_FORM, [VR('A', 'S')] = SHORT_FORM, [VR('A', 'T')] = SHORT_FORM,
    [VR('C', 'S')] = SHORT_FORM, [VR('D', 'A')] = SHORT_FORM, [VR('D', 'S')] = SHORT_FORM,
    [VR('D', 'T')] = SHORT_FORM, [VR('F', 'D')] = SHORT_FORM, [VR('F', 'L')] = SHORT_FORM,
    [VR('I', 'S')] = SHORT_FORM, [VR('L', 'O')] = SHORT_FORM, [VR('L', 'T')] = SHORT_FORM,
    [VR('P', 'N')] = SHORT_FORM, [VR('S', 'H')] = SHORT_FORM, [VR('S', 'L')] = SHORT_FORM,
    [VR('S', 'S')] = SHORT_FORM, [VR('S', 'T')] = SHORT_FORM, [VR('T', 'M')] = SHORT_FORM,
    [VR('U', 'I')] = SHORT_FORM, [VR('U', 'L')] = SHORT_FORM, [VR('U', 'S')] = SHORT_FORM,
    [VR('O', 'B')] = LONG_FORM,  [VR('O', 'D')] = LONG_FORM,  [VR('O', 'F')] = LONG_FORM,
    [VR('O', 'L')] = LONG_FORM,  [VR('O', 'V')] = LONG_FORM,  [VR('O', 'W')] = LONG_FORM,
    [VR('S', 'V')] = LONG_FORM,  [VR('U', 'C')] = LONG_FORM,  [VR('U', 'N')] = LONG_FORM,
    [VR('U', 'R')] = LONG_FORM,  [VR('U', 'T')] = LONG_FORM,  [VR('U', 'V')] = LONG_FORM,
    [VR('S', 'Q')] = SEQUENCE,
};

/* What is put aside of a container when a sequence or an item opens in it. */
typedef struct {
    const uint8_t *end;  /* its innermost known end */
    uint32_t *row;       /* its row, for the rows below it; unused while counting */
    uint32_t number;     /* the number of that row, counted from 1; 0 for the root */
    uint64_t least;      /* the lowest tag that may follow; unused among items */
    int open;            /* its length is undefined */
} level;

ALWAYS_INLINE uint64_t load64(const uint8_t *p)
{
    uint64_t w;
    memcpy(&w, p, 8);
    return w;
}

ALWAYS_INLINE uint32_t load32(const uint8_t *p)
{
    uint32_t w;
    memcpy(&w, p, 4);
    return w;
}

/* A row with nothing below it so far, two numbers to a store. */
ALWAYS_INLINE void store(uint32_t *row, uint32_t tag, uint32_t vr, uint32_t depth, uint32_t start, uint32_t length,
                         uint32_t parent)
{
    uint64_t first = tag | (uint64_t)vr << 32, second = depth | (uint64_t)start << 32, third = length;
    memcpy(row, &first, 8);
    memcpy(row + 2, &second, 8);
    memcpy(row + 4, &third, 8);
    row[6] = parent;
}

/* Leaves a sequence or an item: the container around it is the current one again. `least` is only needed among elements. */
#define LEAVE()                      \
    do {                             \
        if (fill)                    \
            row[5] = count - number; \
        top--;                       \
        end = top->end;              \
        row = top->row;              \
        number = top->number;        \
        open = top->open;            \
    } while (0)

/* One walk over all headers. `fill` and `check` are constants at each call, so that each pass is compiled apart.
   Two loops, one among elements and one among items, hand over to each other. Kept in registers are the place `at`,
   the container's `end`, `open`, `row` and `number`, the lowest tag that may follow, the place of the next row, and how
   many rows there are so far. */
ALWAYS_INLINE walk_answer pass(const uint8_t *data, uint32_t size, uint32_t *rows, int fill, int check)
{
    level outer[2 * DEPTH_LIMIT + 1];
    level *top = outer;                      /* the first free one; depth is half of how many are put aside */
    const uint8_t *at = data, *end = data + size;
    uint32_t *row = rows, *next = rows;
    uint32_t count = 0, number = 0, code;
    uint64_t least = 0;
    int open = 0;

elements:
    for (;;) {
        size_t left = (size_t)(end - at);
        if (left < 8 && (check || left == 0)) {
            if (left != 0 || open) {
                code = 1;
                goto refuse;
            }
            if (top == outer)
                return (walk_answer){0, 0, count};
            goto close_item;
        }
        uint64_t head = load64(at);
        uint32_t tag = (uint32_t)head << 16 | (uint32_t)head >> 16;
        if ((head & 0xFFFF) == 0xFFFE) {
            if (!check || (tag == ITEM_END && open && head >> 32 == 0)) {
                if (fill)
                    row[4] = (uint32_t)(at - data) - row[3];
                at += 8;
                goto close_item;
            }
            code = 5;
            goto refuse;
        }
        if (check) {
            if (UNLIKELY(tag < least)) {
                code = 2;
                goto refuse;
            }
            least = (uint64_t)tag + 1;
        }
        uint16_t letters = (uint16_t)(head >> 32);
        unsigned form = vr_form[letters];
        if (form == SHORT_FORM) {
            uint32_t length = (uint32_t)(head >> 48);
            if (check && UNLIKELY(length & 1)) {
                code = 4;
                goto refuse;
            }
            if (check && UNLIKELY(length > left - 8)) {
                code = 1;
                goto refuse;
            }
            at += 8;
            if (fill) {
                store(next, tag, __builtin_bswap16(letters), (uint32_t)(top - outer) / 2, (uint32_t)(at - data), length,
                      number);
                next += ROW_NUMBERS;
            }
            count++;
            at += length;
            continue;
        }
        if (check) {
            if (UNLIKELY(form == NOT_LISTED)) {
                code = 3;
                goto refuse;
            }
            if (UNLIKELY(left < 12)) {
                code = 1;
                goto refuse;
            }
            if (UNLIKELY(head >> 48 != 0)) {
                code = 5;
                goto refuse;
            }
        }
        uint32_t length = load32(at + 8);
        if (check) {
            if (length == UNDEFINED) {
                if (UNLIKELY(form != SEQUENCE)) {
                    code = 5;
                    goto refuse;
                }
            } else {
                if (UNLIKELY(length & 1)) {
                    code = 4;
                    goto refuse;
                }
                if (UNLIKELY(length > left - 12)) {
                    code = 1;
                    goto refuse;
                }
            }
            if (UNLIKELY(form == SEQUENCE && top == outer + 2 * DEPTH_LIMIT)) {
                code = 6;
                goto refuse;
            }
        }
        at += 12;
        if (fill)
            store(next, tag, __builtin_bswap16(letters), (uint32_t)(top - outer) / 2, (uint32_t)(at - data), length,
                  number);
        if (form != SEQUENCE) {
            count++;
            if (fill)
                next += ROW_NUMBERS;
            at += length;
            continue;
        }
        *top++ = (level){end, row, number, least, open};
        open = length == UNDEFINED;
        if (!open)
            end = at + length;
        row = next;
        number = ++count;
        if (fill)
            next += ROW_NUMBERS;
        goto items;
    }

items:
    for (;;) {
        size_t left = (size_t)(end - at);
        if (left < 8 && (check || left == 0)) {
            if (left != 0 || open) {
                code = 1;
                goto refuse;
            }
            break;
        }
        uint64_t head = load64(at);
        uint32_t length = (uint32_t)(head >> 32);
        if ((uint32_t)head != SWAPPED(ITEM)) {
            if (!check || ((uint32_t)head == SWAPPED(SEQUENCE_END) && open && length == 0)) {
                if (fill)
                    row[4] = (uint32_t)(at - data) - row[3];
                at += 8;
                break;
            }
            code = 5;
            goto refuse;
        }
        if (check && length != UNDEFINED) {
            if (UNLIKELY(length & 1)) {
                code = 4;
                goto refuse;
            }
            if (UNLIKELY(length > left - 8)) {
                code = 1;
                goto refuse;
            }
        }
        at += 8;
        if (fill)
            store(next, ITEM, 0, (uint32_t)(top - outer + 1) / 2, (uint32_t)(at - data), length, number);
        *top++ = (level){end, row, number, 0, open};
        open = length == UNDEFINED;
        if (!open)
            end = at + length;
        least = 0;
        row = next;
        number = ++count;
        if (fill)
            next += ROW_NUMBERS;
        goto elements;
    }

    /* The sequence closes: back among the elements around it. */
    LEAVE();
    least = top->least;
    goto elements;

close_item:
    LEAVE();
    goto items;

refuse:
    return (walk_answer){code, (uint32_t)(at - data), 0};
}

static __attribute__((noinline)) walk_answer count_pass(const uint8_t *data, uint32_t size)
{
    return pass(data, size, NULL, 0, 1);
}

static __attribute__((noinline)) walk_answer fill_pass(const uint8_t *data, uint32_t size, uint32_t *rows)
{
    return pass(data, size, rows, 1, 1);
}

static __attribute__((noinline)) walk_answer trusting_pass(const uint8_t *data, uint32_t size, uint32_t *rows)
{
    return pass(data, size, rows, 1, 0);
}

typedef walk_answer second_pass(const uint8_t *data, uint32_t size, uint32_t *rows);

ALWAYS_INLINE walk_answer both_passes(const uint8_t *data, size_t size, uint32_t *rows, size_t rows_len,
                                      second_pass *second)
{
    if (size > SIZE_LIMIT)
        return (walk_answer){7, 0, 0};
    walk_answer counted = count_pass(data, (uint32_t)size);
    if (counted.code != 0)
        return counted;
    if (rows_len / ROW_NUMBERS < counted.rows)
        return (walk_answer){8, 0, 0};
    return second(data, (uint32_t)size, rows);
}

walk_answer walk(const uint8_t *data, size_t size, uint32_t *rows, size_t rows_len)
{
    return both_passes(data, size, rows, rows_len, fill_pass);
}

walk_answer walk_trusting(const uint8_t *data, size_t size, uint32_t *rows, size_t rows_len)
{
    return both_passes(data, size, rows, rows_len, trusting_pass);
}
