/* A tuned plain C drawing of one frame, the yardstick for the library's `show`. */
#ifndef DRAW_H
#define DRAW_H

#include <stddef.h>
#include <stdint.h>

enum { MASK_LIMIT = 64 };

/* Everything that a frame of 16-bit samples is drawn from. Frame numbers start at 1. */
typedef struct {
    const uint8_t *pixels;
    size_t height, width;
    unsigned stored;                 /* Bits Stored, 9 to 16 */
    uint32_t frame;
    unsigned masks;                  /* mask frames to be averaged, 1 to MASK_LIMIT */
    uint32_t mask[MASK_LIMIT];
    int32_t vertical, horizontal;    /* in quarters, -256 to 256 */
    int64_t centre, window;          /* in thousandths, enough for the windows of these objects */
    int inverse;                     /* MONOCHROME1 */
} picture;

/* Fills height * width bytes. `table` has room for 131,072 bytes, `lines` for 3 * width numbers. */
void draw(const picture *p, uint8_t *image, uint8_t *table, uint32_t *lines);

#endif
